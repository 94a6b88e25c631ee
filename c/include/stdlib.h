/* Of <stdlib.h> what the C of the library uses, as it is on Linux on x86-64 with glibc. */
#ifndef LQ_STDLIB_H
#define LQ_STDLIB_H
#include <stddef.h>
extern void *malloc(size_t size);
extern void *calloc(size_t count, size_t size);
extern void *realloc(void *memory, size_t size);
extern void free(void *memory);
extern void *bsearch(const void *key, const void *items, size_t count, size_t size,
                     int (*order)(const void *, const void *));
extern void qsort(void *items, size_t count, size_t size, int (*order)(const void *, const void *));
extern char *realpath(const char *path, char *out);
#endif
