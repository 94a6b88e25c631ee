/* Of <string.h> what the C of the library uses, as it is on Linux on x86-64 with glibc. */
#ifndef LQ_STRING_H
#define LQ_STRING_H
#include <stddef.h>
extern void *memchr(const void *bytes, int byte, size_t size);
extern int memcmp(const void *bytes, const void *others, size_t size);
extern void *memcpy(void *to, const void *from, size_t size);
extern void *memmove(void *to, const void *from, size_t size);
extern void *memset(void *bytes, int byte, size_t size);
extern char *strchr(const char *text, int byte);
extern int strcmp(const char *text, const char *other);
extern size_t strlen(const char *text);
extern char *strrchr(const char *text, int byte);
#endif
