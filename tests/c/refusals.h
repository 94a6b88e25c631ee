/* Growths of memory that are refused, for a test that decides which: it defines is_refused, before main, and counts in
   `refusals` those that were. The linker puts the calls below in place of malloc, realloc and free, and with
   WRAPS_CALLOC of calloc. `live` is how many blocks there are. */
#ifndef REFUSALS_H
#define REFUSALS_H

#include <stdbool.h>
#include <stddef.h>

void *__real_malloc(size_t size);
void *__real_realloc(void *block, size_t size);
void __real_free(void *block);

static long live;
static unsigned long refusals;

/* Whether this growth is refused. */
static bool is_refused(void);

void *__wrap_malloc(size_t size);
void *__wrap_malloc(size_t size) {
    void *block = is_refused() ? NULL : __real_malloc(size);
    live += block != NULL;
    return block;
}

void *__wrap_realloc(void *block, size_t size);
void *__wrap_realloc(void *block, size_t size) {
    if (is_refused()) return NULL;
    live += block == NULL;
    return __real_realloc(block, size);
}

void __wrap_free(void *block);
void __wrap_free(void *block) {
    live -= block != NULL;
    __real_free(block);
}

#ifdef WRAPS_CALLOC
void *__real_calloc(size_t count, size_t size);
void *__wrap_calloc(size_t count, size_t size);
void *__wrap_calloc(size_t count, size_t size) {
    void *block = is_refused() ? NULL : __real_calloc(count, size);
    live += block != NULL;
    return block;
}
#endif

#endif
