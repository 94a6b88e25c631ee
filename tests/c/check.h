/* What the tests of the C library share: checks that are counted, texts with their lengths, and replies as lines. */
#ifndef CHECK_H
#define CHECK_H

#include <lq.h>
#include <stdio.h>
#include <stdlib.h>
#include <string.h>

static unsigned long checks, failures;

/* Counts a check, and says where one fails. */
static inline void check(int holds, const char *file, int line, const char *what) {
    checks++;
    if (holds) return;
    failures++;
    fprintf(stderr, "%s:%d: %s\n", file, line, what);
}

#define CHECK(what) check((what) ? 1 : 0, __FILE__, __LINE__, #what)

/* A status that a call has to answer. */
static inline void check_status(uint32_t seen, uint32_t status, const char *file, int line,
                                const char *what) {
    checks++;
    if (seen == status) return;
    failures++;
    fprintf(stderr, "%s:%d: %s answered %u, wanted %u\n", file, line, what, (unsigned)seen,
            (unsigned)status);
}

#define WANT(call, status) check_status((call), (status), __FILE__, __LINE__, #call)
#define OK(call) WANT(call, LQ_OK)

/* An `out` that a refused call has to leave as it was. */
#define POISON(out) memset(&(out), 0x5a, sizeof(out))
static inline bool is_poison(const void *out, size_t size) {
    const unsigned char *bytes = out;
    for (size_t at = 0; at < size; at++)
        if (bytes[at] != 0x5a) return false;
    return true;
}

/* A call that is refused and leaves its `out`. */
#define REFUSED(call, status, out) \
    do { \
        POISON(out); \
        WANT(call, status); \
        CHECK(is_poison(&(out), sizeof(out))); \
    } while (0)

/* Whether a struct has this name, with a NUL after it. */
#define NAMED(it, text) \
    ((it).name_size == sizeof(text) - 1 && memcmp((it).name, (text), sizeof(text)) == 0)

#define TEXT LQ_TEXT

/* The node of an entry that is created. */
static inline uint64_t created(lq *handle, uint64_t dir, const char *name, uint32_t kind,
                               uint64_t size) {
    lq_applied out = {0, 0};
    OK(lq_create(handle, dir, name, strlen(name), kind, size, 941000000, &out));
    return out.node;
}

/* A text that grows; it is never refused memory in these tests. */
typedef struct text {
    char *at;
    size_t size, room;
} text;

static inline void add(text *to, const char *from, size_t size) {
    if (to->size + size > to->room) {
        to->room = 2 * (to->size + size);
        to->at = realloc(to->at, to->room);
        if (!to->at) abort();
    }
    memcpy(to->at + to->size, from, size);
    to->size += size;
}

static inline int is_same(const text *one, const text *other) {
    return one->size == other->size &&
           (one->size == 0 || memcmp(one->at, other->at, one->size) == 0);
}

/* Adds the reply to a line. Where there is none, or a refusal of the line itself, nothing is added. */
static inline lq_status answer(lq *handle, const char *line, size_t line_size, text *to) {
    size_t size = 0;
    lq_status status = lq_answer(handle, line, line_size, &size);
    if (status != LQ_OK || size == 0) return status;
    char *reply = malloc(size);
    if (!reply) abort();
    CHECK(lq_text(handle, reply, size) == size);
    add(to, reply, size);
    free(reply);
    return status;
}

static inline int done(const char *name) {
    printf("%s: %lu checks, %lu failures\n", name, checks, failures);
    return failures != 0;
}

#endif
