/* What goes wrong: it is told, and mended by a look at everything. */
#include "folder.h"

/* The least time until that look, and the most, in milliseconds: it doubles each time that the look goes wrong. */
enum { LEAST_PAUSE = 100, MOST_FOR_MEMORY = 3200, MOST_FOR_CALLS = 51200 };

/* Has everything looked at again; with a `most` of 0 at once. */
static void put_off(folder *f, int64_t most)
{
    trouble *t = &f->trouble;
    t->count++;
    if (t->is_again) return;
    t->is_again = true;
    if (most) t->pause = least(t->pause ? 2 * t->pause : LEAST_PAUSE * MILLISECOND, most * MILLISECOND);
    t->due = now() + (most ? t->pause : 0);
}

void want_memory(folder *f)
{
    f->trouble.no_memory = true;
    put_off(f, MOST_FOR_MEMORY);
}

void want_again(folder *f, int fault)
{
    TRACE("again: errno %d", fault);
    if (fault == ENOMEM) {
        want_memory(f);
        return;
    }
    f->trouble.is_to_tell = true;
    if (fault == EMFILE || fault == ENFILE) f->trouble.fault = fault;
    put_off(f, fault ? MOST_FOR_CALLS : 0);
}
