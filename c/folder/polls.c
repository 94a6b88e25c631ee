/* Folders that tell nothing: they are listed again after a pause. */
#include "folder.h"

enum {
    LEAST_PAUSE = 1000, /* milliseconds */
    PAUSES = 20         /* a pause is that many times as long as the look before it took of the processor */
};

static bool is_asked(const folder *f)
{
    return f->options.poll != 0;
}

/* Lists all that have no watch. */
static void list_polled(folder *f)
{
    for (uint32_t slot = 0; slot < f->entries.used; slot++)
        if (entry_in(f, slot)->node && entry_in(f, slot)->flags & IS_POLLED) list_later(f, slot, false);
}

void poll_begin(folder *f)
{
    polling *p = &f->poll;
    p->has_ended = false;
    if (p->is_under_way || !f->is_listed || (!is_asked(f) && !p->count)) return;
    if (!p->due) p->due = now() + LEAST_PAUSE * MILLISECOND; /* the first one is put off */
    if (now() < p->due) return;
    p->is_under_way = true;
    p->spent = 0;
    if (is_asked(f)) list_later(f, 0, true);
    else list_polled(f);
}

void poll_end(folder *f, int64_t spent, bool has_more)
{
    polling *p = &f->poll;
    if (!p->is_under_way && f->is_listed) return;
    p->spent += spent;
    if (has_more) return;
    int64_t pause = p->spent * PAUSES;
    if (pause < LEAST_PAUSE * MILLISECOND) pause = LEAST_PAUSE * MILLISECOND;
    if (is_asked(f)) pause = (int64_t)f->options.poll * MILLISECOND;
    if (is_asked(f)) close_folders(f); /* nothing else tells that a mount has gone */
    p->due = now() + pause;
    p->has_ended = true;
    p->is_under_way = false;
}
