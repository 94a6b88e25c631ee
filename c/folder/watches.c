/* The watches of folders: each has its slot by open addressing. A folder that gets none is polled. */
#include "folder.h"

static uint32_t index_of(const entry_table *t, int32_t watch)
{
    uint32_t i = (uint32_t)watch & (t->watch_room - 1);
    while (t->watches[i].watch && t->watches[i].watch != watch) i = (i + 1) & (t->watch_room - 1);
    return i;
}

/* Room for one more; those that were removed go. */
static bool watches_reserve(entry_table *t)
{
    if (t->watch_used * 2 < t->watch_room) return true;
    uint32_t live = 0, room = 64, old_room = t->watch_room;
    watch_place *old = t->watches;
    for (uint32_t i = 0; i < old_room; i++) live += old[i].watch && old[i].slot != NONE;
    while (room < live * 4 + 4) room *= 2;
    watch_place *made = calloc(room, sizeof *made);
    if (!made) return false;
    t->watches = made;
    t->watch_room = room;
    t->watch_used = live;
    for (uint32_t i = 0; i < old_room; i++)
        if (old[i].watch && old[i].slot != NONE) made[index_of(t, old[i].watch)] = old[i];
    free(old);
    return true;
}

static bool watch_set(folder *f, int32_t watch, uint32_t slot)
{
    entry_table *t = &f->entries;
    if (!watches_reserve(t)) return false;
    watch_place *it = &t->watches[index_of(t, watch)];
    t->watch_used += !it->watch;
    *it = (watch_place){.watch = watch, .slot = slot};
    return true;
}

uint32_t slot_of_watch(const folder *f, int32_t watch)
{
    const entry_table *t = &f->entries;
    if (!t->watch_room || watch <= 0) return NONE;
    const watch_place *it = &t->watches[index_of(t, watch)];
    return it->watch ? it->slot : NONE;
}

static void watch_forget(folder *f, int32_t watch)
{
    entry_table *t = &f->entries;
    if (!t->watch_room || watch <= 0) return;
    watch_place *it = &t->watches[index_of(t, watch)];
    if (it->watch) it->slot = NONE;
}

static void set_polled(folder *f, uint32_t slot, bool is_polled)
{
    entry *e = entry_in(f, slot);
    bool was = e->flags & IS_POLLED;
    if (was == is_polled) return;
    e->flags = is_polled ? e->flags | IS_POLLED : e->flags & ~IS_POLLED;
    if (is_polled) f->poll.count++;
    else f->poll.count--;
}

/* The path of a descriptor: so the watch is of the folder that is open, wherever it is by now. */
static int add_watch(folder *f, uint32_t slot, int file)
{
    const uint32_t events = IN_CREATE | IN_DELETE | IN_MOVED_FROM | IN_MOVED_TO | IN_MODIFY | IN_CLOSE_WRITE | IN_ATTRIB
                            | IN_ONLYDIR | (slot ? 0 : IN_MOVE_SELF | IN_DELETE_SELF);
    char path[DESCRIPTOR_ROOM];
    descriptor_path(path, file);
    return inotify_add_watch(f->events, path, events);
}

void watch_begin(folder *f, uint32_t slot, int file)
{
    if (f->options.once || f->events < 0 || entry_in(f, slot)->watch >= 0) return;
    if (is_silent(f, slot, file)) {
        notice_put(f, LQ_NOTICE_NO_EVENTS, slot, NULL, 0);
        set_polled(f, slot, true);
        return;
    }
    int watch = add_watch(f, slot, file);
    if (watch < 0) {
        if (errno == ENOMEM) want_again(f, errno);
        else notice_put(f, LQ_NOTICE_NO_WATCHES, slot, NULL, 0);
        set_polled(f, slot, true);
        return;
    }
    if (!watch_set(f, watch, slot)) {
        inotify_rm_watch(f->events, watch);
        want_memory(f);
        return;
    }
    entry_in(f, slot)->watch = watch;
    set_polled(f, slot, false);
}

void watch_end(folder *f, uint32_t slot)
{
    entry *e = entry_in(f, slot);
    set_polled(f, slot, false);
    if (e->watch < 0 || slot_of_watch(f, e->watch) != slot) return;
    uint32_t twin = first_of_inode(f, e->inode); /* a bind mount shows a folder twice, with one watch */
    while (twin != NONE && (twin == slot || entry_in(f, twin)->watch != e->watch))
        twin = entry_in(f, twin)->next_identity;
    if (twin != NONE) {
        watch_set(f, e->watch, twin); /* its place is there already, so this takes no memory */
        return;
    }
    watch_forget(f, e->watch);
    inotify_rm_watch(f->events, e->watch);
}

void watch_gone(folder *f, uint32_t slot)
{
    int32_t watch = entry_in(f, slot)->watch;
    watch_forget(f, watch);
    for (uint32_t it = first_of_inode(f, entry_in(f, slot)->inode); it != NONE; it = entry_in(f, it)->next_identity)
        if (entry_in(f, it)->watch == watch) entry_in(f, it)->watch = -1;
}
