/* The names that are to be looked at. A name stands once however often it is touched, with all that its events said. */
#include "folder.h"

enum { SHRINK_COUNT = 65536, LEAST_COUNT = 256 };

static uint32_t hash_of(uint32_t slot, const char *name, size_t size)
{
    uint32_t hash = 2166136261u ^ slot * 2654435761u;
    for (size_t i = 0; i < size; i++) hash = (hash ^ (unsigned char)name[i]) * 16777619u;
    return hash ^ hash >> 15;
}

static void link_name(pending_set *set, uint32_t i)
{
    uint32_t *head = &set->heads[set->at[i].hash & set->head_mask];
    set->at[i].next = *head;
    *head = i;
}

/* Links all names anew. */
static void link_all(pending_set *set)
{
    if (!set->heads) return;
    memset(set->heads, 0xff, (set->head_mask + 1) * sizeof *set->heads);
    for (uint32_t i = 0; i < set->count; i++) link_name(set, i);
}

static bool reserve(pending_set *set)
{
    if (set->count < set->room) return true;
    uint32_t room = set->room ? set->room * 2 : LEAST_COUNT;
    uint32_t *heads = malloc(2 * room * sizeof *heads);
    pending *at = heads ? realloc(set->at, room * sizeof *at) : NULL;
    if (!at) {
        free(heads);
        return false;
    }
    free(set->heads);
    set->at = at;
    set->room = room;
    set->heads = heads;
    set->head_mask = 2 * room - 1;
    link_all(set);
    return true;
}

static bool reserve_name(pending_set *set, size_t more)
{
    if (set->names_size + more <= set->names_room) return true;
    size_t room = set->names_room ? set->names_room * 2 : 8192;
    while (room < set->names_size + more) room *= 2;
    char *names = realloc(set->names, room);
    if (!names) return false;
    set->names = names;
    set->names_room = room;
    return true;
}

uint32_t pending_find(const folder *f, uint32_t slot, const char *name, size_t size)
{
    const pending_set *set = &f->pending;
    if (!set->count) return NONE;
    uint32_t hash = hash_of(slot, name, size), i = set->heads[hash & set->head_mask];
    for (; i != NONE; i = set->at[i].next) {
        const pending *p = &set->at[i];
        if (p->hash == hash && p->folder == slot && p->size == size && p->node == entry_in(f, slot)->node
            && memcmp(set->names + p->name, name, size) == 0)
            return i;
    }
    return NONE;
}

/* Adds an event to those of a name. Of writes and closes the last one counts. */
static void add_events(pending *p, uint32_t events, uint32_t cookie)
{
    if (!(events & BY_LISTING)) events |= BY_EVENT | (events & IN_MODIFY ? (uint32_t)BEING_WRITTEN : 0);
    if (events & IN_CLOSE_WRITE) p->events &= ~(uint32_t)BEING_WRITTEN;
    if (events & BEING_WRITTEN) p->events &= ~(uint32_t)IN_CLOSE_WRITE;
    p->events |= events;
    if (events & IN_MOVED_FROM) p->cookie = cookie;
}

/* A name that stands already: it is looked at again, but for one that is about to be carried out. */
static void renew(pending *p, uint32_t events, uint32_t cookie)
{
    if (p->state == PENDING_DONE) {
        p->events = 0;
        p->cookie = 0;
        p->until = 0;
    }
    add_events(p, events, cookie);
    if (p->state != PENDING_CHAINED) p->state = PENDING_NEW;
}

bool pending_add(folder *f, uint32_t slot, const char *name, size_t size, uint32_t events, uint32_t cookie)
{
    pending_set *set = &f->pending;
    uint32_t i = pending_find(f, slot, name, size);
    if (i != NONE) {
        renew(&set->at[i], events, cookie);
        return true;
    }
    if (!reserve(set) || !reserve_name(set, size + 1)) {
        want_memory(f);
        return false;
    }
    i = set->count++;
    set->at[i] = (pending){.node = entry_in(f, slot)->node, .folder = slot, .hash = hash_of(slot, name, size),
                           .name = (uint32_t)set->names_size, .size = (uint16_t)size};
    add_events(&set->at[i], events, cookie);
    memcpy(set->names + set->names_size, name, size);
    set->names[set->names_size + size] = 0;
    set->names_size += size + 1;
    link_name(set, i);
    return true;
}

void pending_met(folder *f, uint32_t slot, const char *name, size_t size)
{
    uint32_t i = pending_find(f, slot, name, size);
    if (i != NONE && f->pending.at[i].state == PENDING_ABSENT) f->pending.at[i].state = PENDING_NEW;
}

void pending_index(folder *f)
{
    pending_set *set = &f->pending;
    uint32_t mask = 255;
    free(set->by_inode);
    set->by_inode = NULL;
    if (!set->count) return;
    while (mask < set->count) mask = mask * 2 + 1;
    set->by_inode = malloc((mask + 1) * sizeof *set->by_inode);
    set->inode_mask = mask;
    if (!set->by_inode) { /* then a chain of renames isn't followed, and ends as removals and new entries */
        f->trouble.no_memory = true;
        return;
    }
    memset(set->by_inode, 0xff, (mask + 1) * sizeof *set->by_inode);
    for (uint32_t i = 0; i < set->count; i++) {
        if (set->at[i].state != PENDING_LOOKED) continue;
        uint32_t *head = &set->by_inode[set->at[i].seen.inode & mask];
        set->at[i].next_inode = *head;
        *head = i;
    }
}

void pending_keep(folder *f)
{
    pending_set *set = &f->pending;
    uint32_t kept = 0;
    size_t names = 0;
    for (uint32_t i = 0; i < set->count; i++) {
        pending p = set->at[i];
        if (p.state == PENDING_DONE || !is_entry(f, p.folder, p.node)) continue;
        memmove(set->names + names, set->names + p.name, p.size + 1u);
        p.name = (uint32_t)names;
        names += p.size + 1u;
        set->at[kept++] = p;
    }
    set->count = kept;
    set->names_size = names;
    if (kept == 0 && set->room > SHRINK_COUNT) pending_free(f); /* after a burst */
    link_all(set);
}

void pending_free(folder *f)
{
    free(f->pending.at);
    free(f->pending.heads);
    free(f->pending.by_inode);
    free(f->pending.names);
    f->pending = (pending_set){0};
}
