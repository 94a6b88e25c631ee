/* Looks: at names that events have touched, until what is on disk and the volume agree. */
#include "folder.h"

enum { ROUNDS = 20, HELD_TIME = 5, WAITING_TIME = 200 }; /* times in milliseconds */

/* ---- looking ---- */

/* Whether the write at a name may have been of a file that isn't there any more. With fine times that file says so
   itself, wherever it is met. */
static bool is_of_another(folder *f, const pending *p)
{
    if (p->state != PENDING_LOOKED) return p->state == PENDING_ABSENT;
    if (f->devices[p->seen.device].is_fine) return false;
    uint32_t known = entry_at(f, p->folder, f->pending.names + p->name, p->size);
    if (known == NONE) return true;
    const entry *e = entry_in(f, known);
    return e->inode != p->seen.inode || e->device != p->seen.device || e->born != p->seen.born;
}

static void look_at(folder *f, pending *p)
{
    const char *name = f->pending.names + p->name;
    if (!is_entry(f, p->folder, p->node)) {
        p->state = PENDING_DONE;
        return;
    }
    if (entry_in(f, p->folder)->flags & IS_UNREADABLE) { /* a look sees nothing in it, so an event neither */
        p->state = p->events & BY_LISTING ? PENDING_ABSENT : PENDING_DONE;
        return;
    }
    int file = folder_file(f, p->folder);
    /* a folder above moved, or lost a permission and may have it back: its own event says what holds */
    look_answer answer = file < 0 ? LOOK_FAILED : look(f, file, name, &p->seen);
    p->fault = answer == LOOK_FAILED && (file >= 0 || is_passing(errno)) ? (uint8_t)errno : 0;
    if (p->fault) close_folder(f, p->folder); /* it may be stale */
    TRACE("look in %llu events %x answer %d inode %llu ctime %lld size %llu %.60s", (unsigned long long)p->node,
          p->events, answer, (unsigned long long)p->seen.inode, (long long)p->seen.ctime,
          (unsigned long long)p->seen.size, name);
    p->state = answer == LOOK_THERE ? PENDING_LOOKED : answer == LOOK_FAILED ? PENDING_WAITING : PENDING_ABSENT;
    if (answer == LOOK_DENIED) { /* the folder has lost x: its own event has it listed, and one that gives x back too */
        entry_in(f, p->folder)->flags |= IS_UNREADABLE;
        if (!(p->events & BY_LISTING)) p->state = PENDING_DONE;
    }
    if (p->events & IN_MODIFY && is_of_another(f, p)) f->has_lost_write = true;
}

static void look_at_all(folder *f)
{
    memset(f->carried_out, 0, sizeof f->carried_out);
    for (uint32_t i = 0; i < f->pending.count; i++)
        if (f->pending.at[i].state == PENDING_NEW || f->pending.at[i].state == PENDING_WAITING)
            look_at(f, &f->pending.at[i]);
}

/* ---- carrying out ---- */

/* The pending name to which the entry at this one has moved, as looks say; or NONE. `*known` is that entry, or NONE; 0:
   it wasn't asked for. */
static uint32_t moved_to(folder *f, const pending *p, uint32_t *known)
{
    const pending_set *set = &f->pending;
    *known = 0;
    if (!set->by_inode || !is_entry(f, p->folder, p->node)) return NONE;
    *known = entry_at(f, p->folder, set->names + p->name, p->size);
    if (*known == NONE) return NONE;
    const entry *e = entry_in(f, *known);
    if (e->inode == p->seen.inode && e->device == p->seen.device && e->born == p->seen.born) return NONE;
    for (uint32_t i = set->by_inode[e->inode & set->inode_mask]; i != NONE; i = set->at[i].next_inode) {
        const observed *s = &set->at[i].seen;
        if (set->at[i].state == PENDING_LOOKED && s->inode == e->inode && s->device == e->device && s->born == e->born
            && s->kind == e->kind)
            return i;
    }
    return NONE;
}

static void carry_out(folder *f, uint32_t i, uint32_t known)
{
    pending *p = &f->pending.at[i];
    p->state = PENDING_DONE;
    if (!is_entry(f, p->folder, p->node)) return;
    int file = folder_file(f, p->folder);
    if (file < 0) {
        p->state = PENDING_WAITING;
        return;
    }
    char name[DISK_NAME_ROOM]; /* since the pending names may move */
    memcpy(name, f->pending.names + p->name, p->size + 1u);
    observed seen = p->seen;
    meeting m = {.slot = p->folder, .node = p->node, .name = name, .size = p->size, .seen = &seen, .file = file,
                 .events = p->events, .known = known};
    if (f->lost_cookie && p->cookie == f->lost_cookie) f->lost_cookie = 0;
    p->events = 0;
    p->until = 0;
    f->in_use = file;
    met(f, &m);
    f->in_use = -1;
    windows_looked(f);
}

/* Carries out a name; but where the entry that is in its way has moved to another pending name, that one first. So
   chains and rotations of renames are moves. */
static void carry_out_chain(folder *f, uint32_t i)
{
    pending *at = f->pending.at;
    uint32_t known;
    at[i].before = NONE;
    at[i].state = PENDING_CHAINED;
    for (uint32_t next; (next = moved_to(f, &at[i], &known)) != NONE; i = next) {
        at[next].before = i;
        at[next].state = PENDING_CHAINED;
    }
    while (i != NONE && !is_removing(f)) {
        uint32_t before = f->pending.at[i].before;
        carry_out(f, i, known);
        known = 0; /* that was a change */
        i = before;
    }
}

static void carry_out_all(folder *f)
{
    uint32_t count = f->pending.count;
    pending_index(f);
    for (uint32_t i = 0; i < count && !is_removing(f); i++)
        if (f->pending.at[i].state == PENDING_LOOKED) carry_out_chain(f, i);
    free(f->pending.by_inode);
    f->pending.by_inode = NULL;
}

/* ---- what is absent, and what can't be looked at yet ---- */

/* Whether a name is held for an event that must come, so many milliseconds after the first time. */
static bool is_held(folder *f, pending *p, int64_t limit)
{
    int64_t time = now();
    if (!p->until) p->until = time + limit * MILLISECOND;
    if (time >= p->until) return false;
    f->due = least(f->due, p->until);
    return true;
}

/* Whether the event that says why a name is absent may not have been read: its own, or the other half of a rename. */
static bool is_unexplained(const folder *f, const pending *p)
{
    if (p->events & BY_LISTING) return false;
    if (p->events & IN_MOVED_FROM) return f->lost_cookie && p->cookie == f->lost_cookie;
    return !(p->events & IN_DELETE);
}

/* Removes what is absent; false: it waits. */
static bool end_absent(folder *f, uint32_t i)
{
    pending *p = &f->pending.at[i];
    if (p->state == PENDING_WAITING) {
        if (is_held(f, p, WAITING_TIME)) return false;
        p->state = PENDING_DONE;
        want_again(f, p->fault);
        return true;
    }
    if (p->state != PENDING_ABSENT) return true;
    uint32_t slot =
        is_entry(f, p->folder, p->node) ? entry_at(f, p->folder, f->pending.names + p->name, p->size) : NONE;
    if (slot != NONE && is_unexplained(f, p) && is_held(f, p, HELD_TIME)) return false;
    p->state = PENDING_DONE;
    if (slot == NONE) return true;
    bool is_whole = remove_tree(f, slot);
    windows_looked(f);
    if (!is_whole) f->pending.at[i].state = PENDING_ABSENT; /* the set may have moved */
    return is_whole;
}

/* Only when all else is carried out: so a move is seen at its new place first. */
static void end_all_absent(folder *f)
{
    bool has_lost_write = false; /* in the next turn */
    for (uint32_t i = 0; i < f->pending.count; i++) /* the set may grow meanwhile */
        if (is_removing(f) || !end_absent(f, i)) has_lost_write |= (f->pending.at[i].events & IN_MODIFY) != 0;
    f->has_lost_write = has_lost_write || (f->has_lost_write && is_removing(f));
    pending_keep(f);
}

/* Has all names looked at anew after a removal: what was seen of them before it is old by then. */
static void look_anew(folder *f)
{
    for (uint32_t i = 0; i < f->pending.count; i++)
        if (f->pending.at[i].state != PENDING_DONE) f->pending.at[i].state = PENDING_NEW;
}

static bool has_new_names(const folder *f)
{
    for (uint32_t i = 0; i < f->pending.count; i++)
        if (f->pending.at[i].state == PENDING_NEW) return true;
    return false;
}

bool has_work(const folder *f)
{
    return f->listing.file >= 0 || f->to_list_count || has_missed(f) || is_removing(f) || has_new_names(f);
}

bool settle(folder *f, uint32_t names)
{
    for (int round = 0; round < ROUNDS; round++) {
        look_at_all(f);
        carry_out_all(f);
        names = list_some(f, names);
        if (!is_removing(f)) {
            if (f->listing.file >= 0 || f->to_list_count) return true;
            names = look_at_missed(f, names); /* once all listings have ended, so that what has moved was met */
            if (has_new_names(f)) continue;
            end_all_absent(f);
        }
        if (is_removing(f)) look_anew(f);
        return has_work(f);
    }
    return true; /* what is on disk goes on changing: its events first */
}
