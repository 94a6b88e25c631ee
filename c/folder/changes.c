/* Changes: what a look saw is carried out in the volume, and in the table of entries. */
#include "folder.h"

enum { COARSE = 2000 }; /* milliseconds */

/* Whether the volume made a change. Memory that was refused is made up for by a later look at everything. */
bool is_done(folder *f, lq_status status)
{
    if (status == LQ_NO_MEMORY) want_memory(f);
    if (status == LQ_EXHAUSTED) f->trouble.is_exhausted = true;
    return status == LQ_OK;
}

uint32_t entry_at(folder *f, uint32_t slot, const char *name, size_t size)
{
    char text[NAME_ROOM];
    uint64_t node;
    size = name_of_bytes(name, size, text);
    if (size > LQ_NAME_SIZE) return NONE;
    if (!is_done(f, lq_find(f->handle, entry_in(f, slot)->node, text, size, &node))) return NONE;
    return slot_of_node(f, node);
}

/* ---- removing ---- */

/* Whether an event at one name of a file asks for a look at its other names. */
static bool is_told_by(const folder *f, const entry *other, int64_t ctime, uint32_t events)
{
    uint32_t bits = f->devices[other->device].is_fine ? IN_MODIFY : IN_MODIFY | IN_ATTRIB;
    return other->ctime != ctime || events & bits;
}

/* Has the other names of a file looked at, each by itself: what is at this name may be another file by the time that it
   is read. `slot` is the entry at this name, or NONE. */
static void look_at_links(folder *f, uint32_t slot, const observed *seen, uint32_t events)
{
    char name[DISK_NAME_ROOM];
    uint32_t above;
    for (uint32_t other = first_of_inode(f, seen->inode); other != NONE; other = entry_in(f, other)->next_identity) {
        const entry *o = entry_in(f, other);
        if (other == slot || o->inode != seen->inode || o->device != seen->device) continue;
        if (!is_told_by(f, o, seen->ctime, events)) continue;
        size_t size = place_of(f, other, &above, name);
        if (size) pending_add(f, above, name, size, BY_LISTING | (events & (IN_MODIFY | IN_ATTRIB)), 0);
    }
}

/* The same, after a look at a name. What its own events say goes further, and ends there: it is used up. */
static void look_at_others(folder *f, const meeting *m, uint32_t slot)
{
    look_at_links(f, slot, m->seen, m->events & BY_EVENT ? m->events : 0);
}

/* Forgets an entry whose node was removed. */
static void forget(folder *f, uint32_t slot)
{
    const entry *e = entry_in(f, slot);
    set_mount(f, slot, false);
    if (e->kind == KIND_FOLDER) {
        close_folder(f, slot);
        watch_end(f, slot);
    } else { /* its last event may have been a write */
        observed gone = {.inode = e->inode, .device = (uint16_t)e->device};
        look_at_links(f, slot, &gone, f->has_lost_write ? IN_MODIFY : 0);
    }
    entry_take(f, slot);
}

void remove_entry(folder *f, uint64_t node)
{
    uint32_t slot = slot_of_node(f, node);
    if (slot == NONE || !is_done(f, lq_remove(f->handle, node, NULL))) return;
    TRACE("remove node %llu slot %u inode %llu", (unsigned long long)node, slot,
          (unsigned long long)entry_in(f, slot)->inode);
    windows_changed(f);
    forget(f, slot);
}

/* ---- creating ---- */

/* What the events of a name say of whether its file is open for writing. */
static void note_writing(entry *e, uint32_t events)
{
    if (events & BEING_WRITTEN) e->flags |= IS_BEING_WRITTEN;
    else if (events & IN_CLOSE_WRITE) e->flags &= ~IS_BEING_WRITTEN;
}

/* Takes over the times of a look. Where times are coarse, a later write may have the same. */
static void note_times(const folder *f, entry *e, const observed *s)
{
    bool is_young = !f->devices[e->device].is_fine && f->wall - s->ctime < COARSE * MILLISECOND;
    e->detail = s->detail;
    e->ctime = s->ctime;
    if (e->kind != KIND_FOLDER) e->watch = s->rights;
    e->flags = is_young ? e->flags | IS_YOUNG : e->flags & ~IS_YOUNG;
}

static void note_twins(folder *f, const observed *s)
{
    if (s->kind != KIND_FOLDER) return;
    for (uint32_t twin = first_of_inode(f, s->inode); twin != NONE; twin = entry_in(f, twin)->next_identity)
        f->has_twins |= entry_in(f, twin)->inode == s->inode && entry_in(f, twin)->device == s->device;
}

/* Notes that an entry has what was seen of this inode. */
static void note_carried_out(folder *f, uint64_t inode)
{
    f->carried_out[inode % CARRIED_OUT / 64] |= UINT64_C(1) << inode % 64;
}

/* Fills the slot of a node that was created. */
static void fill_slot(folder *f, const meeting *m, uint32_t slot, uint64_t node)
{
    observed *s = m->seen;
    read_generation(f, s, m->file, m->name);
    note_twins(f, s);
    *entry_in(f, slot) = (entry){.node = node,
                                 .inode = s->inode,
                                 .born = s->born,
                                 .generation = s->generation,
                                 .watch = -1,
                                 .device = s->device,
                                 .kind = s->kind};
    note_times(f, entry_in(f, slot), s);
    set_mount(f, slot, s->is_mount);
    note_carried_out(f, s->inode);
    entry_add(f, slot);
    TRACE("create node %llu slot %u in %llu inode %llu links %u ctime %lld size %llu %.60s", (unsigned long long)node,
          slot, (unsigned long long)m->node, (unsigned long long)s->inode, s->links, (long long)s->ctime,
          (unsigned long long)s->size, m->name);
}

/* Notes that an entry lacks what was to be set, if anything went wrong since. */
static void note_lack(folder *f, uint32_t slot, uint64_t troubles)
{
    if (f->trouble.count != troubles) entry_in(f, slot)->flags |= IS_LACKING;
}

/* Gives an entry what the folder adds to it, and its attributes on disk. */
static void complete(folder *f, const meeting *m, uint32_t slot, bool is_new)
{
    char text[NAME_ROOM];
    uint64_t node = entry_in(f, slot)->node, troubles = f->trouble.count;
    set_kind(f, node, (entry_kind)m->seen->kind);
    if (f->has_iname) set_iname(f, node, text, name_of_bytes(m->name, m->size, text));
    read_attributes(f, slot, m->file, m->name, is_new);
    note_lack(f, slot, troubles);
}

static void begin_entry(folder *f, const meeting *m, uint32_t slot)
{
    note_writing(entry_in(f, slot), m->events);
    windows_changed(f);
    complete(f, m, slot, true);
    if (m->seen->kind == KIND_FOLDER) list_later(f, slot, true);
    else if (m->seen->links > 1) look_at_others(f, m, slot);
}

/* Creates an entry, and answers what the volume says. */
static lq_status create(folder *f, const meeting *m)
{
    char text[NAME_ROOM];
    size_t size = name_of_bytes(m->name, m->size, text);
    uint32_t kind = m->seen->kind == KIND_FOLDER ? LQ_FOLDER : LQ_FILE, slot;
    if (size > LQ_NAME_SIZE) {
        notice_put(f, LQ_NOTICE_NAME_TOO_LONG, m->slot, m->name, m->size);
        if (m->seen->links > 1) look_at_others(f, m, NONE);
        return LQ_TOO_LONG;
    }
    if (!entries_reserve(f) || (slot = entry_slot(f)) == NONE) {
        want_memory(f);
        return LQ_NO_MEMORY;
    }
    lq_applied made;
    lq_status status = lq_create(f->handle, m->node, text, size, kind, m->seen->size, m->seen->time, &made);
    if (!is_done(f, status)) {
        entry_put_back(f, slot);
        return status;
    }
    fill_slot(f, m, slot, made.node);
    begin_entry(f, m, slot);
    return LQ_OK;
}

/* ---- bringing up to date ---- */

/* Whether an entry may have other attributes than at the last look. */
static bool may_have_attributes(const meeting *m, const entry *e, bool has_moved)
{
    if (e->ctime != m->seen->ctime || has_moved || m->events & (IN_ATTRIB | IN_MOVED_TO)) return true;
    return m->events & IS_FRESH && e->flags & IS_YOUNG;
}

static void update_folder(folder *f, const meeting *m, uint32_t slot, bool has_moved)
{
    entry *e = entry_in(f, slot);
    observed *s = m->seen;
    uint64_t troubles = f->trouble.count;
    bool is_other = e->detail != s->detail || e->flags & (IS_UNREADABLE | HAS_ACL | IS_STALE);
    bool has_no_watch = f->events >= 0 && e->watch < 0 && !(e->flags & IS_POLLED);
    if (may_have_attributes(m, e, has_moved)) read_attributes(f, slot, m->file, m->name, false);
    note_lack(f, slot, troubles);
    note_times(f, e, s);
    if (is_other || has_no_watch) list_later(f, slot, false);
    if (f->has_twins) look_at_others(f, m, slot);
}

/* Whether another time of its last change may be that of a write, which no event tells. Where a folder is polled, it isn't
   if there is another mode, owner or count of links. */
static bool is_hidden_write(const folder *f, const meeting *m, const entry *e)
{
    bool is_polled = f->options.poll || entry_in(f, m->slot)->flags & IS_POLLED;
    return e->ctime != m->seen->ctime && !(is_polled && e->watch != m->seen->rights);
}

/* Whether a file may have been written, though its size and time are as before. A write sets the times first, then the
   bytes and the size, and is told then: so a look may have come between. Its name may have been another before a move.
   And if this name was vacated meanwhile, who read it may have got another file. A listing finds what has no event. */
static bool may_be_written(const folder *f, const meeting *m, const entry *e, bool has_moved)
{
    if (m->events & IN_MODIFY) return true;
    if (!has_moved && m->events & (IN_MOVED_FROM | IN_DELETE)) return true;
    if ((has_moved || m->events & IN_MOVED_TO) && f->has_lost_write) return true;
    return m->events & IS_FRESH && (e->flags & IS_YOUNG || (!has_moved && is_hidden_write(f, m, e)));
}

static void update_file(folder *f, const meeting *m, uint32_t slot, bool has_moved, bool is_lacking)
{
    entry *e = entry_in(f, slot);
    observed *s = m->seen;
    lq_info info;
    note_writing(e, m->events);
    if (lq_entry(f->handle, e->node, &info) != LQ_OK) return;
    bool is_other = info.size != s->size || info.time != s->time || e->detail != s->detail;
    bool is_written = is_other || is_lacking || may_be_written(f, m, e, has_moved);
    bool has_attributes = may_have_attributes(m, e, has_moved);
    if (!is_written && !has_attributes) return;
    TRACE("update node %llu inode %llu other %d written %d attributes %d ctime %lld was %lld size %llu links %u %.40s",
          (unsigned long long)e->node, (unsigned long long)e->inode, is_other, is_written, has_attributes,
          (long long)s->ctime, (long long)e->ctime, (unsigned long long)s->size, s->links, m->name);
    uint64_t troubles = f->trouble.count;
    if (is_written && is_done(f, lq_write(f->handle, e->node, s->size, s->time, NULL))) windows_changed(f);
    if (has_attributes) read_attributes(f, slot, m->file, m->name, false);
    note_lack(f, slot, troubles);
    note_times(f, e, s);
    if (s->links > 1 || f->mount_count) look_at_others(f, m, slot);
}

/* Brings an entry up to what was seen at a name of it. */
static void update(folder *f, const meeting *m, uint32_t slot, bool has_moved)
{
    bool is_lacking = entry_in(f, slot)->flags & IS_LACKING;
    entry_in(f, slot)->flags &= ~(IS_UNSEEN | IS_LACKING);
    take_birth(f, entry_in(f, slot), m->seen);
    /* it may hide what is below, or no more */
    if (set_mount(f, slot, m->seen->is_mount) && m->seen->kind == KIND_FOLDER) list_later(f, slot, true);
    note_carried_out(f, m->seen->inode);
    if (is_lacking) complete(f, m, slot, false);
    if (entry_in(f, slot)->kind == KIND_FOLDER) update_folder(f, m, slot, has_moved);
    else update_file(f, m, slot, has_moved, is_lacking);
}

/* ---- moving ---- */

static bool is_below(const folder *f, uint64_t node, uint64_t above)
{
    lq_info info;
    while (node != above) {
        if (node == f->node || lq_entry(f->handle, node, &info) != LQ_OK) return false;
        node = info.dir;
    }
    return true;
}

/* Moves an entry here; `known` is the file that is replaced, or NONE. */
static bool move_here(folder *f, const meeting *m, uint32_t from, uint32_t known)
{
    char text[NAME_ROOM];
    size_t size = name_of_bytes(m->name, m->size, text);
    uint64_t node = entry_in(f, from)->node;
    if (size > LQ_NAME_SIZE) return false;
    if (entry_in(f, from)->kind == KIND_FOLDER) windows_move(f, node);
    if (!is_done(f, lq_move(f->handle, node, m->node, text, size, true, NULL))) return false;
    TRACE("move node %llu to %llu %.60s (replaces slot %d)", (unsigned long long)node, (unsigned long long)m->node,
          m->name, (int)known);
    if (known != NONE) forget(f, known);
    windows_changed(f);
    uint64_t troubles = f->trouble.count;
    set_iname(f, node, text, size);
    note_lack(f, from, troubles);
    update(f, m, from, true);
    return true;
}

/* ---- meeting what is at a name ---- */

/* Whether an entry may have this identity. */
static bool is_known_inode(const folder *f, const observed *s)
{
    for (uint32_t slot = first_of_inode(f, s->inode); slot != NONE; slot = entry_in(f, slot)->next_identity)
        if (entry_in(f, slot)->inode == s->inode && entry_in(f, slot)->device == s->device) return true;
    return false;
}

/* The look may be older than one at another name of this inode, which was carried out before: then it is made again.
   False: nothing is there by now. */
static bool look_again(folder *f, const meeting *m, uint32_t known)
{
    observed *s = m->seen;
    if (m->events & IS_FRESH) return true;
    bool is_set = f->carried_out[s->inode % CARRIED_OUT / 64] >> s->inode % 64 & 1;
    bool is_it = is_set && known != NONE && is_same(f, entry_in(f, known), s, m->file, m->name);
    if (!is_set || (is_it && s->links <= 1) || !is_known_inode(f, s)) return true;
    if (look(f, m->file, m->name, s) == LOOK_THERE) return true;
    pending_add(f, m->slot, m->name, m->size, m->events, 0);
    return false;
}

void met(folder *f, const meeting *m)
{
    uint32_t known = m->known ? m->known : entry_at(f, m->slot, m->name, m->size);
    if (!look_again(f, m, known)) return;
    if (known != NONE && is_still(f, known, m->seen, m->file, m->name)) {
        update(f, m, known, false);
        return;
    }
    uint32_t from = moved_from(f, m);
    /* the volume may still have it the other way round */
    if (from != NONE && is_below(f, m->node, entry_in(f, from)->node)) from = NONE;
    bool is_clobbered = known != NONE && from != NONE && entry_in(f, known)->kind != KIND_FOLDER
                        && entry_in(f, from)->kind != KIND_FOLDER;
    if (known != NONE && !is_clobbered) {
        uint64_t node = from == NONE ? 0 : entry_in(f, from)->node;
        if (!remove_tree(f, known)) {
            pending_add(f, m->slot, m->name, m->size, m->events & ~(uint32_t)IS_FRESH, 0);
            return;
        }
        known = NONE;
        if (from != NONE && !is_entry(f, from, node)) from = NONE;
    }
    if (from == NONE || !move_here(f, m, from, known)) create(f, m);
}

bool met_first(folder *f, const meeting *m)
{
    return create(f, m) != LQ_EXISTS;
}
