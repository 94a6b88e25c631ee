/* Listings: a folder is opened, watched, and read then, some names at a time. */
#include "folder.h"

/* What the system's getdents64 gives. */
typedef struct disk_name {
    uint64_t inode;
    int64_t offset;
    unsigned short size;
    unsigned char type;
    char name[1];
} disk_name;

enum { NAME_AT = offsetof(disk_name, name), FOLDER_COST = 16 }; /* a folder costs as much as so many names */

/* ---- folders that are to be listed ---- */

/* Whether what is in a folder belongs to what is followed. */
static bool is_to_follow(const folder *f, uint32_t slot)
{
    return !f->options.one_file_system || entry_in(f, slot)->device == entry_in(f, 0)->device;
}

bool list_later(folder *f, uint32_t slot, bool is_deep)
{
    entry *e = entry_in(f, slot);
    if (!is_to_follow(f, slot)) return true;
    if (is_deep) e->flags |= IS_DEEP;
    if (e->flags & IS_TO_LIST) return true;
    if (f->to_list_count == f->to_list_room) {
        uint32_t room = f->to_list_room ? f->to_list_room * 2 : 64;
        folder_place *to_list = realloc(f->to_list, room * sizeof *to_list);
        if (!to_list) {
            want_memory(f);
            return false;
        }
        f->to_list = to_list;
        f->to_list_room = room;
    }
    f->to_list[f->to_list_count++] = (folder_place){.node = e->node, .slot = slot};
    e->flags |= IS_TO_LIST;
    return true;
}

static bool is_in_listing(const folder *f)
{
    return is_entry(f, f->listing.of.slot, f->listing.of.node);
}

static void listing_end(folder *f)
{
    listing *l = &f->listing;
    if (l->file < 0) return;
    if (l->has_folders && is_in_listing(f)) keep_open(f, l->of.slot, l->file);
    else close(l->file);
    l->file = -1;
}

/* ---- its begin ---- */

static void look_at_name(folder *f, uint32_t slot)
{
    char name[DISK_NAME_ROOM];
    uint32_t above;
    size_t size = place_of(f, slot, &above, name);
    if (size) pending_add(f, above, name, size, BY_LISTING, 0);
}

/* It isn't here any more, or can't be opened now. */
static void look_for_it(folder *f, uint32_t slot, int fault)
{
    look_at_name(f, slot);
    if (slot == 0 || (fault != ENOENT && fault != ENOTDIR && fault != ESTALE && fault != ELOOP)) want_again(f, fault);
    entry_in(f, slot)->flags |= IS_STALE; /* so that it is listed once it is met */
}

static void set_unreadable(folder *f, uint32_t slot)
{
    notice_put(f, LQ_NOTICE_UNREADABLE, slot, NULL, 0);
    entry_in(f, slot)->flags |= IS_UNREADABLE;
}

/* Marks what the folder has: the listing takes the mark from what it meets. */
static bool mark_unseen(folder *f, uint64_t node)
{
    lq_listing found;
    lq_row row;
    if (!is_done(f, lq_children(f->handle, node, &found))) return false;
    while (lq_next(f->handle, found.result, &row) == LQ_OK) {
        uint32_t slot = slot_of_node(f, row.node);
        if (slot != NONE) entry_in(f, slot)->flags |= IS_UNSEEN;
    }
    return true;
}

/* Has those looked at that the listing hasn't met. They may be many. */
static void note_missed(folder *f, uint64_t node)
{
    lq_listing found;
    lq_row row;
    if (!is_done(f, lq_children(f->handle, node, &found))) return;
    while (lq_next(f->handle, found.result, &row) == LQ_OK) {
        uint32_t slot = slot_of_node(f, row.node);
        if (slot == NONE || !(entry_in(f, slot)->flags & IS_UNSEEN)) continue;
        if (!nodes_reserve(&f->missed, 1)) {
            want_memory(f);
            return;
        }
        f->missed.at[f->missed.count++] = row.node;
    }
}

uint32_t look_at_missed(folder *f, uint32_t names)
{
    for (; names && has_missed(f); names--) {
        uint32_t slot = slot_of_node(f, f->missed.at[f->missed_at++]);
        if (slot == NONE || !(entry_in(f, slot)->flags & IS_UNSEEN)) continue; /* it was met since */
        entry_in(f, slot)->flags &= ~IS_UNSEEN;
        look_at_name(f, slot);
    }
    if (has_missed(f)) return names;
    nodes_free(&f->missed);
    f->missed_at = 0;
    return names;
}

bool has_missed(const folder *f)
{
    return f->missed_at < f->missed.count;
}

/* Whether the folder that holds us off is the entry's, and not another one that is at its place by now. */
static bool is_at_place(folder *f, uint32_t slot)
{
    char name[DISK_NAME_ROOM];
    uint32_t above;
    observed seen;
    if (slot == 0) return true;
    int file = place_of(f, slot, &above, name) ? folder_file(f, above) : -1;
    return file >= 0 && look(f, file, name, &seen) == LOOK_THERE && is_still(f, slot, &seen, file, name);
}

/* Opens a folder, if it is surely the entry's; else an errno. */
static int open_it(folder *f, uint32_t slot, int *fault)
{
    observed seen;
    int file = folder_to_list(f, slot);
    *fault = file < 0 ? errno : 0;
    if (*fault == EPERM) *fault = EACCES;
    if (*fault == EACCES && !is_at_place(f, slot)) *fault = ESTALE;
    if (file < 0) return -1;
    if (look(f, file, "", &seen) == LOOK_THERE && is_still(f, slot, &seen, file, "")) return file;
    close(file);
    *fault = ESTALE;
    return -1;
}

/* Begins with a folder: true, if there are names to read. */
static bool begin(folder *f, uint32_t slot)
{
    entry *e = entry_in(f, slot);
    listing *l = &f->listing;
    int fault;
    *l = (listing){
        .of = {.node = e->node, .slot = slot}, .is_again = e->flags & IS_LISTED, .is_deep = e->flags & IS_DEEP};
    l->is_fresh = f->is_first && !l->is_again;
    e->flags &= ~(IS_TO_LIST | IS_DEEP | IS_STALE);
    l->file = open_it(f, slot, &fault);
    TRACE("list node %llu errno %d flags %x", (unsigned long long)e->node, fault, e->flags);
    if (l->file < 0 && fault != EACCES) {
        look_for_it(f, slot, fault);
        return false;
    }
    if (l->is_again && !mark_unseen(f, e->node)) e->flags |= IS_STALE;
    e->flags |= IS_LISTED;
    if (l->file < 0) { /* this user sees nothing in it */
        set_unreadable(f, slot);
        if (l->is_again) note_missed(f, e->node);
        return false;
    }
    e->flags &= ~IS_UNREADABLE;
    bool has_watch = e->watch >= 0;
    watch_begin(f, slot, l->file);
    /* what happens to a mount's own folder is told by its watch alone */
    if (!has_watch && e->flags & IS_MOUNT) look_at_name(f, slot);
    return true;
}

/* ---- its names ---- */

static void meet_name(folder *f, const char *name, size_t size)
{
    listing *l = &f->listing;
    observed seen;
    if (is_skipped(f, name, size)) return;
    look_answer answer = look(f, l->file, name, &seen);
    if (answer == LOOK_DENIED) l->is_blind = true;
    if (answer == LOOK_FAILED) pending_add(f, l->of.slot, name, size, BY_LISTING, 0);
    if (answer != LOOK_THERE) return;
    l->has_folders |= seen.kind == KIND_FOLDER;
    pending_met(f, l->of.slot, name, size);
    meeting m = {.slot = l->of.slot, .node = l->of.node, .name = name, .size = size, .seen = &seen, .file = l->file,
                 .events = BY_LISTING | IS_FRESH};
    bool is_new = l->is_fresh && met_first(f, &m);
    if (!is_new) met(f, &m);
    windows_looked(f);
    if (is_new || !l->is_deep || seen.kind != KIND_FOLDER || !is_in_listing(f)) return;
    uint32_t below = entry_at(f, l->of.slot, name, size);
    if (below != NONE) list_later(f, below, true);
}

/* Reads the names that are in the buffer, at most so many; answers how many of them are left. */
static uint32_t meet_names(folder *f, uint32_t names)
{
    listing *l = &f->listing;
    while (l->at < l->got && names && is_in_listing(f) && !is_removing(f)) {
        unsigned short size;
        memcpy(&size, f->names + l->at + offsetof(disk_name, size), sizeof size);
        const char *name = f->names + l->at + NAME_AT;
        l->at += size;
        if (name[0] == '.' && (!name[1] || (name[1] == '.' && !name[2]))) continue;
        meet_name(f, name, strlen(name));
        names--;
    }
    if (!is_in_listing(f)) l->at = l->got = 0;
    return names;
}

/* Reads more names into the buffer. False: there are none, or the folder isn't the entry's any more. */
static bool read_names(folder *f)
{
    listing *l = &f->listing;
    if (!is_in_listing(f)) return false;
    long got = syscall(SYS_getdents64, l->file, f->names, NAMES_SIZE);
    if (got < 0 && errno != ENOENT) want_again(f, errno);
    l->at = 0;
    l->got = got > 0 ? (size_t)got : 0;
    return got > 0;
}

static void finish(folder *f)
{
    listing *l = &f->listing;
    if (is_in_listing(f)) {
        if (l->is_blind) set_unreadable(f, l->of.slot); /* names without x: listed again once its mode changes */
        if (l->is_again) note_missed(f, l->of.node);
    }
    listing_end(f);
}

uint32_t list_some(folder *f, uint32_t names)
{
    listing *l = &f->listing;
    while (names && !is_removing(f) && (l->file >= 0 || f->to_list_count)) {
        if (l->file < 0) {
            folder_place next = f->to_list[--f->to_list_count];
            bool is_it = is_entry(f, next.slot, next.node) && entry_in(f, next.slot)->flags & IS_TO_LIST;
            if (!is_it || !begin(f, next.slot)) continue;
            names -= names < FOLDER_COST ? names : FOLDER_COST;
        }
        while (names && !is_removing(f) && (l->at < l->got || read_names(f))) names = meet_names(f, names);
        if (names && !is_removing(f)) finish(f);
    }
    return names;
}
