/* What the files of c/folder share; include/lq_folder.h says what the whole does.
 *
 * A turn reads the system's events. An event says only where to look: its name becomes a pending name. A look at what
 * is on disk there decides, and the changes bring the volume up to it. A folder is watched first and listed then, so
 * that nothing happens unseen in between. What fails is marked in `trouble`, and a later look at everything mends it.
 *
 * Of the C library it calls: malloc, calloc, realloc, free, qsort, bsearch, memchr, memcmp, memcpy, memmove, memset,
 * strlen, strchr, strrchr, strcmp, __errno_location, clock_gettime, close, epoll_create1, epoll_ctl, fstatfs, getcwd,
 * inotify_add_watch, inotify_init1, inotify_rm_watch, open, openat, poll, read, realpath, statx and syscall. */
#ifndef FOLDER_H
#define FOLDER_H

#include "state.h"

/* ---- time and trace ---- */

static inline int64_t time_of(clockid_t clock)
{
    struct timespec it;
    clock_gettime(clock, &it);
    return (int64_t)it.tv_sec * SECOND + it.tv_nsec;
}

static inline int64_t now(void) { return time_of(CLOCK_MONOTONIC); }

static inline int64_t least(int64_t one, int64_t other) { return one < other ? one : other; }

/* For tests: the last of what was read, seen and changed. */
#ifdef LQ_FOLDER_TRACE
void lq_folder_trace(const char *format, ...);
#define TRACE(...) lq_folder_trace(__VA_ARGS__)
#else
#define TRACE(...) ((void)0)
#endif

/* ---- names.c: names on both sides, and patterns of them ---- */

size_t name_of_bytes(const char *raw, size_t size, char *out);  /* `out` has room for three times the size */
size_t bytes_of_name(const char *name, size_t size, char *out); /* `out` may be `name` */
bool is_skipped(const folder *f, const char *name, size_t size);

/* ---- fold_case.c, case_folding.c ---- */

typedef struct folding {
    uint32_t first, last, step; /* each `step`th character of these */
    int32_t distance;           /* to the one that it folds to */
} folding;
extern const folding foldings[];
extern const size_t folding_count;

/* ---- entries.c ---- */

static inline entry *entry_in(const folder *f, uint32_t slot)
{
    return &f->entries.chunks[slot / ENTRIES_OF_CHUNK][slot % ENTRIES_OF_CHUNK];
}

bool entries_reserve(folder *f); /* room for one more; false: no memory */
uint32_t entry_slot(folder *f);  /* a slot that isn't an entry's yet, or NONE */
void entry_put_back(folder *f, uint32_t slot);
void entry_add(folder *f, uint32_t slot);
void entry_take(folder *f, uint32_t slot);
uint32_t slot_of_node(const folder *f, uint64_t node);
uint32_t first_of_inode(const folder *f, uint64_t inode);
bool is_entry(const folder *f, uint32_t slot, uint64_t node);
void entries_free(folder *f);

/* ---- watches.c ---- */

uint32_t slot_of_watch(const folder *f, int32_t watch);
void watch_begin(folder *f, uint32_t slot, int file); /* or the folder is polled */
void watch_end(folder *f, uint32_t slot);             /* of an entry that goes */
void watch_gone(folder *f, uint32_t slot);            /* the system has ended it */

/* ---- left_out.c ---- */

bool is_left_out(const folder *f, uint64_t device, uint64_t inode);

/* ---- disk.c ---- */

look_answer look(folder *f, int file, const char *name, observed *out);
bool is_same(const folder *f, const entry *e, observed *seen, int file, const char *name);
bool is_still(folder *f, uint32_t slot, observed *seen, int file, const char *name); /* the same, at its own name */
bool is_silent(folder *f, uint32_t slot, int file); /* whether its file system tells of no changes */
void read_generation(const folder *f, observed *seen, int file, const char *name); /* where its birth isn't enough */
void take_birth(const folder *f, entry *e, const observed *seen);                   /* of an entry that is what was seen */
void devices_forget(folder *f); /* what is known of them: a number may be another's after an unmount */
bool has_fine_kernel(void);
bool is_for_want_of_room(int fault); /* an errno that goes by as descriptors and memory are freed */
bool is_passing(int fault);          /* one that says nothing of what is on disk */

/* The path of a descriptor, in /proc. */
enum { DESCRIPTOR_ROOM = 32 };
void descriptor_path(char *out, int file);

/* ---- open_folders.c: descriptors of folders ---- */

int folder_file(folder *f, uint32_t slot); /* surely the entry's, or -1 and errno; it stays the cache's */
int folder_to_list(folder *f, uint32_t slot);
void keep_open(folder *f, uint32_t slot, int file); /* gives a descriptor to the cache */
void close_folder(folder *f, uint32_t slot);
void close_folders(folder *f);
look_answer root_begin(folder *f);
size_t place_of(const folder *f, uint32_t slot, uint32_t *above, char *name); /* its name on disk; 0: none */

/* ---- attributes.c ---- */

void read_attributes(folder *f, uint32_t slot, int file, const char *name, bool is_new);
void set_iname(folder *f, uint64_t node, const char *name, size_t size);
void set_kind(folder *f, uint64_t node, entry_kind kind);
void begin_kind(folder *f);
void begin_iname(folder *f);
void begin_numbers(folder *f);
bool is_own_attribute(const char *attr, size_t size);

/* ---- paths.c ---- */

bool bytes_reserve(bytes *it, size_t more);
void bytes_free(bytes *it);
bool path_add(folder *f, uint64_t node, bytes *to);     /* false: no memory, or no entry */
bool path_add_row(folder *f, uint64_t node, bytes *to); /* quicker, for rows one after the other */

/* ---- pending.c ---- */

bool pending_add(folder *f, uint32_t slot, const char *name, size_t size, uint32_t events, uint32_t cookie);
uint32_t pending_find(const folder *f, uint32_t slot, const char *name, size_t size);
void pending_met(folder *f, uint32_t slot, const char *name, size_t size); /* a listing met it: it isn't absent */
void pending_keep(folder *f);
void pending_index(folder *f);
void pending_free(folder *f);

/* ---- listings.c ---- */

bool list_later(folder *f, uint32_t slot, bool is_deep);
uint32_t list_some(folder *f, uint32_t names); /* answers how many of them are left */
uint32_t look_at_missed(folder *f, uint32_t names); /* the same, of those that listings haven't met */
bool has_missed(const folder *f);

/* ---- changes.c ---- */

/* What a look saw at a name in an open folder. */
typedef struct meeting {
    uint32_t slot; /* of the folder */
    uint32_t events;
    uint64_t node;
    const char *name;
    size_t size;
    observed *seen;
    int file;
    uint32_t known; /* the entry at this name, or NONE; 0: to be asked for */
} meeting;

bool is_done(folder *f, lq_status status);
uint32_t entry_at(folder *f, uint32_t slot, const char *name, size_t size);
void met(folder *f, const meeting *m);
bool met_first(folder *f, const meeting *m); /* false: it may be there already */
void remove_entry(folder *f, uint64_t node);

/* ---- trees.c ---- */

size_t tree_of(folder *f, uint64_t node);   /* how many of its nodes are in `tree`, the upper ones first; 0: none */
bool remove_tree(folder *f, uint32_t slot); /* false: not all can go in this turn, and nothing else is to be done */
bool remove_some(folder *f);                /* goes on with that; false: not all could go */
bool is_removing(const folder *f);
bool nodes_reserve(nodes *it, size_t more);
void nodes_free(nodes *it);

/* ---- moves.c ---- */

/* The entry that is what was seen, and isn't at its place any more; or NONE. */
uint32_t moved_from(folder *f, const meeting *m);

/* ---- looks.c ---- */

bool has_work(const folder *f);         /* names to look at, or folders to list */
bool settle(folder *f, uint32_t names); /* whether more is to be done at once */

/* ---- events.c ---- */

bool take_events(folder *f, bool *is_empty); /* whether there were any */

/* ---- mounts.c ---- */

bool mounts_begin(folder *f);
bool mounts_turn(folder *f); /* whether it asked for looks */
void mounts_end(folder *f);
bool has_mounts(const folder *f); /* so that an inode may be at two places */
bool set_mount(folder *f, uint32_t slot, bool is_mount); /* whether a mount is at its place; answers if that is new */

/* ---- polls.c ---- */

void poll_begin(folder *f);
void poll_end(folder *f, int64_t spent, bool has_more);

/* ---- node_sets.c ---- */

bool node_set_has(const node_set *set, uint64_t node);
bool node_set_add(node_set *set, uint64_t node);
void node_set_take(node_set *set, uint64_t node);
void node_set_clear(node_set *set);
void node_set_free(node_set *set);

/* ---- windows.c, touches.c ---- */

void windows_changed(folder *f);             /* after each change */
void windows_move(folder *f, uint64_t node); /* before a folder moves */
void windows_looked(folder *f);              /* after all changes of a look */
void windows_drain(folder *f);
void windows_mend(folder *f);
void windows_tell(folder *f);                /* the lines that were put off and are due */
bool windows_fill(folder *f);                /* lines of what was there; whether more are to come */
lq_status window_open(folder *f, const char *formula, size_t size, lq_folder_query_options options, uint64_t *slot);
void windows_give_back(folder *f); /* memory of looks */
void window_free(folder *f, uint64_t slot);
void touch_changed(folder *f, window *w);
void touch_tree(folder *f, window *w, uint64_t node);
void touch_end(folder *f, window *w);

/* ---- rows.c: what is there ---- */

/* Rows as a set, and as nodes: by rising number, or sorted. */
typedef struct row_list {
    node_set set;
    uint64_t *nodes;
    size_t count;
} row_list;

bool rows_take(folder *f, uint64_t result, size_t count, row_list *out); /* those of a result; false: no memory */
bool rows_find(folder *f, window *w, row_list *out);                     /* those that match now */
bool rows_sort(folder *f, row_list *rows);                               /* by rising path */
void rows_free(row_list *rows);
bool rows_write(const node_set *rows, uint64_t *nodes, size_t room); /* by rising number */

/* ---- lines.c ---- */

typedef struct line_text {
    const char *path, *old_path;
    size_t path_size, old_path_size;
} line_text;

bool line_put(folder *f, lq_line_what what, uint64_t slot, uint64_t node, line_text text);
void notice_put(folder *f, lq_notice notice, uint32_t slot, const char *name, size_t size);
size_t lines_read(folder *f, uint64_t seen, lq_folder_line *out, size_t room);
void lines_forget(folder *f, uint64_t slot);
void lines_give_back(folder *f); /* memory, where no line waits */
void lines_free(folder *f);

/* ---- folder.c, turn.c ---- */

folder *folder_of(const lq_folder *it); /* null: it isn't open */
void folder_free(folder *f);
bool is_volume_open(const folder *f);
bool is_quiet(const folder *f); /* nothing is to be looked at or listed */

/* ---- trouble.c ---- */

void want_memory(folder *f);           /* memory was refused: all is looked at again */
void want_again(folder *f, int fault); /* a call failed; or, with 0, nothing told what happened */

#endif
