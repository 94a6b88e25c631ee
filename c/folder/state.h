/* What a folder holds: its entries, what is to be looked at, windows and lines. */
#ifndef STATE_H
#define STATE_H

#define _GNU_SOURCE
#include <errno.h>
#include <fcntl.h>
#include <limits.h>
#include <poll.h>
#include <stdbool.h>
#include <stddef.h>
#include <stdint.h>
#include <stdlib.h>
#include <string.h>
#include <sys/epoll.h>
#include <sys/inotify.h>
#include <sys/stat.h>
#include <sys/statfs.h>
#include <sys/syscall.h>
#include <time.h>
#include <unistd.h>
#include <lq_folder.h>

/* No slot, no pending name. */
#define NONE UINT32_MAX

/* Nanoseconds. */
#define MILLISECOND INT64_C(1000000)
#define SECOND INT64_C(1000000000)
#define NEVER INT64_MAX

enum {
    ENTRIES_OF_CHUNK = 4096,
    OPEN_FOLDERS = 64,
    CARRIED_OUT = 1024,
    EVENTS_SIZE = 1 << 16,
    NAMES_SIZE = 1 << 15,         /* for the names of a folder */
    LINES_SIZE = 1 << 20,         /* with more bytes of lines, a turn takes nothing */
    NOTICES = 1024,               /* how many notices are remembered as told */
    NAME_ROOM = 3 * NAME_MAX + 3, /* for the text of any name on disk, and a NUL */
    DISK_NAME_ROOM = NAME_MAX + 1
};

/* ---- entries ---- */

typedef enum entry_kind { KIND_FILE, KIND_FOLDER, KIND_LINK, KIND_OTHER } entry_kind;

typedef enum entry_flag {
    IS_UNREADABLE = 1,      /* what is in the folder can't be seen */
    IS_TO_LIST = 2,         /* it is among the folders to list */
    IS_UNSEEN = 4,          /* the listing of its folder hasn't met it yet */
    HAS_ATTRIBUTES = 8,     /* extended ones */
    IS_LISTED = 16,         /* it was listed once */
    IS_DEEP = 32,           /* the folders in it are to be listed too */
    HAS_ACL = 64,           /* its permissions may change where its mode doesn't */
    IS_STALE = 128,         /* it couldn't be listed, and is once it is met */
    IS_POLLED = 256,        /* it has no watch */
    IS_BEING_WRITTEN = 512, /* the last event of its content was a write, and no close */
    IS_LACKING = 1024,      /* a change of it was refused: all of it is set at the next look */
    IS_YOUNG = 2048,        /* a write after the last look may have left its times as they are */
    IS_MOUNT = 4096         /* a mount is at its place */
} entry_flag;

/* An entry: 56 bytes. Its place and name, its size and the seconds of its mtime are in the volume. */
typedef struct entry {
    uint64_t node;
    uint64_t inode;
    int64_t born;       /* nanoseconds; 0: the file system doesn't tell */
    int64_t ctime;      /* nanoseconds */
    uint32_t detail;    /* a file's mtime below a second; a folder's mode and owner, mixed */
    uint32_t generation; /* of its handle, 1: it has none; 0: `born` is enough */
    uint32_t next_identity;
    uint32_t next_node; /* it chains free slots too */
    int32_t watch;      /* a folder's, or -1; of what is no folder its mode, owner and links, mixed: below 0 */
    uint32_t device : 16, kind : 2, flags : 14;
} entry;

typedef struct device {
    uint64_t number;
    bool has_no_attributes;
    bool is_tested;  /* the others are known */
    bool can_be_fine;
    bool is_fine;    /* its times differ from look to look, so that a birth time is an identity */
    bool is_silent;  /* it tells of no changes */
    bool is_overlay; /* a first write gives a file another birth time */
} device;

typedef struct watch_place {
    int32_t watch; /* 0: free */
    uint32_t slot; /* NONE: it was removed */
} watch_place;

/* The entries by slot, and their slots by node, by inode and by watch. */
typedef struct entry_table {
    entry **chunks;
    uint32_t chunk_count, used, free, count;
    uint32_t *by_node, *by_identity;
    uint32_t heads; /* how many each of the two has: a power of two */
    watch_place *watches;
    uint32_t watch_room, watch_used;
} entry_table;

/* ---- what is on disk ---- */

/* What a look saw at a name. */
typedef struct observed {
    uint64_t inode, size;
    int64_t born, ctime, time;
    uint32_t detail, generation, links;
    int32_t rights; /* as in an entry's `watch` */
    uint16_t device;
    uint8_t kind;
    bool is_mount;
} observed;

typedef enum look_answer { LOOK_THERE, LOOK_ABSENT, LOOK_DENIED, LOOK_FAILED } look_answer;

/* ---- names that are to be looked at ---- */

typedef enum pending_state {
    PENDING_NEW,
    PENDING_LOOKED,   /* something is there, and isn't carried out yet */
    PENDING_CHAINED,  /* it is carried out after one that it makes room for */
    PENDING_DONE,
    PENDING_ABSENT,
    PENDING_WAITING   /* its folder isn't where the volume has it */
} pending_state;

/* Beside the bits of inotify, in a pending name's `events`. */
enum {
    BY_EVENT = 0x04000000,      /* inotify named it */
    BEING_WRITTEN = 0x08000000, /* the last of its writes and closes was a write */
    BY_LISTING = 0x10000000, /* it was met or missed in a listing, or is looked at for another reason than an event */
    IS_FRESH = 0x20000000    /* a listing has just looked at it */
};

typedef struct pending {
    uint64_t node; /* the folder's, in case that its slot has another entry by now */
    int64_t until; /* it is held so long; 0: it isn't yet */
    observed seen;
    uint32_t folder, hash, next, next_inode, before;
    uint32_t events, cookie;
    uint32_t name; /* where it is in `names` */
    uint16_t size;
    uint8_t state;
    uint8_t fault; /* the errno of a call that failed, while it is WAITING; 0: its folder is elsewhere */
} pending;

typedef struct pending_set {
    pending *at;
    uint32_t count, room;
    uint32_t *heads, head_mask;
    uint32_t *by_inode, inode_mask; /* those that are LOOKED, in one round; null between */
    char *names;
    size_t names_size, names_room;
} pending_set;

/* A folder, as long as its slot has the same entry. */
typedef struct folder_place {
    uint64_t node;
    uint32_t slot;
} folder_place;

/* The listing that goes on. */
typedef struct listing {
    folder_place of;
    int file;         /* -1: none goes on */
    bool is_again;    /* it was listed before, so what is missed is looked at */
    bool is_deep;
    bool is_fresh;    /* nothing can be in it but what this listing has made */
    bool is_blind;    /* a name in it couldn't be looked at, for want of a permission */
    bool has_folders;
    size_t at, got;   /* in the folder's `names`: the next name, and the end */
} listing;

typedef struct open_folder {
    folder_place of;
    uint64_t used;
    int file; /* -1: none */
} open_folder;

/* ---- windows and lines ---- */

typedef struct bytes {
    char *at;
    size_t size, room;
} bytes;

typedef struct nodes {
    uint64_t *at;
    size_t count, room;
} nodes;

/* A set of nodes: open addressing, in which 0 is free and 1 was taken out. */
typedef struct node_set {
    uint64_t *at;
    size_t room, used, count;
} node_set;

/* A row that the current look has touched. Its paths lie in the window's `paths`. */
typedef struct touch {
    uint64_t node;
    size_t old_at, old_size, now_at, now_size;
    bool was_in, is_in, is_written, is_replaced;
} touch;

/* A row whose write isn't told yet, and since when. */
typedef struct untold {
    uint64_t node;
    int64_t since;
} untold;

typedef struct window {
    uint64_t slot;
    char *formula;
    size_t formula_size;
    bool has_values;
    bool is_anew;    /* memory ran out, so all is told again */
    bool is_overrun; /* its query has ended, by changes that aren't the folder's */
    node_set rows, touched; /* the second once there are more than a few */
    touch *touches;
    size_t touch_count, touch_room;
    bytes paths;
    untold *untold;
    size_t untold_count, untold_room;
    node_set waiting; /* the nodes of these */
    uint64_t *there; /* nodes by rising path, whose lines are still to come */
    size_t there_next, there_count;
} window;

/* The lines that wait, as records one after the other. */
typedef struct line_queue {
    char *at;
    size_t start, end, room;
    uint64_t first;     /* the number of the line at `start` */
    uint64_t count;
    uint64_t forgotten; /* how many of them are of a window that was closed */
} line_queue;

/* ---- the folder ---- */

typedef struct identity {
    uint64_t device, inode;
} identity;

typedef struct notice_memory {
    uint64_t told[NOTICES];
    uint32_t next;
} notice_memory;

/* What went wrong in this turn, or is to be mended. */
typedef struct trouble {
    uint64_t count;    /* how often anything went wrong */
    bool is_again;     /* all is to be looked at again */
    bool no_memory;    /* in this turn */
    bool is_exhausted; /* the volume takes no more changes */
    int32_t fault;     /* of this turn: an errno */
    bool is_to_tell;   /* a person is told of the look at everything */
    int64_t due;       /* when all is looked at again */
    int64_t pause;     /* how long the next time is put off: it doubles */
} trouble;

/* The folder in which a mount is. `is_sure`: its path was asked for while the volume was what is on disk. */
typedef struct mount_place {
    uint64_t node; /* 0: the volume has none */
    bool is_sure;
} mount_place;

typedef struct polling {
    uint32_t count;  /* folders without a watch */
    bool is_under_way;
    bool has_ended;  /* in this turn */
    int64_t due;
    int64_t spent;   /* of the processor, by the look that is under way */
} polling;

typedef struct folder {
    lq *handle;
    uint64_t node;
    size_t prefix;   /* the size of its path in the volume; 0: to be asked for */
    lq_folder_options options;
    char **skip;
    char *given, *real;
    int events, poller, root, mounts, mounts_wake;
    char *mount_lines;         /* the mounts below the folder, one text after the other */
    mount_place *mount_places; /* of each of them */
    uint32_t mount_count;      /* entries at whose place there is one */
    bool mounts_differ;
    bool has_unsure_mounts; /* asked for again once nothing waits */
    bool has_gone_mounts;   /* what one showed may be anywhere: all is listed then */
    int64_t mounts_read;    /* when they were */
    entry_table entries;
    device *devices;
    uint32_t device_count;
    pending_set pending;
    uint64_t carried_out[CARRIED_OUT / 64]; /* bits of inodes of which an entry was set since the last looks */
    folder_place *to_list;
    uint32_t to_list_count, to_list_room;
    listing listing;
    open_folder open[OPEN_FOLDERS];
    uint8_t open_hints[OPEN_FOLDERS]; /* by a folder's slot: where it may be among them */
    uint64_t clock;
    int in_use;      /* the descriptor that must stay open, or -1 */
    window *windows[LQ_SLOTS];
    uint64_t slots; /* of the windows, as lq_ready has them */
    line_queue lines;
    bytes path, old_path; /* for a call that asks for one */
    bytes dir_path;       /* of the folder of the last row, as long as no change was made since */
    uint64_t dir, dir_changes;
    nodes tree;          /* for a call that asks for one */
    nodes removed;       /* what is left of a tree that is being removed, each node after the folder that it is in */
    uint32_t removals;   /* how many of these may be removed in this turn */
    nodes missed;        /* those that listings haven't met; up to the next number they were looked at */
    size_t missed_at;
    notice_memory notices;
    trouble trouble;
    polling poll;
    bool is_gone, is_listed, is_first, is_over;
    bool is_root_lost;  /* its watch has ended, so another folder may have its inode */
    bool has_kind, has_iname, has_numbers; /* attributes that are set since a formula named them */
    bool has_twins;     /* a bind mount shows a folder twice */
    bool has_lost_write; /* a write was read of a name that is absent by now */
    bool has_new_kernel, has_no_xattrat;
    uint32_t lost_cookie; /* of the last IN_MOVED_FROM whose other half wasn't read */
    int64_t due;        /* of what waits */
    int64_t checked;    /* when the root was looked at */
    int64_t heard;      /* when the last event came */
    int64_t wall;       /* the time of day as the turn began */
    int64_t rested;     /* the same of the last turn that left nothing to be looked at */
    char *event_buffer, *names;
    identity *left_out; /* folders */
    uint32_t left_out_count;
} folder;

#endif
