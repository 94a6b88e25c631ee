/* A folder on disk, kept in a volume of lq.h, and what happens to the files that match a formula. Linux on x86-64.
 *
 * An open folder makes the entries below a node of a volume those that are on disk below a path, and keeps them so. It
 * makes changes in lq_folder_turn alone, which a program calls when the folder's descriptor can be read, or when the
 * time that the last turn told has come. It starts no thread and never waits. All that lq.h says of handles, texts,
 * statuses and misuse holds here too. A folder and the handle of its volume are in one call at a time.
 *
 * Entries. A name is the text of the bytes on disk: a byte that is no UTF-8 is the character U+F700 plus that byte, and
 * so is each byte of a character from U+F780 to U+F7FF. A folder's size and time are 0. An entry has its extended
 * attributes under their whole names, as texts, each byte as in a name. Three more are set on all entries once a
 * window's formula names them, so that they cost nobody else memory: `kind` is "file", "folder", "link" or "other", and
 * `iname` the name with its case folded. An attribute that ends in `:number` is the third: each extended attribute whose
 * text is an optional `-` and 1 to 18 digits has it beside it, as a LQ_TYPE_INT64. Links aren't followed, and nothing is
 * written on disk.
 *
 * What a caller owes beside what lq.h asks: it makes no change at or below the folder's node. It opens or closes no
 * query in a slot that lq_folder_query_open gave, and reads none of them by lq_read. What lq_on_ready calls may be
 * called within a turn; it makes no call of the folder then, and doesn't close the handle. A handle that was closed
 * isn't opened again before the folder is closed. The calls of a folder make results and texts of their own: so those
 * that the caller had before can't be taken after them (lq_take, lq_text). */
#ifndef LQ_FOLDER_H
#define LQ_FOLDER_H

#include <lq.h>

#ifdef __cplusplus
extern "C" {
#endif

/* ---- turns ---- */

/* A folder. Its fields belong to the library. It stays where it was opened, as a handle does. */
typedef struct lq_folder {
    void *at;
    uint64_t tag;
} lq_folder;

/* A folder that isn't open. */
#define LQ_FOLDER_INIT { 0, 0 }

/* How a folder is opened. `node` is the folder of the volume below which the entries are made; 0 stands for LQ_ROOT. It
 * has nothing below it. Names that match one of the `skip_count` patterns of `skip` are passed over, with what is
 * inside. Each is a text with a NUL after it, in which `*`, `?` and `[..]` stand for bytes as in Python's fnmatch. With
 * `poll` all is looked at after so many milliseconds, and the system isn't asked for events; 0 asks for events, and
 * polls only where there are none. A poll doesn't see a write whose times were put back, where the mode, the owner or the
 * count of links differs too. With `once` the folder is read one time, without a watch; later turns do nothing.
 * With `no_attributes` extended attributes aren't read. With `one_file_system` what is mounted below the folder is
 * passed over, but for the place of the mount itself. */
typedef struct lq_folder_options {
    uint64_t node;
    const char *const *skip;
    size_t skip_count;
    uint64_t poll;
    bool once;
    bool no_attributes;
    bool one_file_system;
} lq_folder_options;

/* The options that null stands for. */
#define LQ_FOLDER_OPTIONS_INIT { 0, 0, 0, 0, 0, 0, 0 }

/* Opens a folder over the volume of an open handle. It reads nothing below the path yet: turns do. The path is bytes,
 * as they are on disk, without a NUL; it may be a link to a folder. `*fault` is an errno after LQ_SYSTEM, else 0; null
 * is allowed. LQ_MISUSE: also for a folder that is open already. LQ_TOO_LONG: the path is empty, has a NUL or is above
 * LQ_PATH_SIZE. LQ_NO_NODE, LQ_NOT_FOLDER: no folder of the volume has the node. LQ_NOT_EMPTY: something is below it.
 * LQ_SYSTEM: a call of the system failed, as where the path is no folder (ENOENT, ENOTDIR), can't be listed (EACCES),
 * or no more of inotify's instances are to be had (EMFILE). LQ_NO_MEMORY. */
lq_status lq_folder_open(lq_folder *folder, lq *handle, const char *path, size_t path_size,
                         const lq_folder_options *options, int32_t *fault);

/* Closes a folder, its windows, and all that it holds. The entries stay in the volume. Nothing happens to null and to a
 * folder that isn't open. The handle may have been closed before, but is still where it was. */
void lq_folder_close(lq_folder *folder);

/* A descriptor that can be read once something has happened on disk; it belongs to the folder. -1: there is none, since
 * the folder isn't open or was opened with `once` or `poll`. */
int lq_folder_fd(const lq_folder *folder);

/* What a turn did. `more`: not all was taken, so the next turn is due at once. `due` is how many milliseconds may pass
 * until the next turn, also if the descriptor can't be read; UINT64_MAX: any. `listed`: the first look at everything
 * has ended. `settled`: the system's queue was read empty, and nothing waits, so that the volume is what was on disk,
 * as far as the system has told; with polls, this turn ended a look at everything. `entries` is how many are below the
 * folder. `lines` is how many lines wait. `fault` is the errno after LQ_SYSTEM, else 0. */
typedef struct lq_folder_turned {
    uint64_t due;
    uint64_t entries;
    uint64_t lines;
    bool more;
    bool listed;
    bool settled;
    int32_t fault;
} lq_folder_turned;

/* Takes what has happened on disk and makes the changes; it is bounded, so that an event loop gets its turns. But where a
 * folder moves, what a window shows below it is told at once, by the same turn: 0.2 s for 200,000 rows. It takes nothing
 * while many lines wait: read them first, and after each turn. LQ_GONE_FOLDER: the folder itself was moved or
 * removed, or its disk has gone; the volume has the entries still, and each later turn answers so. LQ_SYSTEM: a call of
 * the system failed and the folder can't go on; a later turn tries again. LQ_NO_MEMORY: what was left out is made up
 * for by later turns. LQ_EXHAUSTED: the volume accepts no more changes. `*out` is written in each of these cases too.
 */
lq_status lq_folder_turn(lq_folder *folder, lq_folder_turned *out);

/* Leaves out a folder from the next turn on, wherever it is below the folder or comes to: it is no entry, and nothing in
 * it is. So a program keeps files of its own there. `device` and `inode` are as lq_folder_entry has them; the caller
 * holds the folder open, so that no other one gets its inode. Without `is_out` it is an entry again: the next turns look
 * at everything. LQ_NO_MEMORY. */
lq_status lq_folder_leave_out(lq_folder *folder, uint64_t device, uint64_t inode, bool is_out);

/* ---- windows ---- */

/* How a window is opened. With `values` a write or an attribute of what matches has a line too. With `no_there` no
 * LQ_LINE_THERE lines come. */
typedef struct lq_folder_query_options {
    bool values;
    bool no_there;
} lq_folder_query_options;

/* The options that null stands for. */
#define LQ_FOLDER_QUERY_OPTIONS_INIT { 1, 0 }

/* Opens a window: a live query of the volume, in whose result are the entries below the folder. It can be opened at any
 * time. LQ_LINE_THERE lines for all that matches come first, by rising path; where they are many, later turns give the
 * rest, and take nothing from disk before. What the first look finds after the opening has LQ_LINE_CAME lines. `*slot`
 * is the window's number, and the slot of its query. LQ_BAD_QUERY, LQ_NO_SLOT, LQ_EXHAUSTED. LQ_NO_MEMORY. */
lq_status lq_folder_query_open(lq_folder *folder, const char *formula, size_t formula_size,
                               const lq_folder_query_options *options, uint64_t *slot);

/* Closes a window, frees its slot, and forgets its lines. LQ_NOT_OPEN: the folder has no such window. */
lq_status lq_folder_query_close(lq_folder *folder, uint64_t slot);

/* The nodes of a window's result, by rising number: `*count` is how many there are, and those that fit into `room` are
 * written. LQ_NOT_OPEN. LQ_NO_MEMORY. */
lq_status lq_folder_rows(lq_folder *folder, uint64_t slot, uint64_t *nodes, size_t room, size_t *count);

/* ---- lines ---- */

/* What a line says of an entry that matches: it was there when the window was opened, it came, it left, it moved, or it
 * was written, replaced or given other attributes. Where another entry takes a path, its LQ_LINE_MOVED or
 * LQ_LINE_CHANGED is the only line, with its own node; what was there before has no LQ_LINE_LEFT. LQ_LINE_ANEW: memory
 * ran out for a window's lines; what was told of it holds no more, and LQ_LINE_THERE lines with all that matches
 * follow. LQ_LINE_NOTICE is something that a person should be told; it belongs to no window. */
typedef enum lq_line_what {
    LQ_LINE_THERE = 1,
    LQ_LINE_CAME = 2,
    LQ_LINE_LEFT = 3,
    LQ_LINE_MOVED = 4,
    LQ_LINE_CHANGED = 5,
    LQ_LINE_ANEW = 6,
    LQ_LINE_NOTICE = 7
} lq_line_what;

/* What a notice says, each once for a path. UNREADABLE: what is in the folder can't be seen, for want of a permission.
 * NAME_TOO_LONG: the name is above LQ_NAME_SIZE as a text, and is passed over. VALUE_TOO_LONG: an extended attribute is
 * above LQ_TEXT_SIZE as a text, or its name above LQ_NAME_SIZE, and it is passed over. NO_WATCHES: the system gives no
 * more watches, so from here on folders are polled. NO_EVENTS: the file system at this path tells of no changes, so it
 * is polled. OVERFLOW: more changed at once than the system's queue holds, so everything is looked at again. AGAIN:
 * everything is looked at again for another reason, as a call that failed. */
typedef enum lq_notice {
    LQ_NOTICE_UNREADABLE = 1,
    LQ_NOTICE_NAME_TOO_LONG = 2,
    LQ_NOTICE_VALUE_TOO_LONG = 3,
    LQ_NOTICE_NO_WATCHES = 4,
    LQ_NOTICE_NO_EVENTS = 5,
    LQ_NOTICE_OVERFLOW = 6,
    LQ_NOTICE_AGAIN = 7
} lq_notice;

/* A line. `number` counts the lines of a folder from 1; the lines of a window that was closed are left out. `what` is
 * an lq_line_what, `notice` an lq_notice or 0, `slot` the window, 0 for a notice. A path is bytes as on disk, below the
 * folder, without a leading `/`; for a notice it may be empty, which is the folder itself. `old_path` is the path
 * before an LQ_LINE_MOVED. Both live until the next call that takes the folder, and have a NUL after them. `size` and
 * `time` are the entry's in the volume; `kind` is 'f', 'd', 'l' or 'o' for the attribute `kind`; `inode`, `ctime` and
 * `mtime` (nanoseconds since 1970) are those that the folder read. They are 0 for LQ_LINE_LEFT, LQ_LINE_ANEW and a
 * notice. */
typedef struct lq_folder_line {
    uint64_t number;
    uint64_t slot;
    uint64_t node;
    uint64_t size;
    int64_t time;
    uint64_t inode;
    int64_t ctime;
    int64_t mtime;
    const char *path;
    const char *old_path;
    size_t path_size;
    size_t old_path_size;
    uint32_t what;
    uint32_t notice;
    uint32_t kind;
} lq_folder_line;

/* Forgets the lines that are numbered up to `seen`, and gives those after it: at most `room`; `*got` is how many. So a
 * caller that was interrupted asks once more with the same `seen`, and loses none. It takes no memory. */
lq_status lq_folder_read(lq_folder *folder, uint64_t seen, lq_folder_line *out, size_t room, size_t *got);

/* ---- entries ---- */

/* The path on disk of a node below the folder's, as in a line. `*size` is its size; it is copied, with a NUL after it,
 * where `room` is larger. LQ_NO_NODE: no entry below the folder has the node. The folder's own node has the empty path.
 * LQ_NO_MEMORY. */
lq_status lq_folder_path(lq_folder *folder, uint64_t node, char *out, size_t room, size_t *size);

/* The node of a path, as lq_folder_path gives it. Refused as lq_find_path is. */
lq_status lq_folder_node(lq_folder *folder, const char *path, size_t path_size, uint64_t *node);

/* What was last read of an entry on disk: its kind as in a line, its inode, its device (major number * 2^32 + minor
 * number), and its times in nanoseconds since 1970. `born` is 0 where the file system doesn't tell. A folder's `mtime`
 * is 0. */
typedef struct lq_folder_stat {
    uint64_t inode;
    uint64_t device;
    int64_t born;
    int64_t ctime;
    int64_t mtime;
    uint32_t kind;
} lq_folder_stat;

/* LQ_NO_NODE: no entry below the folder has the node. It takes no memory. */
lq_status lq_folder_entry(const lq_folder *folder, uint64_t node, lq_folder_stat *out);

/* ---- texts ---- */

/* A name as a text, as the entries of a folder have it, and the bytes of such a text. Each answers the size; nothing is
 * written where `room` is smaller, and a NUL comes after it where `room` is larger. They need no folder and take no
 * memory. 0 also for null. A name has up to three times as many bytes as a text. */
size_t lq_folder_to_name(const char *bytes, size_t size, char *out, size_t room);
size_t lq_folder_to_bytes(const char *name, size_t size, char *out, size_t room);

/* A text with its case folded, as `iname` has it: Unicode's simple case folding. It answers, writes and takes as the
 * two calls above; bytes that are no UTF-8 stay. A text may become half as long again. */
size_t lq_folder_fold(const char *text, size_t size, char *out, size_t room);

#ifdef __cplusplus
}
#endif
#endif
