/* A volume of lq.h that is kept over a restart: a snapshot and a journal in one folder on disk. Linux on x86-64.
 *
 * lq_journal_open opens a handle over the volume that the folder holds. From then on each accepted change of the handle
 * is in the journal before its call answers, whichever call makes it. It starts no thread: a program calls
 * lq_journal_turn when it is due. All that lq.h says of handles, texts, statuses and misuse holds here too. A journal and
 * its handle are in one call at a time.
 *
 * What is kept. A change that was answered with LQ_OK is there after the process was killed, in each mode. After a power
 * cut the volume is the one after a prefix of the accepted changes. With `sync` LQ_SYNC_ALWAYS that prefix has all that
 * were answered with LQ_OK. With `sync` as milliseconds it lacks at most those of the last so many, if turns are made as
 * they are due; a change that comes later than that syncs before it answers. With LQ_SYNC_NEVER the system decides.
 * Windows aren't kept: each is opened anew after a restart.
 *
 * A change that can't be kept. Where the journal can't be written or synced, the call that made the change answers
 * LQ_UNKEPT. The change is made in memory then, has its number, and is told to windows; its `out` is written. It may be
 * on disk or not: after a restart it is there or it isn't. From then on each call that would make a change answers
 * LQ_HALTED and makes none; all else goes on. So does an lq_answer whose line has a `\`, or has the words create, move,
 * write or set in it. A turn tries to write again what is missing; once it has, all that was answered LQ_UNKEPT is on
 * disk, and changes are made again. A restart mends it too.
 *
 * After a fork the child's volume is in memory alone: its changes aren't in the journal, it lets go of the files, and
 * lq_journal_close leaves its handle open.
 * A handle that is kept follows no folder: lq_folder_open answers LQ_MISUSE for it.
 *
 * The files: `snapshot`, `journal`, `journal.old` while the journal is cut anew, `lock`, and files with the ending .new
 * that aren't complete yet. docs/SPECIFICATION.md has their format. */
#ifndef LQ_JOURNAL_H
#define LQ_JOURNAL_H

#include <lq.h>

#ifdef __cplusplus
extern "C" {
#endif

/* ---- a journal and its turns ---- */

/* A journal. Its fields belong to the library. It stays where it was opened, as a handle does. */
typedef struct lq_journal {
    void *at;
    uint64_t tag;
} lq_journal;

/* A journal that isn't open. */
#define LQ_JOURNAL_INIT { 0, 0 }

/* When changes are synced to the disk: before each call answers, or never; any other number is milliseconds. */
#define LQ_SYNC_ALWAYS 0
#define LQ_SYNC_NEVER UINT64_MAX

/* How a journal is opened. `sync` is when changes are synced. The journal is cut anew once it is larger than the
 * snapshot and has `least` bytes; 0 stands for 1,048,576. With `damaged` a journal that is damaged before its end is
 * opened all the same, with the changes before the damage; the damaged files stay beside, with the ending .damaged. */
typedef struct lq_journal_options {
    uint64_t sync;
    uint64_t least;
    bool damaged;
} lq_journal_options;

/* The options that null stands for. */
#define LQ_JOURNAL_OPTIONS_INIT { 0, 0, 0 }

/* The files of a journal. */
typedef enum lq_journal_file { LQ_FILE_SNAPSHOT = 1, LQ_FILE_OLD = 2, LQ_FILE_JOURNAL = 3 } lq_journal_file;

/* What an opening found. `changes` is the volume's number of changes, `replayed` how many of them the journal gave.
 * `dropped` is how many bytes after the last whole record were cut off: of a change that was being written, or what a
 * power cut has left of changes that weren't synced. If the opening was refused,
 * `file` is the lq_journal_file with the fault, or 0. `place` is the byte in it, counted from 0, and `reason` a word for
 * it, or null. `fault` is the errno after LQ_SYSTEM, else 0. With `damaged` these tell of what was passed over. */
typedef struct lq_journal_report {
    uint64_t changes;
    uint64_t replayed;
    uint64_t dropped;
    uint64_t place;
    const char *reason;
    uint32_t file;
    int32_t fault;
} lq_journal_report;

/* Opens a handle, which isn't open, over the volume that a folder holds; it makes the folder and an empty volume where
 * there is none. `version` is as lq_volume_open_as takes it. The path is bytes, without a NUL. Null is allowed for
 * `options` and `report`. LQ_MISUSE: also for a journal that is open already. LQ_TOO_LONG: the path is empty, has a NUL
 * or is above LQ_PATH_SIZE. LQ_LOCKED: another journal has the folder, in this process or another. LQ_BAD_SAVE: a file
 * is damaged, or its lines don't make the changes that they made. LQ_OTHER_VERSION: it is of a format that this library
 * doesn't read. LQ_SYSTEM: a call of the system failed. LQ_NO_MEMORY. In each of these cases nothing that was kept is
 * lost, and the handle isn't open. */
lq_status lq_journal_open_as(lq_journal *journal, lq *handle, uint32_t version, const char *path, size_t path_size,
                             const lq_journal_options *options, lq_journal_report *report);

/* Opens a handle for a caller of this header. */
static inline lq_status lq_journal_open(lq_journal *journal, lq *handle, const char *path, size_t path_size,
                                        const lq_journal_options *options, lq_journal_report *report)
{
    return lq_journal_open_as(journal, handle, LQ_VERSION, path, path_size, options, report);
}

/* Syncs what isn't synced, ends the journal and closes its handle. LQ_OK: all changes are on disk. LQ_UNKEPT: some may
 * not be there; it is closed all the same. LQ_MISUSE: it isn't open. */
lq_status lq_journal_close(lq_journal *journal);

/* What a turn did. `due` is as lq_journal_due answers. `size` is the size of the journal in bytes, without
 * `journal.old`. `unsynced` is how many changes a power cut may take. `cutting`: the journal is being cut anew; the
 * memory of a second volume is held meanwhile. `halted`: changes are refused, as the head of this file says. `fault` is
 * the errno after LQ_SYSTEM and LQ_HALTED. */
typedef struct lq_journal_turned {
    uint64_t due;
    uint64_t size;
    uint64_t unsynced;
    bool cutting;
    bool halted;
    int32_t fault;
} lq_journal_turned;

/* Tries to mend a journal that halts; syncs what is due; and cuts the journal anew, for 10 milliseconds at most. Syncs
 * aren't bounded; a new snapshot is synced each mebibyte. Nor are three steps of a cut that are one call each: the end of
 * the snapshot that is read, the list of nodes before one is written, and the end of the second volume. For 1,000,000
 * entries they took 55, 30 and 90 milliseconds of processor time. LQ_HALTED: it couldn't be mended. LQ_SYSTEM,
 * LQ_NO_MEMORY: the journal couldn't be cut anew, which is tried again later; nothing is lost, and changes go on.
 * LQ_BAD_SAVE: so it is, since `snapshot` or `journal.old` is damaged. LQ_NOT_OPEN: this process is the child of a fork,
 * or the handle was closed. `*out` is written in each of these cases too. */
lq_status lq_journal_turn(lq_journal *journal, lq_journal_turned *out);

/* How many milliseconds may pass until the next turn; UINT64_MAX: any, until the next change. It makes no call of the
 * disk, so that a loop may ask each time before it waits. UINT64_MAX also for a journal that isn't open. */
uint64_t lq_journal_due(const lq_journal *journal);

/* Syncs all changes so far. LQ_HALTED: it can't, or the journal halted before. LQ_NOT_OPEN: as lq_journal_turn. */
lq_status lq_journal_sync(lq_journal *journal);

/* Begins a batch, whose changes are synced together: with LQ_SYNC_ALWAYS a change answers once it is written, up to the
 * next lq_journal_sync or turn. It is no transaction: until then a power cut leaves a prefix of the accepted changes, and
 * so does a kill between two of them. LQ_NOT_OPEN: as lq_journal_turn. */
lq_status lq_journal_hold(lq_journal *journal);

#ifdef __cplusplus
}
#endif
#endif
