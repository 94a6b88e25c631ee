/* What the files of c/journal share; include/lq_journal.h says what the whole does.
 *
 * The journal is a text. Its first line names the format; each other line is a record: a checksum, numbers, and the line
 * of a script that makes the change. A start loads `snapshot`, has the volume answer the lines of `journal.old` and of
 * `journal`, and compares each reply. A file gets its name only when all of it is on disk. So after any stop the folder
 * has a snapshot and the changes after it, without a gap.
 *
 * Of the C library it calls: malloc, calloc, free, memchr, memcmp, memcpy, memmove, strlen, __errno_location,
 * clock_gettime, close, fcntl, fdatasync, fsync, ftruncate, getpid, mkdir, openat, pwrite, read, renameat, statx, unlinkat
 * and write. */
#ifndef JOURNAL_H
#define JOURNAL_H

#define _GNU_SOURCE
#include "../keeper.h"
#include "../kept/kept.h"
#include <errno.h>
#include <fcntl.h>
#include <lq_journal.h>
#include <stdbool.h>
#include <stddef.h>
#include <stdint.h>
#include <stdio.h>
#include <stdlib.h>
#include <string.h>
#include <sys/stat.h>
#include <time.h>
#include <unistd.h>

enum {
    LINE_SIZE = 65536,                      /* the most bytes of a line */
    FRONT_SIZE = 9 + 6 + 3 * 21,            /* the most of what comes before it */
    RECORD_SIZE = FRONT_SIZE + LINE_SIZE + 1,
    FIRST_LINE_SIZE = 80,                   /* the most bytes of it */
    BUFFER_SIZE = 1 << 18,                  /* for what is read */
    LEAST_SIZE = 1 << 20,                   /* with fewer bytes the journal isn't cut anew */
    SLICE_TIME = 8,                         /* milliseconds of a turn, so that all of it takes 10 at most */
    RECORDS_OF_STEP = 64,
    SYNC_SIZE = 1 << 20,                    /* a new snapshot is synced after so many bytes, so that no sync takes long */
    LEAST_PAUSE = 100, MOST_PAUSE = 60000   /* milliseconds, after a cut that failed, and between mends */
};

/* Nanoseconds. */
#define MILLISECOND INT64_C(1000000)
#define SECOND INT64_C(1000000000)

/* ---- state ---- */

/* A piece of the journal that is read: `journal.old` or `journal`. */
typedef struct piece {
    int file;
    uint32_t seed;       /* of its checksums */
    uint32_t salt;
    uint64_t first;      /* the number of the change that its first record makes */
    uint64_t next;       /* that of the next record */
    uint64_t place;      /* the byte after the last whole record */
    uint64_t base;       /* the byte that bytes[start] is */
    char *bytes;
    size_t start, end;
    bool is_over;        /* the file has no more bytes */
} piece;

typedef struct record {
    uint64_t change, node;
    uint64_t behind;     /* how many changes before it weren't synced when it was written */
    const char *line;
    size_t size;         /* of the line */
    size_t whole;        /* of the record */
} record;

/* What keeps a journal from going on. UNWRITTEN: the last record isn't in the file. UNSYNCED: a sync failed, so what was
   written since the one before may be lost. UNPLACED: a file may not be found under its name after a power cut. */
typedef enum trouble { NO_TROUBLE, UNWRITTEN, UNSYNCED, UNPLACED } trouble;

/* What a cut does next. */
typedef enum cut_step { CUT_NONE, CUT_LOAD, CUT_REPLAY, CUT_SAVE, CUT_PLACE } cut_step;

typedef struct cut {
    cut_step step;
    lq second;           /* the volume that is made of the old snapshot and `journal.old` */
    kept_load *load;
    kept_save *save;
    piece old;
    int file;            /* the snapshot that is read, then the one that is written */
    uint64_t written;    /* bytes of it */
    uint64_t synced;
    int64_t due;         /* not before: the last one failed */
    int64_t pause;
} cut;

typedef struct journal {
    keeper keeper;       /* first, so that the one is the other */
    lq *handle;          /* null: it was closed, or this is the child of a fork */
    lq_journal_options options;
    int32_t process;
    int dir, lock, file; /* descriptors, or -1 */
    uint64_t lock_device, lock_inode;
    struct journal *next; /* of the journals of this process */
    uint32_t salt, seed;
    uint64_t first;      /* the change of the first record of `journal` */
    uint64_t change;     /* the last one that was put */
    uint64_t size;       /* of the whole records in the file */
    uint64_t synced;     /* bytes of it that are surely on disk */
    uint64_t synced_change;
    int64_t since;       /* when the first change that isn't synced was put */
    uint64_t snapshot_size;
    bool has_old;        /* there is a `journal.old` */
    bool is_misplaced;   /* the file that is written has the name `journal.old` */
    bool is_torn;        /* there may be bytes after the whole records */
    bool is_held;        /* a batch: its changes are synced together */
    trouble trouble;
    int32_t fault;       /* the errno of the trouble */
    int64_t mend_due, mend_pause;
    cut cut;
    char *front;         /* of the last record */
    size_t record_size;
    char record[RECORD_SIZE];
    checksums table;
} journal;

/* The CRC-32C of bytes after those with the checksum `before`, 0 at the start. */
static inline uint32_t checksum(const journal *j, uint32_t before, const char *bytes, size_t size)
{
    return kept_checksum(&j->table, before, (const unsigned char *)bytes, size);
}

/* ---- texts.c: what is written in a file, and numbers that are read ---- */

char *put_hex(char *at, uint32_t number); /* 8 digits */
char *put_natural(char *at, uint64_t number);
size_t put_head(const journal *j, char *out, uint32_t salt, uint64_t first);
uint32_t seed_of(const journal *j, uint32_t salt);
bool take_hex(const char **at, const char *end, uint32_t *out);
bool take_natural(const char **at, const char *end, uint64_t *out);

/* ---- records.c ---- */

void record_build(journal *j, const change *made, const lq_applied *applied);

/* ---- pieces.c: reading ---- */

typedef enum piece_answer {
    PIECE_RECORD,
    PIECE_END,   /* nothing comes after the last whole record */
    PIECE_TORN,  /* something does, that is no whole record */
    PIECE_FAULT, /* it can't be read: errno */
    PIECE_OTHER_VERSION,
    PIECE_NO_MEMORY
} piece_answer;

piece_answer piece_begin(const journal *j, piece *p, int file); /* RECORD, or why not; it takes the file, also then */
piece_answer piece_next(const journal *j, piece *p, record *out);
piece_answer piece_is_damaged(const journal *j, piece *p, uint64_t change, bool *is_damaged);
bool piece_copy(const journal *j, piece *p, int to, uint64_t size, uint64_t last); /* else errno */
void piece_end(piece *p);
lq_status replay(lq *handle, const record *r, const char **reason);

/* ---- files.c ---- */

bool write_all(int file, const char *bytes, size_t size, uint64_t at); /* else errno */
bool sync_file(int file);
bool sync_folder(const journal *j);
bool size_of(int file, uint64_t *size);
int open_in(const journal *j, const char *name, int flags); /* or -1 */
bool remove_in(const journal *j, const char *name); /* true also where there is none */
bool rename_in(const journal *j, const char *from, const char *to);
bool copy_in(const journal *j, const char *from, const char *to, uint64_t size); /* synced */
int piece_create(const journal *j, uint32_t salt, uint64_t first, uint64_t *size); /* `journal.new`, synced; or -1 */
uint32_t new_salt(const journal *j);

/* ---- locks.c ---- */

lq_status lock_folder(journal *j, int32_t *fault);
void unlock_folder(journal *j);

/* ---- keeping.c ---- */

int64_t now(void);
void keep_begin(journal *j);
bool is_child(journal *j); /* of a fork; it lets go then */
bool keep_sync(journal *j); /* or there is trouble */

/* ---- mending.c ---- */

void trouble_begin(journal *j, trouble what);
bool mend(journal *j); /* whether there is no trouble any more */

/* ---- cutting.c ---- */

lq_status cut_turn(journal *j, int32_t *fault);
void cut_end(journal *j);
int64_t cut_due(const journal *j);

/* ---- snapshot.c ---- */

lq_status snapshot_load(journal *j, lq *handle, uint32_t version, lq_journal_report *report);
ptrdiff_t read_snapshot(void *cut, void *bytes, size_t room);
ptrdiff_t write_snapshot(void *cut, const void *bytes, size_t size);

/* ---- opening.c, journal.c ---- */

lq_status open_files(journal *j, lq *handle, uint32_t version, lq_journal_report *report);
void close_files(journal *j);

#endif
