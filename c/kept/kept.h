/* A volume as bytes, and back: docs/SPECIFICATION.md has the format. Both ways go piece by piece, so that a caller may do
   other work in between. What a volume is, proved calls alone decide: here are bytes, checksums, and who gives and takes
   them. */
#ifndef KEPT_H
#define KEPT_H

#include <stdlib.h>
#include <string.h>
#include "../proved.h"

enum {
    HEAD_SIZE = 16,
    PIECE_HEAD_SIZE = 8,
    PIECE_SIZE = 65536, /* the most bytes of a piece's content */
    NUMBERS_SIZE = 32,
    ENTRY_SIZE = 42,    /* without its name */
    ATTRIBUTE_SIZE = 5, /* without its name and its value */
    FORMAT_VERSION = 1
};

/* The first bytes of a saved volume. */
#define MAGIC "lqvolume"

/* Why bytes are no saved volume: the place of a byte, counted from 0, a node or 0, and a word. */
typedef struct kept_fault {
    uint64_t place;
    uint64_t node;
    const char *reason;
} kept_fault;

/* ---- bytes and their checksum ---- */

/* What eight bytes at a time add to a checksum, by the value of each and its place. */
typedef struct checksums {
    uint32_t of[8][256];
} checksums;

void kept_checksums(checksums *table);

/* The CRC-32C of bytes after those with the checksum `before`; 0 before the first. */
uint32_t kept_checksum(const checksums *table, uint32_t before, const unsigned char *bytes, size_t size);

/* The checksum of a piece: of its size, as the four bytes before it say, and of its content. */
uint32_t kept_piece_checksum(const checksums *table, const unsigned char *piece, size_t size);

/* Little-endian numbers of this many bytes, without a sign. */
unsigned char *kept_put(unsigned char *to, uint64_t number, int size);
uint64_t kept_get(const unsigned char *from, int size);

/* ---- saves and loads in steps ---- */

/* lq_save and lq_load make these calls, and c/kept and c/journal alone see them. From the first to the last the handle is
   busy: lq.h answers calls with it LQ_MISUSE. */
#define HIDDEN __attribute__((visibility("hidden")))

typedef struct kept_save kept_save;
typedef struct kept_load kept_load;

/* Begins a save of an open handle's volume. LQ_MISUSE, LQ_NO_MEMORY: there is none. */
HIDDEN lq_status lq_save_begin(lq *handle, kept_save **made, lq_sink_fn sink, void *user);

/* Writes the next piece. LQ_SYSTEM: the sink took nothing. LQ_MISUSE: it took more than was given. Then it is over. */
HIDDEN lq_status lq_save_step(kept_save *save);

/* Whether all is written. */
HIDDEN bool lq_save_is_done(const kept_save *save);

/* Ends it, done or not. */
HIDDEN void lq_save_end(lq *handle, kept_save *save);

/* Begins a load into a handle that isn't open. LQ_MISUSE, LQ_NO_MEMORY: there is none. */
HIDDEN lq_status lq_load_begin(lq *handle, uint32_t version, kept_load **made, lq_source_fn source, void *user);

/* Reads the next piece. Any other answer than LQ_OK is as of lq_load_as, and then it is over. */
HIDDEN lq_status lq_load_step(kept_load *load);

/* Whether all is read. */
HIDDEN bool lq_load_is_done(const kept_load *load);

/* Ends it: the handle is open where it is done. */
HIDDEN void lq_load_end(lq *handle, kept_load *load);

/* ---- what these are made of ---- */

lq_status kept_save_make(kept_save **made, served *from, lq_sink_fn sink, void *user);
void kept_save_free(kept_save *save);

/* It takes a session that lqp_start has made, which goes with it unless it is taken again. */
lq_status kept_load_make(kept_load **made, served into, lq_source_fn source, void *user);
kept_fault kept_load_fault(const kept_load *load);
served kept_load_take(kept_load *load);
void kept_load_free(kept_load *load);

#endif
