/* Yazgoulm, a live query server in the manner of the Be file system, in the caller's own process.
 * Version 0.5.0.
 *
 * A handle holds one volume, its live queries and the messages that wait for their readers. Each
 * call is one act: it starts no thread, takes no lock, waits for nothing and prints nothing. Nodes,
 * folders, sizes in bytes, changes and slots are 64-bit numbers; times are seconds since 1970.
 * Entries count from node 2, slots from 1, changes and messages from 1. A volume accepts at most
 * 1,000,000,000,000 changes, and as many openings.
 *
 * Names. The acts have the words of a script. Two of them say what they open or close: a live query
 * is opened by lq_query_open and closed by lq_query_close, the volume itself by lq_volume_open and
 * lq_volume_close.
 *
 * Texts. A text that is given is a pointer and its size in bytes; it is UTF-8, and needs no NUL.
 * Null with size 0 is the empty text. LQ_TEXT gives a literal and its size. A text that a call
 * writes has its size beside it and a NUL after it, which doesn't count; a value may have NULs
 * inside. Sizes are tested before a text is read. A name above LQ_NAME_SIZE, a value above
 * LQ_TEXT_SIZE, a formula above LQ_FORMULA_SIZE and a path above LQ_PATH_SIZE are refused unread,
 * as if they were UTF-8.
 *
 * Statuses. A call that can be refused answers a status: LQ_OK, or why it was refused. A refused
 * call leaves its `out` as it was, and doesn't do its act. Two things may happen all the same, as
 * in a script: a query that was asked to hang up ends, and waiting messages move up. The first
 * fault that fits is answered. LQ_MISUSE comes first, then LQ_NOT_UTF8, and LQ_BAD_LINE for a
 * number that names no kind or operator. Then come LQ_BAD_NAME, LQ_TOO_LONG for the text of a
 * value, and LQ_BAD_QUERY. Those of the act itself come last, as each call lists them. A call that
 * says so may answer LQ_NO_MEMORY in place of LQ_OK, or before any of those refusals but LQ_MISUSE
 * is found; then its act isn't done either. lq_answer is the one exception, and says so.
 *
 * Misuse. Each call but lq_volume_close answers LQ_MISUSE for a handle that is null or not open:
 * LQ_INIT, closed, or a copy of an open one. So it does for a null `out`, unless it says that null
 * is allowed, and for a text that is null with a size. Calls that return no status return 0
 * instead.
 *
 * A handle without LQ_INIT. `lq volume;` has the bytes that its memory had before. It is answered
 * as LQ_INIT is: calls answer LQ_MISUSE, lq_volume_close does nothing, lq_volume_open opens it. One
 * case can't be told: the bytes are those of a handle that was opened at this address and never
 * closed, as by a function that returned too early. That handle is open still, and is used. Tools
 * such as valgrind report that memory without a value was read. So write LQ_INIT.
 *
 * What a caller owes, and nothing tests:
 * - Each pointer points to memory of its type, aligned, that lives through the call and that no
 *   other argument of the call overlaps.
 * - Each size is the size of the memory at its pointer, where it is within the limits above.
 * - A handle stays where it was opened: a copy of it elsewhere isn't open, and a copy that is put
 *   back in its place after lq_volume_close would be taken for an open one.
 * - A `bool` is 0 or 1.
 * - A handle is in one call at a time, on any thread, under a lock of yours; what lq_on_ready has
 *   called may use it. Handles know nothing of each other: two of them need no lock.
 * - No call comes from a signal handler, or from the child of a fork of a process with threads.
 * - malloc, realloc and free belong together, and align as the C standard says, up to 16 bytes.
 * - The stack has room: 160 KiB for lq_answer, and 64 KiB for each other call. What they took at most
 *   is 119 KiB, for JSON that is nested as deep as may be, and 47 KiB. That was measured, on x86-64,
 *   and isn't proved.
 */
#ifndef LQ_H
#define LQ_H

#include <stdbool.h>
#include <stddef.h>
#include <stdint.h>

#ifdef __cplusplus
extern "C" {
#endif

/* ---- versions, limits, statuses and handles ---- */

/* The version of this header: a million for each major version, a thousand for each minor one. */
#define LQ_VERSION 5000
#define LQ_VERSION_TEXT "0.5.0"

/* The version of the library. */
uint32_t lq_version(void);

/* The node of the root, and the number of slots. */
enum { LQ_ROOT = 1, LQ_SLOTS = 64 };

/* Limits in bytes: a name or the name of an attribute, the text of a value, a formula, a path. */
enum { LQ_NAME_SIZE = 255, LQ_TEXT_SIZE = 4096, LQ_FORMULA_SIZE = 4096, LQ_PATH_SIZE = 65536 };

/* The largest backlog of a query, and the one that it has where none is given. */
enum { LQ_BACKLOG = 65536 };

/* The most pushes to one stack: no query that is within the limits of formulas needs more. */
enum { LQ_PUSHES = 4096 };

/* The most values that are bound for the parameters of a formula. */
enum { LQ_VALUES = 256 };

/* A literal and its size, as two arguments of a call. What isn't a literal is not compiled. */
#define LQ_TEXT(literal) ("" literal), sizeof("" literal) - 1

/* The statuses: 0, the numbers of the refusals in a script's replies, and from 40 on those that the
 * calls alone answer. tools/api draws from here what else lists them. */
typedef enum lq_status {
    LQ_OK = 0,
    LQ_BAD_NAME = 1,      /* a name of an entry or of an attribute that breaks its rule */
    LQ_NO_NODE = 2,       /* no such node */
    LQ_NOT_FOLDER = 3,    /* the node that is named as a folder is a file */
    /* the folder has no entry of that name; or the root was asked for as an entry */
    LQ_NO_ENTRY = 4,
    LQ_EXISTS = 5,        /* the name is taken */
    LQ_WOULD_LOOP = 6,    /* a folder would move into itself or below itself */
    LQ_NOT_EMPTY = 7,     /* the folder that would go isn't empty */
    /* a move with clobber of a file over a folder, or of a folder over a file */
    LQ_KIND_CLASH = 8,
    LQ_IS_FOLDER = 9,     /* a size for a folder */
    LQ_NO_ATTR = 10,      /* the entry has no such attribute */
    /* a change of the root; or an attribute named `name`, `size` or `last_modified` */
    LQ_RESERVED = 11,
    LQ_TOO_LONG = 12,     /* a size or a text value over its limit */
    LQ_EXHAUSTED = 13,    /* the volume's limit of changes, or of openings, is reached */
    LQ_NO_MEMORY = 15,    /* memory ran out; a script ends then, so it is never printed */
    /* a faulty formula or pattern, with the byte place, or a push that doesn't fit, with the number
     * of accepted pushes */
    LQ_BAD_QUERY = 20,
    LQ_BAD_PORT = 21,     /* a port not from 1 to 1,024 */
    LQ_BAD_BACKLOG = 22,  /* a backlog over 65,536 */
    LQ_NO_SLOT = 23,      /* all 64 slots are taken */
    /* all 16 seats of a server for threads are out; no line of a script is answered so */
    LQ_NO_SEAT = 24,
    /* the slot is free, or not from 1 to 64; for `Close` also where the subscription has ended */
    LQ_NOT_OPEN = 25,
    LQ_STILL_OPEN = 26,   /* `Finish` of a slot whose mark wasn't taken */
    LQ_LONG_LINE = 30,    /* a line of more than 65,536 bytes */
    LQ_NOT_UTF8 = 31,     /* a line that is not UTF-8 */
    LQ_NOT_JSON = 32,     /* a line that is no JSON */
    LQ_BAD_LINE = 33,     /* a line whose object is no line of a script */
    /* `Rebuild::apply` was given a message that is not the next one; no line of a script is
     * answered so */
    LQ_OUT_OF_STEP = 34,
    /* `Rebuild::apply` was given a message that doesn't fit the result; no line of a script is
     * answered so */
    LQ_MISMATCH = 35,
    /* the handle isn't open, or another argument is none that the call takes */
    LQ_MISUSE = 40,
    LQ_EMPTY = 41,        /* nothing is there to read, or no entry is left */
    LQ_ENDED = 42,        /* the mark was read, and nothing comes after it */
    LQ_NO_VALUE = 43,     /* a parameter of the formula has no value */
    LQ_UNUSED_VALUE = 44, /* a value has no parameter in the formula */
    LQ_SYSTEM = 45,       /* a call of the system failed, as errno says */
    LQ_GONE_FOLDER = 46,  /* the folder that a handle of `lq_folder.h` follows has gone */
    LQ_BAD_SAVE = 47,     /* bytes are no saved volume or journal, or were cut or changed */
    /* a saved volume, or a journal, is of another version of the format */
    LQ_OTHER_VERSION = 48,
    LQ_LOCKED = 49,       /* another journal of `lq_journal.h` has the folder */
    /* the change was made in memory, and its journal can't be written: it may not be on disk */
    LQ_UNKEPT = 50,
    /* the change wasn't made, since one before it isn't on disk */
    LQ_HALTED = 51
} lq_status;

/* The name of a status, as "NoNode" for LQ_NO_NODE and "Ok" for LQ_OK. Null: no status has this
 * number. The text lives as long as the library. */
const char *lq_status_name(lq_status status);

/* What a handle calls once slots can be read (lq_on_ready). `slots` has their bits, as lq_ready. */
typedef void (*lq_ready_fn)(void *user, uint64_t slots);

/* A handle. Its fields belong to the library. `version` is the LQ_VERSION of its opening. */
typedef struct lq {
    void *at;
    uint64_t tag;
    uint64_t result;
    lq_ready_fn ready;
    void *user;
    uint32_t version;
    uint32_t pushes;
} lq;

/* A handle that isn't open, and was never: it counts its results from 1. */
#define LQ_INIT { 0, 0, 0, 0, 0, 0, 0 }

/* Opens a handle over a volume with the root alone. `version` is the LQ_VERSION with which the
 * caller was compiled, and lq_volume_open passes it. Until 1.0 a minor version may change structs
 * and statuses; so a library opens no volume for a caller of another minor version, or of a later
 * version than its own. LQ_MISUSE: `version` is one of these, or the handle is null or open
 * already. LQ_NO_MEMORY: the handle stays as it was. */
lq_status lq_volume_open_as(lq *handle, uint32_t version);

/* Opens a handle for a caller of this header. */
static inline lq_status lq_volume_open(lq *handle)
{
    return lq_volume_open_as(handle, LQ_VERSION);
}

/* Closes a handle and frees all that it holds. Nothing happens to null and to a handle that isn't
 * open, also to a copy of one that was closed. */
void lq_volume_close(lq *handle);

/* The place of the last fault. After LQ_BAD_QUERY it is the byte of the formula where it has its
 * leftmost fault, counted from 0, or 4096 for a formula of more bytes. For a call with pushed items
 * it is the number of pushes that were accepted since the stack was new. After LQ_NO_VALUE and
 * LQ_UNUSED_VALUE it is the number of the value, counted from 1. 0: no call was refused in this
 * way. Of a handle that lq_load left closed it is the byte where the fault is, counted from 0. */
uint64_t lq_fault_place(const lq *handle);

/* ---- a volume that is kept ---- */

/* What lq_save gives bytes to. It answers how many of the first ones it took, 1 to `size`; 0 or
 * less is a fault. It isn't called again after a fault. */
typedef ptrdiff_t (*lq_sink_fn)(void *user, const void *bytes, size_t size);

/* What lq_load takes bytes from. It writes at most `room` bytes and answers how many: at least 1,
 * or 0 at the end, or -1 for a fault. It isn't called again after a fault or the end. */
typedef ptrdiff_t (*lq_source_fn)(void *user, void *bytes, size_t room);

/* Gives the volume of a handle to `sink` as bytes, in pieces of at most 65,552: its entries with
 * their nodes and attributes, the number of changes, the next node and the limit. Live queries,
 * results, pushes and values aren't among them. docs/SPECIFICATION.md has the format. Until the
 * call ends the handle isn't open to others: calls in `sink` with it answer LQ_MISUSE, or do
 * nothing. LQ_MISUSE: `sink` is null, or took more than it was given. LQ_SYSTEM: it had a fault.
 * LQ_NO_MEMORY: it takes some 8 bytes an entry, and 24 at its beginning. */
lq_status lq_save(lq *handle, lq_sink_fn sink, void *user);

/* Opens a handle, as lq_volume_open_as, over the volume that the bytes of `source` are: it is the
 * one that was saved, and changes and nodes go on at the numbers of that one. It takes all bytes
 * up to the end. Until the call ends the handle isn't open, and calls in `source` with it answer
 * LQ_MISUSE. After any other status than LQ_OK the handle is closed. LQ_MISUSE: as
 * lq_volume_open_as, or `source` is null, or gave more than was asked for. LQ_SYSTEM: it had a
 * fault. LQ_OTHER_VERSION: the bytes are of a version of the format that the library doesn't know.
 * LQ_BAD_SAVE: they are no saved volume, as where they were cut or a byte was turned. After these
 * two lq_fault_place, lq_fault_node and lq_fault_reason say more. LQ_NO_MEMORY. */
lq_status lq_load_as(lq *handle, uint32_t version, lq_source_fn source, void *user);

/* Loads a volume for a caller of this header. */
static inline lq_status lq_load(lq *handle, lq_source_fn source, void *user)
{
    return lq_load_as(handle, LQ_VERSION, source, user);
}

/* Opens the handle `copy` over a copy of a handle's volume, as if it were saved and loaded. What is
 * done with one of them doesn't change the other. LQ_MISUSE: `copy` is null or open.
 * LQ_NO_MEMORY: `copy` stays as it was. */
lq_status lq_volume_copy(const lq *handle, lq *copy);

/* The node of the entry that lq_load refused, if the fault is one of an entry, and else 0. */
uint64_t lq_fault_node(const lq *handle);

/* Why lq_load refused the bytes, as one of the words in docs/SPECIFICATION.md, such as "Cut". Null:
 * the handle is open, or its last lq_load wasn't refused in this way. The text lives as long as the
 * library. */
const char *lq_fault_reason(const lq *handle);

/* ---- a script's lines ---- */

/* Answers one line of a script, without its LF. The reply, JSON with LF, has the bytes that
 * `lq run` writes for the line, and the handle is as a script is after it. A line and the calls
 * below act on the same volume and slots. `*size` is the size of the reply, which lq_text copies
 * until another call that writes such a text; 0 for an empty line, which has none. A refused line
 * is answered with LQ_OK, and says so in its reply. LQ_NO_MEMORY: there is no reply, and nothing is
 * said of whether the line was carried out. A message that it read is lost; lq_result has it, or
 * the slot is left without a rebuilt result. */
lq_status lq_answer(lq *handle, const char *line, size_t line_size, size_t *size);

/* Copies the text of the last lq_answer or lq_path, or of a formula with its values
 * (lq_query_open_bound), and answers its size. Where `room` is smaller nothing is copied; where it
 * is larger a NUL comes after the text. */
size_t lq_text(const lq *handle, char *out, size_t room);

/* ---- changes ---- */

/* What an entry is. LQ_GONE stands for a node that was removed, in a result that has it still. */
typedef enum lq_kind { LQ_FILE = 0, LQ_FOLDER = 1, LQ_GONE = 2 } lq_kind;

/* The effect of a change: its number, and the node that it created or named. Each call that
 * makes a change allows null for it. */
typedef struct lq_applied {
    uint64_t change;
    uint64_t node;
} lq_applied;

/* Creates an entry in a folder, under the next node. The size of a folder is 0.
 * LQ_BAD_LINE: the kind is neither LQ_FILE nor LQ_FOLDER. LQ_BAD_NAME. Then as the volume refuses
 * it: LQ_NO_NODE, LQ_NOT_FOLDER, LQ_EXISTS, LQ_IS_FOLDER, LQ_TOO_LONG, LQ_EXHAUSTED.
 * LQ_NO_MEMORY. */
lq_status lq_create(lq *handle, uint64_t dir, const char *name, size_t name_size, uint32_t kind,
                    uint64_t size, int64_t time, lq_applied *out);

/* Removes the entry of a node. LQ_NO_NODE, LQ_RESERVED for the root, LQ_NOT_EMPTY for a folder with
 * entries, LQ_EXHAUSTED. LQ_NO_MEMORY. */
lq_status lq_remove(lq *handle, uint64_t node, lq_applied *out);

/* Moves the entry of a node to another place; with `clobber` another entry there is removed.
 * LQ_BAD_NAME, LQ_NO_NODE, LQ_RESERVED, LQ_NOT_FOLDER, LQ_WOULD_LOOP, LQ_EXISTS without `clobber`,
 * LQ_KIND_CLASH and LQ_NOT_EMPTY with it, LQ_EXHAUSTED. LQ_NO_MEMORY. */
lq_status lq_move(lq *handle, uint64_t node, uint64_t dir, const char *name, size_t name_size,
                  bool clobber, lq_applied *out);

/* Sets a file's size and its last_modified. LQ_NO_NODE, LQ_RESERVED, LQ_IS_FOLDER, LQ_TOO_LONG,
 * LQ_EXHAUSTED. LQ_NO_MEMORY. */
lq_status lq_write(lq *handle, uint64_t node, uint64_t size, int64_t time, lq_applied *out);

/* Sets an attribute of an entry; one that it has keeps its position. LQ_BAD_NAME: the attribute's
 * name. LQ_TOO_LONG: a text above LQ_TEXT_SIZE. LQ_NO_NODE, LQ_RESERVED for the root and for the
 * names name, size and last_modified, LQ_EXHAUSTED. LQ_NO_MEMORY. */
lq_status lq_set_text(lq *handle, uint64_t node, const char *attr, size_t attr_size,
                      const char *text, size_t text_size, lq_applied *out);
lq_status lq_set_int32(lq *handle, uint64_t node, const char *attr, size_t attr_size,
                       int32_t value, lq_applied *out);
lq_status lq_set_int64(lq *handle, uint64_t node, const char *attr, size_t attr_size,
                       int64_t value, lq_applied *out);
lq_status lq_set_uint32(lq *handle, uint64_t node, const char *attr, size_t attr_size,
                        uint32_t value, lq_applied *out);
lq_status lq_set_uint64(lq *handle, uint64_t node, const char *attr, size_t attr_size,
                        uint64_t value, lq_applied *out);

/* Removes an attribute of an entry. LQ_BAD_NAME, LQ_NO_NODE, LQ_RESERVED, LQ_NO_ATTR, LQ_EXHAUSTED.
 * LQ_NO_MEMORY. */
lq_status lq_unset(lq *handle, uint64_t node, const char *attr, size_t attr_size, lq_applied *out);

/* ---- results ---- */

/* An entry of a result: its folder, its node and its name, as the result has them; its kind, its
 * size and its last_modified as they are when it is taken. A node that was removed since has the
 * kind LQ_GONE, and 0 for both. */
typedef struct lq_row {
    uint64_t dir;
    uint64_t node;
    uint64_t size;
    int64_t time;
    uint32_t kind;
    size_t name_size;
    char name[LQ_NAME_SIZE + 1];
} lq_row;

/* Takes the next entries of a result, `room` at most, and writes how many there were: fewer than
 * `room`, once none is left. A handle has one result at a time, whose number the call that made it
 * has written as `result` (the openings and fetches, lq_result, lq_children); it doesn't change
 * with the volume. LQ_MISUSE: another result was made since, or the handle was closed. A handle
 * that is opened again counts on, so no number is given twice, unless it was set to LQ_INIT in
 * between. To use two results at once, take all of the first, whose `count` is known, before the
 * second is made. */
lq_status lq_take(lq *handle, uint64_t result, lq_row *out, size_t room, size_t *got);

/* Takes the next entry alone. LQ_NO_ENTRY: none is left. LQ_MISUSE: as lq_take. */
lq_status lq_next(lq *handle, uint64_t result, lq_row *out);

/* ---- live queries ---- */

/* How a query is opened. A change ends the query where its messages and those that wait beside the
 * oldest are more than `backlog`, 1 to LQ_BACKLOG; 0 stands for LQ_BACKLOG. With `moved` one
 * message says that an entry of the result moved, where otherwise one says that it left and
 * another that it came. With `no_result` the handle keeps no rebuilt result for lq_result. With
 * `values` a write, or an attribute that is set or removed, has one message too, if the entry is in
 * the result before and after it, and also where the value stays the same. */
typedef struct lq_options {
    uint64_t backlog;
    bool moved;
    bool no_result;
    bool values;
} lq_options;

/* The options that null stands for. */
#define LQ_OPTIONS_INIT { 0, 0, 0, 0 }

/* An opened query: its slot, the number of changes so far, how many entries the result has, which
 * lq_take gives by rising node, and the number of that result. */
typedef struct lq_opening {
    uint64_t slot;
    uint64_t at;
    size_t count;
    uint64_t result;
} lq_opening;

/* Opens a live query in the lowest free slot; null options are LQ_OPTIONS_INIT. LQ_BAD_QUERY, then
 * LQ_BAD_BACKLOG, LQ_NO_SLOT, LQ_EXHAUSTED. LQ_NO_MEMORY. */
lq_status lq_query_open(lq *handle, const char *formula, size_t formula_size,
                        const lq_options *options, lq_opening *out);

/* What a read took: a message, or the mark that ends the query. */
typedef enum lq_what { LQ_UPDATE = 1, LQ_END = 2 } lq_what;

/* What a message says of an entry, by the numbers of Be's NodeMonitor.h. It entered the result,
 * left it, or moved in it. Or its size and last_modified were written, or an attribute of it was
 * set or removed: these two leave the result as it is, and come with the option `values` alone. */
typedef enum lq_op {
    LQ_ENTRY_CREATED = 1,
    LQ_ENTRY_REMOVED = 2,
    LQ_ENTRY_MOVED = 3,
    LQ_STAT_CHANGED = 4,
    LQ_ATTR_CHANGED = 5
} lq_op;

/* Why a query ended: lq_query_close, lq_hang_up, or more messages than its backlog holds. */
typedef enum lq_cause { LQ_CLOSED = 1, LQ_HUNG_UP = 2, LQ_OVERRUN = 3 } lq_cause;

/* What a read gave. `what` is an lq_what, `op` an lq_op and `cause` an lq_cause. `seq` counts a
 * query's messages, and then the mark, from 1. `change` is the change that made the message, and at
 * the mark the last one that the messages cover. `last` is true at the final message of a change.
 * `dir`, `name` and `node` are the entry's, after the change; `from_dir` and `from_name` are the
 * place that it moved from, and `attr` is the name of the attribute that was set or removed. The
 * values themselves aren't in it: lq_entry and lq_attr_named give those that are there now. A field
 * that `what` and `op` give no meaning is 0, and its name is the empty text. */
typedef struct lq_message {
    uint64_t seq;
    uint64_t change;
    uint64_t dir;
    uint64_t node;
    uint64_t from_dir;
    uint32_t what;
    uint32_t op;
    uint32_t cause;
    bool last;
    size_t name_size;
    size_t from_name_size;
    size_t attr_size;
    char name[LQ_NAME_SIZE + 1];
    char from_name[LQ_NAME_SIZE + 1];
    char attr[LQ_NAME_SIZE + 1];
} lq_message;

/* Which slots have a message or a mark to read: the bit `slot - 1` is set just where lq_read would
 * answer LQ_OK. It takes no memory. */
uint64_t lq_ready(const lq *handle);

/* Sets what the handle calls once slots can be read. A call that makes slots readable calls `call`
 * last, once, with `user` and the bits of these slots. Changes, lq_hang_up, lq_query_close and
 * lq_answer do so, and no other call. A slot that could be read before it isn't among the bits. So
 * read a slot until lq_read doesn't answer LQ_OK, and look at lq_ready once after lq_on_ready.
 * `call` runs on the thread of that call. It may use the handle, close it, and open it again; what
 * it makes readable is told in a call inside it. An lq_answer or lq_path in it replaces the reply
 * of an lq_answer around it. Null: nothing is called any more. lq_volume_close forgets `call`. It
 * takes no memory. */
lq_status lq_on_ready(lq *handle, lq_ready_fn call, void *user);

/* Takes the oldest message of a slot, or the mark after the last one. LQ_NOT_OPEN: the slot is
 * free. LQ_EMPTY: nothing is there to read. LQ_ENDED: the mark was read. So a loop that reads while
 * the answer is LQ_OK ends. It never answers LQ_NO_MEMORY, and loses no message: where memory runs
 * out for the slot's rebuilt result, the slot is left without that alone (lq_result). Where the
 * caller does what this header asks, it is proved that the reads of a slot, from its opening on,
 * give each message once and in order, and then the mark. */
lq_status lq_read(lq *handle, uint64_t slot, lq_message *out);

/* Takes the oldest messages of a slot, and the mark after them, as repeated calls of lq_read would:
 * at most `room`, and up to the first call that wouldn't answer LQ_OK. `*got` is how many there
 * were, which may be 0; the places after them stay as they were. LQ_NOT_OPEN: the slot is free. */
lq_status lq_read_many(lq *handle, uint64_t slot, lq_message *out, size_t room, size_t *got);

/* Asks for the end of a slot's query, as its reader does; the next change, read or lq_query_close
 * ends it. LQ_NOT_OPEN: the slot is free. It takes no memory. */
lq_status lq_hang_up(lq *handle, uint64_t slot);

/* Ends a slot's query; its messages and its mark can still be read. `*change` is the last change
 * that they cover; null is allowed. LQ_NOT_OPEN: the slot is free, or its query has ended. It takes
 * no memory. */
lq_status lq_query_close(lq *handle, uint64_t slot, uint64_t *change);

/* Frees a slot whose mark was read. LQ_NOT_OPEN: the slot is free. LQ_STILL_OPEN: the mark wasn't
 * read. It takes no memory. */
lq_status lq_finish(lq *handle, uint64_t slot);

/* Ends a slot's query where it hasn't ended, discards its messages and its mark, and frees the
 * slot. LQ_NOT_OPEN: the slot is free. */
lq_status lq_drop(lq *handle, uint64_t slot);

/* The result of a slot, rebuilt from its opening and the messages that were read from it. `change`
 * is the number of the change that made the last of these messages. `settled` is true if that
 * message was the final one of its change, so that this is the query's result then. `count` is how
 * many entries lq_take gives, by rising node, and `result` the number of this result. */
typedef struct lq_rebuilt {
    uint64_t change;
    size_t count;
    bool settled;
    uint64_t result;
} lq_rebuilt;

/* LQ_NOT_OPEN: the slot is free, or it has no rebuilt result: it was opened with `no_result`, or
 * memory ran out for it as it was opened or read, by a call or by a line. LQ_NO_MEMORY. */
lq_status lq_result(lq *handle, uint64_t slot, lq_rebuilt *out);

/* ---- looks at the volume, which change nothing ---- */

/* The number of changes so far, how many entries lq_take gives, by rising node, and the number of
 * this result. */
typedef struct lq_fetched {
    uint64_t at;
    size_t count;
    uint64_t result;
} lq_fetched;

/* The entries that match a formula now. LQ_BAD_QUERY. LQ_NO_MEMORY. */
lq_status lq_fetch(lq *handle, const char *formula, size_t formula_size, lq_fetched *out);

/* The node of the entry with this name in a folder. LQ_BAD_NAME, LQ_NO_NODE, LQ_NOT_FOLDER,
 * LQ_NO_ENTRY. LQ_NO_MEMORY. */
lq_status lq_find(const lq *handle, uint64_t dir, const char *name, size_t name_size,
                  uint64_t *node);

/* The node at the end of a path from a folder: names with one `/` or more between them, before them
 * or after them. A path without a name is the folder itself, and isn't refused. LQ_BAD_NAME: it is
 * above LQ_PATH_SIZE. Else it is refused as lq_find refuses the first of its names that doesn't
 * lead on. */
lq_status lq_find_path(const lq *handle, uint64_t dir, const char *path, size_t path_size,
                       uint64_t *node);

/* An entry: its place, its kind, its size and last_modified, and how many attributes it has. */
typedef struct lq_info {
    uint64_t dir;
    uint64_t node;
    uint64_t size;
    int64_t time;
    uint32_t kind;
    size_t attr_count;
    size_t name_size;
    char name[LQ_NAME_SIZE + 1];
} lq_info;

/* The entry of a node. LQ_NO_NODE, LQ_NO_ENTRY for the root. It takes no memory. */
lq_status lq_entry(const lq *handle, uint64_t node, lq_info *out);

/* The types of an attribute, by the numbers of Be's TypeConstants.h: 'CSTR', 'LONG', 'LLNG',
 * 'ULNG', 'ULLG'. */
typedef enum lq_type {
    LQ_TYPE_TEXT = 0x43535452,
    LQ_TYPE_INT32 = 0x4C4F4E47,
    LQ_TYPE_INT64 = 0x4C4C4E47,
    LQ_TYPE_UINT32 = 0x554C4E47,
    LQ_TYPE_UINT64 = 0x554C4C47
} lq_type;

/* An attribute: `type` is an lq_type. LQ_TYPE_TEXT has its text in `text`, LQ_TYPE_INT32 and
 * LQ_TYPE_INT64 their number in `whole`, LQ_TYPE_UINT32 and LQ_TYPE_UINT64 theirs in `natural`. The
 * other fields are 0. */
typedef struct lq_attr {
    uint32_t type;
    int64_t whole;
    uint64_t natural;
    size_t name_size;
    size_t text_size;
    char name[LQ_NAME_SIZE + 1];
    char text[LQ_TEXT_SIZE + 1];
} lq_attr;

/* An attribute of an entry by its index, from 0 in the order in which they were first set.
 * LQ_NO_NODE, LQ_NO_ENTRY for the root, LQ_NO_ATTR. It takes no memory. */
lq_status lq_attr_at(const lq *handle, uint64_t node, size_t index, lq_attr *out);

/* An attribute of an entry by its name. LQ_BAD_NAME, LQ_NO_NODE, LQ_NO_ENTRY for the root,
 * LQ_NO_ATTR. LQ_NO_MEMORY. */
lq_status lq_attr_named(const lq *handle, uint64_t node, const char *attr, size_t attr_size,
                        lq_attr *out);

/* The entries of a folder: how many lq_take gives, in the order of their names, byte by byte, and
 * the number of this result. */
typedef struct lq_listing {
    size_t count;
    uint64_t result;
} lq_listing;

/* LQ_NO_NODE, LQ_NOT_FOLDER. LQ_NO_MEMORY. */
lq_status lq_children(lq *handle, uint64_t dir, lq_listing *out);

/* The path of an entry: the names from the root down, each with `/` before it; for the root `/`
 * alone. `*size` is its size, and lq_text copies it. LQ_NO_NODE. LQ_NO_MEMORY. */
lq_status lq_path(lq *handle, uint64_t node, size_t *size);

/* The number of changes so far. It takes no memory. */
uint64_t lq_changes(const lq *handle);

/* ---- a query by pushes, in postfix order as BQuery's ---- */

/* The operators. */
typedef enum lq_operator {
    LQ_EQ = 1,
    LQ_NE = 2,
    LQ_GT = 3,
    LQ_GE = 4,
    LQ_LT = 5,
    LQ_LE = 6,
    LQ_CONTAINS = 7,
    LQ_BEGINS_WITH = 8,
    LQ_ENDS_WITH = 9,
    LQ_AND = 10,
    LQ_OR = 11,
    LQ_NOT = 12
} lq_operator;

/* Pushes an attribute's name, a value, or an operator, which takes what it needs from the top: a
 * comparison a value and the attribute below it, LQ_AND and LQ_OR two predicates, LQ_NOT one.
 * LQ_BAD_QUERY: the push doesn't fit. It is a name of no attribute, a text above LQ_TEXT_SIZE,
 * items are missing, a text is no pattern for LQ_EQ and LQ_NE, or a limit of formulas is met. The
 * stack stays as it is, and lq_fault_place is the number of pushes accepted before. LQ_MISUSE:
 * LQ_PUSHES were accepted since the stack was new. LQ_BAD_LINE: no operator has this number.
 * LQ_NO_MEMORY: the stack stays as it is. */
lq_status lq_push_attr(lq *handle, const char *attr, size_t attr_size);
lq_status lq_push_text(lq *handle, const char *text, size_t text_size);
lq_status lq_push_int32(lq *handle, int32_t value);
lq_status lq_push_int64(lq *handle, int64_t value);
lq_status lq_push_uint32(lq *handle, uint32_t value);
lq_status lq_push_uint64(lq *handle, uint64_t value);
lq_status lq_push_op(lq *handle, uint32_t op);

/* Empties the stack. */
lq_status lq_clear_pushed(lq *handle);

/* lq_query_open and lq_fetch of the predicate that is the stack's only item. They take it off, also
 * where they are refused after that. LQ_BAD_QUERY: the stack holds anything else; it stays. */
lq_status lq_query_open_pushed(lq *handle, const lq_options *options, lq_opening *out);
lq_status lq_fetch_pushed(lq *handle, lq_fetched *out);

/* ---- texts and values in a formula ---- */

/* Writes a text as a literal that matches just this text after `==`, `=` and `!=`: between `"`,
 * with a `\` before each `*`, `?`, `[`, `\` and `"`. It answers the size of the literal. Where
 * `room` is smaller nothing is written; where it is larger a NUL comes after the literal. It needs
 * no handle, and takes no memory. 0: the text is above LQ_TEXT_SIZE, or null with a size. Bytes
 * that are no UTF-8 are quoted as they are, and refused with the formula. After other operators a
 * literal is no pattern, and has a `\` before `\` and `"` alone: bind a text there. */
size_t lq_quote(const char *text, size_t text_size, char *out, size_t room);

/* Binds a value. The first one stands for `$1` in the next lq_query_open_bound or lq_fetch_bound,
 * the second for `$2`, and so on to `$256`. LQ_MISUSE: LQ_VALUES are bound already. LQ_NOT_UTF8 and
 * LQ_TOO_LONG for a text. LQ_NO_MEMORY. A value that is refused isn't bound. */
lq_status lq_bind_text(lq *handle, const char *text, size_t text_size);
lq_status lq_bind_int64(lq *handle, int64_t value);
lq_status lq_bind_uint64(lq *handle, uint64_t value);

/* Takes all bound values off. */
lq_status lq_clear_bound(lq *handle);

/* lq_query_open and lq_fetch of a formula with the bound values in place of its parameters. A
 * parameter is a literal that is one of `$1` to `$256`, without quotes and `\`. A bound number
 * takes its place in decimal, a bound text between `"`. After `==`, `=` and `!=` the text is
 * written as by lq_quote, so that it is no pattern. After other operators it is plain. Both calls
 * take all values off, also where they are refused, but for LQ_MISUSE. LQ_NO_MEMORY. Else they are
 * refused in this order:
 * - LQ_BAD_QUERY: the formula is above LQ_FORMULA_SIZE, a quoted text in it has no end, a `\` ends
 *   it, or it has a `&` or `|` alone. Then lq_text copies the empty text.
 * - LQ_NO_VALUE: no value was bound for a parameter. lq_fault_place is the number of the leftmost
 *   parameter without a value.
 * - LQ_UNUSED_VALUE: no parameter stands for a bound value. lq_fault_place is the number of the
 *   first value of this kind.
 * - As lq_query_open and lq_fetch refuse the formula with its values in place. After LQ_BAD_QUERY
 *   lq_fault_place is a byte of that formula, which lq_text copies. */
lq_status lq_query_open_bound(lq *handle, const char *formula, size_t formula_size,
                              const lq_options *options, lq_opening *out);
lq_status lq_fetch_bound(lq *handle, const char *formula, size_t formula_size, lq_fetched *out);

#ifdef __cplusplus
}
#endif
#endif
