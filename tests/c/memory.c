/* Each growth of memory that a call asks for, refused in turn. The call answers LQ_NO_MEMORY, leaves its `out`, and
   changes nothing: it then succeeds, and all that follows is answered as by a handle that was never refused; but a call
   that takes pushes or bound values off does so all the same. lq_read and a subscription go without their rebuilt result instead.
   Nothing is left once a handle is closed. The linker puts the calls of refusals.h in place of the C library's.
   memory drawn SECONDS SEED: over drawn sequences of all calls, for so long. */
#include "drawn.h"
#include "refusals.h"
#include <time.h>

static long left; /* growths up to the one that is refused; 0: none is */

static bool is_refused(void) {
    if (left == 0 || --left != 0) return false;
    refusals++;
    return true;
}

/* A call, or what says the same as a line; what it gives is added to a text. */
typedef lq_status step(lq *handle, text *to);

/* That a call that was refused has left its `out`. */
#define LEFT(out) CHECK(is_poison(&(out), sizeof(out)))

static lq_status children(lq *handle, text *to) {
    lq_listing listing;
    POISON(listing);
    lq_status status = lq_children(handle, 1, &listing);
    if (status == LQ_OK) say_result(to, handle, listing.result, listing.count);
    else LEFT(listing);
    return status;
}

static lq_status path(lq *handle, text *to) {
    static char room[LQ_PATH_SIZE + 1];
    size_t size;
    POISON(size);
    lq_status status = lq_path(handle, 3, &size);
    if (status == LQ_OK) add(to, room, lq_text(handle, room, sizeof room));
    else LEFT(size);
    return status;
}

static lq_status attr_named(lq *handle, text *to) {
    lq_attr attr;
    lq_status status = lq_attr_named(handle, 3, TEXT("a name of many bytes"), &attr);
    if (status == LQ_OK) add(to, attr.text, attr.text_size);
    return status;
}

#define LONG_NAME "a name that has more bytes than stand in their place"

/* A path to a name that isn't there, which takes memory to be read. */
static lq_status find_path(lq *handle, text *to) {
    uint64_t node;
    POISON(node);
    lq_status status = lq_find_path(handle, 1, TEXT("/folder//" LONG_NAME "/b"), &node);
    if (status == LQ_OK) add(to, (const char *)&node, sizeof node);
    else LEFT(node);
    return status;
}

static lq_status fetch_and_take(lq *handle, text *to) {
    lq_fetched fetched;
    lq_row rows[8];
    size_t got;
    lq_status status = lq_fetch(handle, TEXT("size>=0"), &fetched);
    if (status != LQ_OK) return status;
    OK(lq_take(handle, fetched.result, rows, 8, &got));
    WANT(got, fetched.count < 8 ? fetched.count : 8);
    for (size_t at = 0; at < got; at++) add(to, rows[at].name, rows[at].name_size);
    return status;
}

/* A result that was fetched before can still be taken where another fetch is refused. */
static lq_status fetch_beside(lq *handle, text *to) {
    lq_fetched before, fetched;
    lq_row row;
    lq_status status = lq_fetch(handle, TEXT("size>=0"), &before);
    if (status != LQ_OK) return status;
    POISON(fetched);
    status = lq_fetch(handle, TEXT("name=*"), &fetched);
    if (status == LQ_OK) say_result(to, handle, fetched.result, fetched.count);
    else LEFT(fetched);
    if (status == LQ_NO_MEMORY && before.count > 0) OK(lq_next(handle, before.result, &row));
    return status;
}

static lq_status open_all(lq *handle, text *to) {
    lq_opening opening;
    POISON(opening);
    lq_status status = lq_query_open(handle, TEXT("size>=0"), NULL, &opening);
    if (status == LQ_OK) say_result(to, handle, opening.result, opening.count);
    else LEFT(opening);
    return status;
}

static lq_status open_without_result(lq *handle, text *to) {
    const lq_options options = {0, false, true, false};
    lq_opening opening;
    lq_status status = lq_query_open(handle, TEXT("size>=0"), &options, &opening);
    if (status == LQ_OK) say_result(to, handle, opening.result, opening.count);
    return status;
}

static lq_status create_late(lq *handle, text *to) {
    lq_applied applied;
    POISON(applied);
    lq_status status = lq_create(handle, 1, TEXT("late"), LQ_FILE, 1, 1, &applied);
    if (status == LQ_OK) add(to, (const char *)&applied.node, sizeof applied.node);
    else LEFT(applied);
    return status;
}

static lq_status read_many(lq *handle, text *to) {
    lq_message all[4];
    size_t got;
    lq_status status = lq_read_many(handle, 2, all, 4, &got);
    if (status != LQ_OK) return status;
    for (size_t at = 0; at < got; at++) say_message(to, &all[at]);
    return status;
}

static lq_status drop(lq *handle, text *to) {
    lq_message message;
    lq_status status = lq_drop(handle, 2);
    (void)to;
    if (status == LQ_OK) WANT(lq_read(handle, 2, &message), LQ_NOT_OPEN);
    return status;
}

/* A push or a value, which gives nothing. */
#define PUSH(name, call) \
    static lq_status name(lq *handle, text *to) { \
        (void)to; \
        return call; \
    }

PUSH(push_attr, lq_push_attr(handle, TEXT("an attribute of many bytes")))
PUSH(push_text, lq_push_text(handle, TEXT("[a-z]*b?c, a text of many bytes")))
PUSH(push_int32, lq_push_int32(handle, INT32_MIN))
PUSH(push_int64, lq_push_int64(handle, INT64_MIN))
PUSH(push_uint32, lq_push_uint32(handle, UINT32_MAX))
PUSH(push_uint64, lq_push_uint64(handle, UINT64_MAX))
PUSH(push_ne, lq_push_op(handle, LQ_NE))
PUSH(push_contains, lq_push_op(handle, LQ_CONTAINS))
PUSH(push_gt, lq_push_op(handle, LQ_GT))
PUSH(push_and, lq_push_op(handle, LQ_AND))
PUSH(push_or, lq_push_op(handle, LQ_OR))
PUSH(push_not, lq_push_op(handle, LQ_NOT))

static lq_status fetch_pushed(lq *handle, text *to) {
    lq_fetched fetched;
    lq_status status = lq_fetch_pushed(handle, &fetched);
    if (status == LQ_OK) say_result(to, handle, fetched.result, fetched.count);
    return status;
}

static lq_status open_pushed(lq *handle, text *to) {
    const lq_options options = {16, true, false, false};
    lq_opening opening;
    lq_status status = lq_query_open_pushed(handle, &options, &opening);
    if (status == LQ_OK) say_result(to, handle, opening.result, opening.count);
    return status;
}

PUSH(bind_text, lq_bind_text(handle, TEXT("[a-z]*b?c, a text of many bytes")))
PUSH(bind_int64, lq_bind_int64(handle, INT64_MIN))
PUSH(bind_uint64, lq_bind_uint64(handle, UINT64_MAX))

static lq_status fetch_bound(lq *handle, text *to) {
    lq_fetched fetched;
    POISON(fetched);
    lq_status status = lq_fetch_bound(handle, TEXT("size>$2&&(name!=$1||size<$3)"), &fetched);
    if (status == LQ_OK) say_result(to, handle, fetched.result, fetched.count);
    else LEFT(fetched);
    return status;
}

static lq_status open_bound(lq *handle, text *to) {
    lq_opening opening;
    POISON(opening);
    lq_status status = lq_query_open_bound(handle, TEXT("name<$1||name>=$1"), NULL, &opening);
    if (status == LQ_OK) {
        say_result(to, handle, opening.result, opening.count);
        OK(lq_drop(handle, opening.slot));
    } else LEFT(opening);
    return status;
}

#define LONG_TEXT "a text of more bytes than stand in their place"
#define NAME(text) .name = text, .name_size = sizeof(text) - 1
#define FILE_AT(folder, text) \
    { .word = CREATE, .dir = folder, .size = 200, .time = 1, .kind = LQ_FILE, NAME(text) }
#define FOLDER_AT(folder, text) \
    { .word = CREATE, .dir = folder, .time = 1, .kind = LQ_FOLDER, NAME(text) }
#define QUERY(what, formula, most, moved) \
    { \
        .word = what, .text = formula, .text_size = sizeof(formula) - 1, .backlog = most, \
        .flag = moved \
    }
#define WITH_VALUES(formula, most) \
    { \
        .word = OPEN, .text = formula, .text_size = sizeof(formula) - 1, .backlog = most, \
        .flag = true, .values = true \
    }
#define MOVE_TO(number, folder, text, clobber) \
    { .word = MOVE, .node = number, .dir = folder, .flag = clobber, NAME(text) }
#define VALUE(kind, value) \
    { .word = SET, .node = 3, .type = kind, .number = value, NAME("n") }
#define TEXT_VALUE(attr, value) \
    { \
        .word = SET, .node = 3, .type = LQ_TYPE_TEXT, .text = value, .text_size = sizeof(value) - 1, \
        NAME(attr) \
    }
#define OF(what, number) \
    { .word = what, .node = number, .size = 777, .time = 7 }
#define BY_NAME(what, number, folder, text) \
    { .word = what, .node = number, .dir = folder, NAME(text) }

static const act acts[] = {FOLDER_AT(1, "folder"),
                           FILE_AT(2, "a.txt"),
                           FILE_AT(1, LONG_NAME),
                           QUERY(OPEN, "name==*&&!(size<100||TAG==\"[a-c]x*\")", 64, false),
                           QUERY(OPEN, "size>100", 64, true),
                           QUERY(OPEN, "(", 64, true),
                           WITH_VALUES("size>100", 64),
                           FILE_AT(1, "b.txt"),
                           MOVE_TO(3, 1, "another name of many bytes", false),
                           MOVE_TO(5, 1, "another name of many bytes", true),
                           OF(WRITE, 4),
                           { .word = SET, .node = 4, .type = LQ_TYPE_INT32, NAME("a name of many bytes") },
                           BY_NAME(UNSET, 4, 0, "a name of many bytes"),
                           TEXT_VALUE("a name of many bytes", LONG_TEXT),
                           MOVE_TO(4, 2, "c", false),
                           OF(READ, 1),
                           OF(READ, 1),
                           OF(READ, 1),
                           OF(READ, 1),
                           OF(READ, 1),
                           OF(READ, 1),
                           OF(RESULT, 1),
                           OF(READ, 2),
                           OF(READ, 2),
                           OF(READ, 2),
                           OF(RESULT, 2),
                           FILE_AT(2, "a.txt"),
                           FILE_AT(1, "again"),
                           OF(READ, 2),
                           OF(READ, 1),
                           OF(READ, 3),
                           OF(READ, 3),
                           OF(READ, 3),
                           OF(READ, 3),
                           OF(READ, 3),
                           OF(READ, 3),
                           OF(READ, 3),
                           OF(RESULT, 3),
                           BY_NAME(FIND, 0, 1, LONG_NAME),
                           BY_NAME(FIND, 0, 2, "a.txt"),
                           OF(ENTRY, 5),
                           QUERY(FETCH, "size>=0||name==\"*x*\"", 0, false),
                           QUERY(FETCH, "name==[", 0, false),
                           OF(HANG_UP, 2),
                           OF(REMOVE, 4),
                           OF(READ, 2),
                           OF(CLOSE, 1),
                           OF(READ, 1),
                           OF(READ, 1),
                           OF(READ, 1),
                           OF(READ, 1),
                           OF(FINISH, 1),
                           QUERY(OPEN, "name==*", 1, false),
                           OF(REMOVE, 6),
                           OF(READ, 1)};

/* Results that begin empty and grow as they are read: their rows take memory then. */
#define GROWS(name) FILE_AT(1, name), OF(READ, 1), OF(READ, 2)
static const act growing[] = {QUERY(OPEN, "size>100", 64, false), QUERY(OPEN, "name==*", 64, true),
                              GROWS("a"), GROWS("b"), GROWS("c"), GROWS("d"), GROWS("e"), GROWS("f"),
                              GROWS("g"), GROWS("h"), GROWS("i")};

/* The second list begins anew with the entries of two acts. */
static const act values[] = {FOLDER_AT(1, "folder"),
                             FILE_AT(2, "a.txt"),
                             VALUE(LQ_TYPE_INT32, -1),
                             VALUE(LQ_TYPE_INT64, INT64_MIN),
                             VALUE(LQ_TYPE_UINT32, 7),
                             VALUE(LQ_TYPE_UINT64, -1),
                             TEXT_VALUE("a name of many bytes", LONG_TEXT),
                             TEXT_VALUE("n", LONG_TEXT),
                             OF(ENTRY, 3),
                             BY_NAME(UNSET, 3, 0, "n"),
                             BY_NAME(UNSET, 3, 0, "n"),
                             OF(ENTRY, 3)};

static step *const steps[] = {
    children,     path,         attr_named,  push_attr,    push_text,      push_ne,   push_attr,
    push_text,    push_contains, push_and,   push_attr,    push_int32,     push_gt,   push_or,
    push_not,     fetch_pushed, fetch_pushed, push_attr,   push_int64,     push_gt,   push_not,
    open_pushed,  bind_text,    bind_int64,  bind_uint64,  fetch_bound,    bind_text, open_bound,
    find_path,    fetch_and_take, fetch_beside, open_all,  create_late,    read_many, drop,
    open_without_result, push_attr, push_uint32, push_uint64, push_and};

enum {
    ACTS = sizeof acts / sizeof *acts,
    VALUES = sizeof values / sizeof *values,
    STEPS = sizeof steps / sizeof *steps
};

/* A call of one of the two scripts: the acts, or the values and then the steps. It is none at the script's end. */
static bool call(lq *handle, int script, size_t number, text *to, lq_status *status) {
    if (script == 0 && number < ACTS) *status = by_call(handle, &acts[number], to);
    else if (script == 1 && number < VALUES) *status = by_call(handle, &values[number], to);
    else if (script == 1 && number < VALUES + STEPS) *status = steps[number - VALUES](handle, to);
    else return false;
    return true;
}

/* Whether a call takes the pushes or the values off, whatever it answers. */
static bool takes_off(int script, size_t number) {
    if (script == 0 || number < VALUES) return false;
    step *const one = steps[number - VALUES];
    return one == fetch_pushed || one == open_pushed || one == fetch_bound || one == open_bound;
}

/* Where a call is made again: at itself, or at the first of the pushes or values that it took off. */
static size_t from_where(int script, size_t number) {
    if (!takes_off(script, number)) return number;
    while (number > VALUES + 3 && !takes_off(script, number - 1)) number--;
    return number;
}

/* The slot of a call that goes without its rebuilt result. */
static uint64_t lacking(size_t number) {
    if (acts[number].word == READ) return acts[number].node;
    return acts[number].values ? 3 : number == 4 ? 2 : 1;
}

/* Whether a call may lose the rebuilt result of its slot. */
static bool loses_result(step *one) {
    return one == open_pushed || one == open_bound || one == open_all || one == open_without_result ||
           one == read_many || one == drop;
}

/* Whether a call may go without memory: it does so without the rebuilt result of its slot. */
static bool is_frugal(int script, size_t number) {
    return script == 0 ? acts[number].word == READ || acts[number].word == OPEN
                       : number >= VALUES && loses_result(steps[number - VALUES]);
}

/* A script on a handle of its own, in which growth `which` of call `refused` is refused; that call is made again where
   it says so. Each call has to answer as in the replies that are wanted. Where there are none, nothing is refused, and
   the replies are kept. False: the call asked for fewer growths. */
static bool run(int script, size_t refused, long which, text *wanted, lq_status *statuses) {
    lq handle = LQ_INIT;
    lq_status status = LQ_OK;
    bool was_met = which == 0, lacks = false;
    text reply = {malloc(1 << 20), 0, 1 << 20};
    long before = live;
    if (!reply.at) abort();
    OK(lq_volume_open(&handle));
    for (size_t number = 0; reply.size = 0, left = number == refused ? which : 0,
                call(&handle, script, number, &reply, &status);
         number++) {
        bool is_met = number == refused && which != 0 && left == 0;
        left = 0;
        if (is_met) {
            was_met = true;
            CHECK(status == LQ_NO_MEMORY || is_frugal(script, number));
            lacks = status == LQ_OK;
            if (status == LQ_NO_MEMORY) {
                CHECK(reply.size == 0);
                for (size_t again = from_where(script, number); again <= number; again++)
                    call(&handle, script, again, &reply, &status);
            }
        }
        bool is_gone = lacks && script == 0 && acts[number].word == RESULT &&
                       acts[number].node == lacking(refused);
        if (which == 0) {
            statuses[number] = status;
            add(&wanted[number], reply.at, reply.size);
        } else if (is_gone) {
            WANT(status, LQ_NOT_OPEN);
        } else {
            WANT(status, statuses[number]);
            CHECK(is_same(&reply, &wanted[number]));
        }
    }
    lq_volume_close(&handle);
    if (which != 0) CHECK(live == before);
    free(reply.at);
    return was_met;
}

/* The rebuilt results of the two slots, once all that waits there was read. A handle to which nothing was refused says
   which they are. On one whose line found no memory they are the same, or there are none. */
static void want_results(lq *handle, text *wanted, bool was_refused) {
    for (uint64_t slot = 1; slot <= 2; slot++) {
        const act result = OF(RESULT, slot);
        text seen = {NULL, 0, 0}, *its = &wanted[slot - 1];
        lq_message message;
        while (lq_read(handle, slot, &message) == LQ_OK) continue;
        lq_status status = by_call(handle, &result, was_refused ? &seen : its);
        CHECK(status == LQ_NOT_OPEN || (status == LQ_OK && (!was_refused || is_same(&seen, its))));
        free(seen.at);
    }
}

/* A line whose growths are refused in turn, after one round without, each time on a handle of its own that has answered
   the lines before. A refused line that reads or opens leaves no slot with a result that lacks a message. */
static void refuse_lines(const act *all, size_t count) {
    for (size_t last = 0; last < count; last++) {
        bool folds = all[last].word == READ || all[last].word == OPEN, was_refused;
        text wanted[2] = {{NULL, 0, 0}, {NULL, 0, 0}};
        long number = 0;
        do {
            lq handle = LQ_INIT;
            text line = {NULL, 0, 0}, seen = {NULL, 0, 0};
            size_t size = 77;
            OK(lq_volume_open(&handle));
            for (size_t at = 0; at <= last; at++) {
                line.size = 0;
                say_line(&line, &all[at]);
                if (at < last) OK(answer(&handle, line.at, line.size, &seen));
            }
            unsigned long before = refusals;
            left = number;
            lq_status status = lq_answer(&handle, line.at, line.size, &size);
            left = 0;
            was_refused = refusals != before;
            WANT(status, was_refused ? LQ_NO_MEMORY : LQ_OK);
            CHECK((size == 77) == (status == LQ_NO_MEMORY));
            if (folds && (was_refused || number == 0)) want_results(&handle, wanted, was_refused);
            lq_volume_close(&handle);
            free(line.at);
            free(seen.at);
        } while ((number++ == 0 || was_refused) && !failures);
        free(wanted[0].at);
        free(wanted[1].at);
    }
}

/* lq_volume_open with each growth refused. */
static void refuse_open(void) {
    lq_status status = LQ_NO_MEMORY;
    for (long number = 1; status == LQ_NO_MEMORY; number++) {
        unsigned long before = refusals;
        lq handle = LQ_INIT;
        left = number;
        status = lq_volume_open(&handle);
        left = 0;
        WANT(status, refusals == before ? LQ_OK : LQ_NO_MEMORY);
        CHECK((handle.at == NULL) == (status == LQ_NO_MEMORY));
        lq_volume_close(&handle);
    }
}

/* ---- drawn sequences of calls ---- */

enum { DRAWN = 40, MOST = DRAWN + 30 };

/* A step, or an act by a typed call or by a line. */
typedef struct drawn_call {
    step *step;
    act act;
    bool is_line;
} drawn_call;

/* What a handle to which nothing was refused answers, and then has: its entries, and the slots with a rebuilt result. */
typedef struct answered {
    lq_status status;
    text reply, entries;
    uint64_t results;
} answered;

PUSH(clear_pushed, lq_clear_pushed(handle))
PUSH(clear_bound, lq_clear_bound(handle))

static void hear(void *user, uint64_t slots) {
    (void)user;
    (void)slots;
}

PUSH(be_told, lq_on_ready(handle, hear, NULL))

/* What waits in each slot. */
static lq_status read_all(lq *handle, text *to) {
    lq_message message;
    for (uint64_t slot = 1; slot <= LQ_SLOTS; slot++)
        while (lq_read(handle, slot, &message) == LQ_OK) say_message(to, &message);
    WANT(lq_ready(handle), 0);
    return LQ_OK;
}

/* What takes no memory. */
static lq_status say_small(lq *handle, text *to) {
    char literal[64];
    add(to, literal, lq_quote(TEXT("a*\"b"), literal, sizeof literal));
    say_natural(to, lq_status_name(LQ_NO_MEMORY), lq_changes(handle));
    say_natural(to, "", lq_fault_place(handle) + lq_version());
    return LQ_OK;
}

static step *const pushes[] = {push_attr,  push_text,   push_int32, push_int64,    push_uint32,
                               push_uint64, push_ne,    push_gt,    push_contains, push_and,
                               push_or,    push_not},
            *const values_bound[] = {bind_text, bind_int64, bind_uint64},
            *const take_pushes[] = {fetch_pushed, open_pushed, clear_pushed},
            *const take_values[] = {fetch_bound, open_bound, clear_bound},
            *const more[] = {clear_pushed, clear_bound, be_told, read_all, say_small};

static bool is_in(step *one, step *const *all, size_t count) {
    while (count > 0 && all[count - 1] != one) count--;
    return one && count > 0;
}

#define IS_IN(one, list) is_in((one), (list), sizeof(list) / sizeof *(list))

static lq_status make(lq *handle, const drawn_call *it, text *to) {
    if (it->step) return it->step(handle, to);
    if (!it->is_line) return by_call(handle, &it->act, to);
    static text line;
    size_t size = 0;
    long refusing = left;
    left = 0;
    line.size = 0;
    say_line(&line, &it->act);
    left = refusing;
    lq_status status = lq_answer(handle, line.at, line.size, &size);
    refusing = left;
    left = 0;
    if (status == LQ_OK) {
        char *reply = malloc(size);
        if (!reply || lq_text(handle, reply, size) != size) abort();
        add(to, reply, size);
        free(reply);
    }
    left = refusing;
    return status;
}

/* Makes a call again, after the pushes or the values that it took off. */
static lq_status make_again(lq *handle, const drawn_call *all, size_t number, text *to) {
    bool is_pushed = IS_IN(all[number].step, take_pushes), is_bound = IS_IN(all[number].step, take_values);
    size_t from = number;
    while ((is_pushed || is_bound) && from > 0 &&
           !(is_pushed ? IS_IN(all[from - 1].step, take_pushes) : IS_IN(all[from - 1].step, take_values)))
        from--;
    for (; from < number; from++)
        if (is_pushed ? IS_IN(all[from].step, pushes) : IS_IN(all[from].step, values_bound))
            all[from].step(handle, to);
    return make(handle, &all[number], to);
}

/* All entries with their attributes, and how many changes there were. */
static void say_entries(text *to, lq *handle) {
    lq_fetched fetched;
    lq_row row;
    OK(lq_fetch(handle, TEXT("name=*"), &fetched));
    say_natural(to, "", fetched.at);
    while (lq_next(handle, fetched.result, &row) == LQ_OK) OK(say_entry(to, handle, row.node));
}

static uint64_t results_of(lq *handle) {
    lq_rebuilt rebuilt;
    uint64_t bits = 0;
    for (uint64_t slot = 1; slot <= LQ_SLOTS; slot++)
        if (lq_result(handle, slot, &rebuilt) == LQ_OK) bits |= (uint64_t)1 << (slot - 1);
    return bits;
}

static bool may_lose_result(const drawn_call *it) {
    if (it->step) return loses_result(it->step) || it->step == read_all;
    return !it->is_line && (it->act.word == READ || it->act.word == OPEN);
}

/* A call that was refused has changed nothing. A line may have been carried out. */
static void want_unchanged(lq *handle, const drawn_call *all, size_t number, const answered *model, text *room) {
    room->size = 0;
    say_entries(room, handle);
    CHECK((number > 0 && is_same(room, &model[number - 1].entries)) ||
          (all[number].is_line && is_same(room, &model[number].entries)) || (number == 0 && room->size == 1));
    room->size = 0;
}

/* A sequence on a handle of its own, in which growth `which` of call `refused` is refused, and that call made again. With
   0 none is refused, and the model made. False: the call asked for fewer growths. */
static bool run_drawn(const drawn_call *all, size_t count, size_t refused, long which, answered *model) {
    lq handle = LQ_INIT;
    bool was_met = which == 0, is_over = false;
    uint64_t lacks = 0;
    text reply = {malloc(1 << 20), 0, 1 << 20};
    if (!reply.at) abort();
    long before = live;
    OK(lq_volume_open(&handle));
    for (size_t number = 0; number < count && !is_over; number++) {
        const drawn_call *it = &all[number];
        reply.size = 0;
        left = number == refused ? which : 0;
        lq_status status = make(&handle, it, &reply);
        bool is_met = number == refused && which != 0 && left == 0;
        left = 0;
        if (is_met) {
            was_met = true;
            if (status == LQ_NO_MEMORY) {
                CHECK(reply.size == 0);
                want_unchanged(&handle, all, number, model, &reply);
                is_over = it->is_line;
                if (!is_over) status = make_again(&handle, all, number, &reply);
            } else {
                CHECK(may_lose_result(it));
                lacks = model[number].results & ~results_of(&handle);
                CHECK((lacks & (lacks - 1)) == 0 && (results_of(&handle) & ~model[number].results) == 0);
            }
        }
        uint64_t slot = !it->step && it->act.word == RESULT ? it->act.node : 0;
        bool is_gone = slot > 0 && slot <= LQ_SLOTS && (lacks >> (slot - 1) & 1);
        if (which == 0) {
            model[number].status = status;
            add(&model[number].reply, reply.at, reply.size);
            say_entries(&model[number].entries, &handle);
            model[number].results = results_of(&handle);
        } else if (!is_over && !is_gone) {
            WANT(status, model[number].status);
            CHECK(is_same(&reply, &model[number].reply));
        }
    }
    lq_volume_close(&handle);
    if (which != 0) CHECK(live == before);
    free(reply.at);
    return was_met;
}

static size_t draw_calls(drawn_call *all, uint64_t seed) {
    size_t count = 0;
    begin_drawn(seed);
    memset(all, 0, MOST * sizeof *all);
    for (; count < 7; count++) all[count].act = first_act((int)count);
    while (count < DRAWN) {
        if (draw(3)) {
            all[count].act = drawn_act();
            all[count++].is_line = draw(4) == 0;
        } else if (draw(4) == 0) {
            all[count++].step = *ONE_OF(more);
        } else {
            size_t at = draw(STEPS), last = at + 1 + draw(12);
            for (; at < last && at < STEPS && count < DRAWN + 12; at++) all[count++].step = steps[at];
        }
    }
    all[count++].step = read_all;
    for (uint64_t slot = 1; slot <= 6; slot++) all[count++].act = (act){.word = RESULT, .node = slot};
    return count;
}

/* A drawn sequence, with each growth of each of its calls refused in turn. How many calls it has. */
static size_t refuse_drawn(uint64_t seed) {
    static drawn_call all[MOST];
    static answered model[MOST];
    size_t count = draw_calls(all, seed);
    for (size_t number = 0; number < count; number++)
        model[number].reply.size = model[number].entries.size = 0;
    run_drawn(all, count, 0, 0, model);
    for (size_t number = 0; number < count && !failures; number++)
        for (long which = 1; !failures && run_drawn(all, count, number, which, model); which++)
            if (which > 100000) CHECK(!"the growths end");
    if (failures) fprintf(stderr, "in sequence %llu\n", (unsigned long long)seed);
    return count;
}

static int drawn_for(long seconds, uint64_t seed) {
    time_t end = time(NULL) + seconds;
    unsigned long sequences = 0, calls = 0;
    for (; time(NULL) < end && !failures; sequences++) calls += refuse_drawn(seed * 1000003 + sequences);
    printf("| lq.h: drawn sequences; each growth refused in turn | %lu |\n", sequences);
    printf("| lq.h: calls in them | %lu |\n| lq.h: growths refused | %lu |\n", calls, refusals);
    printf("| lq.h: checks | %lu |\n| lq.h: failures | %lu |\n", checks, failures);
    return failures != 0;
}

int main(int count, char **words) {
    if (count > 3) return drawn_for(atol(words[2]), (uint64_t)atol(words[3]));
    static text wanted[ACTS + VALUES + STEPS];
    static lq_status statuses[ACTS + VALUES + STEPS];
    long before = live;
    refuse_open();
    CHECK(live == before);
    for (int script = 0; script < 2; script++) {
        size_t count = script == 0 ? ACTS : VALUES + STEPS;
        run(script, 0, 0, wanted, statuses);
        for (size_t number = 0; number < count; number++)
            for (long which = 1; !failures && run(script, number, which, wanted, statuses); which++)
                continue;
        for (size_t number = 0; number < count; number++) {
            free(wanted[number].at);
            wanted[number] = (text){NULL, 0, 0};
        }
    }
    refuse_lines(acts, ACTS);
    refuse_lines(growing, sizeof growing / sizeof *growing);
    CHECK(live == before);
    for (uint64_t seed = 0; seed < 3 && !failures; seed++) refuse_drawn(seed);
    /* if none was refused, the linker has put nothing in place */
    CHECK(refusals > 100);
    printf("memory: %lu growths refused\n", refusals);
    return done("memory");
}
