/* What a handle calls once slots can be read: after which calls, with which slots, and what may be done in it. */
#include "check.h"

enum { TURNS = 30000 };

/* What was told of one handle. */
typedef struct record {
    lq *handle;
    unsigned long calls;
    uint64_t slots;
} record;

static void note(void *user, uint64_t slots) {
    record *it = user;
    it->calls++;
    it->slots = slots;
    CHECK(slots != 0 && (slots & ~lq_ready(it->handle)) == 0);
}

/* That the calls since the last time have told these slots at once, or nothing. */
static void want(record *it, uint64_t slots, int line) {
    check(it->calls == (slots != 0) && it->slots == slots, __FILE__, line, "the slots told");
    it->calls = 0;
    it->slots = 0;
}

/* A call, and the slots that it tells. */
#define TELLS(call, slots) \
    do { \
        OK(call); \
        want(&told, slots, __LINE__); \
    } while (0)

/* A call that answers a status, and tells nothing. */
#define SILENT(call, status) \
    do { \
        WANT(call, status); \
        want(&told, 0, __LINE__); \
    } while (0)

/* Reads all that waits in a slot. */
static void drain(lq *it, uint64_t slot) {
    lq_message message;
    while (lq_read(it, slot, &message) == LQ_OK) continue;
}

enum { NAMES = 1, BIG = 2, TEXTS = 4, NUMBERS = 8, ALL = 15 }; /* the slots of the queries below */

static void drain_all(lq *it) {
    for (uint64_t slot = 1; slot <= 4; slot++) drain(it, slot);
    CHECK(lq_ready(it) == 0);
}

/* Each change tells the slots that it makes ready, and a refused one none. */
static void changes(void) {
    lq it = LQ_INIT;
    record told = {&it, 0, 0};
    lq_opening opening;
    lq_message message;
    size_t size;
    OK(lq_volume_open(&it));
    OK(lq_on_ready(&it, note, &told));
    SILENT(lq_query_open(&it, TEXT("name==*"), NULL, &opening), LQ_OK);
    SILENT(lq_query_open(&it, TEXT("size>100"), NULL, &opening), LQ_OK);
    SILENT(lq_query_open(&it, TEXT("t==x"), NULL, &opening), LQ_OK);
    SILENT(lq_query_open(&it, TEXT("n>0"), NULL, &opening), LQ_OK);
    TELLS(lq_create(&it, LQ_ROOT, TEXT("a"), LQ_FILE, 1, 1, NULL), NAMES);
    /* a slot that can be read already is not told again, also where another is */
    TELLS(lq_create(&it, LQ_ROOT, TEXT("b"), LQ_FILE, 200, 1, NULL), BIG);
    SILENT(lq_create(&it, LQ_ROOT, TEXT("c"), LQ_FILE, 200, 1, NULL), LQ_OK);
    OK(lq_read(&it, 2, &message));
    SILENT(lq_create(&it, LQ_ROOT, TEXT("d"), LQ_FILE, 200, 1, NULL), LQ_OK);
    drain(&it, 2);
    TELLS(lq_write(&it, 2, 200, 1, NULL), BIG);
    drain_all(&it);
    TELLS(lq_create(&it, LQ_ROOT, TEXT("e"), LQ_FILE, 200, 1, NULL), NAMES | BIG);
    drain_all(&it);
    SILENT(lq_create(&it, LQ_ROOT, TEXT("e"), LQ_FILE, 200, 1, NULL), LQ_EXISTS);
    SILENT(lq_write(&it, 2, 300, 1, NULL), LQ_OK);
    SILENT(lq_write(&it, 99, 1, 1, NULL), LQ_NO_NODE);
    SILENT(lq_set_text(&it, 2, TEXT("t"), TEXT("y"), NULL), LQ_OK);
    TELLS(lq_set_text(&it, 2, TEXT("t"), TEXT("x"), NULL), TEXTS);
    drain_all(&it);
    TELLS(lq_unset(&it, 2, TEXT("t"), NULL), TEXTS);
    drain_all(&it);
    SILENT(lq_unset(&it, 2, TEXT("t"), NULL), LQ_NO_ATTR);
    TELLS(lq_set_int32(&it, 2, TEXT("n"), 1, NULL), NUMBERS);
    drain_all(&it);
    TELLS(lq_set_int64(&it, 2, TEXT("n"), -1, NULL), NUMBERS);
    drain_all(&it);
    TELLS(lq_set_uint32(&it, 2, TEXT("n"), 1, NULL), NUMBERS);
    drain_all(&it);
    SILENT(lq_set_uint64(&it, 2, TEXT("n"), 2, NULL), LQ_OK);
    TELLS(lq_set_uint64(&it, 2, TEXT("n"), 0, NULL), NUMBERS);
    drain_all(&it);
    TELLS(lq_move(&it, 2, LQ_ROOT, TEXT("z"), false, NULL), NAMES | BIG);
    drain_all(&it);
    SILENT(lq_move(&it, 2, LQ_ROOT, TEXT("b"), false, NULL), LQ_EXISTS);
    TELLS(lq_remove(&it, 2, NULL), NAMES | BIG);
    drain_all(&it);
    TELLS(lq_answer(&it, TEXT("{\"do\":\"create\",\"name\":\"f\",\"size\":1}"), &size), NAMES);
    SILENT(lq_answer(&it, TEXT("{\"do\":\"create\",\"name\":\"f\",\"size\":1}"), &size), LQ_OK);
    SILENT(lq_answer(&it, TEXT("{\"do\":\"read\",\"slot\":1}"), &size), LQ_OK);
    want(&told, 0, __LINE__);
    lq_volume_close(&it);
    want(&told, 0, __LINE__);
}

/* The end of a query is told as what is there to read: where it is asked for, closed, or comes by too many messages. */
static void ends(void) {
    const lq_options one = {1, false, false, false};
    lq it = LQ_INIT;
    record told = {&it, 0, 0};
    lq_opening opening;
    size_t size;
    OK(lq_volume_open(&it));
    OK(lq_on_ready(&it, note, &told));
    for (int slot = 1; slot <= 6; slot++) OK(lq_query_open(&it, TEXT("size>100"), slot == 5 ? &one : NULL, &opening));
    TELLS(lq_hang_up(&it, 1), 1);
    SILENT(lq_hang_up(&it, 1), LQ_OK);
    TELLS(lq_query_close(&it, 2, NULL), 2);
    SILENT(lq_query_close(&it, 2, NULL), LQ_NOT_OPEN);
    SILENT(lq_hang_up(&it, 2), LQ_OK);
    TELLS(lq_answer(&it, TEXT("{\"do\":\"hang_up\",\"slot\":3}"), &size), 4);
    TELLS(lq_answer(&it, TEXT("{\"do\":\"close\",\"slot\":4}"), &size), 8);
    SILENT(lq_query_close(&it, 60, NULL), LQ_NOT_OPEN);
    SILENT(lq_hang_up(&it, 60), LQ_NOT_OPEN);
    /* slot 5 overruns at the third of these, while its first message waits: neither is told once more */
    created(&it, LQ_ROOT, "a", LQ_FILE, 200);
    want(&told, 16 | 32, __LINE__);
    for (uint64_t slot = 5; slot <= 6; slot++) drain(&it, slot);
    for (char name[] = "b"; name[0] < 'e'; name[0]++) created(&it, LQ_ROOT, name, LQ_FILE, 200);
    want(&told, 16 | 32, __LINE__);
    drain(&it, 5);
    SILENT(lq_finish(&it, 5), LQ_OK);
    SILENT(lq_query_open(&it, TEXT("size>100"), NULL, &opening), LQ_OK);
    CHECK(opening.slot == 5);
    TELLS(lq_write(&it, 2, 0, 1, NULL), 16);
    SILENT(lq_drop(&it, 5), LQ_OK);
    SILENT(lq_drop(&it, 6), LQ_OK);
    lq_volume_close(&it);
}

/* No other call tells anything, whatever is there to read. */
static void silence(void) {
    lq it = LQ_INIT;
    record told = {&it, 0, 0};
    union {
        lq_opening opening;
        lq_message message;
        lq_rebuilt rebuilt;
        lq_fetched fetched;
        lq_info info;
        lq_attr attr;
        lq_listing listing;
        lq_row row;
        uint64_t number;
        size_t size;
    } out;
    size_t got;
    char room[64];
    OK(lq_volume_open(&it));
    for (int slot = 1; slot <= 4; slot++) OK(lq_query_open(&it, TEXT("size>100"), NULL, &out.opening));
    created(&it, LQ_ROOT, "a", LQ_FILE, 200);
    OK(lq_set_int32(&it, 2, TEXT("n"), 1, NULL));
    OK(lq_hang_up(&it, 3));
    /* what could be read before it was asked for is not told */
    SILENT(lq_on_ready(&it, note, &told), LQ_OK);
    for (int round = 0; round < 2; round++) {
        SILENT(lq_push_attr(&it, TEXT("size")), LQ_OK);
        SILENT(lq_push_int32(&it, 1), LQ_OK);
        SILENT(lq_push_op(&it, LQ_GT), LQ_OK);
        if (round) SILENT(lq_fetch_pushed(&it, &out.fetched), LQ_OK);
        else SILENT(lq_query_open_pushed(&it, NULL, &out.opening), LQ_OK);
        SILENT(lq_push_int64(&it, 1), LQ_OK);
        SILENT(lq_push_uint32(&it, 1), LQ_OK);
        SILENT(lq_push_uint64(&it, 1), LQ_OK);
        SILENT(lq_push_text(&it, TEXT("a")), LQ_OK);
        SILENT(lq_clear_pushed(&it), LQ_OK);
        SILENT(lq_bind_text(&it, TEXT("a")), LQ_OK);
        SILENT(lq_bind_int64(&it, 1), LQ_OK);
        SILENT(lq_bind_uint64(&it, 1), LQ_OK);
        if (round) SILENT(lq_fetch_bound(&it, TEXT("name>$1||size>$2||size<$3"), &out.fetched), LQ_OK);
        else SILENT(lq_query_open_bound(&it, TEXT("name>$1||size>$2||size<$3"), NULL, &out.opening), LQ_OK);
        SILENT(lq_clear_bound(&it), LQ_OK);
        SILENT(lq_fetch(&it, TEXT("size>1"), &out.fetched), LQ_OK);
        SILENT(lq_take(&it, out.fetched.result, &out.row, 1, &got), LQ_OK);
        SILENT(lq_children(&it, LQ_ROOT, &out.listing), LQ_OK);
        SILENT(lq_next(&it, out.listing.result, &out.row), LQ_OK);
        SILENT(lq_find(&it, LQ_ROOT, TEXT("a"), &out.number), LQ_OK);
        SILENT(lq_find_path(&it, LQ_ROOT, TEXT("/a"), &out.number), LQ_OK);
        SILENT(lq_entry(&it, 2, &out.info), LQ_OK);
        SILENT(lq_attr_at(&it, 2, 0, &out.attr), LQ_OK);
        SILENT(lq_attr_named(&it, 2, TEXT("n"), &out.attr), LQ_OK);
        SILENT(lq_path(&it, 2, &out.size), LQ_OK);
        CHECK(lq_text(&it, room, sizeof room) == 2 && lq_quote("a", 1, room, sizeof room) == 3);
        CHECK(lq_changes(&it) == 2 && lq_fault_place(&it) == 0 && lq_ready(&it) == (round ? 12 : 15));
        SILENT(lq_result(&it, 1, &out.rebuilt), LQ_OK);
        if (round) break;
        SILENT(lq_read(&it, 1, &out.message), LQ_OK);
        SILENT(lq_read(&it, 1, &out.message), LQ_EMPTY);
        SILENT(lq_read_many(&it, 2, &out.message, 1, &got), LQ_OK);
        SILENT(lq_finish(&it, 3), LQ_STILL_OPEN);
    }
    OK(lq_query_close(&it, 1, NULL));
    want(&told, 1, __LINE__);
    SILENT(lq_read(&it, 1, &out.message), LQ_OK);
    SILENT(lq_read(&it, 1, &out.message), LQ_ENDED);
    SILENT(lq_finish(&it, 1), LQ_OK);
    SILENT(lq_drop(&it, 2), LQ_OK);
    /* null takes it off, and a closed handle has forgotten it */
    SILENT(lq_on_ready(&it, NULL, &told), LQ_OK);
    created(&it, LQ_ROOT, "b", LQ_FILE, 200);
    CHECK(lq_ready(&it) != 0);
    want(&told, 0, __LINE__);
    SILENT(lq_on_ready(&it, note, &told), LQ_OK);
    lq_volume_close(&it);
    SILENT(lq_on_ready(&it, note, &told), LQ_MISUSE);
    OK(lq_volume_open(&it));
    OK(lq_query_open(&it, TEXT("size>100"), NULL, &out.opening));
    created(&it, LQ_ROOT, "a", LQ_FILE, 200);
    want(&told, 0, __LINE__);
    lq_volume_close(&it);
}

static uint64_t state = 1;

/* A drawn number below a bound, by the generator of Park and Miller. */
static uint64_t draw(uint64_t bound) {
    state = state * 48271 % 2147483647;
    return state % bound;
}

/* Drawn acts on a handle and on its twin, which calls nothing: told are just the slots that are ready after and weren't
   before. */
static void drawn(void) {
    lq it = LQ_INIT, twin = LQ_INIT;
    lq *const both[] = {&it, &twin};
    record told = {&it, 0, 0};
    unsigned long calls = 0, many = 0;
    OK(lq_volume_open(&it));
    OK(lq_volume_open(&twin));
    for (uint64_t node = 2; node < 20; node++)
        for (int each = 0; each < 2; each++)
            CHECK(created(both[each], LQ_ROOT, (char[]){(char)('A' + node), 0}, LQ_FILE, 0) == node);
    OK(lq_on_ready(&it, note, &told));
    for (int turn = 0; turn < TURNS && failures < 9; turn++) {
        uint64_t slot = 1 + draw(5), node = 2 + draw(18), size = draw(200), act = draw(14);
        lq_options options = {1 + draw(4), draw(2), draw(2), draw(2)};
        uint64_t before = lq_ready(&twin);
        for (int each = 0; each < 2; each++) {
            lq *one = both[each];
            lq_opening opening;
            lq_message message;
            char line[64];
            if (act == 0) (void)lq_query_open(one, TEXT("size>100"), &options, &opening);
            else if (act == 1) (void)lq_hang_up(one, slot);
            else if (act == 2) (void)lq_query_close(one, slot, NULL);
            else if (act == 3) (void)lq_finish(one, slot);
            else if (act < 9) (void)lq_read(one, slot, &message);
            else if (act == 9) {
                int line_size = sprintf(line, "{\"do\":\"write\",\"node\":%d,\"size\":%d}", (int)node, (int)size);
                OK(lq_answer(one, line, (size_t)line_size, &(size_t){0}));
            } else OK(lq_write(one, node, size, 1, NULL));
        }
        uint64_t wanted = lq_ready(&twin) & ~before;
        calls += wanted != 0;
        many += (wanted & (wanted - 1)) != 0;
        CHECK(lq_ready(&it) == lq_ready(&twin));
        want(&told, wanted, __LINE__);
    }
    CHECK(calls > 500 && many > 100);
    lq_volume_close(&it);
    lq_volume_close(&twin);
}

/* ---- what is called uses the handle ---- */

static unsigned long depth, deepest, messages;

/* Reads what is ready; at the mark it opens the query anew. */
static void follow(void *user, uint64_t slots) {
    lq *it = user;
    lq_message message;
    lq_opening opening;
    deepest = ++depth > deepest ? depth : deepest;
    for (uint64_t slot = 1; slots; slots >>= 1, slot++)
        while (slots & 1 && lq_read(it, slot, &message) == LQ_OK) {
            messages++;
            if (message.what != LQ_END) continue;
            OK(lq_finish(it, slot));
            OK(lq_query_open(it, TEXT("size>100"), NULL, &opening));
            CHECK(opening.slot == slot);
        }
    depth--;
}

static void reads_inside(void) {
    lq it = LQ_INIT;
    lq_opening opening;
    lq_applied applied = {0, 0};
    OK(lq_volume_open(&it));
    OK(lq_query_open(&it, TEXT("size>100"), NULL, &opening));
    OK(lq_on_ready(&it, follow, &it));
    messages = deepest = 0;
    for (char name[] = "a"; name[0] <= 'z'; name[0]++) created(&it, LQ_ROOT, name, LQ_FILE, 200);
    CHECK(messages == 26 && deepest == 1 && lq_ready(&it) == 0);
    OK(lq_query_close(&it, 1, NULL));
    CHECK(messages == 27);
    OK(lq_write(&it, 5, 0, 1, &applied));
    CHECK(messages == 28 && applied.change == 27 && applied.node == 5 && lq_ready(&it) == 0);
    lq_volume_close(&it);
}

/* Shrinks the entry that the message is of, which makes the same slot ready again, inside the call: nine deep. */
static void shrink(void *user, uint64_t slots) {
    lq *it = user;
    lq_message message;
    uint64_t number = ++depth;
    deepest = depth > deepest ? depth : deepest;
    CHECK(slots == 1);
    OK(lq_read(it, 1, &message));
    WANT(lq_read(it, 1, &message), LQ_EMPTY);
    if (number < 9) OK(lq_write(it, 2, message.op == LQ_ENTRY_CREATED ? 0 : 200, 1, NULL));
    CHECK(lq_changes(it) == 9); /* all that is inside is done */
    depth--;
}

static void changes_inside(void) {
    lq it = LQ_INIT;
    lq_opening opening;
    lq_applied applied = {0, 0};
    OK(lq_volume_open(&it));
    OK(lq_query_open(&it, TEXT("size>100"), NULL, &opening));
    OK(lq_on_ready(&it, shrink, &it));
    depth = deepest = 0;
    OK(lq_create(&it, LQ_ROOT, TEXT("a"), LQ_FILE, 200, 1, &applied));
    CHECK(applied.change == 1 && applied.node == 2); /* as it was when it was made */
    CHECK(deepest == 9 && depth == 0 && lq_changes(&it) == 9);
    lq_volume_close(&it);
}

/* What `leave` does to the handle. */
static enum { CLOSES, REOPENS, TAKES_OFF, SETS_ANOTHER } way;
static record after;

static void leave(void *user, uint64_t slots) {
    lq *it = user;
    lq_opening opening;
    CHECK(slots == 1);
    if (way == TAKES_OFF) OK(lq_on_ready(it, NULL, NULL));
    else if (way == SETS_ANOTHER) OK(lq_on_ready(it, note, &after));
    else lq_volume_close(it);
    if (way != REOPENS) return;
    OK(lq_volume_open(it));
    OK(lq_query_open(it, TEXT("size>100"), NULL, &opening));
}

static void leaves_inside(void) {
    static const char line[] = "{\"do\":\"create\",\"name\":\"a\",\"size\":200}";
    for (int by_line = 0; by_line < 2; by_line++)
        for (way = CLOSES; way <= SETS_ANOTHER; way++) {
            lq it = LQ_INIT;
            lq_opening opening;
            lq_applied applied = {0, 0};
            size_t size = 0;
            OK(lq_volume_open(&it));
            OK(lq_query_open(&it, TEXT("size>100"), NULL, &opening));
            OK(lq_on_ready(&it, leave, &it));
            after = (record){&it, 0, 0};
            /* the call has answered all the same */
            if (by_line) OK(lq_answer(&it, line, sizeof line - 1, &size));
            else OK(lq_create(&it, LQ_ROOT, TEXT("a"), LQ_FILE, 200, 1, &applied));
            CHECK(by_line ? size > 0 : applied.change == 1 && applied.node == 2);
            if (way == CLOSES) WANT(lq_hang_up(&it, 1), LQ_MISUSE);
            else if (way == REOPENS) CHECK(lq_changes(&it) == 0 && lq_ready(&it) == 0);
            else CHECK(lq_changes(&it) == 1 && lq_ready(&it) == 1);
            if (way != CLOSES) {
                drain(&it, 1);
                created(&it, LQ_ROOT, "b", LQ_FILE, 200);
                CHECK(lq_ready(&it) == 1);
            }
            want(&after, way == SETS_ANOTHER, __LINE__);
            lq_volume_close(&it);
        }
}

/* Copies what the first handle says into the second, whose own query is told inside. */
typedef struct pair {
    lq *from, *to;
} pair;

static void copies(void *user, uint64_t slots) {
    pair *it = user;
    lq_message message;
    CHECK(slots == 1);
    while (lq_read(it->from, 1, &message) == LQ_OK)
        OK(lq_create(it->to, LQ_ROOT, message.name, message.name_size, LQ_FILE, 200, 1, NULL));
}

static void two_handles(void) {
    lq one = LQ_INIT, other = LQ_INIT;
    pair both = {&one, &other};
    record told = {&other, 0, 0};
    lq_opening opening;
    OK(lq_volume_open(&one));
    OK(lq_volume_open(&other));
    OK(lq_query_open(&one, TEXT("size>100"), NULL, &opening));
    for (int slot = 1; slot <= 3; slot++)
        OK(lq_query_open(&other, slot == 3 ? "name==b" : "name==c", 7, NULL, &opening));
    OK(lq_on_ready(&one, copies, &both));
    OK(lq_on_ready(&other, note, &told));
    TELLS(lq_create(&one, LQ_ROOT, TEXT("a"), LQ_FILE, 200, 1, NULL), 0);
    TELLS(lq_create(&one, LQ_ROOT, TEXT("b"), LQ_FILE, 200, 1, NULL), 4);
    TELLS(lq_create(&one, LQ_ROOT, TEXT("c"), LQ_FILE, 200, 1, NULL), 3);
    CHECK(lq_changes(&one) == 3 && lq_changes(&other) == 3 && lq_ready(&one) == 0 && lq_ready(&other) == 7);
    lq_volume_close(&one);
    drain(&other, 3);
    OK(lq_remove(&other, 3, NULL));
    want(&told, 4, __LINE__);
    lq_volume_close(&other);
}

int main(void) {
    changes();
    ends();
    silence();
    drawn();
    reads_inside();
    changes_inside();
    leaves_inside();
    two_handles();
    return done("ready");
}
