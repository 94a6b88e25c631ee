/* Misuse is answered: handles that aren't open or were never LQ_INIT, callers of other versions, null for an `out` or a
   text, sizes beyond limits, too many pushes. */
#include "check.h"

/* A call of each kind on a handle that isn't open: it answers LQ_MISUSE, or 0, and writes nothing. */
static void not_open(lq *it) {
    union {
        lq_applied applied;
        lq_row row;
        lq_opening opening;
        lq_message message;
        lq_rebuilt rebuilt;
        lq_fetched fetched;
        lq_info info;
        lq_attr attr;
        lq_listing listing;
        uint64_t number;
        size_t size;
    } out;
    size_t got = 7;
    char room[8] = "xxxxxxx";
    REFUSED(lq_answer(it, TEXT("{}"), &out.size), LQ_MISUSE, out);
    REFUSED(lq_create(it, 1, TEXT("a"), LQ_FILE, 0, 0, &out.applied), LQ_MISUSE, out);
    REFUSED(lq_remove(it, 2, &out.applied), LQ_MISUSE, out);
    REFUSED(lq_move(it, 2, 1, TEXT("a"), false, &out.applied), LQ_MISUSE, out);
    REFUSED(lq_write(it, 2, 1, 1, &out.applied), LQ_MISUSE, out);
    REFUSED(lq_set_text(it, 2, TEXT("a"), TEXT("b"), &out.applied), LQ_MISUSE, out);
    REFUSED(lq_set_int32(it, 2, TEXT("a"), 1, &out.applied), LQ_MISUSE, out);
    REFUSED(lq_set_int64(it, 2, TEXT("a"), 1, &out.applied), LQ_MISUSE, out);
    REFUSED(lq_set_uint32(it, 2, TEXT("a"), 1, &out.applied), LQ_MISUSE, out);
    REFUSED(lq_set_uint64(it, 2, TEXT("a"), 1, &out.applied), LQ_MISUSE, out);
    REFUSED(lq_unset(it, 2, TEXT("a"), &out.applied), LQ_MISUSE, out);
    REFUSED(lq_take(it, 1, &out.row, 1, &got), LQ_MISUSE, out);
    REFUSED(lq_next(it, 1, &out.row), LQ_MISUSE, out);
    REFUSED(lq_query_open(it, TEXT("a=b"), NULL, &out.opening), LQ_MISUSE, out);
    REFUSED(lq_read(it, 1, &out.message), LQ_MISUSE, out);
    REFUSED(lq_read_many(it, 1, &out.message, 1, &got), LQ_MISUSE, out);
    WANT(lq_hang_up(it, 1), LQ_MISUSE);
    REFUSED(lq_query_close(it, 1, &out.number), LQ_MISUSE, out);
    WANT(lq_finish(it, 1), LQ_MISUSE);
    WANT(lq_drop(it, 1), LQ_MISUSE);
    REFUSED(lq_result(it, 1, &out.rebuilt), LQ_MISUSE, out);
    REFUSED(lq_fetch(it, TEXT("a=b"), &out.fetched), LQ_MISUSE, out);
    REFUSED(lq_find(it, 1, TEXT("a"), &out.number), LQ_MISUSE, out);
    REFUSED(lq_find_path(it, 1, TEXT("a"), &out.number), LQ_MISUSE, out);
    REFUSED(lq_entry(it, 2, &out.info), LQ_MISUSE, out);
    REFUSED(lq_attr_at(it, 2, 0, &out.attr), LQ_MISUSE, out);
    REFUSED(lq_attr_named(it, 2, TEXT("a"), &out.attr), LQ_MISUSE, out);
    REFUSED(lq_children(it, 1, &out.listing), LQ_MISUSE, out);
    REFUSED(lq_path(it, 1, &out.size), LQ_MISUSE, out);
    WANT(lq_push_attr(it, TEXT("a")), LQ_MISUSE);
    WANT(lq_push_text(it, TEXT("a")), LQ_MISUSE);
    WANT(lq_push_int32(it, 1), LQ_MISUSE);
    WANT(lq_push_int64(it, 1), LQ_MISUSE);
    WANT(lq_push_uint32(it, 1), LQ_MISUSE);
    WANT(lq_push_uint64(it, 1), LQ_MISUSE);
    WANT(lq_push_op(it, LQ_NOT), LQ_MISUSE);
    WANT(lq_clear_pushed(it), LQ_MISUSE);
    REFUSED(lq_query_open_pushed(it, NULL, &out.opening), LQ_MISUSE, out);
    REFUSED(lq_fetch_pushed(it, &out.fetched), LQ_MISUSE, out);
    WANT(lq_bind_text(it, TEXT("a")), LQ_MISUSE);
    WANT(lq_bind_int64(it, 1), LQ_MISUSE);
    WANT(lq_bind_uint64(it, 1), LQ_MISUSE);
    WANT(lq_clear_bound(it), LQ_MISUSE);
    REFUSED(lq_query_open_bound(it, TEXT("a=b"), NULL, &out.opening), LQ_MISUSE, out);
    REFUSED(lq_fetch_bound(it, TEXT("a=b"), &out.fetched), LQ_MISUSE, out);
    WANT(lq_on_ready(it, NULL, NULL), LQ_MISUSE);
    CHECK(lq_fault_place(it) == 0 && lq_ready(it) == 0 && lq_changes(it) == 0);
    CHECK(lq_text(it, room, sizeof room) == 0 && room[0] == 'x' && got == 7);
    lq_volume_close(it);
}

static void handles(void) {
    lq it = LQ_INIT, copy;
    not_open(NULL);
    not_open(&it);
    WANT(lq_volume_open(NULL), LQ_MISUSE);
    OK(lq_volume_open(&it));
    created(&it, LQ_ROOT, "a", LQ_FILE, 1);
    /* one that is open keeps what it has */
    WANT(lq_volume_open(&it), LQ_MISUSE);
    CHECK(lq_changes(&it) == 1);
    /* a copy isn't open: its calls and its closing do nothing to the handle */
    copy = it;
    not_open(&copy);
    CHECK(lq_changes(&it) == 1);
    lq_volume_close(&it);
    not_open(&it);
    not_open(&copy);
    lq_volume_close(&copy);
    OK(lq_volume_open(&copy));
    CHECK(lq_changes(&copy) == 0);
    lq_volume_close(&copy);
}

/* Handles in memory that was filled with a byte, without LQ_INIT: they are answered as LQ_INIT is. */
static void handles_without_init(void) {
    static const int bytes[] = {0xa5, 0x00, 0xff};
    for (size_t at = 0; at < sizeof bytes / sizeof *bytes; at++) {
        lq it, as_it_was;
        lq_opening opening;
        lq_fetched fetched;
        lq_row row;
        size_t got;
        memset(&it, bytes[at], sizeof it);
        memset(&as_it_was, bytes[at], sizeof as_it_was);
        not_open(&it);
        WANT(lq_volume_open_as(&it, 0), LQ_MISUSE);
        CHECK(memcmp(&it, &as_it_was, sizeof it) == 0);
        OK(lq_volume_open(&it));
        /* nothing is called once a slot is ready, results count from 1, and a whole stack can be pushed */
        OK(lq_query_open(&it, TEXT("size>0"), NULL, &opening));
        CHECK(opening.result == 1);
        created(&it, LQ_ROOT, "a", LQ_FILE, 1);
        CHECK(lq_ready(&it) == 1);
        OK(lq_fetch(&it, TEXT("size>0"), &fetched));
        CHECK(fetched.result == 2);
        OK(lq_take(&it, fetched.result, &row, 1, &got));
        CHECK(got == 1 && row.node == 2);
        for (int number = 0; number < LQ_PUSHES; number++) OK(lq_push_int32(&it, number));
        WANT(lq_push_int32(&it, 0), LQ_MISUSE);
        lq_volume_close(&it);
        not_open(&it);
        OK(lq_volume_open(&it));
        OK(lq_fetch(&it, TEXT("size>0"), &fetched));
        CHECK(fetched.result > 2);
        lq_volume_close(&it);
    }
}

/* A volume is opened for callers of this minor version alone, and for none that is later than the library. */
static void versions(void) {
    enum { FIRST = LQ_VERSION - LQ_VERSION % 1000 }; /* of this minor version */
    static const uint32_t others[] = {0, 1, 1000, FIRST - 1000, FIRST - 1, LQ_VERSION + 1, FIRST + 1000, UINT32_MAX};
    lq it = LQ_INIT;
    for (size_t at = 0; at < sizeof others / sizeof *others; at++) {
        WANT(lq_volume_open_as(&it, others[at]), LQ_MISUSE);
        not_open(&it);
    }
    for (uint32_t version = FIRST; version <= LQ_VERSION; version++) {
        OK(lq_volume_open_as(&it, version));
        created(&it, LQ_ROOT, "a", LQ_FILE, 1);
        lq_volume_close(&it);
    }
}

/* Null where there is nothing to write to or to read, and where that is allowed. */
static void nulls(void) {
    lq it = LQ_INIT;
    lq_opening opening;
    lq_row row;
    lq_message message;
    lq_fetched fetched;
    uint64_t node = 77;
    size_t got = 7;
    OK(lq_volume_open(&it));
    OK(lq_create(&it, LQ_ROOT, TEXT("a"), LQ_FILE, 1, 1, NULL));
    OK(lq_create(&it, LQ_ROOT, TEXT("b"), LQ_FILE, 1, 1, NULL));
    OK(lq_remove(&it, 3, NULL));
    OK(lq_move(&it, 2, LQ_ROOT, TEXT("c"), false, NULL));
    OK(lq_write(&it, 2, 5, 5, NULL));
    OK(lq_set_text(&it, 2, TEXT("t"), NULL, 0, NULL));
    OK(lq_set_int32(&it, 2, TEXT("n"), 1, NULL));
    OK(lq_set_int64(&it, 2, TEXT("n"), 1, NULL));
    OK(lq_set_uint32(&it, 2, TEXT("n"), 1, NULL));
    OK(lq_set_uint64(&it, 2, TEXT("n"), 1, NULL));
    OK(lq_unset(&it, 2, TEXT("n"), NULL));
    CHECK(lq_changes(&it) == 11);
    /* null with size 0 is the empty text */
    WANT(lq_create(&it, LQ_ROOT, NULL, 0, LQ_FILE, 0, 0, NULL), LQ_BAD_NAME);
    WANT(lq_fetch(&it, NULL, 0, &fetched), LQ_BAD_QUERY);
    CHECK(lq_fault_place(&it) == 0);
    OK(lq_find_path(&it, LQ_ROOT, NULL, 0, &node));
    CHECK(node == LQ_ROOT);
    OK(lq_answer(&it, NULL, 0, &got));
    CHECK(got == 0 && lq_text(&it, NULL, 5) == 0);
    OK(lq_push_attr(&it, TEXT("t")));
    OK(lq_push_text(&it, NULL, 0));
    OK(lq_push_op(&it, LQ_EQ));
    OK(lq_fetch_pushed(&it, &fetched));
    CHECK(fetched.count == 1);
    OK(lq_take(&it, fetched.result, NULL, 0, &got));
    CHECK(got == 0);
    /* with a size it is none */
    WANT(lq_create(&it, LQ_ROOT, NULL, 1, LQ_FILE, 0, 0, NULL), LQ_MISUSE);
    WANT(lq_move(&it, 2, LQ_ROOT, NULL, 1, false, NULL), LQ_MISUSE);
    WANT(lq_set_text(&it, 2, NULL, 1, TEXT("a"), NULL), LQ_MISUSE);
    WANT(lq_set_text(&it, 2, TEXT("a"), NULL, 1, NULL), LQ_MISUSE);
    WANT(lq_set_uint64(&it, 2, NULL, 1, 1, NULL), LQ_MISUSE);
    WANT(lq_unset(&it, 2, NULL, 1, NULL), LQ_MISUSE);
    WANT(lq_query_open(&it, NULL, 1, NULL, &opening), LQ_MISUSE);
    WANT(lq_fetch(&it, NULL, 1, &fetched), LQ_MISUSE);
    WANT(lq_find(&it, LQ_ROOT, NULL, 1, &node), LQ_MISUSE);
    WANT(lq_find_path(&it, LQ_ROOT, NULL, 1, &node), LQ_MISUSE);
    WANT(lq_answer(&it, NULL, 1, &got), LQ_MISUSE);
    WANT(lq_push_attr(&it, NULL, 1), LQ_MISUSE);
    WANT(lq_push_text(&it, NULL, 1), LQ_MISUSE);
    /* no `out` */
    WANT(lq_answer(&it, TEXT("{}"), NULL), LQ_MISUSE);
    WANT(lq_query_open(&it, TEXT("a=b"), NULL, NULL), LQ_MISUSE);
    WANT(lq_query_open_pushed(&it, NULL, NULL), LQ_MISUSE);
    WANT(lq_fetch(&it, TEXT("a=b"), NULL), LQ_MISUSE);
    WANT(lq_fetch_pushed(&it, NULL), LQ_MISUSE);
    OK(lq_query_open(&it, TEXT("size>0"), NULL, &opening));
    WANT(lq_take(&it, opening.result, NULL, 1, &got), LQ_MISUSE);
    WANT(lq_take(&it, opening.result, &row, 1, NULL), LQ_MISUSE);
    WANT(lq_next(&it, opening.result, NULL), LQ_MISUSE);
    WANT(lq_read(&it, 1, NULL), LQ_MISUSE);
    WANT(lq_read_many(&it, 1, NULL, 1, &got), LQ_MISUSE);
    WANT(lq_read_many(&it, 1, &message, 1, NULL), LQ_MISUSE);
    WANT(lq_result(&it, 1, NULL), LQ_MISUSE);
    WANT(lq_find(&it, LQ_ROOT, TEXT("c"), NULL), LQ_MISUSE);
    WANT(lq_find_path(&it, LQ_ROOT, TEXT("c"), NULL), LQ_MISUSE);
    WANT(lq_entry(&it, 2, NULL), LQ_MISUSE);
    WANT(lq_attr_at(&it, 2, 0, NULL), LQ_MISUSE);
    WANT(lq_attr_named(&it, 2, TEXT("t"), NULL), LQ_MISUSE);
    WANT(lq_children(&it, LQ_ROOT, NULL), LQ_MISUSE);
    WANT(lq_path(&it, 2, NULL), LQ_MISUSE);
    /* none of these has made another result */
    OK(lq_take(&it, opening.result, &row, 1, &got));
    CHECK(got == 1 && row.node == 2);
    OK(lq_query_close(&it, 1, NULL));
    lq_volume_close(&it);
}

/* A size beyond its limit is refused before a byte is read: the texts here end at once. */
static void sizes(void) {
    static const size_t more[] = {65537, (size_t)INT64_MAX, SIZE_MAX - 1, SIZE_MAX};
    lq it = LQ_INIT;
    lq_opening opening;
    lq_fetched fetched;
    lq_attr attr;
    uint64_t node;
    OK(lq_volume_open(&it));
    created(&it, LQ_ROOT, "a", LQ_FILE, 1);
    for (size_t at = 0; at < sizeof more / sizeof *more; at++) {
        char *text = malloc(1);
        size_t size = more[at], reply;
        char room[64];
        if (!text) abort();
        *text = 'x';
        WANT(lq_create(&it, LQ_ROOT, text, size, LQ_FILE, 0, 0, NULL), LQ_BAD_NAME);
        WANT(lq_create(&it, LQ_ROOT, text, size, 9, 0, 0, NULL), LQ_BAD_LINE);
        WANT(lq_move(&it, 2, LQ_ROOT, text, size, false, NULL), LQ_BAD_NAME);
        WANT(lq_set_text(&it, 2, text, size, text, 1, NULL), LQ_BAD_NAME);
        WANT(lq_set_text(&it, 2, text, size, text, size, NULL), LQ_BAD_NAME);
        WANT(lq_set_text(&it, 2, text, 1, text, size, NULL), LQ_TOO_LONG);
        WANT(lq_set_int32(&it, 2, text, size, 1, NULL), LQ_BAD_NAME);
        WANT(lq_set_int64(&it, 2, text, size, 1, NULL), LQ_BAD_NAME);
        WANT(lq_set_uint32(&it, 2, text, size, 1, NULL), LQ_BAD_NAME);
        WANT(lq_set_uint64(&it, 2, text, size, 1, NULL), LQ_BAD_NAME);
        WANT(lq_unset(&it, 2, text, size, NULL), LQ_BAD_NAME);
        WANT(lq_query_open(&it, text, size, NULL, &opening), LQ_BAD_QUERY);
        CHECK(lq_fault_place(&it) == 4096);
        WANT(lq_push_attr(&it, text, size), LQ_BAD_QUERY);
        CHECK(lq_fault_place(&it) == 0);
        WANT(lq_fetch(&it, text, size, &fetched), LQ_BAD_QUERY);
        CHECK(lq_fault_place(&it) == 4096);
        WANT(lq_push_text(&it, text, size), LQ_BAD_QUERY);
        WANT(lq_find(&it, LQ_ROOT, text, size, &node), LQ_BAD_NAME);
        WANT(lq_find_path(&it, LQ_ROOT, text, size, &node), LQ_BAD_NAME);
        WANT(lq_attr_named(&it, 2, text, size, &attr), LQ_BAD_NAME);
        OK(lq_answer(&it, text, size, &reply));
        CHECK(reply == 31 && lq_text(&it, room, sizeof room) == 31 &&
              strcmp(room, "{\"code\":30,\"error\":\"LongLine\"}\n") == 0);
        free(text);
    }
    CHECK(lq_changes(&it) == 1);
    lq_volume_close(&it);
}

/* A stack takes LQ_PUSHES, and is as new once it is cleared or its predicate was taken. */
static void pushes(void) {
    lq it = LQ_INIT;
    lq_fetched fetched;
    OK(lq_volume_open(&it));
    for (int round = 0; round < 2; round++) {
        /* a refused one isn't counted */
        WANT(lq_push_op(&it, LQ_NOT), LQ_BAD_QUERY);
        for (int number = 0; number < LQ_PUSHES; number++) OK(lq_push_int32(&it, number));
        WANT(lq_push_int32(&it, 0), LQ_MISUSE);
        WANT(lq_push_op(&it, LQ_NOT), LQ_MISUSE);
        WANT(lq_push_text(&it, TEXT("a")), LQ_MISUSE);
        WANT(lq_fetch_pushed(&it, &fetched), LQ_BAD_QUERY);
        CHECK(lq_fault_place(&it) == LQ_PUSHES);
        OK(lq_clear_pushed(&it));
    }
    for (int number = 0; number < LQ_PUSHES; number++) {
        OK(lq_push_attr(&it, TEXT("size")));
        OK(lq_push_int32(&it, number));
        OK(lq_push_op(&it, LQ_EQ));
        OK(lq_fetch_pushed(&it, &fetched));
    }
    lq_volume_close(&it);
}

int main(void) {
    handles();
    handles_without_init();
    versions();
    nulls();
    sizes();
    pushes();
    return done("misuse");
}
