/* Live queries from their openings to their ends, and queries by pushes. */
#include "check.h"

static char long_name[256], long_text[4097];

/* A subscription from its opening to its end, and slots that are free or ended. */
static void subscriptions(void) {
    static const uint64_t free_slots[] = {0, 2, 64, 65, UINT64_MAX};
    lq it = LQ_INIT;
    lq_options too_many = {LQ_BACKLOG + 1, false, false, false}, two = {2, false, false, false},
               one = {1, false, false, false};
    const lq_options moved = {16, true, false, false};
    lq_opening opening;
    lq_message message;
    lq_rebuilt rebuilt;
    lq_row row;
    lq_applied applied;
    uint64_t covered;
    OK(lq_volume_open(&it));
    created(&it, 1, "in", LQ_FOLDER, 0);
    created(&it, 2, "a.txt", LQ_FILE, 200);
    created(&it, 2, "b.txt", LQ_FILE, 50);
    REFUSED(lq_query_open(&it, TEXT("size>"), &too_many, &opening), LQ_BAD_QUERY, opening);
    CHECK(lq_fault_place(&it) == 5);
    REFUSED(lq_query_open(&it, "", 0, NULL, &opening), LQ_BAD_QUERY, opening);
    CHECK(lq_fault_place(&it) == 0);
    REFUSED(lq_query_open(&it, long_text, 4097, NULL, &opening), LQ_BAD_QUERY, opening);
    CHECK(lq_fault_place(&it) == 4096);
    REFUSED(lq_query_open(&it, TEXT("name==\xff"), NULL, &opening), LQ_NOT_UTF8, opening);
    REFUSED(lq_query_open(&it, TEXT("size>1"), &too_many, &opening), LQ_BAD_BACKLOG, opening);
    too_many.backlog = UINT64_MAX;
    REFUSED(lq_query_open(&it, TEXT("size>1"), &too_many, &opening), LQ_BAD_BACKLOG, opening);
    OK(lq_query_open(&it, TEXT("size>100"), &moved, &opening));
    CHECK(opening.slot == 1 && opening.at == 3 && opening.count == 1);
    OK(lq_next(&it, opening.result, &row));
    CHECK(row.dir == 2 && row.node == 3 && NAMED(row, "a.txt"));
    CHECK(row.kind == LQ_FILE && row.size == 200 && row.time == 941000000);
    REFUSED(lq_next(&it, opening.result, &row), LQ_NO_ENTRY, row);

    REFUSED(lq_read(&it, 1, &message), LQ_EMPTY, message);
    OK(lq_write(&it, 4, 300, 1, &applied));
    OK(lq_move(&it, 3, 1, TEXT("c.txt"), false, &applied));
    OK(lq_remove(&it, 3, &applied));
    OK(lq_read(&it, 1, &message));
    CHECK(message.what == LQ_UPDATE && message.op == LQ_ENTRY_CREATED && message.seq == 1 &&
          message.change == 4 && message.last);
    CHECK(message.dir == 2 && message.node == 4 && NAMED(message, "b.txt"));
    CHECK(message.cause == 0 && message.from_dir == 0 && message.from_name_size == 0 &&
          message.from_name[0] == 0);
    OK(lq_read(&it, 1, &message));
    CHECK(message.what == LQ_UPDATE && message.op == LQ_ENTRY_MOVED && message.seq == 2 &&
          message.change == 5 && message.last);
    CHECK(message.dir == 1 && message.node == 3 && NAMED(message, "c.txt") &&
          message.from_dir == 2);
    CHECK(message.from_name_size == 5 && memcmp(message.from_name, "a.txt", 6) == 0);
    OK(lq_result(&it, 1, &rebuilt));
    CHECK(rebuilt.change == 5 && rebuilt.settled && rebuilt.count == 2);
    OK(lq_next(&it, rebuilt.result, &row));
    /* the node has gone from the volume, and the message that says so wasn't read yet */
    CHECK(row.node == 3 && row.dir == 1 && row.kind == LQ_GONE && row.size == 0 && row.time == 0);
    OK(lq_next(&it, rebuilt.result, &row));
    CHECK(row.node == 4 && row.kind == LQ_FILE && row.size == 300 && row.time == 1);

    for (size_t at = 0; at < sizeof free_slots / sizeof *free_slots; at++) {
        uint64_t slot = free_slots[at];
        REFUSED(lq_read(&it, slot, &message), LQ_NOT_OPEN, message);
        REFUSED(lq_query_close(&it, slot, &covered), LQ_NOT_OPEN, covered);
        REFUSED(lq_result(&it, slot, &rebuilt), LQ_NOT_OPEN, rebuilt);
        WANT(lq_hang_up(&it, slot), LQ_NOT_OPEN);
        WANT(lq_finish(&it, slot), LQ_NOT_OPEN);
    }
    WANT(lq_finish(&it, 1), LQ_STILL_OPEN);
    OK(lq_query_close(&it, 1, &covered));
    CHECK(covered == 6);
    REFUSED(lq_query_close(&it, 1, &covered), LQ_NOT_OPEN, covered);
    WANT(lq_finish(&it, 1), LQ_STILL_OPEN);
    OK(lq_hang_up(&it, 1));
    OK(lq_read(&it, 1, &message));
    CHECK(message.op == LQ_ENTRY_REMOVED && message.seq == 3 && message.change == 6 &&
          message.node == 3 && message.dir == 1);
    OK(lq_read(&it, 1, &message));
    CHECK(message.what == LQ_END && message.cause == LQ_CLOSED && message.seq == 4 &&
          message.change == 6 && message.op == 0 && message.name_size == 0);
    for (int again = 0; again < 2; again++) REFUSED(lq_read(&it, 1, &message), LQ_ENDED, message);
    OK(lq_result(&it, 1, &rebuilt));
    CHECK(rebuilt.count == 1 && rebuilt.change == 6 && rebuilt.settled);
    OK(lq_finish(&it, 1));
    WANT(lq_finish(&it, 1), LQ_NOT_OPEN);
    REFUSED(lq_read(&it, 1, &message), LQ_NOT_OPEN, message);

    /* without `moved`; an end that its reader asks for, and one by overrun: two messages, and room for one */
    OK(lq_query_open(&it, TEXT("name==*"), &two, &opening));
    CHECK(opening.slot == 1);
    OK(lq_query_open(&it, TEXT("name==*"), &one, &opening));
    CHECK(opening.slot == 2);
    OK(lq_move(&it, 4, 1, TEXT("d.txt"), false, &applied));
    OK(lq_hang_up(&it, 1));
    OK(lq_read(&it, 1, &message));
    CHECK(message.op == LQ_ENTRY_REMOVED && message.node == 4 && !message.last);
    OK(lq_result(&it, 1, &rebuilt));
    CHECK(!rebuilt.settled && rebuilt.change == 7);
    OK(lq_read(&it, 1, &message));
    CHECK(message.op == LQ_ENTRY_CREATED && message.last);
    OK(lq_read(&it, 1, &message));
    CHECK(message.what == LQ_END && message.cause == LQ_HUNG_UP && message.change == 7);
    OK(lq_read(&it, 2, &message));
    CHECK(message.what == LQ_END && message.cause == LQ_OVERRUN && message.change == 6 &&
          message.seq == 1);
    OK(lq_finish(&it, 2));

    /* all slots, and one more */
    for (uint64_t slot = 2; slot <= 64; slot++) {
        OK(lq_query_open(&it, TEXT("size<0"), NULL, &opening));
        CHECK(opening.slot == slot && opening.count == 0);
    }
    REFUSED(lq_query_open(&it, TEXT("size<0"), NULL, &opening), LQ_NO_SLOT, opening);
    lq_volume_close(&it);
}

/* Pushes make the same queries as formulas; one that doesn't fit changes nothing. */
static void pushes(void) {
    lq it = LQ_INIT;
    lq_options options = {9, false, false, false};
    lq_fetched fetched;
    lq_opening opening;
    lq_row row;
    lq_applied applied;
    OK(lq_volume_open(&it));
    created(&it, 1, "a.txt", LQ_FILE, 200);
    created(&it, 1, "b.txt", LQ_FILE, 50);
    created(&it, 1, "c*", LQ_FILE, 7);
    OK(lq_set_uint64(&it, 2, TEXT("n"), UINT64_MAX, &applied));
    OK(lq_set_int64(&it, 3, TEXT("n"), INT64_MIN, &applied));
    OK(lq_set_int32(&it, 4, TEXT("n"), -3, &applied));

    /* name == *.txt && size > 100 */
    OK(lq_push_attr(&it, TEXT("name")));
    OK(lq_push_text(&it, TEXT("*.txt")));
    OK(lq_push_op(&it, LQ_EQ));
    OK(lq_push_attr(&it, TEXT("size")));
    OK(lq_push_int32(&it, 100));
    REFUSED(lq_fetch_pushed(&it, &fetched), LQ_BAD_QUERY, fetched);
    OK(lq_push_op(&it, LQ_GT));
    OK(lq_push_op(&it, LQ_AND));
    OK(lq_fetch_pushed(&it, &fetched));
    CHECK(fetched.count == 1 && fetched.at == 6);
    OK(lq_next(&it, fetched.result, &row));
    CHECK(row.node == 2);

    /* each operator, over one attribute and one value: which of the three entries it finds */
    static const struct {
        const char *attr, *text;
        int64_t whole;
        uint32_t op;
        size_t count;
    } rows[] = {{"name", "a.txt", 0, LQ_EQ, 1},
                {"name", "*", 0, LQ_NE, 0},
                {"name", "b", 0, LQ_GT, 2},
                {"name", "b.txt", 0, LQ_GE, 2},
                {"name", "b.txt", 0, LQ_LT, 1},
                {"name", "b.txt", 0, LQ_LE, 2},
                {"name", "*", 0, LQ_CONTAINS, 1},
                {"name", "c", 0, LQ_BEGINS_WITH, 1},
                {"name", ".txt", 0, LQ_ENDS_WITH, 2},
                {"n", NULL, -3, LQ_EQ, 1},
                {"n", NULL, -3, LQ_LT, 1},
                {"n", NULL, -3, LQ_GE, 2}};
    for (size_t at = 0; at < sizeof rows / sizeof *rows; at++)
        for (int negated = 0; negated < 2; negated++) {
            OK(lq_push_attr(&it, rows[at].attr, strlen(rows[at].attr)));
            if (rows[at].text) OK(lq_push_text(&it, rows[at].text, strlen(rows[at].text)));
            else OK(lq_push_int64(&it, rows[at].whole));
            OK(lq_push_op(&it, rows[at].op));
            if (negated) OK(lq_push_op(&it, LQ_NOT));
            OK(lq_fetch_pushed(&it, &fetched));
            CHECK(fetched.count == (negated ? 3 - rows[at].count : rows[at].count));
        }

    /* each kind of number, at the ends of its range */
    for (int kind = 0; kind < 8; kind++) {
        const bool is_least = kind % 2;
        const int64_t whole = kind < 2   ? is_least ? INT32_MIN : INT32_MAX
                              : is_least ? INT64_MIN
                                         : INT64_MAX;
        const uint64_t natural = is_least ? 0 : kind < 6 ? UINT32_MAX : UINT64_MAX;
        if (kind < 4) OK(lq_set_int64(&it, 4, TEXT("n"), whole, &applied));
        else OK(lq_set_uint64(&it, 4, TEXT("n"), natural, &applied));
        OK(lq_push_attr(&it, TEXT("n")));
        if (kind < 2) OK(lq_push_int32(&it, (int32_t)whole));
        else if (kind < 4) OK(lq_push_int64(&it, whole));
        else if (kind < 6) OK(lq_push_uint32(&it, (uint32_t)natural));
        else OK(lq_push_uint64(&it, natural));
        OK(lq_push_op(&it, LQ_EQ));
        OK(lq_push_attr(&it, TEXT("name")));
        OK(lq_push_text(&it, TEXT("c*")));
        OK(lq_push_op(&it, LQ_EQ));
        OK(lq_push_op(&it, LQ_AND));
        OK(lq_fetch_pushed(&it, &fetched));
        CHECK(fetched.count == 1);
        OK(lq_next(&it, fetched.result, &row));
        CHECK(row.node == 4);
    }

    /* as a live query; one that is refused takes the predicate off all the same, and what is cleared has gone */
    for (int round = 0; round < 3; round++) {
        if (round == 1) {
            OK(lq_push_attr(&it, TEXT("left")));
            OK(lq_clear_pushed(&it));
            WANT(lq_push_op(&it, LQ_NOT), LQ_BAD_QUERY);
            CHECK(lq_fault_place(&it) == 0);
        }
        OK(lq_push_attr(&it, TEXT("n")));
        OK(lq_push_uint32(&it, 7));
        OK(lq_push_op(&it, LQ_GT));
        OK(lq_push_attr(&it, TEXT("size")));
        OK(lq_push_int32(&it, 100));
        OK(lq_push_op(&it, LQ_LT));
        OK(lq_push_op(&it, LQ_OR));
        options.backlog = round == 0 ? LQ_BACKLOG + 1 : 9;
        options.moved = round == 1;
        if (round == 0)
            REFUSED(lq_query_open_pushed(&it, &options, &opening), LQ_BAD_BACKLOG, opening);
        else OK(lq_query_open_pushed(&it, &options, &opening));
        REFUSED(lq_query_open_pushed(&it, NULL, &opening), LQ_BAD_QUERY, opening);
        CHECK(lq_fault_place(&it) == 0);
    }
    lq_message message;
    OK(lq_move(&it, 2, 1, TEXT("moved"), false, &applied));
    OK(lq_read(&it, 1, &message));
    CHECK(message.op == LQ_ENTRY_MOVED && message.node == 2);
    OK(lq_read(&it, 2, &message));
    CHECK(message.op == LQ_ENTRY_REMOVED && message.node == 2);
    OK(lq_read(&it, 2, &message));
    CHECK(message.op == LQ_ENTRY_CREATED && message.node == 2);

    /* what doesn't fit, with the number of pushes so far */
    WANT(lq_push_op(&it, LQ_EQ), LQ_BAD_QUERY);
    CHECK(lq_fault_place(&it) == 0);
    WANT(lq_push_attr(&it, "", 0), LQ_BAD_QUERY);
    WANT(lq_push_attr(&it, long_name, 256), LQ_BAD_QUERY);
    WANT(lq_push_attr(&it, TEXT("a\0b")), LQ_BAD_QUERY);
    WANT(lq_push_attr(&it, TEXT("\xff")), LQ_NOT_UTF8);
    OK(lq_push_attr(&it, long_name, 255));
    WANT(lq_push_text(&it, long_text, 4097), LQ_BAD_QUERY);
    CHECK(lq_fault_place(&it) == 1);
    WANT(lq_push_text(&it, TEXT("\xc3")), LQ_NOT_UTF8);
    OK(lq_push_text(&it, TEXT("[")));
    WANT(lq_push_op(&it, LQ_EQ), LQ_BAD_QUERY);
    CHECK(lq_fault_place(&it) == 2);
    WANT(lq_push_op(&it, LQ_AND), LQ_BAD_QUERY);
    WANT(lq_push_op(&it, 0), LQ_BAD_LINE);
    WANT(lq_push_op(&it, 13), LQ_BAD_LINE);
    WANT(lq_push_op(&it, UINT32_MAX), LQ_BAD_LINE);
    OK(lq_push_op(&it, LQ_CONTAINS));
    for (int depth = 1; depth < 64; depth++) OK(lq_push_op(&it, LQ_NOT));
    WANT(lq_push_op(&it, LQ_NOT), LQ_BAD_QUERY);
    CHECK(lq_fault_place(&it) == 66);
    OK(lq_fetch_pushed(&it, &fetched));
    CHECK(fetched.count == 3);
    REFUSED(lq_fetch_pushed(&it, &fetched), LQ_BAD_QUERY, fetched);
    lq_volume_close(&it);
}

/* A message of a value has the entry's place, and the name of an attribute. Only a query that asks for them gets them. */
static void messages_of_values(void) {
    static const uint64_t written = 3;
    const lq_options both = {0, true, false, true}, alone = {0, false, true, true};
    lq it = LQ_INIT;
    lq_opening opening;
    lq_message message;
    lq_rebuilt rebuilt;
    lq_row row;
    OK(lq_volume_open(&it));
    created(&it, 1, "in", LQ_FOLDER, 0);
    created(&it, 2, "a", LQ_FILE, 200);
    created(&it, 2, "b", LQ_FILE, 50);
    OK(lq_query_open(&it, TEXT("size>100"), NULL, &opening));
    OK(lq_query_open(&it, TEXT("size>100"), &both, &opening));
    OK(lq_query_open(&it, TEXT("size>100"), &alone, &opening));
    CHECK(opening.slot == 3 && opening.count == 1);

    /* within the result: a write, a set, a set to the value that is there, an unset, each by the longest name too */
    OK(lq_write(&it, 3, 300, 8, NULL));
    OK(lq_write(&it, 3, 300, 8, NULL));
    OK(lq_set_text(&it, 3, TEXT("status"), TEXT("New"), NULL));
    OK(lq_set_text(&it, 3, TEXT("status"), TEXT("New"), NULL));
    OK(lq_set_uint64(&it, 3, long_name, 255, UINT64_MAX, NULL));
    OK(lq_unset(&it, 3, TEXT("status"), NULL));
    CHECK(lq_ready(&it) == 6);
    REFUSED(lq_read(&it, 1, &message), LQ_EMPTY, message);
    for (uint64_t slot = 2; slot <= 3; slot++) {
        for (uint64_t number = 1; number <= 6; number++) {
            POISON(message);
            OK(lq_read(&it, slot, &message));
            CHECK(message.what == LQ_UPDATE && message.seq == number && message.change == written + number &&
                  message.last && message.cause == 0);
            CHECK(message.dir == 2 && message.node == 3 && NAMED(message, "a"));
            CHECK(message.from_dir == 0 && message.from_name_size == 0 && message.from_name[0] == 0);
            if (number <= 2) {
                CHECK(message.op == LQ_STAT_CHANGED && message.attr_size == 0 && message.attr[0] == 0);
            } else if (number == 5) {
                CHECK(message.op == LQ_ATTR_CHANGED && message.attr_size == 255 && message.attr[255] == 0 &&
                      memcmp(message.attr, long_name, 255) == 0);
            } else {
                CHECK(message.op == LQ_ATTR_CHANGED && message.attr_size == 6 &&
                      memcmp(message.attr, "status", 7) == 0);
            }
        }
        REFUSED(lq_read(&it, slot, &message), LQ_EMPTY, message);
    }
    /* the rebuilt result is the one before, of a later change */
    OK(lq_result(&it, 2, &rebuilt));
    CHECK(rebuilt.change == 9 && rebuilt.settled && rebuilt.count == 1);
    OK(lq_next(&it, rebuilt.result, &row));
    CHECK(row.node == 3 && row.dir == 2 && NAMED(row, "a") && row.size == 300 && row.time == 8);
    REFUSED(lq_result(&it, 3, &rebuilt), LQ_NOT_OPEN, rebuilt);

    /* outside, into it, within, out of it, outside: 10 to 14; refused changes make no message */
    OK(lq_set_text(&it, 4, TEXT("status"), TEXT("New"), NULL));
    OK(lq_write(&it, 4, 101, 1, NULL));
    OK(lq_write(&it, 4, 102, 1, NULL));
    OK(lq_write(&it, 4, 100, 1, NULL));
    OK(lq_unset(&it, 4, TEXT("status"), NULL));
    WANT(lq_unset(&it, 3, TEXT("status"), NULL), LQ_NO_ATTR);
    WANT(lq_write(&it, 3, UINT64_MAX, 1, NULL), LQ_TOO_LONG);
    /* a move within: one message with `moved`, and two without */
    OK(lq_move(&it, 3, 1, TEXT("c"), false, NULL));
    static const uint32_t ops[][5] = {
        {LQ_ENTRY_CREATED, LQ_ENTRY_REMOVED, LQ_ENTRY_REMOVED, LQ_ENTRY_CREATED, 0},
        {LQ_ENTRY_CREATED, LQ_STAT_CHANGED, LQ_ENTRY_REMOVED, LQ_ENTRY_MOVED, 0},
        {LQ_ENTRY_CREATED, LQ_STAT_CHANGED, LQ_ENTRY_REMOVED, LQ_ENTRY_REMOVED, LQ_ENTRY_CREATED}};
    static const uint64_t changes[][5] = {{11, 13, 15, 15, 0}, {11, 12, 13, 15, 0}, {11, 12, 13, 15, 15}};
    for (uint64_t slot = 1; slot <= 3; slot++) {
        for (size_t number = 0; number < 5 && ops[slot - 1][number]; number++) {
            OK(lq_read(&it, slot, &message));
            CHECK(message.op == ops[slot - 1][number] && message.change == changes[slot - 1][number]);
            CHECK(message.node == (message.change == 15 ? 3 : 4) && message.attr_size == 0 && message.attr[0] == 0);
        }
        REFUSED(lq_read(&it, slot, &message), LQ_EMPTY, message);
    }
    lq_volume_close(&it);
}

/* Messages of values take room in the backlog as others do; a query by pushes, and one by values, asks for them too. */
static void room_for_values(void) {
    const lq_options two = {2, false, false, true};
    lq it = LQ_INIT;
    lq_opening opening;
    lq_message message;
    OK(lq_volume_open(&it));
    created(&it, 1, "a", LQ_FILE, 200);
    OK(lq_push_attr(&it, TEXT("size")));
    OK(lq_push_int32(&it, 100));
    OK(lq_push_op(&it, LQ_GT));
    OK(lq_query_open_pushed(&it, &two, &opening));
    OK(lq_bind_int64(&it, 100));
    OK(lq_query_open_bound(&it, TEXT("size>$1"), &two, &opening));
    for (uint64_t time = 0; time < 4; time++) OK(lq_write(&it, 2, 200, 1, NULL));
    for (uint64_t slot = 1; slot <= 2; slot++) {
        for (uint64_t number = 1; number <= 3; number++) {
            OK(lq_read(&it, slot, &message));
            CHECK(message.op == LQ_STAT_CHANGED && message.change == 1 + number);
        }
        OK(lq_read(&it, slot, &message));
        CHECK(message.what == LQ_END && message.cause == LQ_OVERRUN && message.change == 4);
        CHECK(message.op == 0 && message.attr_size == 0 && message.attr[0] == 0);
    }
    lq_volume_close(&it);
}

int main(void) {
    memset(long_name, 'n', sizeof long_name);
    memset(long_text, 't', sizeof long_text);
    subscriptions();
    pushes();
    messages_of_values();
    room_for_values();
    return done("queries");
}
