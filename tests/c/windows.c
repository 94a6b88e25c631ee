/* Which slots are ready, several messages at once, slots that are dropped, results that are taken in pieces, paths. */
#include "check.h"

enum { TURNS = 20000, MANY = 7 };

static uint64_t state = 1;

/* A drawn number below a bound, by the generator of Park and Miller. */
static uint64_t draw(uint64_t bound) {
    state = state * 48271 % 2147483647;
    return state % bound;
}

/* Each bit of lq_ready, beside what a read of its slot gives; the same by lq_read_many on a twin of the handle. */
static void readiness(void) {
    lq it = LQ_INIT, twin = LQ_INIT;
    lq *const both[] = {&it, &twin};
    unsigned long ready = 0, idle = 0, marks = 0;
    bool is_ended[6] = {false}; /* whether the mark of a slot was read */
    OK(lq_volume_open(&it));
    OK(lq_volume_open(&twin));
    CHECK(lq_ready(&it) == 0);
    for (uint64_t node = 2; node < 40; node++)
        for (int each = 0; each < 2; each++)
            CHECK(created(both[each], LQ_ROOT, (char[]){(char)('A' + node), 0}, LQ_FILE, 0) == node);
    for (int turn = 0; turn < TURNS && failures < 9; turn++) {
        uint64_t slot = 1 + draw(5), node = 2 + draw(38), size = draw(200), act = draw(12);
        lq_options options = {1 + draw(4), draw(2), draw(2), draw(2)};
        for (int each = 0; each < 2; each++) {
            lq_opening opening;
            if (act == 0) (void)lq_query_open(both[each], TEXT("size>100"), &options, &opening);
            else if (act == 1) (void)lq_hang_up(both[each], slot);
            else if (act == 2) (void)lq_query_close(both[each], slot, NULL);
            else if (act == 3) is_ended[slot] = lq_finish(both[each], slot) != LQ_OK && is_ended[slot];
            else OK(lq_write(both[each], node, size, 1, NULL));
        }
        uint64_t bits = lq_ready(&it);
        CHECK(bits == lq_ready(&twin));
        if (act < 6) continue;
        lq_message one, many[MANY];
        size_t room = draw(MANY), got = 99, count = 0;
        memset(&one, 0, sizeof one);
        memset(many, 0, sizeof many);
        lq_status status = lq_read_many(&twin, slot, many, room, &got), read = LQ_OK;
        while (count < room && (read = lq_read(&it, slot, &one)) == LQ_OK) {
            if (count == 0) CHECK((bits >> (slot - 1) & 1) == 1);
            CHECK(one.what == many[count].what && one.seq == many[count].seq &&
                  one.node == many[count].node && one.cause == many[count].cause &&
                  strcmp(one.name, many[count].name) == 0);
            is_ended[slot] = one.what == LQ_END;
            marks += is_ended[slot];
            count++;
            ready++;
        }
        if (room > 0 && count == 0) {
            CHECK((bits >> (slot - 1) & 1) == 0);
            idle++;
        }
        bool is_free = read == LQ_NOT_OPEN;
        CHECK(is_free || read == LQ_OK || read == (is_ended[slot] ? LQ_ENDED : LQ_EMPTY));
        CHECK(status == (is_free ? LQ_NOT_OPEN : LQ_OK) && got == (is_free ? 99 : count));
    }
    CHECK(ready > 1000 && idle > 1000 && marks > 100);
    lq_volume_close(&it);
    lq_volume_close(&twin);
}

/* A query that is hung up has its mark to read, though nothing has moved it up yet. */
static void a_hang_up_is_ready(void) {
    lq it = LQ_INIT;
    lq_opening opening;
    lq_message message;
    OK(lq_volume_open(&it));
    OK(lq_query_open(&it, TEXT("size>0"), NULL, &opening));
    CHECK(lq_ready(&it) == 0);
    OK(lq_hang_up(&it, 1));
    CHECK(lq_ready(&it) == 1);
    OK(lq_read(&it, 1, &message));
    CHECK(message.what == LQ_END && message.cause == LQ_HUNG_UP && lq_ready(&it) == 0);
    WANT(lq_read(&it, 1, &message), LQ_ENDED);
    CHECK(lq_ready(&it) == 0);
    OK(lq_query_open(&it, TEXT("size>0"), NULL, &opening));
    for (uint64_t slot = 3; slot <= LQ_SLOTS; slot++)
        OK(lq_query_open(&it, TEXT("size>0"), NULL, &opening));
    created(&it, LQ_ROOT, "a", LQ_FILE, 1);
    CHECK(lq_ready(&it) == UINT64_MAX - 1);
    lq_volume_close(&it);
}

/* The backlog holds what it says, and then the query ends; a new one begins where that ended. */
static void overruns(void) {
    static const uint64_t backlogs[] = {1, 2, 5, 4096};
    for (size_t at = 0; at < sizeof backlogs / sizeof *backlogs; at++) {
        lq it = LQ_INIT;
        lq_options options = LQ_OPTIONS_INIT;
        lq_opening opening;
        lq_message message;
        uint64_t count = 0;
        char name[16];
        OK(lq_volume_open(&it));
        options.backlog = backlogs[at];
        OK(lq_query_open(&it, TEXT("size>0"), &options, &opening));
        for (int number = 0; number < 5000; number++) {
            snprintf(name, sizeof name, "f%d", number);
            created(&it, LQ_ROOT, name, LQ_FILE, 1);
        }
        for (;; count++) {
            OK(lq_read(&it, 1, &message));
            if (message.what != LQ_UPDATE) break;
            CHECK(message.change == count + 1);
        }
        /* one message beside the backlog: the oldest */
        CHECK(count == backlogs[at] + 1);
        CHECK(message.what == LQ_END && message.cause == LQ_OVERRUN && message.change == count);
        lq_volume_close(&it);
    }
}

/* Where nothing is said of it the backlog is LQ_BACKLOG. */
static void the_largest_backlog(void) {
    lq it = LQ_INIT;
    lq_opening opening;
    static lq_message many[1024];
    size_t got, count = 0;
    OK(lq_volume_open(&it));
    created(&it, LQ_ROOT, "a", LQ_FILE, 0);
    OK(lq_query_open(&it, TEXT("size>0"), NULL, &opening));
    for (uint64_t number = 1; number <= LQ_BACKLOG + 2; number++)
        OK(lq_write(&it, 2, number % 2, 0, NULL));
    do {
        OK(lq_read_many(&it, 1, many, 1024, &got));
        count += got;
    } while (got == 1024);
    CHECK(count == LQ_BACKLOG + 2 && many[got - 1].what == LQ_END &&
          many[got - 1].cause == LQ_OVERRUN && many[got - 1].change == LQ_BACKLOG + 2);
    lq_volume_close(&it);
}

static void drops(void) {
    lq it = LQ_INIT;
    lq_options bare = {0, false, true, false};
    lq_opening opening;
    lq_message message;
    lq_rebuilt rebuilt;
    OK(lq_volume_open(&it));
    WANT(lq_drop(&it, 1), LQ_NOT_OPEN);
    WANT(lq_drop(&it, 0), LQ_NOT_OPEN);
    WANT(lq_drop(&it, UINT64_MAX), LQ_NOT_OPEN);
    for (int way = 0; way < 5; way++) {
        OK(lq_query_open(&it, TEXT("name=*"), NULL, &opening));
        CHECK(opening.slot == 1);
        created(&it, LQ_ROOT, (char[]){(char)('a' + way), 0}, LQ_FILE, 1);
        created(&it, LQ_ROOT, (char[]){(char)('A' + way), 0}, LQ_FILE, 1);
        if (way == 1) OK(lq_hang_up(&it, 1));
        if (way == 2) OK(lq_query_close(&it, 1, NULL));
        if (way > 2) {
            OK(lq_query_close(&it, 1, NULL));
            for (int read = 0; read < 3; read++) OK(lq_read(&it, 1, &message));
            CHECK(message.what == LQ_END);
            if (way == 4) WANT(lq_read(&it, 1, &message), LQ_ENDED);
        }
        OK(lq_drop(&it, 1));
        WANT(lq_drop(&it, 1), LQ_NOT_OPEN);
        CHECK(lq_ready(&it) == 0);
    }
    /* a slot that keeps no rebuilt result reads as any other */
    OK(lq_query_open(&it, TEXT("name=*"), &bare, &opening));
    CHECK(opening.count == 10);
    REFUSED(lq_result(&it, 1, &rebuilt), LQ_NOT_OPEN, rebuilt);
    created(&it, LQ_ROOT, "new", LQ_FILE, 1);
    OK(lq_read(&it, 1, &message));
    CHECK(message.op == LQ_ENTRY_CREATED && NAMED(message, "new"));
    REFUSED(lq_result(&it, 1, &rebuilt), LQ_NOT_OPEN, rebuilt);
    lq_volume_close(&it);
}

/* Results are taken in pieces; a second result ends the first, and says so. */
static void results(void) {
    lq it = LQ_INIT;
    lq_listing outer, inner;
    lq_fetched fetched;
    lq_row rows[8], row;
    size_t got;
    OK(lq_volume_open(&it));
    for (uint64_t folder = 0; folder < 6; folder++) {
        uint64_t node = created(&it, LQ_ROOT, (char[]){(char)('a' + folder), 0}, LQ_FOLDER, 0);
        created(&it, node, "in", LQ_FILE, folder);
    }
    OK(lq_children(&it, LQ_ROOT, &outer));
    CHECK(outer.count == 6);
    REFUSED(lq_take(&it, outer.result + 1, &row, 1, &got), LQ_MISUSE, row);
    REFUSED(lq_take(&it, 0, &row, 1, &got), LQ_MISUSE, row);
    OK(lq_take(&it, outer.result, rows, 4, &got));
    CHECK(got == 4 && rows[0].kind == LQ_FOLDER && rows[3].node == 8 && NAMED(rows[3], "d"));
    OK(lq_take(&it, outer.result, rows + 4, 4, &got));
    CHECK(got == 2 && rows[5].node == 12);
    for (size_t at = 0; at < 6; at++) {
        OK(lq_children(&it, rows[at].node, &inner));
        CHECK(inner.count == 1 && inner.result != outer.result);
        REFUSED(lq_next(&it, outer.result, &row), LQ_MISUSE, row);
        OK(lq_next(&it, inner.result, &row));
        CHECK(row.dir == rows[at].node && row.size == at && row.kind == LQ_FILE && NAMED(row, "in"));
    }
    OK(lq_fetch(&it, TEXT("name==in"), &fetched));
    OK(lq_take(&it, fetched.result, rows, 8, &got));
    CHECK(got == 6 && fetched.count == 6 && rows[5].size == 5 && rows[5].time == 941000000);
    OK(lq_take(&it, fetched.result, rows, 8, &got));
    CHECK(got == 0);
    lq_volume_close(&it);
}

/* A handle that is closed and opened again counts on: a number of the volume before is no result of the next one. */
static void results_of_a_closed_volume(void) {
    lq it = LQ_INIT;
    lq_fetched fetched = {0, 0, 0};
    lq_row row;
    size_t got = 0;
    uint64_t last = 0;
    for (int volume = 0; volume < 3; volume++) {
        OK(lq_volume_open(&it));
        created(&it, LQ_ROOT, "a", LQ_FILE, 1);
        for (uint64_t number = 1; number <= last; number++) {
            REFUSED(lq_take(&it, number, &row, 1, &got), LQ_MISUSE, row);
            REFUSED(lq_next(&it, number, &row), LQ_MISUSE, row);
        }
        /* the last volume has one, and makes none again */
        for (int made = 0; made < 3 - volume; made++) {
            OK(lq_fetch(&it, TEXT("name==a"), &fetched));
            CHECK(fetched.result > last);
            last = fetched.result;
        }
        REFUSED(lq_take(&it, last - 1, &row, 1, &got), LQ_MISUSE, row);
        OK(lq_take(&it, last, &row, 1, &got));
        CHECK(got == 1 && NAMED(row, "a"));
        lq_volume_close(&it);
        lq_volume_close(&it);
        REFUSED(lq_take(&it, last, &row, 1, &got), LQ_MISUSE, row);
    }
}

static void paths(void) {
    static const struct {
        const char *path;
        lq_status status;
        uint64_t node;
    } rows[] = {{"", LQ_OK, 1},       {"/", LQ_OK, 1},          {"///", LQ_OK, 1},
                {"f", LQ_OK, 2},      {"/f", LQ_OK, 2},         {"f/", LQ_OK, 2},
                {"/f/g/h", LQ_OK, 4}, {"f//g///h//", LQ_OK, 4}, {"/f/g/x", LQ_NO_ENTRY, 0},
                {"x/g", LQ_NO_ENTRY, 0}, {"f/g/h/i", LQ_NOT_FOLDER, 0}, {"f/./g", LQ_BAD_NAME, 0},
                {"f/../f", LQ_BAD_NAME, 0}, {"f/\xff", LQ_NOT_UTF8, 0}};
    lq it = LQ_INIT;
    uint64_t node;
    char long_path[600];
    static char longest[LQ_PATH_SIZE + 1];
    OK(lq_volume_open(&it));
    created(&it, LQ_ROOT, "f", LQ_FOLDER, 0);
    created(&it, 2, "g", LQ_FOLDER, 0);
    created(&it, 3, "h", LQ_FILE, 0);
    for (size_t at = 0; at < sizeof rows / sizeof *rows; at++) {
        const char *path = rows[at].path;
        if (rows[at].status == LQ_OK) {
            OK(lq_find_path(&it, LQ_ROOT, path, strlen(path), &node));
            CHECK(node == rows[at].node);
        } else {
            REFUSED(lq_find_path(&it, LQ_ROOT, path, strlen(path), &node), rows[at].status, node);
        }
    }
    OK(lq_find_path(&it, 2, TEXT("g/h"), &node));
    CHECK(node == 4);
    REFUSED(lq_find_path(&it, 9, TEXT("g"), &node), LQ_NO_NODE, node);
    REFUSED(lq_find_path(&it, 4, TEXT("g"), &node), LQ_NOT_FOLDER, node);
    memset(long_path, 'n', sizeof long_path);
    long_path[0] = 'f';
    long_path[1] = '/';
    REFUSED(lq_find_path(&it, LQ_ROOT, long_path, sizeof long_path, &node), LQ_BAD_NAME, node);
    /* a path is as long as a line may be */
    memset(longest, '/', sizeof longest);
    longest[LQ_PATH_SIZE - 1] = 'f';
    OK(lq_find_path(&it, LQ_ROOT, longest, LQ_PATH_SIZE, &node));
    CHECK(node == 2);
    REFUSED(lq_find_path(&it, LQ_ROOT, longest, LQ_PATH_SIZE + 1, &node), LQ_BAD_NAME, node);
    REFUSED(lq_find_path(&it, 9, longest, LQ_PATH_SIZE + 1, &node), LQ_BAD_NAME, node);
    lq_volume_close(&it);
}

int main(void) {
    readiness();
    a_hang_up_is_ready();
    overruns();
    the_largest_backlog();
    drops();
    results();
    results_of_a_closed_volume();
    paths();
    return done("windows");
}
