/* Texts as literals, and values in place of a formula's parameters: what each finds, and each refusal. */
#include "check.h"

static char long_text[4097], stars[4096];

/* The literal of a text, in as many rooms as matter. */
static void quotes(void) {
    static const struct {
        const char *text;
        size_t text_size;
        const char *literal;
        size_t size;
    } rows[] = {{TEXT(""), TEXT("\"\"")},
                {TEXT("Lunch"), TEXT("\"Lunch\"")},
                {TEXT("*?[\\\""), TEXT("\"\\*\\?\\[\\\\\\\"\"")},
                {TEXT("]^-$'(!&|=<>"), TEXT("\"]^-$'(!&|=<>\"")},
                {TEXT("\\*"), TEXT("\"\\\\\\*\"")},
                {TEXT("a\0b"), TEXT("\"a\0b\"")},
                {TEXT("sch\xc3\xb6n\t\n"), TEXT("\"sch\xc3\xb6n\t\n\"")},
                {TEXT("\xff\xc3"), TEXT("\"\xff\xc3\"")}};
    char room[64];
    for (size_t at = 0; at < sizeof rows / sizeof *rows; at++) {
        size_t size = rows[at].size;
        CHECK(lq_quote(rows[at].text, rows[at].text_size, NULL, 0) == size);
        CHECK(lq_quote(rows[at].text, rows[at].text_size, NULL, 64) == size);
        for (size_t given = 0; given <= size + 2; given++) {
            size_t written = given < size ? 0 : given == size ? size : size + 1;
            POISON(room);
            CHECK(lq_quote(rows[at].text, rows[at].text_size, room, given) == size);
            CHECK(memcmp(room, rows[at].literal, written) == 0); /* the literal ends with a NUL here, too */
            CHECK(is_poison(room + written, sizeof room - written));
        }
    }
    /* null with size 0 is the empty text; a text beyond the limit, and null with a size, are none */
    CHECK(lq_quote(NULL, 0, room, sizeof room) == 2 && strcmp(room, "\"\"") == 0);
    POISON(room);
    CHECK(lq_quote(NULL, 1, room, sizeof room) == 0 && lq_quote(NULL, SIZE_MAX, room, sizeof room) == 0);
    CHECK(lq_quote(long_text, 4097, room, sizeof room) == 0 && lq_quote("a", SIZE_MAX, room, sizeof room) == 0);
    CHECK(is_poison(room, sizeof room));
    /* the longest ones */
    static char longest[8194];
    CHECK(lq_quote(long_text, 4096, longest, sizeof longest) == 4098);
    CHECK(longest[0] == '"' && longest[4097] == '"' && memcmp(longest + 1, long_text, 4096) == 0 && longest[4098] == 0);
    CHECK(lq_quote(stars, 4096, longest, sizeof longest) == 8194);
    for (size_t at = 1; at < 8193; at++) CHECK(longest[at] == (at % 2 ? '\\' : '*'));
}

/* Names that a formula would read as something else, each of an entry. */
static const char *const names[] = {"a",    "a*",   "*",   "?",  "[ab]", "[",  "]",        "\\",    "\\a",      "\"",
                                    "'",    "$1",   "$0",  "$",  "$1x",  "$256", "$257",   "$01",   " ",        "a b",
                                    "(",    "!",    "&&",  "=",  "<",    "-1", "12",       "^",     "\"a\"",    "\\*",
                                    "\x7f", "\xc3\xb6", "\xf0\x9f\x8d\xb2", "ab", "Lunch", "$2", "a\\", "a\"", "\t\n"};
enum { NAMES = sizeof names / sizeof *names };

/* The operators of a formula, and how a name has to stand to the value: below it, the same, above it. */
static const struct {
    const char *op;
    bool below, same, above;
} operators[] = {{"==", false, true, false}, {"=", false, true, false}, {"!=", true, false, true},
                 {"<", true, false, false},  {"<=", true, true, false}, {">", false, false, true},
                 {">=", false, true, true}};
enum { OPERATORS = sizeof operators / sizeof *operators };

static bool holds(int op, int order) {
    return order < 0 ? operators[op].below : order == 0 ? operators[op].same : operators[op].above;
}

/* The entries with these names, which have the nodes from 2 on. */
static void create_names(lq *it) {
    for (uint64_t at = 0; at < NAMES; at++) CHECK(created(it, LQ_ROOT, names[at], LQ_FILE, 0) == at + 2);
}

/* That a fetch found just the names that stand to a text as an operator says. */
static void want_names(lq *it, const lq_fetched *fetched, int op, const char *text) {
    lq_row row;
    size_t wanted = 0;
    for (size_t at = 0; at < NAMES; at++) {
        if (!holds(op, strcmp(names[at], text))) continue;
        wanted++;
        OK(lq_next(it, fetched->result, &row));
        CHECK(strcmp(row.name, names[at]) == 0);
    }
    CHECK(fetched->count == wanted);
}

/* A text means itself: in a literal by lq_quote, and bound, after each operator. */
static void texts(void) {
    lq it = LQ_INIT;
    lq_fetched fetched;
    char formula[600];
    OK(lq_volume_open(&it));
    create_names(&it);
    for (size_t at = 0; at < NAMES; at++) {
        const char *text = names[at];
        for (int op = 0; op < OPERATORS; op++) {
            int size = sprintf(formula, "name%s$1", operators[op].op);
            OK(lq_bind_text(&it, text, strlen(text)));
            OK(lq_fetch_bound(&it, formula, (size_t)size, &fetched));
            want_names(&it, &fetched, op, text);
            if (op > 2) continue;
            size = sprintf(formula, "name%s", operators[op].op);
            size += (int)lq_quote(text, strlen(text), formula + size, sizeof formula - (size_t)size);
            OK(lq_fetch(&it, formula, (size_t)size, &fetched));
            want_names(&it, &fetched, op, text);
        }
    }
    /* the empty text, which null is too, and one with a NUL, as values of an attribute */
    OK(lq_set_text(&it, 2, TEXT("t"), TEXT(""), NULL));
    OK(lq_set_text(&it, 3, TEXT("t"), TEXT("a\0*"), NULL));
    for (int way = 0; way < 3; way++) {
        lq_row row;
        if (way == 0) OK(lq_bind_text(&it, NULL, 0));
        else if (way == 1) OK(lq_bind_text(&it, TEXT("")));
        else OK(lq_bind_text(&it, TEXT("a\0*")));
        OK(lq_fetch_bound(&it, TEXT("t==$1"), &fetched));
        CHECK(fetched.count == 1);
        OK(lq_next(&it, fetched.result, &row));
        CHECK(row.node == (way < 2 ? 2 : 3));
    }
    /* beside each other, in any order, more than once, with and without white space */
    OK(lq_bind_text(&it, TEXT("*")));
    OK(lq_bind_text(&it, TEXT("$1")));
    OK(lq_bind_text(&it, TEXT("12")));
    OK(lq_fetch_bound(&it, TEXT("(name==$3)||name == $2 ||!(name!=$1)||name==\t$1&&name=$1"), &fetched));
    CHECK(fetched.count == 3);
    lq_volume_close(&it);
}

/* A number is its decimal: of each kind, at the ends of its range, after each operator. */
static void numbers(void) {
    static const struct {
        bool is_signed;
        int64_t whole;
        uint64_t natural;
    } rows[] = {{true, INT64_MIN, 0}, {true, -1, 0},       {true, 0, 0},
                {false, 0, 7},        {true, INT64_MAX, 0}, {false, 0, UINT64_MAX}}; /* by rising value */
    enum { ROWS = sizeof rows / sizeof *rows };
    lq it = LQ_INIT;
    lq_fetched fetched;
    lq_row row;
    char formula[16];
    OK(lq_volume_open(&it));
    for (size_t at = 0; at < ROWS; at++) {
        uint64_t node = created(&it, LQ_ROOT, (char[]){(char)('a' + at), 0}, LQ_FILE, at);
        if (rows[at].is_signed) OK(lq_set_int64(&it, node, TEXT("n"), rows[at].whole, NULL));
        else OK(lq_set_uint64(&it, node, TEXT("n"), rows[at].natural, NULL));
    }
    for (size_t at = 0; at < ROWS; at++)
        for (int op = 0; op < OPERATORS; op++) {
            size_t wanted = 0;
            int size = sprintf(formula, "n%s$1", operators[op].op);
            OK(rows[at].is_signed ? lq_bind_int64(&it, rows[at].whole) : lq_bind_uint64(&it, rows[at].natural));
            OK(lq_fetch_bound(&it, formula, (size_t)size, &fetched));
            for (size_t other = 0; other < ROWS; other++) {
                if (!holds(op, other < at ? -1 : other > at)) continue;
                wanted++;
                OK(lq_next(&it, fetched.result, &row));
                CHECK(row.node == other + 2);
            }
            CHECK(fetched.count == wanted);
        }
    /* of a text it is the pattern of its digits, and a text of digits is a number too */
    created(&it, LQ_ROOT, "-1", LQ_FILE, 77);
    OK(lq_bind_int64(&it, -1));
    OK(lq_bind_text(&it, TEXT("77")));
    OK(lq_fetch_bound(&it, TEXT("name==$1&&size==$2"), &fetched));
    CHECK(fetched.count == 1);
    lq_volume_close(&it);
}

/* What looks like a parameter and is none: a literal in quotes or with a `\`, other numbers, an attribute. */
static void no_parameters(void) {
    static const struct {
        const char *formula, *name;
    } rows[] = {{"name==\"$1\"", "$1"},  {"name=='$1'", "$1"},   {"name==\\$1", "$1"},    {"name==$\\1", "$1"},
                {"name==$0", "$0"},      {"name==$01", "$01"},   {"name==$257", "$257"},  {"name==$1x", "$1x"},
                {"name==$", "$"},        {"name>=\"$1\"&&name<='$1'", "$1"}, {"name=='$2'", "$2"}};
    lq it = LQ_INIT;
    lq_fetched fetched;
    lq_row row;
    OK(lq_volume_open(&it));
    create_names(&it);
    for (size_t at = 0; at < sizeof rows / sizeof *rows; at++) {
        const char *formula = rows[at].formula;
        OK(lq_fetch_bound(&it, formula, strlen(formula), &fetched));
        CHECK(fetched.count == 1);
        OK(lq_next(&it, fetched.result, &row));
        CHECK(strcmp(row.name, rows[at].name) == 0);
        OK(lq_bind_int64(&it, 1));
        REFUSED(lq_fetch_bound(&it, formula, strlen(formula), &fetched), LQ_UNUSED_VALUE, fetched);
        CHECK(lq_fault_place(&it) == 1);
    }
    OK(lq_set_text(&it, 3, TEXT("$1"), TEXT("x"), NULL));
    OK(lq_bind_text(&it, TEXT("x")));
    OK(lq_fetch_bound(&it, TEXT("$1==$1"), &fetched));
    CHECK(fetched.count == 1);
    /* in a formula without values the text is as it stands */
    OK(lq_fetch(&it, TEXT("name==$1"), &fetched));
    CHECK(fetched.count == 1);
    lq_volume_close(&it);
}

/* Binds so many numbers, from 1 on. */
static void bind(lq *it, int count) {
    for (int number = 1; number <= count; number++) OK(lq_bind_int64(it, number));
}

/* That no value is bound. */
static void want_none(lq *it) {
    lq_fetched fetched;
    REFUSED(lq_fetch_bound(it, TEXT("size==$1"), &fetched), LQ_NO_VALUE, fetched);
    CHECK(lq_fault_place(it) == 1);
}

/* Each refusal of a formula with values, with its place. All values are off then. */
static void refusals(void) {
    static const struct {
        const char *formula;
        int values;
        lq_status status;
        uint64_t place;
        const char *text; /* the formula with its values in place, if the place is one of it */
    } rows[] = {{"name==\"$1", 0, LQ_BAD_QUERY, 9, ""},
                {"size==$1&&name=='", 0, LQ_BAD_QUERY, 17, ""},
                {"size==$2||name==a\\", 1, LQ_BAD_QUERY, 18, ""},
                {"size==$1&name==a", 0, LQ_BAD_QUERY, 8, ""},
                {"size==$1||name==a|\"", 1, LQ_BAD_QUERY, 17, ""},
                {"size==$1", 0, LQ_NO_VALUE, 1, NULL},
                {"size==$3&&size==$2||size==$1", 1, LQ_NO_VALUE, 3, NULL},
                {"size==$1&&size==$256", 255, LQ_NO_VALUE, 256, NULL},
                {"size==$5", 3, LQ_NO_VALUE, 5, NULL},
                {"size>5", 1, LQ_UNUSED_VALUE, 1, NULL},
                {"size==$2", 2, LQ_UNUSED_VALUE, 1, NULL},
                {"size==$1||size==$3", 5, LQ_UNUSED_VALUE, 2, NULL},
                {"size==$1", 256, LQ_UNUSED_VALUE, 2, NULL},
                {"size==\"$1\"", 1, LQ_UNUSED_VALUE, 1, NULL},
                {"", 0, LQ_BAD_QUERY, 0, ""},
                {"", 2, LQ_UNUSED_VALUE, 1, NULL},
                {"(size>$12||size==$12", 0, LQ_NO_VALUE, 12, NULL},
                {"(size>$1||size==$2", 2, LQ_BAD_QUERY, 16, "(size>1||size==2"},
                {"size== $1 )", 1, LQ_BAD_QUERY, 9, "size== 1 )"}};
    lq it = LQ_INIT;
    lq_fetched fetched;
    lq_opening opening;
    char text[64];
    OK(lq_volume_open(&it));
    for (size_t at = 0; at < sizeof rows / sizeof *rows; at++)
        for (int opens = 0; opens < 2; opens++) {
            const char *formula = rows[at].formula;
            bind(&it, rows[at].values);
            size_t size = strlen(formula);
            if (opens) REFUSED(lq_query_open_bound(&it, formula, size, NULL, &opening), rows[at].status, opening);
            else REFUSED(lq_fetch_bound(&it, formula, size, &fetched), rows[at].status, fetched);
            CHECK(lq_fault_place(&it) == rows[at].place);
            if (rows[at].text) {
                CHECK(lq_text(&it, text, sizeof text) == strlen(rows[at].text));
                CHECK(strcmp(text, rows[at].text) == 0);
            }
            want_none(&it);
        }
    /* a text stands between quotes, and what it escapes counts for the place */
    OK(lq_bind_text(&it, TEXT("a*\"")));
    OK(lq_bind_text(&it, TEXT("b*\"")));
    REFUSED(lq_fetch_bound(&it, TEXT("name==$1&&name<$2)"), &fetched), LQ_BAD_QUERY, fetched);
    CHECK(lq_fault_place(&it) == 26 && lq_text(&it, text, sizeof text) == 27);
    CHECK(strcmp(text, "name==\"a\\*\\\"\"&&name<\"b*\\\"\")") == 0);
    want_none(&it);
    /* sizes and UTF-8 come first */
    bind(&it, 2);
    REFUSED(lq_fetch_bound(&it, long_text, 4097, &fetched), LQ_BAD_QUERY, fetched);
    CHECK(lq_fault_place(&it) == 4096 && lq_text(&it, text, sizeof text) == 0);
    want_none(&it);
    bind(&it, 2);
    REFUSED(lq_fetch_bound(&it, "a", SIZE_MAX, &fetched), LQ_BAD_QUERY, fetched);
    CHECK(lq_fault_place(&it) == 4096);
    want_none(&it);
    bind(&it, 1);
    REFUSED(lq_fetch_bound(&it, TEXT("name==\xff||\"$2"), &fetched), LQ_NOT_UTF8, fetched);
    want_none(&it);
    /* a formula that its values make too long */
    OK(lq_bind_text(&it, long_text, 4096));
    REFUSED(lq_fetch_bound(&it, TEXT("name==$1"), &fetched), LQ_BAD_QUERY, fetched);
    CHECK(lq_fault_place(&it) == 4096);
    want_none(&it);
    /* those of an opening come last, and none of these opened anything */
    const lq_options too_many = {LQ_BACKLOG + 1, false, false, false};
    bind(&it, 1);
    REFUSED(lq_query_open_bound(&it, TEXT("size==$2"), &too_many, &opening), LQ_NO_VALUE, opening);
    bind(&it, 1);
    REFUSED(lq_query_open_bound(&it, TEXT("size==$1"), &too_many, &opening), LQ_BAD_BACKLOG, opening);
    want_none(&it);
    for (uint64_t slot = 1; slot <= LQ_SLOTS; slot++) {
        bind(&it, 1);
        OK(lq_query_open_bound(&it, TEXT("size==$1"), NULL, &opening));
        CHECK(opening.slot == slot);
    }
    bind(&it, 1);
    REFUSED(lq_query_open_bound(&it, TEXT("size==$1"), NULL, &opening), LQ_NO_SLOT, opening);
    want_none(&it);
    lq_volume_close(&it);
}

/* As many values as there may be; what is refused isn't bound; each handle has its own. */
static void limits(void) {
    static char formula[4096];
    lq it = LQ_INIT, other = LQ_INIT;
    lq_fetched fetched;
    lq_row row;
    size_t size = 0;
    OK(lq_volume_open(&it));
    OK(lq_volume_open(&other));
    for (uint64_t node = 2; node < 400; node++) {
        char name[16];
        sprintf(name, "%d", (int)node);
        created(&it, LQ_ROOT, name, LQ_FILE, node);
    }
    for (int number = LQ_VALUES; number >= 1; number--)
        size += (size_t)sprintf(formula + size, "size=$%d%s", number, number > 1 ? "||" : "");
    for (int round = 0; round < 2; round++) {
        bind(&it, 1);
        WANT(lq_bind_text(&it, TEXT("\xff")), LQ_NOT_UTF8);
        WANT(lq_bind_text(&it, long_text, 4097), LQ_TOO_LONG);
        WANT(lq_bind_text(&it, "a", SIZE_MAX), LQ_TOO_LONG);
        WANT(lq_bind_text(&it, NULL, 1), LQ_MISUSE);
        for (int number = 2; number <= LQ_VALUES; number++) OK(lq_bind_uint64(&it, (uint64_t)number));
        WANT(lq_bind_int64(&it, 1), LQ_MISUSE);
        WANT(lq_bind_uint64(&it, 1), LQ_MISUSE);
        WANT(lq_bind_text(&it, TEXT("a")), LQ_MISUSE);
        WANT(lq_fetch_bound(&it, formula, size, NULL), LQ_MISUSE);
        WANT(lq_fetch_bound(&it, NULL, 1, &fetched), LQ_MISUSE);
        WANT(lq_query_open_bound(&it, formula, size, NULL, NULL), LQ_MISUSE);
        /* misuse takes none off */
        OK(lq_fetch_bound(&it, formula, size, &fetched));
        CHECK(fetched.count == LQ_VALUES - 1);
        for (uint64_t node = 2; node <= LQ_VALUES; node++) {
            OK(lq_next(&it, fetched.result, &row));
            CHECK(row.node == node);
        }
        want_none(&it);
        bind(&it, LQ_VALUES);
        OK(lq_clear_bound(&it));
        OK(lq_clear_bound(&it));
        want_none(&it);
    }
    bind(&it, 1);
    want_none(&other);
    bind(&other, 2);
    OK(lq_fetch_bound(&it, TEXT("size>$1"), &fetched));
    CHECK(fetched.count == 398);
    /* neither lines, nor pushes, nor other queries take them off; the volume's end does */
    OK(lq_push_attr(&other, TEXT("size")));
    OK(lq_fetch(&other, TEXT("size>1"), &fetched));
    OK(lq_answer(&other, TEXT("{\"do\":\"fetch\",\"query\":\"size==$1\"}"), &size));
    OK(lq_push_int32(&other, 1));
    OK(lq_push_op(&other, LQ_EQ));
    OK(lq_fetch_pushed(&other, &fetched));
    OK(lq_fetch_bound(&other, TEXT("size>$1||size<$2"), &fetched));
    bind(&other, 3);
    lq_volume_close(&other);
    OK(lq_volume_open(&other));
    want_none(&other);
    lq_volume_close(&it);
    lq_volume_close(&other);
}

/* A live query with values gives what one gives whose formula has them written out, by its options too. */
static void queries(void) {
    const lq_options moved = {3, true, false, false};
    lq it = LQ_INIT;
    lq_opening bound, written;
    lq_message one, other;
    OK(lq_volume_open(&it));
    created(&it, LQ_ROOT, "a*", LQ_FILE, 200);
    created(&it, LQ_ROOT, "ab", LQ_FILE, 200);
    OK(lq_bind_uint64(&it, 100));
    OK(lq_bind_text(&it, TEXT("a*")));
    OK(lq_query_open_bound(&it, TEXT("size>$1&&name!=$2"), &moved, &bound));
    CHECK(bound.slot == 1 && bound.at == 2 && bound.count == 1);
    OK(lq_query_open(&it, TEXT("size>100&&name!=\"a\\*\""), &moved, &written));
    CHECK(written.slot == 2 && written.count == 1 && written.result == bound.result + 1);
    OK(lq_move(&it, 3, LQ_ROOT, TEXT("ac"), false, NULL));
    OK(lq_write(&it, 2, 50, 1, NULL));
    OK(lq_move(&it, 2, LQ_ROOT, TEXT("ad"), false, NULL));
    OK(lq_write(&it, 2, 500, 1, NULL));
    for (int number = 0; number < 2; number++) {
        memset(&one, 0, sizeof one);
        memset(&other, 0, sizeof other);
        OK(lq_read(&it, 1, &one));
        OK(lq_read(&it, 2, &other));
        CHECK(one.op == (number ? LQ_ENTRY_CREATED : LQ_ENTRY_MOVED) && one.node == (number ? 2 : 3));
        CHECK(one.op == other.op && one.node == other.node && one.change == other.change && one.seq == other.seq);
        CHECK(strcmp(one.name, other.name) == 0 && strcmp(one.from_name, other.from_name) == 0);
    }
    REFUSED(lq_read(&it, 1, &one), LQ_EMPTY, one);
    /* more than its backlog beside the oldest */
    for (uint64_t time = 0; time < 5; time++) OK(lq_write(&it, 3, time % 2 ? 200 : 0, 1, NULL));
    for (int number = 0; number < 4; number++) OK(lq_read(&it, 1, &one));
    OK(lq_read(&it, 1, &one));
    CHECK(one.what == LQ_END && one.cause == LQ_OVERRUN);
    lq_volume_close(&it);
}

int main(void) {
    memset(long_text, 't', sizeof long_text);
    memset(stars, '*', sizeof stars);
    quotes();
    texts();
    numbers();
    no_parameters();
    refusals();
    limits();
    queries();
    return done("values");
}
