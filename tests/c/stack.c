/* How much of the stack each call takes. A thread's stack is painted, the call is made there with the arguments that
   take it deepest, and what was painted over is counted, without what a thread takes that does nothing. */
#define _POSIX_C_SOURCE 200809L
#include "check.h"
#include <pthread.h>

/* The stack of each thread, and what lq.h says is enough: for lq_answer, and for the other calls. */
enum { ROOM = 1 << 20, ENOUGH_FOR_LINES = 160 << 10, ENOUGH = 64 << 10 };
enum { DEEP = 3000, NESTED = 64, NESTED_JSON = 127, COMPARISONS = 256 };

static unsigned char *stack;
static lq handle;
static lq_applied applied;
static lq_opening opening;
static lq_fetched fetched;
static lq_listing listing;
static lq_rebuilt rebuilt;
static lq_message messages[64];
static lq_row rows[64];
static lq_info info;
static lq_attr attr;
static uint64_t bottom, number;
static size_t size;
static char name[LQ_NAME_SIZE + 1], value[LQ_TEXT_SIZE + 1], line[65536], path[LQ_PATH_SIZE];
static char literal[2 * LQ_TEXT_SIZE + 2];

/* A text that is made once. */
typedef struct made {
    char at[LQ_FORMULA_SIZE + 1];
    size_t size;
} made;

static made nested, wide, matched, bound;
static const made *asked; /* the formula of a call */
static size_t line_size, path_size;

static void put(made *to, const char *text) {
    size_t more = strlen(text);
    if (to->size + more > LQ_FORMULA_SIZE) abort();
    memcpy(to->at + to->size, text, more + 1);
    to->size += more;
}

/* Formulas that are nested as deep, that have as many comparisons, and that have as long a pattern as may be; and one
   of all values. */
static void make_formulas(void) {
    enum { LEVELS = 31 }; /* each of them is nested twice: 64 is the most, and so is 256 of comparisons */
    char part[16];
    for (int at = 0; at < LEVELS; at++) put(&nested, "!(size>1||");
    put(&nested, "t==*b");
    for (int at = LEVELS + 1; at < COMPARISONS; at++) put(&nested, "&&t!=*b");
    for (int at = 0; at < LEVELS; at++) put(&nested, ")");
    put(&wide, "t==*b*");
    for (int at = 1; at < COMPARISONS; at++) put(&wide, at % 2 ? "||t==*b" : "&&t!=*b");
    put(&matched, "t==");
    while (matched.size < LQ_FORMULA_SIZE - 16) put(&matched, "*a?[ab]");
    put(&bound, "t==$1");
    for (int at = 2; at <= LQ_VALUES; at++) {
        snprintf(part, sizeof part, "||t==$%d", at);
        put(&bound, part);
    }
}

static void make_texts(void) {
    memset(name, 'n', LQ_NAME_SIZE);
    memset(value, 'a', LQ_TEXT_SIZE);
    for (size_t at = 0; at + 1 < sizeof path; at += 2) memcpy(path + at, "d/", 2);
    path_size = sizeof path - 1;
}

/* A tree that is as deep as a path can say, a file at its bottom with the largest values, and messages that wait. */
static void make_volume(void) {
    OK(lq_volume_open(&handle));
    bottom = LQ_ROOT;
    for (int at = 0; at < DEEP; at++) bottom = created(&handle, bottom, "d", LQ_FOLDER, 0);
    number = created(&handle, bottom, "file", LQ_FILE, 5);
    OK(lq_set_text(&handle, number, TEXT("t"), value, LQ_TEXT_SIZE, &applied));
    for (int at = 0; at < 200; at++) created(&handle, bottom, (snprintf(name, 8, "%d", at), name), LQ_FILE, 5);
    memset(name, 'n', LQ_NAME_SIZE);
    const lq_options all = {0, true, false, true};
    const made *formulas[] = {&nested, &wide, &matched};
    for (int at = 0; at < 3; at++)
        OK(lq_query_open(&handle, formulas[at]->at, formulas[at]->size, &all, &opening));
    OK(lq_query_open(&handle, TEXT("size>=0"), &all, &opening));
}

/* ---- the calls ---- */

static void none(void) {}

static void volume_open(void) {
    static lq other = LQ_INIT;
    OK(lq_volume_open_as(&other, LQ_VERSION));
    lq_volume_close(&other);
}

static void answer_line(void) {
    lq_answer(&handle, line, line_size, &size);
    lq_text(&handle, NULL, 0);
}

static void create(void) { lq_create(&handle, bottom, name, LQ_NAME_SIZE, LQ_FILE, 1, 1, &applied); }
static void remove_it(void) { OK(lq_remove(&handle, applied.node, &applied)); }
static void move(void) { OK(lq_move(&handle, number, LQ_ROOT, name, LQ_NAME_SIZE, true, &applied)); }
static void move_back(void) { OK(lq_move(&handle, number, bottom, TEXT("file"), true, &applied)); }
static void move_into_itself(void) { WANT(lq_move(&handle, 2, bottom, TEXT("x"), true, &applied), LQ_WOULD_LOOP); }
static void write_it(void) { OK(lq_write(&handle, number, UINT64_C(1) << 62, INT64_MIN, &applied)); }
static void set_text(void) {
    OK(lq_set_text(&handle, number, name, LQ_NAME_SIZE, value, LQ_TEXT_SIZE, &applied));
    OK(lq_set_text(&handle, number, TEXT("t"), value, LQ_TEXT_SIZE, &applied));
}
static void set_numbers(void) {
    OK(lq_set_int32(&handle, number, TEXT("a"), INT32_MIN, &applied));
    OK(lq_set_int64(&handle, number, TEXT("b"), INT64_MIN, &applied));
    OK(lq_set_uint32(&handle, number, TEXT("c"), UINT32_MAX, &applied));
    OK(lq_set_uint64(&handle, number, TEXT("d"), UINT64_MAX, &applied));
}
static void unset(void) { OK(lq_unset(&handle, number, name, LQ_NAME_SIZE, &applied)); }
static void take(void) {
    OK(lq_fetch(&handle, TEXT("size>=0"), &fetched));
    OK(lq_take(&handle, fetched.result, rows, 64, &size));
    OK(lq_next(&handle, fetched.result, rows));
}
static void query_open(void) {
    OK(lq_query_open(&handle, asked->at, asked->size, NULL, &opening));
    OK(lq_drop(&handle, opening.slot));
}
static void fetch(void) { OK(lq_fetch(&handle, asked->at, asked->size, &fetched)); }
static void ready(void) {
    OK(lq_on_ready(&handle, NULL, NULL));
    lq_ready(&handle);
    lq_changes(&handle);
    lq_fault_place(&handle);
    lq_status_name(LQ_OK);
    lq_version();
}
static void read_it(void) { lq_read(&handle, 4, messages); }
static void read_many(void) { OK(lq_read_many(&handle, 4, messages, 64, &size)); }
static void result(void) { OK(lq_result(&handle, 4, &rebuilt)); }
static void ends(void) {
    OK(lq_query_open(&handle, TEXT("size>=0"), NULL, &opening));
    OK(lq_hang_up(&handle, opening.slot));
    lq_query_close(&handle, opening.slot, NULL);
    while (lq_read(&handle, opening.slot, messages) == LQ_OK) continue;
    OK(lq_finish(&handle, opening.slot));
}
static void find(void) { lq_find(&handle, bottom, name, LQ_NAME_SIZE, &number); }
static void find_path(void) { lq_find_path(&handle, LQ_ROOT, path, path_size, &number); }
static void entry(void) {
    OK(lq_entry(&handle, number, &info));
    OK(lq_attr_at(&handle, number, 0, &attr));
    OK(lq_attr_named(&handle, number, TEXT("t"), &attr));
}
static void children(void) {
    OK(lq_children(&handle, bottom, &listing));
    OK(lq_take(&handle, listing.result, rows, 64, &size));
}
static void path_of(void) { OK(lq_path(&handle, number, &size)); }

/* Pushes a query that is as deep and as wide as may be. */
static void push_all(void) {
    OK(lq_push_attr(&handle, TEXT("t")));
    OK(lq_push_text(&handle, value, 4000));
    OK(lq_push_op(&handle, LQ_CONTAINS));
    for (int at = 1; at < NESTED; at++) {
        OK(lq_push_attr(&handle, TEXT("size")));
        if (at % 4 == 0) OK(lq_push_int32(&handle, at));
        else if (at % 4 == 1) OK(lq_push_int64(&handle, at));
        else if (at % 4 == 2) OK(lq_push_uint32(&handle, (uint32_t)at));
        else OK(lq_push_uint64(&handle, (uint64_t)at));
        OK(lq_push_op(&handle, LQ_GT));
        if (lq_push_op(&handle, at % 2 ? LQ_OR : LQ_AND) != LQ_OK) break;
    }
}
static void pushes(void) {
    push_all();
    lq_status status = lq_query_open_pushed(&handle, NULL, &opening);
    if (status == LQ_OK) OK(lq_drop(&handle, opening.slot));
    OK(lq_clear_pushed(&handle));
    push_all();
    lq_fetch_pushed(&handle, &fetched);
    OK(lq_clear_pushed(&handle));
}
static void bind_all(void) {
    OK(lq_clear_bound(&handle));
    for (int at = 0; at < LQ_VALUES; at++)
        if (at % 3 == 0) OK(lq_bind_text(&handle, value, 8));
        else if (at % 3 == 1) OK(lq_bind_int64(&handle, at));
        else OK(lq_bind_uint64(&handle, (uint64_t)at));
}
static void values(void) {
    bind_all();
    if (lq_query_open_bound(&handle, bound.at, bound.size, NULL, &opening) == LQ_OK) lq_drop(&handle, opening.slot);
    bind_all();
    lq_fetch_bound(&handle, bound.at, bound.size, &fetched);
}
static void quote(void) { CHECK(lq_quote(value, LQ_TEXT_SIZE, literal, sizeof literal) > LQ_TEXT_SIZE); }
static unsigned char *saved;
static size_t saved_size, saved_taken;
static lq again;

static ptrdiff_t sink(void *user, const void *bytes, size_t more) {
    (void)user;
    saved = realloc(saved, saved_size + more);
    if (!saved) abort();
    memcpy(saved + saved_size, bytes, more);
    saved_size += more;
    return (ptrdiff_t)more;
}

static ptrdiff_t source(void *user, void *bytes, size_t room) {
    (void)user;
    if (room > saved_size - saved_taken) room = saved_size - saved_taken;
    memcpy(bytes, saved + saved_taken, room);
    saved_taken += room;
    return (ptrdiff_t)room;
}

static void save(void) { OK(lq_save(&handle, sink, NULL)); }
static void load(void) { OK(lq_load(&again, source, NULL)); }
static void copy(void) {
    lq_volume_close(&again);
    OK(lq_volume_copy(&handle, &again));
}

static void volume_close(void) { lq_volume_close(&handle); }

/* ---- what they take ---- */

static void *run(void *call) {
    (*(void (**)(void))call)();
    return NULL;
}

/* How many bytes of a thread's stack are painted over by a call. */
static size_t taken(void (*call)(void)) {
    pthread_t thread;
    pthread_attr_t how;
    size_t at = 0;
    memset(stack, 0x5a, ROOM);
    if (pthread_attr_init(&how) || pthread_attr_setstack(&how, stack, ROOM) ||
        pthread_create(&thread, &how, run, &call) || pthread_join(thread, NULL))
        abort();
    pthread_attr_destroy(&how);
    while (at < ROOM && stack[at] == 0x5a) at++;
    return ROOM - at;
}

/* The most of the lines and of the other calls, and what a thread takes that does nothing. */
static size_t most_of_lines, most, nothing;

/* Measures a call, which has to leave a quarter of what is enough. With STACK in the environment it is printed. */
static void measure(const char *what, void (*call)(void)) {
    bool is_line = call == answer_line;
    size_t bytes = taken(call) - nothing, *worst = is_line ? &most_of_lines : &most;
    if (bytes > *worst) *worst = bytes;
    CHECK(bytes <= (is_line ? ENOUGH_FOR_LINES : ENOUGH) / 4 * 3);
    if (getenv("STACK")) printf("%-24s %7lu\n", what, (unsigned long)bytes);
}

static void add_to_line(const char *text, int times) {
    size_t more = strlen(text);
    for (int at = 0; at < times; at++, line_size += more) {
        if (line_size + more > sizeof line) abort();
        memcpy(line + line_size, text, more);
    }
}

/* Measures a line: a begin, parts that are repeated, and an end that is. */
static void measure_line(const char *what, const char *begin, const char *part, int parts, const char *end, int ends) {
    line_size = 0;
    add_to_line(begin, 1);
    add_to_line(part, parts);
    add_to_line(end, ends);
    measure(what, answer_line);
}

static void lines(void) {
    const made *formulas[] = {&nested, &wide, &matched};
    measure_line("a line, nested", "", "[", NESTED_JSON, "]", NESTED_JSON);
    measure_line("a line, nested, cut", "", "[", NESTED_JSON, "", 0);
    measure_line("a line, objects", "", "{\"a\":", NESTED_JSON, "}", NESTED_JSON);
    measure_line("a line, objects, cut", "", "{\"a\":", NESTED_JSON, "1", 1);
    measure_line("a line, all in objects", "", "{\"a\":", NESTED_JSON, "1}", NESTED_JSON);
    measure_line("a line, nested in it", "{\"do\":\"create\",\"name\":\"x\",\"a\":", "{\"a\":[", NESTED_JSON / 2,
                 "1", 1);
    measure_line("a line, long", "{\"do\":\"create\",\"name\":\"", "\\u0041", 10000, "\"}", 1);
    for (int at = 0; at < 3; at++) {
        measure_line("a line, fetch", "{\"do\":\"fetch\",\"query\":\"", formulas[at]->at, 1, "\"}", 1);
        measure_line("a line, open", "{\"do\":\"open\",\"port\":4,\"backlog\":9,\"query\":\"", formulas[at]->at, 1,
                     "\"}", 1);
        measure_line("a line, close", "{\"do\":\"close\",\"slot\":5}", "", 0, "", 0);
        measure_line("a line, read", "{\"do\":\"read\",\"slot\":5}", "", 0, "", 0);
        measure_line("a line, finish", "{\"do\":\"finish\",\"slot\":5}", "", 0, "", 0);
    }
    measure_line("a line, create", "{\"do\":\"create\",\"name\":\"of a line\",\"size\":3}", "", 0, "", 0);
    measure_line("a line, read", "{\"do\":\"read\",\"slot\":4}", "", 0, "", 0);
    measure_line("a line, result", "{\"do\":\"result\",\"slot\":4}", "", 0, "", 0);
}

static void formulas(void) {
    const made *all[] = {&nested, &wide, &matched};
    for (int at = 0; at < 3; at++) {
        asked = all[at];
        measure("query_open", query_open);
        measure("fetch", fetch);
    }
    measure("pushes", pushes);
    measure("values", values);
}

int main(void) {
    stack = malloc(ROOM);
    if (!stack) abort();
    make_formulas();
    make_texts();
    make_volume();
    nothing = taken(none);
    measure("volume_open", volume_open);
    measure("create", create);
    measure("remove", remove_it);
    measure("move", move);
    measure("move back", move_back);
    measure("move into itself", move_into_itself);
    measure("write", write_it);
    measure("set_text", set_text);
    measure("set of numbers", set_numbers);
    measure("unset", unset);
    measure("take, next", take);
    formulas();
    measure("ready and others", ready);
    measure("read", read_it);
    measure("read_many", read_many);
    measure("result", result);
    measure("hang_up to finish", ends);
    measure("find", find);
    measure("find_path", find_path);
    measure("entry, attr", entry);
    measure("children", children);
    measure("path", path_of);
    measure("quote", quote);
    measure("save", save);
    measure("load", load);
    measure("copy", copy);
    lq_volume_close(&again);
    free(saved);
    lines();
    measure("volume_close", volume_close);
    printf("stack: the deepest line takes %lu bytes, the deepest other call %lu\n", (unsigned long)most_of_lines,
           (unsigned long)most);
    free(stack);
    return done("stack");
}
