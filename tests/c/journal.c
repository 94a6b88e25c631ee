/* Volumes that are kept in a folder: each call that makes changes, starts anew, locks, forks, modes, and files that are
   cut or damaged at each byte. */
#include "journal_acts.h"
#include <lq_folder.h>
#include <signal.h>
#include <sys/wait.h>

static char path[64];

static lq_status open_with(lq_journal *journal, lq *volume, lq_journal_options options, lq_journal_report *report) {
    return lq_journal_open(journal, volume, path, strlen(path), &options, report);
}

static const lq_journal_options never = {.sync = LQ_SYNC_NEVER}, always = {.sync = LQ_SYNC_ALWAYS};

/* Begins a folder, a journal over it, and a model in memory. */
typedef struct world {
    lq volume, model;
    lq_journal journal;
    lq_journal_report report;
    lq_journal_turned turned;
} world;

static void begin(world *w, lq_journal_options options) {
    *w = (world){.volume = LQ_INIT, .model = LQ_INIT, .journal = LQ_JOURNAL_INIT};
    make_folder(path, sizeof path);
    OK(open_with(&w->journal, &w->volume, options, &w->report));
    OK(lq_volume_open(&w->model));
}

static void again(world *w, lq_journal_options options) {
    OK(lq_journal_close(&w->journal));
    WANT(lq_journal_close(&w->journal), LQ_MISUSE);
    OK(open_with(&w->journal, &w->volume, options, &w->report));
    CHECK(w->report.changes == lq_changes(&w->model) && w->report.dropped == 0 && w->report.reason == NULL);
    CHECK(is_same_volume(&w->volume, &w->model));
}

static void end(world *w) {
    OK(lq_journal_close(&w->journal));
    lq_volume_close(&w->model);
    remove_folder(path);
}

/* Both make the same change; the model always by its call. */
static void both(world *w, const act *it, bool by_line) {
    OK(do_act(&w->model, it, false));
    OK(do_act(&w->volume, it, by_line));
    CHECK(lq_changes(&w->volume) == lq_changes(&w->model));
}

/* Each kind of change, by its call and by its line, with the largest and the strangest values. */
static void kinds(void) {
    static char text[LQ_TEXT_SIZE], longest[LQ_NAME_SIZE], strange[LQ_NAME_SIZE];
    static const uint32_t types[] = {LQ_TYPE_INT32, LQ_TYPE_INT64, LQ_TYPE_UINT32, LQ_TYPE_UINT64};
    static const int64_t numbers[][2] = {{INT32_MIN, INT32_MAX}, {INT64_MIN, INT64_MAX}, {0, UINT32_MAX}, {0, -1}};
    world w;
    memset(text, 1, sizeof text);
    memset(longest, 'n', sizeof longest);
    for (size_t i = 0; i < sizeof strange; i++) strange[i] = (char)(i % 33 ? 1 + i % 33 - 1 : '"');
    begin(&w, never);
    for (int by_line = 0; by_line < 2; by_line++) {
        uint64_t dir = 2 + 4 * (uint64_t)by_line, file = dir + 1;
        const char *name = by_line ? "two" : "one";
        both(&w, &(act){.word = CREATE, .dir = 1, .name = name, .name_size = 3, .kind = LQ_FOLDER, .time = INT64_MIN}, by_line);
        both(&w, &(act){.word = CREATE, .dir = dir, .name = longest, .name_size = sizeof longest, .size = INT64_MAX,
                        .time = INT64_MAX}, by_line);
        both(&w, &(act){.word = CREATE, .dir = dir, .name = strange, .name_size = sizeof strange, .time = -1}, by_line);
        both(&w, &(act){.word = CREATE, .dir = 1, .name = "\\\"\xf0\x9f\x90\x9f\x7f", .name_size = 7 - (size_t)by_line}, by_line);
        both(&w, &(act){.word = WRITE, .node = file, .size = INT64_MAX, .time = INT64_MIN}, by_line);
        both(&w, &(act){.word = WRITE, .node = file, .size = 0, .time = 0}, by_line);
        for (size_t i = 0; i < 4; i++)
            for (size_t k = 0; k < 2; k++)
                both(&w, &(act){.word = SET, .node = file, .name = k ? "high" : strange, .name_size = k ? 4 : 200,
                                .type = types[i], .number = numbers[i][k]}, by_line);
        both(&w, &(act){.word = SET, .node = dir, .name = strange, .name_size = sizeof strange, .type = LQ_TYPE_TEXT,
                        .text = text, .text_size = sizeof text}, by_line);
        both(&w, &(act){.word = SET, .node = dir, .name = "b", .name_size = 1, .type = LQ_TYPE_TEXT, .text = ""}, by_line);
        both(&w, &(act){.word = UNSET, .node = dir, .name = strange, .name_size = sizeof strange}, by_line);
        both(&w, &(act){.word = MOVE, .node = file, .dir = 1, .name = longest, .name_size = 254}, by_line);
        both(&w, &(act){.word = MOVE, .node = file + 1, .dir = 1, .name = longest, .name_size = 254, .flag = true}, by_line);
        both(&w, &(act){.word = REMOVE, .node = file + 1}, by_line);
        again(&w, never);
        CHECK(w.report.replayed == w.report.changes);
    }
    end(&w);
}

/* Lines that a person may write: white space with LF, a CR at the end, other keys, and those that change nothing. */
static void lines(void) {
    static const char *const all[] = {"{\n\"do\"\r:\t\"create\",\n\"name\":\"a\\n\\u0062\", \"more\": [1, {\"do\":\"remove\"}]}\r",
                                      "{\"do\":\"create\",\"name\":\"a\"}",
                                      "{\"do\":\"create\",\"do\":\"set\",\"node\":2,\"attr\":\"x\",\"type\":\"LONG\",\"value\":7}",
                                      "{\"do\":\"\\u0072emove\",\"node\":3}",
                                      "{\"do\":\"open\",\"query\":\"x==7\",\"port\":1,\"backlog\":4}",
                                      "{\"do\":\"write\",\"node\":2,\"size\":5}",
                                      "{\"do\":\"read\",\"slot\":1}",
                                      "{\"do\":\"remove\",\"node\":9}",
                                      "",
                                      "{\"do\":\"close\",\"slot\":1}",
                                      "{\"do\":\"create\",\"name\":\"raw\nLF\"}",
                                      "no line"};
    world w;
    size_t size;
    begin(&w, never);
    for (size_t i = 0; i < sizeof all / sizeof *all; i++) {
        OK(lq_answer(&w.volume, all[i], strlen(all[i]), &size));
        OK(lq_answer(&w.model, all[i], strlen(all[i]), &size));
    }
    CHECK(lq_changes(&w.volume) == 5);
    text journal = read_file(path, "journal");
    size_t rows = 0;
    for (size_t i = 0; i < journal.size; i++) rows += journal.at[i] == '\n';
    CHECK(rows == 6);
    free(journal.at);
    again(&w, never);
    end(&w);
}

/* What is called once slots are ready makes a change of its own, which comes after the one that it heard of. */
static void change_within(void *user, uint64_t slots) {
    world *w = user;
    lq_message message;
    CHECK(slots == 1);
    while (lq_read(&w->volume, 1, &message) == LQ_OK) {
        if (message.node < 5) created(&w->volume, 1, message.node == 2 ? "b" : message.node == 3 ? "c" : "d", LQ_FILE, 1);
    }
}

static void calls_within(void) {
    world w;
    lq_opening opening;
    begin(&w, never);
    OK(lq_query_open(&w.volume, TEXT("size>=1"), NULL, &opening));
    OK(lq_on_ready(&w.volume, change_within, &w));
    created(&w.volume, 1, "a", LQ_FILE, 1);
    CHECK(lq_changes(&w.volume) == 4);
    OK(lq_on_ready(&w.volume, NULL, NULL));
    for (const char *name = "abcd"; *name; name++) OK(lq_create(&w.model, 1, name, 1, LQ_FILE, 1, 941000000, NULL));
    again(&w, never);
    end(&w);
}

static void misuse(void) {
    world w;
    lq_journal other = LQ_JOURNAL_INIT, moved;
    lq volume = LQ_INIT;
    lq_folder folder = LQ_FOLDER_INIT;
    lq_journal_report report;
    begin(&w, always);
    WANT(lq_journal_open(NULL, &volume, path, strlen(path), NULL, NULL), LQ_MISUSE);
    WANT(lq_journal_open(&other, NULL, path, strlen(path), NULL, NULL), LQ_MISUSE);
    WANT(lq_journal_open(&other, &w.model, path, strlen(path), NULL, NULL), LQ_MISUSE);
    WANT(lq_journal_open(&other, &w.volume, path, strlen(path), NULL, NULL), LQ_MISUSE);
    WANT(lq_journal_open(&w.journal, &volume, path, strlen(path), NULL, NULL), LQ_MISUSE);
    WANT(lq_journal_open(&other, &volume, NULL, 1, NULL, NULL), LQ_MISUSE);
    WANT(lq_journal_open_as(&other, &volume, LQ_VERSION + 1000, path, strlen(path), NULL, NULL), LQ_MISUSE);
    WANT(lq_journal_open(&other, &volume, path, 0, NULL, NULL), LQ_TOO_LONG);
    WANT(lq_journal_open(&other, &volume, "a\0b", 3, NULL, NULL), LQ_TOO_LONG);
    WANT(lq_journal_open(&other, &volume, path, strlen(path), NULL, NULL), LQ_LOCKED);
    WANT(lq_journal_open(&other, &volume, TEXT("/proc/no/such"), NULL, &report), LQ_SYSTEM);
    CHECK(report.fault == ENOENT && report.file == 0);
    WANT(lq_journal_open(&other, &volume, TEXT("/dev/null"), NULL, &report), LQ_SYSTEM);
    CHECK(report.fault == ENOTDIR);
    WANT(lq_journal_turn(&other, &w.turned), LQ_MISUSE);
    WANT(lq_journal_turn(&w.journal, NULL), LQ_MISUSE);
    WANT(lq_journal_turn(NULL, &w.turned), LQ_MISUSE);
    WANT(lq_journal_sync(&other), LQ_MISUSE);
    WANT(lq_journal_hold(&other), LQ_MISUSE);
    WANT(lq_journal_close(NULL), LQ_MISUSE);
    moved = w.journal;
    WANT(lq_journal_close(&moved), LQ_MISUSE);
    CHECK(lq_journal_due(&other) == UINT64_MAX && lq_journal_due(NULL) == UINT64_MAX);
    WANT(lq_folder_open(&folder, &w.volume, "/tmp", 4, NULL, NULL), LQ_MISUSE);
    CHECK(lq_changes(&volume) == 0 && lq_clear_bound(&volume) == LQ_MISUSE);
    end(&w);
}

/* The handle is closed before its journal; and a folder that isn't there yet. */
static void closings(void) {
    char above[64];
    world w;
    begin(&w, never);
    created(&w.volume, 1, "a", LQ_FILE, 1);
    created(&w.model, 1, "a", LQ_FILE, 1);
    lq_volume_close(&w.volume);
    WANT(lq_journal_turn(&w.journal, &w.turned), LQ_NOT_OPEN);
    WANT(lq_journal_sync(&w.journal), LQ_NOT_OPEN);
    WANT(lq_journal_hold(&w.journal), LQ_NOT_OPEN);
    CHECK(w.turned.due == UINT64_MAX && lq_journal_due(&w.journal) == UINT64_MAX);
    again(&w, never);
    OK(lq_journal_close(&w.journal));
    strcpy(above, path);
    strcat(path, "/n");
    OK(open_with(&w.journal, &w.volume, always, &w.report));
    CHECK(lq_changes(&w.volume) == 0);
    OK(lq_journal_close(&w.journal));
    remove_folder(path);
    strcpy(path, above);
    remove_folder(path);
    lq_volume_close(&w.model);
}

/* A child of a fork: its changes are its own, it lets go of the files, and doesn't hold the lock. */
static void forks(void) {
    world w;
    int status, to_child[2], to_parent[2];
    char byte = 0;
    begin(&w, never);
    created(&w.volume, 1, "a", LQ_FILE, 1);
    created(&w.model, 1, "a", LQ_FILE, 1);
    if (pipe(to_child) || pipe(to_parent)) abort();
    pid_t child = fork();
    if (child == 0) {
        lq other = LQ_INIT;
        lq_journal journal = LQ_JOURNAL_INIT;
        created(&w.volume, 1, "of the child", LQ_FILE, 1);
        size_t size;
        OK(lq_answer(&w.volume, TEXT("{\"do\":\"create\",\"name\":\"too\"}"), &size));
        CHECK(lq_changes(&w.volume) == 3);
        CHECK(lq_journal_due(&w.journal) == UINT64_MAX);
        WANT(lq_journal_turn(&w.journal, &w.turned), LQ_NOT_OPEN);
        WANT(lq_journal_sync(&w.journal), LQ_NOT_OPEN);
        WANT(lq_journal_open(&journal, &other, path, strlen(path), NULL, NULL), LQ_LOCKED);
        if (write(to_parent[1], &byte, 1) != 1 || read(to_child[0], &byte, 1) != 1) _exit(2);
        OK(lq_journal_close(&w.journal));
        CHECK(lq_changes(&w.volume) == 3); /* it is in memory, and open still */
        lq_volume_close(&w.volume);
        _exit(failures ? 1 : 0);
    }
    CHECK(read(to_parent[0], &byte, 1) == 1);
    created(&w.volume, 1, "b", LQ_FILE, 1);
    created(&w.model, 1, "b", LQ_FILE, 1);
    again(&w, never); /* the child still lives */
    CHECK(write(to_child[1], &byte, 1) == 1);
    CHECK(waitpid(child, &status, 0) == child && status == 0);
    /* a child that never calls the library doesn't hold the lock when its parent is killed */
    lq_journal_close(&w.journal);
    child = fork();
    if (child == 0) {
        OK(open_with(&w.journal, &w.volume, never, &w.report));
        pid_t inner = fork();
        if (inner == 0) { /* it waits until the test is over */
            close(to_child[1]);
            if (write(to_parent[1], &byte, 1) != 1) _exit(2);
            _exit(read(to_child[0], &byte, 1) == 1);
        }
        pause();
    }
    CHECK(read(to_parent[0], &byte, 1) == 1);
    WANT(open_with(&w.journal, &w.volume, never, &w.report), LQ_LOCKED);
    kill(child, SIGKILL);
    CHECK(waitpid(child, &status, 0) == child);
    OK(open_with(&w.journal, &w.volume, never, &w.report));
    CHECK(is_same_volume(&w.volume, &w.model));
    CHECK(write(to_child[1], &byte, 1) == 1);
    for (int i = 0; i < 2; i++) close(to_child[i]), close(to_parent[i]);
    end(&w);
}

/* When the next turn is due, and what isn't synced, by mode. */
static void modes(void) {
    static const uint64_t syncs[] = {LQ_SYNC_ALWAYS, 3600000, LQ_SYNC_NEVER, 0x7fffffffffffffff};
    for (size_t i = 0; i < 4; i++) {
        world w;
        begin(&w, (lq_journal_options){.sync = syncs[i]});
        CHECK(lq_journal_due(&w.journal) == UINT64_MAX);
        for (int k = 0; k < 3; k++) created(&w.volume, 1, k ? k > 1 ? "c" : "b" : "a", LQ_FILE, 0);
        uint64_t due = lq_journal_due(&w.journal);
        if (i == 1) CHECK(due > 3500000 && due <= 3600000);
        if (i == 3) CHECK(due > 2000000000 && due <= INT32_MAX);
        if (i == 0 || i == 2) CHECK(due == UINT64_MAX);
        OK(lq_journal_turn(&w.journal, &w.turned));
        CHECK(w.turned.unsynced == (i ? 3 : 0) && !w.turned.halted && !w.turned.cutting && w.turned.fault == 0);
        OK(lq_journal_sync(&w.journal));
        OK(lq_journal_turn(&w.journal, &w.turned));
        CHECK(w.turned.unsynced == 0 && w.turned.due == UINT64_MAX);
        for (int k = 0; k < 3; k++) created(&w.model, 1, k ? k > 1 ? "c" : "b" : "a", LQ_FILE, 0);
        again(&w, never);
        end(&w);
    }
    /* a millisecond is over in a moment: a turn syncs, or the next change does */
    world w;
    begin(&w, (lq_journal_options){.sync = 1});
    created(&w.volume, 1, "a", LQ_FILE, 0);
    do OK(lq_journal_turn(&w.journal, &w.turned));
    while (w.turned.unsynced && !failures);
    created(&w.model, 1, "a", LQ_FILE, 0);
    again(&w, never);
    end(&w);
}

/* A batch: its changes are synced together, by a sync or a turn, and then each is again. A record says how many changes
   before it weren't synced when it was written. */
static void batches(void) {
    static const char *const behind[] = {" 0 {", " 0 {", " 1 {", " 2 {", " 0 {", " 1 {", " 0 {", " 0 {"};
    world w;
    char name[] = "a";
    begin(&w, always);
    for (int k = 0; k < 8; k++, name[0]++) {
        if (k == 1 || k == 4) OK(lq_journal_hold(&w.journal));
        if (k == 4) OK(lq_journal_sync(&w.journal)); /* which ends one without a change */
        if (k == 4) OK(lq_journal_hold(&w.journal));
        created(&w.volume, 1, name, LQ_FILE, 0);
        created(&w.model, 1, name, LQ_FILE, 0);
        CHECK(lq_journal_due(&w.journal) == ((k > 0 && k < 4) || k == 4 || k == 5 ? 0 : UINT64_MAX));
        if (k == 3) OK(lq_journal_sync(&w.journal));
        if (k == 5) OK(lq_journal_turn(&w.journal, &w.turned));
    }
    text bytes = read_file(path, "journal");
    const char *at = bytes.at;
    for (int k = 0; k < 8 && at; k++) {
        at = memchr(at, '\n', bytes.size - (size_t)(at - bytes.at));
        const char *brace = at ? strchr(at, '{') : NULL;
        CHECK(brace && !memcmp(brace - 3, behind[k], 4));
        at = at ? at + 1 : NULL;
    }
    free(bytes.at);
    again(&w, always);
    end(&w);
}

/* ---- files that are cut or damaged ---- */

/* The volumes after each of so many drawn changes, and the journal of all. */
enum { CHANGES = 24 };
static lq volumes[CHANGES + 1];
static uint64_t ends[CHANGES + 1]; /* the size of the journal with so many changes */

static text make_journal(lq_journal_options options) {
    world w;
    drawing from = {.seed = 5, .nodes = 1};
    begin(&w, options);
    for (uint64_t i = 0; i <= CHANGES; i++) {
        drawing copy = {.seed = 5, .nodes = 1};
        volumes[i] = (lq)LQ_INIT;
        OK(lq_volume_open(&volumes[i]));
        model_goes_to(&copy, &volumes[i], i);
        model_goes_to(&from, &w.volume, i);
        OK(lq_journal_turn(&w.journal, &w.turned));
        ends[i] = w.turned.size;
    }
    OK(lq_journal_close(&w.journal));
    lq_volume_close(&w.model);
    return read_file(path, "journal");
}

static void end_journal(text *journal) {
    free(journal->at);
    for (size_t i = 0; i <= CHANGES; i++) lq_volume_close(&volumes[i]);
    remove_folder(path);
}

/* Opens the folder: with a status, a volume, and the bytes that were dropped; and once more, when nothing is to be cut. */
static void opens_as(lq_journal_options options, uint64_t changes, uint64_t dropped) {
    lq volume = LQ_INIT;
    lq_journal journal = LQ_JOURNAL_INIT;
    lq_journal_report report;
    for (int time = 0; time < 2 && !failures; time++) {
        lq_status status = open_with(&journal, &volume, options, &report);
        WANT(status, LQ_OK);
        if (status != LQ_OK) return;
        CHECK(lq_changes(&volume) == changes && is_same_volume(&volume, &volumes[changes]));
        CHECK(report.dropped == (time ? 0 : dropped) && report.changes == changes);
        OK(lq_journal_close(&journal));
    }
}

/* Cut at each byte after the first line: the whole records are there, and changes go on. */
static void cut(uint64_t each) {
    text journal = make_journal(always);
    uint64_t whole = 0;
    for (uint64_t size = ends[0]; size <= journal.size && !failures; size += each) {
        while (whole < CHANGES && ends[whole + 1] <= size) whole++;
        write_file(path, "journal", journal.at, size);
        opens_as(always, whole, size - ends[whole]);
        if (failures) fprintf(stderr, "cut at %llu of %zu\n", (unsigned long long)size, journal.size);
    }
    for (uint64_t size = 0; size < ends[0]; size++) { /* a file gets its name with this line synced */
        lq volume = LQ_INIT;
        lq_journal it = LQ_JOURNAL_INIT;
        lq_journal_report report;
        write_file(path, "journal", journal.at, size);
        WANT(open_with(&it, &volume, always, &report), LQ_BAD_SAVE);
        CHECK(report.file == LQ_FILE_JOURNAL && strcmp(report.reason, "Head") == 0 && lq_changes(&volume) == 0);
    }
    end_journal(&journal);
}

/* A byte turned at each place. Where each change was synced before the next, only the last may be dropped; a start over
   any other is refused, and can be made up to the damage. Where nothing was synced, what comes before it is there. */
static void turned(lq_journal_options options, uint64_t each) {
    text journal = make_journal(options);
    uint64_t record = 0;
    bool is_always = options.sync == LQ_SYNC_ALWAYS;
    for (uint64_t at = 0; at < journal.size && !failures; at += each) {
        lq volume = LQ_INIT;
        lq_journal it = LQ_JOURNAL_INIT;
        lq_journal_report report;
        char was = journal.at[at];
        while (record < CHANGES && ends[record] <= at) record++; /* the change that it is in, from 1; 0: the first line */
        journal.at[at] = (char)(was ^ (1 << at % 8));
        write_file(path, "journal", journal.at, journal.size);
        if (record == 0) {
            lq_status status = open_with(&it, &volume, options, &report);
            CHECK((status == LQ_BAD_SAVE || status == LQ_OTHER_VERSION) && report.file == LQ_FILE_JOURNAL);
        } else if (is_always && record < CHANGES) {
            WANT(open_with(&it, &volume, options, &report), LQ_BAD_SAVE);
            CHECK(report.file == LQ_FILE_JOURNAL && report.place == ends[record - 1] && report.reason &&
                  strcmp(report.reason, "Checksum") == 0);
            text same = read_file(path, "journal");
            CHECK(is_same(&same, &journal));
            free(same.at);
            lq_journal_options lossy = options;
            lossy.damaged = true;
            opens_as(lossy, record - 1, journal.size - ends[record - 1]);
            same = read_file(path, "journal.damaged");
            CHECK(is_same(&same, &journal));
            free(same.at);
        } else {
            opens_as(options, record - 1, journal.size - ends[record - 1]);
        }
        journal.at[at] = was;
        if (failures) fprintf(stderr, "turned at %llu of %zu\n", (unsigned long long)at, journal.size);
    }
    end_journal(&journal);
}

/* Records of other numbers, or of another journal, or whose line makes another change. */
static void others(void) {
    text journal = make_journal(never), other;
    lq volume = LQ_INIT;
    lq_journal it = LQ_JOURNAL_INIT;
    lq_journal_report report;
    memcpy(path + strlen(path) - 6, "XXXXXX", 6); /* a second folder, with the same changes */
    char first[64];
    strcpy(first, path);
    CHECK(mkdtemp(path) != NULL);
    remove_folder(path);
    for (uint64_t i = 0; i <= CHANGES; i++) lq_volume_close(&volumes[i]);
    other = make_journal(never);
    CHECK(journal.size == other.size && ends[CHANGES] == journal.size);
    /* the tail of the other one is none of this one's */
    text mixed = {0};
    add(&mixed, journal.at, ends[10]);
    add(&mixed, other.at + ends[10], other.size - ends[10]);
    write_file(path, "journal", mixed.at, mixed.size);
    opens_as(never, 10, mixed.size - ends[10]);
    /* a record is missing, though the ones around it are whole */
    mixed.size = 0;
    add(&mixed, journal.at, ends[4]);
    add(&mixed, journal.at + ends[5], journal.size - ends[5]);
    write_file(path, "journal", mixed.at, mixed.size);
    WANT(open_with(&it, &volume, never, &report), LQ_BAD_SAVE);
    CHECK(report.place == ends[4] && strcmp(report.reason, "Number") == 0);
    /* another version */
    mixed.size = 0;
    add(&mixed, journal.at, journal.size);
    mixed.at[17] = '2';
    write_file(path, "journal", mixed.at, mixed.size);
    WANT(open_with(&it, &volume, never, &report), LQ_OTHER_VERSION);
    free(mixed.at);
    free(journal.at);
    end_journal(&other);
}

/* A disk that is full: a file that is there takes the room, and goes. TMPDIR is a small disk of its own. */
static void full(void) {
    static const char bytes[4096];
    char filler[80];
    world w;
    lq_status status;
    size_t size;
    uint64_t node, changes;
    drawing from = {.seed = 9, .nodes = 1};
    begin(&w, never);
    join(filler, sizeof filler, path, "filler");
    int file = open(filler, O_WRONLY | O_CREAT, 0600);
    while (write(file, bytes, sizeof bytes) > 0) {}
    CHECK(errno == ENOSPC);
    close(file);
    do status = next_act(&from, &w.volume);
    while (status != LQ_UNKEPT && lq_changes(&w.volume) < 100000);
    WANT(status, LQ_UNKEPT);
    changes = lq_changes(&w.volume);
    WANT(lq_create(&w.volume, 1, TEXT("halted"), LQ_FILE, 0, 0, NULL), LQ_HALTED);
    WANT(lq_answer(&w.volume, TEXT("{\"do\":\"create\",\"name\":\"halted\"}"), &size), LQ_HALTED);
    WANT(lq_answer(&w.volume, TEXT("{\"do\":\"\\u0063reate\",\"name\":\"halted\"}"), &size), LQ_HALTED);
    OK(lq_answer(&w.volume, TEXT("{\"do\":\"fetch\",\"query\":\"size>1\"}"), &size));
    WANT(lq_find(&w.volume, 1, TEXT("halted"), &node), LQ_NO_ENTRY);
    WANT(lq_journal_sync(&w.journal), LQ_HALTED);
    CHECK(lq_changes(&w.volume) == changes && lq_journal_due(&w.journal) <= 100);
    CHECK(unlink(filler) == 0);
    for (uint64_t due = lq_journal_due(&w.journal);; due = w.turned.due) {
        usleep((useconds_t)(due * 1000));
        status = lq_journal_turn(&w.journal, &w.turned);
        if (status != LQ_HALTED) break;
        CHECK(w.turned.halted && w.turned.fault == ENOSPC);
    }
    OK(status);
    OK(lq_create(&w.volume, 1, TEXT("it goes on"), LQ_FILE, 0, 0, NULL));
    drawing again_from = {.seed = 9, .nodes = 1};
    model_goes_to(&again_from, &w.model, changes);
    OK(lq_create(&w.model, 1, TEXT("it goes on"), LQ_FILE, 0, 0, NULL));
    again(&w, never);
    end(&w);
}

/* journal [few | full]: few of the bytes that are cut and turned; or a full disk alone. */
int main(int count, char **words) {
    uint64_t each = count > 1 ? 97 : 1;
    if (count > 1 && !strcmp(words[1], "full")) {
        full();
        return done("journal full");
    }
    kinds();
    lines();
    calls_within();
    misuse();
    closings();
    forks();
    modes();
    batches();
    cut(each);
    turned(always, each);
    turned(never, each);
    others();
    return done("journal");
}
