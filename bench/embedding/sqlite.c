/* The work of calls.c by SQLite: a table in memory, a trigger for each window, prepared statements. Each statement is a
   transaction of its own, without a journal. Prints the nanoseconds of each task, on average of COUNT. */
#include "tasks.h"
#include <sqlite3.h>
#include <string.h>

static sqlite3 *data;

static void must(int status, int wanted) {
    if (status != wanted) {
        fprintf(stderr, "sqlite: %s\n", sqlite3_errmsg(data));
        exit(1);
    }
}

static void run(const char *text) {
    must(sqlite3_exec(data, text, NULL, NULL, NULL), SQLITE_OK);
}

static sqlite3_stmt *prepared(const char *text) {
    sqlite3_stmt *made;
    must(sqlite3_prepare_v2(data, text, -1, &made, NULL), SQLITE_OK);
    return made;
}

static void begin(int windows) {
    char text[512];
    must(sqlite3_open(":memory:", &data), SQLITE_OK);
    run("PRAGMA journal_mode=OFF; PRAGMA synchronous=OFF; PRAGMA temp_store=MEMORY;"
        "CREATE TABLE entry(node INTEGER PRIMARY KEY, dir INTEGER NOT NULL, name TEXT NOT NULL, "
        "kind INTEGER NOT NULL,"
        " size INTEGER NOT NULL, time INTEGER NOT NULL, UNIQUE(dir, name));"
        "CREATE TABLE message(seq INTEGER PRIMARY KEY, window INTEGER NOT NULL, op INTEGER NOT "
        "NULL, node INTEGER NOT NULL,"
        " dir INTEGER NOT NULL, name TEXT NOT NULL);");
    for (int window = 1; window <= windows; window++) {
        sprintf(text,
                "CREATE TRIGGER wide%d AFTER UPDATE OF size ON entry WHEN (old.size > %d) <> "
                "(new.size > %d) BEGIN"
                " INSERT INTO message(window, op, node, dir, name) VALUES(%d, new.size > %d, "
                "new.node, new.dir, new.name);"
                " END",
                window, BORDER, BORDER, window, BORDER);
        run(text);
    }
}

static void create(sqlite3_stmt *insert, int number) {
    char name[16];
    int size = name_of(number, name);
    sqlite3_bind_int64(insert, 1, 1);
    sqlite3_bind_text(insert, 2, name, size, SQLITE_STATIC);
    sqlite3_bind_int64(insert, 3, number % BORDER);
    sqlite3_bind_int64(insert, 4, TIME);
    must(sqlite3_step(insert), SQLITE_DONE);
    must(sqlite3_reset(insert), SQLITE_OK);
    if (sqlite3_last_insert_rowid(data) != number + 1) exit(1);
}

static sqlite3_stmt *inserting(void) {
    return prepared("INSERT INTO entry(dir, name, kind, size, time) VALUES(?, ?, 0, ?, ?)");
}

/* Creates COUNT files. */
static double creates(void) {
    begin(0);
    sqlite3_stmt *insert = inserting();
    double since = now();
    for (int number = 0; number < COUNT; number++) create(insert, number);
    double spent = now() - since;
    sqlite3_finalize(insert);
    sqlite3_close(data);
    return spent;
}

/* Writes COUNT times, each time with a message for each window, which is read. */
static double writes(int windows) {
    begin(windows);
    sqlite3_stmt *insert = inserting();
    for (int number = 0; number < FILES; number++) create(insert, number);
    sqlite3_finalize(insert);
    sqlite3_stmt *update = prepared("UPDATE entry SET size = ?, time = ? WHERE node = ?");
    sqlite3_stmt *read = prepared(
        "SELECT seq, op, node, dir, name FROM message WHERE window = ? ORDER BY seq LIMIT 1");
    sqlite3_stmt *took = prepared("DELETE FROM message WHERE seq = ?");
    run("CREATE INDEX waiting ON message(window, seq)");
    double since = now();
    for (int number = 0; number < COUNT; number++) {
        sqlite3_bind_int64(update, 1, size_of(number));
        sqlite3_bind_int64(update, 2, TIME);
        sqlite3_bind_int64(update, 3, 1 + number % FILES);
        must(sqlite3_step(update), SQLITE_DONE);
        must(sqlite3_reset(update), SQLITE_OK);
        for (int window = 1; window <= windows; window++) {
            char name[256];
            sqlite3_bind_int64(read, 1, window);
            must(sqlite3_step(read), SQLITE_ROW);
            sqlite3_int64 seq = sqlite3_column_int64(read, 0);
            memcpy(name, sqlite3_column_text(read, 4), (size_t)sqlite3_column_bytes(read, 4));
            must(sqlite3_reset(read), SQLITE_OK);
            sqlite3_bind_int64(took, 1, seq);
            must(sqlite3_step(took), SQLITE_DONE);
            must(sqlite3_reset(took), SQLITE_OK);
        }
    }
    double spent = now() - since;
    sqlite3_finalize(update);
    sqlite3_finalize(read);
    sqlite3_finalize(took);
    sqlite3_close(data);
    return spent;
}

int main(void) {
    say("create", creates());
    say("write, 0 windows", writes(0));
    say("write, 1 window", writes(1));
    say("write, 8 windows", writes(8));
    return 0;
}
