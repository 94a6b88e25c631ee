/* The same changes by SQLite with its WAL, each a transaction of its own: see bench/journal/run. */
#include <sqlite3.h>
#include <stdio.h>
#include <stdlib.h>
#include <time.h>

static double seconds(clockid_t clock) {
    struct timespec it;
    clock_gettime(clock, &it);
    return (double)it.tv_sec + (double)it.tv_nsec / 1e9;
}

static void must(sqlite3 *base, int status, int wanted) {
    if (status == wanted) return;
    fprintf(stderr, "sqlite: %s\n", sqlite3_errmsg(base));
    exit(1);
}

static void cost(const char *folder, const char *sync, int count, int runs) {
    double processor = 1e9, clock = 1e9;
    for (int run = 0; run < runs; run++) {
        char path[600], pragmas[128];
        sqlite3 *base;
        sqlite3_stmt *write;
        snprintf(path, sizeof path, "rm -f '%s'/base*", folder);
        if (system(path)) exit(1);
        snprintf(path, sizeof path, "%s/base", folder);
        must(NULL, sqlite3_open(path, &base), SQLITE_OK);
        snprintf(pragmas, sizeof pragmas, "PRAGMA journal_mode=WAL; PRAGMA synchronous=%s; CREATE TABLE entry(node INTEGER "
                 "PRIMARY KEY, size INTEGER, time INTEGER)", sync);
        must(base, sqlite3_exec(base, pragmas, NULL, NULL, NULL), SQLITE_OK);
        must(base, sqlite3_exec(base, "WITH RECURSIVE n(i) AS (VALUES(2) UNION ALL SELECT i + 1 FROM n WHERE i < 1001) "
                                "INSERT INTO entry SELECT i, 0, 0 FROM n", NULL, NULL, NULL), SQLITE_OK);
        must(base, sqlite3_prepare_v2(base, "UPDATE entry SET size = ?, time = ? WHERE node = ?", -1, &write, NULL), SQLITE_OK);
        double begun = seconds(CLOCK_PROCESS_CPUTIME_ID), since = seconds(CLOCK_MONOTONIC);
        for (int i = 0; i < count; i++) {
            sqlite3_bind_int64(write, 1, i);
            sqlite3_bind_int64(write, 2, 1700000000 + i);
            sqlite3_bind_int64(write, 3, 2 + i % 1000);
            must(base, sqlite3_step(write), SQLITE_DONE);
            must(base, sqlite3_reset(write), SQLITE_OK);
        }
        double spent = (seconds(CLOCK_PROCESS_CPUTIME_ID) - begun) / count * 1e6;
        double lasted = (seconds(CLOCK_MONOTONIC) - since) / count * 1e6;
        if (spent < processor) processor = spent;
        if (lasted < clock) clock = lasted;
        sqlite3_finalize(write);
        must(base, sqlite3_close(base), SQLITE_OK);
    }
    char name[64];
    snprintf(name, sizeof name, "SQLite's WAL, %s", sync);
    printf("%-28s %9.2f %9.2f\n", name, processor, clock);
}

/* sqlite FOLDER COUNT RUNS */
int main(int count, char **words) {
    if (count < 4) return 2;
    int changes = atoi(words[2]), runs = atoi(words[3]);
    cost(words[1], "OFF", changes / 10, runs);
    cost(words[1], "NORMAL", changes / 10, runs);
    cost(words[1], "FULL", changes / 1000, 1);
    return 0;
}
