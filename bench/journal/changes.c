/* What a change costs where it is kept, and what a start costs: see bench/journal/run. */
#include <lq_journal.h>
#include <stdio.h>
#include <stdlib.h>
#include <string.h>
#include <time.h>

static double seconds(clockid_t clock) {
    struct timespec it;
    clock_gettime(clock, &it);
    return (double)it.tv_sec + (double)it.tv_nsec / 1e9;
}

static void must(lq_status status, const char *what) {
    if (status == LQ_OK) return;
    fprintf(stderr, "changes: %s: %s\n", what, lq_status_name(status));
    exit(1);
}

static char folder[512];

static void forget(void) {
    char command[600];
    snprintf(command, sizeof command, "rm -rf '%s'", folder);
    if (system(command)) exit(1);
}

/* Writes files of a volume in turn: processor and clock, each the least of the runs, in microseconds. */
static void cost(const char *name, bool is_kept, uint64_t sync, uint64_t least, int count, int runs) {
    double processor = 1e9, clock = 1e9;
    for (int run = 0; run < runs; run++) {
        lq volume = LQ_INIT;
        lq_journal journal = LQ_JOURNAL_INIT;
        lq_journal_options options = {.sync = sync, .least = least};
        lq_journal_turned turned;
        forget();
        must(is_kept ? lq_journal_open(&journal, &volume, folder, strlen(folder), &options, NULL)
                     : lq_volume_open(&volume), "opening");
        for (int i = 0; i < 1000; i++) {
            char file[16];
            must(lq_create(&volume, 1, file, (size_t)sprintf(file, "f%d", i), LQ_FILE, 0, 0, NULL), "create");
        }
        double begun = seconds(CLOCK_PROCESS_CPUTIME_ID), since = seconds(CLOCK_MONOTONIC);
        for (int i = 0; i < count; i++) {
            must(lq_write(&volume, 2 + (uint64_t)i % 1000, (uint64_t)i, 1700000000 + i, NULL), "write");
            if (is_kept && i % 1000 == 0) must(lq_journal_turn(&journal, &turned), "turn");
        }
        double spent = (seconds(CLOCK_PROCESS_CPUTIME_ID) - begun) / count * 1e6;
        double lasted = (seconds(CLOCK_MONOTONIC) - since) / count * 1e6;
        if (spent < processor) processor = spent;
        if (lasted < clock) clock = lasted;
        if (is_kept) must(lq_journal_close(&journal), "closing");
        else lq_volume_close(&volume);
    }
    printf("%-28s %9.2f %9.2f\n", name, processor, clock);
}

/* Files with two attributes, 1,000 a folder; then starts over them. */
static void start(int count, bool is_cut) {
    lq volume = LQ_INIT;
    lq_journal journal = LQ_JOURNAL_INIT;
    lq_journal_options options = {.sync = LQ_SYNC_NEVER, .least = is_cut ? 1 : UINT64_MAX};
    lq_journal_turned turned;
    lq_journal_report report;
    double longest = 0, all = 0, processor = 1e9, clock = 1e9;
    forget();
    must(lq_journal_open(&journal, &volume, folder, strlen(folder), &options, NULL), "opening");
    lq_applied dir = {0, 0}, made;
    for (int i = 0; i < count; i++) {
        char name[24];
        if (i % 1000 == 0)
            must(lq_create(&volume, 1, name, (size_t)sprintf(name, "folder%d", i), LQ_FOLDER, 0, 0, &dir), "create");
        must(lq_create(&volume, dir.node, name, (size_t)sprintf(name, "file%d.txt", i), LQ_FILE, (uint64_t)i, i, &made), "create");
        must(lq_set_text(&volume, made.node, LQ_TEXT("MAIL:status"), LQ_TEXT("New"), NULL), "set");
        must(lq_set_int64(&volume, made.node, LQ_TEXT("rating"), i % 10, NULL), "set");
    }
    do {
        double begun = seconds(CLOCK_MONOTONIC), spent = seconds(CLOCK_PROCESS_CPUTIME_ID);
        must(lq_journal_turn(&journal, &turned), "turn");
        begun = seconds(CLOCK_MONOTONIC) - begun;
        all += seconds(CLOCK_PROCESS_CPUTIME_ID) - spent;
        if (begun > longest) longest = begun;
    } while (turned.cutting);
    must(lq_journal_close(&journal), "closing");
    for (int run = 0; run < 3; run++) {
        double begun = seconds(CLOCK_PROCESS_CPUTIME_ID), since = seconds(CLOCK_MONOTONIC);
        must(lq_journal_open(&journal, &volume, folder, strlen(folder), &options, &report), "opening");
        begun = seconds(CLOCK_PROCESS_CPUTIME_ID) - begun;
        since = seconds(CLOCK_MONOTONIC) - since;
        if (begun < processor) processor = begun;
        if (since < clock) clock = since;
        must(lq_journal_close(&journal), "closing");
    }
    printf("%9d entries, %8llu changes from the journal: %6.3f s of processor, %6.3f s on the clock", count,
           (unsigned long long)report.replayed, processor, clock);
    if (is_cut) printf("; cut anew in %.3f s of processor, longest turn %.0f ms", all, longest * 1000);
    printf("\n");
    forget();
}

/* changes FOLDER cost COUNT RUNS | changes FOLDER start COUNT */
int main(int count, char **words) {
    if (count < 4) return 2;
    snprintf(folder, sizeof folder, "%s/kept", words[1]);
    if (!strcmp(words[2], "start")) {
        start(atoi(words[3]), false);
        start(atoi(words[3]), true);
        return 0;
    }
    int changes = atoi(words[3]), runs = count > 4 ? atoi(words[4]) : 5;
    printf("%-28s %9s %9s\n", "a change, in microseconds", "processor", "clock");
    cost("in memory", false, 0, 0, changes, runs);
    cost("kept, sync never", true, LQ_SYNC_NEVER, UINT64_MAX, changes, runs);
    cost("kept, sync each 100 ms", true, 100, UINT64_MAX, changes, runs);
    cost("the same, and cut anew", true, 100, 0, changes, runs);
    cost("kept, sync always", true, LQ_SYNC_ALWAYS, UINT64_MAX, changes / 1000, 1);
    forget();
    return 0;
}
