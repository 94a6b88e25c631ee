/* Three windows over a stream of changes, in a program without threads. The second has a small backlog and is read
   late, so it overruns once and is opened anew. At the end each window shows what a fetch of its formula gives. */
#include <lq.h>
#include <stdio.h>
#include <stdlib.h>
#include <string.h>

enum { WINDOWS = 3, FILES = 300, CHANGES = 1500, MANY = 64 };
typedef struct window {
    const char *formula;
    lq_options options;
    uint64_t slot;
    bool shown[FILES + 2]; /* by node */
} window;
static lq volume = LQ_INIT;

static void must(lq_status status) {
    if (status != LQ_OK) exit(fprintf(stderr, "%s\n", lq_status_name(status)));
}

static void show(window *it) {
    lq_opening opened;
    must(lq_query_open(&volume, it->formula, strlen(it->formula), &it->options, &opened));
    it->slot = opened.slot;
    memset(it->shown, 0, sizeof it->shown);
    for (lq_row row; lq_next(&volume, opened.result, &row) == LQ_OK;) it->shown[row.node] = true;
    printf("%s: slot %d at change %d, %d entries\n", it->formula, (int)it->slot, (int)opened.at, (int)opened.count);
}

static void follow(window *it) {
    lq_message all[MANY];
    size_t got;
    do {
        must(lq_read_many(&volume, it->slot, all, MANY, &got));
        for (size_t at = 0; at < got; at++) {
            if (all[at].what == LQ_UPDATE) it->shown[all[at].node] = all[at].op != LQ_ENTRY_REMOVED;
            else printf("%s: overrun, covered to change %d\n", it->formula, (int)all[at].change);
        }
    } while (got > 0 && all[got - 1].what == LQ_UPDATE);
    if (got == 0) return;
    must(lq_finish(&volume, it->slot)); /* the mark was read: the window begins anew */
    show(it);
}

static void check(const window *it) {
    lq_row rows[FILES];
    lq_fetched now;
    size_t got, shown = 0, same = 0;
    must(lq_fetch(&volume, it->formula, strlen(it->formula), &now));
    must(lq_take(&volume, now.result, rows, FILES, &got));
    for (size_t at = 0; at < got; at++) same += it->shown[rows[at].node];
    for (int node = 0; node < FILES + 2; node++) shown += it->shown[node];
    printf("%s: %d shown, %d fetched, %d in both\n", it->formula, (int)shown, (int)got, (int)same);
}

int main(void) {
    static window windows[WINDOWS] = {{"size>500", {0, false, true, false}, 0, {false}},
                                      {"size<=500", {150, false, true, false}, 0, {false}},
                                      {"name==*7.txt", {0, true, true, false}, 0, {false}}};
    must(lq_volume_open(&volume));
    for (int at = 0; at < WINDOWS; at++) show(&windows[at]);
    for (int change = 0; change < CHANGES; change++) {
        char name[16];
        int size = sprintf(name, "%d.txt", change);
        if (change < FILES) must(lq_create(&volume, LQ_ROOT, name, (size_t)size, LQ_FILE, (uint64_t)change, 0, NULL));
        else must(lq_write(&volume, (uint64_t)(2 + change * 7 % FILES), (uint64_t)(change * 13 % 1000), 0, NULL));
        uint64_t ready = lq_ready(&volume);
        for (int at = 0; at < WINDOWS; at++)
            if ((ready >> (windows[at].slot - 1) & 1) && (at != 1 || change % 250 == 249)) follow(&windows[at]);
    }
    for (int at = 0; at < WINDOWS; at++) check(&windows[at]);
    lq_volume_close(&volume);
}
