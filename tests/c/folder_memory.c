/* Each growth of memory that a folder asks for, refused in turn, alone and with many after it: a status says so, later
   turns make up for it, and nothing is left once the folder is closed. The linker puts the calls of refusals.h in place
   of the C library's, and of clock_gettime.
   folder_memory drawn SECONDS SEED: over drawn acts on disk and drawn calls, for so long. */
#include "folder_acts.h"
#include "drawn.h"
#define WRAPS_CALLOC
#include "refusals.h"

static long asked, first, refused; /* of those asked for inside the library, so many from the `first` on */

static bool is_refused(void) {
    if (!is_inside) return false;
    asked++;
    if (asked < first || asked >= first + refused) return false;
    refusals++;
    return true;
}

/* ---- drawn acts on disk, and drawn calls ---- */

enum { WINDOWS = 4 };
static const char *const formulas[WINDOWS] = {"name==*", "size>1", "kind==file", "name==*a*"};

static const char *drawn_path(char *out, size_t room) {
    static const char *const names[] = {"a", "b", "c.txt", "d", "\xff\xfe", "a name of many bytes that stand elsewhere"};
    size_t size = 0;
    for (uint64_t count = 1 + draw(3); count > 0; count--)
        size += (size_t)snprintf(out + size, room - size, "%s%s", size ? "/" : "", *ONE_OF(names));
    return out;
}

/* Something happens on disk, where it can be done. */
static void act_on_disk(const world *w) {
    char one[256], other[256], whole[400];
    int file;
    drawn_path(one, sizeof one);
    drawn_path(other, sizeof other);
    switch (draw(12)) {
    case 0:
    case 1:
    case 2: (void)!mkdirat(w->at, one, 0755); break;
    case 3:
    case 4:
    case 5:
        file = openat(w->at, one, O_WRONLY | O_CREAT | O_APPEND, 0644);
        if (file >= 0) {
            (void)!write(file, "text", draw(5));
            close(file);
        }
        break;
    case 6:
    case 7: (void)!renameat(w->at, one, w->at, other); break;
    case 8: (void)!unlinkat(w->at, one, 0); break;
    case 9: (void)!unlinkat(w->at, one, AT_REMOVEDIR); break;
    case 10: (void)!symlinkat("a", w->at, one); break;
    default:
        snprintf(whole, sizeof whole, "%s/%s", w->dir, one);
        (void)!setxattr(whole, "user.year", "2024", 4, 0);
    }
}

/* A call. Where it is refused for want of memory, it has left its `out`, and is made again after a turn. */
#define AGAIN(call, out) \
    for (int again = 0; again < 100; again++) { \
        POISON(out); \
        status = (lq_status)INSIDE(call); \
        if (status != LQ_NO_MEMORY) break; \
        CHECK(is_poison(&(out), sizeof(out))); \
        (void)INSIDE(lq_folder_turn(&w->folder, &w->turned)); \
    }

static void call_folder(world *w, uint64_t *slots) {
    uint64_t *slot = &slots[draw(WINDOWS)], node = 2 + draw(20), found, nodes[64];
    const char *formula = formulas[slot - slots];
    char path[1024];
    size_t size;
    lq_folder_stat about;
    lq_status status = LQ_OK;
    switch (draw(8)) {
    case 0:
    case 1:
        status = (lq_status)INSIDE(lq_folder_turn(&w->folder, &w->turned));
        CHECK(status == LQ_OK || status == LQ_NO_MEMORY);
        break;
    case 2:
    case 3:
        if (!*slot) {
            AGAIN(lq_folder_query_open(&w->folder, formula, strlen(formula), NULL, slot), *slot);
            WANT(status, LQ_OK);
        }
        break;
    case 4:
        if (*slot) WANT((uint32_t)INSIDE(lq_folder_query_close(&w->folder, *slot)), LQ_OK);
        *slot = 0;
        break;
    case 5:
        AGAIN(lq_folder_rows(&w->folder, *slot, nodes, 64, &size), size);
        WANT(status, *slot ? LQ_OK : LQ_NOT_OPEN);
        break;
    case 6:
        AGAIN(lq_folder_path(&w->folder, node, path, sizeof path, &size), size);
        CHECK(status == LQ_OK || status == LQ_NO_NODE || status == LQ_NO_ENTRY);
        if (status != LQ_OK) break;
        AGAIN(lq_folder_node(&w->folder, path, size, &found), found);
        CHECK(status == LQ_OK && found == node);
        AGAIN(lq_folder_entry(&w->folder, node, &about), about);
        WANT(status, LQ_OK);
        break;
    default: mirror_lines(w);
    }
}

static void run_drawn(uint64_t seed) {
    uint64_t slots[WINDOWS] = {0};
    world w;
    begin_drawn(seed);
    begin_world(&w);
    act_begin(&w);
    mirrored = 0;
    skipped_time = 0;
    bool is_open = open_again(&w, NULL) && comes_to_rest(&w);
    CHECK(is_open);
    if (is_open) mirrored = open_window(&w, "name==*");
    for (int burst = 0; is_open && burst < 3; burst++) {
        for (int number = 0; number < 20; number++) {
            act_on_disk(&w);
            if (draw(2)) call_folder(&w, slots);
        }
        is_open = comes_to_rest(&w);
        CHECK(is_open);
        compare(&w);
        for (int at = 0; at < WINDOWS; at++) {
            size_t count;
            lq_fetched all;
            if (!slots[at]) continue;
            OK(lq_fetch(&w.volume, formulas[at], strlen(formulas[at]), &all));
            OK(lq_folder_rows(&w.folder, slots[at], NULL, 0, &count));
            CHECK(count == all.count);
        }
    }
    view_clear(&mirror);
    is_inside = false;
    end_world(&w);
}

/* Acts, or those that are drawn from a seed, with so many refusals. */
static void run(uint64_t seed, long from, long count) {
    asked = 0;
    first = from;
    refused = count;
    live = 0;
    if (seed) run_drawn(seed);
    else run_acts(NULL);
    CHECK(live == 0);
}

/* For so many seconds: a sequence without a refusal, and then with a dozen of its allocations refused. */
static int drawn_for(long seconds, uint64_t seed) {
    time_t end = time(NULL) + seconds;
    unsigned long sequences = 0, allocations = 0;
    for (; time(NULL) < end && !failures; sequences++) {
        uint64_t its = seed * 1000003 + sequences + 1;
        run(its, 0, 0);
        long all = asked, step = all / 12 + 1;
        for (long at = 1 + (long)(its % (uint64_t)step); at <= all && !failures; at += step) {
            run(its, at, 1);
            run(its, at, 25);
            allocations++;
            if (failures) fprintf(stderr, "sequence %" PRIu64 " with allocation %ld of %ld refused\n", its, at, all);
        }
    }
    printf("| lq_folder.h: drawn sequences | %lu |\n", sequences);
    printf("| lq_folder.h: allocations refused in them, alone and with 24 after it | %lu |\n", allocations);
    printf("| lq_folder.h: growths refused | %lu |\n| lq_folder.h: checks | %lu |\n", refusals, checks);
    printf("| lq_folder.h: failures | %lu |\n", failures);
    return failures != 0;
}

/* folder_memory [EACH]: each allocation, or each so many alone. */
int main(int count, char **words) {
    if (count > 3) return drawn_for(atol(words[2]), (uint64_t)atol(words[3]));
    long each = count > 1 ? atol(words[1]) : 1;
    run(0, 0, 0);
    long all = asked;
    for (long at = 1; at <= all && !failures; at += each) {
        run(0, at, 1);
        run(0, at, 25);
        if (failures) fprintf(stderr, "with allocation %ld of %ld refused\n", at, all);
    }
    printf("folder_memory: %ld allocations, %lu refusals\n", all, refusals);
    return done("folder_memory");
}
