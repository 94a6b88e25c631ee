/* folder_follow DIR FORMULA [OPTION]..: what matches, then a line for each thing that happens to it: a program for the
   tests that compare a folder with its volume, and for measurements.

   --once: one look alone. --json: lines of JSON. --new: nothing of what is there at the start. --quiet: no lines.
   --early: the window is opened before the first look. --skip PATTERN, --poll MILLISECONDS, --no-attributes and
   --one-file-system: as lq_folder_options. --pause MICROSECONDS: the least time between two turns. --dump FILE: at
   SIGUSR1 the whole volume is written there, and with a library for traces the trace to FILE.trace. --stats: counts and
   times on standard error. Status 0; 2: it couldn't begin; 3: the folder has gone or can't go on; 4: nobody reads. */
#define _GNU_SOURCE
#include <errno.h>
#include <lq_folder.h>
#include <poll.h>
#include <signal.h>
#include <stdio.h>
#include <stdlib.h>
#include <string.h>
#include <sys/resource.h>
#include <time.h>
#include <unistd.h>

enum { LINES = 256, SKIPPED = 16 };

typedef struct follower {
    lq volume;
    lq_folder folder;
    lq_folder_options options;
    const char *skip[SKIPPED];
    char *path;
    const char *formula, *dump;
    uint64_t slot, seen, lines;
    long pause;
    bool is_json, is_new, is_quiet, is_early, has_stats;
} follower;

static volatile sig_atomic_t ends, dumps;

static void end(int signal) {
    (void)signal;
    ends = 1;
}

static void ask_for_dump(int signal) {
    (void)signal;
    dumps = 1;
}

/* ---- texts ---- */

static void put_json(FILE *to, const char *text, size_t size) {
    for (size_t i = 0; i < size; i++) {
        unsigned char c = (unsigned char)text[i];
        if (c == '"' || c == '\\') fprintf(to, "\\%c", c);
        else if (c < 0x20) fprintf(to, "\\u%04x", c);
        else putc_unlocked(c, to);
    }
}

/* A path's bytes as a text of JSON. */
static void put_json_bytes(FILE *to, const char *bytes, size_t size) {
    char *text = malloc(3 * size + 1);
    if (!text) abort();
    put_json(to, text, lq_folder_to_name(bytes, size, text, 3 * size + 1));
    free(text);
}

static void put_plain(const char *bytes, size_t size) {
    for (size_t i = 0; i < size; i++) {
        unsigned char c = (unsigned char)bytes[i];
        if (c == '\\') fputs("\\\\", stdout);
        else if (c < 0x20 || c >= 0x7f) printf("\\x%02x", c);
        else putc_unlocked(c, stdout);
    }
}

static void put_path(const follower *it, const char *path, size_t size) {
    if (it->is_json) {
        put_json_bytes(stdout, it->path, strlen(it->path));
        putc_unlocked('/', stdout);
        put_json_bytes(stdout, path, size);
    } else {
        put_plain(it->path, strlen(it->path));
        putc_unlocked('/', stdout);
        put_plain(path, size);
    }
}

/* ---- lines ---- */

static const char *const words[] = {"", "there", "came", "left", "moved", "changed", "anew"};
static const char signs[] = " =+->~!";
static const char *const notices[] = {
    "", "it can't be read", "the name is too long, and is passed over", "an attribute is too long, and is passed over",
    "no watches are left, so folders are polled", "the file system tells of no changes, so it is polled",
    "more changed at once than the system keeps: all is looked at again", "all is looked at again"};

static void put_line(const follower *it, const lq_folder_line *line) {
    if (!it->is_json) {
        printf("%c ", signs[line->what]);
        if (line->what == LQ_LINE_MOVED) {
            put_path(it, line->old_path, line->old_path_size);
            fputs(" > ", stdout);
        }
        put_path(it, line->path, line->path_size);
        putc_unlocked('\n', stdout);
        return;
    }
    printf("{\"change\": \"%s\", \"path\": \"", words[line->what]);
    put_path(it, line->path, line->path_size);
    if (line->what == LQ_LINE_MOVED) {
        fputs("\", \"old_path\": \"", stdout);
        put_path(it, line->old_path, line->old_path_size);
    }
    printf("\", \"size\": %llu, \"time\": %lld, \"kind\": \"%c\", \"inode\": %llu, \"ctime\": %lld, \"mtime\": %lld}\n",
           (unsigned long long)line->size, (long long)line->time, line->kind ? (int)line->kind : '-',
           (unsigned long long)line->inode, (long long)line->ctime, (long long)line->mtime);
}

static void put_lines(follower *it) {
    static lq_folder_line lines[LINES];
    size_t got;
    while (lq_folder_read(&it->folder, it->seen, lines, LINES, &got) == LQ_OK && got > 0) {
        for (size_t i = 0; i < got; i++) {
            const lq_folder_line *line = &lines[i];
            it->lines++;
            if (line->what == LQ_LINE_NOTICE)
                fprintf(stderr, "folder_follow: %s/%.*s: %s\n", it->path, (int)line->path_size, line->path,
                        notices[line->notice]);
            else if (!it->is_quiet && !(line->what == LQ_LINE_THERE && it->is_new))
                put_line(it, line);
        }
        it->seen = lines[got - 1].number;
    }
}

/* ---- the whole volume ---- */

static bool is_row(const uint64_t *rows, size_t count, uint64_t node) {
    size_t low = 0;
    for (size_t high = count; low < high;) {
        size_t middle = low + (high - low) / 2;
        if (rows[middle] < node) low = middle + 1;
        else high = middle;
    }
    return low < count && rows[low] == node;
}

static void dump_attributes(follower *it, FILE *to, uint64_t node) {
    lq_attr attr;
    for (size_t i = 0; lq_attr_at(&it->volume, node, i, &attr) == LQ_OK; i++) {
        fputs(i ? ", \"" : "\"", to);
        put_json(to, attr.name, attr.name_size);
        fputs("\": ", to);
        if (attr.type == LQ_TYPE_TEXT) {
            putc('"', to);
            put_json(to, attr.text, attr.text_size);
            putc('"', to);
        } else
            fprintf(to, "%lld", (long long)attr.whole);
    }
}

static void dump_entry(follower *it, FILE *to, uint64_t node, bool is_in) {
    static char *path;
    static size_t room;
    size_t size = 0;
    lq_info info;
    lq_folder_stat about;
    if (lq_entry(&it->volume, node, &info) != LQ_OK || lq_folder_entry(&it->folder, node, &about) != LQ_OK) return;
    if (lq_folder_path(&it->folder, node, path, room, &size) != LQ_OK) return;
    if (size >= room) {
        free(path);
        room = 2 * size + 1024;
        path = malloc(room);
        if (!path || lq_folder_path(&it->folder, node, path, room, &size) != LQ_OK) abort();
    }
    fputs("{\"path\": \"", to);
    put_json_bytes(to, it->path, strlen(it->path));
    putc('/', to);
    put_json_bytes(to, path, size);
    fprintf(to, "\", \"kind\": \"%c\", \"size\": %llu, \"time\": %lld, \"inode\": %llu, \"mtime\": %lld, \"row\": %s, "
            "\"attrs\": {", (int)about.kind, (unsigned long long)info.size, (long long)info.time,
            (unsigned long long)about.inode, (long long)about.mtime, is_in ? "true" : "false");
    dump_attributes(it, to, node);
    fputs("}}\n", to);
}

#ifdef LQ_FOLDER_TRACE
void lq_folder_trace_write(const char *file);
#endif

static void dump(follower *it) {
    char part[4096];
    lq_fetched all;
    size_t count = 0, got;
    lq_row row;
    snprintf(part, sizeof part, "%s.part", it->dump);
    FILE *to = fopen(part, "w");
    if (!to || lq_folder_rows(&it->folder, it->slot, NULL, 0, &count) != LQ_OK) return;
    uint64_t *rows = malloc((count + 1) * sizeof *rows);
    if (!rows || lq_folder_rows(&it->folder, it->slot, rows, count, &got) != LQ_OK) abort();
    if (lq_fetch(&it->volume, LQ_TEXT("name==*"), &all) != LQ_OK) abort();
    uint64_t *nodes = malloc((all.count + 1) * sizeof *nodes);
    if (!nodes) abort();
    for (got = 0; lq_next(&it->volume, all.result, &row) == LQ_OK; got++) nodes[got] = row.node;
    for (size_t i = 0; i < got; i++) dump_entry(it, to, nodes[i], is_row(rows, count, nodes[i]));
    free(nodes);
    free(rows);
#ifdef LQ_FOLDER_TRACE
    char trace[4096];
    snprintf(trace, sizeof trace, "%s.trace", it->dump);
    lq_folder_trace_write(trace);
#endif
    if (fclose(to) == 0) rename(part, it->dump);
}

/* ---- figures ---- */

static double processor(void) {
    struct rusage it;
    getrusage(RUSAGE_SELF, &it);
    return (double)(it.ru_utime.tv_sec + it.ru_stime.tv_sec) +
           (double)(it.ru_utime.tv_usec + it.ru_stime.tv_usec) * 1e-6;
}

static long resident(void) {
    long all = 0, in = 0;
    FILE *from = fopen("/proc/self/statm", "r");
    if (!from || fscanf(from, "%ld %ld", &all, &in) != 2) in = 0;
    if (from) fclose(from);
    return in * 4;
}

/* ---- the loop ---- */

static int64_t now(void) {
    struct timespec it;
    clock_gettime(CLOCK_MONOTONIC, &it);
    return it.tv_sec * 1000000000LL + it.tv_nsec;
}

/* Waits for the next turn: a lone act is told at once, and in a storm there is a turn each so many microseconds. */
static void wait_for_turn(const follower *it, const lq_folder_turned *turned, int64_t last) {
    struct pollfd events = {.fd = lq_folder_fd(&it->folder), .events = POLLIN};
    int due = turned->due > 300 ? 300 : (int)turned->due;
    if (poll(&events, 1, due) <= 0 || !it->pause) return;
    int64_t left = last + it->pause * 1000 - now();
    struct timespec rest = {0, left};
    if (left > 0) nanosleep(&rest, NULL);
}

static int told(const follower *it, lq_status status, int32_t fault) {
    if (status == LQ_OK || status == LQ_NO_MEMORY) return 0;
    fprintf(stderr, "folder_follow: %s: %s\n", it->path,
            status == LQ_SYSTEM ? strerror(fault) : lq_status_name(status));
    return status == LQ_SYSTEM ? 0 : 3;
}

static int open_window(follower *it) {
    lq_status status = lq_folder_query_open(&it->folder, it->formula, strlen(it->formula), NULL, &it->slot);
    if (status == LQ_OK) return 0;
    fprintf(stderr, "folder_follow: %s at byte %llu of the formula\n", lq_status_name(status),
            (unsigned long long)lq_fault_place(&it->volume));
    return 2;
}

static int first_look(follower *it, lq_folder_turned *turned) {
    int status = it->is_early ? open_window(it) : 0;
    do {
        if (!status) status = told(it, lq_folder_turn(&it->folder, turned), turned->fault);
        put_lines(it);
    } while (!status && !turned->listed && !ends);
    if (it->has_stats)
        fprintf(stderr, "folder_follow: first look: %llu entries, cpu %.3f s, resident %ld KB (%.1f B an entry)\n",
                (unsigned long long)turned->entries, processor(), resident(),
                (double)resident() * 1024.0 / (double)(turned->entries + 1));
    if (!status && !it->is_early) status = open_window(it);
    do { /* lines of what was there: where they are many, turns give them */
        put_lines(it);
        if (!status) status = told(it, lq_folder_turn(&it->folder, turned), turned->fault);
    } while (!status && (turned->more || turned->lines) && !ends);
    return status;
}

static int follow(follower *it) {
    lq_folder_turned turned = {0};
    int64_t last = 0;
    int status = first_look(it, &turned);
    if (fflush(stdout)) return 4;
    double start = processor();
    while (!status && !it->options.once && !ends) {
        if (dumps && it->dump) {
            dumps = 0;
            dump(it);
        }
        wait_for_turn(it, &turned, last);
        do {
            status = told(it, lq_folder_turn(&it->folder, &turned), turned.fault);
            put_lines(it);
        } while (turned.more && !status && !dumps && !ends);
        last = now();
        if (fflush(stdout)) return 4;
    }
    if (it->has_stats)
        fprintf(stderr, "folder_follow: since: cpu %.3f s, lines %llu, resident %ld KB, entries %llu\n",
                processor() - start, (unsigned long long)it->lines, resident(), (unsigned long long)turned.entries);
    return status;
}

/* ---- words ---- */

static bool take_word(follower *it, char **at, int *left) {
    const char *word = *at, *value = *left > 1 ? at[1] : NULL;
    if (!strcmp(word, "--once")) it->options.once = true;
    else if (!strcmp(word, "--json")) it->is_json = true;
    else if (!strcmp(word, "--new")) it->is_new = true;
    else if (!strcmp(word, "--quiet")) it->is_quiet = true;
    else if (!strcmp(word, "--early")) it->is_early = true;
    else if (!strcmp(word, "--stats")) it->has_stats = true;
    else if (!strcmp(word, "--no-attributes")) it->options.no_attributes = true;
    else if (!strcmp(word, "--one-file-system")) it->options.one_file_system = true;
    else if (!value) return false;
    else {
        --*left;
        if (!strcmp(word, "--dump")) it->dump = value;
        else if (!strcmp(word, "--pause")) it->pause = atol(value);
        else if (!strcmp(word, "--poll")) it->options.poll = (uint64_t)atol(value);
        else if (!strcmp(word, "--skip") && it->options.skip_count < SKIPPED)
            it->skip[it->options.skip_count++] = value;
        else return false;
    }
    return true;
}

static bool take_words(follower *it, int count, char **words_given) {
    int place = 0;
    for (int left = count - 1; left > 0; left--) {
        char **at = words_given + count - left;
        if (!strncmp(*at, "--", 2)) {
            int was = left;
            if (!take_word(it, at, &left)) return false;
            (void)was;
        } else if (place == 0) {
            it->path = *at;
            place++;
        } else if (place++ == 1) it->formula = *at;
        else return false;
    }
    it->options.skip = it->skip;
    return it->path != NULL;
}

int main(int count, char **words_given) {
    static follower it = {.volume = LQ_INIT, .folder = LQ_FOLDER_INIT, .formula = "name==*", .pause = 1000};
    static char buffer[1 << 16];
    int32_t fault;
    if (!take_words(&it, count, words_given)) return fputs("folder_follow: the words aren't understood\n", stderr), 2;
    size_t size = strlen(it.path);
    while (size > 1 && it.path[size - 1] == '/') it.path[--size] = 0;
    setvbuf(stdout, buffer, _IOFBF, sizeof buffer);
    struct sigaction act = {.sa_handler = end};
    sigaction(SIGINT, &act, NULL);
    sigaction(SIGTERM, &act, NULL);
    act.sa_handler = ask_for_dump;
    sigaction(SIGUSR1, &act, NULL);
    signal(SIGPIPE, SIG_IGN);
    if (lq_volume_open(&it.volume) != LQ_OK) return 2;
    lq_status status = lq_folder_open(&it.folder, &it.volume, it.path, size, &it.options, &fault);
    if (status != LQ_OK) return told(&it, status, fault), 2;
    if (size == 1 && *it.path == '/') *it.path = 0; /* each line has a `/` after it */
    int answer = follow(&it);
    lq_folder_close(&it.folder);
    lq_volume_close(&it.volume);
    return answer;
}
