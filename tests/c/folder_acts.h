/* Acts on disk that use each part of a folder, and whether the volume, the windows' rows and a mirror that is fed by
   the lines are what is on disk after them. The tests that refuse memory, or have calls of the system fail, run them
   many times. Time passes without waiting: what a turn waits for is added to the clock that the library reads. */
#ifndef FOLDER_ACTS_H
#define FOLDER_ACTS_H

#include "disk.h"
#include <dirent.h>
#include <sys/xattr.h>

/* Set while a call of the library runs: then memory may be refused, or a call may fail. */
static bool is_inside;
static int64_t skipped_time; /* nanoseconds */

int __real_clock_gettime(clockid_t clock, struct timespec *out);
int __wrap_clock_gettime(clockid_t clock, struct timespec *out);
int __wrap_clock_gettime(clockid_t clock, struct timespec *out) {
    int answer = __real_clock_gettime(clock, out);
    if (!is_inside || clock != CLOCK_MONOTONIC) return answer;
    int64_t time = out->tv_sec * 1000000000LL + out->tv_nsec + skipped_time;
    out->tv_sec = time / 1000000000;
    out->tv_nsec = time % 1000000000;
    return answer;
}

/* A call of the library, in which things may go wrong. */
#define INSIDE(call) (is_inside = true, (int)(call) + end_inside())
static inline int end_inside(void) {
    is_inside = false;
    return 0;
}

/* ---- what is there, as texts that are sorted ---- */

typedef struct view {
    char **at;
    size_t count, room;
} view;

static inline void view_add(view *to, const char *what) {
    if (to->count == to->room) {
        to->room = 2 * to->room + 16;
        to->at = realloc(to->at, to->room * sizeof *to->at);
        if (!to->at) abort();
    }
    size_t size = strlen(what) + 1;
    if (!(to->at[to->count] = malloc(size))) abort();
    memcpy(to->at[to->count++], what, size);
}

static inline void view_clear(view *it) {
    while (it->count) free(it->at[--it->count]);
    free(it->at);
    *it = (view){NULL, 0, 0};
}

static inline int by_text(const void *one, const void *other) {
    return strcmp(*(char *const *)one, *(char *const *)other);
}

/* What an entry is, after its path. */
static inline void describe(char *out, size_t room, const char *path, uint64_t inode, uint64_t size, int64_t mtime,
                            char kind, const char *year) {
    bool is_folder = kind == 'd';
    snprintf(out, room, "%s|%c %llu %llu %lld %s", path, kind, (unsigned long long)inode,
             is_folder ? 0ULL : (unsigned long long)size, is_folder ? 0LL : (long long)mtime, year);
}

/* The attribute of that name on disk, or nothing. */
static inline const char *year_of(const world *w, const char *path, char *out, size_t room) {
    char whole[700];
    snprintf(whole, sizeof whole, "%s/%.600s", w->dir, path);
    ssize_t size = lgetxattr(whole, "user.year", out, room - 1);
    out[size < 0 ? 0 : size] = 0;
    return out;
}

static view mirror;
static uint64_t mirrored; /* the slot of its window */
static bool has_kinds;    /* a formula has named `kind` */

static inline bool describe_disk(const world *w, const char *path, char *out, size_t room) {
    struct stat it;
    char year[16];
    if (fstatat(w->at, path, &it, AT_SYMLINK_NOFOLLOW)) return false;
    char kind = S_ISREG(it.st_mode) ? 'f' : S_ISDIR(it.st_mode) ? 'd' : S_ISLNK(it.st_mode) ? 'l' : 'o';
    describe(out, room, path, it.st_ino, (uint64_t)it.st_size, it.st_mtim.tv_sec * 1000000000LL + it.st_mtim.tv_nsec,
             kind, year_of(w, path, year, sizeof year));
    return true;
}

static inline void view_disk(const world *w, const char *below, view *to) {
    int file = openat(w->at, *below ? below : ".", O_RDONLY | O_DIRECTORY);
    DIR *folder = file < 0 ? NULL : fdopendir(file);
    if (!folder) return;
    for (struct dirent *it; (it = readdir(folder)) != NULL;) {
        char path[1024], what[1200];
        if (!strcmp(it->d_name, ".") || !strcmp(it->d_name, "..")) continue;
        snprintf(path, sizeof path, "%.500s%s%s", below, *below ? "/" : "", it->d_name);
        if (!describe_disk(w, path, what, sizeof what)) continue;
        view_add(to, what);
        if (strstr(what, "|d ")) view_disk(w, path, to);
    }
    closedir(folder);
}

static inline void view_volume(world *w, view *to) {
    uint64_t nodes[512];
    lq_row row;
    lq_fetched all;
    size_t count = 0, size;
    OK(lq_fetch(&w->volume, TEXT("name==*"), &all));
    while (lq_next(&w->volume, all.result, &row) == LQ_OK && count < 512) nodes[count++] = row.node;
    for (size_t i = 0; i < count; i++) {
        char path[1024], what[1200];
        lq_info info;
        lq_folder_stat about;
        lq_attr kind, year;
        OK(lq_folder_path(&w->folder, nodes[i], path, sizeof path, &size));
        OK(lq_entry(&w->volume, nodes[i], &info));
        OK(lq_folder_entry(&w->folder, nodes[i], &about));
        char letter = (char)about.kind;
        if (has_kinds) {
            OK(lq_attr_named(&w->volume, nodes[i], TEXT("kind"), &kind));
            CHECK((strcmp(kind.text, "folder") ? kind.text[0] : 'd') == letter);
        }
        bool has_year = lq_attr_named(&w->volume, nodes[i], TEXT("user.year"), &year) == LQ_OK;
        describe(what, sizeof what, path, about.inode, info.size, about.mtime, letter, has_year ? year.text : "");
        view_add(to, what);
    }
}

static inline bool views_are_same(view *one, view *other, const char *name) {
    qsort(one->at, one->count, sizeof *one->at, by_text);
    qsort(other->at, other->count, sizeof *other->at, by_text);
    bool is_same = one->count == other->count;
    for (size_t i = 0; is_same && i < one->count; i++) is_same = !strcmp(one->at[i], other->at[i]);
    if (!is_same) {
        fprintf(stderr, "%s isn't what is on disk:\n", name);
        for (size_t i = 0; i < one->count; i++) fprintf(stderr, "  has %s\n", one->at[i]);
        for (size_t i = 0; i < other->count; i++) fprintf(stderr, "  disk %s\n", other->at[i]);
    }
    return is_same;
}

/* ---- a mirror: what a reader of the lines knows, who looks at the path of each line ---- */

static inline void mirror_take(const char *path) {
    size_t size = strlen(path);
    for (size_t i = 0; i < mirror.count; i++) {
        if (strncmp(mirror.at[i], path, size) || mirror.at[i][size] != '|') continue;
        free(mirror.at[i]);
        mirror.at[i] = mirror.at[--mirror.count];
        return;
    }
}

static inline void mirror_line(const world *w, const lq_folder_line *line) {
    char what[1200];
    if (line->slot != mirrored) return;
    if (line->what == LQ_LINE_ANEW) {
        view_clear(&mirror);
        return;
    }
    if (line->what == LQ_LINE_MOVED) mirror_take(line->old_path);
    mirror_take(line->path);
    if (line->what != LQ_LINE_LEFT && describe_disk(w, line->path, what, sizeof what)) view_add(&mirror, what);
}

static inline void mirror_lines(world *w) {
    lq_folder_line lines[8];
    size_t got;
    while (INSIDE(lq_folder_read(&w->folder, w->seen, lines, 8, &got)) == LQ_OK && got)
        for (size_t i = 0; i < got; i++) {
            w->seen = lines[i].number;
            mirror_line(w, &lines[i]);
        }
}

/* Turns until the folder is at rest. */
static inline bool comes_to_rest(world *w) {
    for (int turns = 0; turns < 2000; turns++) {
        int status = INSIDE(lq_folder_turn(&w->folder, &w->turned));
        if (status != LQ_OK && status != LQ_NO_MEMORY && status != LQ_SYSTEM) {
            fprintf(stderr, "a turn answers %d\n", status);
            return false;
        }
        mirror_lines(w);
        if (w->turned.settled) return true;
        if (!w->turned.more && w->turned.due != UINT64_MAX) skipped_time += (int64_t)w->turned.due * 1000000;
    }
    fprintf(stderr, "it doesn't come to rest: the last turn has fault %d, due %llu, lines %llu\n", w->turned.fault,
            (unsigned long long)w->turned.due, (unsigned long long)w->turned.lines);
    return false;
}

/* ---- the acts ---- */

static inline void act_begin(world *w) {
    char path[128];
    made_folder(w, "a");
    made_folder(w, "a/b");
    made_folder(w, "t");
    written(w, "a/x", "1", false);
    written(w, "a/b/y", "22", false);
    written(w, "t/\xff", "333", false);
    CHECK(symlinkat("x", w->at, "a/link") == 0);
    snprintf(path, sizeof path, "%s/a/x", w->dir);
    (void)!setxattr(path, "user.year", "2024", 4, 0);
}

static inline void act_files(world *w) {
    char name[32];
    made_folder(w, "n");
    for (int i = 0; i < 40; i++) {
        snprintf(name, sizeof name, "n/file%d", i);
        written(w, name, "1", false);
    }
    written(w, "a/x", "2", true);
}

static inline void act_moves(world *w) {
    moved(w, "a", "c");
    written(w, "c/x", "3", true);
    moved(w, "n/file3", "n/file4");
    moved(w, "n/file2", "n/file3");
    moved(w, "n/file1", "n/file2");
    moved(w, "c/b", "n/b");
}

static inline void act_links(world *w) {
    char path[128];
    CHECK(linkat(w->at, "c/x", w->at, "n/link", 0) == 0);
    written(w, "n/link", "4", true);
    removed(w, "n/file7");
    written(w, "n/other", "1", false);
    snprintf(path, sizeof path, "%s/n/other", w->dir);
    (void)!setxattr(path, "user.year", "19", 2, 0);
}

static inline void act_removals(world *w) {
    char name[32];
    for (int i = 10; i < 40; i++) {
        snprintf(name, sizeof name, "n/file%d", i);
        removed(w, name);
    }
    removed(w, "n/b/y");
    removed(w, "n/b");
    removed(w, "t/\xff");
    removed(w, "t");
    written(w, "t", "a file now", false);
    CHECK(fchmodat(w->at, "n", 0700, 0) == 0);
}

/* ---- a run ---- */

static inline void compare(world *w) {
    view disk = {NULL, 0, 0}, volume = {NULL, 0, 0};
    view_disk(w, "", &disk);
    view_volume(w, &volume);
    CHECK(views_are_same(&volume, &disk, "the volume"));
    if (mirrored) CHECK(views_are_same(&mirror, &disk, "the mirror"));
    view_clear(&disk);
    view_clear(&volume);
    size_t count = 0;
    lq_fetched all;
    if (!mirrored) return;
    OK(lq_fetch(&w->volume, TEXT("name==*"), &all));
    OK(lq_folder_rows(&w->folder, mirrored, NULL, 0, &count));
    CHECK(count == all.count);
}

static inline uint64_t open_window(world *w, const char *formula) {
    uint64_t slot = 0;
    for (int i = 0; i < 100 && !slot; i++) {
        int status = INSIDE(lq_folder_query_open(&w->folder, formula, strlen(formula), NULL, &slot));
        if (status != LQ_OK) WANT((uint32_t)status, LQ_NO_MEMORY);
    }
    return slot;
}

/* Opens the folder, where it has to be asked for again after a refusal. */
static inline bool open_again(world *w, const lq_folder_options *options) {
    int32_t fault = 0;
    for (int i = 0; i < 100; i++) {
        int status = INSIDE(lq_folder_open(&w->folder, &w->volume, w->dir, strlen(w->dir), options, &fault));
        if (status == LQ_OK) return true;
        CHECK((status == LQ_NO_MEMORY && fault == 0) || (status == LQ_SYSTEM && fault != 0));
    }
    return false;
}

/* All acts, with a comparison after each. What goes wrong is up to the caller. */
static inline void run_acts(const lq_folder_options *options) {
    static void (*const acts[])(world *) = {act_files, act_moves, act_links, act_removals};
    world w;
    begin_world(&w);
    act_begin(&w);
    mirrored = 0;
    has_kinds = false;
    skipped_time = 0;
    if (open_again(&w, options) && comes_to_rest(&w)) {
        compare(&w);
        mirrored = open_window(&w, "name==*");
        uint64_t other = open_window(&w, "kind==file && size>1");
        has_kinds = true;
        for (size_t i = 0; i < sizeof acts / sizeof *acts; i++) {
            acts[i](&w);
            CHECK(comes_to_rest(&w));
            compare(&w);
        }
        open_window(&w, "iname==f* || user.year:number>1");
        CHECK(comes_to_rest(&w));
        compare(&w);
        WANT((uint32_t)INSIDE(lq_folder_query_close(&w.folder, other)), LQ_OK);
    } else
        CHECK(!"it opens and comes to rest");
    view_clear(&mirror);
    is_inside = has_kinds = false;
    end_world(&w);
}

#endif
