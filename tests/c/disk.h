/* What the tests of folders share: a folder on disk that is made for a test, acts in it, turns until it is at rest, and
   the lines as text: a sign, the old path and ` > ` for a move, and the path. */
#ifndef DISK_H
#define DISK_H

#define _GNU_SOURCE
#include "check.h"
#include <errno.h>
#include <fcntl.h>
#include <lq_folder.h>
#include <poll.h>
#include <sys/stat.h>
#include <sys/syscall.h>
#include <sys/utsname.h>
#include <time.h>
#include <unistd.h>

typedef struct world {
    lq volume;
    lq_folder folder;
    lq_folder_turned turned;
    uint64_t seen;
    char dir[64];
    int at; /* a descriptor of it */
    text lines;
} world;

static inline int64_t milliseconds(void) {
    struct timespec it;
    clock_gettime(CLOCK_MONOTONIC, &it);
    return it.tv_sec * 1000LL + it.tv_nsec / 1000000;
}

/* Whether two writes always have different times: from Linux 6.13 on. Before, what a listing meets soon after a write
   may be told as written once more. */
static inline bool has_fine_times(void) {
    struct utsname it;
    int major = 0, minor = 0;
    return !uname(&it) && sscanf(it.release, "%d.%d", &major, &minor) == 2 &&
           (major > 6 || (major == 6 && minor >= 13));
}

/* ---- acts on disk; each name is a path below the folder ---- */

static inline void made_folder(const world *w, const char *name) {
    CHECK(mkdirat(w->at, name, 0755) == 0);
}

/* Writes a file anew, or after what is in it. */
static inline void written(const world *w, const char *name, const char *what, bool is_more) {
    int file = openat(w->at, name, O_WRONLY | O_CREAT | (is_more ? O_APPEND : O_TRUNC), 0644);
    CHECK(file >= 0 && write(file, what, strlen(what)) == (ssize_t)strlen(what));
    close(file);
}

static inline void moved(const world *w, const char *from, const char *to) {
    CHECK(renameat(w->at, from, w->at, to) == 0);
}

static inline void removed(const world *w, const char *name) {
    CHECK(unlinkat(w->at, name, 0) == 0 || unlinkat(w->at, name, AT_REMOVEDIR) == 0);
}

/* ---- a folder that is followed ---- */

static inline void begin_world_in(world *w, const char *in) {
    *w = (world){.volume = LQ_INIT, .folder = LQ_FOLDER_INIT};
    snprintf(w->dir, sizeof w->dir, "%.40s/lq_XXXXXX", in ? in : "/tmp");
    if (!mkdtemp(w->dir)) abort();
    w->at = open(w->dir, O_RDONLY | O_DIRECTORY | O_CLOEXEC);
    OK(lq_volume_open(&w->volume));
}

static inline void begin_world(world *w) {
    begin_world_in(w, getenv("TMPDIR"));
}

/* One of thousands of entries: in memory where that can be, since a busy disk takes a minute to make and remove them. */
static inline void begin_large_world(world *w) {
    static const char shm[] = "/dev/shm";
    begin_world_in(w, access(shm, R_OK | W_OK | X_OK) ? getenv("TMPDIR") : shm);
}

static inline lq_status open_world(world *w, const lq_folder_options *options) {
    int32_t fault;
    return lq_folder_open(&w->folder, &w->volume, w->dir, strlen(w->dir), options, &fault);
}

static inline void end_world(world *w) {
    char command[192];
    lq_folder_close(&w->folder);
    lq_volume_close(&w->volume);
    close(w->at);
    free(w->lines.at);
    snprintf(command, sizeof command, "chmod -R u+rwx %s; rm -rf %s", w->dir, w->dir);
    if (system(command)) abort();
}

static inline void add_line(world *w, const lq_folder_line *line) {
    static const char signs[] = " =+->~!#";
    char front[16];
    int size = line->what == LQ_LINE_NOTICE ? snprintf(front, sizeof front, "#%u ", (unsigned)line->notice)
                                            : snprintf(front, sizeof front, "%c ", signs[line->what]);
    add(&w->lines, front, (size_t)size);
    if (line->what == LQ_LINE_MOVED) {
        add(&w->lines, line->old_path, line->old_path_size);
        add(&w->lines, " > ", 3);
    }
    add(&w->lines, line->path, line->path_size);
    add(&w->lines, "\n", 1);
    CHECK(line->path[line->path_size] == 0 && line->old_path[line->old_path_size] == 0);
}

/* Takes the lines that wait; with a slot those of one window alone. */
static inline void take_lines(world *w, uint64_t slot) {
    lq_folder_line lines[8];
    size_t got;
    for (;;) {
        OK(lq_folder_read(&w->folder, w->seen, lines, 8, &got));
        for (size_t i = 0; i < got; i++) {
            CHECK(lines[i].number > w->seen);
            w->seen = lines[i].number;
            if (!slot || lines[i].slot == slot) add_line(w, &lines[i]);
        }
        if (got == 0) return;
    }
}

/* Waits for the system's word, so many milliseconds at most. */
static inline void wait_for(const world *w, uint64_t due) {
    struct pollfd events = {.fd = lq_folder_fd(&w->folder), .events = POLLIN};
    poll(&events, 1, due > 100 ? 100 : (int)due);
}

/* Turns until the folder is at rest; false after two minutes, since valgrind on a busy machine takes long. */
static inline bool rests(world *w) {
    int64_t end = milliseconds() + 120000;
    do {
        lq_status status = lq_folder_turn(&w->folder, &w->turned);
        if (status != LQ_OK) return false;
        take_lines(w, 0);
        if (w->turned.settled) return true;
        if (!w->turned.more) wait_for(w, w->turned.due);
    } while (milliseconds() < end);
    return false;
}

/* That the lines so far are these. */
static inline void want_lines(world *w, const char *lines, const char *file, int line) {
    check(w->lines.size == strlen(lines) && memcmp(w->lines.at ? w->lines.at : "", lines, w->lines.size) == 0, file,
          line, "the lines");
    if (w->lines.size != strlen(lines) || memcmp(w->lines.at ? w->lines.at : "", lines, w->lines.size))
        fprintf(stderr, "got:\n%.*swanted:\n%s", (int)w->lines.size, w->lines.at ? w->lines.at : "", lines);
    w->lines.size = 0;
}

#define LINES_ARE(w, lines) want_lines(w, lines, __FILE__, __LINE__)
#define RESTS(w, lines) \
    do { \
        CHECK(rests(w)); \
        LINES_ARE(w, lines); \
    } while (0)

#endif
