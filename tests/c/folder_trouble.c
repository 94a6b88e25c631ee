/* Each call of the system that a folder makes, failing in turn, alone and with many after it: a status says so or a
   later turn makes up for it. Then the watches are used up, and given back; the file system tells nothing; and
   descriptors are few. The linker puts the calls below in place of the system's, and clock_gettime. */
#include "folder_acts.h"
#include <stdarg.h>
#include <sys/epoll.h>
#include <sys/inotify.h>
#include <sys/resource.h>
#include <sys/statfs.h>

static long made, first, failing; /* of those made inside the library, so many from the `first` on */
static int fault;                 /* their errno; 0: one that is usual for the call */
static bool has_no_watches, is_network;
static unsigned long faults;

/* Whether the next call fails, with its usual errno. */
static bool fails(int usual) {
    if (!is_inside) return false;
    made++;
    if (made < first || made >= first + failing) return false;
    faults++;
    errno = fault ? fault : usual;
    return true;
}

#define WRAP(type, name, parameters, arguments, usual) \
    type __real_##name parameters; \
    type __wrap_##name parameters; \
    type __wrap_##name parameters { return fails(usual) ? (type)-1 : __real_##name arguments; }

WRAP(int, epoll_create1, (int flags), (flags), EMFILE)
WRAP(int, epoll_ctl, (int at, int what, int file, struct epoll_event *event), (at, what, file, event), ENOMEM)
WRAP(int, inotify_init1, (int flags), (flags), EMFILE)
WRAP(int, statx, (int at, const char *name, int flags, unsigned mask, struct statx *out), (at, name, flags, mask, out),
     EIO)
WRAP(ssize_t, read, (int file, void *out, size_t room), (file, out, room), EIO)
WRAP(int, poll, (struct pollfd *files, nfds_t count, int time), (files, count, time), EINTR)

int __real_fstatfs(int file, struct statfs *out);
int __wrap_fstatfs(int file, struct statfs *out);
int __wrap_fstatfs(int file, struct statfs *out) {
    if (fails(EIO)) return -1;
    int answer = __real_fstatfs(file, out);
    if (is_inside && is_network) out->f_type = 0x6969; /* NFS */
    return answer;
}

int __real_inotify_add_watch(int at, const char *path, uint32_t events);
int __wrap_inotify_add_watch(int at, const char *path, uint32_t events);
int __wrap_inotify_add_watch(int at, const char *path, uint32_t events) {
    if (has_no_watches) errno = ENOSPC;
    return has_no_watches || fails(ENOSPC) ? -1 : __real_inotify_add_watch(at, path, events);
}

char *__real_realpath(const char *path, char *out);
char *__wrap_realpath(const char *path, char *out);
char *__wrap_realpath(const char *path, char *out) {
    return fails(EIO) ? NULL : __real_realpath(path, out);
}

int __real_open(const char *path, int flags, ...);
int __wrap_open(const char *path, int flags, ...);
int __wrap_open(const char *path, int flags, ...) {
    return fails(EMFILE) ? -1 : __real_open(path, flags, 0644);
}

int __real_openat(int at, const char *path, int flags, ...);
int __wrap_openat(int at, const char *path, int flags, ...);
int __wrap_openat(int at, const char *path, int flags, ...) {
    return fails(EMFILE) ? -1 : __real_openat(at, path, flags, 0644);
}

/* How many words a call takes, of those that a folder makes by its number. */
static size_t words_of(long number) {
    switch (number) {
    case SYS_uname: return 1;
    case SYS_getdents64:
    case SYS_llistxattr: return 3;
    case SYS_lgetxattr: return 4;
    case SYS_name_to_handle_at:
    case 465: return 5; /* listxattrat */
    default: return 6;  /* getxattrat */
    }
}

/* Names in folders, extended attributes, handles. */
long __real_syscall(long number, ...);
long __wrap_syscall(long number, ...);
long __wrap_syscall(long number, ...) {
    long words[6] = {0};
    va_list list;
    va_start(list, number);
    for (size_t i = 0; i < words_of(number); i++) words[i] = va_arg(list, long);
    va_end(list);
    if (fails(EIO)) return -1;
    return __real_syscall(number, words[0], words[1], words[2], words[3], words[4], words[5]);
}

static void run(long from, long count, int with) {
    made = 0;
    first = from;
    failing = count;
    fault = with;
    run_acts(NULL);
}

/* The time that the library reads: a busy machine makes some of it pass, and the tests the rest. */
static int64_t library_time(void) {
    struct timespec it;
    __real_clock_gettime(CLOCK_MONOTONIC, &it);
    return it.tv_sec * 1000000000LL + it.tv_nsec + skipped_time;
}

/* Begins a folder in a state in which nothing tells of changes. */
static void begin_polled(world *w, bool *state) {
    begin_world(w);
    act_begin(w);
    mirrored = 0;
    skipped_time = 0;
    *state = true;
    CHECK(open_again(w, NULL));
}

/* Without a watch all is polled; once there are some again, they are used. */
static void used_up_watches(void) {
    world w;
    begin_polled(&w, &has_no_watches);
    CHECK(comes_to_rest(&w));
    int64_t before = library_time();
    mirrored = open_window(&w, "name==* || kind==file"); /* so that `kind` is set */
    act_files(&w);
    CHECK(comes_to_rest(&w));
    compare(&w);
    CHECK(library_time() - before >= 900000000); /* the pause is a second at least */
    act_moves(&w);
    CHECK(comes_to_rest(&w));
    compare(&w);
    has_no_watches = false;
    act_links(&w);
    CHECK(comes_to_rest(&w)); /* by the poll that asks for watches again */
    compare(&w);
    act_removals(&w);
    before = skipped_time;
    CHECK(comes_to_rest(&w));
    compare(&w);
    CHECK(skipped_time - before < 900000000); /* by events */
    view_clear(&mirror);
    end_world(&w);
}

/* A file system of the network tells of nothing, so it is polled without a watch, and a person is told once. */
static void network(void) {
    static void (*const acts[])(world *) = {act_files, act_moves, act_links, act_removals};
    lq_folder_line line;
    size_t got = 0;
    world w;
    begin_polled(&w, &is_network);
    for (int i = 0; i < 100 && !w.turned.listed; i++) OK((uint32_t)INSIDE(lq_folder_turn(&w.folder, &w.turned)));
    OK(lq_folder_read(&w.folder, 0, &line, 1, &got));
    CHECK(got == 1 && line.what == LQ_LINE_NOTICE && line.notice == LQ_NOTICE_NO_EVENTS && line.path_size == 0);
    mirrored = open_window(&w, "name==* || kind==file"); /* so that `kind` is set */
    for (size_t i = 0; i < sizeof acts / sizeof *acts; i++) {
        int64_t before = library_time();
        acts[i](&w);
        CHECK(comes_to_rest(&w) && library_time() - before >= 900000000);
        compare(&w);
    }
    is_network = false;
    view_clear(&mirror);
    end_world(&w);
}

/* With eight descriptors a call answers so, and all is right once there are more. */
static void few_descriptors(void) {
    struct rlimit before, few;
    world w;
    int32_t why = 0;
    begin_world(&w);
    act_begin(&w);
    mirrored = 0;
    getrlimit(RLIMIT_NOFILE, &before);
    for (rlim_t limit = 4; limit < 20; limit++) {
        few = (struct rlimit){limit, before.rlim_max};
        setrlimit(RLIMIT_NOFILE, &few);
        lq_status status = lq_folder_open(&w.folder, &w.volume, w.dir, strlen(w.dir), NULL, &why);
        CHECK(status == LQ_OK || (status == LQ_SYSTEM && why == EMFILE));
        for (int i = 0; status == LQ_OK && i < 5; i++) {
            lq_status turned = lq_folder_turn(&w.folder, &w.turned);
            CHECK(turned == LQ_OK || (turned == LQ_SYSTEM && w.turned.fault == EMFILE));
        }
        setrlimit(RLIMIT_NOFILE, &before);
        if (status == LQ_OK) break;
    }
    CHECK(comes_to_rest(&w));
    compare(&w);
    end_world(&w);
}

/* folder_trouble [EACH]: each call, or each so many alone. */
int main(int count, char **words) {
    static const int with[] = {0, ENOMEM, EINTR};
    long each = count > 1 ? atol(words[1]) : 1;
    run(0, 0, 0);
    long all = made;
    for (long at = 1; at <= all && !failures; at += each) {
        for (size_t i = 0; i < sizeof with / sizeof *with && !failures; i++) run(at, 1, with[i]);
        if (!failures) run(at, 30, 0);
        if (failures) fprintf(stderr, "with call %ld of %ld failing\n", at, all);
    }
    used_up_watches();
    network();
    few_descriptors();
    printf("folder_trouble: %ld calls, %lu faults\n", all, faults);
    return done("folder_trouble");
}
