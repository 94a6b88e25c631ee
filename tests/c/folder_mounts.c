/* Mounts that come and go while the folder looks: acts are done just before a call of the library, as another process may
   do them. In a process that has its own mounts; without leave for that nothing is tried. */
#include "disk.h"
#include <sched.h>
#include <stdarg.h>
#include <sys/inotify.h>
#include <sys/mount.h>
#include <sys/wait.h>
#include <sys/xattr.h>

static world w;
static void (*before_mounts)(void), (*before_watch)(void); /* each is called once */

static void call(void (**it)(void)) {
    void (*now)(void) = *it;
    *it = NULL;
    if (now) now();
}

int __real_open(const char *path, int flags, ...);
int __wrap_open(const char *path, int flags, ...);
int __wrap_open(const char *path, int flags, ...) {
    va_list list;
    va_start(list, flags);
    unsigned mode = flags & O_CREAT ? va_arg(list, unsigned) : 0;
    va_end(list);
    if (!strcmp(path, "/proc/self/mountinfo")) call(&before_mounts);
    return __real_open(path, flags, mode);
}

int __real_inotify_add_watch(int at, const char *path, uint32_t events);
int __wrap_inotify_add_watch(int at, const char *path, uint32_t events);
int __wrap_inotify_add_watch(int at, const char *path, uint32_t events) {
    call(&before_watch);
    return __real_inotify_add_watch(at, path, events);
}

static const char *path_of(const char *name) {
    static char path[128];
    snprintf(path, sizeof path, "%s/%s", w.dir, name);
    return path;
}

static void mounted(const char *name) { CHECK(mount("none", path_of(name), "tmpfs", 0, "") == 0); }

static void unmounted(const char *name) { CHECK(umount2(path_of(name), MNT_DETACH) == 0); }

static bool is_in(const char *path) {
    uint64_t node;
    return lq_folder_node(&w.folder, path, strlen(path), &node) == LQ_OK;
}

static void begin(void) {
    uint64_t slot;
    OK(open_world(&w, NULL));
    CHECK(rests(&w));
    OK(lq_folder_query_open(&w.folder, TEXT("name==*"), NULL, &slot));
    take_lines(&w, 0);
}

/* Turns until no descriptor holds a mount. */
static void grow_idle(void) {
    for (int64_t end = milliseconds() + 100; milliseconds() < end;) {
        lq_folder_turn(&w.folder, &w.turned);
        wait_for(&w, w.turned.due);
    }
    CHECK(rests(&w));
}

/* One goes, and another that has its line in mountinfo is there. */
static void same_line(void) {
    begin_world(&w);
    made_folder(&w, "m");
    mounted("m");
    written(&w, "m/one", "1", false);
    begin();
    CHECK(is_in("m/one"));
    grow_idle();
    unmounted("m");
    mounted("m");
    written(&w, "m/two", "1", false);
    CHECK(rests(&w) && is_in("m/two") && !is_in("m/one"));
    unmounted("m");
    CHECK(rests(&w) && is_in("m") && !is_in("m/two"));
    end_world(&w);
}

/* Folders move before the mounts are read: then a path is that of another folder, as far as the volume knows. */
static void move_folders(void) {
    moved(&w, "b", "c");
    moved(&w, "a", "b");
}

static void move_on(void) {
    unmounted("b/x");
    moved(&w, "b", "d");
    moved(&w, "c", "b");
}

static void other_folder(void) {
    begin_world(&w);
    made_folder(&w, "a");
    made_folder(&w, "a/x");
    made_folder(&w, "b");
    made_folder(&w, "b/x");
    begin();
    mounted("a/x");
    written(&w, "a/x/over", "1", false);
    before_mounts = move_folders;
    CHECK(rests(&w) && is_in("b/x/over") && is_in("c/x") && !is_in("c/x/over"));
    grow_idle();
    before_mounts = move_on;
    made_folder(&w, "e"); /* so that there is a turn */
    mounted("e");
    CHECK(rests(&w) && is_in("d/x") && !is_in("d/x/over") && is_in("b/x") && !is_in("b/x/over"));
    unmounted("e");
    CHECK(rests(&w) && is_in("e"));
    end_world(&w);
}

/* The folder above has no event of a mount's own attributes: so they are read after its watch too. */
static void set_attribute(void) { CHECK(setxattr(path_of("m"), "user.year", "2024", 4, 0) == 0); }

static void own_attributes(void) {
    uint64_t node;
    lq_attr it;
    begin_world(&w);
    made_folder(&w, "m");
    begin();
    mounted("m");
    if (setxattr(path_of("m"), "user.year", "1", 1, 0)) puts("folder_mounts: a tmpfs has no attributes");
    else {
        before_watch = set_attribute;
        CHECK(rests(&w));
        OK(lq_folder_node(&w.folder, TEXT("m"), &node));
        OK(lq_attr_named(&w.volume, node, TEXT("user.year"), &it));
        CHECK(it.text_size == 4 && !strcmp(it.text, "2024"));
    }
    unmounted("m");
    end_world(&w);
}

int main(void) {
    int status = 1;
    fflush(stdout);
    pid_t child = fork();
    if (child == 0) {
        if (unshare(CLONE_NEWNS) || mount("none", "/", "none", MS_REC | MS_PRIVATE, NULL)) {
            puts("folder_mounts: this user can't mount, so nothing was tried");
            fflush(stdout);
            _exit(0);
        }
        same_line();
        other_folder();
        own_attributes();
        fflush(stdout);
        _exit(failures != 0);
    }
    CHECK(child > 0 && waitpid(child, &status, 0) == child && status == 0);
    return done("folder_mounts");
}
