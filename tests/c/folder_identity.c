/* What is told as a move, and what as another file: with births, handles and file systems that this test makes up. A
   name's inode and birth are what the table below says; its handle is what stands there too, or there is none. */
#include "disk.h"
#include <stdarg.h>
#include <sys/statfs.h>

enum { OVERLAY = 0x794c7630, FAKES = 8, RELEASE = 2, GETXATTRAT = 464 };

static struct fake {
    const char *name;
    uint64_t inode;
    int64_t born; /* nanoseconds */
    unsigned char handle; /* 0: none */
} fakes[FAKES];
static bool is_overlay, is_old; /* the file system, and the kernel */

static void fake(const char *name, uint64_t inode, int64_t born, unsigned char handle) {
    for (size_t i = 0; i < FAKES; i++) {
        if (fakes[i].name && strcmp(fakes[i].name, name)) continue;
        fakes[i] = (struct fake){name, inode, born, handle};
        return;
    }
    abort();
}

static const struct fake *faked(const char *name) {
    for (size_t i = 0; i < FAKES; i++)
        if (fakes[i].name && !strcmp(fakes[i].name, name)) return &fakes[i];
    return NULL;
}

int __real_statx(int file, const char *name, int flags, unsigned mask, struct statx *out);
int __wrap_statx(int file, const char *name, int flags, unsigned mask, struct statx *out);
int __wrap_statx(int file, const char *name, int flags, unsigned mask, struct statx *out) {
    int answer = __real_statx(file, name, flags, mask, out);
    const struct fake *it = faked(name);
    if (answer || !it) return answer;
    out->stx_ino = it->inode;
    out->stx_mask |= STATX_BTIME;
    out->stx_btime.tv_sec = it->born / 1000000000;
    out->stx_btime.tv_nsec = (uint32_t)(it->born % 1000000000);
    return 0;
}

int __real_fstatfs(int file, struct statfs *out);
int __wrap_fstatfs(int file, struct statfs *out);
int __wrap_fstatfs(int file, struct statfs *out) {
    int answer = __real_fstatfs(file, out);
    if (is_overlay) out->f_type = OVERLAY;
    return answer;
}

long __real_syscall(long number, ...);
long __wrap_syscall(long number, ...);
long __wrap_syscall(long number, ...) {
    va_list list;
    long at[6] = {0};
    int count = 5;
    if (number == SYS_uname) count = 1;
    if (number == SYS_getdents64 || number == SYS_llistxattr) count = 3;
    if (number == SYS_lgetxattr) count = 4;
    if (number == GETXATTRAT) count = 6;
    va_start(list, number);
    for (int i = 0; i < count; i++) at[i] = va_arg(list, long);
    va_end(list);
    const struct fake *it = number == SYS_name_to_handle_at ? faked((const char *)at[1]) : NULL;
    if (!it) {
        long answer = __real_syscall(number, at[0], at[1], at[2], at[3], at[4], at[5]);
        if (number == SYS_uname && !answer) strcpy(((struct utsname *)at[0])->release, is_old ? "6.1.0" : "6.18.0");
        return answer;
    }
    struct {
        uint32_t size;
        int32_t type;
        unsigned char handle;
    } *out = (void *)at[2];
    if (!it->handle) return errno = EOPNOTSUPP, -1;
    out->size = 1;
    out->handle = it->handle;
    return 0;
}

/* ---- */

/* On a kernel with coarse times a write may be told once more: so what comes after these lines is passed over. */
static void begin_with(world *w, const char *lines, int line) {
    size_t size = strlen(lines);
    if (w->lines.size > size) w->lines.size = size;
    want_lines(w, lines, __FILE__, line);
}

#define BEGIN_WITH(w, lines) begin_with(w, lines, __LINE__)

static void begin(world *w, bool overlay, bool old) {
    memset(fakes, 0, sizeof fakes);
    is_overlay = overlay;
    is_old = old;
    begin_world(w);
}

static void follow(world *w) {
    uint64_t slot;
    OK(open_world(w, NULL));
    CHECK(rests(w));
    OK(lq_folder_query_open(&w->folder, TEXT("name==*"), NULL, &slot));
    take_lines(w, 0);
}

static uint64_t node_of(world *w, const char *path) {
    uint64_t node = 0;
    OK(lq_folder_node(&w->folder, path, strlen(path), &node));
    return node;
}

/* Turns while there is more; what waits for a time waits on. */
static void turn(world *w) {
    do OK(lq_folder_turn(&w->folder, &w->turned));
    while (w->turned.more);
    take_lines(w, 0);
}

static int64_t wall(void) {
    struct timespec it;
    clock_gettime(CLOCK_REALTIME, &it);
    return it.tv_sec * 1000000000LL + it.tv_nsec;
}

/* Turns until all that was born before has an age at which no other can have its birth. */
static void grow_old(world *w, int64_t born) {
    while (wall() < born + 60 * 1000000) {
        turn(w);
        wait_for(w, 10);
    }
    CHECK(rests(w));
}

/* An inode's number is used again at the same name, by a file that is being written, and moves then. */
static void taken_number(bool overlay, bool old) {
    world w;
    begin(&w, overlay, old);
    written(&w, "d", "one", false);
    fake("d", 70, 100, 'a');
    fake("e", 70, 200, 'b');
    follow(&w);
    LINES_ARE(&w, "= d\n");
    removed(&w, "d");
    int file = openat(w.at, "d", O_WRONLY | O_CREAT, 0644);
    CHECK(file >= 0 && write(file, "two", 3) == 3);
    fake("d", 70, 200, 'b');
    turn(&w);
    LINES_ARE(&w, "~ d\n");
    moved(&w, "d", "e");
    close(file);
    CHECK(rests(&w));
    BEGIN_WITH(&w, "> d > e\n");
    end_world(&w);
}

/* A first write on an overlay gives a file another birth, and the same handle: it is the same, and moves as one. */
static void copied_up(void) {
    world w;
    begin(&w, true, false);
    written(&w, "l", "one", false);
    fake("l", 80, 100, 'l');
    follow(&w);
    LINES_ARE(&w, "= l\n");
    uint64_t node = node_of(&w, "l");
    written(&w, "l", "two", true);
    fake("l", 80, 300, 'l');
    RESTS(&w, "~ l\n");
    CHECK(node_of(&w, "l") == node);
    moved(&w, "l", "m");
    fake("m", 80, 400, 'l');
    RESTS(&w, "> l > m\n");
    CHECK(node_of(&w, "m") == node);
    end_world(&w);
}

/* The same without a handle, as before Linux 6.6: what has another birth is another file. */
static void copied_up_without_handle(void) {
    world w;
    begin(&w, true, false);
    written(&w, "l", "one", false);
    fake("l", 80, 100, 0);
    follow(&w);
    LINES_ARE(&w, "= l\n");
    written(&w, "l", "two", true);
    fake("l", 80, 300, 0);
    RESTS(&w, "~ l\n");
    moved(&w, "l", "m");
    fake("m", 80, 300, 0);
    RESTS(&w, "> l > m\n");
    end_world(&w);
}

/* Births of a tick: a file goes, and another that was born in the same tick has its inode's number. */
static void same_tick(unsigned char one, unsigned char other, const char *lines) {
    world w;
    begin(&w, false, true);
    int64_t born = wall();
    written(&w, "f", "one", false);
    fake("f", 60, born, one);
    follow(&w);
    LINES_ARE(&w, "= f\n");
    removed(&w, "f");
    written(&w, "g", "two", false);
    fake("g", 60, born, other);
    CHECK(rests(&w));
    BEGIN_WITH(&w, lines);
    end_world(&w);
}

/* Such a file is sure once it was seen after its tick, without a handle too. */
static void older_file(bool is_first_look) {
    world w;
    begin(&w, false, true);
    int64_t born = is_first_look ? wall() - 1000000000 : wall();
    written(&w, "f", "one", false);
    fake("f", 60, born, 0);
    follow(&w);
    LINES_ARE(&w, "= f\n");
    grow_old(&w, born);
    LINES_ARE(&w, "");
    moved(&w, "f", "g");
    fake("g", 60, born, 0);
    RESTS(&w, "> f > g\n");
    end_world(&w);
}

int main(void) {
    taken_number(true, false);
    taken_number(true, true);
    taken_number(false, false);
    taken_number(false, true);
    copied_up();
    copied_up_without_handle();
    same_tick('a', 'b', "+ g\n- f\n");
    same_tick(0, 0, "+ g\n- f\n");
    same_tick('a', 'a', "> f > g\n");
    older_file(false);
    older_file(true);
    return done("folder_identity");
}
