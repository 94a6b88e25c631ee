/* acts FOLDER SEED PROCESSES ACTS LOG [OPTION..]: acts on what is below FOLDER by several processes, drawn from SEED.
 *
 * LOG.N has each act of process N with its time. The last line of the output is how many acts were carried out.
 *     links=none|kept|any   hard links: none, only such as stay until the processes have ended, or any
 *     permissions           modes of files and folders are taken and given back
 *     attributes            extended attributes of many kinds, as the third of the acts
 *     mounts                folders are bound and unmounted, and file systems in memory mounted (root)
 *     no-times-back         no write is hidden by setting the times of before
 *     pause=N               the longest pause, in microseconds
 *     limit=N               above so many entries more is removed than made, below half of it less
 *
 * A file begins with 16 characters that no other file has, and keeps them: so who reads a file knows which one it is.
 * LOG and the paths in it are as they are given: LOG begins with a /. */
#define _GNU_SOURCE
#include <dirent.h>
#include <errno.h>
#include <fcntl.h>
#include <pthread.h>
#include <stdarg.h>
#include <stdbool.h>
#include <stdint.h>
#include <stdio.h>
#include <stdlib.h>
#include <string.h>
#include <sys/mman.h>
#include <sys/mount.h>
#include <sys/stat.h>
#include <sys/wait.h>
#include <sys/xattr.h>
#include <time.h>
#include <unistd.h>

enum { PATH_ROOM = 4096, DEPTH = 6, ID_SIZE = 16, BODY_SIZE = 60 };
enum { PROCESSES = 16, TAKEN = 8, MOUNTS = 3, SEEN = 64, LARGE = 30, LONG_NAME = 200 };

typedef enum { LINKS_NONE, LINKS_KEPT, LINKS_ANY } links;
typedef enum { A_FILE, A_FOLDER, ANYTHING } wanted;
typedef enum { FEW, SOME, MANY } amount;

static struct {
    links links;
    bool permissions, mounts, attributes, no_times_back;
    unsigned pause, limit, seed, process;
} given;

/* What the processes share: with kept links no name goes while a link is made. */
static struct {
    pthread_mutex_t lock;
    uint64_t done[PROCESSES];
} *shared;

static FILE *to_log;
static uint64_t drawn;
static unsigned made;
static amount entries;
static int held = -1;
static char taken[TAKEN][PATH_ROOM], mounted[MOUNTS][PATH_ROOM];

static uint64_t draw(uint64_t below)
{
    drawn += 0x9e3779b97f4a7c15;
    uint64_t it = drawn;
    it = (it ^ it >> 30) * 0xbf58476d1ce4e5b9;
    it = (it ^ it >> 27) * 0x94d049bb133111eb;
    return (it ^ it >> 31) % below;
}

static void pause_a_little(void)
{
    if (given.pause && draw(6) == 0) usleep(1 + (unsigned)draw(given.pause));
}

/* Counts an act that was carried out, and notes it. */
static bool did(bool is_done, const char *format, ...)
{
    struct timespec now;
    clock_gettime(CLOCK_MONOTONIC, &now);
    int fault = is_done ? 0 : errno;
    va_list list;
    va_start(list, format);
    fprintf(to_log, "%ld.%06ld ", (long)now.tv_sec, now.tv_nsec / 1000);
    vfprintf(to_log, format, list);
    fprintf(to_log, is_done ? "\n" : " (%s)\n", strerror(fault));
    va_end(list);
    shared->done[given.process] += is_done;
    return is_done;
}

/* ---- names ---- */

static const char *const names[] = {"a.x", "b.x", "c", "d", "e.txt", "f.txt", "G", "h", "i", "j", "\xff\xfe" "b",
                                    "n\nl \"q\"\\", "\xc3\xa9\xc3\x89", ".hidden"};

/* A name at the end of a path; now and then a long one. As a text it may be too long, so that nobody sees what it
   names: but that isn't to be a link. */
static void add_name(char *path)
{
    size_t size = strlen(path);
    if (size) path[size++] = '/';
    path[size] = 0;
    if (draw(300) == 0) {
        memset(path + size, draw(2) && given.links == LINKS_NONE ? 0xff : 'L', LONG_NAME);
        path[size + LONG_NAME] = 0;
    } else if (draw(12) == 0) sprintf(path + size, "t%u-%u", given.process, (unsigned)draw(1000));
    else strcpy(path + size, names[draw(sizeof names / sizeof *names)]);
}

static bool is_dots(const char *name) { return name[0] == '.' && (!name[1] || (name[1] == '.' && !name[2])); }

/* One of the entries of a folder, drawn: its name is added to the path. */
static bool add_entry(char *path, bool *is_folder)
{
    DIR *folder = opendir(*path ? path : ".");
    if (!folder) return false;
    char found[SEEN][NAME_MAX + 1];
    bool folders[SEEN];
    unsigned count = 0;
    for (struct dirent *it; count < SEEN && (it = readdir(folder));) {
        if (is_dots(it->d_name)) continue;
        folders[count] = it->d_type == DT_DIR;
        strcpy(found[count++], it->d_name);
    }
    closedir(folder);
    if (!count) return false;
    unsigned chosen = (unsigned)draw(count);
    size_t size = strlen(path);
    if (size + NAME_MAX + 2 > PATH_ROOM) return false;
    if (size) path[size++] = '/';
    strcpy(path + size, found[chosen]);
    *is_folder = folders[chosen];
    return true;
}

/* What is below the folder, drawn. */
static bool pick(char *path, wanted what)
{
    for (int tries = 0; tries < 6; tries++) {
        bool is_folder = true;
        *path = 0;
        for (int depth = 0; depth < DEPTH && is_folder; depth++) {
            if (*path && what != A_FILE && draw(3) == 0) break;
            char before[PATH_ROOM];
            strcpy(before, path);
            if (!add_entry(path, &is_folder)) break;
            if (what == A_FOLDER && !is_folder) {
                strcpy(path, before);
                is_folder = true;
                break;
            }
        }
        if (*path && (what == ANYTHING || is_folder == (what == A_FOLDER))) return true;
    }
    return false;
}

/* A path at which something may be made; something may be there. */
static void pick_new(char *path)
{
    if (draw(4) == 0 || !pick(path, A_FOLDER)) *path = 0;
    add_name(path);
}

/* How many entries there are, up to a bound. */
static unsigned count_entries(const char *path, unsigned most)
{
    DIR *folder = opendir(path);
    unsigned count = 0;
    if (!folder) return 0;
    char in[PATH_ROOM];
    for (struct dirent *it; count < most && (it = readdir(folder));) {
        if (is_dots(it->d_name) || snprintf(in, sizeof in, "%s/%s", path, it->d_name) >= (int)sizeof in) continue;
        count += 1 + (it->d_type == DT_DIR ? count_entries(in, most - count) : 0);
    }
    closedir(folder);
    return count;
}

/* ---- hard links that stay ---- */

static void lock(void)
{
    if (given.links == LINKS_KEPT) pthread_mutex_lock(&shared->lock);
}

static void unlock(void)
{
    if (given.links == LINKS_KEPT) pthread_mutex_unlock(&shared->lock);
}

/* Whether a name may go. To be asked within the lock. */
static bool may_go(const char *path)
{
    struct stat it;
    return given.links != LINKS_KEPT || lstat(path, &it) || S_ISDIR(it.st_mode) || it.st_nlink < 2;
}

/* Whether a folder above a path can't be looked into. */
static bool is_hidden(const char *path)
{
    char above[PATH_ROOM];
    strcpy(above, path);
    for (char *cut; (cut = strrchr(above, '/'));) {
        *cut = 0;
        if (access(above, R_OK | X_OK)) return true;
    }
    return false;
}

/* With links that stay, none goes to where it can't be seen: that would be a link from outside. To be asked within the
   lock. */
static bool may_come(const char *path) { return given.links != LINKS_KEPT || !given.permissions || !is_hidden(path); }

/* Whether a folder has names of files with several, or can't be looked into. */
static bool has_links(const char *path)
{
    DIR *folder = opendir(path);
    bool found = !folder;
    char in[PATH_ROOM];
    for (struct dirent *it; !found && (it = readdir(folder));) {
        struct stat about;
        if (is_dots(it->d_name)) continue;
        found = snprintf(in, sizeof in, "%s/%s", path, it->d_name) >= (int)sizeof in
                || (it->d_type == DT_DIR ? has_links(in) : lstat(in, &about) || about.st_nlink > 1);
    }
    if (folder) closedir(folder);
    return found;
}

static bool remove_name(const char *path)
{
    lock();
    bool is_done = may_go(path) && !unlink(path);
    unlock();
    return did(is_done, "unlink %s", path);
}

static bool rename_to(const char *path, const char *to, unsigned flags)
{
    lock();
    bool is_done = may_go(path) && may_go(to) && may_come(path) && may_come(to)
                   && !renameat2(AT_FDCWD, path, AT_FDCWD, to, flags);
    unlock();
    return did(is_done, "rename %s > %s flags %u", path, to, flags);
}

/* ---- files ---- */

static size_t some_text(char *out, size_t most)
{
    size_t size = draw(most + 1);
    for (size_t i = 0; i < size; i++) out[i] = (char)('a' + draw(26));
    return size;
}

static bool put(int file, const char *text, size_t size, off_t at, const char *path)
{
    return did(pwrite(file, text, size, at) == (ssize_t)size, "write %zu at %ld %s", size, (long)at, path);
}

static void begin_file(int file, const char *path)
{
    char text[ID_SIZE + BODY_SIZE + 1];
    snprintf(text, sizeof text, "%08x%02x%06x", given.seed, given.process, made++);
    put(file, text, ID_SIZE + some_text(text + ID_SIZE, BODY_SIZE), 0, path);
}

static bool make_file(const char *path)
{
    int file = open(path, O_CREAT | O_EXCL | O_WRONLY | O_CLOEXEC, 0644);
    if (!did(file >= 0, "create %s", path)) return false;
    if (draw(10)) {
        if (draw(4) == 0) pause_a_little();
        begin_file(file, path);
    }
    close(file);
    return true;
}

/* A file that is begun, open for writing, or -1. */
static int open_begun(const char *path, struct stat *it)
{
    int file = open(path, O_RDWR | O_NOFOLLOW | O_NONBLOCK | O_CLOEXEC);
    if (file < 0) return -1;
    if (!fstat(file, it) && S_ISREG(it->st_mode) && it->st_size >= ID_SIZE) return file;
    close(file);
    return -1;
}

static void write_over(const char *path)
{
    struct stat it;
    char text[BODY_SIZE];
    int file = open_begun(path, &it);
    if (file < 0) return;
    size_t room = (size_t)(it.st_size - ID_SIZE);
    if (room > BODY_SIZE) room = BODY_SIZE;
    if (room) {
        for (size_t i = 0; i < room; i++) text[i] = (char)('a' + draw(26));
        size_t from = draw(room);
        put(file, text, room - from, (off_t)(ID_SIZE + from), path);
        struct timespec times[2] = {it.st_atim, it.st_mtim};
        if (draw(3) == 0 && !given.no_times_back) did(!futimens(file, times), "times back %s", path);
    }
    close(file);
}

static void append(const char *path)
{
    struct stat it;
    char text[BODY_SIZE];
    int file = open_begun(path, &it);
    if (file < 0) return;
    text[0] = '+';
    size_t size = 1 + some_text(text + 1, 20);
    put(file, text, size, it.st_size, path);
    close(file);
}

static void truncate_file(const char *path)
{
    struct stat it;
    int file = open_begun(path, &it);
    if (file < 0) return;
    off_t size = (off_t)(ID_SIZE + draw(BODY_SIZE));
    did(!ftruncate(file, size), "truncate %ld %s", (long)size, path);
    close(file);
}

static void write_anew(const char *path)
{
    struct stat it;
    char text[ID_SIZE + BODY_SIZE];
    int file = open_begun(path, &it);
    if (file < 0) return;
    if (pread(file, text, ID_SIZE, 0) == ID_SIZE && did(!ftruncate(file, 0), "truncate 0 %s", path)) {
        pause_a_little();
        put(file, text, ID_SIZE + some_text(text + ID_SIZE, BODY_SIZE), 0, path);
    }
    close(file);
}

static void write_held(const char *path)
{
    struct stat it;
    if (held >= 0 && draw(4) && !fstat(held, &it) && it.st_size >= ID_SIZE) {
        put(held, "held", 4, it.st_size, "a file that is held open");
        return;
    }
    if (held >= 0) close(held);
    held = open_begun(path, &it);
}

static void replace_by_new(const char *path)
{
    char fresh[PATH_ROOM];
    if (snprintf(fresh, sizeof fresh, "%s~", path) >= (int)sizeof fresh) return;
    if (make_file(fresh)) rename_to(fresh, path, 0);
}

static void remove_and_make(const char *path)
{
    char fresh[PATH_ROOM];
    pick_new(fresh);
    if (remove_name(path)) make_file(draw(3) ? fresh : path);
}

static void move_and_write(const char *path)
{
    char to[PATH_ROOM];
    pick_new(to);
    if (!rename_to(path, to, 0)) return;
    if (draw(2)) append(to);
    else write_over(to);
}

/* Each moves on by one, and the last goes. */
static void move_chain(const char *path)
{
    char second[PATH_ROOM], third[PATH_ROOM];
    if (!pick(second, A_FILE)) return;
    pick_new(third);
    rename_to(second, third, 0);
    rename_to(path, second, 0);
}

/* A file that has its name only once it is written. */
static void link_in(const char *path)
{
    char in[PATH_ROOM], of[64];
    strcpy(in, path);
    char *cut = strrchr(in, '/');
    if (cut) *cut = 0;
    int file = open(cut ? in : ".", O_TMPFILE | O_WRONLY | O_CLOEXEC, 0644);
    if (file < 0) return;
    begin_file(file, "a file without a name");
    snprintf(of, sizeof of, "/proc/self/fd/%d", file);
    did(!linkat(AT_FDCWD, of, AT_FDCWD, path, AT_SYMLINK_FOLLOW), "link in %s", path);
    close(file);
}

static void make_link(const char *path)
{
    char to[PATH_ROOM];
    struct stat it;
    pick_new(to);
    lock();
    bool is_done = !lstat(path, &it) && S_ISREG(it.st_mode) && may_come(path) && may_come(to) && !link(path, to);
    unlock();
    if (!did(is_done, "link %s = %s", path, to)) return;
    if (draw(3) == 0) append(to);
    if (given.links == LINKS_ANY && draw(3) == 0) remove_name(to);
}

static void make_other(const char *path)
{
    if (draw(2)) {
        did(!mkfifo(path, 0644), "fifo %s", path);
        return;
    }
    char fresh[PATH_ROOM];
    const char *target = names[draw(sizeof names / sizeof *names)];
    bool replaces = draw(2) && snprintf(fresh, sizeof fresh, "%s~", path) < (int)sizeof fresh;
    if (did(!symlink(target, replaces ? fresh : path), "symlink %s", replaces ? fresh : path) && replaces)
        rename_to(fresh, path, 0);
}

/* ---- folders ---- */

static bool make_folder(const char *path) { return did(!mkdir(path, 0755), "mkdir %s", path); }

static void make_tree(const char *path)
{
    char in[PATH_ROOM];
    unsigned count = 1 + (unsigned)draw(4);
    if (!make_folder(path)) return;
    for (unsigned i = 0; i < count && snprintf(in, sizeof in, "%s/%s", path, names[i]) < (int)sizeof in; i++)
        make_file(in);
    if (draw(2) && snprintf(in, sizeof in, "%s/sub", path) < (int)sizeof in && make_folder(in)
        && snprintf(in, sizeof in, "%s/sub/s.x", path) < (int)sizeof in)
        make_file(in);
}

static void remove_tree(const char *path)
{
    DIR *folder = opendir(path);
    if (!folder) return;
    char in[PATH_ROOM];
    for (struct dirent *it; (it = readdir(folder));) {
        if (is_dots(it->d_name) || snprintf(in, sizeof in, "%s/%s", path, it->d_name) >= (int)sizeof in) continue;
        if (it->d_type == DT_DIR) remove_tree(in);
        else remove_name(in);
    }
    closedir(folder);
    did(!rmdir(path), "rmdir %s", path);
}

static void move_folder(const char *path)
{
    char to[PATH_ROOM];
    pick_new(to);
    if (draw(4) == 0 && !pick(to, A_FOLDER)) return;
    rename_to(path, to, draw(6) == 0 ? RENAME_NOREPLACE : 0);
}

static void remove_tree_and_make(const char *path)
{
    char fresh[PATH_ROOM];
    pick_new(fresh);
    remove_tree(path);
    if (draw(3) == 0) strcpy(fresh, path);
    if (draw(2)) make_folder(fresh);
    else make_tree(fresh);
}

static void exchange(const char *path)
{
    char with[PATH_ROOM];
    if (pick(with, ANYTHING)) rename_to(path, with, RENAME_EXCHANGE);
}

/* ---- times, attributes, permissions, mounts ---- */

static void set_times(const char *path)
{
    struct timespec times[2] = {{0, UTIME_OMIT}, {0, UTIME_NOW}};
    if (draw(3)) times[1] = (struct timespec){(long)draw(2000000000), (long)(draw(2) ? 0 : draw(1000000000))};
    if (draw(8) == 0) times[1].tv_sec = -times[1].tv_sec / 4;
    did(!utimensat(AT_FDCWD, path, times, AT_SYMLINK_NOFOLLOW), "times %s", path);
}

static size_t some_value(char *out, size_t room)
{
    static const char *const values[] = {"", "1", "12", "-7", "007", "10.5", "2024a", "1234567890123456789", "-",
                                         "Neu"};
    if (draw(20) == 0) return memset(out, draw(2) ? 'v' : 0xfe, room), 1 + draw(draw(2) ? room - 1 : 2000);
    if (draw(4) == 0) return (size_t)sprintf(out, "%ld", (long)draw(3000) - 1000);
    if (draw(10) == 0) return memcpy(out, "\xff\0\xef\x9e\x80", 5), 5;
    const char *value = values[draw(sizeof values / sizeof *values)];
    return strlen(strcpy(out, value));
}

static void set_attribute(const char *path)
{
    static char value[5000], unusual[] = "user.\xff\xc3\xa9", too_long[256] = "user.";
    const char *const attributes[] = {"user.rating", "user.status", "user.a", "user.n", unusual, too_long};
    memset(too_long + 5, 0xff, 100); /* as a text, which has three times as many bytes */
    const char *attribute = attributes[draw(given.attributes ? 6 : 4)];
    if (draw(4) == 0) did(!lremovexattr(path, attribute), "remove %s of %s", attribute, path);
    else {
        size_t size = some_value(value, sizeof value);
        did(!lsetxattr(path, attribute, value, size, 0), "set %s of %zu of %s", attribute, size, path);
    }
}

static void give_back(void)
{
    char *path = taken[draw(TAKEN)];
    if (!*path) return;
    struct stat it;
    if (!lstat(path, &it) && !S_ISLNK(it.st_mode))
        did(!chmod(path, S_ISDIR(it.st_mode) ? 0755 : 0644), "give back %s", path);
    *path = 0;
}

static void take_permission(const char *path)
{
    static const mode_t folder_modes[] = {0, 0444, 0111, 0333, 0555, 0755}, file_modes[] = {0, 0200, 0444, 0644};
    struct stat it;
    if (lstat(path, &it) || S_ISLNK(it.st_mode)) return;
    mode_t mode = S_ISDIR(it.st_mode) ? folder_modes[draw(6)] : file_modes[draw(4)];
    lock();
    bool is_done = !(given.links == LINKS_KEPT && S_ISDIR(it.st_mode) && has_links(path)) && !chmod(path, mode);
    unlock();
    if (!did(is_done, "chmod %o %s", (unsigned)mode, path)) return;
    if (draw(3) == 0) did(!chmod(path, S_ISDIR(it.st_mode) ? 0755 : 0644), "give back %s", path);
    else strcpy(taken[draw(TAKEN)], path);
}

static void unmount(char *path, int flags)
{
    if (*path && did(!umount2(path, flags), "unmount %s", path)) *path = 0;
}

static void mount_something(void)
{
    char *place = mounted[draw(MOUNTS)], from[PATH_ROOM], path[PATH_ROOM];
    if (*place) {
        unmount(place, draw(3) ? MNT_DETACH : 0);
        return;
    }
    if (!pick(path, A_FOLDER)) return;
    bool is_done = draw(3) == 0 || !pick(from, A_FOLDER)
                       ? did(!mount("none", path, "tmpfs", 0, "size=1m"), "mount a tmpfs %s", path)
                       : did(!mount(from, path, NULL, MS_BIND, NULL), "bind %s at %s", from, path);
    if (is_done) strcpy(place, path);
}

/* ---- a process ---- */

static void act_on_file(const char *path)
{
    switch (draw(entries == MANY ? 20 : 14)) {
    case 0: case 1: append(path); break;
    case 2: write_over(path); break;
    case 3: truncate_file(path); break;
    case 4: write_anew(path); break;
    case 5: write_held(path); break;
    case 6: case 7: move_and_write(path); break;
    case 8: replace_by_new(path); break;
    case 9: remove_and_make(path); break;
    case 10: move_chain(path); break;
    case 11: set_times(path); break;
    case 12: set_attribute(path); break;
    case 13:
        if (given.links != LINKS_NONE) make_link(path);
        else write_over(path);
        break;
    default: remove_name(path); break;
    }
}

static void act_on_folder(const char *path)
{
    switch (draw(entries == MANY ? 9 : 6)) {
    case 0: case 1: case 2: move_folder(path); break;
    case 3:
        if (entries != FEW && count_entries(path, LARGE) < LARGE) remove_tree_and_make(path);
        break;
    case 4: set_attribute(path); break;
    case 5: exchange(path); break;
    default:
        if (count_entries(path, LARGE) < LARGE || draw(12) == 0) remove_tree(path);
        break;
    }
}

static void make_something(void)
{
    char path[PATH_ROOM];
    pick_new(path);
    switch (draw(8)) {
    case 0: make_folder(path); break;
    case 1: make_tree(path); break;
    case 2: make_other(path); break;
    case 3: link_in(path); break;
    default: make_file(path); break;
    }
}

static void act(void)
{
    char path[PATH_ROOM];
    pause_a_little();
    if (given.permissions && draw(10) == 0) {
        if (draw(2)) give_back();
        else if (pick(path, ANYTHING)) take_permission(path);
    } else if (given.mounts && given.process == 0 && draw(25) == 0) mount_something();
    else if (given.attributes && draw(3) == 0) {
        if (pick(path, ANYTHING)) set_attribute(path);
    }
    else if (draw(entries == MANY ? 20 : entries == SOME ? 4 : 2) == 0) make_something();
    else if (draw(4) == 0) {
        if (pick(path, A_FOLDER)) act_on_folder(path);
        else make_something();
    } else if (draw(12) == 0) {
        if (pick(path, ANYTHING)) exchange(path);
    } else if (pick(path, A_FILE)) act_on_file(path);
    else make_something();
}

static void run(uint64_t acts)
{
    drawn = (uint64_t)given.seed << 8 | given.process;
    for (uint64_t turn = 0; shared->done[given.process] < acts && turn < 20 * acts; turn++) {
        if (turn % 64 == 0) {
            unsigned count = count_entries(".", given.limit + 1);
            entries = count > given.limit ? MANY : count > given.limit / 2 ? SOME : FEW;
        }
        act();
    }
    for (int i = 0; i < MOUNTS; i++)
        if (draw(2)) unmount(mounted[i], MNT_DETACH);
}

/* Names of files with several go before the first act: with kept links, only so. */
static void drop_links(const char *path)
{
    DIR *folder = opendir(path);
    if (!folder) return;
    char in[PATH_ROOM], to[PATH_ROOM];
    struct stat it;
    for (struct dirent *entry; (entry = readdir(folder));) {
        if (is_dots(entry->d_name) || snprintf(in, sizeof in, "%s/%s", path, entry->d_name) >= (int)sizeof in) continue;
        if (entry->d_type == DT_DIR) drop_links(in);
        else if (!lstat(in, &it) && it.st_nlink > 1 && draw(2)) {
            pick_new(to);
            if (draw(2)) did(!unlink(in), "unlink %s", in);
            else if (access(to, F_OK)) did(!rename(in, to), "rename %s > %s", in, to);
        }
    }
    closedir(folder);
}

static bool take_option(const char *word)
{
    if (!strcmp(word, "permissions")) given.permissions = true;
    else if (!strcmp(word, "no-times-back")) given.no_times_back = true;
    else if (!strcmp(word, "mounts")) given.mounts = true;
    else if (!strcmp(word, "attributes")) given.attributes = true;
    else if (!strcmp(word, "links=none")) given.links = LINKS_NONE;
    else if (!strcmp(word, "links=kept")) given.links = LINKS_KEPT;
    else if (!strcmp(word, "links=any")) given.links = LINKS_ANY;
    else if (!strncmp(word, "pause=", 6)) given.pause = (unsigned)atoi(word + 6);
    else if (!strncmp(word, "limit=", 6)) given.limit = (unsigned)atoi(word + 6);
    else return false;
    return true;
}

static bool open_log(const char *name)
{
    char path[PATH_ROOM];
    if (snprintf(path, sizeof path, "%s.%u", name, given.process) >= (int)sizeof path) return false;
    to_log = fopen(path, "w");
    return to_log && !setvbuf(to_log, NULL, _IOFBF, 1 << 20);
}

static bool share(void)
{
    pthread_mutexattr_t kind;
    shared = mmap(NULL, sizeof *shared, PROT_READ | PROT_WRITE, MAP_SHARED | MAP_ANONYMOUS, -1, 0);
    return shared != MAP_FAILED && !pthread_mutexattr_init(&kind)
           && !pthread_mutexattr_setpshared(&kind, PTHREAD_PROCESS_SHARED) && !pthread_mutex_init(&shared->lock, &kind);
}

int main(int count, char **words)
{
    given.limit = 150;
    for (int i = 6; i < count; i++)
        if (!take_option(words[i])) return fprintf(stderr, "acts: %s isn't known\n", words[i]), 2;
    if (count < 6 || !share()) return fprintf(stderr, "acts: FOLDER SEED PROCESSES ACTS LOG\n"), 2;
    unsigned processes = (unsigned)atoi(words[3]);
    uint64_t acts = strtoull(words[4], NULL, 10), done = 0;
    given.seed = (unsigned)strtoul(words[2], NULL, 10);
    given.process = PROCESSES - 1;
    if (processes < 1 || processes >= PROCESSES || chdir(words[1]) || !open_log(words[5])) return perror("acts"), 2;
    drawn = given.seed;
    if (given.links != LINKS_NONE) drop_links(".");
    fclose(to_log);
    for (given.process = 0; given.process < processes; given.process++) {
        if (fork()) continue;
        if (!open_log(words[5])) _exit(2);
        run(acts / processes);
        fclose(to_log);
        _exit(0);
    }
    int status = 0, ended;
    while (wait(&ended) > 0) status |= ended;
    for (unsigned i = 0; i < PROCESSES; i++) done += shared->done[i];
    printf("%llu\n", (unsigned long long)done);
    return status ? 2 : 0;
}
