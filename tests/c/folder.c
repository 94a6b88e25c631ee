/* A folder on disk in a volume: each call of lq_folder.h, its statuses and misuse, and what acts on disk are told as.
   The lines that are wanted were worked out from what lq_folder.h says. */
#include "disk.h"
#include <sched.h>
#include <sys/mount.h>
#include <sys/sysmacros.h>
#include <sys/wait.h>
#include <sys/xattr.h>

/* Opens a folder and one window on all that is in it. */
static uint64_t begin(world *w, const char *formula) {
    uint64_t slot = 0;
    OK(open_world(w, NULL));
    CHECK(rests(w));
    OK(lq_folder_query_open(&w->folder, formula, strlen(formula), NULL, &slot));
    take_lines(w, 0);
    return slot;
}

/* ---- each call ---- */

static void calls(void) {
    world w;
    begin_world(&w);
    made_folder(&w, "a");
    written(&w, "a/x", "1", false);
    written(&w, "a.b", "12", false);
    uint64_t slot = begin(&w, "name==*"), nodes[8], node = 0;
    LINES_ARE(&w, "= a\n= a.b\n= a/x\n"); /* by rising path: `.` comes before `/` */
    CHECK(w.turned.listed && w.turned.entries == 3 && lq_folder_fd(&w.folder) >= 0);

    size_t count = 0, size = 0;
    OK(lq_folder_rows(&w.folder, slot, nodes, 8, &count));
    CHECK(count == 3 && nodes[0] < nodes[1] && nodes[1] < nodes[2]);
    OK(lq_folder_rows(&w.folder, slot, nodes, 1, &count));
    CHECK(count == 3);
    OK(lq_folder_node(&w.folder, TEXT("a/x"), &node));
    char path[8] = "?";
    OK(lq_folder_path(&w.folder, node, path, 2, &size));
    CHECK(size == 3 && path[0] == '?');
    OK(lq_folder_path(&w.folder, node, path, sizeof path, &size));
    CHECK(size == 3 && !strcmp(path, "a/x"));
    OK(lq_folder_path(&w.folder, LQ_ROOT, path, sizeof path, &size));
    CHECK(size == 0 && !path[0]);

    lq_folder_stat about;
    struct stat it;
    OK(lq_folder_entry(&w.folder, node, &about));
    CHECK(fstatat(w.at, "a/x", &it, 0) == 0 && about.inode == it.st_ino && about.kind == 'f');
    CHECK(about.mtime == it.st_mtim.tv_sec * 1000000000LL + it.st_mtim.tv_nsec);
    CHECK(about.ctime == it.st_ctim.tv_sec * 1000000000LL + it.st_ctim.tv_nsec);
    OK(lq_folder_query_close(&w.folder, slot));
    WANT(lq_folder_query_close(&w.folder, slot), LQ_NOT_OPEN);
    end_world(&w);
}

static void misuse(void) {
    world w;
    lq closed = LQ_INIT;
    lq_folder other = LQ_FOLDER_INIT;
    int32_t fault;
    size_t size;
    uint64_t node;
    lq_folder_stat about;
    lq_folder_line line;
    const char *none = NULL;
    lq_folder_options skips = {.skip_count = 1}, holes = {.skip = &none, .skip_count = 1};
    begin_world(&w);
    size_t length = strlen(w.dir);
    WANT(lq_folder_open(NULL, &w.volume, w.dir, length, NULL, &fault), LQ_MISUSE);
    WANT(lq_folder_open(&w.folder, NULL, w.dir, length, NULL, &fault), LQ_MISUSE);
    WANT(lq_folder_open(&w.folder, &closed, w.dir, length, NULL, &fault), LQ_MISUSE);
    WANT(lq_folder_open(&w.folder, &w.volume, NULL, 1, NULL, &fault), LQ_MISUSE);
    WANT(lq_folder_open(&w.folder, &w.volume, w.dir, length, &skips, &fault), LQ_MISUSE);
    WANT(lq_folder_open(&w.folder, &w.volume, w.dir, length, &holes, &fault), LQ_MISUSE);
    OK(lq_folder_open(&w.folder, &w.volume, w.dir, length, NULL, NULL));
    WANT(lq_folder_open(&w.folder, &w.volume, w.dir, length, NULL, &fault), LQ_MISUSE);
    lq_folder copy = w.folder;
    WANT(lq_folder_turn(&copy, &w.turned), LQ_MISUSE);
    WANT(lq_folder_turn(NULL, &w.turned), LQ_MISUSE);
    WANT(lq_folder_turn(&other, &w.turned), LQ_MISUSE);
    WANT(lq_folder_turn(&w.folder, NULL), LQ_MISUSE);
    REFUSED(lq_folder_query_open(&other, TEXT("name==*"), NULL, &node), LQ_MISUSE, node);
    REFUSED(lq_folder_query_open(&w.folder, NULL, 1, NULL, &node), LQ_MISUSE, node);
    WANT(lq_folder_query_open(&w.folder, TEXT("name==*"), NULL, NULL), LQ_MISUSE);
    REFUSED(lq_folder_query_open(&w.folder, TEXT("name"), NULL, &node), LQ_BAD_QUERY, node);
    WANT(lq_folder_query_close(&other, 1), LQ_MISUSE);
    WANT(lq_folder_query_close(&w.folder, 0), LQ_NOT_OPEN);
    WANT(lq_folder_query_close(&w.folder, 65), LQ_NOT_OPEN);
    REFUSED(lq_folder_rows(&w.folder, 1, NULL, 0, &size), LQ_NOT_OPEN, size);
    REFUSED(lq_folder_rows(&w.folder, 1, NULL, 1, &size), LQ_MISUSE, size);
    WANT(lq_folder_rows(&other, 1, NULL, 0, &size), LQ_MISUSE);
    WANT(lq_folder_read(&w.folder, 0, NULL, 1, &size), LQ_MISUSE);
    WANT(lq_folder_read(&w.folder, 0, &line, 1, NULL), LQ_MISUSE);
    WANT(lq_folder_read(&other, 0, &line, 1, &size), LQ_MISUSE);
    REFUSED(lq_folder_path(&w.folder, 99, NULL, 0, &size), LQ_NO_NODE, size);
    WANT(lq_folder_path(&w.folder, 1, NULL, 1, &size), LQ_MISUSE);
    WANT(lq_folder_path(&other, 1, NULL, 0, &size), LQ_MISUSE);
    REFUSED(lq_folder_node(&w.folder, TEXT("no"), &node), LQ_NO_ENTRY, node);
    WANT(lq_folder_node(&other, TEXT("no"), &node), LQ_MISUSE);
    REFUSED(lq_folder_entry(&w.folder, LQ_ROOT, &about), LQ_NO_NODE, about);
    WANT(lq_folder_entry(&w.folder, 2, NULL), LQ_MISUSE);
    WANT(lq_folder_leave_out(&other, 1, 1, true), LQ_MISUSE);
    CHECK(lq_folder_fd(&other) == -1 && lq_folder_fd(NULL) == -1);
    lq_folder_close(NULL);
    lq_folder_close(&other);
    lq_folder_close(&copy);
    lq_volume_close(&w.volume); /* before the folder: then turns are refused, and it closes all the same */
    WANT(lq_folder_turn(&w.folder, &w.turned), LQ_MISUSE);
    lq_folder_close(&w.folder);
    WANT(lq_folder_turn(&w.folder, &w.turned), LQ_MISUSE);
    end_world(&w);
}

static void refusals(void) {
    world w;
    int32_t fault = 7;
    begin_world(&w);
    written(&w, "file", "1", false);
    char path[128];
    WANT(lq_folder_open(&w.folder, &w.volume, "", 0, NULL, &fault), LQ_TOO_LONG);
    WANT(lq_folder_open(&w.folder, &w.volume, TEXT("a\0b"), NULL, &fault), LQ_TOO_LONG);
    WANT(lq_folder_open(&w.folder, &w.volume, path, LQ_PATH_SIZE + 1, NULL, &fault), LQ_TOO_LONG);
    CHECK(fault == 0);
    int size = snprintf(path, sizeof path, "%s/none", w.dir);
    WANT(lq_folder_open(&w.folder, &w.volume, path, (size_t)size, NULL, &fault), LQ_SYSTEM);
    CHECK(fault == ENOENT);
    size = snprintf(path, sizeof path, "%s/file", w.dir);
    WANT(lq_folder_open(&w.folder, &w.volume, path, (size_t)size, NULL, &fault), LQ_SYSTEM);
    CHECK(fault == ENOTDIR);
    uint64_t file = created(&w.volume, LQ_ROOT, "f", LQ_FILE, 0);
    lq_folder_options below = {.node = file}, gone = {.node = 99};
    WANT(open_world(&w, &below), LQ_NOT_FOLDER);
    WANT(open_world(&w, &gone), LQ_NO_NODE);
    WANT(open_world(&w, NULL), LQ_NOT_EMPTY);
    end_world(&w);
}

static void texts(void) {
    char out[32];
    /* a byte alone, a character from U+F780 on, one that is whole, and a half one */
    CHECK(lq_folder_to_name(TEXT("a\xff"), out, sizeof out) == 4 && !memcmp(out, "a\xef\x9f\xbf", 5));
    CHECK(lq_folder_to_name(TEXT("\xef\x9e\x80"), NULL, 0) == 9);
    CHECK(lq_folder_to_name(TEXT("\xc3\xa9\xc3"), out, sizeof out) == 5 && !memcmp(out, "\xc3\xa9\xef\x9f\x83", 6));
    CHECK(lq_folder_to_bytes(TEXT("\xc3\xa9\xef\x9f\x83"), out, sizeof out) == 3 && !memcmp(out, "\xc3\xa9\xc3", 4));
    CHECK(lq_folder_to_bytes(NULL, 0, out, sizeof out) == 0 && lq_folder_to_name(NULL, 0, NULL, 0) == 0);
    out[0] = '?';
    CHECK(lq_folder_to_name(TEXT("abc"), out, 2) == 3 && out[0] == '?');
    /* Unicode: U+00C4 folds to U+00E4, U+1E9E to U+00DF, U+023A to U+2C65, which has three bytes; U+0130 stays */
    CHECK(lq_folder_fold(TEXT("aB\xc3\x84"), out, sizeof out) == 4 && !memcmp(out, "ab\xc3\xa4", 5));
    CHECK(lq_folder_fold(TEXT("\xe1\xba\x9e"), out, sizeof out) == 2 && !memcmp(out, "\xc3\x9f", 3));
    CHECK(lq_folder_fold(TEXT("\xc8\xba"), out, sizeof out) == 3 && !memcmp(out, "\xe2\xb1\xa5", 4));
    CHECK(lq_folder_fold(TEXT("\xc4\xb0\xff"), out, sizeof out) == 3 && !memcmp(out, "\xc4\xb0\xff", 4));
    CHECK(lq_folder_fold(NULL, 0, out, sizeof out) == 0);
}

/* ---- what acts are told as ---- */

static void files(void) {
    world w;
    begin_world(&w);
    begin(&w, "name==*");
    written(&w, "m", "1", false);
    RESTS(&w, "+ m\n");
    written(&w, "m", "2", true);
    RESTS(&w, "~ m\n");
    removed(&w, "m"); /* the file system may give its inode to the next one: that is another file */
    written(&w, "n", "3", false);
    RESTS(&w, "+ n\n- m\n");
    moved(&w, "n", "o");
    written(&w, "o", "4", true);
    RESTS(&w, "> n > o\n~ o\n");
    written(&w, "p", "5", false);
    RESTS(&w, "+ p\n");
    moved(&w, "o", "p"); /* what was at `p` is replaced by what moved there */
    RESTS(&w, "> o > p\n");
    removed(&w, "p");
    written(&w, "p", "6", false);
    RESTS(&w, "~ p\n"); /* another file at the same path */
    removed(&w, "p");
    RESTS(&w, "- p\n");
    end_world(&w);
}

static void chains(void) {
    world w;
    begin_world(&w);
    written(&w, "a", "1", false);
    written(&w, "b", "22", false);
    written(&w, "c", "333", false);
    begin(&w, "name==*");
    LINES_ARE(&w, "= a\n= b\n= c\n");
    moved(&w, "c", "d"); /* each one makes room for the one before it */
    moved(&w, "b", "c");
    moved(&w, "a", "b");
    RESTS(&w, "> c > d\n> b > c\n> a > b\n");
    CHECK(syscall(SYS_renameat2, w.at, "b", w.at, "c", 2) == 0); /* exchanged: one moves, and one comes */
    CHECK(rests(&w));
    struct stat it;
    uint64_t node;
    lq_folder_stat about;
    for (const char *name = "b\0c"; *name; name += 2) {
        CHECK(fstatat(w.at, name, &it, 0) == 0);
        OK(lq_folder_node(&w.folder, name, 1, &node));
        OK(lq_folder_entry(&w.folder, node, &about));
        CHECK(about.inode == it.st_ino);
        if (!name[1] && name[0] == 'c') break;
    }
    w.lines.size = 0;
    end_world(&w);
}

static void links(void) {
    world w;
    begin_world(&w);
    written(&w, "a", "1", false);
    begin(&w, "name==*");
    LINES_ARE(&w, "= a\n");
    CHECK(linkat(w.at, "a", w.at, "b", 0) == 0);
    RESTS(&w, "+ b\n");
    written(&w, "b", "2", true); /* a write by one name is a write of the other */
    CHECK(rests(&w));
    CHECK(w.lines.size == 8 && (!memcmp(w.lines.at, "~ b\n~ a\n", 8) || !memcmp(w.lines.at, "~ a\n~ b\n", 8)));
    w.lines.size = 0;
    removed(&w, "a");
    RESTS(&w, "- a\n");
    char name[201];
    memset(name, 0xff, 200);
    name[200] = 0; /* too long as a text, so it is passed over; but a write through it is one of the other name */
    CHECK(linkat(w.at, "b", w.at, name, 0) == 0);
    CHECK(rests(&w) && w.lines.size > 3 && !memcmp(w.lines.at, "#2 ", 3));
    w.lines.size = 0;
    written(&w, name, "3", true);
    RESTS(&w, "~ b\n");
    removed(&w, name);
    RESTS(&w, "");
    CHECK(symlinkat("b", w.at, "s") == 0 && mkfifoat(w.at, "fifo", 0644) == 0);
    RESTS(&w, "+ s\n+ fifo\n");
    end_world(&w);
}

static void folders(void) {
    world w;
    begin_world(&w);
    made_folder(&w, "a");
    made_folder(&w, "a/b");
    written(&w, "a/b/x", "1", false);
    begin(&w, "name==*");
    LINES_ARE(&w, "= a\n= a/b\n= a/b/x\n");
    moved(&w, "a", "c"); /* all that is below moves with it */
    RESTS(&w, "> a > c\n> a/b > c/b\n> a/b/x > c/b/x\n");
    written(&w, "c/b/x", "2", true);
    RESTS(&w, "~ c/b/x\n");
    made_folder(&w, "d");
    moved(&w, "c/b", "d/b");
    CHECK(rests(&w));
    if (has_fine_times()) LINES_ARE(&w, "+ d\n> c/b > d/b\n> c/b/x > d/b/x\n");
    w.lines.size = 0;
    removed(&w, "d/b/x");
    removed(&w, "d/b");
    removed(&w, "d");
    CHECK(rests(&w));
    CHECK(w.lines.size == strlen("- d/b/x\n- d/b\n- d\n"));
    w.lines.size = 0;
    CHECK(fchmodat(w.at, "c", 0700, 0) == 0);
    RESTS(&w, "");
    end_world(&w);
}

/* A file that is being written is told once it is closed, or after 300 ms. */
static void slow_writes(void) {
    world w;
    begin_world(&w);
    written(&w, "a", "1", false);
    begin(&w, "name==*");
    LINES_ARE(&w, "= a\n");
    int file = openat(w.at, "a", O_WRONLY | O_APPEND);
    CHECK(write(file, "2", 1) == 1);
    int64_t start = milliseconds();
    while (milliseconds() < start + 100 && lq_folder_turn(&w.folder, &w.turned) == LQ_OK) take_lines(&w, 0);
    if (milliseconds() < start + 290) { /* else a busy machine held it up */
        LINES_ARE(&w, "");
        CHECK(!w.turned.settled);
    }
    RESTS(&w, "~ a\n");
    CHECK(milliseconds() >= start + 290);
    bool is_quick = false;
    for (int tries = 0; tries < 100 && !is_quick; tries++) {
        if (tries) file = openat(w.at, "a", O_WRONLY | O_APPEND);
        CHECK(write(file, "3", 1) == 1);
        close(file);
        start = milliseconds();
        RESTS(&w, "~ a\n");
        is_quick = milliseconds() < start + 290;
    }
    CHECK(is_quick);
    end_world(&w);
}

static void windows(void) {
    world w;
    uint64_t small, all, early;
    begin_world(&w);
    written(&w, "a", "1", false);
    OK(open_world(&w, NULL));
    OK(lq_folder_query_open(&w.folder, TEXT("name==*"), NULL, &early));
    RESTS(&w, "+ a\n"); /* opened before the first look, which finds it then */
    OK(lq_folder_query_close(&w.folder, early));
    OK(lq_folder_query_open(&w.folder, TEXT("size<3"), NULL, &small));
    lq_folder_query_options no_values = {.values = false, .no_there = true};
    OK(lq_folder_query_open(&w.folder, TEXT("name==*"), &no_values, &all));
    take_lines(&w, all);
    LINES_ARE(&w, "");
    written(&w, "a", "22", true); /* it matches one window no longer, and the other tells no values */
    RESTS(&w, "- a\n");
    written(&w, "b", "1", false);
    RESTS(&w, "+ b\n+ b\n");
    end_world(&w);
}

/* Two folders below nodes of the caller's, who makes changes beside them. */
static void two_folders(void) {
    world one, other;
    begin_world(&one);
    begin_world(&other);
    lq_volume_close(&other.volume);
    uint64_t first = created(&one.volume, LQ_ROOT, "first", LQ_FOLDER, 0);
    uint64_t second = created(&one.volume, LQ_ROOT, "second", LQ_FOLDER, 0), slot;
    lq_folder_options in_first = {.node = first}, in_second = {.node = second};
    int32_t fault;
    OK(open_world(&one, &in_first));
    OK(lq_folder_open(&other.folder, &one.volume, other.dir, strlen(other.dir), &in_second, &fault));
    OK(lq_folder_query_open(&one.folder, TEXT("name==*"), NULL, &slot));
    OK(lq_folder_query_open(&other.folder, TEXT("name==*"), NULL, &slot));
    written(&one, "a", "1", false);
    written(&other, "b", "1", false);
    RESTS(&one, "+ a\n");
    RESTS(&other, "+ b\n");
    created(&one.volume, LQ_ROOT, "c", LQ_FILE, 0);
    moved(&one, "a", "d");
    RESTS(&one, "> a > d\n");
    RESTS(&other, "");
    char name[16];
    for (int i = 0; i < LQ_BACKLOG + 10; i++) { /* more than the windows hold */
        snprintf(name, sizeof name, "n%d", i);
        created(&one.volume, LQ_ROOT, name, LQ_FILE, 0);
    }
    RESTS(&one, "");
    written(&other, "e", "1", false);
    RESTS(&other, "+ e\n");
    size_t count;
    OK(lq_folder_rows(&other.folder, slot, NULL, 0, &count));
    CHECK(count == 2);
    lq_folder_close(&other.folder);
    end_world(&one);
    end_world(&other);
}

/* ---- names and attributes ---- */

static void names(void) {
    world w;
    uint64_t slot;
    begin_world(&w);
    written(&w, "\xff\xc3", "1", false);
    begin(&w, "name==*");
    LINES_ARE(&w, "= \xff\xc3\n");
    moved(&w, "\xff\xc3", "\xc3\x84 B");
    RESTS(&w, "> \xff\xc3 > \xc3\x84 B\n");
    OK(lq_folder_query_open(&w.folder, TEXT("iname==\xc3\xa4*"), NULL, &slot)); /* set on all from here on */
    RESTS(&w, "= \xc3\x84 B\n");
    moved(&w, "\xc3\x84 B", "\xc3\x84");
    RESTS(&w, "> \xc3\x84 B > \xc3\x84\n> \xc3\x84 B > \xc3\x84\n");
    moved(&w, "\xc3\x84", "x");
    RESTS(&w, "> \xc3\x84 > x\n- \xc3\x84\n");
    char name[256];
    memset(name, 0xff, 255);
    name[255] = 0;
    written(&w, name, "1", false); /* 765 bytes as a text */
    CHECK(rests(&w));
    CHECK(w.lines.size == 3 + 255 + 1 && !memcmp(w.lines.at, "#2 ", 3));
    w.lines.size = 0;
    end_world(&w);
}

enum { PARTS = 2, FILES_OF_A_PART = 2200, LARGE = 1 + PARTS * (1 + FILES_OF_A_PART), MOST_OF_A_TURN = 4200 };

static void made_large(const world *w, const char *name) {
    char path[64];
    made_folder(w, name);
    for (int part = 0; part < PARTS; part++) {
        snprintf(path, sizeof path, "%s/%d", name, part);
        made_folder(w, path);
        for (int file = 0; file < FILES_OF_A_PART; file++) {
            snprintf(path, sizeof path, "%s/%d/%d", name, part, file);
            CHECK(mknodat(w->at, path, S_IFREG | 0644, 0) == 0);
        }
    }
}

/* Turns until some of what is there was removed, but not all: false, if there was no such turn. */
static bool is_partly_removed(world *w) {
    for (int64_t end = milliseconds() + 120000; milliseconds() < end;) {
        uint64_t before = w->turned.entries;
        OK(lq_folder_turn(&w->folder, &w->turned));
        take_lines(w, 0);
        CHECK(before <= w->turned.entries + MOST_OF_A_TURN);
        if (w->turned.entries < before) return w->turned.more && w->turned.entries > 0 && !w->turned.settled;
        if (!w->turned.more) wait_for(w, w->turned.due);
    }
    return false;
}

/* At rest all of a large tree is at a path, as in the window; or nothing of it, where that is null. */
static void has_large(world *w, uint64_t slot, const char *name) {
    char path[64];
    uint64_t node;
    size_t count;
    uint64_t before = w->turned.entries;
    do {
        CHECK(before <= w->turned.entries + MOST_OF_A_TURN);
        before = w->turned.entries;
        OK(lq_folder_turn(&w->folder, &w->turned));
        take_lines(w, 0);
        if (!w->turned.more && !w->turned.settled) wait_for(w, w->turned.due);
    } while (!w->turned.settled);
    OK(lq_folder_rows(&w->folder, slot, NULL, 0, &count));
    CHECK(count == (name ? LARGE : 0) && w->turned.entries == count);
    snprintf(path, sizeof path, "%s/%d/%d", name ? name : "l", PARTS - 1, FILES_OF_A_PART - 1);
    WANT(lq_folder_node(&w->folder, path, strlen(path), &node), name ? LQ_OK : LQ_NO_ENTRY);
}

/* A large tree that goes is removed over several turns, each of which is bounded; and while that goes on it may be back,
   at its name or at another, or something else may be there. */
static void large_trees(void) {
    world w;
    char away[80];
    begin_large_world(&w);
    snprintf(away, sizeof away, "%s-away", w.dir);
    made_large(&w, "l");
    uint64_t slot = begin(&w, "name==*");
    has_large(&w, slot, "l");

    CHECK(renameat(w.at, "l", AT_FDCWD, away) == 0);
    CHECK(is_partly_removed(&w));
    CHECK(renameat(AT_FDCWD, away, w.at, "l") == 0);
    has_large(&w, slot, "l");

    CHECK(renameat(w.at, "l", AT_FDCWD, away) == 0);
    CHECK(is_partly_removed(&w));
    CHECK(renameat(AT_FDCWD, away, w.at, "m") == 0);
    has_large(&w, slot, "m");

    w.lines.size = 0;
    CHECK(renameat(w.at, "m", AT_FDCWD, away) == 0);
    has_large(&w, slot, NULL);
    size_t told = 0;
    for (size_t i = 0; i < w.lines.size; i++) told += w.lines.at[i] == '\n';
    CHECK(told == LARGE && !memcmp(w.lines.at + w.lines.size - 4, "- m\n", 4)); /* what is in a folder goes first */

    CHECK(renameat(AT_FDCWD, away, w.at, "m") == 0);
    has_large(&w, slot, "m");
    w.lines.size = 0;
    CHECK(renameat(w.at, "m", AT_FDCWD, away) == 0);
    written(&w, "m", "1", false);
    CHECK(is_partly_removed(&w) && rests(&w) && w.turned.entries == 1);
    CHECK(!memcmp(w.lines.at + w.lines.size - 4, "~ m\n", 4)); /* its only line */
    CHECK(renameat(AT_FDCWD, away, w.at, "x") == 0); /* so that it goes with the rest */
    end_world(&w);
}

static void is_of_kind(world *w, const char *path, const char *word) {
    uint64_t node;
    lq_attr kind;
    OK(lq_folder_node(&w->folder, path, strlen(path), &node));
    OK(lq_attr_named(&w->volume, node, TEXT("kind"), &kind));
    CHECK(kind.type == LQ_TYPE_TEXT && !strcmp(kind.text, word));
}

/* `kind` is set on all entries, those that come later too, once a formula names it, and no line tells of that. */
static void kinds(void) {
    world w;
    uint64_t slot, node;
    lq_attr kind;
    begin_world(&w);
    made_folder(&w, "a");
    written(&w, "a/x", "1", false);
    begin(&w, "name==*");
    LINES_ARE(&w, "= a\n= a/x\n");
    OK(lq_folder_node(&w.folder, TEXT("a/x"), &node));
    WANT(lq_attr_named(&w.volume, node, TEXT("kind"), &kind), LQ_NO_ATTR);
    WANT(lq_folder_query_open(&w.folder, TEXT("kind==file &&"), NULL, &slot), LQ_BAD_QUERY);
    WANT(lq_attr_named(&w.volume, node, TEXT("kind"), &kind), LQ_NO_ATTR);
    OK(lq_folder_query_open(&w.folder, TEXT("'k\\ind'!=file"), NULL, &slot));
    RESTS(&w, "= a\n");
    is_of_kind(&w, "a", "folder");
    is_of_kind(&w, "a/x", "file");
    CHECK(symlinkat("x", w.at, "a/l") == 0);
    RESTS(&w, "+ a/l\n+ a/l\n");
    is_of_kind(&w, "a/l", "link");
    end_world(&w);
}

static bool set(const world *w, const char *name, const char *attr, const char *value, size_t size) {
    char path[128];
    snprintf(path, sizeof path, "%s/%s", w->dir, name);
    return (value ? setxattr(path, attr, value, size, 0) : removexattr(path, attr)) == 0;
}

static void attributes(void) {
    world w;
    uint64_t node, slot;
    lq_attr it;
    static char value[5000];
    memset(value, 'v', sizeof value);
    begin_world(&w);
    written(&w, "a", "1", false);
    if (!set(&w, "a", "user.year", "2024a", 5)) {
        puts("folder: the file system has no extended attributes, so they weren't tried");
        end_world(&w);
        return;
    }
    begin(&w, "user.year==20*");
    LINES_ARE(&w, "= a\n");
    CHECK(set(&w, "a", "user.year", "2024", 4)); /* a text still */
    RESTS(&w, "~ a\n");
    OK(lq_folder_node(&w.folder, TEXT("a"), &node));
    OK(lq_attr_named(&w.volume, node, TEXT("user.year"), &it));
    CHECK(it.type == LQ_TYPE_TEXT && !strcmp(it.text, "2024"));
    WANT(lq_attr_named(&w.volume, node, TEXT("user.year:number"), &it), LQ_NO_ATTR);
    OK(lq_folder_query_open(&w.folder, TEXT("user.year:number>999"), NULL, &slot));
    RESTS(&w, "= a\n"); /* the first window tells nothing of it */
    OK(lq_attr_named(&w.volume, node, TEXT("user.year:number"), &it));
    CHECK(it.type == LQ_TYPE_INT64 && it.whole == 2024);
    CHECK(set(&w, "a", "user.year", "20-", 3));
    RESTS(&w, "~ a\n- a\n");
    WANT(lq_attr_named(&w.volume, node, TEXT("user.year:number"), &it), LQ_NO_ATTR);
    CHECK(set(&w, "a", "user.year", "200000000000000000", 18));
    RESTS(&w, "~ a\n+ a\n");
    CHECK(set(&w, "a", "user.year", "2000000000000000000", 19)); /* 18 digits at most */
    RESTS(&w, "~ a\n- a\n");
    CHECK(set(&w, "a", "user.year", NULL, 0));
    RESTS(&w, "- a\n");
    if (set(&w, "a", "user.long", value, 4096)) { /* not every file system takes so long ones */
        RESTS(&w, "");
        OK(lq_attr_named(&w.volume, node, TEXT("user.long"), &it));
        CHECK(it.text_size == 4096);
    }
    if (set(&w, "a", "user.long", value, 4097)) {
        RESTS(&w, "#3 a\n");
        WANT(lq_attr_named(&w.volume, node, TEXT("user.long"), &it), LQ_NO_ATTR);
    }
    end_world(&w);
}

/* ---- options ---- */

static void skipped(void) {
    static const char *const patterns[] = {"*.o", "[!a-c]?", ".git"};
    /* a name, and whether Python's fnmatch.fnmatchcase has it match one of these */
    static const struct {
        const char *name;
        bool is_skipped;
    } names[] = {{"x.o", true},  {"x.oo", false}, {"da", true}, {"aa", false},
                 {".git", true}, {"-x", true},    {"c", false}};
    world w;
    uint64_t node;
    lq_folder_options options = {.skip = patterns, .skip_count = 3};
    begin_world(&w);
    for (size_t i = 0; i < sizeof names / sizeof *names; i += 2) written(&w, names[i].name, "1", false);
    OK(open_world(&w, &options));
    CHECK(rests(&w));
    for (size_t i = 1; i < sizeof names / sizeof *names; i += 2) written(&w, names[i].name, "1", false);
    CHECK(rests(&w));
    for (size_t i = 0; i < sizeof names / sizeof *names; i++)
        WANT(lq_folder_node(&w.folder, names[i].name, strlen(names[i].name), &node),
             names[i].is_skipped ? LQ_NO_ENTRY : LQ_OK);
    end_world(&w);
}

static void polled(void) {
    world w;
    uint64_t slot;
    lq_folder_options options = {.poll = 50};
    if (!has_fine_times()) {
        puts("folder: the system's times are coarse, so the lines of polls weren't tried");
        return;
    }
    begin_world(&w);
    made_folder(&w, "a");
    written(&w, "a/x", "1", false);
    OK(open_world(&w, &options));
    CHECK(lq_folder_fd(&w.folder) == -1);
    CHECK(rests(&w));
    OK(lq_folder_query_open(&w.folder, TEXT("name==*"), NULL, &slot));
    RESTS(&w, "= a\n= a/x\n");
    written(&w, "a/x", "2", true);
    RESTS(&w, "~ a/x\n");
    CHECK(fchmodat(w.at, "a/x", 0600, 0) == 0); /* no change of the volume */
    RESTS(&w, "");
    struct timespec times[2] = {{0, UTIME_OMIT}, {1000000000, 7}};
    CHECK(utimensat(w.at, "a/x", times, 0) == 0);
    RESTS(&w, "~ a/x\n");
    int file = openat(w.at, "a/x", O_WRONLY); /* a write that only the time of the last change shows */
    CHECK(write(file, "3", 1) == 1 && futimens(file, times) == 0 && close(file) == 0);
    RESTS(&w, "~ a/x\n");
    moved(&w, "a/x", "y");
    RESTS(&w, "> a/x > y\n");
    removed(&w, "a");
    RESTS(&w, "- a\n");
    CHECK(w.turned.due <= 50);
    end_world(&w);
}

static void once(void) {
    world w;
    lq_folder_options options = {.once = true, .no_attributes = true};
    begin_world(&w);
    written(&w, "x", "1", false);
    OK(open_world(&w, &options));
    CHECK(rests(&w) && w.turned.entries == 1 && w.turned.due == UINT64_MAX && lq_folder_fd(&w.folder) == -1);
    written(&w, "y", "1", false);
    CHECK(rests(&w) && w.turned.entries == 1);
    end_world(&w);
}

/* ---- trees, permissions, and the end ---- */

/* 10,000 folders in one another, the last at a path of 40,000 bytes. */
static void deep(void) {
    enum { DEPTH = 10000 };
    world w;
    uint64_t slot;
    size_t size;
    begin_large_world(&w);
    int at = dup(w.at);
    for (int i = 0; i < DEPTH; i++) {
        CHECK(mkdirat(at, "abc", 0755) == 0);
        int next = openat(at, "abc", O_RDONLY | O_DIRECTORY);
        close(at);
        at = next;
    }
    OK(open_world(&w, NULL));
    CHECK(rests(&w) && w.turned.entries == DEPTH);
    OK(lq_folder_query_open(&w.folder, TEXT("name==x"), NULL, &slot));
    int file = openat(at, "x", O_WRONLY | O_CREAT, 0644);
    close(file);
    CHECK(rests(&w) && w.turned.entries == DEPTH + 1 && w.lines.size == 2 + 4 * DEPTH + 2);
    w.lines.size = 0;
    uint64_t row;
    OK(lq_folder_rows(&w.folder, slot, &row, 1, &size));
    OK(lq_folder_path(&w.folder, row, NULL, 0, &size));
    CHECK(size == 4 * DEPTH + 1);
    moved(&w, "abc", "d");
    CHECK(rests(&w) && w.lines.size > 0 && w.lines.at[0] == '>');
    w.lines.size = 0;
    CHECK(unlinkat(at, "x", 0) == 0);
    close(at);
    CHECK(rests(&w));
    w.lines.size = 0;
    end_world(&w);
}

/* A folder whose permission goes and comes back, by a user whom it holds off. */
static void permissions_of_user(void) {
    world w;
    begin_world(&w);
    made_folder(&w, "a");
    written(&w, "a/x", "1", false);
    begin(&w, "name==*");
    LINES_ARE(&w, "= a\n= a/x\n");
    CHECK(fchmodat(w.at, "a", 0, 0) == 0);
    RESTS(&w, "#1 a\n- a/x\n");
    CHECK(fchmodat(w.at, "a", 0755, 0) == 0);
    RESTS(&w, "+ a/x\n");
    CHECK(fchmodat(w.at, "a", 0600, 0) == 0); /* its names can be read, and nothing behind them */
    RESTS(&w, "- a/x\n");
    CHECK(fchmodat(w.at, "a", 0700, 0) == 0);
    RESTS(&w, "+ a/x\n");
    end_world(&w);
}

/* What a listing doesn't meet goes over several turns; and what is met again meanwhile stays. */
static void missed_names(void) {
    enum { MISSED = 4400 };
    world w;
    char path[64];
    begin_large_world(&w);
    made_folder(&w, "a");
    for (int i = 0; i < MISSED; i++) {
        snprintf(path, sizeof path, "a/%d", i);
        CHECK(mknodat(w.at, path, S_IFREG | 0644, 0) == 0);
    }
    begin(&w, "name==*");
    CHECK(w.turned.entries == 1 + MISSED);
    CHECK(fchmodat(w.at, "a", 0, 0) == 0);
    CHECK(is_partly_removed(&w) && w.turned.entries > 1);
    CHECK(fchmodat(w.at, "a", 0755, 0) == 0);
    CHECK(rests(&w) && w.turned.entries == 1 + MISSED);
    CHECK(fchmodat(w.at, "a", 0, 0) == 0);
    CHECK(is_partly_removed(&w) && rests(&w) && w.turned.entries == 1);
    end_world(&w);
}

static void permissions(void) {
    int status = 1;
    if (geteuid()) {
        permissions_of_user();
        missed_names();
        return;
    }
    fflush(stdout);
    pid_t child = fork();
    if (child == 0) {
        unsigned long before = failures;
        if (setgid(65534) || setuid(65534)) _exit(1);
        permissions_of_user();
        missed_names();
        _exit(failures != before);
    }
    CHECK(child > 0 && waitpid(child, &status, 0) == child && status == 0);
}

static bool is_in(world *w, const char *path) {
    uint64_t node;
    return lq_folder_node(&w->folder, path, strlen(path), &node) == LQ_OK;
}

/* A file system that is mounted below the folder and goes again: in a process that has its own mounts. */
static void mounts_of_process(void) {
    world w, kept;
    lq_folder_options one = {.one_file_system = true};
    char path[80];
    begin_world(&w);
    begin_world(&kept);
    made_folder(&w, "m");
    made_folder(&kept, "m");
    written(&w, "m/under", "1", false);
    begin(&w, "name==*");
    CHECK(is_in(&w, "m/under"));
    snprintf(path, sizeof path, "%s/m", w.dir);
    CHECK(mount("none", path, "tmpfs", 0, "") == 0);
    written(&w, "m/over", "1", false);
    CHECK(rests(&w) && is_in(&w, "m/over") && !is_in(&w, "m/under"));
    written(&w, "m/later", "1", false);
    CHECK(rests(&w) && is_in(&w, "m/later"));
    bool is_free = false; /* once it rests a little longer, no descriptor holds it */
    for (int64_t end = milliseconds() + 60000; !is_free && milliseconds() < end;) {
        lq_folder_turn(&w.folder, &w.turned);
        wait_for(&w, w.turned.due);
        is_free = umount(path) == 0;
    }
    CHECK(is_free);
    CHECK(rests(&w) && is_in(&w, "m/under") && !is_in(&w, "m/over") && !is_in(&w, "m/later"));
    snprintf(path, sizeof path, "%s/m", kept.dir);
    CHECK(mount("none", path, "tmpfs", 0, "") == 0);
    written(&kept, "m/over", "1", false);
    OK(open_world(&kept, &one));
    CHECK(rests(&kept) && is_in(&kept, "m") && !is_in(&kept, "m/over"));
    CHECK(umount2(path, MNT_DETACH) == 0);
    end_world(&w);
    end_world(&kept);
}

static void mounts(void) {
    int status = 1;
    fflush(stdout);
    pid_t child = fork();
    if (child == 0) {
        unsigned long before = failures;
        if (unshare(CLONE_NEWNS) || mount("none", "/", "none", MS_REC | MS_PRIVATE, NULL)) {
            puts("folder: this user can't mount, so mounts weren't tried");
            fflush(stdout);
            _exit(0);
        }
        mounts_of_process();
        _exit(failures != before);
    }
    CHECK(child > 0 && waitpid(child, &status, 0) == child && status == 0);
}

static void left_out(void) {
    world w;
    struct stat it;
    begin_world(&w);
    made_folder(&w, "in");
    made_folder(&w, "in/out");
    written(&w, "in/out/x", "1", false);
    written(&w, "in/y", "1", false);
    CHECK(fstatat(w.at, "in/out", &it, 0) == 0);
    uint64_t device = (uint64_t)major(it.st_dev) << 32 | minor(it.st_dev);
    begin(&w, "name==*");
    LINES_ARE(&w, "= in\n= in/out\n= in/out/x\n= in/y\n");
    OK(lq_folder_leave_out(&w.folder, device, it.st_ino, true));
    OK(lq_folder_leave_out(&w.folder, device, it.st_ino, true));
    RESTS(&w, "- in/out/x\n- in/out\n");
    CHECK(w.turned.entries == 2 && is_in(&w, "in/y") && !is_in(&w, "in/out"));
    written(&w, "in/out/z", "1", false);
    moved(&w, "in/out", "other");
    moved(&w, "in", "on");
    moved(&w, "on/y", "other/y");
    RESTS(&w, "> in > on\n> in/y > on/y\n- on/y\n");
    moved(&w, "other/y", "y");
    RESTS(&w, "+ y\n");
    OK(lq_folder_leave_out(&w.folder, device, it.st_ino + 1, false));
    RESTS(&w, "");
    OK(lq_folder_leave_out(&w.folder, device, it.st_ino, false));
    CHECK(rests(&w) && w.turned.entries == 5 && is_in(&w, "other/x") && is_in(&w, "other/z"));
    end_world(&w);

    begin_world(&w); /* before it was looked at */
    made_folder(&w, "out");
    written(&w, "out/x", "1", false);
    CHECK(fstatat(w.at, "out", &it, 0) == 0);
    OK(open_world(&w, NULL));
    OK(lq_folder_leave_out(&w.folder, device, it.st_ino, true));
    CHECK(rests(&w) && w.turned.entries == 0);
    end_world(&w);
}

static void gone(void) {
    world w;
    begin_world(&w);
    written(&w, "x", "1", false);
    begin(&w, "name==*");
    char to[80];
    snprintf(to, sizeof to, "%s.moved", w.dir);
    CHECK(rename(w.dir, to) == 0);
    int64_t end = milliseconds() + 5000;
    lq_status status = LQ_OK;
    while (status == LQ_OK && milliseconds() < end) status = lq_folder_turn(&w.folder, &w.turned);
    CHECK(status == LQ_GONE_FOLDER && w.turned.entries == 1);
    CHECK(rename(to, w.dir) == 0);
    WANT(lq_folder_turn(&w.folder, &w.turned), LQ_GONE_FOLDER);
    end_world(&w);
}

int main(void) {
    calls();
    misuse();
    refusals();
    texts();
    files();
    chains();
    links();
    folders();
    slow_writes();
    windows();
    two_folders();
    names();
    kinds();
    large_trees();
    attributes();
    skipped();
    polled();
    once();
    deep();
    permissions();
    mounts();
    left_out();
    gone();
    return done("folder");
}
