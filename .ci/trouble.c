/* Reads of standard input and writes to standard output that move few bytes a call and have trouble at one
   call: a test tool that is loaded in front of the program, and no part of it. READS and WRITES have three
   words each: the most bytes that a call moves; a call, counted from 0; and what that call does instead:
   `fails`, moves `none`, or moves `one` byte. */
#define _GNU_SOURCE
#include <dlfcn.h>
#include <errno.h>
#include <stdio.h>
#include <stdlib.h>
#include <string.h>
#include <unistd.h>

struct pace {
    size_t step;
    long left;
    char trouble[8];
};

static struct pace reads, writes;

static void take(struct pace *pace, const char *words) {
    if (!words || sscanf(words, "%zu %ld %7s", &pace->step, &pace->left, pace->trouble) != 3)
        pace->step = (size_t)-1, pace->left = -1;
}

__attribute__((constructor)) static void begin(void) {
    take(&reads, getenv("READS"));
    take(&writes, getenv("WRITES"));
}

/* How many bytes a call moves, or -1 where it fails. */
static ssize_t moved(struct pace *pace, size_t most) {
    if (pace->left-- != 0) return most < pace->step ? most : pace->step;
    if (!strcmp(pace->trouble, "fails")) return -1;
    return strcmp(pace->trouble, "one") == 0 && most > 0;
}

ssize_t read(int file, void *bytes, size_t most) {
    static ssize_t (*next)(int, void *, size_t);
    if (!next) next = dlsym(RTLD_NEXT, "read");
    if (file != 0) return next(file, bytes, most);
    ssize_t count = moved(&reads, most);
    if (count >= 0) return next(file, bytes, count);
    errno = EIO;
    return -1;
}

ssize_t write(int file, const void *bytes, size_t most) {
    static ssize_t (*next)(int, const void *, size_t);
    if (!next) next = dlsym(RTLD_NEXT, "write");
    if (file != 1) return next(file, bytes, most);
    ssize_t count = moved(&writes, most);
    if (count > 0) return next(file, bytes, count);
    errno = EIO;
    return count;
}
