/* What calls.c and sqlite.c share: the tasks' sizes, and a clock. */
#define _POSIX_C_SOURCE 199309L
#include <stdio.h>
#include <stdlib.h>
#include <time.h>

#ifndef COUNT
#define COUNT 200000
#endif

enum { FILES = 1000, BORDER = 1000000, TIME = 941000000 };

/* Processor nanoseconds of this process. */
static double now(void) {
    struct timespec at;
    clock_gettime(CLOCK_PROCESS_CPUTIME_ID, &at);
    return 1e9 * (double)at.tv_sec + (double)at.tv_nsec;
}

/* The name of a file, and how many bytes it has. */
static int name_of(int number, char name[16]) {
    return sprintf(name, "f%d", number);
}

/* The size that a write gives: each file goes over the border and back. */
static int size_of(int number) {
    return number / FILES % 2 ? number % FILES : BORDER + 1 + number % FILES;
}

static void say(const char *task, double spent) {
    printf("%s\t%.1f\n", task, spent / COUNT);
}
