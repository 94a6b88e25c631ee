/* What a program takes, whose output goes nowhere.
 *
 *     spent PROGRAM [WORD..]
 *
 * It prints processor seconds of the user and the system together, seconds on the clock, and the peak
 * of memory in KB. Linux counts the memory of who starts a program as that program's, so a small
 * program has to start it. */
#define _DEFAULT_SOURCE
#include <fcntl.h>
#include <stdio.h>
#include <stdlib.h>
#include <sys/resource.h>
#include <sys/time.h>
#include <sys/wait.h>
#include <time.h>
#include <unistd.h>

static double seconds_of(struct timeval time) {
    return (double)time.tv_sec + 1e-6 * (double)time.tv_usec;
}

static double now(void) {
    struct timespec time;
    clock_gettime(CLOCK_MONOTONIC, &time);
    return (double)time.tv_sec + 1e-9 * (double)time.tv_nsec;
}

static void become(char **words) {
    int nowhere = open("/dev/null", O_RDWR);
    if (nowhere >= 0 && dup2(nowhere, STDIN_FILENO) >= 0 && dup2(nowhere, STDOUT_FILENO) >= 0)
        execvp(words[0], words);
    perror(words[0]);
    _exit(127);
}

int main(int count, char **words) {
    if (count < 2) {
        fprintf(stderr, "usage: spent PROGRAM [WORD..]\n");
        return 2;
    }
    double begin = now();
    pid_t child = fork();
    if (child == 0) become(words + 1);
    int status;
    struct rusage used;
    if (child < 0 || wait4(child, &status, 0, &used) < 0) {
        perror("spent");
        return 1;
    }
    printf("%.6f %.6f %ld\n", seconds_of(used.ru_utime) + seconds_of(used.ru_stime), now() - begin,
           used.ru_maxrss);
    return status == 0 ? 0 : 1;
}
