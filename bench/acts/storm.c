/* Acts on files below a folder, so many a second, each noted with its time.
 *
 *     storm FOLDER PROCESSES ACTS RATE NOTES
 *
 * The processes share the acts and the rate evenly. The folder has a folder `P-I` for each process P
 * and each I below FOLDERS. In each turn a process creates a file, writes it, appends to a file of an
 * earlier turn, renames an older one into the next folder, and removes one that is older still; then
 * it sleeps until its next turn is due. Between two acts on one file are STEP seconds. NOTES.P has a
 * line for each act: its sign (+ ~ > -), the nanoseconds of CLOCK_MONOTONIC before it, and the path
 * that it makes, writes or removes. */
#define _POSIX_C_SOURCE 200809L
#include <errno.h>
#include <fcntl.h>
#include <inttypes.h>
#include <stdbool.h>
#include <stdio.h>
#include <stdlib.h>
#include <string.h>
#include <sys/wait.h>
#include <time.h>
#include <unistd.h>

#define FOLDERS 8
#define ACTS_OF_A_TURN 5
#define STEP 0.4
#define SECOND 1000000000LL
#define PATH_ROOM 4096
#define NOTES_ROOM (4 << 20)

typedef struct storm {
    const char *folder;
    FILE *notes;
    long process;
    long acts; /* that are left */
} storm;

static void fail(const char *what) {
    fprintf(stderr, "storm: %s: %s\n", what, strerror(errno));
    exit(1);
}

static int64_t now(void) {
    struct timespec time;
    clock_gettime(CLOCK_MONOTONIC, &time);
    return time.tv_sec * SECOND + time.tv_nsec;
}

static void sleep_until(int64_t due) {
    struct timespec time = {due / SECOND, due % SECOND};
    while (clock_nanosleep(CLOCK_MONOTONIC, TIMER_ABSTIME, &time, NULL) == EINTR) {
    }
}

/* The path of a process's file with this number, before or after it is renamed. */
static void set_path(const storm *it, char *path, long number, bool is_renamed) {
    int size = snprintf(path, PATH_ROOM, "%s/%ld-%ld/%c%07ld.txt", it->folder, it->process,
                        (number + is_renamed) % FOLDERS, is_renamed ? 'm' : 'n', number);
    if (size >= PATH_ROOM) {
        errno = ENAMETOOLONG;
        fail(it->folder);
    }
}

static void note(storm *it, char sign, const char *path) {
    fprintf(it->notes, "%c %" PRId64 " %s\n", sign, now(), path);
    it->acts--;
}

static void put(int file, const char *text, const char *path) {
    if (write(file, text, strlen(text)) < 0 || close(file) < 0) fail(path);
}

static void create_and_write(storm *it, long number) {
    char path[PATH_ROOM];
    set_path(it, path, number, false);
    note(it, '+', path);
    int file = open(path, O_CREAT | O_EXCL | O_WRONLY, 0644);
    if (file < 0) fail(path);
    note(it, '~', path);
    put(file, "0123456789", path);
}

static void append(storm *it, long number) {
    char path[PATH_ROOM];
    set_path(it, path, number, false);
    note(it, '~', path);
    int file = open(path, O_WRONLY | O_APPEND);
    if (file < 0) fail(path);
    put(file, "abc", path);
}

static void rename_it(storm *it, long number) {
    char from[PATH_ROOM], to[PATH_ROOM];
    set_path(it, from, number, false);
    set_path(it, to, number, true);
    note(it, '>', to);
    if (rename(from, to) < 0) fail(from);
}

static void remove_it(storm *it, long number) {
    char path[PATH_ROOM];
    set_path(it, path, number, true);
    note(it, '-', path);
    if (unlink(path) < 0) fail(path);
}

/* All turns of a process. */
static void carry_out(storm *it, double rate) {
    double turns = rate / ACTS_OF_A_TURN;
    long step = (long)(turns * STEP) + 1, acts = it->acts;
    int64_t begin = now();
    for (long turn = 0; it->acts > 0; turn++) {
        create_and_write(it, turn);
        if (turn >= step) append(it, turn - step);
        if (turn >= 2 * step) rename_it(it, turn - 2 * step);
        if (turn >= 3 * step) remove_it(it, turn - 3 * step);
        sleep_until(begin + (int64_t)((double)(acts - it->acts) / rate * SECOND));
    }
}

static void run(const char *folder, long process, long acts, double rate, const char *notes) {
    static char room[NOTES_ROOM];
    char path[PATH_ROOM];
    snprintf(path, sizeof path, "%s.%ld", notes, process);
    storm it = {folder, fopen(path, "w"), process, acts};
    if (!it.notes || setvbuf(it.notes, room, _IOFBF, sizeof room) != 0) fail(path);
    carry_out(&it, rate);
    if (fclose(it.notes) != 0) fail(path);
}

int main(int count, char **words) {
    long processes = count == 6 ? atol(words[2]) : 0;
    double rate = processes > 0 ? atof(words[4]) / (double)processes : 0;
    if (rate <= 0) {
        fprintf(stderr, "usage: storm FOLDER PROCESSES ACTS RATE NOTES\n");
        return 2;
    }
    for (long process = 0; process < processes; process++) {
        pid_t child = fork();
        if (child < 0) fail("fork");
        if (child == 0) {
            run(words[1], process, atol(words[3]) / processes, rate, words[5]);
            return 0;
        }
    }
    bool is_well = true;
    int status;
    while (wait(&status) > 0) is_well = is_well && status == 0;
    return is_well ? 0 : 1;
}
