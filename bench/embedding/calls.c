/* The tasks of bench/embedding by the C library: calls WAY, which is `typed` for typed calls or `lines` for lq_answer
   with the reply copied out. Prints the nanoseconds of each task, on average of COUNT. */
#include "tasks.h"
#include <lq.h>
#include <stdbool.h>
#include <string.h>

static lq volume;
static bool by_lines;

static void must(lq_status status) {
    if (status == LQ_OK) return;
    fprintf(stderr, "a call answered %u\n", (unsigned)status);
    exit(1);
}

/* A line of each task, made before the clock runs, as those of a script are. */
static char (*lines)[96];

static void make_lines(bool is_create) {
    if (!by_lines) return;
    if (!lines) lines = malloc(COUNT * sizeof *lines);
    if (!lines) exit(1);
    for (int number = 0; number < COUNT; number++) {
        if (is_create)
            sprintf(lines[number], "{\"do\":\"create\",\"name\":\"f%d\",\"size\":%d,\"time\":%d}",
                    number, number % BORDER, TIME);
        else
            sprintf(lines[number], "{\"do\":\"write\",\"node\":%d,\"size\":%d,\"time\":%d}",
                    2 + number % FILES, size_of(number), TIME);
    }
}

/* Answers a line, and wants the reply of a change or of a message. */
static void answer(const char *line) {
    char reply[512];
    size_t size;
    must(lq_answer(&volume, line, strlen(line), &size));
    if (lq_text(&volume, reply, sizeof reply) > sizeof reply ||
        memcmp(reply, "{\"change\":", 10) != 0) {
        fprintf(stderr, "%s: %.80s\n", line, reply);
        exit(1);
    }
}

static void create(int number) {
    char name[16];
    lq_applied made;
    int size = name_of(number, name);
    must(lq_create(&volume, 1, name, (size_t)size, LQ_FILE, (uint64_t)(number % BORDER), TIME,
                   &made));
    if (made.node != (uint64_t)number + 2) exit(1);
}

static void write_size(int number) {
    lq_applied made;
    must(lq_write(&volume, 2 + (uint64_t)(number % FILES), (uint64_t)size_of(number), TIME, &made));
}

static void read_one(int slot) {
    lq_message message;
    must(lq_read(&volume, (uint64_t)slot, &message));
    if (message.what != LQ_UPDATE) exit(1);
}

/* Creates COUNT files. */
static double creates(void) {
    must(lq_volume_open(&volume));
    make_lines(true);
    double since = now();
    for (int number = 0; number < COUNT; number++) {
        if (by_lines) answer(lines[number]);
        else create(number);
    }
    double spent = now() - since;
    lq_volume_close(&volume);
    return spent;
}

/* Writes COUNT times, each time with a message for each window, which is read. */
static double writes(int windows) {
    static const char *const reads[] = {
        "{\"do\":\"read\",\"slot\":1}", "{\"do\":\"read\",\"slot\":2}",
        "{\"do\":\"read\",\"slot\":3}", "{\"do\":\"read\",\"slot\":4}",
        "{\"do\":\"read\",\"slot\":5}", "{\"do\":\"read\",\"slot\":6}",
        "{\"do\":\"read\",\"slot\":7}", "{\"do\":\"read\",\"slot\":8}"};
    char formula[32];
    lq_options options = {16, false, false, false};
    lq_opening opening;
    int size = sprintf(formula, "size>%d", BORDER);
    must(lq_volume_open(&volume));
    for (int window = 0; window < windows; window++)
        must(lq_query_open(&volume, formula, (size_t)size, &options, &opening));
    for (int number = 0; number < FILES; number++) create(number);
    make_lines(false);
    double since = now();
    for (int number = 0; number < COUNT; number++) {
        if (by_lines) answer(lines[number]);
        else write_size(number);
        for (int window = 1; window <= windows; window++) {
            if (by_lines) answer(reads[window - 1]);
            else read_one(window);
        }
    }
    double spent = now() - since;
    lq_volume_close(&volume);
    return spent;
}

int main(int count, char **words) {
    by_lines = count > 1 && strcmp(words[1], "lines") == 0;
    say("create", creates());
    say("write, 0 windows", writes(0));
    say("write, 1 window", writes(1));
    say("write, 8 windows", writes(8));
    return 0;
}
