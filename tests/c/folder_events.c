/* False events: between those of the system stand others, of any watch, kind and name, as many as are drawn. An event
   says only where to look, so all is right at rest whatever they say. The linker puts the calls below in place of read
   and clock_gettime. */
#include "folder_acts.h"
#include <sys/inotify.h>

static uint64_t drawn;
static unsigned long events;

/* Draws a number below another one. */
static uint32_t draw(uint32_t below) {
    drawn = drawn * UINT64_C(6364136223846793005) + UINT64_C(1442695040888963407);
    return (uint32_t)(drawn >> 33) % below;
}

static uint32_t draw_kind(void) {
    static const uint32_t kinds[] = {IN_CREATE,      IN_DELETE,      IN_MOVED_FROM, IN_MOVED_TO, IN_MODIFY,
                                     IN_CLOSE_WRITE, IN_ATTRIB,      IN_ISDIR,      IN_UNMOUNT,  IN_IGNORED,
                                     IN_MOVE_SELF,   IN_DELETE_SELF, IN_Q_OVERFLOW};
    uint32_t count = sizeof kinds / sizeof *kinds;
    uint32_t kind = kinds[draw(draw(30) ? count - 4 : count)];
    return draw(3) ? kind : kind | kinds[draw(count - 1)];
}

/* Writes a false event, and answers its size. */
static size_t false_event(char *out) {
    static const char *const names[] = {"a", "b", "c", "n", "t", "x", "y", "link", "other", "file1", "file2", "file12",
                                        "\xff", "..", "", "none"};
    struct inotify_event event = {.wd = (int)draw(9), .mask = draw_kind(), .cookie = draw(4), .len = draw(4) ? 16 : 0};
    char name[16] = {0};
    memcpy(out, &event, sizeof event);
    if (!event.len) return sizeof event;
    const char *drawn_name = names[draw(sizeof names / sizeof *names)];
    memcpy(name, drawn_name, strlen(drawn_name));
    memcpy(out + sizeof event, name, sizeof name);
    return sizeof event + sizeof name;
}

static int left; /* how many false events are still to come in this run */

ssize_t __real_read(int file, void *out, size_t room);
ssize_t __wrap_read(int file, void *out, size_t room);
ssize_t __wrap_read(int file, void *out, size_t room) {
    char *to = out;
    size_t size = 0;
    bool is_of_events = is_inside && room == 1 << 16; /* as the library asks for them */
    struct stat it;
    is_of_events = is_of_events && fstat(file, &it) == 0 && !S_ISREG(it.st_mode);
    if (!is_of_events || left <= 0 || draw(4) == 0) return __real_read(file, out, room);
    for (uint32_t count = 1 + draw(8); count > 0 && left > 0; count--, left--, events++) size += false_event(to + size);
    ssize_t got = __real_read(file, to + size, room - size);
    return (ssize_t)size + (got > 0 ? got : 0);
}

/* folder_events [RUNS [SEED]] */
int main(int count, char **words) {
    long runs = count > 1 ? atol(words[1]) : 40;
    uint64_t seed = count > 2 ? strtoull(words[2], NULL, 10) : (uint64_t)milliseconds();
    for (long run = 0; run < runs && !failures; run++) {
        drawn = seed + (uint64_t)run;
        left = 300;
        run_acts(NULL);
        if (failures) fprintf(stderr, "with seed %llu\n", (unsigned long long)(seed + (uint64_t)run));
    }
    printf("folder_events: %ld runs from seed %llu, %lu false events\n", runs, (unsigned long long)seed, events);
    return done("folder_events");
}
