/* Loaded before a follower: what it reads of inotify has false events too, drawn from a seed.
 *
 * FALSE_EVENTS names a file of 8 bytes. The first is written by the driver and read here:
 *     '0'  events are as they are;
 *     '+'  false ones come between them, as of names that nothing happened to;
 *     '-'  some are lost too, change their places, or have other words;
 *     '!'  the queue overflowed: the next read says so, and writes '0'.
 * The last four are a number: how often the system itself has told that its queue overflowed. */
#define _GNU_SOURCE
#include <dlfcn.h>
#include <fcntl.h>
#include <stdbool.h>
#include <stdint.h>
#include <stdlib.h>
#include <string.h>
#include <sys/inotify.h>
#include <sys/mman.h>
#include <time.h>
#include <unistd.h>

enum { WATCHES = 512, NAMES = 64, NAME_ROOM = 256, ROOM = 1 << 16 };

static int queue = -1;
static volatile char *state;
static uint64_t drawn;
static int watches[WATCHES];
static unsigned watch_count, name_count;
static char names[NAMES][NAME_ROOM];

static uint64_t draw(uint64_t below)
{
    drawn = drawn * 6364136223846793005u + 1442695040888963407u;
    return (drawn >> 33) % below;
}

static void *next_of(const char *name)
{
    void *found = dlsym(RTLD_NEXT, name);
    if (!found) abort();
    return found;
}

int inotify_init1(int flags)
{
    int (*next)(int) = (int (*)(int))next_of("inotify_init1");
    const char *file = getenv("FALSE_EVENTS");
    int to_state = file ? open(file, O_RDWR | O_CLOEXEC) : -1;
    void *mapped = to_state < 0 ? MAP_FAILED : mmap(NULL, 8, PROT_READ | PROT_WRITE, MAP_SHARED, to_state, 0);
    if (to_state >= 0) close(to_state);
    if (mapped != MAP_FAILED) state = mapped;
    drawn = (uint64_t)time(NULL) ^ (uint64_t)getpid() << 20;
    return queue = next(flags);
}

int inotify_add_watch(int to, const char *path, uint32_t mask)
{
    int (*next)(int, const char *, uint32_t) = (int (*)(int, const char *, uint32_t))next_of("inotify_add_watch");
    int made = next(to, path, mask);
    if (made > 0) watches[watch_count++ % WATCHES] = made;
    return made;
}

static const char *some_name(void)
{
    static const char *const wrong[] = {"", ".", "..", "a/b", "nothing", "\xff", "a.x", "sub", "\xef\x9e\x80"};
    static char random[NAME_ROOM];
    if (name_count && draw(4)) return names[draw(name_count < NAMES ? name_count : NAMES)];
    if (draw(2)) return wrong[draw(sizeof wrong / sizeof *wrong)];
    size_t size = draw(NAME_ROOM - 1);
    for (size_t i = 0; i < size; i++) random[i] = (char)(1 + draw(255));
    random[size] = 0;
    return random;
}

/* `is_lossy`: those too that say that a watch has ended. */
static uint32_t some_mask(bool is_lossy)
{
    static const uint32_t bits[] = {IN_CREATE, IN_DELETE, IN_MOVED_FROM, IN_MOVED_TO, IN_MODIFY, IN_ATTRIB,
                                    IN_CLOSE_WRITE, IN_MOVE_SELF, IN_DELETE_SELF, IN_IGNORED, IN_UNMOUNT, IN_ACCESS,
                                    IN_OPEN};
    uint32_t mask = bits[draw(is_lossy ? 13 : 7)];
    if (draw(5) == 0) mask |= bits[draw(7)];
    if (draw(5) == 0) mask |= IN_ISDIR;
    return draw(200) ? mask : (uint32_t)draw(UINT32_MAX) & ~(is_lossy ? 0u : (uint32_t)(IN_IGNORED | IN_Q_OVERFLOW));
}

static int some_watch(void)
{
    if (watch_count && draw(10)) return watches[draw(watch_count < WATCHES ? watch_count : WATCHES)];
    return draw(2) ? (int)draw(300) : (int)draw(UINT32_MAX);
}

/* Appends an event; false: no room. */
static bool add(char *out, size_t *size, size_t room, int watch, uint32_t mask, uint32_t cookie, const char *name)
{
    size_t length = *name ? (strlen(name) + 16) / 16 * 16 : 0;
    struct inotify_event it = {.wd = watch, .mask = mask, .cookie = cookie, .len = (uint32_t)length};
    if (*size + sizeof it + length > room) return false;
    memcpy(out + *size, &it, sizeof it);
    memset(out + *size + sizeof it, 0, length);
    memcpy(out + *size + sizeof it, name, strlen(name));
    *size += sizeof it + length;
    return true;
}

static void remember(const char *name)
{
    if (strlen(name) < NAME_ROOM) strcpy(names[name_count++ % NAMES], name);
}

static void add_false(char *out, size_t *size, size_t room, bool is_lossy, uint32_t cookie)
{
    while (draw(3) == 0)
        add(out, size, room, some_watch(), some_mask(is_lossy), draw(2) ? cookie : (uint32_t)draw(1000000),
            some_name());
}

/* Real events with false ones between. */
static size_t falsify(const char *events, size_t got, char *out, size_t room, bool is_lossy)
{
    size_t size = 0;
    const char *late = NULL;
    for (const char *at = events; at < events + got;) {
        const struct inotify_event *it = (const struct inotify_event *)at;
        const char *name = it->len ? it->name : "";
        at += sizeof *it + it->len;
        if (it->len) remember(name);
        add_false(out, &size, room, is_lossy, it->cookie);
        if (is_lossy && draw(8) == 0) {
            if (draw(2)) late = (const char *)it;
            continue;
        }
        add(out, &size, room, it->wd, is_lossy && draw(20) == 0 ? some_mask(true) : it->mask, it->cookie, name);
    }
    const struct inotify_event *it = (const struct inotify_event *)late;
    if (late) add(out, &size, room, it->wd, it->mask, it->cookie, it->len ? it->name : "");
    return size;
}

static void count_overflows(const char *events, ssize_t got)
{
    const struct inotify_event *it;
    for (const char *at = events; at < events + got; at += sizeof *it + it->len) {
        it = (const struct inotify_event *)at;
        if (it->mask & IN_Q_OVERFLOW) ++*(volatile uint32_t *)(state + 4);
    }
}

ssize_t read(int from, void *out, size_t room)
{
    static ssize_t (*next)(int, void *, size_t);
    static char events[ROOM] __attribute__((aligned(8)));
    if (!next) next = (ssize_t (*)(int, void *, size_t))next_of("read");
    if (from != queue || from < 0 || !state || room < 4096) return next(from, out, room);
    if (*state == '0') {
        ssize_t got = next(from, out, room);
        count_overflows(out, got);
        return got;
    }
    if (*state == '!') {
        size_t size = 0;
        *state = '0';
        add(out, &size, room, -1, IN_Q_OVERFLOW, 0, "");
        return (ssize_t)size;
    }
    ssize_t got = next(from, events, room / 8 < ROOM ? room / 8 : ROOM);
    if (got <= 0) return got;
    size_t size = falsify(events, (size_t)got, out, room, *state == '-');
    return size ? (ssize_t)size : next(from, out, room);
}
