/* Mounts below the folder: inotify tells of no mount, and of an unmount only where a whole file system goes. So the
   names that differ in /proc/self/mountinfo are looked at. */
#include "folder.h"

enum { PATH_FIELD = 4, FIRST_ROOM = 1 << 16, RETRY_TIME = 100, READ_TIME = 250 }; /* milliseconds */

static const char mountinfo[] = "/proc/self/mountinfo";

/* Reads all of it; null: it can't be read now. */
static char *read_all(size_t *size)
{
    int file = open(mountinfo, O_RDONLY | O_CLOEXEC);
    if (file < 0) return NULL;
    size_t room = FIRST_ROOM;
    char *text = malloc(room + 1);
    ssize_t got = -1;
    *size = 0;
    while (text && (got = read(file, text + *size, room - *size)) > 0) {
        *size += (size_t)got;
        if (*size < room) continue;
        char *more = realloc(text, 2 * room + 1);
        if (!more) break;
        text = more;
        room *= 2;
    }
    close(file);
    if (text && got == 0) return text;
    free(text);
    return NULL;
}

/* Writes a path without its \040 and the like over itself, and answers its size. */
static size_t unescape(char *path, size_t size)
{
    size_t to = 0;
    for (size_t i = 0; i < size; i++) {
        if (path[i] != '\\' || size - i < 4) {
            path[to++] = path[i];
            continue;
        }
        path[to++] = (char)((path[i + 1] - '0') << 6 | (path[i + 2] - '0') << 3 | (path[i + 3] - '0'));
        i += 3;
    }
    return to;
}

/* Whether a path is below the folder, and not the folder itself. */
static bool is_below(const char *real, const char *path, size_t size)
{
    size_t root = strlen(real);
    if (root == 1) return size > 1;
    return size > root && memcmp(path, real, root) == 0 && path[root] == '/';
}

/* The field of a line after so many spaces, or null. */
static char *field_of(char *line, int spaces)
{
    for (; spaces > 0 && line; spaces--) {
        line = strchr(line, ' ');
        if (line) line++;
    }
    return line;
}

/* Moves what counts of a line to `to`: the fields that tell mounts apart, and the path below the folder. Answers the
   size with a NUL, or 0. */
static size_t take_line(const folder *f, char *line, char *to)
{
    char *path = field_of(line, PATH_FIELD), *end = path ? strchr(path, ' ') : NULL;
    if (!end) return 0;
    size_t size = unescape(path, (size_t)(end - path)), front = (size_t)(path - line);
    if (!is_below(f->real, path, size)) return 0;
    size_t skip = strlen(f->real) == 1 ? 0 : strlen(f->real);
    memmove(to, line, front);
    memmove(to + front, path + skip, size - skip);
    to[front + size - skip] = 0;
    return front + size - skip + 1;
}

/* The mounts below the folder: texts one after the other, and an empty one; null: they aren't known now. */
static char *read_mounts(const folder *f)
{
    size_t size, to = 0;
    char *text = read_all(&size);
    if (!text) return NULL;
    text[size] = 0;
    for (char *line = text, *next; (next = strchr(line, '\n')) != NULL; line = next + 1) {
        *next = 0;
        to += take_line(f, line, text + to);
    }
    text[to] = 0;
    char *less = realloc(text, to + 1);
    return less ? less : text;
}

static bool has(const char *mounts, const char *mount)
{
    for (; *mounts; mounts += strlen(mounts) + 1)
        if (strcmp(mounts, mount) == 0) return true;
    return false;
}

/* The path of a mount, from the folder on. */
static const char *path_of(const char *mount)
{
    for (int i = 0; i < PATH_FIELD; i++) mount = strchr(mount, ' ') + 1;
    return mount;
}

/* The slot of the folder at a path on disk; NONE: the volume has none. */
static uint32_t slot_of_path(folder *f, const char *path, size_t size)
{
    uint64_t node = f->node;
    char *text = malloc(3 * size + 1);
    if (!text) {
        want_memory(f);
        return NONE;
    }
    size = name_of_bytes(path, size, text);
    lq_status status = size > LQ_PATH_SIZE ? LQ_TOO_LONG : lq_find_path(f->handle, f->node, text, size, &node);
    free(text);
    return is_done(f, status) ? slot_of_node(f, node) : NONE;
}

/* What is below the place of a mount is listed too: a folder that is bound at itself hides the mounts inside it. */
static void look_at_mount(folder *f, uint32_t slot, const char *name)
{
    if (strlen(name) > NAME_MAX || is_skipped(f, name, strlen(name))) return;
    pending_add(f, slot, name, strlen(name), BY_LISTING, 0);
    uint32_t there = entry_at(f, slot, name, strlen(name));
    if (there != NONE && entry_in(f, there)->kind == KIND_FOLDER) list_later(f, there, true);
}

/* The folder in which a mount is: by its path, or NONE. */
static uint32_t above_mount(folder *f, const char *mount)
{
    const char *path = path_of(mount);
    return slot_of_path(f, path, (size_t)(strrchr(path, '/') + 1 - path));
}

/* Looks at all entries that are mounts, whose places may show something else by now. A mount can go and another be there
   with the same line. */
static void look_at_all_mounts(folder *f)
{
    char name[DISK_NAME_ROOM];
    uint32_t above;
    for (uint32_t slot = 1, left = f->mount_count; left && slot < f->entries.used; slot++) {
        if (!entry_in(f, slot)->node || !(entry_in(f, slot)->flags & IS_MOUNT)) continue;
        left--;
        size_t size = place_of(f, slot, &above, name);
        if (size) pending_add(f, above, name, size, BY_LISTING, 0);
    }
}

bool set_mount(folder *f, uint32_t slot, bool is_mount)
{
    entry *e = entry_in(f, slot);
    bool was = e->flags & IS_MOUNT;
    if (was == is_mount || slot == 0) return false;
    e->flags = is_mount ? e->flags | IS_MOUNT : e->flags & ~IS_MOUNT;
    if (is_mount) f->mount_count++;
    else f->mount_count--;
    return true;
}

bool has_mounts(const folder *f)
{
    return f->has_twins || f->mount_count || (f->mount_lines && *f->mount_lines);
}

/* ---- the places of mounts ---- */

static size_t count_of(const char *mounts)
{
    size_t count = 0;
    for (; *mounts; mounts += strlen(mounts) + 1) count++;
    return count;
}

/* What is known of the place of a mount, or null. */
static const mount_place *known_place(const folder *f, const char *mount)
{
    const char *it = f->mount_lines;
    for (size_t i = 0; it && f->mount_places && *it; it += strlen(it) + 1, i++)
        if (strcmp(it, mount) == 0) return &f->mount_places[i];
    return NULL;
}

/* Looks at the places of mounts that aren't there any more. */
static void look_at_gone(folder *f, const char *mounts)
{
    const char *it = f->mount_lines;
    for (size_t i = 0; it && *it; it += strlen(it) + 1, i++) {
        if (has(mounts, it)) continue;
        const mount_place *place = f->mount_places ? &f->mount_places[i] : NULL;
        uint32_t slot = place && place->node ? slot_of_node(f, place->node) : NONE;
        if (slot != NONE) look_at_mount(f, slot, strrchr(path_of(it), '/') + 1);
        f->has_gone_mounts |= !place || !place->is_sure;
    }
}

/* Finds the place of a mount, and looks at it unless that was done. */
static mount_place find_place(folder *f, const char *mount, bool is_sure)
{
    const mount_place *known = known_place(f, mount);
    bool was_there = !f->mount_places && f->mount_lines && has(f->mount_lines, mount); /* before the first look */
    if (known && known->is_sure) return *known;
    uint32_t slot = above_mount(f, mount);
    mount_place place = {.node = slot == NONE ? 0 : entry_in(f, slot)->node, .is_sure = is_sure};
    if (slot != NONE && !was_there && !(known && known->node == place.node))
        look_at_mount(f, slot, strrchr(path_of(mount), '/') + 1);
    return place;
}

/* Takes over the mounts that were read. The path of one may be that of another folder as long as events wait; then it is
   found once more later. */
static bool set_mounts(folder *f, char *mounts, bool is_sure)
{
    size_t count = count_of(mounts), i = 0;
    mount_place *places = malloc((count + 1) * sizeof *places);
    if (!places) {
        want_memory(f);
        free(mounts);
        return false;
    }
    look_at_gone(f, mounts);
    f->has_unsure_mounts = false;
    for (const char *it = mounts; *it; it += strlen(it) + 1, i++) {
        places[i] = find_place(f, it, is_sure);
        f->has_unsure_mounts |= !places[i].is_sure;
    }
    free(f->mount_lines);
    free(f->mount_places);
    f->mount_lines = mounts;
    f->mount_places = places;
    return true;
}

/* ---- turns ---- */

/* Each descriptor tells of a change once: one is for the caller's poll, the other is asked in turns. */
bool mounts_begin(folder *f)
{
    struct epoll_event changes = {.events = EPOLLPRI};
    f->mounts = open(mountinfo, O_RDONLY | O_CLOEXEC);
    if (f->mounts < 0) return !is_for_want_of_room(errno); /* without /proc they aren't seen */
    f->mounts_wake = open(mountinfo, O_RDONLY | O_CLOEXEC);
    f->mount_lines = read_mounts(f);
    f->mounts_differ = f->has_unsure_mounts = true; /* once all is listed, their folders are known */
    return f->mounts_wake >= 0 && epoll_ctl(f->poller, EPOLL_CTL_ADD, f->mounts_wake, &changes) == 0;
}

static bool can_be_read(int file, short events)
{
    struct pollfd it = {.fd = file, .events = events};
    return poll(&it, 1, 0) > 0;
}

/* A rename changes where mounts are without a word. So they are read from time to time where there are some. */
static bool is_due(const folder *f)
{
    return f->mount_lines && *f->mount_lines && now() - f->mounts_read >= READ_TIME * MILLISECOND;
}

static bool is_same_text(const char *mounts, const char *others)
{
    for (; *mounts && strcmp(mounts, others) == 0; others += strlen(others) + 1) mounts += strlen(mounts) + 1;
    return !*mounts && !*others;
}

/* Reads the mounts, where they may be others than before. */
static void read_again(folder *f)
{
    f->mounts_read = now();
    char *mounts = read_mounts(f);
    if (!mounts) { /* a later turn tries again */
        f->mounts_differ = true;
        f->due = least(f->due, now() + RETRY_TIME * MILLISECOND);
        return;
    }
    /* while no event waits the volume is what is on disk, so that paths are those of its folders */
    bool is_sure = is_quiet(f) && !can_be_read(f->events, POLLIN);
    bool is_other = !f->mount_lines || !is_same_text(mounts, f->mount_lines);
    if (f->mounts_differ || is_other) close_folders(f); /* they may be of a mount that isn't there any more */
    if (f->mounts_differ) {
        devices_forget(f);
        look_at_all_mounts(f);
    }
    if (!is_other && !f->has_unsure_mounts) {
        free(mounts);
        f->mounts_differ = false;
    } else if (set_mounts(f, mounts, is_sure))
        f->mounts_differ = false;
}

bool mounts_turn(folder *f)
{
    if (f->mounts < 0) return false;
    if (can_be_read(f->mounts, POLLPRI)) f->mounts_differ = true;
    bool is_to_find = f->has_unsure_mounts && is_quiet(f) && !can_be_read(f->events, POLLIN);
    if (f->mounts_differ || is_to_find || is_due(f)) read_again(f);
    if (f->has_gone_mounts && is_quiet(f)) {
        f->has_gone_mounts = false;
        close_folders(f);
        list_later(f, 0, true);
    }
    return has_work(f);
}

void mounts_end(folder *f)
{
    if (f->mounts >= 0) close(f->mounts);
    if (f->mounts_wake >= 0) close(f->mounts_wake);
    free(f->mount_lines);
    free(f->mount_places);
}
