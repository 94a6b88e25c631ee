/* Open folders. A descriptor is the folder itself, wherever its path leads by now; so it is opened by the path that the
   volume has, and kept only if it is surely the entry's. Those that were used last stay open for the next looks. */
#include "folder.h"

size_t place_of(const folder *f, uint32_t slot, uint32_t *above, char *name)
{
    lq_info info;
    if (slot == 0 || lq_entry(f->handle, entry_in(f, slot)->node, &info) != LQ_OK) return 0;
    *above = slot_of_node(f, info.dir);
    if (*above == NONE) return 0;
    size_t size = bytes_of_name(info.name, info.name_size, name);
    name[size] = 0;
    return size;
}

/* ---- those that are kept ---- */

static bool is_open(const folder *f, const open_folder *it, uint32_t slot)
{
    return it->file >= 0 && it->of.slot == slot && is_entry(f, slot, it->of.node);
}

static open_folder *kept(folder *f, uint32_t slot)
{
    uint8_t *hint = &f->open_hints[slot % OPEN_FOLDERS];
    if (is_open(f, &f->open[*hint], slot)) return &f->open[*hint];
    for (uint8_t i = 0; i < OPEN_FOLDERS; i++)
        if (is_open(f, &f->open[i], slot)) return &f->open[*hint = i];
    return NULL;
}

static void close_one(open_folder *it)
{
    if (it->file >= 0) close(it->file);
    it->file = -1;
}

void close_folder(folder *f, uint32_t slot)
{
    for (size_t i = 0; i < OPEN_FOLDERS; i++)
        if (f->open[i].of.slot == slot) close_one(&f->open[i]);
}

/* Closes all but the one that is in use. */
static bool close_unused(folder *f)
{
    bool has_closed = false;
    for (size_t i = 0; i < OPEN_FOLDERS; i++) {
        if (f->open[i].file < 0 || f->open[i].file == f->in_use) continue;
        close_one(&f->open[i]);
        has_closed = true;
    }
    return has_closed;
}

void close_folders(folder *f)
{
    for (size_t i = 0; i < OPEN_FOLDERS; i++) close_one(&f->open[i]);
    if (f->root >= 0) close(f->root);
    f->root = -1;
}

void keep_open(folder *f, uint32_t slot, int file)
{
    open_folder *to = NULL;
    for (size_t i = 0; i < OPEN_FOLDERS; i++) {
        open_folder *it = &f->open[i];
        if (it->file >= 0 && it->file == f->in_use) continue;
        if (it->of.slot == slot) close_one(it); /* of a mount that isn't there any more, maybe */
        if (!to || it->file < 0 || (to->file >= 0 && it->used < to->used)) to = it;
    }
    close_one(to);
    *to = (open_folder){.of = {.slot = slot, .node = entry_in(f, slot)->node}, .used = ++f->clock, .file = file};
}

/* ---- opening ---- */

/* Opens, and once more after closing what isn't in use where descriptors have run out. */
static int open_at(folder *f, int from, const char *path, int flags)
{
    int file = openat(from, path, flags | O_CLOEXEC);
    if (file < 0 && (errno == EMFILE || errno == ENFILE) && close_unused(f))
        file = openat(from, path, flags | O_CLOEXEC);
    return file;
}

/* Opens a path of any size, in pieces that the system takes. */
static int open_long(folder *f, int from, char *path, size_t size)
{
    const int flags = O_PATH | O_DIRECTORY | O_NOFOLLOW;
    int first = from;
    while (size >= PATH_MAX - 1) {
        char *cut = path + PATH_MAX - 2;
        while (*cut != '/') cut--;
        *cut = 0;
        int next = openat(from, path, flags | O_CLOEXEC), fault = errno;
        if (from != first) close(from);
        if (next < 0) return errno = fault, -1;
        size -= (size_t)(cut + 1 - path);
        path = cut + 1;
        from = next;
    }
    int file = from == first ? open_at(f, from, path, flags) : openat(from, path, flags | O_CLOEXEC), fault = errno;
    if (from != first) close(from);
    errno = fault;
    return file;
}

/* The nearest folder above, or this one, that is open; `*size` is the size of the path from there. NONE: none is. */
static uint32_t nearest_open(folder *f, uint32_t slot, size_t *size)
{
    char name[DISK_NAME_ROOM];
    *size = 0;
    while (slot != 0 && !kept(f, slot)) {
        uint32_t above;
        size_t part = place_of(f, slot, &above, name);
        if (part == 0) return NONE;
        *size += part + 1;
        slot = above;
    }
    return slot;
}

/* Opens a folder from the nearest one above it that is open. Another may be there by now, or none. */
static int open_below(folder *f, uint32_t slot)
{
    char name[DISK_NAME_ROOM];
    size_t size;
    uint32_t from = nearest_open(f, slot, &size);
    if (from == NONE || size == 0) return errno = ENOENT, -1;
    f->path.size = 0;
    if (!bytes_reserve(&f->path, size)) {
        want_memory(f);
        return errno = ENOMEM, -1;
    }
    for (size_t at = size; slot != from;) { /* from its end to its begin */
        uint32_t above;
        size_t part = place_of(f, slot, &above, name);
        at -= part + 1;
        memcpy(f->path.at + at, name, part);
        f->path.at[at + part] = at + part + 1 == size ? 0 : '/';
        slot = above;
    }
    open_folder *near = from ? kept(f, from) : NULL;
    if (near) near->used = ++f->clock;
    return open_long(f, near ? near->file : f->root, f->path.at, size - 1);
}

int folder_file(folder *f, uint32_t slot)
{
    if (slot == 0) return f->root;
    open_folder *it = kept(f, slot);
    if (it) {
        it->used = ++f->clock;
        return it->file;
    }
    int file = open_below(f, slot);
    if (file < 0) return -1;
    observed seen;
    if (look(f, file, "", &seen) != LOOK_THERE || !is_still(f, slot, &seen, file, "")) {
        close(file);
        return errno = ESTALE, -1;
    }
    keep_open(f, slot, file);
    return file;
}

/* By its name in the folder above, which is surely the one that is meant, wherever that is by now. */
int folder_to_list(folder *f, uint32_t slot)
{
    const int flags = O_RDONLY | O_NONBLOCK | O_DIRECTORY | O_NOFOLLOW;
    if (slot == 0) return open_at(f, f->root, ".", flags);
    char name[DISK_NAME_ROOM];
    uint32_t above;
    if (place_of(f, slot, &above, name) == 0) return errno = ENOENT, -1;
    int file = folder_file(f, above);
    if (file < 0) return errno = is_for_want_of_room(errno) ? errno : ESTALE, -1;
    int was = f->in_use;
    f->in_use = file;
    int opened = open_at(f, file, name, flags);
    f->in_use = was;
    return opened;
}

/* ---- the folder itself ---- */

look_answer root_begin(folder *f)
{
    int file = open_at(f, AT_FDCWD, f->given, O_PATH | O_DIRECTORY);
    if (file < 0) return errno == ENOENT || errno == ENOTDIR || errno == ELOOP ? LOOK_ABSENT : LOOK_FAILED;
    observed seen;
    look_answer answer = look(f, file, "", &seen);
    bool is_it = answer == LOOK_THERE && (f->is_root_lost ? is_same(f, entry_in(f, 0), &seen, file, "")
                                                          : is_still(f, 0, &seen, file, ""));
    if (answer == LOOK_THERE && !is_it) answer = LOOK_ABSENT;
    int fault = errno;
    if (answer == LOOK_THERE) {
        if (f->root >= 0) close(f->root);
        f->root = file;
        f->checked = now();
    } else
        close(file);
    errno = fault;
    return answer;
}
