/* The calls of lq_folder.h but lq_folder_turn: each tests its arguments, as c/lq.c does. */
#include "folder.h"
#include "../keeper.h"

/* ---- tests of arguments ---- */

/* The tag of a folder that is open. It has the address in it, so a copy elsewhere isn't open. */
static uint64_t open_tag(const lq_folder *it)
{
    return UINT64_C(0x6c712d666f6c6472) ^ (uint64_t)(uintptr_t)it;
}

folder *folder_of(const lq_folder *it)
{
    return it && it->at && it->tag == open_tag(it) ? it->at : NULL;
}

/* Whether a text can be passed on: null has size 0, and stands for the empty text. */
static bool is_text(const char **text, size_t size)
{
    if (!*text && size > 0) return false;
    if (!*text) *text = "";
    return true;
}

static bool are_patterns(const lq_folder_options *options)
{
    if (!options->skip_count) return true;
    for (size_t i = 0; options->skip && i < options->skip_count; i++)
        if (!options->skip[i]) return false;
    return options->skip != NULL;
}

/* Whether the volume has an empty folder with this node. */
static lq_status test_node(lq *handle, uint64_t node)
{
    lq_listing found;
    lq_status status = lq_children(handle, node, &found);
    if (status != LQ_OK) return status;
    return found.count ? LQ_NOT_EMPTY : LQ_OK;
}

/* ---- opening ---- */

static char *copy(const char *text, size_t size)
{
    char *made = malloc(size + 1);
    if (!made) return NULL;
    memcpy(made, text, size);
    made[size] = 0;
    return made;
}

/* The path from the system's root on, so that the program may change its folder; what was given, if that has gone. */
static char *absolute(const char *path, size_t size)
{
    char here[PATH_MAX];
    if (path[0] == '/' || !getcwd(here, sizeof here)) return copy(path, size);
    size_t front = strlen(here);
    char *made = malloc(front + size + 2);
    if (!made) return NULL;
    memcpy(made, here, front);
    made[front] = '/';
    memcpy(made + front + 1, path, size);
    made[front + 1 + size] = 0;
    return made;
}

/* Copies the options' patterns. */
static bool copy_patterns(folder *f)
{
    size_t count = f->options.skip_count;
    if (!count) return true;
    f->skip = calloc(count, sizeof *f->skip);
    if (!f->skip) return false;
    for (size_t i = 0; i < count; i++)
        if (!(f->skip[i] = copy(f->options.skip[i], strlen(f->options.skip[i])))) return false;
    return true;
}

static folder *folder_new(lq *handle, const char *path, size_t size, const lq_folder_options *options)
{
    folder *f = calloc(1, sizeof *f);
    if (!f) return NULL;
    f->handle = handle;
    f->node = options->node ? options->node : LQ_ROOT;
    f->options = *options;
    if (f->options.poll > INT32_MAX) f->options.poll = INT32_MAX;
    f->events = f->poller = f->root = f->mounts = f->mounts_wake = f->listing.file = f->in_use = -1;
    for (size_t i = 0; i < OPEN_FOLDERS; i++) f->open[i].file = -1;
    f->entries.free = NONE;
    f->lines.first = 1;
    f->is_first = true;
    f->has_new_kernel = has_fine_kernel();
    f->has_no_xattrat = !f->has_new_kernel;
    f->given = absolute(path, size);
    f->event_buffer = malloc(EVENTS_SIZE);
    f->names = malloc(NAMES_SIZE);
    if (f->given && f->event_buffer && f->names && copy_patterns(f) && entries_reserve(f) && entry_slot(f) == 0)
        return f;
    folder_free(f);
    return NULL;
}

/* Opens what tells of events. */
static bool begin_events(folder *f)
{
    struct epoll_event events = {.events = EPOLLIN};
    f->events = inotify_init1(IN_NONBLOCK | IN_CLOEXEC);
    if (f->events < 0) return false;
    f->poller = epoll_create1(EPOLL_CLOEXEC);
    if (f->poller < 0 || epoll_ctl(f->poller, EPOLL_CTL_ADD, f->events, &events)) return false;
    char real[PATH_MAX];
    if (!realpath(f->given, real)) return errno != ENOMEM; /* then mounts aren't seen */
    f->real = copy(real, strlen(real));
    if (!f->real) f->trouble.no_memory = true;
    return f->real && mounts_begin(f);
}

/* Opens the folder itself, and tests that it can be listed. */
static bool begin_root(folder *f)
{
    observed s;
    f->root = open(f->given, O_PATH | O_DIRECTORY | O_CLOEXEC);
    if (f->root < 0 || look(f, f->root, "", &s) != LOOK_THERE) return false;
    int file = openat(f->root, ".", O_RDONLY | O_DIRECTORY | O_CLOEXEC);
    if (file < 0) return false;
    read_generation(f, &s, file, "");
    close(file);
    *entry_in(f, 0) = (entry){.node = f->node, .inode = s.inode, .born = s.born, .ctime = s.ctime, .detail = s.detail,
                              .generation = s.generation, .watch = -1, .device = s.device, .kind = s.kind};
    entry_add(f, 0);
    f->checked = f->heard = now();
    return list_later(f, 0, true);
}

lq_status lq_folder_open(lq_folder *it, lq *handle, const char *path, size_t path_size,
                         const lq_folder_options *options, int32_t *fault)
{
    static const lq_folder_options no_options = LQ_FOLDER_OPTIONS_INIT;
    int32_t unwanted;
    if (!options) options = &no_options;
    if (!it || folder_of(it) || !is_text(&path, path_size) || !are_patterns(options)) return LQ_MISUSE;
    lq_status status = test_node(handle, options->node ? options->node : LQ_ROOT);
    if (status == LQ_MISUSE || status == LQ_NO_MEMORY) return status;
    if (keeper_of(handle)) return LQ_MISUSE; /* what it keeps would be a disk of the past */
    if (!fault) fault = &unwanted;
    *fault = 0;
    if (path_size == 0 || path_size > LQ_PATH_SIZE || memchr(path, 0, path_size)) return LQ_TOO_LONG;
    if (status != LQ_OK) return status;
    folder *f = folder_new(handle, path, path_size, options);
    if (!f) return LQ_NO_MEMORY;
    bool asks = !options->once && !options->poll;
    if (!begin_root(f) || (asks && !begin_events(f))) {
        *fault = f->trouble.no_memory ? 0 : errno;
        status = f->trouble.no_memory ? LQ_NO_MEMORY : LQ_SYSTEM;
        folder_free(f);
        return status;
    }
    it->at = f;
    it->tag = open_tag(it);
    return LQ_OK;
}

/* ---- closing ---- */

void folder_free(folder *f)
{
    for (uint64_t slot = 1; slot <= LQ_SLOTS; slot++)
        if (f->windows[slot - 1]) window_free(f, slot);
    if (f->listing.file >= 0) close(f->listing.file);
    close_folders(f);
    mounts_end(f);
    if (f->events >= 0) close(f->events);
    if (f->poller >= 0) close(f->poller);
    for (size_t i = 0; f->skip && i < f->options.skip_count; i++) free(f->skip[i]);
    free(f->skip);
    free(f->given);
    free(f->real);
    entries_free(f);
    free(f->devices);
    pending_free(f);
    free(f->to_list);
    lines_free(f);
    bytes_free(&f->path);
    bytes_free(&f->old_path);
    bytes_free(&f->dir_path);
    nodes_free(&f->tree);
    nodes_free(&f->removed);
    nodes_free(&f->missed);
    free(f->event_buffer);
    free(f->names);
    free(f->left_out);
    free(f);
}

void lq_folder_close(lq_folder *it)
{
    folder *f = folder_of(it);
    if (!f) return;
    *it = (lq_folder)LQ_FOLDER_INIT;
    folder_free(f);
}

int lq_folder_fd(const lq_folder *it)
{
    const folder *f = folder_of(it);
    return f ? f->poller : -1;
}

/* ---- windows and lines ---- */

lq_status lq_folder_query_open(lq_folder *it, const char *formula, size_t formula_size,
                               const lq_folder_query_options *options, uint64_t *slot)
{
    static const lq_folder_query_options no_options = LQ_FOLDER_QUERY_OPTIONS_INIT;
    folder *f = folder_of(it);
    if (!f || !slot || !is_text(&formula, formula_size) || !is_volume_open(f)) return LQ_MISUSE;
    f->prefix = 0;
    return window_open(f, formula, formula_size, options ? *options : no_options, slot);
}

/* The window of a slot, or null. */
static window *window_of(const folder *f, uint64_t slot)
{
    return slot >= 1 && slot <= LQ_SLOTS ? f->windows[slot - 1] : NULL;
}

lq_status lq_folder_query_close(lq_folder *it, uint64_t slot)
{
    folder *f = folder_of(it);
    if (!f || !is_volume_open(f)) return LQ_MISUSE;
    if (!window_of(f, slot)) return LQ_NOT_OPEN;
    window_free(f, slot);
    return LQ_OK;
}

lq_status lq_folder_rows(lq_folder *it, uint64_t slot, uint64_t *nodes, size_t room, size_t *count)
{
    folder *f = folder_of(it);
    if (!f || !count || (!nodes && room)) return LQ_MISUSE;
    const window *w = window_of(f, slot);
    if (!w) return LQ_NOT_OPEN;
    if (w->is_anew || w->is_overrun || !rows_write(&w->rows, nodes, room)) return LQ_NO_MEMORY;
    *count = w->rows.count;
    return LQ_OK;
}

lq_status lq_folder_read(lq_folder *it, uint64_t seen, lq_folder_line *out, size_t room, size_t *got)
{
    folder *f = folder_of(it);
    if (!f || !got || (!out && room)) return LQ_MISUSE;
    *got = lines_read(f, seen, out, room);
    return LQ_OK;
}

/* ---- entries ---- */

lq_status lq_folder_path(lq_folder *it, uint64_t node, char *out, size_t room, size_t *size)
{
    folder *f = folder_of(it);
    if (!f || !size || (!out && room) || !is_volume_open(f)) return LQ_MISUSE;
    if (slot_of_node(f, node) == NONE) return LQ_NO_NODE;
    f->prefix = 0;
    f->path.size = 0;
    if (!path_add(f, node, &f->path)) return LQ_NO_MEMORY;
    *size = f->path.size;
    if (room < *size) return LQ_OK;
    if (*size) memcpy(out, f->path.at, *size);
    if (room > *size) out[*size] = 0;
    return LQ_OK;
}

lq_status lq_folder_node(lq_folder *it, const char *path, size_t path_size, uint64_t *node)
{
    folder *f = folder_of(it);
    if (!f || !node || !is_text(&path, path_size) || !is_volume_open(f)) return LQ_MISUSE;
    if (path_size > LQ_PATH_SIZE) return LQ_BAD_NAME;
    f->path.size = 0;
    if (!bytes_reserve(&f->path, 3 * path_size + 1)) return LQ_NO_MEMORY;
    return lq_find_path(f->handle, f->node, f->path.at, name_of_bytes(path, path_size, f->path.at), node);
}

lq_status lq_folder_entry(const lq_folder *it, uint64_t node, lq_folder_stat *out)
{
    static const uint8_t kinds[] = {'f', 'd', 'l', 'o'};
    const folder *f = folder_of(it);
    lq_info info;
    if (!f || !out || !is_volume_open(f)) return LQ_MISUSE;
    uint32_t slot = slot_of_node(f, node);
    if (slot == NONE || slot == 0 || lq_entry(f->handle, node, &info) != LQ_OK) return LQ_NO_NODE;
    const entry *e = entry_in(f, slot);
    *out = (lq_folder_stat){.inode = e->inode,
                            .device = f->devices[e->device].number,
                            .born = e->born,
                            .ctime = e->ctime,
                            .mtime = e->kind == KIND_FOLDER ? 0 : info.time * SECOND + e->detail,
                            .kind = kinds[e->kind]};
    return LQ_OK;
}
