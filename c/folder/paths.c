/* Paths of nodes as bytes on disk, and the memory that they are written to. */
#include "folder.h"

bool bytes_reserve(bytes *it, size_t more)
{
    if (it->room - it->size >= more) return true;
    size_t room = it->room ? it->room : 256;
    while (room - it->size < more) room *= 2;
    char *at = realloc(it->at, room);
    if (!at) return false;
    it->at = at;
    it->room = room;
    return true;
}

void bytes_free(bytes *it)
{
    free(it->at);
    *it = (bytes){0};
}

/* Asks for the size of the path of the folder's own node, where it isn't known. */
static bool know_prefix(folder *f)
{
    if (f->node == LQ_ROOT || f->prefix) return true;
    return lq_path(f->handle, f->node, &f->prefix) == LQ_OK;
}

bool path_add(folder *f, uint64_t node, bytes *to)
{
    size_t size;
    if (node == f->node) return bytes_reserve(to, 1);
    if (!know_prefix(f) || lq_path(f->handle, node, &size) != LQ_OK || size <= f->prefix) return false;
    if (!bytes_reserve(to, size + 1)) return false;
    char *at = to->at + to->size;
    lq_text(f->handle, at, size + 1);
    size -= f->prefix + 1; /* and the `/` after it */
    memmove(at, at + f->prefix + 1, size);
    to->size += memchr(at, 0xef, size) ? bytes_of_name(at, size, at) : size;
    return true;
}

/* Makes sure of the path of a folder, which many rows one after the other are in. */
static bool know_folder(folder *f, uint64_t dir)
{
    uint64_t changes = lq_changes(f->handle);
    if (f->dir == dir && f->dir_changes == changes) return true;
    f->dir = 0;
    f->dir_path.size = 0;
    if (!path_add(f, dir, &f->dir_path)) return false;
    f->dir = dir;
    f->dir_changes = changes;
    return true;
}

bool path_add_row(folder *f, uint64_t node, bytes *to)
{
    lq_info info;
    if (lq_entry(f->handle, node, &info) != LQ_OK || !know_folder(f, info.dir)) return false;
    if (!bytes_reserve(to, f->dir_path.size + info.name_size + 2)) return false;
    if (f->dir_path.size) {
        memcpy(to->at + to->size, f->dir_path.at, f->dir_path.size);
        to->size += f->dir_path.size;
        to->at[to->size++] = '/';
    }
    to->size += bytes_of_name(info.name, info.name_size, to->at + to->size);
    return true;
}
