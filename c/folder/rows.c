/* What matches a window's formula: as a set, and by rising path for the lines of what is there. */
#include "folder.h"

/* A node and where its path is in a block of them. */
typedef struct row_path {
    const char *path;
    size_t size;
    uint64_t node;
} row_path;

static int by_path(const void *one, const void *other)
{
    const row_path *a = one, *b = other;
    size_t size = a->size < b->size ? a->size : b->size;
    int order = size ? memcmp(a->path, b->path, size) : 0;
    return order ? order : (a->size > b->size) - (a->size < b->size);
}

bool rows_take(folder *f, uint64_t result, size_t count, row_list *out)
{
    lq_row some[16];
    size_t got;
    *out = (row_list){.nodes = malloc((count ? count : 1) * sizeof *out->nodes)};
    if (!out->nodes) return false;
    while (lq_take(f->handle, result, some, sizeof some / sizeof *some, &got) == LQ_OK && got)
        for (size_t i = 0; i < got; i++) {
            if (some[i].node == f->node || slot_of_node(f, some[i].node) == NONE) continue;
            if (!node_set_add(&out->set, some[i].node)) return false;
            out->nodes[out->count++] = some[i].node;
        }
    return true;
}

bool rows_find(folder *f, window *w, row_list *out)
{
    lq_fetched found;
    *out = (row_list){0};
    if (lq_fetch(f->handle, w->formula, w->formula_size, &found) != LQ_OK) return false;
    return rows_take(f, found.result, found.count, out);
}

void rows_free(row_list *rows)
{
    free(rows->nodes);
    node_set_free(&rows->set);
    *rows = (row_list){0};
}

/* Writes the paths of all rows one after the other. */
static bool write_paths(folder *f, const row_list *rows, row_path *out, bytes *paths)
{
    for (size_t i = 0; i < rows->count; i++) {
        size_t at = paths->size;
        if (!path_add_row(f, rows->nodes[i], paths)) return false;
        out[i] = (row_path){.size = paths->size - at, .node = rows->nodes[i]};
    }
    const char *at = paths->at;
    for (size_t i = 0; i < rows->count; at += out[i++].size) out[i].path = at;
    return true;
}

bool rows_sort(folder *f, row_list *rows)
{
    bytes paths = {0};
    row_path *sorted = malloc((rows->count ? rows->count : 1) * sizeof *sorted);
    bool is_sorted = sorted && write_paths(f, rows, sorted, &paths);
    if (is_sorted) {
        qsort(sorted, rows->count, sizeof *sorted, by_path);
        for (size_t i = 0; i < rows->count; i++) rows->nodes[i] = sorted[i].node;
    }
    free(sorted);
    bytes_free(&paths);
    return is_sorted;
}

static int by_number(const void *one, const void *other)
{
    uint64_t a, b;
    memcpy(&a, one, sizeof a);
    memcpy(&b, other, sizeof b);
    return (a > b) - (a < b);
}

bool rows_write(const node_set *rows, uint64_t *nodes, size_t room)
{
    if (!room || !rows->count) return true;
    uint64_t *sorted = room < rows->count ? malloc(rows->count * sizeof *sorted) : nodes;
    size_t count = 0;
    if (!sorted) return false;
    for (size_t i = 0; i < rows->room; i++)
        if (rows->at[i] > LQ_ROOT) sorted[count++] = rows->at[i];
    qsort(sorted, count, sizeof *sorted, by_number);
    if (sorted == nodes) return true;
    memcpy(nodes, sorted, room * sizeof *nodes);
    free(sorted);
    return true;
}
