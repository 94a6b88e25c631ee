/* The fold of a window's messages into lines: what one look at a name on disk does to the window's rows, whatever
   messages there are in between. Each message is read right after its change, while the volume has the path that it
   speaks of. */
#include "folder.h"

enum { NEAR = 8 }; /* a look touches few rows, but where a folder moves or goes */

/* Memory is refused for a window: all of it is told again. */
static void give_up(folder *f, window *w)
{
    w->is_anew = f->trouble.no_memory = true;
    w->touch_count = 0;
    w->paths.size = 0;
    node_set_clear(&w->touched);
}

/* ---- rows that are touched ---- */

static touch *touched(window *w, uint64_t node)
{
    for (size_t i = w->touch_count; i > 0 && w->touch_count - i < NEAR; i--)
        if (w->touches[i - 1].node == node) return &w->touches[i - 1];
    if (w->touch_count <= NEAR || !node_set_has(&w->touched, node)) return NULL;
    for (size_t i = 0; i < w->touch_count; i++)
        if (w->touches[i].node == node) return &w->touches[i];
    return NULL;
}

/* Adds a path to the window's, and answers whether it could. */
static bool note_path(folder *f, window *w, uint64_t node, size_t *at, size_t *size)
{
    *at = w->paths.size;
    if (!path_add(f, node, &w->paths)) return false;
    *size = w->paths.size - *at;
    return true;
}

/* The path that a message tells: of a folder and a name in it. */
static bool note_place(folder *f, window *w, uint64_t dir, const char *name, size_t name_size, touch *it)
{
    it->old_at = w->paths.size;
    if (!path_add(f, dir, &w->paths) || !bytes_reserve(&w->paths, name_size + 1)) return false;
    if (w->paths.size > it->old_at) w->paths.at[w->paths.size++] = '/';
    w->paths.size += bytes_of_name(name, name_size, w->paths.at + w->paths.size);
    it->old_size = w->paths.size - it->old_at;
    return true;
}

static touch *touch_new(window *w, uint64_t node, bool was_in)
{
    if (w->touch_count == w->touch_room) {
        size_t room = w->touch_room ? 2 * w->touch_room : 16;
        touch *touches = realloc(w->touches, room * sizeof *touches);
        if (!touches) return NULL;
        w->touches = touches;
        w->touch_room = room;
    }
    w->touches[w->touch_count] = (touch){.node = node, .was_in = was_in};
    for (size_t i = w->touch_count > NEAR ? w->touch_count : 0; w->touch_count >= NEAR && i <= w->touch_count; i++)
        if (!node_set_add(&w->touched, w->touches[i].node)) return NULL;
    return &w->touches[w->touch_count++];
}

/* Touches a row, with its path as it is now. */
static touch *touch_here(folder *f, window *w, uint64_t node)
{
    touch *it = touch_new(w, node, true);
    return it && note_path(f, w, node, &it->old_at, &it->old_size) ? it : NULL;
}

/* ---- messages ---- */

static bool fold_message(folder *f, window *w, const lq_message *m)
{
    touch *it = touched(w, m->node);
    bool is_new = !it;
    switch (m->op) {
    case LQ_ENTRY_CREATED:
        if (slot_of_node(f, m->node) == NONE) return true; /* it isn't below the folder */
        if (it) it->is_written |= it->was_in && w->has_values; /* it left and is back */
        return (it || touch_new(w, m->node, false)) && node_set_add(&w->rows, m->node);
    case LQ_ENTRY_REMOVED:
        if (!node_set_has(&w->rows, m->node)) return true;
        node_set_take(&w->rows, m->node);
        if (is_new) it = touch_new(w, m->node, true);
        return it && (!is_new || note_place(f, w, m->dir, m->name, m->name_size, it));
    case LQ_ENTRY_MOVED:
        if (!node_set_has(&w->rows, m->node)) return true;
        if (is_new) it = touch_new(w, m->node, true);
        return it && (!is_new || note_place(f, w, m->from_dir, m->from_name, m->from_name_size, it));
    default:
        if (!node_set_has(&w->rows, m->node)) return true;
        if (m->op == LQ_ATTR_CHANGED && is_own_attribute(m->attr, m->attr_size)) return true;
        if (is_new) it = touch_here(f, w, m->node);
        if (it) it->is_written = true;
        return it != NULL;
    }
}

void touch_changed(folder *f, window *w)
{
    lq_message message;
    while (lq_read(f->handle, w->slot, &message) == LQ_OK) {
        if (message.what != LQ_UPDATE) {
            w->is_anew = w->is_overrun = true; /* by changes that aren't the folder's */
            return;
        }
        if (!w->is_anew && !fold_message(f, w, &message)) give_up(f, w);
    }
}

void touch_tree(folder *f, window *w, uint64_t node)
{
    if (w->is_anew || !w->rows.count) return;
    size_t count = tree_of(f, node);
    if (!count) give_up(f, w);
    for (size_t i = 0; i < count && !w->is_anew; i++)
        if (node_set_has(&w->rows, f->tree.at[i]) && !touched(w, f->tree.at[i]) && !touch_here(f, w, f->tree.at[i]))
            give_up(f, w);
}

/* ---- lines ---- */

static line_text text_of(const window *w, size_t at, size_t size)
{
    return (line_text){.path = w->paths.at + at, .path_size = size};
}

/* A path and the touch that it is of. */
typedef struct touch_path {
    const char *path;
    size_t size;
    size_t touch;
} touch_path;

static int compare(const touch_path *one, const touch_path *other)
{
    size_t size = one->size < other->size ? one->size : other->size;
    int order = size ? memcmp(one->path, other->path, size) : 0;
    return order ? order : (one->size > other->size) - (one->size < other->size);
}

static int by_path(const void *one, const void *other)
{
    return compare(one, other);
}

/* Marks those that left where another is now, and those that came where another was: for these a line says that what is
   at the path was replaced. False: no memory. */
static bool mark_replaced(window *w)
{
    touch_path *now_there = malloc(w->touch_count * sizeof *now_there);
    size_t count = 0;
    if (!now_there) return false;
    for (size_t i = 0; i < w->touch_count; i++)
        if (w->touches[i].is_in)
            now_there[count++] = (touch_path){w->paths.at + w->touches[i].now_at, w->touches[i].now_size, i};
    qsort(now_there, count, sizeof *now_there, by_path);
    for (size_t i = 0; i < w->touch_count; i++) {
        touch *it = &w->touches[i];
        if (!it->was_in || it->is_in) continue;
        touch_path old = {w->paths.at + it->old_at, it->old_size, i};
        touch_path *found = bsearch(&old, now_there, count, sizeof old, by_path);
        if (found) it->is_replaced = w->touches[found->touch].is_replaced = true;
    }
    free(now_there);
    return true;
}

static bool has_moved(const window *w, const touch *it)
{
    return it->old_size != it->now_size
           || memcmp(w->paths.at + it->old_at, w->paths.at + it->now_at, it->now_size) != 0;
}

/* Puts off the line of a write while the file is open. */
static bool put_off(folder *f, window *w, const touch *it)
{
    uint32_t slot = slot_of_node(f, it->node);
    if (slot == NONE || !(entry_in(f, slot)->flags & IS_BEING_WRITTEN)) return false;
    if (node_set_has(&w->waiting, it->node)) return true;
    if (w->untold_count == w->untold_room) {
        size_t room = w->untold_room ? 2 * w->untold_room : 16;
        untold *grown = realloc(w->untold, room * sizeof *grown);
        if (!grown) return false; /* then it is told at once */
        w->untold = grown;
        w->untold_room = room;
    }
    if (!node_set_add(&w->waiting, it->node)) return false;
    w->untold[w->untold_count++] = (untold){.node = it->node, .since = now()};
    return true;
}

/* The lines of a row that is in the result now. */
static bool tell_present(folder *f, window *w, const touch *it)
{
    line_text text = text_of(w, it->now_at, it->now_size);
    if (!it->was_in) return line_put(f, it->is_replaced ? LQ_LINE_CHANGED : LQ_LINE_CAME, w->slot, it->node, text);
    bool moved = has_moved(w, it);
    if (moved) {
        text.old_path = w->paths.at + it->old_at;
        text.old_path_size = it->old_size;
        if (!line_put(f, LQ_LINE_MOVED, w->slot, it->node, text)) return false;
    }
    if (!it->is_written || (!moved && put_off(f, w, it))) return true;
    return line_put(f, LQ_LINE_CHANGED, w->slot, it->node, text_of(w, it->now_at, it->now_size));
}

/* Finds where each row is now. False: no memory. */
static bool find_present(folder *f, window *w, size_t *came, size_t *left)
{
    *came = *left = 0;
    for (size_t i = 0; i < w->touch_count; i++) {
        touch *it = &w->touches[i];
        it->is_in = node_set_has(&w->rows, it->node);
        it->is_replaced = false;
        if (it->is_in && !note_path(f, w, it->node, &it->now_at, &it->now_size)) return false;
        *came += it->is_in;
        *left += it->was_in && !it->is_in;
    }
    return true;
}

static bool tell(folder *f, window *w)
{
    size_t came, left;
    if (!find_present(f, w, &came, &left) || (came && left && !mark_replaced(w))) return false;
    for (size_t i = 0; i < w->touch_count; i++) {
        const touch *it = &w->touches[i];
        if (it->was_in && !it->is_in && !it->is_replaced
            && !line_put(f, LQ_LINE_LEFT, w->slot, it->node, text_of(w, it->old_at, it->old_size)))
            return false;
    }
    for (size_t i = 0; i < w->touch_count; i++)
        if (w->touches[i].is_in && !tell_present(f, w, &w->touches[i])) return false;
    return true;
}

void touch_end(folder *f, window *w)
{
    enum { SHRINK_COUNT = 65536 };
    if (!w->touch_count) return;
    if (!w->is_anew && !tell(f, w)) give_up(f, w);
    if (w->touch_room > SHRINK_COUNT) { /* after a burst */
        free(w->touches);
        w->touches = NULL;
        w->touch_room = 0;
        bytes_free(&w->paths);
    }
    w->touch_count = 0;
    w->paths.size = 0;
    node_set_clear(&w->touched);
}
