/* Trees: their nodes, and their removal. That may take long, so a turn removes some entries of what is below, and the
   next one goes on. Until it has ended nothing is looked at. Then the tree is one empty folder, and its name is looked
   at. */
#include "folder.h"

enum { SHRINK_COUNT = 65536, FOLDER_COST = 4 }; /* a folder costs as much as so many files */

static const uint64_t IS_OPENED = UINT64_C(1) << 63; /* beside a node: what is in it was added */

bool nodes_reserve(nodes *it, size_t more)
{
    if (it->room - it->count >= more) return true;
    size_t room = it->room ? it->room : 64;
    while (room - it->count < more) room *= 2;
    uint64_t *at = realloc(it->at, room * sizeof *at);
    if (!at) return false;
    it->at = at;
    it->room = room;
    return true;
}

void nodes_free(nodes *it)
{
    free(it->at);
    *it = (nodes){0};
}

/* Adds the nodes in a folder. False: no memory. */
static bool add_folder(folder *f, uint64_t node, nodes *to)
{
    lq_listing found;
    lq_row rows[16];
    size_t got;
    if (lq_children(f->handle, node, &found) != LQ_OK || !nodes_reserve(to, found.count)) return false;
    while (lq_take(f->handle, found.result, rows, sizeof rows / sizeof *rows, &got) == LQ_OK && got)
        for (size_t i = 0; i < got; i++) to->at[to->count++] = rows[i].node;
    return true;
}

size_t tree_of(folder *f, uint64_t node)
{
    nodes *tree = &f->tree;
    tree->count = 0;
    if (!nodes_reserve(tree, 1)) return 0;
    tree->at[tree->count++] = node;
    for (size_t i = 0; i < tree->count; i++) {
        uint32_t slot = slot_of_node(f, tree->at[i]);
        if (slot != NONE && entry_in(f, slot)->kind == KIND_FOLDER && !add_folder(f, tree->at[i], tree)) return 0;
    }
    return tree->count;
}

/* Opens the last folder, or removes the last node. False: no memory. */
static bool remove_next(folder *f)
{
    nodes *left = &f->removed;
    uint64_t *last = &left->at[left->count - 1], node = *last & ~IS_OPENED;
    uint32_t slot = slot_of_node(f, node);
    if (slot != NONE && entry_in(f, slot)->kind == KIND_FOLDER && !(*last & IS_OPENED)) {
        *last |= IS_OPENED;
        f->removals -= f->removals < FOLDER_COST ? f->removals : FOLDER_COST;
        return add_folder(f, node, left);
    }
    left->count--;
    f->removals -= f->removals > 0;
    remove_entry(f, node);
    return true;
}

bool is_removing(const folder *f)
{
    return f->removed.count != 0;
}

bool remove_some(folder *f)
{
    while (f->removed.count && f->removals)
        if (!remove_next(f)) { /* what is left is met or missed by the look at everything */
            want_memory(f);
            f->removed.count = 0;
        }
    if (!f->removed.count && f->removed.room > SHRINK_COUNT) nodes_free(&f->removed); /* after a burst */
    return !f->removed.count;
}

bool remove_tree(folder *f, uint32_t slot)
{
    uint64_t node = entry_in(f, slot)->node;
    if (is_removing(f)) return false;
    if (entry_in(f, slot)->kind == KIND_FOLDER) {
        if (!add_folder(f, node, &f->removed)) want_memory(f);
        if (!remove_some(f)) {
            entry_in(f, slot)->flags |= IS_STALE; /* it may be back when its name is looked at */
            return false;
        }
    }
    remove_entry(f, node);
    return true;
}
