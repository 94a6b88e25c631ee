/* Sets of nodes: open addressing. */
#include "folder.h"

enum { FREE = 0, TAKEN_OUT = 1, LEAST_ROOM = 64 }; /* neither is an entry's node: that of the root is 1 */

static size_t index_of(const node_set *set, uint64_t node)
{
    size_t i = (size_t)((node * UINT64_C(0x9e3779b97f4a7c15)) >> 32) & (set->room - 1);
    while (set->at[i] != FREE && set->at[i] != node) i = (i + 1) & (set->room - 1);
    return i;
}

bool node_set_has(const node_set *set, uint64_t node)
{
    return set->room && set->at[index_of(set, node)] == node;
}

static bool reserve(node_set *set)
{
    if (set->used * 3 < set->room * 2) return true;
    node_set made = {.room = LEAST_ROOM, .used = set->count, .count = set->count};
    while (made.room < set->count * 2 + 2) made.room *= 2;
    made.at = calloc(made.room, sizeof *made.at);
    if (!made.at) return false;
    for (size_t i = 0; i < set->room; i++)
        if (set->at[i] > TAKEN_OUT) made.at[index_of(&made, set->at[i])] = set->at[i];
    free(set->at);
    *set = made;
    return true;
}

bool node_set_add(node_set *set, uint64_t node)
{
    if (node_set_has(set, node)) return true;
    if (!reserve(set)) return false;
    set->at[index_of(set, node)] = node;
    set->used++;
    set->count++;
    return true;
}

void node_set_take(node_set *set, uint64_t node)
{
    if (!node_set_has(set, node)) return;
    set->at[index_of(set, node)] = TAKEN_OUT;
    set->count--;
}

void node_set_clear(node_set *set)
{
    if (!set->used) return;
    memset(set->at, 0, set->room * sizeof *set->at);
    set->used = set->count = 0;
}

void node_set_free(node_set *set)
{
    free(set->at);
    *set = (node_set){0};
}
