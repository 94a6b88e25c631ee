/* The entries by slot, and their slots by node and by inode. An entry stays in its slot; a slot is used again. */
#include "folder.h"

/* Nodes and inodes that are made one after the other lie one after the other, so they aren't mixed: the table stays in
   the processor's cache. */
static uint32_t head_of(const folder *f, uint64_t number)
{
    return (uint32_t)(number ^ number >> 32) & (f->entries.heads - 1);
}

uint32_t entry_slot(folder *f)
{
    entry_table *t = &f->entries;
    if (t->free != NONE) {
        uint32_t slot = t->free;
        t->free = entry_in(f, slot)->next_node;
        return slot;
    }
    if (t->used == t->chunk_count * ENTRIES_OF_CHUNK) {
        entry **chunks = realloc(t->chunks, (t->chunk_count + 1) * sizeof *chunks);
        if (!chunks) return NONE;
        t->chunks = chunks;
        if (!(chunks[t->chunk_count] = malloc(ENTRIES_OF_CHUNK * sizeof **chunks))) return NONE;
        t->chunk_count++;
    }
    entry_in(f, t->used)->node = 0;
    return t->used++;
}

void entry_put_back(folder *f, uint32_t slot)
{
    entry_in(f, slot)->node = 0;
    entry_in(f, slot)->next_node = f->entries.free;
    f->entries.free = slot;
}

static void link_node(folder *f, uint32_t slot)
{
    uint32_t *head = &f->entries.by_node[head_of(f, entry_in(f, slot)->node)];
    entry_in(f, slot)->next_node = *head;
    *head = slot;
}

static void link_identity(folder *f, uint32_t slot)
{
    uint32_t *head = &f->entries.by_identity[head_of(f, entry_in(f, slot)->inode)];
    entry_in(f, slot)->next_identity = *head;
    *head = slot;
}

/* Links the entries of chains anew, once there are more heads. */
static void link_again(folder *f, const uint32_t *nodes, const uint32_t *identities, uint32_t heads)
{
    for (uint32_t i = 0; i < heads; i++) {
        for (uint32_t slot = nodes[i], next; slot != NONE; slot = next) {
            next = entry_in(f, slot)->next_node;
            link_node(f, slot);
        }
        for (uint32_t slot = identities[i], next; slot != NONE; slot = next) {
            next = entry_in(f, slot)->next_identity;
            link_identity(f, slot);
        }
    }
}

bool entries_reserve(folder *f)
{
    entry_table *t = &f->entries;
    if (t->count < t->heads) return true;
    uint32_t heads = t->heads ? t->heads * 2 : 1024, old = t->heads;
    uint32_t *nodes = malloc(heads * sizeof *nodes), *identities = malloc(heads * sizeof *identities);
    if (!nodes || !identities) {
        free(nodes);
        free(identities);
        return false;
    }
    memset(nodes, 0xff, heads * sizeof *nodes);
    memset(identities, 0xff, heads * sizeof *identities);
    uint32_t *old_nodes = t->by_node, *old_identities = t->by_identity;
    t->by_node = nodes;
    t->by_identity = identities;
    t->heads = heads;
    link_again(f, old_nodes, old_identities, old);
    free(old_nodes);
    free(old_identities);
    return true;
}

void entry_add(folder *f, uint32_t slot)
{
    link_node(f, slot);
    link_identity(f, slot);
    f->entries.count++;
}

void entry_take(folder *f, uint32_t slot)
{
    entry *e = entry_in(f, slot);
    uint32_t *it = &f->entries.by_node[head_of(f, e->node)];
    while (*it != slot) it = &entry_in(f, *it)->next_node;
    *it = e->next_node;
    it = &f->entries.by_identity[head_of(f, e->inode)];
    while (*it != slot) it = &entry_in(f, *it)->next_identity;
    *it = e->next_identity;
    f->entries.count--;
    entry_put_back(f, slot);
}

uint32_t slot_of_node(const folder *f, uint64_t node)
{
    uint32_t slot = f->entries.by_node[head_of(f, node)];
    while (slot != NONE && entry_in(f, slot)->node != node) slot = entry_in(f, slot)->next_node;
    return slot;
}

uint32_t first_of_inode(const folder *f, uint64_t inode)
{
    return f->entries.by_identity[head_of(f, inode)];
}

bool is_entry(const folder *f, uint32_t slot, uint64_t node)
{
    return slot < f->entries.used && entry_in(f, slot)->node == node;
}

void entries_free(folder *f)
{
    for (uint32_t i = 0; i < f->entries.chunk_count; i++) free(f->entries.chunks[i]);
    free(f->entries.chunks);
    free(f->entries.by_node);
    free(f->entries.by_identity);
    free(f->entries.watches);
}
