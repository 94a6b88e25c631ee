/* Writes a volume: the head, then pieces of items, of which each is whole in one piece. */
#include "kept.h"

struct kept_save {
    served *from;
    lq_sink_fn sink;
    void *user;
    volume_numbers numbers;
    uint64_t *nodes;
    size_t count, written;        /* the entries, and those that were written with all that they have */
    size_t attribute, attributes; /* of the entry that is being written */
    bool is_begun;                /* the numbers are written */
    bool is_in_entry;             /* the entry itself is in a piece, and its attributes follow */
    size_t filled;                /* bytes of the piece's content */
    lq_info info;
    lq_attr value;
    checksums table;
    unsigned char piece[PIECE_HEAD_SIZE + PIECE_SIZE];
};

/* Gives the sink bytes until it took all. */
static lq_status give(kept_save *save, const unsigned char *bytes, size_t size)
{
    while (size > 0) {
        ptrdiff_t took = save->sink(save->user, bytes, size);
        if (took <= 0) return LQ_SYSTEM;
        if ((size_t)took > size) return LQ_MISUSE;
        bytes += took;
        size -= (size_t)took;
    }
    return LQ_OK;
}

static lq_status give_head(kept_save *save)
{
    unsigned char head[HEAD_SIZE];
    memcpy(head, MAGIC, 8);
    kept_put(head + 8, FORMAT_VERSION, 4);
    kept_put(head + 12, kept_checksum(&save->table, 0, head, 12), 4);
    return give(save, head, sizeof head);
}

static lq_status give_piece(kept_save *save)
{
    size_t size = save->filled;
    kept_put(save->piece, size, 4);
    kept_put(save->piece + 4, kept_piece_checksum(&save->table, save->piece, size), 4);
    save->filled = 0;
    return give(save, save->piece, PIECE_HEAD_SIZE + size);
}

/* Room for an item in the piece; null where the piece has to be written first. */
static unsigned char *room_for(kept_save *save, size_t size)
{
    if (save->filled + size > PIECE_SIZE) return NULL;
    unsigned char *room = save->piece + PIECE_HEAD_SIZE + save->filled;
    save->filled += size;
    return room;
}

static unsigned char *put_bytes(unsigned char *to, const char *bytes, size_t size)
{
    memcpy(to, bytes, size);
    return to + size;
}

/* Puts the next entry in, without its attributes. False: the piece is full. */
static bool put_entry(kept_save *save)
{
    const lq_info *info = &save->info;
    unsigned char *to = room_for(save, ENTRY_SIZE + info->name_size);
    if (!to) return false;
    to = kept_put(to, info->node, 8);
    to = kept_put(to, info->dir, 8);
    to = kept_put(to, info->size, 8);
    to = kept_put(to, (uint64_t)info->time, 8);
    to = kept_put(to, info->attr_count, 8);
    to = kept_put(to, info->kind, 1);
    to = kept_put(to, info->name_size, 1);
    put_bytes(to, info->name, info->name_size);
    return true;
}

static size_t value_size(const lq_attr *value)
{
    if (value->type == LQ_TYPE_TEXT) return 2 + value->text_size;
    return value->type == LQ_TYPE_INT32 || value->type == LQ_TYPE_UINT32 ? 4 : 8;
}

static bool put_attribute(kept_save *save)
{
    const lq_attr *value = &save->value;
    unsigned char *to = room_for(save, ATTRIBUTE_SIZE + value->name_size + value_size(value));
    if (!to) return false;
    to = kept_put(to, value->type, 4);
    to = kept_put(to, value->name_size, 1);
    to = put_bytes(to, value->name, value->name_size);
    switch (value->type) {
    case LQ_TYPE_TEXT: put_bytes(kept_put(to, value->text_size, 2), value->text, value->text_size); break;
    case LQ_TYPE_INT32: kept_put(to, (uint64_t)value->whole, 4); break;
    case LQ_TYPE_INT64: kept_put(to, (uint64_t)value->whole, 8); break;
    case LQ_TYPE_UINT32: kept_put(to, value->natural, 4); break;
    default: kept_put(to, value->natural, 8);
    }
    return true;
}

/* Puts in what comes next. False: the piece is full. */
static lq_status put_next(kept_save *save, bool *is_full)
{
    uint64_t node = save->nodes[save->written];
    lq_status status;
    if (!save->is_in_entry) {
        status = lqp_entry(save->from, node, &save->info);
        if (status != LQ_OK) return status;
        *is_full = !put_entry(save);
        if (*is_full) return LQ_OK;
        save->is_in_entry = true;
        save->attribute = 0;
        save->attributes = save->info.attr_count;
    } else {
        status = lqp_attr_at(save->from, node, save->attribute, &save->value);
        if (status != LQ_OK) return status;
        *is_full = !put_attribute(save);
        if (*is_full) return LQ_OK;
        save->attribute++;
    }
    if (save->attribute == save->attributes) {
        save->is_in_entry = false;
        save->written++;
    }
    return LQ_OK;
}

/* The nodes of all entries. */
static lq_status list_nodes(kept_save *save)
{
    uint64_t none;
    lq_status status = lqp_nodes(save->from, &none, 0, &save->count);
    if (status != LQ_OK || save->count == 0) return status;
    save->nodes = malloc(save->count * sizeof *save->nodes);
    return save->nodes ? (lq_status)lqp_nodes(save->from, save->nodes, save->count, &save->count) : LQ_NO_MEMORY;
}

lq_status kept_save_make(kept_save **made, served *from, lq_sink_fn sink, void *user)
{
    kept_save *save = malloc(sizeof *save);
    if (!save) return LQ_NO_MEMORY;
    save->from = from;
    save->sink = sink;
    save->user = user;
    save->nodes = NULL;
    save->written = save->attribute = save->attributes = save->filled = 0;
    save->is_begun = save->is_in_entry = false;
    lqp_numbers(from, &save->numbers);
    lq_status status = list_nodes(save);
    if (status != LQ_OK) {
        kept_save_free(save);
        return status;
    }
    kept_checksums(&save->table);
    *made = save;
    return LQ_OK;
}

/* The head, and the piece of the volume's numbers. */
static lq_status give_numbers(kept_save *save)
{
    lq_status status = give_head(save);
    if (status != LQ_OK) return status;
    unsigned char *to = room_for(save, NUMBERS_SIZE);
    to = kept_put(to, save->numbers.limit, 8);
    to = kept_put(to, save->numbers.changes, 8);
    to = kept_put(to, save->numbers.next, 8);
    kept_put(to, save->count, 8);
    save->is_begun = true;
    return give_piece(save);
}

lq_status lq_save_step(kept_save *save)
{
    if (!save->is_begun) return give_numbers(save);
    bool is_full = false;
    while (!is_full && save->written < save->count) {
        lq_status status = put_next(save, &is_full);
        if (status != LQ_OK) return status;
    }
    return save->filled > 0 ? give_piece(save) : LQ_OK;
}

bool lq_save_is_done(const kept_save *save)
{
    return save->is_begun && save->written == save->count;
}

void kept_save_free(kept_save *save)
{
    free(save->nodes);
    free(save);
}
