/* Reads a volume, piece by piece, and has the proved calls restore it. */
#include "kept.h"

struct kept_load {
    served into;
    lq_source_fn source;
    void *user;
    kept_fault fault;
    uint64_t place;              /* of the next byte of the source */
    uint64_t entries;            /* that are still to come */
    uint64_t attributes;         /* of the entry that is being read, that are still to come */
    bool is_begun, is_in_entry, is_done;
    uint64_t entry_place;        /* of the entry that is being read */
    lq_info info;                /* its fields, but for the count of attributes */
    checksums table;
    unsigned char piece[PIECE_HEAD_SIZE + PIECE_SIZE];
};

/* What is left of a piece's content. */
typedef struct content {
    const unsigned char *at;
    size_t left;
    uint64_t place; /* of the byte at `at` */
} content;

static lq_status fault_at(kept_load *load, uint64_t place, uint64_t node, const char *reason)
{
    load->fault.place = place;
    load->fault.node = node;
    load->fault.reason = reason;
    return LQ_BAD_SAVE;
}

/* The word for a fault that a proved call answered. */
static const char *reason_of(uint32_t code)
{
    static const char *const faults[] = {"NumberOutOfRange", "NodeOutOfRange", "OutOfOrder", "NameTaken",
                                         "SizeOfFolder",     "TooLong",        "Reserved",   "NameTwice",
                                         "NoFolder",         "NotFolder",      "Ring"};
    if (code > 100 && code - 101 < sizeof faults / sizeof *faults) return faults[code - 101];
    return code == LQ_BAD_LINE ? "NoKind" : lq_status_name((lq_status)code);
}

/* What a proved call of a restore answered, as the status of a load. */
static lq_status restored(kept_load *load, uint32_t code, uint64_t place, uint64_t node)
{
    if (code == LQ_OK || code == LQ_NO_MEMORY) return (lq_status)code;
    return fault_at(load, place, node, reason_of(code));
}

/* Reads bytes until there are so many. */
static lq_status take(kept_load *load, unsigned char *to, size_t size)
{
    while (size > 0) {
        ptrdiff_t got = load->source(load->user, to, size);
        if (got < 0) return LQ_SYSTEM;
        if ((size_t)got > size) return LQ_MISUSE;
        if (got == 0) return fault_at(load, load->place, load->is_in_entry ? load->info.node : 0, "Cut");
        to += got;
        size -= (size_t)got;
        load->place += (uint64_t)got;
    }
    return LQ_OK;
}

static lq_status take_head(kept_load *load)
{
    unsigned char head[HEAD_SIZE];
    lq_status status = take(load, head, sizeof head);
    if (status != LQ_OK) return status;
    if (memcmp(head, MAGIC, 8) != 0) return fault_at(load, 0, 0, "NoHead");
    if (kept_get(head + 12, 4) != kept_checksum(&load->table, 0, head, 12)) return fault_at(load, 0, 0, "Checksum");
    if (kept_get(head + 8, 4) == FORMAT_VERSION) return LQ_OK;
    fault_at(load, 8, 0, "OtherVersion");
    return LQ_OTHER_VERSION;
}

static lq_status take_piece(kept_load *load, content *read)
{
    uint64_t place = load->place, node = load->is_in_entry ? load->info.node : 0;
    unsigned char *piece = load->piece;
    lq_status status = take(load, piece, PIECE_HEAD_SIZE);
    if (status != LQ_OK) return status;
    size_t size = (size_t)kept_get(piece, 4);
    if (size == 0 || size > PIECE_SIZE) return fault_at(load, place, node, "PieceSize");
    status = take(load, piece + PIECE_HEAD_SIZE, size);
    if (status != LQ_OK) return status;
    if (kept_get(piece + 4, 4) != kept_piece_checksum(&load->table, piece, size))
        return fault_at(load, place, node, "Checksum");
    *read = (content){piece + PIECE_HEAD_SIZE, size, place + PIECE_HEAD_SIZE};
    return LQ_OK;
}

/* The next bytes of a piece's content; null where there are fewer. */
static const unsigned char *next_of(content *read, size_t size)
{
    const unsigned char *at = read->at;
    if (size > read->left) return NULL;
    read->at += size;
    read->left -= size;
    read->place += size;
    return at;
}

/* A piece's number as one with a sign. */
static int64_t with_sign(uint64_t number)
{
    return number > INT64_MAX ? -(int64_t)(UINT64_MAX - number) - 1 : (int64_t)number;
}

static int32_t with_sign32(uint64_t number)
{
    return number > INT32_MAX ? -(int32_t)(UINT32_MAX - number) - 1 : (int32_t)number;
}

/* An entry without its attributes, which is added once they were read. */
static lq_status read_entry(kept_load *load, content *read)
{
    lq_info *info = &load->info;
    load->entry_place = read->place;
    const unsigned char *from = next_of(read, ENTRY_SIZE);
    if (!from) return fault_at(load, load->entry_place, 0, "NotWhole");
    info->node = kept_get(from, 8);
    info->dir = kept_get(from + 8, 8);
    info->size = kept_get(from + 16, 8);
    info->time = with_sign(kept_get(from + 24, 8));
    load->attributes = kept_get(from + 32, 8);
    info->kind = from[40];
    info->name_size = from[41];
    const unsigned char *name = next_of(read, info->name_size);
    if (!name) return fault_at(load, load->entry_place, info->node, "NotWhole");
    memcpy(info->name, name, info->name_size);
    load->is_in_entry = true;
    return LQ_OK;
}

/* The proved call for an attribute's value. */
static lq_status restore_value(kept_load *load, uint32_t type, const char *name, size_t name_size, content *read,
                               uint64_t place)
{
    uint64_t node = load->info.node;
    bool is_text = type == LQ_TYPE_TEXT, is_short = type == LQ_TYPE_INT32 || type == LQ_TYPE_UINT32;
    if (!is_text && !is_short && type != LQ_TYPE_INT64 && type != LQ_TYPE_UINT64)
        return fault_at(load, place, node, "NoType");
    int size = is_text ? 2 : is_short ? 4 : 8;
    const unsigned char *from = next_of(read, (size_t)size);
    if (!from) return fault_at(load, place, node, "NotWhole");
    uint64_t number = kept_get(from, size);
    uint32_t code;
    if (is_text) {
        const unsigned char *text = next_of(read, (size_t)number);
        if (!text) return fault_at(load, place, node, "NotWhole");
        code = lqp_restore_text(&load->into, name, name_size, (const char *)text, (size_t)number);
    } else if (type == LQ_TYPE_INT32)
        code = lqp_restore_int32(&load->into, name, name_size, with_sign32(number));
    else if (type == LQ_TYPE_INT64)
        code = lqp_restore_int64(&load->into, name, name_size, with_sign(number));
    else if (type == LQ_TYPE_UINT32)
        code = lqp_restore_uint32(&load->into, name, name_size, (uint32_t)number);
    else
        code = lqp_restore_uint64(&load->into, name, name_size, number);
    return restored(load, code, place, node);
}

static lq_status read_attribute(kept_load *load, content *read)
{
    uint64_t place = read->place;
    const unsigned char *from = next_of(read, ATTRIBUTE_SIZE);
    const unsigned char *name = from ? next_of(read, from[4]) : NULL;
    if (!name) return fault_at(load, place, load->info.node, "NotWhole");
    load->attributes--;
    return restore_value(load, (uint32_t)kept_get(from, 4), (const char *)name, from[4], read, place);
}

/* The items of a piece. An entry is added after its last attribute. */
static lq_status read_items(kept_load *load, content *read)
{
    while (read->left > 0) {
        if (!load->is_in_entry && load->entries == 0) return fault_at(load, read->place, 0, "BytesAfter");
        lq_status status = load->is_in_entry ? read_attribute(load, read) : read_entry(load, read);
        if (status != LQ_OK) return status;
        if (load->attributes > 0) continue;
        const lq_info *info = &load->info;
        uint32_t code = lqp_restore_entry(&load->into, info->node, info->dir, info->name, info->name_size, info->kind,
                                          info->size, info->time);
        load->is_in_entry = false;
        load->entries--;
        status = restored(load, code, load->entry_place, info->node);
        if (status != LQ_OK) return status;
    }
    return LQ_OK;
}

static lq_status read_numbers(kept_load *load, content *read)
{
    uint64_t place = read->place;
    const unsigned char *from = next_of(read, NUMBERS_SIZE);
    if (!from || read->left > 0) return fault_at(load, place, 0, "NotWhole");
    load->entries = kept_get(from + 24, 8);
    load->is_begun = true;
    uint32_t code = lqp_restore(&load->into, kept_get(from, 8), kept_get(from + 8, 8), kept_get(from + 16, 8));
    return restored(load, code, place, 0);
}

/* After the last entry: nothing comes, and the entries are a tree. */
static lq_status finish(kept_load *load)
{
    unsigned char after;
    ptrdiff_t got = load->source(load->user, &after, 1);
    if (got < 0) return LQ_SYSTEM;
    if (got > 1) return LQ_MISUSE;
    if (got > 0) return fault_at(load, load->place, 0, "BytesAfter");
    lq_status status = restored(load, lqp_restore_end(&load->into), load->place, 0);
    load->is_done = status == LQ_OK;
    return status;
}

lq_status kept_load_make(kept_load **made, served into, lq_source_fn source, void *user)
{
    kept_load *load = malloc(sizeof *load);
    if (!load) return LQ_NO_MEMORY;
    load->into = into;
    load->source = source;
    load->user = user;
    load->fault = (kept_fault){0, 0, NULL};
    load->place = load->entries = load->attributes = 0;
    load->is_begun = load->is_in_entry = load->is_done = false;
    kept_checksums(&load->table);
    *made = load;
    return LQ_OK;
}

lq_status lq_load_step(kept_load *load)
{
    content read;
    if (!load->is_begun) {
        lq_status status = take_head(load);
        if (status == LQ_OK) status = take_piece(load, &read);
        return status == LQ_OK ? read_numbers(load, &read) : status;
    }
    if (!load->is_in_entry && load->entries == 0) return finish(load);
    lq_status status = take_piece(load, &read);
    return status == LQ_OK ? read_items(load, &read) : status;
}

bool lq_load_is_done(const kept_load *load)
{
    return load->is_done;
}

kept_fault kept_load_fault(const kept_load *load)
{
    return load->fault;
}

served kept_load_take(kept_load *load)
{
    served taken = load->into;
    load->into = NULL;
    return taken;
}

void kept_load_free(kept_load *load)
{
    if (load->into) lqp_free(load->into);
    free(load);
}
