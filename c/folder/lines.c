/* The lines that wait: records one after the other, in the order of their numbers, each with its paths after it. */
#include "folder.h"

enum { ALIGNMENT = 8, SHRINK_ROOM = 4 * LINES_SIZE };
enum { FORGOTTEN = 0 }; /* in a record's `what`: of a window that was closed */

typedef struct line_record {
    uint64_t node, size;
    int64_t time;
    uint64_t inode;
    int64_t ctime, mtime;
    size_t path_size, old_path_size;
    uint8_t what, slot, notice, kind;
} line_record;

static size_t record_size(size_t path_size, size_t old_path_size)
{
    size_t size = sizeof(line_record) + path_size + old_path_size + 2;
    return (size + ALIGNMENT - 1) / ALIGNMENT * ALIGNMENT;
}

/* Room for one more record at the end. */
static bool lines_reserve(line_queue *q, size_t size)
{
    if (q->room - q->end >= size) return true;
    if (q->start >= size && q->start >= q->room / 2) {
        memmove(q->at, q->at + q->start, q->end - q->start);
    } else {
        size_t room = q->room ? q->room : 4096;
        while (room - (q->end - q->start) < size) room *= 2;
        char *at = malloc(room);
        if (!at) return false;
        if (q->end > q->start) memcpy(at, q->at + q->start, q->end - q->start);
        free(q->at);
        q->at = at;
        q->room = room;
    }
    q->end -= q->start;
    q->start = 0;
    return true;
}

/* What the entry of a line is now. */
static void describe(const folder *f, line_record *it)
{
    static const char kinds[] = {'f', 'd', 'l', 'o'};
    lq_info info;
    uint32_t slot = slot_of_node(f, it->node);
    if (slot == NONE || lq_entry(f->handle, it->node, &info) != LQ_OK) return;
    const entry *e = entry_in(f, slot);
    it->size = info.size;
    it->time = info.time;
    it->kind = (uint8_t)kinds[e->kind];
    it->inode = e->inode;
    it->ctime = e->ctime;
    it->mtime = e->kind == KIND_FOLDER ? 0 : info.time * SECOND + e->detail;
}

static bool put(folder *f, line_record it, line_text text)
{
    line_queue *q = &f->lines;
    size_t size = record_size(text.path_size, text.old_path_size);
    if (!lines_reserve(q, size)) return f->trouble.no_memory = true, false;
    it.path_size = text.path_size;
    it.old_path_size = text.old_path_size;
    char *to = q->at + q->end;
    memcpy(to, &it, sizeof it);
    to += sizeof it;
    if (text.path_size) memcpy(to, text.path, text.path_size);
    to[text.path_size] = 0;
    to += text.path_size + 1;
    if (text.old_path_size) memcpy(to, text.old_path, text.old_path_size);
    to[text.old_path_size] = 0;
    q->end += size;
    q->count++;
    TRACE("line %llu what %d slot %d node %llu %.80s", (unsigned long long)(q->first + q->count - 1), it.what, it.slot,
          (unsigned long long)it.node, to - text.path_size - 1);
    return true;
}

bool line_put(folder *f, lq_line_what what, uint64_t slot, uint64_t node, line_text text)
{
    line_record it = {.what = (uint8_t)what, .slot = (uint8_t)slot, .node = node};
    if (what != LQ_LINE_LEFT && what != LQ_LINE_ANEW) describe(f, &it);
    return put(f, it, text);
}

/* ---- notices ---- */

/* What a notice is told of, as one number that is hardly another's. */
static uint64_t notice_mark(lq_notice notice, const bytes *path)
{
    uint64_t mark = UINT64_C(14695981039346656037) ^ (uint64_t)notice;
    for (size_t i = 0; i < path->size; i++) mark = (mark ^ (unsigned char)path->at[i]) * UINT64_C(1099511628211);
    return mark ? mark : 1;
}

static bool was_told(const notice_memory *notices, uint64_t mark)
{
    for (size_t i = 0; i < NOTICES; i++)
        if (notices->told[i] == mark) return true;
    return false;
}

void notice_put(folder *f, lq_notice notice, uint32_t slot, const char *name, size_t size)
{
    bytes *path = &f->old_path;
    path->size = 0;
    if (!path_add(f, entry_in(f, slot)->node, path) || !bytes_reserve(path, size + 1)) return;
    if (size) {
        if (path->size) path->at[path->size++] = '/';
        if (!bytes_reserve(path, size)) return;
        memcpy(path->at + path->size, name, size);
        path->size += size;
    }
    uint64_t mark = notice_mark(notice, path);
    if (was_told(&f->notices, mark)) return;
    line_record it = {.what = LQ_LINE_NOTICE, .notice = (uint8_t)notice};
    if (!put(f, it, (line_text){.path = path->at, .path_size = path->size})) return;
    f->notices.told[f->notices.next++ % NOTICES] = mark;
}

/* ---- reading ---- */

static void give_back(line_queue *q)
{
    if (q->count) return;
    free(q->at);
    q->at = NULL;
    q->start = q->end = q->room = 0;
}

void lines_give_back(folder *f)
{
    give_back(&f->lines);
}

static void drop_until(line_queue *q, uint64_t seen)
{
    while (q->count && q->first <= seen) {
        line_record it;
        memcpy(&it, q->at + q->start, sizeof it);
        q->start += record_size(it.path_size, it.old_path_size);
        q->first++;
        q->count--;
        q->forgotten -= it.what == FORGOTTEN;
    }
    if (!q->count) q->start = q->end = 0;
    if (q->room > SHRINK_ROOM) give_back(q); /* after a burst */
}

static lq_folder_line line_of(const line_record *it, uint64_t number, const char *path)
{
    return (lq_folder_line){.number = number, .slot = it->slot, .node = it->node, .size = it->size, .time = it->time,
                            .inode = it->inode, .ctime = it->ctime, .mtime = it->mtime, .path = path,
                            .path_size = it->path_size, .old_path = path + it->path_size + 1,
                            .old_path_size = it->old_path_size, .what = it->what, .notice = it->notice,
                            .kind = it->kind};
}

size_t lines_read(folder *f, uint64_t seen, lq_folder_line *out, size_t room)
{
    line_queue *q = &f->lines;
    drop_until(q, seen);
    size_t at = q->start, got = 0;
    for (uint64_t i = 0; got < room && i < q->count; i++) {
        line_record it;
        memcpy(&it, q->at + at, sizeof it);
        if (it.what != FORGOTTEN) out[got++] = line_of(&it, q->first + i, q->at + at + sizeof it);
        at += record_size(it.path_size, it.old_path_size);
    }
    return got;
}

/* Forgets the lines of a window. Those of others keep their numbers. */
void lines_forget(folder *f, uint64_t slot)
{
    line_queue *q = &f->lines;
    for (size_t at = q->start; at < q->end;) {
        line_record it;
        memcpy(&it, q->at + at, sizeof it);
        if (it.slot == slot && it.what != FORGOTTEN) {
            q->forgotten++;
            it.what = FORGOTTEN;
            memcpy(q->at + at, &it, sizeof it);
        }
        at += record_size(it.path_size, it.old_path_size);
    }
}

void lines_free(folder *f)
{
    free(f->lines.at);
    f->lines = (line_queue){0};
}
