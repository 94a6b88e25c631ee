/* Reading a piece of the journal: its records one by one, and what stands after the last whole one. */
#include "journal.h"

/* Has at least so many bytes in the buffer, or all that the file has left. False: errno. */
static bool fill(piece *p, size_t size)
{
    if (p->end - p->start >= size || p->is_over) return true;
    memmove(p->bytes, p->bytes + p->start, p->end - p->start);
    p->base += p->start;
    p->end -= p->start;
    p->start = 0;
    while (p->end < BUFFER_SIZE && !p->is_over) {
        ssize_t got = read(p->file, p->bytes + p->end, BUFFER_SIZE - p->end);
        if (got < 0 && errno == EINTR) continue;
        if (got < 0) return false;
        p->is_over = got == 0;
        p->end += (size_t)got;
    }
    return true;
}

/* Reads the first line. */
static piece_answer take_head(const journal *j, piece *p)
{
    static const char format[] = "yazgoulm-journal ", version[] = "1 ";
    uint32_t crc;
    if (!fill(p, FIRST_LINE_SIZE)) return PIECE_FAULT;
    const char *begin = p->bytes, *end = begin + (p->end < FIRST_LINE_SIZE ? p->end : FIRST_LINE_SIZE), *at = begin;
    if ((size_t)(end - at) < sizeof format || memcmp(at, format, sizeof format - 1)) return PIECE_TORN;
    at += sizeof format - 1;
    if ((size_t)(end - at) < sizeof version || memcmp(at, version, sizeof version - 1)) {
        uint64_t other;
        bool is_whole = take_natural(&at, end, &other) && at < end && *at == ' ';
        return is_whole && other != 1 ? PIECE_OTHER_VERSION : PIECE_TORN;
    }
    at += sizeof version - 1;
    if (!take_hex(&at, end, &p->salt) || at == end || *at++ != ' ' || !take_natural(&at, end, &p->first) || at == end ||
        *at++ != ' ')
        return PIECE_TORN;
    size_t size = (size_t)(at - begin);
    if (!take_hex(&at, end, &crc) || crc != checksum(j, 0, begin, size) || at == end || *at != '\n') return PIECE_TORN;
    p->start = (size_t)(at + 1 - begin);
    p->place = p->start;
    p->seed = seed_of(j, p->salt);
    return PIECE_RECORD;
}

piece_answer piece_begin(const journal *j, piece *p, int file)
{
    *p = (piece){.file = file, .bytes = malloc(BUFFER_SIZE)};
    return p->bytes ? take_head(j, p) : PIECE_NO_MEMORY;
}

void piece_end(piece *p)
{
    int fault = errno;
    free(p->bytes);
    if (p->file >= 0) close(p->file);
    *p = (piece){.file = -1};
    errno = fault;
}

/* Whether a whole record is at the front of these bytes. */
static bool take_record(const journal *j, const piece *p, const char *at, const char *end, record *out)
{
    const char *begin = at;
    uint32_t crc;
    uint64_t size;
    if (!take_hex(&at, end, &crc) || at == end || *at++ != ' ') return false;
    const char *checked = at;
    if (!take_natural(&at, end, &size) || size > LINE_SIZE || at == end || *at++ != ' ' ||
        !take_natural(&at, end, &out->change) || at == end || *at++ != ' ' || !take_natural(&at, end, &out->node) ||
        at == end || *at++ != ' ' || !take_natural(&at, end, &out->behind) || at == end || *at++ != ' ')
        return false;
    if ((size_t)(end - at) < size + 1 || at[size] != '\n') return false;
    if (crc != checksum(j, p->seed, checked, (size_t)(at - checked) + size + 1)) return false;
    out->line = at;
    out->size = size;
    out->whole = (size_t)(at - begin) + size + 1;
    return true;
}

piece_answer piece_next(const journal *j, piece *p, record *out)
{
    if (!fill(p, RECORD_SIZE)) return PIECE_FAULT;
    if (p->start == p->end) return PIECE_END;
    if (!take_record(j, p, p->bytes + p->start, p->bytes + p->end, out)) return PIECE_TORN;
    p->start += out->whole;
    p->place = p->base + p->start;
    return PIECE_RECORD;
}

/* Whether what isn't whole was once on disk, as a later record says: the change after `change`, the last whole one, was
   synced before that record was written. What wasn't synced may be lost in any part. A record is looked for at each byte,
   since the LF before it may be what is lost. */
piece_answer piece_is_damaged(const journal *j, piece *p, uint64_t change, bool *is_damaged)
{
    record later;
    *is_damaged = false;
    for (;; p->start++) {
        if (!fill(p, RECORD_SIZE)) return PIECE_FAULT;
        if (p->start == p->end) return PIECE_END;
        if (!take_record(j, p, p->bytes + p->start, p->bytes + p->end, &later)) continue;
        if (later.change <= change + 1 || later.behind >= later.change - 1 - change) continue;
        *is_damaged = true;
        return PIECE_END;
    }
}

/* Writes the records of a piece to a file, at the same places, each as its checksum says that it was written. `size` is
   the byte after the last one, `last` its change. */
bool piece_copy(const journal *j, piece *p, int to, uint64_t size, uint64_t last)
{
    record r;
    uint64_t change = p->first - 1, at = p->place;
    while (p->place < size) {
        if (p->end - p->start < RECORD_SIZE && !p->is_over) { /* the buffer is filled anew */
            if (!write_all(to, p->bytes + (at - p->base), p->place - at, at)) return false;
            at = p->place;
        }
        piece_answer answer = piece_next(j, p, &r);
        if (answer != PIECE_RECORD || r.change != change + 1) {
            if (answer != PIECE_FAULT) errno = EIO; /* the disk has lost it: only a save of the volume helps */
            return false;
        }
        change++;
    }
    if (p->place == size && change == last) return write_all(to, p->bytes + (at - p->base), size - at, at);
    errno = EIO;
    return false;
}

/* Has a volume answer a record's line; LQ_BAD_SAVE: it doesn't make the change that it made. */
lq_status replay(lq *handle, const record *r, const char **reason)
{
    char wanted[64], given[64];
    size_t size;
    lq_status status = lq_answer(handle, r->line, r->size, &size);
    if (status != LQ_OK) return status;
    char *at = wanted;
    memcpy(at, "{\"change\":", 10);
    at = put_natural(at + 10, r->change);
    memcpy(at, ",\"node\":", 8);
    at = put_natural(at + 8, r->node);
    *at++ = '}';
    *at++ = '\n';
    size_t wanted_size = (size_t)(at - wanted);
    if (r->node == 0 ? lq_changes(handle) == r->change
                     : size == wanted_size && lq_text(handle, given, size) == size && !memcmp(given, wanted, size))
        return LQ_OK;
    *reason = "Reply";
    return LQ_BAD_SAVE;
}
