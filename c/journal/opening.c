/* Opening: the snapshot, the pieces of the journal, and the file that goes on. */
#include "journal.h"

/* What is found out on the way. */
typedef struct opening {
    journal *j;
    lq *handle;
    uint32_t version;
    lq_journal_report *report;
    bool has_journal; /* else `journal.old` is the last piece, if there is one */
    bool is_passable; /* the volume is the one before the damage */
    bool is_cut;      /* `damaged`: what comes after is passed over */
} opening;

static lq_status failed(lq_journal_report *report, lq_journal_file file)
{
    report->fault = errno;
    report->file = errno == ENOMEM ? 0 : file;
    return LQ_SYSTEM;
}

static lq_status damaged(lq_journal_report *report, lq_journal_file file, uint64_t place, const char *reason)
{
    report->file = file;
    report->place = place;
    report->reason = reason;
    return LQ_BAD_SAVE;
}

/* ---- a piece ---- */

static lq_status answered(lq_journal_report *report, lq_journal_file file, piece_answer answer, uint64_t place,
                          const char *reason)
{
    switch (answer) {
    case PIECE_FAULT: return failed(report, file);
    case PIECE_NO_MEMORY: return LQ_NO_MEMORY;
    case PIECE_OTHER_VERSION: report->file = file; return LQ_OTHER_VERSION;
    default: return damaged(report, file, place, reason);
    }
}

/* Has the volume answer the records of a piece, but for those that the snapshot has. */
static lq_status replay_piece(opening *o, piece *p, lq_journal_file file, piece_answer *last)
{
    uint64_t done = lq_changes(o->handle);
    record r;
    p->next = p->first;
    if (p->first > done + 1) return damaged(o->report, file, 0, "Gap");
    while ((*last = piece_next(o->j, p, &r)) == PIECE_RECORD) {
        uint64_t place = p->place - r.whole;
        const char *reason = NULL;
        o->is_passable = r.change != p->next;
        if (o->is_passable) return damaged(o->report, file, place, "Number");
        p->next++;
        if (r.change <= done) continue;
        lq_status status = replay(o->handle, &r, &reason);
        if (status == LQ_BAD_SAVE) return damaged(o->report, file, place, reason);
        if (status != LQ_OK) return status;
        o->report->replayed++;
    }
    return LQ_OK;
}

/* Reads a piece whole. `*end` is the byte after its last whole record, `*size` what the file has. */
static lq_status read_piece(opening *o, piece *p, lq_journal_file file, uint64_t *size)
{
    piece_answer last;
    bool is_damaged = false;
    lq_status status = replay_piece(o, p, file, &last);
    if (status != LQ_OK) return status;
    if (!size_of(p->file, size)) return failed(o->report, file);
    if (last == PIECE_TORN) {
        uint64_t place = p->place;
        last = piece_is_damaged(o->j, p, p->next - 1, &is_damaged);
        o->is_passable = is_damaged || (file == LQ_FILE_OLD && o->has_journal); /* it was synced whole then */
        if (o->is_passable) return damaged(o->report, file, place, "Checksum");
    }
    if (last != PIECE_END) return answered(o->report, file, last, p->place, "Checksum");
    return p->next == lq_changes(o->handle) + 1 ? LQ_OK : damaged(o->report, file, p->place, "Gap");
}

/* Cuts a file back to its whole records. */
static bool cut_back(opening *o, int file, uint64_t place, uint64_t size)
{
    if (size == place) return true;
    o->report->dropped += size - place;
    return !ftruncate(file, (int64_t)place);
}

/* Keeps a damaged file beside, so that it may be cut back. */
static lq_status pass_over(opening *o, piece *p, const char *name, const char *beside, lq_journal_file file,
                           uint64_t *size)
{
    bool is_done = size_of(p->file, size) && copy_in(o->j, name, beside, *size) && sync_folder(o->j);
    o->is_cut = true;
    p->place = o->report->place;
    return is_done ? LQ_OK : failed(o->report, file);
}

/* Brings to disk what was read. A sync may have failed before the process was killed, and then the system has bytes that
   the disk lacks, and a sync alone doesn't bring them there. They are written again, the same ones at the same places, so
   a power cut meanwhile takes nothing that was on disk, and no room is needed. */
static lq_status bring_to_disk(opening *o, const piece *p, const char *name, lq_journal_file file)
{
    piece again;
    int from = open_in(o->j, name, O_RDONLY);
    if (from < 0) return failed(o->report, file);
    piece_answer answer = piece_begin(o->j, &again, from);
    lq_status status = answer == PIECE_RECORD ? LQ_OK : answered(o->report, file, answer, 0, "Head");
    if (status == LQ_OK && !(piece_copy(o->j, &again, p->file, p->place, p->next - 1) && sync_file(p->file)))
        status = failed(o->report, file);
    piece_end(&again);
    return status;
}

/* Replays a file, cuts it back to its whole records and brings them to disk. LQ_NO_NODE: there is none. */
static lq_status replay_file(opening *o, lq_journal_file file, piece *p)
{
    const char *name = file == LQ_FILE_OLD ? "journal.old" : "journal";
    const char *beside = file == LQ_FILE_OLD ? "journal.old.damaged" : "journal.damaged";
    int it = open_in(o->j, name, O_RDWR);
    if (it < 0) return errno == ENOENT ? LQ_NO_NODE : failed(o->report, file);
    piece_answer answer = piece_begin(o->j, p, it);
    if (answer != PIECE_RECORD) return answered(o->report, file, answer, 0, "Head");
    uint64_t size;
    lq_status status = read_piece(o, p, file, &size);
    if (status == LQ_BAD_SAVE && o->j->options.damaged && o->is_passable)
        status = pass_over(o, p, name, beside, file, &size);
    if (status == LQ_OK && !cut_back(o, it, p->place, size)) status = failed(o->report, file);
    return status == LQ_OK ? bring_to_disk(o, p, name, file) : status;
}

/* ---- the parts of an opening ---- */

static lq_status open_old(opening *o)
{
    piece p = {.file = -1};
    lq_status status = replay_file(o, LQ_FILE_OLD, &p);
    if (status == LQ_NO_NODE) return LQ_OK;
    piece_end(&p);
    o->j->has_old = true;
    return status;
}

/* A new, empty file. */
static lq_status begin_journal(opening *o)
{
    journal *j = o->j;
    j->first = lq_changes(o->handle) + 1;
    j->salt = new_salt(j);
    j->file = piece_create(j, j->salt, j->first, &j->size);
    return j->file >= 0 && rename_in(j, "journal.new", "journal") ? LQ_OK : failed(o->report, LQ_FILE_JOURNAL);
}

/* Keeps `journal` beside, whose changes came after the damage of `journal.old`. */
static lq_status put_aside(opening *o)
{
    uint64_t size;
    int it = open_in(o->j, "journal", O_RDONLY);
    if (it < 0) return errno == ENOENT ? LQ_OK : failed(o->report, LQ_FILE_JOURNAL);
    bool is_done = size_of(it, &size) && copy_in(o->j, "journal", "journal.damaged", size) && sync_folder(o->j) &&
                   remove_in(o->j, "journal");
    lq_status status = is_done ? LQ_OK : failed(o->report, LQ_FILE_JOURNAL);
    close(it);
    return status;
}

static lq_status open_journal(opening *o)
{
    piece p = {.file = -1};
    lq_status status = o->is_cut ? put_aside(o) : LQ_OK;
    if (status != LQ_OK) return status;
    status = replay_file(o, LQ_FILE_JOURNAL, &p);
    if (status == LQ_NO_NODE) return begin_journal(o);
    if (status == LQ_OK) {
        o->j->file = p.file;
        o->j->salt = p.salt;
        o->j->first = p.first;
        o->j->size = p.place;
        p.file = -1;
    }
    piece_end(&p);
    return status;
}

lq_status open_files(journal *j, lq *handle, uint32_t version, lq_journal_report *report)
{
    opening o = {.j = j, .handle = handle, .version = version, .report = report};
    if (!remove_in(j, "journal.new") || !remove_in(j, "snapshot.new")) return failed(report, 0);
    int found = open_in(j, "journal", O_RDONLY);
    if (found < 0 && errno != ENOENT) return failed(report, LQ_FILE_JOURNAL);
    if (found >= 0) close(found);
    o.has_journal = found >= 0;
    lq_status status = snapshot_load(j, handle, version, report);
    if (status == LQ_OK) status = open_old(&o);
    if (status == LQ_OK) status = open_journal(&o);
    if (status == LQ_OK && !sync_folder(j)) status = failed(report, 0);
    if (status != LQ_OK) return status;
    j->seed = seed_of(j, j->salt);
    j->synced = j->size;
    j->change = j->synced_change = report->changes = lq_changes(handle);
    return LQ_OK;
}
