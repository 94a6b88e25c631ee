/* The journal is cut anew. `journal` becomes `journal.old`, and another `journal` goes on. A second volume is loaded from
   the snapshot, answers the lines of `journal.old`, and is saved as the next snapshot; then `journal.old` goes. What the
   files have is what is kept, so the volume in use isn't asked for anything. */
#include "journal.h"

/* ---- `journal.old` and a new `journal` ---- */

static bool is_due(const journal *j)
{
    return j->has_old || (j->size >= j->options.least && j->size > j->snapshot_size);
}

/* The folder is synced after each change of names. If that fails, a name may be lost in a power cut, and changes wait. */
static bool sync_names(journal *j)
{
    if (sync_folder(j)) return true;
    trouble_begin(j, UNPLACED);
    return false;
}

static bool put_old(journal *j)
{
    if (j->is_misplaced) return true;
    if (!rename_in(j, "journal", "journal.old")) return false;
    j->is_misplaced = true;
    return sync_names(j);
}

/* From here on changes are written to a new file. */
static bool put_new(journal *j)
{
    uint32_t salt = new_salt(j);
    uint64_t size;
    int file = piece_create(j, salt, j->change + 1, &size);
    if (file < 0) return false;
    if (!put_old(j) || !rename_in(j, "journal.new", "journal")) {
        int fault = errno;
        close(file);
        errno = fault;
        return false;
    }
    close(j->file);
    j->file = file;
    j->salt = salt;
    j->seed = seed_of(j, salt);
    j->first = j->change + 1;
    j->size = j->synced = size;
    j->is_misplaced = false;
    j->has_old = true;
    return sync_names(j);
}

/* ---- a second volume ---- */

/* What was begun goes; the files stay as they are. */
void cut_end(journal *j)
{
    cut *c = &j->cut;
    if (c->load) lq_load_end(&c->second, c->load);
    if (c->save) lq_save_end(&c->second, c->save);
    c->load = NULL;
    c->save = NULL;
    lq_volume_close(&c->second);
    if (c->step != CUT_NONE) piece_end(&c->old);
    if (c->file >= 0) close(c->file);
    c->file = -1;
    c->step = CUT_NONE;
}

static lq_status answered(piece_answer answer)
{
    switch (answer) {
    case PIECE_FAULT: return LQ_SYSTEM;
    case PIECE_NO_MEMORY: return LQ_NO_MEMORY;
    case PIECE_OTHER_VERSION: return LQ_OTHER_VERSION;
    default: return LQ_BAD_SAVE;
    }
}

static lq_status begin(journal *j)
{
    cut *c = &j->cut;
    int old = open_in(j, "journal.old", O_RDONLY);
    if (old < 0) return LQ_SYSTEM;
    c->step = CUT_LOAD;
    piece_answer answer = piece_begin(j, &c->old, old);
    if (answer != PIECE_RECORD) return answered(answer);
    c->file = open_in(j, "snapshot", O_RDONLY);
    if (c->file >= 0) return lq_load_begin(&c->second, LQ_VERSION, &c->load, read_snapshot, c);
    if (errno != ENOENT) return LQ_SYSTEM;
    c->step = CUT_REPLAY;
    return lq_volume_open(&c->second);
}

static lq_status load_some(journal *j)
{
    cut *c = &j->cut;
    lq_status status = lq_load_step(c->load);
    if (status != LQ_OK || !lq_load_is_done(c->load)) return status;
    lq_load_end(&c->second, c->load);
    c->load = NULL;
    close(c->file);
    c->file = -1;
    c->step = CUT_REPLAY;
    return LQ_OK;
}

static lq_status begin_save(journal *j)
{
    cut *c = &j->cut;
    if (lq_changes(&c->second) != j->first - 1) return LQ_BAD_SAVE;
    c->file = open_in(j, "snapshot.new", O_WRONLY | O_CREAT | O_TRUNC);
    if (c->file < 0) return LQ_SYSTEM;
    c->written = c->synced = 0;
    c->step = CUT_SAVE;
    return lq_save_begin(&c->second, &c->save, write_snapshot, c);
}

static lq_status replay_some(journal *j)
{
    cut *c = &j->cut;
    record r;
    const char *reason;
    for (int i = 0; i < RECORDS_OF_STEP; i++) {
        piece_answer answer = piece_next(j, &c->old, &r);
        if (answer == PIECE_END) return begin_save(j);
        if (answer != PIECE_RECORD) return answered(answer);
        uint64_t changes = lq_changes(&c->second);
        if (r.change <= changes) continue;
        if (r.change != changes + 1) return LQ_BAD_SAVE;
        lq_status status = replay(&c->second, &r, &reason);
        if (status != LQ_OK) return status;
    }
    return LQ_OK;
}

static lq_status save_some(journal *j)
{
    cut *c = &j->cut;
    lq_status status = lq_save_step(c->save);
    if (status != LQ_OK) return status;
    if (lq_save_is_done(c->save))
        c->step = CUT_PLACE;
    else if (c->written - c->synced < SYNC_SIZE)
        return LQ_OK;
    c->synced = c->written;
    return sync_file(c->file) ? LQ_OK : LQ_SYSTEM;
}

/* The new snapshot gets its name, and `journal.old` goes. If it doesn't, its changes are passed over. As piece_create says,
   the folder is synced before too. */
static lq_status place(journal *j)
{
    cut *c = &j->cut;
    if (!sync_folder(j) || !rename_in(j, "snapshot.new", "snapshot")) return LQ_SYSTEM;
    if (!sync_folder(j) || !remove_in(j, "journal.old")) return LQ_SYSTEM;
    j->snapshot_size = c->written;
    j->has_old = false;
    c->pause = 0;
    cut_end(j);
    return LQ_OK;
}

/* ---- a turn ---- */

static lq_status step(journal *j)
{
    switch (j->cut.step) {
    case CUT_NONE: return begin(j);
    case CUT_LOAD: return load_some(j);
    case CUT_REPLAY: return replay_some(j);
    case CUT_SAVE: return save_some(j);
    case CUT_PLACE: return place(j);
    }
    return LQ_OK;
}

/* The next attempt comes after twice the time of the last. */
static void put_off(journal *j)
{
    cut *c = &j->cut;
    cut_end(j);
    c->pause = c->pause ? 2 * c->pause : LEAST_PAUSE * MILLISECOND;
    if (c->pause > MOST_PAUSE * MILLISECOND) c->pause = MOST_PAUSE * MILLISECOND;
    c->due = now() + c->pause;
}

lq_status cut_turn(journal *j, int32_t *fault)
{
    int64_t end = now() + SLICE_TIME * MILLISECOND;
    lq_status status = LQ_OK;
    if (!is_due(j) || (j->cut.step == CUT_NONE && now() < j->cut.due)) return LQ_OK;
    if (!j->has_old && (!keep_sync(j) || !put_new(j))) status = LQ_SYSTEM;
    while (status == LQ_OK && j->has_old && now() < end) status = step(j);
    if (status == LQ_OK) return LQ_OK;
    *fault = status == LQ_SYSTEM ? errno : 0;
    put_off(j);
    remove_in(j, "journal.new");
    remove_in(j, "snapshot.new");
    return status;
}

int64_t cut_due(const journal *j)
{
    if (j->cut.step != CUT_NONE) return 0;
    return is_due(j) ? j->cut.due : INT64_MAX;
}
