/* What stops changes, and how a turn mends it. */
#include "journal.h"

/* Cuts off what a write that failed may have left. */
static bool cut_back(journal *j)
{
    if (!j->is_torn) return true;
    while (ftruncate(j->file, (int64_t)j->size))
        if (errno != EINTR) return false;
    j->is_torn = false;
    return true;
}

/* The next attempt to mend: each comes after twice the time. */
static void put_off(journal *j)
{
    j->mend_pause = j->mend_pause ? 2 * j->mend_pause : LEAST_PAUSE * MILLISECOND;
    if (j->mend_pause > MOST_PAUSE * MILLISECOND) j->mend_pause = MOST_PAUSE * MILLISECOND;
    j->mend_due = now() + j->mend_pause;
}

void trouble_begin(journal *j, trouble what)
{
    j->fault = errno;
    j->trouble = what;
    if (what == UNWRITTEN) {
        j->is_torn = true;
        cut_back(j); /* if this fails too, the turn does it first */
    }
    j->mend_pause = 0;
    put_off(j);
}

/* Makes `journal.new` of the records, with the same first line. */
static int rewrite(journal *j, const char *name)
{
    uint64_t size;
    int from = open_in(j, name, O_RDONLY);
    if (from < 0) return -1;
    piece p = {.file = -1};
    int to = -1;
    piece_answer answer = piece_begin(j, &p, from);
    if (answer == PIECE_RECORD)
        to = piece_create(j, p.salt, p.first, &size);
    else if (answer != PIECE_FAULT)
        errno = answer == PIECE_NO_MEMORY ? ENOMEM : EIO;
    bool is_done = to >= 0 && piece_copy(j, &p, to, j->size, j->change) && sync_file(to);
    int fault = errno;
    piece_end(&p);
    if (!is_done && to >= 0) close(to);
    errno = fault;
    return is_done ? to : -1;
}

/* A file of which a sync has failed isn't used any more: what it has is written to a new one. */
static bool mend_unsynced(journal *j)
{
    const char *name = j->is_misplaced ? "journal.old" : "journal";
    int made = rewrite(j, name);
    if (made < 0) return false;
    if (!rename_in(j, "journal.new", name)) {
        int fault = errno;
        close(made);
        errno = fault;
        return false;
    }
    close(j->file);
    j->file = made;
    j->synced = j->size;
    j->synced_change = j->change;
    j->trouble = UNPLACED;
    return true;
}

static bool mend_unwritten(journal *j)
{
    if (!cut_back(j)) return false;
    j->is_torn = true;
    if (!write_all(j->file, j->front, j->record_size, j->size)) {
        int fault = errno;
        cut_back(j);
        errno = fault;
        return false;
    }
    j->is_torn = false;
    j->size += j->record_size;
    j->trouble = NO_TROUBLE;
    return keep_sync(j); /* else it is UNSYNCED now */
}

bool mend(journal *j)
{
    if (j->trouble == UNWRITTEN && !mend_unwritten(j)) goto failed;
    if (j->trouble == UNSYNCED && !mend_unsynced(j)) goto failed;
    if (j->trouble == UNPLACED) {
        if (!sync_folder(j)) goto failed;
        j->trouble = NO_TROUBLE;
    }
    j->fault = 0;
    j->mend_pause = 0;
    return true;
failed:
    j->fault = errno;
    put_off(j);
    return false;
}
