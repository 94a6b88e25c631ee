/* The calls of lq_journal.h: each tests its arguments, as c/lq.c does. */
#include "journal.h"

/* ---- tests of arguments ---- */

/* The tag of a journal that is open. It has the address in it, so a copy elsewhere isn't open. */
static uint64_t open_tag(const lq_journal *it)
{
    return UINT64_C(0x6c712d6a6f75726e) ^ (uint64_t)(uintptr_t)it;
}

static journal *journal_of(const lq_journal *it)
{
    return it && it->at && it->tag == open_tag(it) ? it->at : NULL;
}

/* ---- opening ---- */

/* Makes the folder, if there is none, and opens it. */
static bool open_folder(journal *j, const char *path)
{
    bool is_new = !mkdir(path, 0777);
    if (!is_new && errno != EEXIST) return false;
    j->dir = openat(AT_FDCWD, path, O_RDONLY | O_DIRECTORY | O_CLOEXEC);
    if (j->dir < 0 || !is_new) return j->dir >= 0;
    int above = openat(j->dir, "..", O_RDONLY | O_DIRECTORY | O_CLOEXEC);
    if (above < 0) return false;
    bool is_synced = !fsync(above);
    int fault = errno;
    close(above);
    errno = fault;
    return is_synced;
}

static lq_status open_journal(journal *j, lq *handle, uint32_t version, const char *path, lq_journal_report *report)
{
    if (!open_folder(j, path)) {
        report->fault = errno;
        return LQ_SYSTEM;
    }
    lq_status status = lock_folder(j, &report->fault);
    return status == LQ_OK ? open_files(j, handle, version, report) : status;
}

static char *copy(const char *text, size_t size)
{
    char *made = malloc(size + 1);
    if (!made) return NULL;
    memcpy(made, text, size);
    made[size] = 0;
    return made;
}

static journal *journal_new(const lq_journal_options *options)
{
    journal *j = calloc(1, sizeof *j);
    if (!j) return NULL;
    j->options = *options;
    if (!j->options.least) j->options.least = LEAST_SIZE;
    if (j->options.sync != LQ_SYNC_NEVER && j->options.sync > INT32_MAX) j->options.sync = INT32_MAX;
    j->process = getpid();
    j->dir = j->lock = j->file = j->cut.file = j->cut.old.file = -1;
    kept_checksums(&j->table);
    return j;
}

lq_status lq_journal_open_as(lq_journal *it, lq *handle, uint32_t version, const char *path, size_t path_size,
                             const lq_journal_options *options, lq_journal_report *report)
{
    static const lq_journal_options no_options = LQ_JOURNAL_OPTIONS_INIT;
    lq_journal_report unwanted;
    lq probe = LQ_INIT;
    if (!it || journal_of(it) || !handle || (!path && path_size)) return LQ_MISUSE;
    lq_status status = lq_volume_open_as(&probe, version); /* tests the version */
    if (status != LQ_OK) return status;
    lq_volume_close(&probe);
    if (lq_clear_bound(handle) == LQ_OK) return LQ_MISUSE;
    if (!report) report = &unwanted;
    *report = (lq_journal_report){0};
    if (path_size == 0 || path_size > LQ_PATH_SIZE || memchr(path, 0, path_size)) return LQ_TOO_LONG;
    journal *j = journal_new(options ? options : &no_options);
    char *text = copy(path, path_size);
    status = j && text ? open_journal(j, handle, version, text, report) : LQ_NO_MEMORY;
    free(text);
    if (status != LQ_OK) {
        lq_volume_close(handle);
        if (j) close_files(j);
        free(j);
        return status;
    }
    j->handle = handle;
    keep_begin(j);
    it->at = j;
    it->tag = open_tag(it);
    return LQ_OK;
}

/* ---- closing ---- */

/* Closes them as they are. */
void close_files(journal *j)
{
    cut_end(j);
    if (j->file >= 0) close(j->file);
    unlock_folder(j); /* last, so that nothing is open when another has it */
    if (j->dir >= 0) close(j->dir);
    j->file = j->dir = -1;
}

lq_status lq_journal_close(lq_journal *it)
{
    journal *j = journal_of(it);
    if (!j) return LQ_MISUSE;
    bool is_well = is_child(j) || ((!j->trouble || mend(j)) && keep_sync(j));
    if (!is_well) is_well = mend(j); /* a later sync of this file wouldn't bring to disk what this one has lost */
    lq *handle = j->handle;
    *it = (lq_journal)LQ_JOURNAL_INIT;
    if (handle) lq_volume_close(handle);
    close_files(j);
    free(j);
    return is_well ? LQ_OK : LQ_UNKEPT;
}

/* ---- turns ---- */

static int64_t least(int64_t one, int64_t other) { return one < other ? one : other; }

uint64_t lq_journal_due(const lq_journal *it)
{
    const journal *j = journal_of(it);
    int64_t due = INT64_MAX;
    if (!j || !j->handle || j->process != getpid()) return UINT64_MAX;
    if (j->trouble)
        due = j->mend_due;
    else {
        if (j->synced != j->size && j->options.sync != LQ_SYNC_NEVER)
            due = j->since + (int64_t)j->options.sync * MILLISECOND;
        due = least(due, cut_due(j));
    }
    if (due == INT64_MAX) return UINT64_MAX;
    int64_t time = now();
    return due <= time ? 0 : (uint64_t)((due - time + MILLISECOND - 1) / MILLISECOND);
}

lq_status lq_journal_turn(lq_journal *it, lq_journal_turned *out)
{
    journal *j = journal_of(it);
    if (!j || !out) return LQ_MISUSE;
    if (is_child(j) || !j->handle) {
        *out = (lq_journal_turned){.due = UINT64_MAX};
        return LQ_NOT_OPEN;
    }
    lq_status status = LQ_OK;
    int32_t fault = 0;
    j->is_held = false;
    if (j->trouble && now() >= j->mend_due) mend(j);
    if (!j->trouble && j->options.sync != LQ_SYNC_NEVER && j->synced != j->size &&
        now() - j->since >= (int64_t)j->options.sync * MILLISECOND)
        keep_sync(j);
    if (!j->trouble) status = cut_turn(j, &fault);
    if (j->trouble) {
        status = LQ_HALTED;
        fault = j->fault;
    }
    *out = (lq_journal_turned){.due = lq_journal_due(it),
                               .size = j->size,
                               .unsynced = j->change - j->synced_change,
                               .cutting = j->has_old,
                               .halted = j->trouble != NO_TROUBLE,
                               .fault = fault};
    return status;
}

lq_status lq_journal_sync(lq_journal *it)
{
    journal *j = journal_of(it);
    if (!j) return LQ_MISUSE;
    if (is_child(j) || !j->handle) return LQ_NOT_OPEN;
    j->is_held = false;
    return !j->trouble && keep_sync(j) ? LQ_OK : LQ_HALTED;
}

lq_status lq_journal_hold(lq_journal *it)
{
    journal *j = journal_of(it);
    if (!j) return LQ_MISUSE;
    if (is_child(j) || !j->handle) return LQ_NOT_OPEN;
    j->is_held = true;
    return LQ_OK;
}
