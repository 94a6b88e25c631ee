/* Each accepted change is written before its call answers, and synced if the mode wants that. */
#include "journal.h"

int64_t now(void)
{
    struct timespec it;
    clock_gettime(CLOCK_MONOTONIC, &it);
    return (int64_t)it.tv_sec * SECOND + it.tv_nsec;
}

/* Gives the handle back what lq_on_ready has set; it is in memory alone from here on. */
static void let_go(journal *j)
{
    lq *handle = j->handle;
    handle->version &= ~KEPT;
    handle->ready = j->keeper.ready;
    handle->user = j->keeper.user;
    j->handle = NULL;
}

bool is_child(journal *j)
{
    if (getpid() == j->process) return false;
    if (j->handle) let_go(j);
    close_files(j);
    return true;
}

static lq_status may(keeper *it)
{
    journal *j = (journal *)it;
    if (is_child(j)) return LQ_OK;
    return j->trouble ? LQ_HALTED : LQ_OK;
}

/* Whether a line may be one that makes a change. One with `\` may have any word. */
static bool may_change(const char *line, size_t size)
{
    static const char *const words[] = {"\\", "create", "move", "write", "set"};
    for (size_t i = 0; i < sizeof words / sizeof *words; i++) {
        size_t length = strlen(words[i]);
        const char *at = line, *end = line + size;
        while ((size_t)(end - at) >= length && (at = memchr(at, words[i][0], (size_t)(end - at) - length + 1))) {
            if (!memcmp(at, words[i], length)) return true;
            at++;
        }
    }
    return false;
}

static lq_status may_answer(keeper *it, const char *line, size_t size)
{
    lq_status status = may(it);
    return status != LQ_OK && size <= LINE_SIZE && !may_change(line, size) ? LQ_OK : status;
}

bool keep_sync(journal *j)
{
    if (j->synced == j->size) return true;
    if (!sync_file(j->file)) {
        trouble_begin(j, UNSYNCED);
        return false;
    }
    j->synced = j->size;
    j->synced_change = j->change;
    return true;
}

/* In a call of several changes the first that can't be written is the last that `put` writes: those after it are
   refused by `may`. */
static lq_status put(keeper *it, const change *made, const lq_applied *applied)
{
    journal *j = (journal *)it;
    record_build(j, made, applied);
    j->change = applied->change;
    if (!write_all(j->file, j->front, j->record_size, j->size)) {
        trouble_begin(j, UNWRITTEN);
        return LQ_UNKEPT;
    }
    if (j->synced == j->size && j->options.sync && j->options.sync != LQ_SYNC_NEVER) j->since = now();
    j->size += j->record_size;
    return LQ_OK;
}

static bool is_late(const journal *j)
{
    return j->options.sync != LQ_SYNC_NEVER && j->synced != j->size &&
           now() - j->since >= (int64_t)j->options.sync * MILLISECOND;
}

static lq_status end(keeper *it)
{
    journal *j = (journal *)it;
    bool is_due = j->options.sync == LQ_SYNC_ALWAYS ? !j->is_held : is_late(j);
    return is_due && !keep_sync(j) ? LQ_UNKEPT : LQ_OK;
}

static void closed(keeper *it)
{
    journal *j = (journal *)it;
    j->handle = NULL;
}

void keep_begin(journal *j)
{
    j->keeper = (keeper){.may = may, .may_answer = may_answer, .put = put, .end = end, .closed = closed};
    j->handle->version |= KEPT;
    j->handle->user = &j->keeper;
}
