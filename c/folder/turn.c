/* A turn: events, the looks that they ask for, listings, and when the next turn is due. */
#include "folder.h"

/* Times in milliseconds. */
enum { IDLE_TIME = 50, CHECK_TIME = 250, RETRY_TIME = 100 };
enum { NAMES_OF_TURN = 4096 };

bool is_volume_open(const folder *f)
{
    lq_info info;
    return lq_entry(f->handle, LQ_ROOT, &info) != LQ_MISUSE;
}

bool is_quiet(const folder *f)
{
    return !f->pending.count && !f->trouble.is_again && !has_work(f);
}

/* Looks whether the folder is where it was opened. */
static bool check_root(folder *f)
{
    if (f->root >= 0 && now() - f->checked < CHECK_TIME * MILLISECOND) return true;
    look_answer answer = root_begin(f);
    if (answer == LOOK_THERE) return true;
    if (answer == LOOK_ABSENT) f->is_gone = true;
    else if (errno == ENOMEM) f->trouble.no_memory = true;
    else f->trouble.fault = errno;
    return false;
}

/* A look at everything, where something went wrong before. */
static void begin_again(folder *f)
{
    trouble *t = &f->trouble;
    if (!t->is_again || now() < t->due) return;
    if (t->is_to_tell) notice_put(f, LQ_NOTICE_AGAIN, 0, NULL, 0);
    t->is_again = t->is_to_tell = false;
    list_later(f, 0, true);
}

static void end_first(folder *f)
{
    f->is_first = false;
    f->is_listed = true;
    free(f->to_list);
    f->to_list = NULL;
    f->to_list_room = 0;
}

/* Gives back the memory of a burst. */
static void give_back(folder *f)
{
    if (!f->pending.count) pending_free(f);
    lines_give_back(f);
    windows_give_back(f);
    bytes_free(&f->path);
    bytes_free(&f->old_path);
    bytes_free(&f->dir_path);
    f->dir = 0;
    nodes_free(&f->tree);
}

/* Descriptors stay open while events come, and a little longer; then they are closed, so that their disk can be
   unmounted. */
static void close_idle(folder *f, bool has_events)
{
    int64_t time = now();
    if (has_events || f->listing.file >= 0 || f->to_list_count || has_missed(f)) f->heard = time;
    if (f->root < 0) return;
    if (time - f->heard >= IDLE_TIME * MILLISECOND || f->is_over) {
        close_folders(f);
        give_back(f);
    } else
        f->due = least(f->due, f->heard + IDLE_TIME * MILLISECOND);
}

/* Takes what has happened; whether more is to be done at once. */
static bool take(folder *f, bool *is_empty)
{
    bool is_measured = !f->is_listed || f->poll.count || f->options.poll; /* for the pauses between polls */
    int64_t start = is_measured ? time_of(CLOCK_THREAD_CPUTIME_ID) : 0;
    if (is_removing(f)) {
        bool is_whole = remove_some(f);
        windows_looked(f);
        if (!is_whole) return true;
    }
    bool has_events = take_events(f, is_empty);
    if (!check_root(f)) return false;
    begin_again(f);
    poll_begin(f);
    bool has_more = settle(f, NAMES_OF_TURN);
    if (!has_more) has_more = mounts_turn(f); /* by paths as they are now */
    poll_end(f, is_measured ? time_of(CLOCK_THREAD_CPUTIME_ID) - start : 0, has_more);
    if (!has_more && !f->is_listed) end_first(f);
    if (!has_more && is_quiet(f)) {
        f->trouble.pause = 0;
        f->is_over = f->options.once;
    }
    close_idle(f, has_events);
    return has_more || (has_events && !*is_empty);
}

/* When the next turn is due, in milliseconds from now. */
static uint64_t due_of(const folder *f, bool has_more)
{
    int64_t due = f->due, time = now();
    if (has_more) return 0;
    if (f->trouble.no_memory || f->trouble.fault) due = least(due, time + RETRY_TIME * MILLISECOND);
    if (!f->is_over && !f->is_gone) {
        if (f->trouble.is_again) due = least(due, f->trouble.due);
        if (f->poll.count || f->options.poll) due = least(due, f->poll.due);
        if (f->events >= 0) due = least(due, f->checked + CHECK_TIME * MILLISECOND);
    }
    if (due == NEVER) return UINT64_MAX;
    return due <= time ? 0 : (uint64_t)((due - time + MILLISECOND - 1) / MILLISECOND);
}

static bool has_untold(const folder *f)
{
    for (size_t i = 0; i < LQ_SLOTS; i++)
        if (f->windows[i] && (f->windows[i]->untold_count || f->windows[i]->is_anew || f->windows[i]->is_overrun))
            return true;
    return false;
}

static bool is_settled(const folder *f, bool is_empty)
{
    if (!f->is_listed || !is_quiet(f) || has_untold(f) || f->mounts_differ || f->has_unsure_mounts
        || f->has_gone_mounts)
        return false;
    if (f->is_over) return true;
    return is_empty && (f->poll.has_ended || (!f->poll.count && !f->options.poll));
}

static lq_status status_of(const folder *f)
{
    if (f->is_gone) return LQ_GONE_FOLDER;
    if (f->trouble.no_memory) return LQ_NO_MEMORY;
    if (f->trouble.fault) return LQ_SYSTEM;
    return f->trouble.is_exhausted ? LQ_EXHAUSTED : LQ_OK;
}

static void begin(folder *f)
{
    f->prefix = 0;
    f->due = NEVER;
    f->wall = time_of(CLOCK_REALTIME_COARSE);
    f->trouble.no_memory = false;
    f->trouble.fault = 0;
    f->poll.has_ended = false;
    f->removals = NAMES_OF_TURN;
    windows_drain(f);
    windows_mend(f);
}

lq_status lq_folder_turn(lq_folder *it, lq_folder_turned *out)
{
    folder *f = folder_of(it);
    if (!f || !out || !is_volume_open(f)) return LQ_MISUSE;
    begin(f);
    bool is_empty = false, has_more = windows_fill(f) || f->lines.end - f->lines.start > LINES_SIZE;
    if (!has_more && !f->is_gone && !f->is_over) {
        has_more = take(f, &is_empty);
        windows_tell(f);
        windows_mend(f);
        has_more |= windows_fill(f);
    }
    bool is_at_rest = !has_more && !f->is_gone && is_settled(f, is_empty);
    if (is_at_rest && f->events >= 0 && !f->poll.count) f->rested = f->wall;
    *out = (lq_folder_turned){.due = due_of(f, has_more),
                              .entries = f->entries.count - 1,
                              .lines = f->lines.count - f->lines.forgotten,
                              .more = has_more,
                              .listed = f->is_listed,
                              .settled = is_at_rest,
                              .fault = f->trouble.fault};
    return status_of(f);
}
