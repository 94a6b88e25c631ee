/* The system's events. Each one says only where to look. */
#include "folder.h"

enum { READS = 2, MANY_NAMES = 4000 };

/* All is looked at again at once. */
static void note_overflow(folder *f)
{
    notice_put(f, LQ_NOTICE_OVERFLOW, 0, NULL, 0);
    f->trouble.is_again = true;
    f->trouble.due = 0;
}

/* The halves of a rename have one cookie; only of the last one the second half may be unread. */
static void note_cookie(folder *f, const struct inotify_event *event)
{
    if (event->mask & IN_MOVED_FROM) f->lost_cookie = event->cookie;
    if (event->mask & IN_MOVED_TO && event->cookie == f->lost_cookie) f->lost_cookie = 0;
}

static void take_name(folder *f, const struct inotify_event *event, uint32_t slot)
{
    size_t size = strlen(event->name);
    if (!is_skipped(f, event->name, size)) pending_add(f, slot, event->name, size, event->mask, event->cookie);
}

/* An event of a folder itself: its name in the one above is looked at. */
static void take_itself(folder *f, const struct inotify_event *event, uint32_t slot)
{
    char name[DISK_NAME_ROOM];
    uint32_t above;
    if (slot == 0) {
        f->is_root_lost |= (event->mask & (IN_IGNORED | IN_DELETE_SELF)) != 0;
        f->checked = 0;
        if (event->mask & (IN_ATTRIB | IN_IGNORED)) list_later(f, 0, event->mask & IN_IGNORED);
        return;
    }
    if (!(event->mask & (IN_IGNORED | IN_UNMOUNT | IN_ATTRIB))) return;
    size_t size = place_of(f, slot, &above, name);
    if (size) pending_add(f, above, name, size, event->mask & IN_ATTRIB ? IN_ATTRIB : BY_LISTING, 0);
}

static void take_for(folder *f, const struct inotify_event *event, uint32_t slot)
{
    if (event->len) take_name(f, event, slot);
    else take_itself(f, event, slot);
}

/* An event, for each entry that has its watch: a bind mount shows a folder at two places. */
static void take_for_all(folder *f, const struct inotify_event *event, uint32_t slot)
{
    uint32_t twin = f->has_twins ? first_of_inode(f, entry_in(f, slot)->inode) : NONE;
    for (; twin != NONE; twin = entry_in(f, twin)->next_identity)
        if (twin != slot && entry_in(f, twin)->watch == event->wd) take_for(f, event, twin);
    take_for(f, event, slot);
    if (!event->len && event->mask & IN_IGNORED) watch_gone(f, slot);
}

static void take_event(folder *f, const struct inotify_event *event)
{
    uint32_t slot = slot_of_watch(f, event->wd);
    TRACE("event watch %d mask %x cookie %u slot %d %.60s", event->wd, event->mask, event->cookie, (int)slot,
          event->len ? event->name : "");
    note_cookie(f, event);
    if (event->mask & IN_Q_OVERFLOW) note_overflow(f);
    else if (slot != NONE) take_for_all(f, event, slot);
}

/* Reads the queue once: whether there were events. */
static bool read_events(folder *f, bool *is_empty)
{
    ssize_t got = read(f->events, f->event_buffer, EVENTS_SIZE);
    *is_empty = got < 0 && errno == EAGAIN;
    if (got < 0 && errno != EAGAIN && errno != EINTR) want_again(f, errno);
    for (const char *it = f->event_buffer; got > 0 && it < f->event_buffer + got;) {
        const struct inotify_event *event = (const struct inotify_event *)(const void *)it;
        take_event(f, event);
        it += sizeof *event + event->len;
    }
    return got > 0;
}

bool take_events(folder *f, bool *is_empty)
{
    bool has_any = false;
    *is_empty = f->events < 0;
    for (int i = 0; i < READS && f->events >= 0; i++) {
        if (i > 0 && f->pending.count >= MANY_NAMES) break;
        if (!read_events(f, is_empty)) break;
        has_any = true;
    }
    return has_any;
}
