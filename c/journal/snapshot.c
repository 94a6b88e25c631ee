/* The snapshot: a volume as lq_save writes it. */
#include "journal.h"

ptrdiff_t read_snapshot(void *user, void *bytes, size_t room)
{
    const cut *c = user;
    ssize_t got;
    do got = read(c->file, bytes, room);
    while (got < 0 && errno == EINTR);
    return got;
}

ptrdiff_t write_snapshot(void *user, const void *bytes, size_t size)
{
    cut *c = user;
    if (!write_all(c->file, bytes, size, c->written)) return -1;
    c->written += size;
    return (ptrdiff_t)size;
}

lq_status snapshot_load(journal *j, lq *handle, uint32_t version, lq_journal_report *report)
{
    cut reading = {.file = open_in(j, "snapshot", O_RDONLY)};
    if (reading.file < 0 && errno == ENOENT) return lq_volume_open_as(handle, version);
    lq_status status = reading.file >= 0 && size_of(reading.file, &j->snapshot_size) ? LQ_OK : LQ_SYSTEM;
    if (status == LQ_OK) status = lq_load_as(handle, version, read_snapshot, &reading);
    report->fault = status == LQ_SYSTEM ? errno : 0;
    if (reading.file >= 0) close(reading.file);
    if (status == LQ_OK || status == LQ_NO_MEMORY) return status;
    report->file = LQ_FILE_SNAPSHOT;
    if (status == LQ_SYSTEM) return status;
    report->place = lq_fault_place(handle);
    report->reason = lq_fault_reason(handle);
    return status;
}
