/* The lock of a folder: one journal at a time has it. The system's lock is the process's, and a child of a fork doesn't
   have it; so a program can start anew while children of the one before still live. Since closing any descriptor of the
   file ends that lock, a list tells the journals of this process apart. */
#include "journal.h"

/* The journals of this process, and of the one that it was forked from. */
static journal *journals;

/* The process that has the list; 0: none. One that isn't this process had it when it was forked, and doesn't now. */
static int32_t holder;

static void take_list(void)
{
    int32_t me = getpid();
    for (;;) {
        int32_t had = __sync_val_compare_and_swap(&holder, 0, me);
        if (had == 0 || (had != me && __sync_bool_compare_and_swap(&holder, had, me))) return;
    }
}

static void give_list(void)
{
    __sync_lock_release(&holder);
}

static bool identity(int folder, const char *name, int flags, uint64_t *device, uint64_t *inode)
{
    struct statx it;
    if (statx(folder, name, flags, STATX_BASIC_STATS, &it)) return false;
    *device = (uint64_t)it.stx_dev_major << 32 | it.stx_dev_minor;
    *inode = it.stx_ino;
    return true;
}

/* Closes the descriptors that a parent's journals of this file have left here, as their end would end the new lock. */
static bool is_free(const journal *j)
{
    for (journal *other = journals; other; other = other->next) {
        if (other->lock_device != j->lock_device || other->lock_inode != j->lock_inode) continue;
        if (other->process == j->process && other->lock >= 0) return false;
        if (other->lock >= 0) close(other->lock);
        other->lock = -1;
    }
    return true;
}

static lq_status lock_file(journal *j)
{
    struct flock whole = {.l_type = F_WRLCK, .l_whence = SEEK_SET};
    int made = open_in(j, "lock", O_WRONLY | O_CREAT | O_EXCL);
    if (made >= 0) close(made); /* nobody has locked it yet by a journal that was open before */
    if (!identity(j->dir, "lock", 0, &j->lock_device, &j->lock_inode)) return LQ_SYSTEM;
    if (!is_free(j)) return LQ_LOCKED;
    j->lock = open_in(j, "lock", O_RDWR);
    if (j->lock < 0) return LQ_SYSTEM;
    if (fcntl(j->lock, F_SETLK, &whole)) return errno == EAGAIN || errno == EACCES ? LQ_LOCKED : LQ_SYSTEM;
    j->next = journals;
    journals = j;
    return LQ_OK;
}

lq_status lock_folder(journal *j, int32_t *fault)
{
    take_list();
    lq_status status = lock_file(j);
    *fault = status == LQ_SYSTEM ? errno : 0;
    if (status != LQ_OK && j->lock >= 0) close(j->lock);
    if (status != LQ_OK) j->lock = -1;
    give_list();
    return status;
}

void unlock_folder(journal *j)
{
    take_list();
    for (journal **at = &journals; *at; at = &(*at)->next)
        if (*at == j) {
            *at = j->next;
            break;
        }
    if (j->lock >= 0) close(j->lock);
    j->lock = -1;
    give_list();
}
