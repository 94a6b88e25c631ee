/* The files in the folder of a journal. */
#include "journal.h"

bool write_all(int file, const char *bytes, size_t size, uint64_t at)
{
    while (size > 0) {
        ssize_t done = pwrite(file, bytes, size, (int64_t)at);
        if (done < 0 && errno == EINTR) continue;
        if (done == 0) errno = EIO;
        if (done <= 0) return false;
        bytes += done;
        size -= (size_t)done;
        at += (size_t)done;
    }
    return true;
}

/* A file's bytes and size. After a fault nothing is known of them, also if a later call says that all is well. */
bool sync_file(int file)
{
    while (fdatasync(file))
        if (errno != EINTR) return false;
    return true;
}

bool sync_folder(const journal *j)
{
    while (fsync(j->dir))
        if (errno != EINTR) return false;
    return true;
}

bool size_of(int file, uint64_t *size)
{
    struct statx it;
    if (statx(file, "", AT_EMPTY_PATH, STATX_BASIC_STATS, &it)) return false;
    *size = it.stx_size;
    return true;
}

int open_in(const journal *j, const char *name, int flags)
{
    return openat(j->dir, name, flags | O_CLOEXEC, 0666);
}

bool remove_in(const journal *j, const char *name)
{
    return !unlinkat(j->dir, name, 0) || errno == ENOENT;
}

bool rename_in(const journal *j, const char *from, const char *to)
{
    return !renameat(j->dir, from, j->dir, to);
}

/* Closes a file, and keeps errno. */
static void close_quietly(int file)
{
    int fault = errno;
    close(file);
    errno = fault;
}

/* Copies the first bytes of one open file to another. */
static bool copy_bytes(int from, int to, uint64_t size, char *buffer)
{
    uint64_t at = 0;
    while (at < size) {
        ssize_t got = read(from, buffer, size - at < BUFFER_SIZE ? size - at : BUFFER_SIZE);
        if (got < 0 && errno == EINTR) continue;
        if (got == 0) errno = EIO;
        if (got <= 0 || !write_all(to, buffer, (size_t)got, at)) return false;
        at += (size_t)got;
    }
    return sync_file(to);
}

bool copy_in(const journal *j, const char *from, const char *to, uint64_t size)
{
    char *buffer = malloc(BUFFER_SIZE);
    int in = buffer ? open_in(j, from, O_RDONLY) : -1;
    int out = in >= 0 ? open_in(j, to, O_WRONLY | O_CREAT | O_TRUNC) : -1;
    bool is_done = out >= 0 && copy_bytes(in, out, size, buffer);
    if (out >= 0) close_quietly(out);
    if (in >= 0) close_quietly(in);
    free(buffer);
    return is_done;
}

/* The name is on disk before it is changed, else after a power cut the new name may be of an earlier file of this name. */
int piece_create(const journal *j, uint32_t salt, uint64_t first, uint64_t *size)
{
    char head[FIRST_LINE_SIZE];
    int file = open_in(j, "journal.new", O_RDWR | O_CREAT | O_TRUNC);
    if (file < 0) return -1;
    *size = put_head(j, head, salt, first);
    if (write_all(file, head, *size, 0) && sync_file(file) && sync_folder(j)) return file;
    close_quietly(file);
    return -1;
}

/* One that no other journal has, but by chance: what is left on a disk of another isn't taken for this one's. */
uint32_t new_salt(const journal *j)
{
    struct timespec it;
    char bytes[32];
    uint64_t words[4];
    clock_gettime(CLOCK_REALTIME, &it);
    words[0] = (uint64_t)it.tv_sec;
    words[1] = (uint64_t)it.tv_nsec;
    words[2] = (uint64_t)(uintptr_t)j ^ (uint64_t)j->process << 48;
    words[3] = j->lock_inode ^ j->lock_device << 32 ^ j->salt;
    memcpy(bytes, words, sizeof bytes);
    return checksum(j, 0, bytes, sizeof bytes);
}
