/* What is on disk at a name, and whether it is what an entry says. */
#include "folder.h"

enum { OVERLAY_TYPE = 0x794c7630, MOUNT_ROOT = 0x2000 /* in stx_attributes, from Linux 5.8 on */ };

/* The index of a device, or 0 where memory is refused for it: then `*is_known` is false. */
static uint16_t device_index(folder *f, uint64_t number, bool *is_known)
{
    *is_known = true;
    for (uint32_t i = f->device_count; i-- > 0;)
        if (f->devices[i].number == number) return (uint16_t)i;
    device *devices =
        f->device_count < UINT16_MAX ? realloc(f->devices, (f->device_count + 1) * sizeof *devices) : NULL;
    *is_known = devices != NULL;
    if (!devices) return 0;
    f->devices = devices;
    devices[f->device_count] = (device){.number = number};
    return (uint16_t)f->device_count++;
}

static int64_t nanoseconds(const struct statx_timestamp *time)
{
    return (int64_t)((uint64_t)time->tv_sec * (uint64_t)SECOND + time->tv_nsec);
}

static entry_kind kind_of(uint32_t mode)
{
    switch (mode & S_IFMT) {
    case S_IFREG: return KIND_FILE;
    case S_IFDIR: return KIND_FOLDER;
    case S_IFLNK: return KIND_LINK;
    default: return KIND_OTHER;
    }
}

/* ---- file systems ---- */

/* Those that tell of no change which another machine, or a program behind them, makes. */
static bool is_silent_type(uint32_t type)
{
    static const uint32_t types[] = {
        0x6969, 0x517b, 0xff534d42, 0xfe534d42, 0x65735546, /* NFS, SMB, CIFS, SMB2, FUSE */
        0x01021997, 0x00c36400, 0x5346414f, 0x6b414653,     /* 9P, Ceph, AFS and its other number */
        0x73757245, 0x564c, 0x01161970, 0x7461636f, 0x0bd00bd0, /* Coda, NCP, GFS2, OCFS2, Lustre */
    };
    for (size_t i = 0; i < sizeof types / sizeof *types; i++)
        if (type == types[i]) return true;
    return false;
}

/* Those whose times differ once they were asked for, from Linux 6.13 on, if they have births. */
static bool is_fine_type(uint32_t type)
{
    return type == 0xef53 || type == 0x58465342 || type == 0x9123683e || type == 0x01021994 /* ext4, XFS, Btrfs, tmpfs */
           || type == OVERLAY_TYPE; /* it has the times of the one below it */
}

/* Asks what a device is; `file` is on it. */
static void test_device(const folder *f, device *it, int file)
{
    struct statfs about;
    if (fstatfs(file, &about) != 0) return;
    it->is_tested = true;
    it->is_silent = is_silent_type((uint32_t)about.f_type);
    it->can_be_fine = f->has_new_kernel && is_fine_type((uint32_t)about.f_type);
    it->is_overlay = (uint32_t)about.f_type == OVERLAY_TYPE;
}

static uint64_t number_of(const struct statx *s)
{
    return (uint64_t)s->stx_dev_major << 32 | s->stx_dev_minor;
}

/* The same of what is at a name, which may be the place of a mount. */
static void test_device_at(const folder *f, device *it, int file, const char *name)
{
    struct statx s;
    int there = *name ? openat(file, name, O_PATH | O_NOFOLLOW | O_CLOEXEC) : file;
    if (there < 0) return;
    if (statx(there, "", AT_EMPTY_PATH, 0, &s) == 0 && number_of(&s) == it->number) test_device(f, it, there);
    if (there != file) close(there);
}

bool is_silent(folder *f, uint32_t slot, int file)
{
    device *it = &f->devices[entry_in(f, slot)->device];
    if (!it->is_tested) test_device(f, it, file);
    return it->is_silent;
}

void devices_forget(folder *f)
{
    for (uint32_t i = 0; i < f->device_count; i++) f->devices[i] = (device){.number = f->devices[i].number};
}

/* ---- looking ---- */

/* False: no memory for a device. */
static bool observe(folder *f, const struct statx *s, observed *out)
{
    bool is_known, is_folder = (s->stx_mode & S_IFMT) == S_IFDIR;
    uint32_t rights = s->stx_mode ^ s->stx_uid * 2654435761u ^ s->stx_gid * 2246822519u;
    *out = (observed){.inode = s->stx_ino, .kind = (uint8_t)kind_of(s->stx_mode), .links = s->stx_nlink,
                      .is_mount = s->stx_attributes & MOUNT_ROOT};
    out->device = device_index(f, number_of(s), &is_known);
    if (!is_known) return false;
    /* a birth time of 0 that is told is that of a tool for images: no file that was made since has it */
    if (s->stx_mask & STATX_BTIME) out->born = nanoseconds(&s->stx_btime) ? nanoseconds(&s->stx_btime) : 1;
    out->ctime = nanoseconds(&s->stx_ctime);
    out->time = is_folder ? 0 : s->stx_mtime.tv_sec;
    out->size = is_folder ? 0 : s->stx_size;
    out->detail = is_folder ? rights : s->stx_mtime.tv_nsec;
    out->rights = is_folder ? -1 : -1 - (int32_t)((rights ^ s->stx_nlink * 3266489917u) & INT32_MAX);
    return true;
}

bool is_for_want_of_room(int fault)
{
    return fault == EMFILE || fault == ENFILE || fault == ENOMEM;
}

bool is_passing(int fault)
{
    return is_for_want_of_room(fault) || fault == EIO || fault == EINTR || fault == EAGAIN;
}

look_answer look(folder *f, int file, const char *name, observed *out)
{
    const int flags = AT_SYMLINK_NOFOLLOW | AT_NO_AUTOMOUNT | AT_EMPTY_PATH;
    struct statx s;
    if (statx(file, name, flags, STATX_BASIC_STATS | STATX_BTIME, &s) == 0) {
        if (kind_of(s.stx_mode) == KIND_FOLDER && is_left_out(f, number_of(&s), s.stx_ino)) return LOOK_ABSENT;
        if (!observe(f, &s, out)) {
            want_memory(f);
            return LOOK_FAILED;
        }
        device *on = &f->devices[out->device];
        if (!on->is_tested) test_device_at(f, on, file, name);
        on->is_fine = on->can_be_fine && out->born; /* small inodes have no births, and times of a second */
        return LOOK_THERE;
    }
    if (errno == ENOENT || errno == ENOTDIR || errno == ENAMETOOLONG) return LOOK_ABSENT;
    return errno == EACCES ? LOOK_DENIED : LOOK_FAILED;
}

/* ---- identity ---- */

enum { NO_HANDLE = 1, YOUNG = 40 }; /* a generation; milliseconds: more than a tick */

/* The generation of a file, mixed from its handle: at least 2, or NO_HANDLE. */
static uint32_t generation_of(int file, const char *name)
{
    enum { HANDLE_SIZE = 128, HANDLE_OF_ANY = 0x200 };
    struct {
        uint32_t size;
        int32_t type;
        unsigned char at[HANDLE_SIZE];
    } handle = {.size = HANDLE_SIZE};
    int mount, empty = *name ? 0 : AT_EMPTY_PATH;
    /* overlay gives a handle only where it is asked for one that can't be opened */
    if (syscall(SYS_name_to_handle_at, file, name, &handle, &mount, empty)) {
        handle.size = HANDLE_SIZE;
        if (syscall(SYS_name_to_handle_at, file, name, &handle, &mount, empty | HANDLE_OF_ANY)) return NO_HANDLE;
    }
    uint32_t mixed = 2166136261u;
    for (uint32_t i = 0; i < handle.size && i < HANDLE_SIZE; i++) mixed = (mixed ^ handle.at[i]) * 16777619u;
    return mixed > NO_HANDLE ? mixed : mixed + 2;
}

/* Others may have the birth of a file that is younger: so may one that has its inode's number by now. */
static bool is_young(int64_t born, int64_t time)
{
    return time - born < YOUNG * MILLISECOND;
}

void read_generation(const folder *f, observed *seen, int file, const char *name)
{
    const device *on = &f->devices[seen->device];
    bool is_sure = seen->born && !on->is_overlay && (on->is_fine || !is_young(seen->born, f->wall));
    if (!is_sure && !seen->generation) seen->generation = generation_of(file, name);
}

/* Without a handle, a birth is an identity once a file was there after all that have the same. */
static bool is_sure_by_birth(const folder *f, const entry *e)
{
    return !e->generation || (e->generation == NO_HANDLE && e->born && !is_young(e->born, f->rested));
}

bool is_same(const folder *f, const entry *e, observed *seen, int file, const char *name)
{
    if (e->inode != seen->inode || e->device != seen->device || e->kind != seen->kind) return false;
    bool has_birth = e->born == seen->born;
    /* on an overlay a first write gives a file another birth, since it is another one then that stands in for it */
    if (!has_birth && (!f->devices[e->device].is_overlay || !seen->born)) return false;
    if (e->generation <= NO_HANDLE) return has_birth && is_sure_by_birth(f, e);
    if (!seen->generation) seen->generation = generation_of(file, name);
    return seen->generation == e->generation;
}

/* The same entry at its own name, where no move is told of it: so a birth that isn't sure is enough. The folder itself
   may be copied up on an overlay without a handle. */
bool is_still(folder *f, uint32_t slot, observed *seen, int file, const char *name)
{
    entry *e = entry_in(f, slot);
    if (is_same(f, e, seen, file, name)) return true;
    if (e->generation != NO_HANDLE || e->inode != seen->inode || e->device != seen->device || e->kind != seen->kind)
        return false;
    return e->born == seen->born || (slot == 0 && f->devices[e->device].is_overlay);
}

void take_birth(const folder *f, entry *e, const observed *seen)
{
    bool is_copied_up = e->born != seen->born;
    e->born = seen->born;
    if (is_copied_up) e->flags |= IS_STALE; /* a folder */
    if (e->generation == NO_HANDLE && e->born && !is_young(e->born, f->wall)) e->generation = 0;
}

/* The number at the front of a text, which is moved after it. */
static unsigned number_at(const char **text)
{
    unsigned it = 0;
    while (**text >= '0' && **text <= '9' && it < 100000) it = it * 10 + (unsigned)(*(*text)++ - '0');
    return it;
}

bool has_fine_kernel(void)
{
    enum { FIELDS = 6, FIELD_SIZE = 65, RELEASE = 2 };
    char names[FIELDS][FIELD_SIZE] = {{0}};
    if (syscall(SYS_uname, names)) return false;
    const char *release = names[RELEASE];
#ifdef LQ_FOLDER_OLD_KERNEL /* for tests */
    release = "6.12";
#endif
    unsigned major = number_at(&release);
    if (*release != '.') return false;
    release++;
    return major > 6 || (major == 6 && number_at(&release) >= 13);
}

void descriptor_path(char *out, int file)
{
    static const char front[] = "/proc/self/fd/";
    char digits[12];
    size_t count = 0;
    unsigned left = (unsigned)file;
    do digits[count++] = (char)('0' + left % 10);
    while (left /= 10);
    memcpy(out, front, sizeof front - 1);
    out += sizeof front - 1;
    while (count) *out++ = digits[--count];
    *out = 0;
}
