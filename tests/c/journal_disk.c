/* A journal over a disk that fails and forgets. Each call of the system that a journal makes fails in turn, alone and with
   others after it: each status says what was kept, a turn mends it, and a start at any moment has what was answered. Then
   the power is cut at each call: what wasn't synced is lost in parts, and a start has what was promised. The linker puts
   the calls below in place of the system's. */
#include "journal_acts.h"
#include <stdarg.h>

enum { MOST = 400 };

static bool is_watched; /* whether calls are those of the journal that is tested */
static int64_t skipped; /* nanoseconds that a clock has gone ahead */

/* ---- calls that fail ---- */

static long made, first, failing; /* of the calls that are watched, so many from the `first` on */
static int fault;                 /* their errno; 0: a write that is cut short, and then ENOSPC */
static bool is_memory;            /* growths of memory fail in place of calls of the system */
static unsigned long faults;

static bool fails_of(bool of_memory) {
    if (!is_watched || of_memory != is_memory) return false;
    made++;
    if (made < first || made >= first + failing) return false;
    faults++;
    errno = fault ? fault : ENOSPC;
    return true;
}

static bool fails(void) { return fails_of(false); }

/* ---- what a disk has ---- */

/* A file: what is surely on disk, what the system has, and the writes in between. */
typedef struct op {
    bool is_cut; /* else a write */
    size_t at, size;
    char *bytes;
} op;

typedef struct file {
    text synced, now;
    op ops[64];
    size_t count;
} file;

/* A change of names: `to` gets the file of `from`, or a new one; or `from` goes. */
typedef struct move {
    char from[32], to[32];
    int file;
} move;

typedef struct names {
    char name[8][32];
    int file[8];
    size_t count;
} names;

static bool has_disk; /* whether all this is followed */
static file files[600];
static int file_count, of_descriptor[1024], folder_descriptor;
static names synced_names, now_names;
static move moves[32];
static size_t move_count;
static void power_may_go(void);

static int find_name(const names *in, const char *name) {
    for (size_t i = 0; i < in->count; i++)
        if (!strcmp(in->name[i], name)) return (int)i;
    return -1;
}

static void drop_name(names *in, const char *name) {
    int at = find_name(in, name);
    if (at < 0) return;
    in->count--;
    memcpy(in->name[at], in->name[in->count], sizeof in->name[at]);
    in->file[at] = in->file[in->count];
}

static void put_name(names *in, const char *name, int which) {
    drop_name(in, name);
    if (in->count == 8) abort();
    strcpy(in->name[in->count], name);
    in->file[in->count++] = which;
}

static void apply_move(names *in, const move *it) {
    int at = it->from[0] ? find_name(in, it->from) : -1, which = it->file;
    if (it->from[0] && at < 0) return; /* it isn't there, as what made it was lost */
    if (it->from[0]) which = in->file[at];
    if (it->from[0]) drop_name(in, it->from);
    if (it->to[0]) put_name(in, it->to, which);
}

static void note_move(const char *from, const char *to, int which) {
    if (move_count == 32) abort();
    move *it = &moves[move_count++];
    snprintf(it->from, sizeof it->from, "%s", from);
    snprintf(it->to, sizeof it->to, "%s", to);
    it->file = which;
    apply_move(&now_names, it);
}

static void apply_op(text *to, const op *it, size_t most, const char *bytes) {
    if (it->is_cut) {
        static const char zero[1];
        if (to->size > it->at) to->size = it->at;
        while (to->size < it->at) add(to, zero, 1);
        return;
    }
    while (to->size < it->at + most) add(to, "", 1);
    if (most) memcpy(to->at + it->at, bytes, most);
}

static void note_op(int descriptor, bool is_cut, size_t at, const void *bytes, size_t size) {
    file *f = &files[of_descriptor[descriptor]];
    if (f->count == 64) abort();
    op *it = &f->ops[f->count++];
    *it = (op){.is_cut = is_cut, .at = at, .size = size, .bytes = malloc(size + 1)};
    if (size) memcpy(it->bytes, bytes, size);
    apply_op(&f->now, it, size, it->bytes);
}

static void set_text(text *to, const text *from) {
    to->size = 0;
    if (from->size) add(to, from->at, from->size);
}

/* A sync that fails forgets what wasn't on disk, and a later one doesn't bring it there: so it is on Linux. */
static void note_sync(int descriptor, bool is_done) {
    if (descriptor == folder_descriptor) {
        if (!is_done) return;
        synced_names = now_names;
        move_count = 0;
        return;
    }
    file *f = &files[of_descriptor[descriptor]];
    for (size_t i = 0; i < f->count; i++) {
        if (is_done) apply_op(&f->synced, &f->ops[i], f->ops[i].size, f->ops[i].bytes);
        free(f->ops[i].bytes);
    }
    f->count = 0;
}

/* A write of which only the file's new size is there. */
static void apply_zeros(text *to, const op *it, size_t had) {
    while (to->size < it->at + it->size) add(to, "", 1);
    for (size_t at = it->at > had ? it->at : had; at < it->at + it->size; at++) to->at[at] = 0;
}

/* What is left of a file after a power cut: each write is there, lost, there in parts, or zeros where the disk had none
   of the file's bytes. */
static text remains(const file *f, uint64_t *seed) {
    text out = {0};
    set_text(&out, &f->synced);
    for (size_t i = 0; i < f->count; i++) {
        const op *it = &f->ops[i];
        switch (drawn(seed, 5)) {
        case 0: break;
        case 1: apply_op(&out, it, it->is_cut ? 0 : drawn(seed, it->size + 1), it->bytes); break;
        case 2:
            if (!it->is_cut) {
                apply_zeros(&out, it, f->synced.size);
                break;
            } /* fallthrough */
        default: apply_op(&out, it, it->size, it->bytes);
        }
    }
    return out;
}

/* A folder as it is after a power cut: of the names that weren't synced the first so many changes, or any of them. */
static void make_image(char *out, size_t room, uint64_t *seed) {
    names left = synced_names;
    size_t count = drawn(seed, move_count + 1);
    bool is_prefix = drawn(seed, 2);
    make_folder(out, room);
    for (size_t i = 0; i < move_count; i++)
        if (is_prefix ? i < count : drawn(seed, 2)) apply_move(&left, &moves[i]);
    for (size_t i = 0; i < left.count; i++) {
        text bytes = remains(&files[left.file[i]], seed);
        write_file(out, left.name[i], bytes.at, bytes.size);
        free(bytes.at);
    }
}

static void begin_disk(void) {
    for (int i = 0; i < file_count; i++) {
        for (size_t k = 0; k < files[i].count; k++) free(files[i].ops[k].bytes);
        free(files[i].synced.at);
        free(files[i].now.at);
    }
    memset(files, 0, sizeof files);
    file_count = 0;
    synced_names.count = now_names.count = move_count = 0;
    has_disk = true;
}

/* ---- the calls ---- */

int __real_openat(int at, const char *path, int flags, ...);
int __wrap_openat(int at, const char *path, int flags, ...);
int __wrap_openat(int at, const char *path, int flags, ...) {
    if (fails()) return -1;
    int out = __real_openat(at, path, flags, 0666);
    if (!is_watched || !has_disk || out < 0) return out;
    if (flags & O_DIRECTORY) {
        if (at == AT_FDCWD) folder_descriptor = out;
        return out;
    }
    int found = find_name(&now_names, path);
    if (found < 0) {
        if (file_count == 600 || out >= 1024) abort();
        note_move("", path, file_count++);
        found = find_name(&now_names, path);
    }
    of_descriptor[out] = now_names.file[found];
    if (flags & O_TRUNC) note_op(out, true, 0, NULL, 0);
    if (strcmp(path, "lock")) power_may_go(); /* else the list of journals is held */
    return out;
}

ssize_t __real_pwrite(int out, const void *bytes, size_t size, off_t at);
ssize_t __wrap_pwrite(int out, const void *bytes, size_t size, off_t at);
ssize_t __wrap_pwrite(int out, const void *bytes, size_t size, off_t at) {
    bool is_short = is_watched && !fault && made + 1 == first; /* the next ones fail, if more do */
    if (fails()) {
        if (!is_short || size < 2) return -1;
        size /= 2;
    }
    ssize_t done = __real_pwrite(out, bytes, size, at);
    if (is_watched && has_disk && done > 0) {
        note_op(out, false, (size_t)at, bytes, (size_t)done);
        power_may_go();
    }
    return done;
}

int __real_ftruncate(int out, off_t size);
int __wrap_ftruncate(int out, off_t size);
int __wrap_ftruncate(int out, off_t size) {
    if (fails()) return -1;
    int done = __real_ftruncate(out, size);
    if (is_watched && has_disk && !done) {
        note_op(out, true, (size_t)size, NULL, 0);
        power_may_go();
    }
    return done;
}

static int synced(int out, int (*call)(int)) {
    if (fails()) {
        if (has_disk) note_sync(out, false);
        return -1;
    }
    int done = call(out);
    if (is_watched && has_disk && !done) {
        note_sync(out, true);
        power_may_go();
    }
    return done;
}

int __real_fdatasync(int out);
int __wrap_fdatasync(int out);
int __wrap_fdatasync(int out) { return synced(out, __real_fdatasync); }
int __real_fsync(int out);
int __wrap_fsync(int out);
int __wrap_fsync(int out) { return synced(out, __real_fsync); }

int __real_renameat(int from_at, const char *from, int to_at, const char *to);
int __wrap_renameat(int from_at, const char *from, int to_at, const char *to);
int __wrap_renameat(int from_at, const char *from, int to_at, const char *to) {
    if (fails()) return -1;
    int done = __real_renameat(from_at, from, to_at, to);
    if (is_watched && has_disk && !done) {
        note_move(from, to, -1);
        power_may_go();
    }
    return done;
}

int __real_unlinkat(int at, const char *path, int flags);
int __wrap_unlinkat(int at, const char *path, int flags);
int __wrap_unlinkat(int at, const char *path, int flags) {
    if (fails()) return -1;
    int done = __real_unlinkat(at, path, flags);
    if (is_watched && has_disk && !done) {
        note_move(path, "", -1);
        power_may_go();
    }
    return done;
}

void *__real_malloc(size_t size);
void *__wrap_malloc(size_t size);
void *__wrap_malloc(size_t size) { return fails_of(true) ? NULL : __real_malloc(size); }

void *__real_calloc(size_t count, size_t size);
void *__wrap_calloc(size_t count, size_t size);
void *__wrap_calloc(size_t count, size_t size) { return fails_of(true) ? NULL : __real_calloc(count, size); }

ssize_t __real_read(int in, void *bytes, size_t room);
ssize_t __wrap_read(int in, void *bytes, size_t room);
ssize_t __wrap_read(int in, void *bytes, size_t room) { return fails() ? -1 : __real_read(in, bytes, room); }

int __real_mkdir(const char *path, mode_t mode);
int __wrap_mkdir(const char *path, mode_t mode);
int __wrap_mkdir(const char *path, mode_t mode) { return fails() ? -1 : __real_mkdir(path, mode); }

int __real_statx(int at, const char *path, int flags, unsigned mask, struct statx *out);
int __wrap_statx(int at, const char *path, int flags, unsigned mask, struct statx *out);
int __wrap_statx(int at, const char *path, int flags, unsigned mask, struct statx *out) {
    return fails() ? -1 : __real_statx(at, path, flags, mask, out);
}

int __real_fcntl(int at, int what, ...);
int __wrap_fcntl(int at, int what, ...);
int __wrap_fcntl(int at, int what, ...) {
    va_list list;
    va_start(list, what);
    void *lock = va_arg(list, void *);
    va_end(list);
    return fails() ? -1 : __real_fcntl(at, what, lock);
}

int __real_clock_gettime(clockid_t clock, struct timespec *out);
int __wrap_clock_gettime(clockid_t clock, struct timespec *out);
int __wrap_clock_gettime(clockid_t clock, struct timespec *out) {
    int done = __real_clock_gettime(clock, out);
    if (is_watched) {
        out->tv_sec += skipped / 1000000000;
        out->tv_nsec += skipped % 1000000000;
        if (out->tv_nsec >= 1000000000) out->tv_sec++, out->tv_nsec -= 1000000000;
    }
    return done;
}

/* ---- a run, with its model ---- */

static text dumps[MOST + 1]; /* of the model after each number of changes */
static char path[64];
static uint64_t kept;        /* as many changes were answered, or synced, as the mode promises */

static void make_dumps(void) {
    lq model = LQ_INIT;
    drawing from = {.seed = 11, .nodes = 1};
    OK(lq_volume_open(&model));
    for (uint64_t i = 0; i <= MOST; i++) {
        model_goes_to(&from, &model, i);
        dump(&model, &dumps[i]);
    }
    lq_volume_close(&model);
}

static bool is_model(lq *volume) {
    text now = {0};
    dump(volume, &now);
    bool same = lq_changes(volume) <= MOST && is_same(&now, &dumps[lq_changes(volume)]);
    free(now.at);
    return same;
}

/* A start over a copy of the folder, as it is or as a power cut leaves it. */
static void start_over(const char *copy, uint64_t low, uint64_t high) {
    bool was = is_watched;
    lq volume = LQ_INIT;
    lq_journal journal = LQ_JOURNAL_INIT;
    lq_journal_report report;
    is_watched = false;
    lq_status status = lq_journal_open(&journal, &volume, copy, strlen(copy), NULL, &report);
    CHECK(status == LQ_OK);
    if (status == LQ_OK) {
        CHECK(lq_changes(&volume) >= low && lq_changes(&volume) <= high && is_model(&volume));
        if (failures)
            fprintf(stderr, "%llu changes, wanted %llu to %llu\n", (unsigned long long)lq_changes(&volume),
                    (unsigned long long)low, (unsigned long long)high);
        OK(lq_journal_close(&journal));
    } else
        fprintf(stderr, "status %u, file %u, place %llu, %s\n", status, report.file, (unsigned long long)report.place,
                report.reason ? report.reason : "no reason");
    is_watched = was;
}

typedef struct run {
    lq volume;
    lq_journal journal;
    lq_journal_options options;
    lq_journal_turned turned;
    drawing from;
    bool is_open, has_halted;
    bool is_held; /* a batch: what is answered may be lost in a power cut, up to the next turn */
} run;

static void open_run(run *r) {
    lq_journal_report report;
    is_watched = true;
    lq_status status = lq_journal_open(&r->journal, &r->volume, path, strlen(path), &r->options, &report);
    is_watched = false;
    CHECK(status == LQ_OK || (failing && (status == LQ_SYSTEM || status == LQ_LOCKED || status == LQ_NO_MEMORY)));
    r->is_open = status == LQ_OK;
    if (r->is_open) CHECK(is_model(&r->volume) && lq_changes(&r->volume) >= kept);
}

/* Does the next change, which a halted journal refuses; and counts what is kept. */
static void act_once(run *r) {
    drawing before = r->from;
    uint64_t changes = lq_changes(&r->volume);
    is_watched = true;
    lq_status status = next_act(&r->from, &r->volume);
    is_watched = false;
    CHECK(lq_changes(&r->volume) - changes <= 1);
    if (status == LQ_HALTED || (status == LQ_NO_MEMORY && lq_changes(&r->volume) == changes)) {
        CHECK(failing && lq_changes(&r->volume) == changes);
        r->from = before;
        r->has_halted = true;
        return;
    }
    if (status == LQ_UNKEPT) CHECK(failing && lq_changes(&r->volume) == changes + 1);
    else if ((r->options.sync == LQ_SYNC_ALWAYS && !r->is_held) || !has_disk) kept = lq_changes(&r->volume);
    if (status == LQ_UNKEPT) r->has_halted = true;
}

static void turn_once(run *r) {
    is_watched = true;
    lq_status status = lq_journal_turn(&r->journal, &r->turned);
    is_watched = false;
    CHECK(status == LQ_OK || (failing && (status == LQ_HALTED || status == LQ_SYSTEM || status == LQ_NO_MEMORY)));
    CHECK((status == LQ_HALTED) == r->turned.halted);
    r->is_held = false;
    if (!r->turned.halted) kept = lq_changes(&r->volume) - (has_disk ? r->turned.unsynced : 0);
}

static void hold_once(run *r) {
    OK(lq_journal_hold(&r->journal));
    r->is_held = true;
}

/* All that a journal does: opening, changes, cutting anew, closing, opening again. */
static void go(run *r, uint64_t changes) {
    open_run(r);
    for (int tries = 0; !r->is_open && tries < 3; tries++) open_run(r);
    while (r->is_open && lq_changes(&r->volume) < changes && !failures) {
        uint64_t was = lq_changes(&r->volume);
        act_once(r);
        if (lq_changes(&r->volume) == was && r->has_halted) break;
        if (lq_changes(&r->volume) % 5 == 0) turn_once(r);
    }
}

/* Closes it, where the journal may have failed. */
static void close_run(run *r) {
    CHECK(is_model(&r->volume));
    is_watched = true;
    lq_status status = lq_journal_close(&r->journal);
    is_watched = false;
    CHECK(status == LQ_OK || (failing && status == LQ_UNKEPT));
    r->is_open = false;
}

/* Some acts, of whose calls of the system `count` fail from number `at` on. */
static void begin_run(run *r, long at, long count, int with, uint64_t sync) {
    *r = (run){.volume = LQ_INIT, .journal = LQ_JOURNAL_INIT, .options = {.sync = sync, .least = 1500}};
    r->from = (drawing){.seed = 11, .nodes = 1};
    has_disk = false;
    made = 0;
    first = at;
    failing = count;
    fault = with;
    kept = 0;
    make_folder(path, sizeof path);
    go(r, 70);
}

static void fail_at(long at, long count, int with, uint64_t sync) {
    run r;
    char copy[64];
    begin_run(&r, at, count, with, sync);
    if (r.is_open) {
        uint64_t all = lq_changes(&r.volume);
        copy_folder(path, copy, sizeof copy); /* killed now */
        start_over(copy, kept, all);
        remove_folder(copy);
        close_run(&r);
        copy_folder(path, copy, sizeof copy); /* or ended, as well as it can */
        start_over(copy, kept, all);
        remove_folder(copy);
    }
    open_run(&r);
    if (failing && made < first + failing) failing = 0; /* the rest goes well */
    if (!r.is_open) open_run(&r);
    failing = 0;
    if (!r.is_open) open_run(&r);
    CHECK(r.is_open);
    if (!r.is_open) return;
    r.from = (drawing){.seed = 11, .nodes = 1}; /* go on from what is there */
    lq model = LQ_INIT;
    OK(lq_volume_open(&model));
    model_goes_to(&r.from, &model, lq_changes(&r.volume));
    lq_volume_close(&model);
    r.has_halted = false;
    while (lq_changes(&r.volume) < 90 && !failures) {
        act_once(&r);
        if (r.has_halted) break;
    }
    CHECK(!r.has_halted);
    close_run(&r);
    start_over(path, 90, 90);
    remove_folder(path);
}

/* The same, but the journal goes on: turns mend it, and then all is kept. */
static void mend_at(long at, long count, int with, uint64_t sync) {
    run r;
    char copy[64];
    begin_run(&r, at, count, with, sync);
    for (int i = 0; r.is_open && r.has_halted && i < 100; i++) {
        skipped += 61000000000;
        turn_once(&r);
        if (!r.turned.halted) break;
        if (i == 99) CHECK(!"it isn't mended");
    }
    failing = 0;
    if (r.is_open) {
        r.has_halted = false;
        CHECK(kept == lq_changes(&r.volume));
        copy_folder(path, copy, sizeof copy);
        start_over(copy, kept, kept);
        remove_folder(copy);
        while (lq_changes(&r.volume) < 80 && !failures && !r.has_halted) act_once(&r);
        CHECK(!r.has_halted);
        close_run(&r);
        start_over(path, 80, 80);
    }
    remove_folder(path);
}

static void failing_calls(long each) {
    static const uint64_t syncs[] = {LQ_SYNC_ALWAYS, LQ_SYNC_NEVER};
    static const int with[] = {EIO, ENOSPC, EINTR, 0};
    long all = 0;
    for (size_t s = 0; s < 3; s++) {
        is_memory = s == 2;
        fail_at(0, 0, EIO, syncs[s % 2]);
        for (long at = 1 + (long)s, most = made; at <= most && !failures; at += each, all++)
            for (size_t i = 0; i < (is_memory ? 1 : 4) && !failures; i++) {
                fail_at(at, i == 3 ? 2 : 1, with[i], syncs[s % 2]);
                if (!failures) mend_at(at, i == 3 ? 2 : 1, with[i], syncs[s % 2]);
                if (i < 2 && !failures) fail_at(at, 1000000, with[i], syncs[s % 2]);
                if (i < 2 && !failures) mend_at(at, 25, with[i], syncs[s % 2]);
                if (failures)
                    fprintf(stderr, "with call %ld of %ld failing by %d, mode %zu\n", at, most, with[i], s);
            }
    }
    is_memory = false;
    printf("journal_disk: %ld calls and growths, %lu faults\n", all, faults);
}

/* ---- power cuts ---- */

static uint64_t power_seed, images, kills;
static uint64_t each_call; /* one of so many calls is looked at; 0: none */

/* Called after each call that changes the disk. */
static void power_may_go(void) {
    char image[64];
    uint64_t seed = power_seed;
    if (!each_call || failures || drawn(&power_seed, each_call)) return;
    is_watched = false;
    make_image(image, sizeof image, &power_seed);
    start_over(image, kept, MOST);
    if (failures)
        fprintf(stderr, "power cut %llu, seed %llu, %s\n", (unsigned long long)images, (unsigned long long)seed, image);
    else
        remove_folder(image);
    images++;
    is_watched = true;
}

/* With a call that fails, if `at` isn't 0: what was synced before it, or since it was mended, is there. */
static void power_cuts(uint64_t seed, uint64_t each, long at) {
    static const uint64_t syncs[] = {LQ_SYNC_ALWAYS, 20, LQ_SYNC_NEVER};
    power_seed = seed;
    fault = EIO;
    for (size_t s = 0; s < (at ? 1 : 3) && !failures; s++) {
        run r = {.volume = LQ_INIT, .journal = LQ_JOURNAL_INIT, .options = {.sync = syncs[s], .least = 2000}};
        r.from = (drawing){.seed = 11, .nodes = 1};
        begin_disk();
        each_call = each;
        kept = 0;
        made = 0;
        first = at;
        failing = at ? 1 : 0;
        make_folder(path, sizeof path);
        for (int time = 1; time <= 3 && !failures; time++) {
            for (int tries = 0; !r.is_open && tries < 3; tries++) open_run(&r);
            CHECK(r.is_open);
            for (uint64_t i = 0; lq_changes(&r.volume) < 40u * (unsigned)time && !failures; i++) {
                if (i % 12 == 1) hold_once(&r);
                act_once(&r);
                skipped += r.turned.halted ? 61000000000 : 3000000;
                if (i % 4 == 0 || r.has_halted) turn_once(&r);
                r.has_halted = false;
            }
            close_run(&r);
            kept = 40u * (unsigned)time;
        }
        each_call = 0;
        remove_folder(path);
    }
}

/* A call fails, and the process ends before anything is mended: no further call reaches the disk. A start over what the
   system has is answered, so all that it has is kept from then on. */
static void kill_unmended(uint64_t seed, uint64_t each, long at, uint64_t sync) {
    run r = {.volume = LQ_INIT, .journal = LQ_JOURNAL_INIT, .options = {.sync = sync, .least = 2000}};
    r.from = (drawing){.seed = 11, .nodes = 1};
    power_seed = seed;
    fault = EIO;
    begin_disk();
    each_call = each;
    kept = made = 0;
    first = at;
    failing = 1;
    make_folder(path, sizeof path);
    for (int tries = 0; !r.is_open && tries < 3; tries++) open_run(&r);
    CHECK(r.is_open);
    for (uint64_t i = 0; lq_changes(&r.volume) < 60 && !failures; i++) {
        if (i % 12 == 1) hold_once(&r);
        act_once(&r);
        skipped += 3000000;
        if (i % 4 == 0 && !r.has_halted) turn_once(&r);
        if (!r.has_halted && !r.turned.halted) continue;
        first = made + 1;
        failing = 1000000;
        close_run(&r);
        failing = 0;
        open_run(&r);
        if (failures) break;
        kept = lq_changes(&r.volume);
        lq model = LQ_INIT;
        r.from = (drawing){.seed = 11, .nodes = 1};
        OK(lq_volume_open(&model));
        model_goes_to(&r.from, &model, kept);
        lq_volume_close(&model);
        r.has_halted = r.turned.halted = r.is_held = false;
        kills++;
    }
    if (r.is_open) close_run(&r);
    each_call = 0;
    remove_folder(path);
    if (failures) fprintf(stderr, "killed after call %ld failed, seed %llu\n", at, (unsigned long long)seed);
}

/* journal_disk [EACH [SEED CALLS]]: each so many calls fail; the power is cut at one of so many calls. */
int main(int count, char **words) {
    make_dumps();
    failing_calls(count > 1 ? atol(words[1]) : 7);
    uint64_t seed = count > 2 ? strtoull(words[2], NULL, 10) : 3, calls = count > 3 ? strtoull(words[3], NULL, 10) : 2;
    if (!failures) power_cuts(seed, calls, 0);
    for (long at = 20 + (long)(seed % 7); at < 300 && !failures; at += 7 * (long)calls) power_cuts(seed, 4 * calls, at);
    static const uint64_t syncs[] = {LQ_SYNC_ALWAYS, 20, LQ_SYNC_NEVER};
    for (long at = 15 + (long)(seed % 3), i = (long)seed / 3; at < 200 && !failures; at += 3 + (long)calls / 3, i++)
        kill_unmended(seed, calls, at, syncs[i % 3]); /* nine seeds have each call in each mode */
    printf("journal_disk: %llu power cuts, %llu ends without a mend\n", (unsigned long long)images,
           (unsigned long long)kills);
    for (uint64_t i = 0; i <= MOST; i++) free(dumps[i].at);
    return done("journal_disk");
}
