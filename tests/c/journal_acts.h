/* What the tests of journals share: drawn changes, a volume as a text, and folders on disk for a test. The model of a
   kept volume is a volume in memory, with the same drawn changes up to a number. */
#ifndef JOURNAL_ACTS_H
#define JOURNAL_ACTS_H

#define _GNU_SOURCE

#include "acts.h"
#include <dirent.h>
#include <errno.h>
#include <fcntl.h>
#include <lq_journal.h>
#include <sys/stat.h>
#include <time.h>
#include <unistd.h>

/* ---- drawn changes ---- */

static inline uint64_t drawn(uint64_t *seed, uint64_t below) {
    *seed += 0x9e3779b97f4a7c15u;
    uint64_t it = *seed;
    it = (it ^ it >> 30) * 0xbf58476d1ce4e5b9u;
    it = (it ^ it >> 27) * 0x94d049bb133111ebu;
    return (it ^ it >> 31) % below;
}

/* A change of any kind, which may be refused. `nodes` is the highest node so far. */
static inline act drawn_act(uint64_t *seed, uint64_t nodes) {
    static const char *const names[] = {"a", "b", "c", "inbox", "\"q\\uote\"", "tab\tbell\a", "\xc3\xa9t\xc3\xa9", "set",
                                        "x\x01y", "write this", "{}", "\xf0\x9f\x90\x9f"};
    static const uint32_t types[] = {LQ_TYPE_TEXT, LQ_TYPE_INT32, LQ_TYPE_INT64, LQ_TYPE_UINT32, LQ_TYPE_UINT64};
    static const int64_t numbers[] = {0, -1, 2147483647, -2147483648LL, 7};
    static char text[LQ_TEXT_SIZE];
    act it = {.word = CREATE};
    uint64_t what = drawn(seed, 100), low = nodes > 60 ? nodes - 60 : 0;
    it.word = what < 45 ? CREATE : what < 52 ? REMOVE : what < 62 ? MOVE : what < 72 ? WRITE : what < 92 ? SET : UNSET;
    it.node = low + 1 + drawn(seed, nodes - low + 1);
    it.dir = drawn(seed, 3) ? 1 : low + 1 + drawn(seed, nodes - low + 1);
    it.name = names[drawn(seed, 12)];
    it.name_size = strlen(it.name);
    it.kind = drawn(seed, 4) ? LQ_FILE : LQ_FOLDER;
    it.size = it.kind == LQ_FOLDER && it.word == CREATE ? 0 : drawn(seed, UINT64_MAX) >> drawn(seed, 64);
    it.time = (int64_t)drawn(seed, UINT64_MAX) >> drawn(seed, 64);
    it.flag = drawn(seed, 2);
    it.type = types[drawn(seed, 5)];
    it.number = numbers[drawn(seed, 5)];
    it.text_size = drawn(seed, 20) ? drawn(seed, 20) : drawn(seed, sizeof text);
    for (size_t i = 0; i < it.text_size; i++) text[i] = (char)(i % 7 ? 'a' + (char)(i % 26) : (char)(i % 32));
    it.text = text;
    if (it.word == CREATE && drawn(seed, 2)) { /* so that places don't run out */
        static char name[24];
        it.name_size = (size_t)sprintf(name, "n%" PRIu64, drawn(seed, 1u << 20));
        it.name = name;
    }
    return it;
}

/* Does it by its call, or by its line; the status is LQ_OK also for a line that is refused. */
static inline lq_status do_act(lq *handle, const act *it, bool by_line) {
    lq_applied applied;
    size_t size;
    if (!by_line) return change(handle, it, &applied);
    text line = {0};
    say_line(&line, it);
    lq_status status = lq_answer(handle, line.at, line.size, &size);
    free(line.at);
    return status;
}

/* The drawn changes of a seed: `nodes` is the highest node that may be there. */
typedef struct drawing {
    uint64_t seed, nodes;
} drawing;

static inline lq_status next_act(drawing *from, lq *handle) {
    act it = drawn_act(&from->seed, from->nodes);
    bool by_line = drawn(&from->seed, 2);
    uint64_t changes = lq_changes(handle);
    lq_status status = do_act(handle, &it, by_line);
    if (it.word == CREATE && lq_changes(handle) != changes) from->nodes++;
    return status;
}

/* Brings a model to so many changes. */
static inline void model_goes_to(drawing *from, lq *model, uint64_t changes) {
    while (lq_changes(model) < changes) next_act(from, model);
}

/* ---- a volume as a text ---- */

static inline void dump(lq *handle, text *to) {
    uint64_t nodes = lq_changes(handle) + 1; /* a change makes one at most */
    say_natural(to, "changes ", lq_changes(handle));
    for (uint64_t node = 2; node <= nodes; node++) {
        if (say_entry(to, handle, node) == LQ_OK) say(to, "\n");
    }
}

static inline bool is_same_volume(lq *one, lq *other) {
    text first = {0}, second = {0};
    dump(one, &first);
    dump(other, &second);
    bool same = is_same(&first, &second);
    if (!same && getenv("SHOW")) fprintf(stderr, "%.*s\n----\n%.*s\n", (int)first.size, first.at, (int)second.size, second.at);
    free(first.at);
    free(second.at);
    return same;
}

/* ---- folders on disk ---- */

static inline void make_folder(char *out, size_t room) {
    const char *in = getenv("TMPDIR");
    snprintf(out, room, "%.40s/lq_XXXXXX", in ? in : "/tmp");
    if (!mkdtemp(out)) abort();
}

static inline void join(char *out, size_t room, const char *folder, const char *name) {
    snprintf(out, room, "%s/%s", folder, name);
}

/* Removes a folder and the files in it. */
static inline void remove_folder(const char *path) {
    char name[400];
    DIR *folder = opendir(path);
    struct dirent *it;
    while (folder && (it = readdir(folder))) {
        join(name, sizeof name, path, it->d_name);
        if (it->d_name[0] != '.') unlink(name);
    }
    if (folder) closedir(folder);
    rmdir(path);
}

static inline text read_file(const char *folder, const char *name) {
    char path[400], bytes[4096];
    text out = {0};
    join(path, sizeof path, folder, name);
    FILE *file = fopen(path, "rb");
    size_t got;
    while (file && (got = fread(bytes, 1, sizeof bytes, file)) > 0) add(&out, bytes, got);
    if (file) fclose(file);
    return out;
}

static inline void write_file(const char *folder, const char *name, const char *bytes, size_t size) {
    char path[400];
    join(path, sizeof path, folder, name);
    FILE *file = fopen(path, "wb");
    if (!file || (size && fwrite(bytes, 1, size, file) != size) || fclose(file)) abort();
}

/* Copies the files of a folder to a new one. */
static inline void copy_folder(const char *from, char *out, size_t room) {
    DIR *folder = opendir(from);
    struct dirent *it;
    make_folder(out, room);
    while (folder && (it = readdir(folder))) {
        if (it->d_name[0] == '.') continue;
        text bytes = read_file(from, it->d_name);
        write_file(out, it->d_name, bytes.at, bytes.size);
        free(bytes.at);
    }
    if (folder) closedir(folder);
}

#endif
