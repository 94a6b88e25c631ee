/* Attributes: a file's extended ones, and those that the folder adds to each entry. */
#include "folder.h"

enum { LISTXATTRAT = 465, GETXATTRAT = 464 }; /* since Linux 6.13 */
enum { LIST_ROOM = 1024, NUMBER_DIGITS = 18 };

static const char number_end[] = ":number";
enum { NUMBER_END = sizeof number_end - 1 };

/* ---- the system's calls, by descriptor and name ---- */

/* The path of a name in an open folder, through /proc. */
static void path_through(char *out, int file, const char *name)
{
    descriptor_path(out, file);
    size_t size = strlen(out);
    out[size++] = '/';
    memcpy(out + size, name, strlen(name) + 1);
}

static ssize_t list_of(folder *f, int file, const char *name, char *out, size_t room)
{
    int flags = AT_SYMLINK_NOFOLLOW | (*name ? 0 : AT_EMPTY_PATH);
    if (!f->has_no_xattrat) {
        ssize_t size = syscall(LISTXATTRAT, file, name, flags, out, room);
        if (size >= 0 || (errno != ENOSYS && errno != EPERM)) return size;
        f->has_no_xattrat = true;
    }
    char path[DESCRIPTOR_ROOM + DISK_NAME_ROOM];
    path_through(path, file, name);
    return syscall(SYS_llistxattr, path, out, room);
}

static ssize_t value_of(folder *f, int file, const char *name, const char *attr, char *out, size_t room)
{
    struct {
        uint64_t value;
        uint32_t size, flags;
    } asked = {.value = (uintptr_t)out, .size = (uint32_t)room};
    int flags = AT_SYMLINK_NOFOLLOW | (*name ? 0 : AT_EMPTY_PATH);
    if (!f->has_no_xattrat) return syscall(GETXATTRAT, file, name, flags, attr, &asked, sizeof asked);
    char path[DESCRIPTOR_ROOM + DISK_NAME_ROOM];
    path_through(path, file, name);
    return syscall(SYS_lgetxattr, path, attr, out, room);
}

/* ---- the folder's own attributes ---- */

static bool ends_in_number(const char *attr, size_t size)
{
    return size > NUMBER_END && memcmp(attr + size - NUMBER_END, number_end, NUMBER_END) == 0;
}

bool is_own_attribute(const char *attr, size_t size)
{
    return (size == 4 && memcmp(attr, "kind", 4) == 0) || (size == 5 && memcmp(attr, "iname", 5) == 0)
           || ends_in_number(attr, size);
}

/* Whether a change was made; the windows then read what it says. */
static bool told(folder *f, lq_status status)
{
    if (!is_done(f, status)) return false;
    windows_changed(f);
    return true;
}

void set_kind(folder *f, uint64_t node, entry_kind kind)
{
    static const char *const names[] = {"file", "folder", "link", "other"};
    if (!f->has_kind) return;
    told(f, lq_set_text(f->handle, node, LQ_TEXT("kind"), names[kind], strlen(names[kind]), NULL));
}

void set_iname(folder *f, uint64_t node, const char *name, size_t size)
{
    char text[2 * LQ_NAME_SIZE];
    if (!f->has_iname) return;
    size = lq_folder_fold(name, size, text, sizeof text);
    told(f, lq_set_text(f->handle, node, LQ_TEXT("iname"), text, size, NULL));
}

/* Reads an optional `-` and 1 to 18 digits. */
static bool number_of(const char *text, size_t size, int64_t *out)
{
    size_t at = size > 0 && text[0] == '-';
    if (size == at || size - at > NUMBER_DIGITS) return false;
    int64_t it = 0;
    for (size_t i = at; i < size; i++) {
        if (text[i] < '0' || text[i] > '9') return false;
        it = it * 10 + (text[i] - '0');
    }
    *out = at ? -it : it;
    return true;
}

/* Sets or takes the number beside an attribute. */
static void set_number(folder *f, uint64_t node, const char *attr, size_t attr_size, const char *text, size_t size)
{
    char name[LQ_NAME_SIZE + 1];
    int64_t number;
    lq_attr had;
    if (!f->has_numbers || attr_size + NUMBER_END > LQ_NAME_SIZE || ends_in_number(attr, attr_size)) return;
    memcpy(name, attr, attr_size);
    memcpy(name + attr_size, number_end, NUMBER_END);
    if (lq_attr_named(f->handle, node, name, attr_size + NUMBER_END, &had) == LQ_OK && had.type == LQ_TYPE_TEXT)
        return; /* the file has one of this name */
    if (text && number_of(text, size, &number))
        told(f, lq_set_int64(f->handle, node, name, attr_size + NUMBER_END, number, NULL));
    else
        told(f, lq_unset(f->handle, node, name, attr_size + NUMBER_END, NULL));
}

/* ---- a file's attributes ---- */

/* One file whose attributes are read. */
typedef struct reading {
    folder *f;
    uint32_t slot;
    int file;
    const char *name;
    uint64_t node;
    bool is_new;
} reading;

static void take_attribute(const reading *r, const char *attr, size_t size)
{
    if (r->is_new) return;
    if (told(r->f, lq_unset(r->f->handle, r->node, attr, size, NULL))) set_number(r->f, r->node, attr, size, NULL, 0);
}

static bool is_listed(const char *list, size_t size, const char *attr, size_t attr_size)
{
    char name[NAME_ROOM];
    for (const char *it = list; it < list + size; it += strlen(it) + 1) {
        size_t it_size = strlen(it);
        if (it_size <= NAME_MAX && name_of_bytes(it, it_size, name) == attr_size && !memcmp(name, attr, attr_size))
            return true;
    }
    return false;
}

/* Takes those that aren't in the list any more. */
static void take_gone(const reading *r, const char *list, size_t size)
{
    lq_attr had;
    for (size_t i = 0; lq_attr_at(r->f->handle, r->node, i, &had) == LQ_OK;) {
        bool is_own = had.type != LQ_TYPE_TEXT || !memchr(had.name, '.', had.name_size); /* others have a namespace */
        if (is_own || is_listed(list, size, had.name, had.name_size)) {
            i++;
            continue;
        }
        if (!told(r->f, lq_unset(r->f->handle, r->node, had.name, had.name_size, NULL))) return;
        set_number(r->f, r->node, had.name, had.name_size, NULL, 0);
    }
}

/* Sets an attribute to a text, if it isn't that already. */
static void set_attribute(const reading *r, const char *attr, size_t size, const char *text, size_t text_size)
{
    lq_attr had;
    if (!r->is_new && lq_attr_named(r->f->handle, r->node, attr, size, &had) == LQ_OK && had.text_size == text_size
        && memcmp(had.text, text, text_size) == 0)
        return;
    if (told(r->f, lq_set_text(r->f->handle, r->node, attr, size, text, text_size, NULL)))
        set_number(r->f, r->node, attr, size, text, text_size);
}

/* Makes one attribute in the volume what it is on disk. */
static void read_one(const reading *r, const char *on_disk)
{
    char raw[LQ_TEXT_SIZE], text[3 * LQ_TEXT_SIZE], attr[NAME_ROOM];
    size_t size = strlen(on_disk);
    size = size > NAME_MAX ? LQ_NAME_SIZE + 1 : name_of_bytes(on_disk, size, attr);
    ssize_t got = size > LQ_NAME_SIZE ? -1 : value_of(r->f, r->file, r->name, on_disk, raw, sizeof raw);
    bool is_long = size > LQ_NAME_SIZE || (got < 0 && errno == ERANGE);
    if (got < 0 && !is_long && is_passing(errno)) {
        want_again(r->f, errno);
        return;
    }
    size_t text_size = got > 0 ? name_of_bytes(raw, (size_t)got, text) : 0;
    if (is_long || text_size > LQ_TEXT_SIZE) notice_put(r->f, LQ_NOTICE_VALUE_TOO_LONG, r->slot, NULL, 0);
    if (size > LQ_NAME_SIZE) return;
    if (got < 0 || text_size > LQ_TEXT_SIZE) take_attribute(r, attr, size); /* what can't be read isn't seen */
    else set_attribute(r, attr, size, text, text_size);
}

/* Makes the attributes in the volume those of a list of their names. */
static void read_list(const reading *r, const char *list, size_t size)
{
    entry *e = entry_in(r->f, r->slot);
    if (!r->is_new && e->flags & HAS_ATTRIBUTES) take_gone(r, list, size);
    e->flags &= ~(HAS_ACL | HAS_ATTRIBUTES);
    if (size) e->flags |= HAS_ATTRIBUTES;
    for (const char *it = list; it < list + size; it += strlen(it) + 1) {
        if (strcmp(it, "system.posix_acl_access") == 0) e->flags |= HAS_ACL;
        read_one(r, it);
    }
}

/* The list's size is asked for first: with room given, the system allocates that much before it looks. */
void read_attributes(folder *f, uint32_t slot, int file, const char *name, bool is_new)
{
    entry *e = entry_in(f, slot);
    device *on = &f->devices[e->device];
    if (f->options.no_attributes || on->has_no_attributes) return;
    ssize_t size = list_of(f, file, name, NULL, 0);
    if (size == 0 && !(e->flags & HAS_ATTRIBUTES)) return;
    char small[LIST_ROOM], *list = size > LIST_ROOM ? malloc((size_t)size) : small;
    if (!list) {
        want_memory(f);
        return;
    }
    if (size > 0) size = list_of(f, file, name, list, size > LIST_ROOM ? (size_t)size : LIST_ROOM);
    int fault = size < 0 ? errno : 0;
    reading r = {.f = f, .slot = slot, .file = file, .name = name, .node = e->node, .is_new = is_new};
    if (fault == 0) read_list(&r, list, (size_t)size);
    else if (fault == EOPNOTSUPP) on->has_no_attributes |= e->kind == KIND_FOLDER;
    else if (fault == E2BIG) notice_put(f, LQ_NOTICE_VALUE_TOO_LONG, slot, NULL, 0);
    else if (is_passing(fault)) want_again(f, fault);
    if (list != small) free(list);
}

/* ---- attributes that are added once a formula names them ---- */

static void add_numbers(folder *f, uint64_t node)
{
    lq_attr it;
    for (size_t i = 0; lq_attr_at(f->handle, node, i, &it) == LQ_OK; i++)
        if (it.type == LQ_TYPE_TEXT && !is_own_attribute(it.name, it.name_size))
            set_number(f, node, it.name, it.name_size, it.text, it.text_size);
}

void begin_kind(folder *f)
{
    f->has_kind = true;
    for (uint32_t slot = 1; slot < f->entries.used && !f->trouble.no_memory; slot++)
        if (entry_in(f, slot)->node) set_kind(f, entry_in(f, slot)->node, (entry_kind)entry_in(f, slot)->kind);
    windows_looked(f);
    if (f->trouble.no_memory) f->has_kind = false; /* the next one that asks begins anew */
}

void begin_iname(folder *f)
{
    lq_info info;
    f->has_iname = true;
    for (uint32_t slot = 1; slot < f->entries.used && !f->trouble.no_memory; slot++)
        if (entry_in(f, slot)->node && lq_entry(f->handle, entry_in(f, slot)->node, &info) == LQ_OK)
            set_iname(f, info.node, info.name, info.name_size);
    windows_looked(f);
    if (f->trouble.no_memory) f->has_iname = false;
}

void begin_numbers(folder *f)
{
    f->has_numbers = true;
    for (uint32_t slot = 1; slot < f->entries.used && !f->trouble.no_memory; slot++)
        if (entry_in(f, slot)->node && entry_in(f, slot)->flags & HAS_ATTRIBUTES)
            add_numbers(f, entry_in(f, slot)->node);
    windows_looked(f);
    if (f->trouble.no_memory) f->has_numbers = false;
}
