/* Moves: whether what was seen at a name is an entry that was elsewhere before. Identity says so, and a fresh look at
   its own place: an inode with two names may be at both. */
#include "folder.h"

enum { MANY_LINKS = 16 };

/* Whether an entry is still at its place on disk; LOOK_FAILED: that can't be seen now. */
static look_answer look_at_place(folder *f, uint32_t slot)
{
    char name[DISK_NAME_ROOM];
    uint32_t above;
    observed seen;
    size_t size = place_of(f, slot, &above, name);
    if (!size) return LOOK_ABSENT;
    uint32_t i = pending_find(f, above, name, size);
    if (i != NONE && f->pending.at[i].state == PENDING_ABSENT) return LOOK_ABSENT; /* a look in this turn says so */
    int file = folder_file(f, above);
    if (file < 0) return LOOK_FAILED;
    look_answer answer = look(f, file, name, &seen);
    if (answer == LOOK_FAILED) want_again(f, errno);
    if (answer == LOOK_THERE && !is_same(f, entry_in(f, slot), &seen, file, name)) return LOOK_ABSENT;
    return answer;
}

/* Whether an entry that is what was seen has moved there. Where its own place can't be seen, as where a folder above it
   has moved, it has if what was seen can't be at two places. */
static bool has_moved_from(folder *f, const meeting *m, uint32_t slot)
{
    if (!is_same(f, entry_in(f, slot), m->seen, m->file, m->name)) return false;
    look_answer answer = look_at_place(f, slot);
    if (answer == LOOK_THERE || answer == LOOK_ABSENT) return answer == LOOK_ABSENT;
    return !m->seen->is_mount && !has_mounts(f) && (m->seen->kind == KIND_FOLDER || m->seen->links <= 1);
}

uint32_t moved_from(folder *f, const meeting *m)
{
    observed *s = m->seen;
    uint32_t known = 0, from = NONE;
    for (uint32_t slot = first_of_inode(f, s->inode); slot != NONE; slot = entry_in(f, slot)->next_identity)
        known += is_same(f, entry_in(f, slot), s, m->file, m->name);
    bool is_one_more =
        s->kind != KIND_FOLDER && !(m->events & IN_MOVED_TO) && s->links > MANY_LINKS && known < s->links;
    if (!known || is_one_more) return NONE;
    int was = f->in_use;
    f->in_use = m->file;
    for (uint32_t slot = first_of_inode(f, s->inode); slot != NONE && from == NONE;
         slot = entry_in(f, slot)->next_identity)
        if (has_moved_from(f, m, slot)) from = slot;
    f->in_use = was;
    return from;
}
