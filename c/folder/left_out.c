/* Folders that are left out by their identity, wherever they are: to each look they are absent. */
#include "folder.h"

bool is_left_out(const folder *f, uint64_t device, uint64_t inode)
{
    for (uint32_t i = 0; i < f->left_out_count; i++)
        if (f->left_out[i].inode == inode && f->left_out[i].device == device) return true;
    return false;
}

/* Has the names looked at under which the volume has a folder. */
static void look_for(folder *f, uint64_t device, uint64_t inode)
{
    char name[DISK_NAME_ROOM];
    uint32_t above;
    for (uint32_t slot = first_of_inode(f, inode); slot != NONE; slot = entry_in(f, slot)->next_identity) {
        const entry *e = entry_in(f, slot);
        if (slot == 0 || e->inode != inode || f->devices[e->device].number != device) continue;
        size_t size = place_of(f, slot, &above, name);
        if (size) pending_add(f, above, name, size, BY_LISTING, 0);
    }
}

static bool leave_out(folder *f, uint64_t device, uint64_t inode)
{
    identity *made = realloc(f->left_out, (f->left_out_count + 1) * sizeof *made);
    if (!made) return false;
    f->left_out = made;
    made[f->left_out_count++] = (identity){.device = device, .inode = inode};
    look_for(f, device, inode);
    return true;
}

/* Where it is nobody knows, so all is looked at. */
static void take_in(folder *f, uint64_t device, uint64_t inode)
{
    uint32_t kept = 0;
    for (uint32_t i = 0; i < f->left_out_count; i++)
        if (f->left_out[i].inode != inode || f->left_out[i].device != device) f->left_out[kept++] = f->left_out[i];
    if (kept == f->left_out_count) return;
    f->left_out_count = kept;
    f->trouble.is_again = true;
    f->trouble.due = 0;
}

lq_status lq_folder_leave_out(lq_folder *it, uint64_t device, uint64_t inode, bool is_out)
{
    folder *f = folder_of(it);
    if (!f || !is_volume_open(f)) return LQ_MISUSE;
    if (!is_out) take_in(f, device, inode);
    else if (!is_left_out(f, device, inode) && !leave_out(f, device, inode)) return LQ_NO_MEMORY;
    return LQ_OK;
}
