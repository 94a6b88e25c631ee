/* The calls of lq.h. Each tests what can be tested of its arguments, as the head of lq.h says, then makes one proved
   call of lq_c, whose contract takes them as tested. What is here isn't proved: that a handle is open, that no pointer
   is null, what is passed in place of a null that is allowed, and what is told of slots that become ready. While a
   handle is open its fields `result` and `pushes` are counts that proved calls alone read and write. */
#include "keeper.h"
#include "kept/kept.h"

/* The most bytes of a line; a longer one is refused unread. */
enum { LINE_SIZE = 65536 };

/* What is passed in place of a text that is longer than its limit: the proved call tests the length first. Of a path it
   tests the first name, which this is: one of more bytes than a name can have. */
static const char too_long[LINE_SIZE + 1];

/* ---- tests of arguments ---- */

/* The tags of a handle that is open, and of one that was closed. They have the handle's address in them, so a copy
   elsewhere is neither, nor is memory that never had a handle. */
static uint64_t open_tag(const lq *handle)
{
    return UINT64_C(0x6c712d68616e646c) ^ (uint64_t)(uintptr_t)handle;
}

static uint64_t closed_tag(const lq *handle)
{
    return ~open_tag(handle);
}

static bool is_open(const lq *handle)
{
    return handle && handle->at && handle->tag == open_tag(handle);
}

/* The tag of a handle whose call has something of the caller's to call, which may not use the handle. */
static uint64_t busy_tag(const lq *handle)
{
    return UINT64_C(0x6c712d6275737921) ^ (uint64_t)(uintptr_t)handle;
}

/* Whether a volume can be put into the handle. */
static bool is_closed(const lq *handle)
{
    return handle && !is_open(handle) && handle->tag != busy_tag(handle);
}

/* The number of the last result of a handle that isn't open. Only one that was closed here goes on with its numbers. */
static uint64_t results_of(const lq *handle)
{
    return handle->tag == closed_tag(handle) ? handle->result : 0;
}

/* The pointer that a proved call takes. It is never written through, so a const handle stays as it is. */
static served *in(const lq *handle)
{
    return (served *)(uintptr_t)&handle->at;
}

/* Whether a text can be passed on: null has size 0, and stands for the empty text. One above the limit is replaced. */
static bool is_text(const char **text, size_t *size, size_t most)
{
    if (!*text) {
        if (*size > 0) return false;
        *text = "";
    }
    if (*size > most) {
        *text = too_long;
        *size = most + 1;
    }
    return true;
}

/* ---- slots that become ready ---- */

/* What the handle calls for them, or null. */
static lq_ready_fn ready_of(const lq *handle)
{
    const keeper *keeps = keeper_of(handle);
    return keeps ? keeps->ready : handle->ready;
}

/* The slots that are ready before a call that may make others ready, if the handle has something to call then. */
static uint64_t ready_before(const lq *handle)
{
    return ready_of(handle) ? lqp_ready(in(handle)) : 0;
}

/* Calls what the handle has for slots that became ready, and answers the status. This is the last that a call does,
   since what is called here may close the handle. */
static lq_status told(const lq *handle, uint64_t before, uint32_t status)
{
    const keeper *keeps = keeper_of(handle);
    lq_ready_fn call = ready_of(handle);
    uint64_t slots = call ? lqp_ready(in(handle)) & ~before : 0;
    if (slots) call(keeps ? keeps->user : handle->user, slots);
    return status;
}

/* ---- changes that are kept ---- */

/* Whether a handle may make a change now: LQ_OK, or why it is refused. */
static lq_status may_change(const lq *handle)
{
    keeper *keeps = keeper_of(handle);
    return keeps ? keeps->may(keeps) : LQ_OK;
}

/* Keeps a change that was accepted, before its call answers; the status of the call. */
static lq_status kept(const lq *handle, uint32_t status, const lq_applied *applied, const change *made)
{
    keeper *keeps = status == LQ_OK ? keeper_of(handle) : NULL;
    if (!keeps) return status;
    status = keeps->put(keeps, made, applied);
    return status == LQ_OK ? keeps->end(keeps) : status;
}

/* The effect of the change that the last reply tells; the node is 0 if it doesn't tell one. */
static lq_applied replied(const lq *handle, size_t size)
{
    static const char field[] = "\"node\":";
    char reply[128];
    lq_applied out = {.change = lqp_changes(in(handle))};
    if (size == 0 || size > sizeof reply) return out;
    lqp_text(in(handle), reply, size);
    for (size_t at = 0; at + sizeof field <= size; at++) {
        size_t same = 0;
        while (same < sizeof field - 1 && reply[at + same] == field[same]) same++;
        if (same < sizeof field - 1) continue;
        for (at += same; at < size && reply[at] >= '0' && reply[at] <= '9'; at++)
            out.node = out.node * 10 + (uint64_t)(reply[at] - '0');
        break;
    }
    return out;
}

/* ---- the library, and handles ---- */

uint32_t lq_version(void)
{
    return LQ_VERSION;
}

const char *lq_status_name(lq_status status)
{
    switch (status) {
#include "status_names.h"
    }
    return NULL;
}

/* Whether a caller of this version has the structs and the statuses of the library. */
static bool is_served(uint32_t version)
{
    return version / 1000 == LQ_VERSION / 1000 && version <= LQ_VERSION;
}

/* Opens a handle with a session. */
static void open_with(lq *handle, served made, uint64_t results, uint32_t version)
{
    *handle = (lq){.at = made, .tag = open_tag(handle), .result = results, .version = version};
}

lq_status lq_volume_open_as(lq *handle, uint32_t version)
{
    if (!is_closed(handle) || !is_served(version)) return LQ_MISUSE;
    served made;
    lq_status status = lqp_start(&made);
    if (status == LQ_OK) open_with(handle, made, results_of(handle), version);
    return status;
}

/* Closes a handle, which keeps the fault of a load in fields that it has no other use for then. */
static void close_with(lq *handle, uint64_t results, kept_fault fault)
{
    *handle = (lq){.tag = closed_tag(handle),
                   .result = results,
                   .at = (void *)(uintptr_t)fault.reason,
                   .user = (void *)(uintptr_t)fault.node,
                   .version = (uint32_t)fault.place,
                   .pushes = (uint32_t)(fault.place >> 32)};
}

/* The fault that a closed handle keeps. */
static kept_fault fault_of(const lq *handle)
{
    if (!handle || handle->tag != closed_tag(handle)) return (kept_fault){0, 0, NULL};
    return (kept_fault){handle->version | (uint64_t)handle->pushes << 32, (uint64_t)(uintptr_t)handle->user,
                        (const char *)handle->at};
}

void lq_volume_close(lq *handle)
{
    if (!is_open(handle)) return;
    keeper *keeps = keeper_of(handle);
    if (keeps) keeps->closed(keeps);
    served held = handle->at;
    /* the next number, which no result has: so the last result of this volume is out of date too */
    close_with(handle, handle->result + 1, (kept_fault){0, 0, NULL});
    lqp_free(held);
}

uint64_t lq_fault_place(const lq *handle)
{
    return is_open(handle) ? lqp_fault_place(in(handle)) : fault_of(handle).place;
}

uint64_t lq_fault_node(const lq *handle)
{
    return fault_of(handle).node;
}

const char *lq_fault_reason(const lq *handle)
{
    return fault_of(handle).reason;
}

/* ---- a volume that is kept ---- */

lq_status lq_save_begin(lq *handle, kept_save **made, lq_sink_fn sink, void *user)
{
    if (!is_open(handle) || !sink) return LQ_MISUSE;
    lq_status status = kept_save_make(made, in(handle), sink, user);
    if (status == LQ_OK) handle->tag = busy_tag(handle);
    return status;
}

void lq_save_end(lq *handle, kept_save *save)
{
    kept_save_free(save);
    handle->tag = open_tag(handle);
}

lq_status lq_save(lq *handle, lq_sink_fn sink, void *user)
{
    kept_save *save;
    lq_status status = lq_save_begin(handle, &save, sink, user);
    if (status != LQ_OK) return status;
    while (status == LQ_OK && !lq_save_is_done(save)) status = lq_save_step(save);
    lq_save_end(handle, save);
    return status;
}

lq_status lq_load_begin(lq *handle, uint32_t version, kept_load **made, lq_source_fn source, void *user)
{
    if (!is_closed(handle) || !is_served(version) || !source) return LQ_MISUSE;
    served into;
    lq_status status = lqp_start(&into);
    if (status != LQ_OK) return status;
    status = kept_load_make(made, into, source, user);
    if (status != LQ_OK) {
        lqp_free(into);
        return status;
    }
    *handle = (lq){.tag = busy_tag(handle), .result = results_of(handle), .version = version};
    return LQ_OK;
}

void lq_load_end(lq *handle, kept_load *load)
{
    if (lq_load_is_done(load)) open_with(handle, kept_load_take(load), handle->result, handle->version);
    else close_with(handle, handle->result, kept_load_fault(load));
    kept_load_free(load);
}

lq_status lq_load_as(lq *handle, uint32_t version, lq_source_fn source, void *user)
{
    kept_load *load;
    lq_status status = lq_load_begin(handle, version, &load, source, user);
    if (status != LQ_OK) return status;
    while (status == LQ_OK && !lq_load_is_done(load)) status = lq_load_step(load);
    lq_load_end(handle, load);
    return status;
}

lq_status lq_volume_copy(const lq *handle, lq *copy)
{
    if (!is_open(handle) || !is_closed(copy)) return LQ_MISUSE;
    served made;
    lq_status status = lqp_start(&made);
    if (status != LQ_OK) return status;
    status = lqp_copy(in(handle), &made);
    if (status == LQ_OK) open_with(copy, made, results_of(copy), handle->version & ~KEPT); /* in memory alone */
    else lqp_free(made);
    return status;
}

/* ---- a script's lines ---- */

lq_status lq_answer(lq *handle, const char *line, size_t line_size, size_t *size)
{
    if (!is_open(handle) || !size || !is_text(&line, &line_size, LINE_SIZE)) return LQ_MISUSE;
    keeper *keeps = keeper_of(handle);
    if (keeps) {
        lq_status may = keeps->may_answer(keeps, line, line_size);
        if (may != LQ_OK) return may;
        keeps = keeper_of(handle);
    }
    uint64_t before = ready_before(handle), changes = keeps ? lqp_changes(in(handle)) : 0;
    uint32_t status = lqp_answer(in(handle), line, line_size, size);
    if (keeps && lqp_changes(in(handle)) != changes) {
        lq_applied applied = replied(handle, status == LQ_OK ? *size : 0);
        const change made = {.what = CHANGE_LINE, .text = line, .text_size = line_size};
        lq_status is_kept = kept(handle, LQ_OK, &applied, &made);
        if (is_kept != LQ_OK) status = is_kept;
    }
    return told(handle, before, status);
}

size_t lq_text(const lq *handle, char *out, size_t room)
{
    char none[1];
    if (!is_open(handle)) return 0;
    return out ? lqp_text(in(handle), out, room) : lqp_text(in(handle), none, 0);
}

/* ---- changes ---- */

lq_status lq_create(lq *handle, uint64_t dir, const char *name, size_t name_size, uint32_t kind, uint64_t size,
                    int64_t time, lq_applied *out)
{
    lq_applied unwanted;
    if (!is_open(handle) || !is_text(&name, &name_size, LQ_NAME_SIZE)) return LQ_MISUSE;
    lq_status may = may_change(handle);
    if (may != LQ_OK) return may;
    if (!out) out = &unwanted;
    uint64_t before = ready_before(handle);
    uint32_t status = lqp_create(in(handle), dir, name, name_size, kind, size, time, out);
    const change made = {.what = CHANGE_CREATE, .dir = dir, .name = name, .name_size = name_size, .kind = kind,
                         .natural = size, .whole = time};
    return told(handle, before, kept(handle, status, out, &made));
}

lq_status lq_remove(lq *handle, uint64_t node, lq_applied *out)
{
    lq_applied unwanted;
    if (!is_open(handle)) return LQ_MISUSE;
    lq_status may = may_change(handle);
    if (may != LQ_OK) return may;
    if (!out) out = &unwanted;
    uint64_t before = ready_before(handle);
    uint32_t status = lqp_remove(in(handle), node, out);
    const change made = {.what = CHANGE_REMOVE, .node = node};
    return told(handle, before, kept(handle, status, out, &made));
}

lq_status lq_move(lq *handle, uint64_t node, uint64_t dir, const char *name, size_t name_size, bool clobber,
                  lq_applied *out)
{
    lq_applied unwanted;
    if (!is_open(handle) || !is_text(&name, &name_size, LQ_NAME_SIZE)) return LQ_MISUSE;
    lq_status may = may_change(handle);
    if (may != LQ_OK) return may;
    if (!out) out = &unwanted;
    uint64_t before = ready_before(handle);
    uint32_t status = lqp_move(in(handle), node, dir, name, name_size, clobber, out);
    const change made = {.what = CHANGE_MOVE, .node = node, .dir = dir, .name = name, .name_size = name_size,
                         .clobber = clobber};
    return told(handle, before, kept(handle, status, out, &made));
}

lq_status lq_write(lq *handle, uint64_t node, uint64_t size, int64_t time, lq_applied *out)
{
    lq_applied unwanted;
    if (!is_open(handle)) return LQ_MISUSE;
    lq_status may = may_change(handle);
    if (may != LQ_OK) return may;
    if (!out) out = &unwanted;
    uint64_t before = ready_before(handle);
    uint32_t status = lqp_write(in(handle), node, size, time, out);
    const change made = {.what = CHANGE_WRITE, .node = node, .natural = size, .whole = time};
    return told(handle, before, kept(handle, status, out, &made));
}

lq_status lq_set_text(lq *handle, uint64_t node, const char *attr, size_t attr_size, const char *text, size_t text_size,
                      lq_applied *out)
{
    lq_applied unwanted;
    if (!is_open(handle) || !is_text(&attr, &attr_size, LQ_NAME_SIZE) || !is_text(&text, &text_size, LQ_TEXT_SIZE))
        return LQ_MISUSE;
    lq_status may = may_change(handle);
    if (may != LQ_OK) return may;
    if (!out) out = &unwanted;
    uint64_t before = ready_before(handle);
    uint32_t status = lqp_set_text(in(handle), node, attr, attr_size, text, text_size, out);
    const change made = {.what = CHANGE_SET_TEXT, .node = node, .name = attr, .name_size = attr_size, .text = text,
                         .text_size = text_size};
    return told(handle, before, kept(handle, status, out, &made));
}

lq_status lq_set_int32(lq *handle, uint64_t node, const char *attr, size_t attr_size, int32_t value, lq_applied *out)
{
    lq_applied unwanted;
    if (!is_open(handle) || !is_text(&attr, &attr_size, LQ_NAME_SIZE)) return LQ_MISUSE;
    lq_status may = may_change(handle);
    if (may != LQ_OK) return may;
    if (!out) out = &unwanted;
    uint64_t before = ready_before(handle);
    uint32_t status = lqp_set_int32(in(handle), node, attr, attr_size, value, out);
    const change made = {.what = CHANGE_SET_INT32, .node = node, .name = attr, .name_size = attr_size, .whole =
                         value};
    return told(handle, before, kept(handle, status, out, &made));
}

lq_status lq_set_int64(lq *handle, uint64_t node, const char *attr, size_t attr_size, int64_t value, lq_applied *out)
{
    lq_applied unwanted;
    if (!is_open(handle) || !is_text(&attr, &attr_size, LQ_NAME_SIZE)) return LQ_MISUSE;
    lq_status may = may_change(handle);
    if (may != LQ_OK) return may;
    if (!out) out = &unwanted;
    uint64_t before = ready_before(handle);
    uint32_t status = lqp_set_int64(in(handle), node, attr, attr_size, value, out);
    const change made = {.what = CHANGE_SET_INT64, .node = node, .name = attr, .name_size = attr_size, .whole =
                         value};
    return told(handle, before, kept(handle, status, out, &made));
}

lq_status lq_set_uint32(lq *handle, uint64_t node, const char *attr, size_t attr_size, uint32_t value, lq_applied *out)
{
    lq_applied unwanted;
    if (!is_open(handle) || !is_text(&attr, &attr_size, LQ_NAME_SIZE)) return LQ_MISUSE;
    lq_status may = may_change(handle);
    if (may != LQ_OK) return may;
    if (!out) out = &unwanted;
    uint64_t before = ready_before(handle);
    uint32_t status = lqp_set_uint32(in(handle), node, attr, attr_size, value, out);
    const change made = {.what = CHANGE_SET_UINT32, .node = node, .name = attr, .name_size = attr_size, .natural =
                         value};
    return told(handle, before, kept(handle, status, out, &made));
}

lq_status lq_set_uint64(lq *handle, uint64_t node, const char *attr, size_t attr_size, uint64_t value, lq_applied *out)
{
    lq_applied unwanted;
    if (!is_open(handle) || !is_text(&attr, &attr_size, LQ_NAME_SIZE)) return LQ_MISUSE;
    lq_status may = may_change(handle);
    if (may != LQ_OK) return may;
    if (!out) out = &unwanted;
    uint64_t before = ready_before(handle);
    uint32_t status = lqp_set_uint64(in(handle), node, attr, attr_size, value, out);
    const change made = {.what = CHANGE_SET_UINT64, .node = node, .name = attr, .name_size = attr_size, .natural =
                         value};
    return told(handle, before, kept(handle, status, out, &made));
}

lq_status lq_unset(lq *handle, uint64_t node, const char *attr, size_t attr_size, lq_applied *out)
{
    lq_applied unwanted;
    if (!is_open(handle) || !is_text(&attr, &attr_size, LQ_NAME_SIZE)) return LQ_MISUSE;
    lq_status may = may_change(handle);
    if (may != LQ_OK) return may;
    if (!out) out = &unwanted;
    uint64_t before = ready_before(handle);
    uint32_t status = lqp_unset(in(handle), node, attr, attr_size, out);
    const change made = {.what = CHANGE_UNSET, .node = node, .name = attr, .name_size = attr_size};
    return told(handle, before, kept(handle, status, out, &made));
}

/* ---- results ---- */

lq_status lq_take(lq *handle, uint64_t result, lq_row *out, size_t room, size_t *got)
{
    lq_row none;
    if (!is_open(handle) || !got || (!out && room > 0)) return LQ_MISUSE;
    return lqp_take(in(handle), handle->result, result, out ? out : &none, room, got);
}

lq_status lq_next(lq *handle, uint64_t result, lq_row *out)
{
    if (!is_open(handle) || !out) return LQ_MISUSE;
    return lqp_next(in(handle), handle->result, result, out);
}

/* ---- live queries ---- */

/* What null options stand for. */
static const lq_options no_options = LQ_OPTIONS_INIT;

lq_status lq_query_open(lq *handle, const char *formula, size_t formula_size, const lq_options *options,
                        lq_opening *out)
{
    if (!is_open(handle) || !out || !is_text(&formula, &formula_size, LQ_FORMULA_SIZE)) return LQ_MISUSE;
    return lqp_open(in(handle), &handle->result, formula, formula_size, options ? options : &no_options, out);
}

uint64_t lq_ready(const lq *handle)
{
    return is_open(handle) ? lqp_ready(in(handle)) : 0;
}

lq_status lq_on_ready(lq *handle, lq_ready_fn call, void *user)
{
    if (!is_open(handle)) return LQ_MISUSE;
    keeper *keeps = keeper_of(handle);
    *(keeps ? &keeps->ready : &handle->ready) = call;
    *(keeps ? &keeps->user : &handle->user) = user;
    return LQ_OK;
}

lq_status lq_read(lq *handle, uint64_t slot, lq_message *out)
{
    if (!is_open(handle) || !out) return LQ_MISUSE;
    return lqp_read(in(handle), slot, out);
}

lq_status lq_read_many(lq *handle, uint64_t slot, lq_message *out, size_t room, size_t *got)
{
    lq_message none;
    if (!is_open(handle) || !got || (!out && room > 0)) return LQ_MISUSE;
    return lqp_read_many(in(handle), slot, out ? out : &none, room, got);
}

lq_status lq_hang_up(lq *handle, uint64_t slot)
{
    if (!is_open(handle)) return LQ_MISUSE;
    uint64_t before = ready_before(handle);
    return told(handle, before, lqp_hang_up(in(handle), slot));
}

lq_status lq_query_close(lq *handle, uint64_t slot, uint64_t *change)
{
    uint64_t unwanted;
    if (!is_open(handle)) return LQ_MISUSE;
    uint64_t before = ready_before(handle);
    return told(handle, before, lqp_close(in(handle), slot, change ? change : &unwanted));
}

lq_status lq_finish(lq *handle, uint64_t slot)
{
    return is_open(handle) ? (lq_status)lqp_finish(in(handle), slot) : LQ_MISUSE;
}

lq_status lq_drop(lq *handle, uint64_t slot)
{
    return is_open(handle) ? (lq_status)lqp_drop(in(handle), slot) : LQ_MISUSE;
}

lq_status lq_result(lq *handle, uint64_t slot, lq_rebuilt *out)
{
    if (!is_open(handle) || !out) return LQ_MISUSE;
    return lqp_result(in(handle), &handle->result, slot, out);
}

/* ---- looks at the volume ---- */

lq_status lq_fetch(lq *handle, const char *formula, size_t formula_size, lq_fetched *out)
{
    if (!is_open(handle) || !out || !is_text(&formula, &formula_size, LQ_FORMULA_SIZE)) return LQ_MISUSE;
    return lqp_fetch(in(handle), &handle->result, formula, formula_size, out);
}

lq_status lq_find(const lq *handle, uint64_t dir, const char *name, size_t name_size, uint64_t *node)
{
    if (!is_open(handle) || !node || !is_text(&name, &name_size, LQ_NAME_SIZE)) return LQ_MISUSE;
    return lqp_find(in(handle), dir, name, name_size, node);
}

lq_status lq_find_path(const lq *handle, uint64_t dir, const char *path, size_t path_size, uint64_t *node)
{
    if (!is_open(handle) || !node || !is_text(&path, &path_size, LQ_PATH_SIZE)) return LQ_MISUSE;
    return lqp_find_path(in(handle), dir, path, path_size, node);
}

lq_status lq_entry(const lq *handle, uint64_t node, lq_info *out)
{
    if (!is_open(handle) || !out) return LQ_MISUSE;
    return lqp_entry(in(handle), node, out);
}

lq_status lq_attr_at(const lq *handle, uint64_t node, size_t index, lq_attr *out)
{
    if (!is_open(handle) || !out) return LQ_MISUSE;
    return lqp_attr_at(in(handle), node, index, out);
}

lq_status lq_attr_named(const lq *handle, uint64_t node, const char *attr, size_t attr_size, lq_attr *out)
{
    if (!is_open(handle) || !out || !is_text(&attr, &attr_size, LQ_NAME_SIZE)) return LQ_MISUSE;
    return lqp_attr_named(in(handle), node, attr, attr_size, out);
}

lq_status lq_children(lq *handle, uint64_t dir, lq_listing *out)
{
    if (!is_open(handle) || !out) return LQ_MISUSE;
    return lqp_children(in(handle), &handle->result, dir, out);
}

lq_status lq_path(lq *handle, uint64_t node, size_t *size)
{
    if (!is_open(handle) || !size) return LQ_MISUSE;
    return lqp_path(in(handle), node, size);
}

uint64_t lq_changes(const lq *handle)
{
    return is_open(handle) ? lqp_changes(in(handle)) : 0;
}

/* ---- a query by pushes ---- */

lq_status lq_push_attr(lq *handle, const char *attr, size_t attr_size)
{
    if (!is_open(handle) || !is_text(&attr, &attr_size, LQ_NAME_SIZE)) return LQ_MISUSE;
    return lqp_push_attr(in(handle), &handle->pushes, attr, attr_size);
}

lq_status lq_push_text(lq *handle, const char *text, size_t text_size)
{
    if (!is_open(handle) || !is_text(&text, &text_size, LQ_TEXT_SIZE)) return LQ_MISUSE;
    return lqp_push_text(in(handle), &handle->pushes, text, text_size);
}

lq_status lq_push_int32(lq *handle, int32_t value)
{
    return is_open(handle) ? (lq_status)lqp_push_int32(in(handle), &handle->pushes, value) : LQ_MISUSE;
}

lq_status lq_push_int64(lq *handle, int64_t value)
{
    return is_open(handle) ? (lq_status)lqp_push_int64(in(handle), &handle->pushes, value) : LQ_MISUSE;
}

lq_status lq_push_uint32(lq *handle, uint32_t value)
{
    return is_open(handle) ? (lq_status)lqp_push_uint32(in(handle), &handle->pushes, value) : LQ_MISUSE;
}

lq_status lq_push_uint64(lq *handle, uint64_t value)
{
    return is_open(handle) ? (lq_status)lqp_push_uint64(in(handle), &handle->pushes, value) : LQ_MISUSE;
}

lq_status lq_push_op(lq *handle, uint32_t op)
{
    return is_open(handle) ? (lq_status)lqp_push_op(in(handle), &handle->pushes, op) : LQ_MISUSE;
}

lq_status lq_clear_pushed(lq *handle)
{
    if (!is_open(handle)) return LQ_MISUSE;
    lqp_clear_pushed(in(handle), &handle->pushes);
    return LQ_OK;
}

lq_status lq_query_open_pushed(lq *handle, const lq_options *options, lq_opening *out)
{
    if (!is_open(handle) || !out) return LQ_MISUSE;
    return lqp_open_pushed(in(handle), &handle->result, &handle->pushes, options ? options : &no_options, out);
}

lq_status lq_fetch_pushed(lq *handle, lq_fetched *out)
{
    if (!is_open(handle) || !out) return LQ_MISUSE;
    return lqp_fetch_pushed(in(handle), &handle->result, &handle->pushes, out);
}

/* ---- texts and values in a formula ---- */

size_t lq_quote(const char *text, size_t text_size, char *out, size_t room)
{
    char none[1];
    if (text_size > LQ_TEXT_SIZE || !is_text(&text, &text_size, LQ_TEXT_SIZE)) return 0;
    return out ? lqp_quote(text, text_size, out, room) : lqp_quote(text, text_size, none, 0);
}

lq_status lq_bind_text(lq *handle, const char *text, size_t text_size)
{
    if (!is_open(handle) || !is_text(&text, &text_size, LQ_TEXT_SIZE)) return LQ_MISUSE;
    return lqp_bind_text(in(handle), text, text_size);
}

lq_status lq_bind_int64(lq *handle, int64_t value)
{
    return is_open(handle) ? (lq_status)lqp_bind_int64(in(handle), value) : LQ_MISUSE;
}

lq_status lq_bind_uint64(lq *handle, uint64_t value)
{
    return is_open(handle) ? (lq_status)lqp_bind_uint64(in(handle), value) : LQ_MISUSE;
}

lq_status lq_clear_bound(lq *handle)
{
    if (!is_open(handle)) return LQ_MISUSE;
    lqp_clear_bound(in(handle));
    return LQ_OK;
}

lq_status lq_query_open_bound(lq *handle, const char *formula, size_t formula_size, const lq_options *options,
                              lq_opening *out)
{
    if (!is_open(handle) || !out || !is_text(&formula, &formula_size, LQ_FORMULA_SIZE)) return LQ_MISUSE;
    return lqp_open_bound(in(handle), &handle->result, formula, formula_size, options ? options : &no_options, out);
}

lq_status lq_fetch_bound(lq *handle, const char *formula, size_t formula_size, lq_fetched *out)
{
    if (!is_open(handle) || !out || !is_text(&formula, &formula_size, LQ_FORMULA_SIZE)) return LQ_MISUSE;
    return lqp_fetch_bound(in(handle), &handle->result, formula, formula_size, out);
}
