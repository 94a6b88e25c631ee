/* The proved calls of lq_c, as its exports are. None tests what their contracts take as given: `served` is the pointer
   of a handle that lqp_start has made, each `out` can be written, and each text has its size. `made` and `pushes` are
   the fields `result` and `pushes` of its struct: how many results it has made, the last of which has this number, and
   how many pushes its stack has accepted. */
#ifndef PROVED_H
#define PROVED_H

#include <lq.h>

typedef void *served;

/* The numbers of a volume: its limit, how many changes it accepted, and the node of the next entry. */
typedef struct volume_numbers {
    uint64_t limit;
    uint64_t changes;
    uint64_t next;
} volume_numbers;

/* drawn by tools/api */
uint32_t lqp_attr_at(served *handle, uint64_t node, size_t index, lq_attr *out);
uint32_t lqp_attr_named(served *handle, uint64_t node, const char *attr, size_t attr_size, lq_attr *out);

uint32_t lqp_create(served *handle, uint64_t dir, const char *name, size_t name_size, uint32_t kind, uint64_t size,
                    int64_t time, lq_applied *out);
uint32_t lqp_remove(served *handle, uint64_t node, lq_applied *out);
uint32_t lqp_move(served *handle, uint64_t node, uint64_t dir, const char *name, size_t name_size, bool clobber,
                  lq_applied *out);
uint32_t lqp_write(served *handle, uint64_t node, uint64_t size, int64_t time, lq_applied *out);
uint32_t lqp_set_text(served *handle, uint64_t node, const char *attr, size_t attr_size, const char *text,
                      size_t text_size, lq_applied *out);
uint32_t lqp_set_int32(served *handle, uint64_t node, const char *attr, size_t attr_size, int32_t value,
                       lq_applied *out);
uint32_t lqp_set_int64(served *handle, uint64_t node, const char *attr, size_t attr_size, int64_t value,
                       lq_applied *out);
uint32_t lqp_set_uint32(served *handle, uint64_t node, const char *attr, size_t attr_size, uint32_t value,
                        lq_applied *out);
uint32_t lqp_set_uint64(served *handle, uint64_t node, const char *attr, size_t attr_size, uint64_t value,
                        lq_applied *out);
uint32_t lqp_unset(served *handle, uint64_t node, const char *attr, size_t attr_size, lq_applied *out);

uint32_t lqp_children(served *handle, uint64_t *made, uint64_t dir, lq_listing *out);
uint32_t lqp_path(served *handle, uint64_t node, size_t *size);

size_t lqp_quote(const char *text, size_t text_size, char *out, size_t room);
uint32_t lqp_bind_text(served *handle, const char *text, size_t text_size);
uint32_t lqp_bind_int64(served *handle, int64_t value);
uint32_t lqp_bind_uint64(served *handle, uint64_t value);
void lqp_clear_bound(served *handle);
uint32_t lqp_open_bound(served *handle, uint64_t *made, const char *formula, size_t formula_size,
                        const lq_options *options, lq_opening *out);
uint32_t lqp_fetch_bound(served *handle, uint64_t *made, const char *formula, size_t formula_size, lq_fetched *out);

uint32_t lqp_start(served *handle);
void lqp_free(served handle);
uint64_t lqp_fault_place(served *handle);
uint32_t lqp_answer(served *handle, const char *line, size_t line_size, size_t *size);
size_t lqp_text(served *handle, char *out, size_t room);
uint64_t lqp_changes(served *handle);

uint32_t lqp_open(served *handle, uint64_t *made, const char *formula, size_t formula_size, const lq_options *options,
                  lq_opening *out);
uint32_t lqp_read(served *handle, uint64_t slot, lq_message *out);
uint32_t lqp_read_many(served *handle, uint64_t slot, lq_message *out, size_t room, size_t *got);
uint32_t lqp_hang_up(served *handle, uint64_t slot);
uint32_t lqp_close(served *handle, uint64_t slot, uint64_t *change);
uint32_t lqp_finish(served *handle, uint64_t slot);
uint32_t lqp_drop(served *handle, uint64_t slot);
uint64_t lqp_ready(served *handle);

uint32_t lqp_fetch(served *handle, uint64_t *made, const char *formula, size_t formula_size, lq_fetched *out);
uint32_t lqp_find(served *handle, uint64_t dir, const char *name, size_t name_size, uint64_t *node);
uint32_t lqp_find_path(served *handle, uint64_t dir, const char *path, size_t path_size, uint64_t *node);
uint32_t lqp_result(served *handle, uint64_t *made, uint64_t slot, lq_rebuilt *out);
uint32_t lqp_entry(served *handle, uint64_t node, lq_info *out);

uint32_t lqp_push_attr(served *handle, uint32_t *pushes, const char *name, size_t name_size);
uint32_t lqp_push_text(served *handle, uint32_t *pushes, const char *text, size_t text_size);
uint32_t lqp_push_int32(served *handle, uint32_t *pushes, int32_t value);
uint32_t lqp_push_int64(served *handle, uint32_t *pushes, int64_t value);
uint32_t lqp_push_uint32(served *handle, uint32_t *pushes, uint32_t value);
uint32_t lqp_push_uint64(served *handle, uint32_t *pushes, uint64_t value);
uint32_t lqp_push_op(served *handle, uint32_t *pushes, uint32_t op);
void lqp_clear_pushed(served *handle, uint32_t *pushes);
uint32_t lqp_open_pushed(served *handle, uint64_t *made, uint32_t *pushes, const lq_options *options, lq_opening *out);
uint32_t lqp_fetch_pushed(served *handle, uint64_t *made, uint32_t *pushes, lq_fetched *out);

uint32_t lqp_restore(served *handle, uint64_t limit, uint64_t changes, uint64_t next);
uint32_t lqp_restore_text(served *handle, const char *attr, size_t attr_size, const char *text, size_t text_size);
uint32_t lqp_restore_int32(served *handle, const char *attr, size_t attr_size, int32_t value);
uint32_t lqp_restore_int64(served *handle, const char *attr, size_t attr_size, int64_t value);
uint32_t lqp_restore_uint32(served *handle, const char *attr, size_t attr_size, uint32_t value);
uint32_t lqp_restore_uint64(served *handle, const char *attr, size_t attr_size, uint64_t value);
uint32_t lqp_restore_entry(served *handle, uint64_t node, uint64_t dir, const char *name, size_t name_size,
                           uint32_t kind, uint64_t size, int64_t time);
uint32_t lqp_restore_end(served *handle);

uint32_t lqp_take(served *handle, uint64_t made, uint64_t number, lq_row *out, size_t room, size_t *got);
uint32_t lqp_next(served *handle, uint64_t made, uint64_t number, lq_row *out);

void lqp_numbers(served *handle, volume_numbers *out);
uint32_t lqp_nodes(served *handle, uint64_t *out, size_t room, size_t *count);
uint32_t lqp_copy(served *handle, served *copy);
/* end of what tools/api draws */

#endif
