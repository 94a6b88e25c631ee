/* What c/lq.c and c/journal share: how the changes of a kept handle come to its journal before their calls answer. */
#ifndef KEEPER_H
#define KEEPER_H

#include <lq.h>

/* A change as the typed calls take it, or a line that made one. `node` is the node that it names, `dir` a folder.
   `natural` is a size, or a value without a sign; `whole` a time, or a value with a sign. `name` is the name of an entry
   or of an attribute, `text` the text of a value, or the line. */
typedef enum change_what {
    CHANGE_CREATE,
    CHANGE_REMOVE,
    CHANGE_MOVE,
    CHANGE_WRITE,
    CHANGE_SET_TEXT,
    CHANGE_SET_INT32,
    CHANGE_SET_INT64,
    CHANGE_SET_UINT32,
    CHANGE_SET_UINT64,
    CHANGE_UNSET,
    CHANGE_LINE
} change_what;

typedef struct change {
    change_what what;
    uint32_t kind;
    bool clobber;
    uint64_t node, dir, natural;
    int64_t whole;
    const char *name, *text;
    size_t name_size, text_size;
} change;

/* What keeps a handle. A call that makes changes asks `may` first, or `may_answer` for a line; then it makes a change,
   and calls `put` with it, and so for each other change of the call; and `end` once before it answers. A status that
   isn't LQ_OK is its answer; what was changed stays. `ready` and `user` are those of lq_on_ready. */
typedef struct keeper keeper;
struct keeper {
    lq_ready_fn ready;
    void *user;
    lq_status (*may)(keeper *it);
    lq_status (*may_answer)(keeper *it, const char *line, size_t size);
    lq_status (*put)(keeper *it, const change *made, const lq_applied *applied);
    lq_status (*end)(keeper *it);
    void (*closed)(keeper *it); /* the handle was closed */
};

/* A bit of a handle's `version`: its `user` is a keeper then, and its `ready` is null. */
#define KEPT (UINT32_C(1) << 31)

static inline keeper *keeper_of(const lq *handle)
{
    return handle->version & KEPT ? (keeper *)handle->user : NULL;
}

#endif
