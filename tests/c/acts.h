/* An act of a script, as a line and as the typed call that says the same; both replies are lines of JSON. */
#ifndef ACTS_H
#define ACTS_H

#include "check.h"
#include <inttypes.h>

typedef enum word {
    CREATE,
    REMOVE,
    MOVE,
    WRITE,
    SET,
    UNSET,
    OPEN,
    READ,
    HANG_UP,
    CLOSE,
    FINISH,
    RESULT,
    FIND,
    ENTRY,
    FETCH
} word;

/* Which fields count is said by the word. `number` is the value of a `set` with a type other than LQ_TYPE_TEXT. */
typedef struct act {
    word word;
    uint64_t node, dir, size;
    int64_t time, number;
    const char *name, *text;
    size_t name_size, text_size;
    uint32_t kind, type;
    uint64_t backlog;
    bool flag, values;
} act;

static inline void say(text *to, const char *plain) {
    add(to, plain, strlen(plain));
}

static inline void say_natural(text *to, const char *key, uint64_t number) {
    char digits[24];
    say(to, key);
    add(to, digits, (size_t)sprintf(digits, "%" PRIu64, number));
}

static inline void say_whole(text *to, const char *key, int64_t number) {
    char digits[24];
    say(to, key);
    add(to, digits, (size_t)sprintf(digits, "%" PRId64, number));
}

/* A text of JSON, with the escapes that a reply has. */
static inline void say_text(text *to, const char *key, const char *from, size_t size) {
    static const char plain[] = "\"\\\b\f\n\r\t", escaped[] = "\"\\bfnrt";
    say(to, key);
    say(to, "\"");
    for (size_t at = 0; at < size; at++) {
        const char *found = from[at] ? strchr(plain, from[at]) : NULL;
        char code[8];
        if (found) {
            add(to, "\\", 1);
            add(to, escaped + (found - plain), 1);
        } else if ((unsigned char)from[at] < 32) {
            add(to, code, (size_t)sprintf(code, "\\u%04x", (unsigned char)from[at]));
        } else {
            add(to, from + at, 1);
        }
    }
    say(to, "\"");
}

static inline void say_bool(text *to, const char *key, bool truth) {
    say(to, key);
    say(to, truth ? "true" : "false");
}

static inline const char *type_name(uint32_t type) {
    return type == LQ_TYPE_TEXT     ? "CSTR"
           : type == LQ_TYPE_INT32  ? "LONG"
           : type == LQ_TYPE_INT64  ? "LLNG"
           : type == LQ_TYPE_UINT32 ? "ULNG"
                               : "ULLG";
}

/* The line of an act, without LF. */
static inline void say_line(text *to, const act *it) {
    static const char *const words[] = {"create", "remove", "move", "write",   "set",
                                        "unset",  "open",   "read", "hang_up", "close",
                                        "finish", "result", "find", "entry",   "fetch"};
    say_text(to, "{\"do\":", words[it->word], strlen(words[it->word]));
    switch (it->word) {
    case CREATE:
        say_text(to, ",\"name\":", it->name, it->name_size);
        say_natural(to, ",\"dir\":", it->dir);
        say(to, it->kind == LQ_FOLDER ? ",\"kind\":\"folder\""
                : it->kind == LQ_FILE ? ",\"kind\":\"file\""
                                      : ",\"kind\":\"\"");
        say_natural(to, ",\"size\":", it->size);
        say_whole(to, ",\"time\":", it->time);
        break;
    case MOVE:
        say_natural(to, ",\"node\":", it->node);
        say_natural(to, ",\"dir\":", it->dir);
        say_text(to, ",\"name\":", it->name, it->name_size);
        say_bool(to, ",\"clobber\":", it->flag);
        break;
    case WRITE:
        say_natural(to, ",\"node\":", it->node);
        say_natural(to, ",\"size\":", it->size);
        say_whole(to, ",\"time\":", it->time);
        break;
    case SET:
        say_natural(to, ",\"node\":", it->node);
        say_text(to, ",\"attr\":", it->name, it->name_size);
        say_text(to, ",\"type\":", type_name(it->type), 4);
        if (it->type == LQ_TYPE_TEXT) say_text(to, ",\"value\":", it->text, it->text_size);
        else if (it->type == LQ_TYPE_INT32 || it->type == LQ_TYPE_INT64)
            say_whole(to, ",\"value\":", it->number);
        else say_natural(to, ",\"value\":", (uint64_t)it->number);
        break;
    case UNSET:
        say_natural(to, ",\"node\":", it->node);
        say_text(to, ",\"attr\":", it->name, it->name_size);
        break;
    case OPEN:
        say_text(to, ",\"query\":", it->text, it->text_size);
        say_natural(to, ",\"port\":1,\"backlog\":", it->backlog ? it->backlog : LQ_BACKLOG);
        say_bool(to, ",\"moved\":", it->flag);
        if (it->values) say_bool(to, ",\"values\":", true);
        break;
    case FIND:
        say_natural(to, ",\"dir\":", it->dir);
        say_text(to, ",\"name\":", it->name, it->name_size);
        break;
    case FETCH: say_text(to, ",\"query\":", it->text, it->text_size); break;
    case REMOVE:
    case ENTRY: say_natural(to, ",\"node\":", it->node); break;
    default: say_natural(to, ",\"slot\":", it->node);
    }
    say(to, "}");
}

/* The entries of a result, which has so many. */
static inline void say_result(text *to, lq *handle, uint64_t result, size_t count) {
    lq_row entry;
    say(to, "\"result\":[");
    for (size_t number = 0; number < count; number++) {
        OK(lq_next(handle, result, &entry));
        CHECK(entry.name[entry.name_size] == 0);
        say_natural(to, number ? ",{\"dir\":" : "{\"dir\":", entry.dir);
        say_text(to, ",\"name\":", entry.name, entry.name_size);
        say_natural(to, ",\"node\":", entry.node);
        say(to, "}");
    }
    REFUSED(lq_next(handle, result, &entry), LQ_NO_ENTRY, entry);
    say(to, "]");
}

static inline void say_message(text *to, const lq_message *it) {
    static const char *const ops[] = {"",
                                      "B_ENTRY_CREATED",
                                      "B_ENTRY_REMOVED",
                                      "B_ENTRY_MOVED",
                                      "B_STAT_CHANGED",
                                      "B_ATTR_CHANGED"},
                      *const causes[] = {"", "closed", "hung_up", "overrun"};
    if (it->what == LQ_END) {
        say_text(to, "{\"cause\":", causes[it->cause], strlen(causes[it->cause]));
        say_natural(to, ",\"change\":", it->change);
        say_natural(to, ",\"seq\":", it->seq);
        say(to, ",\"what\":\"END\"}");
    } else {
        if (it->op == LQ_ATTR_CHANGED) say_text(to, "{\"attr\":", it->attr, it->attr_size);
        say_natural(to, it->op == LQ_ATTR_CHANGED ? ",\"change\":" : "{\"change\":", it->change);
        say_natural(to, ",\"dir\":", it->dir);
        if (it->op == LQ_ENTRY_MOVED) {
            say_natural(to, ",\"from_dir\":", it->from_dir);
            say_text(to, ",\"from_name\":", it->from_name, it->from_name_size);
        }
        say_bool(to, ",\"last\":", it->last);
        say_text(to, ",\"name\":", it->name, it->name_size);
        say_natural(to, ",\"node\":", it->node);
        say_text(to, ",\"op\":", ops[it->op], strlen(ops[it->op]));
        say_natural(to, ",\"seq\":", it->seq);
        say(to, ",\"what\":\"B_QUERY_UPDATE\"}");
    }
}

static inline lq_status say_entry(text *to, lq *handle, uint64_t node) {
    lq_info info;
    lq_attr attr;
    lq_status status = lq_entry(handle, node, &info);
    if (status != LQ_OK) return status;
    say(to, "{\"attrs\":[");
    for (size_t index = 0; index < info.attr_count; index++) {
        OK(lq_attr_at(handle, node, index, &attr));
        say_text(to, index ? ",{\"name\":" : "{\"name\":", attr.name, attr.name_size);
        say_text(to, ",\"type\":", type_name(attr.type), 4);
        if (attr.type == LQ_TYPE_TEXT) say_text(to, ",\"value\":", attr.text, attr.text_size);
        else if (attr.type == LQ_TYPE_INT32 || attr.type == LQ_TYPE_INT64)
            say_whole(to, ",\"value\":", attr.whole);
        else say_natural(to, ",\"value\":", attr.natural);
        say(to, "}");
    }
    WANT(lq_attr_at(handle, node, info.attr_count, &attr), LQ_NO_ATTR);
    say_natural(to, "],\"dir\":", info.dir);
    say(to, info.kind == LQ_FOLDER ? ",\"kind\":\"folder\"" : ",\"kind\":\"file\"");
    say_text(to, ",\"name\":", info.name, info.name_size);
    say_natural(to, ",\"node\":", info.node);
    say_natural(to, ",\"size\":", info.size);
    say_whole(to, ",\"time\":", info.time);
    say(to, "}");
    return LQ_OK;
}

/* The typed call of a change. */
static inline lq_status change(lq *handle, const act *it, lq_applied *out) {
    switch (it->word) {
    case CREATE:
        return lq_create(handle, it->dir, it->name, it->name_size, it->kind, it->size, it->time,
                         out);
    case REMOVE: return lq_remove(handle, it->node, out);
    case MOVE: return lq_move(handle, it->node, it->dir, it->name, it->name_size, it->flag, out);
    case WRITE: return lq_write(handle, it->node, it->size, it->time, out);
    case UNSET: return lq_unset(handle, it->node, it->name, it->name_size, out);
    default:
        switch (it->type) {
        case LQ_TYPE_TEXT:
            return lq_set_text(handle, it->node, it->name, it->name_size, it->text, it->text_size,
                               out);
        case LQ_TYPE_INT32:
            return lq_set_int32(handle, it->node, it->name, it->name_size, (int32_t)it->number,
                                out);
        case LQ_TYPE_INT64:
            return lq_set_int64(handle, it->node, it->name, it->name_size, it->number, out);
        case LQ_TYPE_UINT32:
            return lq_set_uint32(handle, it->node, it->name, it->name_size, (uint32_t)it->number,
                                 out);
        default:
            return lq_set_uint64(handle, it->node, it->name, it->name_size, (uint64_t)it->number,
                                 out);
        }
    }
}

/* Does an act by its typed call, and adds the reply that its line would have, without LF. A refusal adds nothing. A read
   that finds nothing is answered with LQ_OK, as its line is. */
static inline lq_status by_call(lq *handle, const act *it, text *to) {
    lq_applied applied;
    lq_options options = LQ_OPTIONS_INIT;
    lq_opening opening;
    lq_rebuilt rebuilt;
    lq_fetched fetched;
    lq_message message;
    uint64_t number;
    lq_status status;
    switch (it->word) {
    case OPEN:
        options.backlog = it->backlog;
        options.moved = it->flag;
        options.values = it->values;
        status = lq_query_open(handle, it->text, it->text_size, &options, &opening);
        if (status != LQ_OK) return status;
        say_natural(to, "{\"at\":", opening.at);
        say(to, ",");
        say_result(to, handle, opening.result, opening.count);
        say_natural(to, ",\"slot\":", opening.slot);
        break;
    case READ:
        status = lq_read(handle, it->node, &message);
        if (status == LQ_OK) say_message(to, &message);
        else if (status == LQ_EMPTY) say(to, "{\"what\":\"EMPTY\"}");
        else if (status == LQ_ENDED) say(to, "{\"what\":\"ENDED\"}");
        return status == LQ_EMPTY || status == LQ_ENDED ? LQ_OK : status;
    case HANG_UP:
    case FINISH:
        status = it->word == FINISH ? lq_finish(handle, it->node) : lq_hang_up(handle, it->node);
        if (status != LQ_OK) return status;
        say_natural(to, "{\"slot\":", it->node);
        break;
    case CLOSE:
        status = lq_query_close(handle, it->node, &number);
        if (status != LQ_OK) return status;
        say_natural(to, "{\"change\":", number);
        say_natural(to, ",\"slot\":", it->node);
        break;
    case RESULT:
        status = lq_result(handle, it->node, &rebuilt);
        if (status != LQ_OK) return status;
        say_natural(to, "{\"change\":", rebuilt.change);
        say(to, ",");
        say_result(to, handle, rebuilt.result, rebuilt.count);
        say_bool(to, ",\"settled\":", rebuilt.settled);
        break;
    case FIND:
        status = lq_find(handle, it->dir, it->name, it->name_size, &number);
        if (status != LQ_OK) return status;
        say_natural(to, "{\"node\":", number);
        break;
    case ENTRY: return say_entry(to, handle, it->node);
    case FETCH:
        status = lq_fetch(handle, it->text, it->text_size, &fetched);
        if (status != LQ_OK) return status;
        say_natural(to, "{\"at\":", fetched.at);
        say(to, ",");
        say_result(to, handle, fetched.result, fetched.count);
        break;
    default:
        status = change(handle, it, &applied);
        if (status != LQ_OK) return status;
        say_natural(to, "{\"change\":", applied.change);
        say_natural(to, ",\"node\":", applied.node);
    }
    say(to, "}");
    return LQ_OK;
}

/* The same with LF, and with the reply of a refusal. */
static inline void reply_by_call(lq *handle, const act *it, text *to) {
    lq_status status = by_call(handle, it, to);
    if (status != LQ_OK) {
        const char *name = lq_status_name(status);
        say_natural(to, "{\"code\":", status);
        say_text(to, ",\"error\":", name, strlen(name));
        if (status == LQ_BAD_QUERY) say_natural(to, ",\"place\":", lq_fault_place(handle));
        say(to, "}");
    }
    say(to, "\n");
}

#endif
