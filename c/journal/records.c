/* A record of the journal: the line of a script that makes a change, with numbers and a checksum before it. */
#include "journal.h"

#define PUT(at, literal) put(at, literal, sizeof literal - 1)

static char *put(char *at, const char *text, size_t size)
{
    memcpy(at, text, size);
    return at + size;
}

static char *put_whole(char *at, int64_t number)
{
    if (number >= 0) return put_natural(at, (uint64_t)number);
    *at++ = '-';
    return put_natural(at, -(uint64_t)number);
}

/* A text of JSON. All that it needs `\` for is a byte below 32, `"` and `\` itself. */
static char *put_text(char *at, const char *text, size_t size)
{
    *at++ = '"';
    for (size_t i = 0; i < size; i++) {
        uint8_t byte = (uint8_t)text[i];
        if (byte >= 32 && byte != '"' && byte != '\\') {
            *at++ = (char)byte;
            continue;
        }
        *at++ = '\\';
        if (byte >= 32)
            *at++ = (char)byte;
        else {
            at = PUT(at, "u00");
            *at++ = (char)('0' + (byte >> 4));
            *at++ = "0123456789abcdef"[byte & 15];
        }
    }
    *at++ = '"';
    return at;
}

/* The line that was answered. A LF or CR in it is white space of JSON: a text can't have one. */
static char *put_line(char *at, const char *line, size_t size)
{
    for (size_t i = 0; i < size; i++) *at++ = line[i] == '\n' || line[i] == '\r' ? ' ' : line[i];
    return at;
}

static char *put_attr(char *at, const change *it)
{
    at = put_natural(PUT(at, "\",\"node\":"), it->node);
    return put_text(PUT(at, ",\"attr\":"), it->name, it->name_size);
}

static char *put_set(char *at, const change *it, const char *type)
{
    at = put_attr(PUT(at, "{\"do\":\"set"), it);
    at = PUT(put(PUT(at, ",\"type\":\""), type, 4), "\",\"value\":");
    switch (it->what) {
    case CHANGE_SET_TEXT: return put_text(at, it->text, it->text_size);
    case CHANGE_SET_INT32:
    case CHANGE_SET_INT64: return put_whole(at, it->whole);
    default: return put_natural(at, it->natural);
    }
}

/* Writes the fields of a line but for its last brace. */
static char *put_change(char *at, const change *it)
{
    switch (it->what) {
    case CHANGE_CREATE:
        at = put_natural(PUT(at, "{\"do\":\"create\",\"dir\":"), it->dir);
        at = put_text(PUT(at, ",\"name\":"), it->name, it->name_size);
        if (it->kind == LQ_FOLDER)
            at = PUT(at, ",\"kind\":\"folder\"");
        else
            at = put_natural(PUT(at, ",\"size\":"), it->natural);
        return put_whole(PUT(at, ",\"time\":"), it->whole);
    case CHANGE_REMOVE: return put_natural(PUT(at, "{\"do\":\"remove\",\"node\":"), it->node);
    case CHANGE_MOVE:
        at = put_natural(PUT(at, "{\"do\":\"move\",\"node\":"), it->node);
        at = put_natural(PUT(at, ",\"dir\":"), it->dir);
        at = put_text(PUT(at, ",\"name\":"), it->name, it->name_size);
        return it->clobber ? PUT(at, ",\"clobber\":true") : at;
    case CHANGE_WRITE:
        at = put_natural(PUT(at, "{\"do\":\"write\",\"node\":"), it->node);
        at = put_natural(PUT(at, ",\"size\":"), it->natural);
        return put_whole(PUT(at, ",\"time\":"), it->whole);
    case CHANGE_SET_TEXT: return put_set(at, it, "CSTR");
    case CHANGE_SET_INT32: return put_set(at, it, "LONG");
    case CHANGE_SET_INT64: return put_set(at, it, "LLNG");
    case CHANGE_SET_UINT32: return put_set(at, it, "ULNG");
    case CHANGE_SET_UINT64: return put_set(at, it, "ULLG");
    case CHANGE_UNSET: return put_attr(PUT(at, "{\"do\":\"unset"), it);
    case CHANGE_LINE: break;
    }
    return at;
}

/* The line is written after the room for what comes before it, whose size isn't known yet. */
void record_build(journal *j, const change *made, const lq_applied *applied)
{
    char *line = j->record + FRONT_SIZE, *at, front[FRONT_SIZE];
    if (made->what == CHANGE_LINE)
        at = put_line(line, made->text, made->text_size);
    else
        at = PUT(put_change(line, made), "}");
    size_t line_size = (size_t)(at - line);
    *at++ = '\n';
    char *end = front;
    *end++ = ' ';
    end = put_natural(end, line_size);
    *end++ = ' ';
    end = put_natural(end, applied->change);
    *end++ = ' ';
    end = put_natural(end, applied->node);
    *end++ = ' ';
    end = put_natural(end, applied->change - 1 - j->synced_change);
    *end++ = ' ';
    size_t front_size = (size_t)(end - front);
    char *begin = line - front_size;
    memcpy(begin, front, front_size);
    j->front = begin - 8;
    put_hex(j->front, checksum(j, j->seed, begin + 1, (size_t)(at - begin - 1)));
    j->record_size = (size_t)(at - j->front);
}
