/* Names: as bytes on disk and as texts in the volume, and the patterns of those to skip. A byte that is no UTF-8 is the
   character U+F700 plus that byte, and so is each byte of a character from U+F780 to U+F7FF. */
#include "folder.h"

/* ---- bytes and texts ---- */

/* The least and the most that the second byte of a character may be, after these first bytes; else 0x80 to 0xbf. */
static bool is_second(unsigned char first, unsigned char second)
{
    switch (first) {
    case 0xe0: return second >= 0xa0 && second <= 0xbf;
    case 0xed: return second >= 0x80 && second <= 0x9f;
    case 0xf0: return second >= 0x90 && second <= 0xbf;
    case 0xf4: return second >= 0x80 && second <= 0x8f;
    case 0xef: return second >= 0x80 && second <= 0xbf && second != 0x9e && second != 0x9f; /* U+F780 to U+F7FF */
    default: return second >= 0x80 && second <= 0xbf;
    }
}

/* The size of the character that begins here and stands for itself; 0: none does. */
static size_t plain_size(const unsigned char *at, size_t left)
{
    if (at[0] < 0x80) return 1;
    size_t size = at[0] >= 0xf0 ? 4 : at[0] >= 0xe0 ? 3 : 2;
    if (at[0] < 0xc2 || at[0] > 0xf4 || size > left || !is_second(at[0], at[1])) return 0;
    for (size_t i = 2; i < size; i++)
        if ((at[i] & 0xc0) != 0x80) return 0;
    return size;
}

size_t name_of_bytes(const char *raw, size_t size, char *out)
{
    size_t to = 0;
    while (to < size && (unsigned char)raw[to] < 0x80) to++; /* most names have no other bytes */
    memcpy(out, raw, to);
    for (size_t i = to; i < size;) {
        size_t part = plain_size((const unsigned char *)raw + i, size - i);
        if (part) {
            for (size_t end = i + part; i < end; i++) out[to++] = raw[i];
            continue;
        }
        unsigned char byte = (unsigned char)raw[i++];
        out[to++] = (char)0xef;
        out[to++] = (char)(byte < 0xc0 ? 0x9e : 0x9f);
        out[to++] = (char)(0x80 | (byte & 0x3f));
    }
    return to;
}

/* Whether a byte of a name stands here as a character of three bytes. */
static bool is_byte(const unsigned char *at, size_t left)
{
    return at[0] == 0xef && left > 2 && (at[1] == 0x9e || at[1] == 0x9f);
}

size_t bytes_of_name(const char *name, size_t size, char *out)
{
    size_t to = 0;
    for (size_t i = 0; i < size;) {
        const unsigned char *at = (const unsigned char *)name + i;
        bool is_one = is_byte(at, size - i);
        unsigned char byte = is_one ? (unsigned char)((at[1] == 0x9e ? 0x80 : 0xc0) | (at[2] & 0x3f)) : at[0];
        out[to++] = (char)byte;
        i += is_one ? 3 : 1;
    }
    return to;
}

size_t lq_folder_to_name(const char *bytes, size_t size, char *out, size_t room)
{
    if (!bytes) return 0;
    size_t needs = 0;
    for (size_t i = 0; i < size;) {
        size_t part = plain_size((const unsigned char *)bytes + i, size - i);
        needs += part ? part : 3;
        i += part ? part : 1;
    }
    if (!out || room < needs) return needs;
    name_of_bytes(bytes, size, out);
    if (room > needs) out[needs] = 0;
    return needs;
}

size_t lq_folder_to_bytes(const char *name, size_t size, char *out, size_t room)
{
    if (!name) return 0;
    size_t needs = 0;
    for (size_t i = 0; i < size; needs++) i += is_byte((const unsigned char *)name + i, size - i) ? 3 : 1;
    if (!out || room < needs) return needs;
    bytes_of_name(name, size, out);
    if (room > needs) out[needs] = 0;
    return needs;
}

/* ---- patterns, as Python's fnmatch reads them ---- */

/* The `]` of the set whose `[` is before here; null: there is none, so the `[` stands for itself. A `]` right after `[`
   or `[!` is in the set. */
static const char *end_of_set(const char *at)
{
    if (*at == '!') at++;
    if (*at == ']') at++;
    while (*at && *at != ']') at++;
    return *at ? at : NULL;
}

/* Whether a byte is in the set between these. A `-` between two others is a range. */
static bool is_in_set(const char *at, const char *end, unsigned char byte)
{
    bool is_not = *at == '!', is_in = false;
    if (is_not) at++;
    while (at < end) {
        unsigned char first = (unsigned char)*at, last = first;
        bool is_range = end - at > 2 && at[1] == '-';
        if (is_range) last = (unsigned char)at[2];
        is_in |= first <= byte && byte <= last;
        at += is_range ? 3 : 1;
    }
    return is_in != is_not;
}

/* The pattern after the piece at its front, if that piece stands for this byte; else null. */
static const char *after_piece(const char *pattern, unsigned char byte)
{
    if (!*pattern) return NULL;
    if (*pattern == '?') return pattern + 1;
    const char *end = *pattern == '[' ? end_of_set(pattern + 1) : NULL;
    if (end) return is_in_set(pattern + 1, end, byte) ? end + 1 : NULL;
    return (unsigned char)*pattern == byte ? pattern + 1 : NULL;
}

/* The last `*` alone takes more bytes where the rest doesn't fit: so it never goes back further. */
static bool matches(const char *pattern, const char *name, size_t size)
{
    const char *star = NULL;
    size_t at = 0, from = 0;
    while (at < size) {
        if (*pattern == '*') {
            star = ++pattern;
            from = at;
            continue;
        }
        const char *next = after_piece(pattern, (unsigned char)name[at]);
        if (!next && !star) return false;
        pattern = next ? next : star;
        at = next ? at + 1 : ++from;
    }
    while (*pattern == '*') pattern++;
    return !*pattern;
}

bool is_skipped(const folder *f, const char *name, size_t size)
{
    for (size_t i = 0; i < f->options.skip_count; i++)
        if (matches(f->skip[i], name, size)) return true;
    return false;
}
