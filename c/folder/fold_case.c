/* Texts with their case folded, as `iname` has them: each character by itself, with Unicode's simple case folding. */
#include "folder.h"

/* What a character folds to. */
static uint32_t folded(uint32_t character)
{
    size_t low = 0, high = folding_count;
    while (low < high) {
        size_t middle = low + (high - low) / 2;
        const folding *it = &foldings[middle];
        if (character < it->first) high = middle;
        else if (character > it->last) low = middle + 1;
        else if ((character - it->first) % it->step) return character;
        else return (uint32_t)((int32_t)character + it->distance);
    }
    return character;
}

/* Reads the character that begins here, and answers its size; 0: it is no UTF-8, or too little of it is there. */
static size_t character_at(const unsigned char *at, size_t left, uint32_t *out)
{
    static const uint32_t least_of[] = {0, 0, 0x80, 0x800, 0x10000};
    size_t size = at[0] < 0x80 ? 1 : at[0] < 0xc2 ? 0 : at[0] < 0xe0 ? 2 : at[0] < 0xf0 ? 3 : at[0] < 0xf5 ? 4 : 0;
    if (size == 0 || size > left) return 0;
    uint32_t it = size == 1 ? at[0] : at[0] & (0x7fu >> size);
    for (size_t i = 1; i < size; i++) {
        if ((at[i] & 0xc0) != 0x80) return 0;
        it = it << 6 | (at[i] & 0x3f);
    }
    *out = it;
    return it < least_of[size] || it > 0x10ffff || (it >= 0xd800 && it < 0xe000) ? 0 : size;
}

/* Writes a character's UTF-8, and answers its size. */
static size_t put(uint32_t character, unsigned char *out)
{
    if (character < 0x80) {
        out[0] = (unsigned char)character;
        return 1;
    }
    size_t size = character < 0x800 ? 2 : character < 0x10000 ? 3 : 4;
    for (size_t i = size - 1; i > 0; i--, character >>= 6) out[i] = (unsigned char)(0x80 | (character & 0x3f));
    out[0] = (unsigned char)(0xf00u >> size | character);
    return size;
}

/* Folds what is at the front, adds its size to `*to`, and answers how many bytes it read. */
static size_t fold_one(const unsigned char *at, size_t left, unsigned char *out, size_t *to)
{
    uint32_t character;
    size_t size = character_at(at, left, &character);
    if (size == 0) {
        out[0] = at[0];
        *to += 1;
        return 1;
    }
    *to += put(folded(character), out);
    return size;
}

size_t lq_folder_fold(const char *text, size_t size, char *out, size_t room)
{
    if (!text) return 0;
    const unsigned char *in = (const unsigned char *)text;
    unsigned char one[4];
    size_t needs = 0, to = 0;
    for (size_t i = 0; i < size;) i += fold_one(in + i, size - i, one, &needs);
    if (!out || room < needs) return needs;
    for (size_t i = 0; i < size;) {
        size_t had = to;
        i += fold_one(in + i, size - i, one, &to);
        memcpy(out + had, one, to - had);
    }
    if (room > needs) out[needs] = 0;
    return needs;
}
