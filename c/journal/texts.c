/* The texts of a file: its first line, and numbers as they are written and read. */
#include "journal.h"

char *put_hex(char *at, uint32_t number)
{
    for (int digit = 7; digit >= 0; digit--, number >>= 4) at[digit] = "0123456789abcdef"[number & 15];
    return at + 8;
}

char *put_natural(char *at, uint64_t number)
{
    char digits[20], *from = digits + sizeof digits;
    do *--from = (char)('0' + number % 10);
    while (number /= 10);
    size_t size = (size_t)(digits + sizeof digits - from);
    memcpy(at, from, size);
    return at + size;
}

size_t put_head(const journal *j, char *out, uint32_t salt, uint64_t first)
{
    static const char format[] = "yazgoulm-journal 1 ";
    char *at = out;
    memcpy(at, format, sizeof format - 1);
    at = put_hex(at + sizeof format - 1, salt);
    *at++ = ' ';
    at = put_natural(at, first);
    *at++ = ' ';
    at = put_hex(at, checksum(j, 0, out, (size_t)(at - out)));
    *at++ = '\n';
    return (size_t)(at - out);
}

uint32_t seed_of(const journal *j, uint32_t salt)
{
    char text[8];
    put_hex(text, salt);
    return checksum(j, 0, text, sizeof text);
}

bool take_hex(const char **at, const char *end, uint32_t *out)
{
    *out = 0;
    if (end - *at < 8) return false;
    for (int digit = 0; digit < 8; digit++, ++*at) {
        char it = **at;
        if (!((it >= '0' && it <= '9') || (it >= 'a' && it <= 'f'))) return false;
        *out = *out << 4 | (uint32_t)(it <= '9' ? it - '0' : it - 'a' + 10);
    }
    return true;
}

bool take_natural(const char **at, const char *end, uint64_t *out)
{
    const char *from = *at;
    *out = 0;
    for (; *at < end && **at >= '0' && **at <= '9'; ++*at) {
        uint64_t digit = (uint64_t)(**at - '0');
        if (*out > (UINT64_MAX - digit) / 10) return false;
        *out = *out * 10 + digit;
    }
    return *at > from && (*from != '0' || *at == from + 1);
}
