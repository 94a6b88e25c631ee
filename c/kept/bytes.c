/* Numbers as bytes, and the checksum of bytes: CRC-32C, as iSCSI and ext4 have it. */
#include "kept.h"

/* The polynomial of CRC-32C, its lowest bit first. */
static const uint32_t polynomial = 0x82F63B78U;

void kept_checksums(checksums *table)
{
    for (uint32_t byte = 0; byte < 256; byte++) {
        uint32_t sum = byte;
        for (int bit = 0; bit < 8; bit++) sum = sum >> 1 ^ (sum & 1 ? polynomial : 0);
        table->of[0][byte] = sum;
    }
    for (int place = 1; place < 8; place++)
        for (int byte = 0; byte < 256; byte++) {
            uint32_t sum = table->of[place - 1][byte];
            table->of[place][byte] = sum >> 8 ^ table->of[0][sum & 255];
        }
}

uint32_t kept_checksum(const checksums *table, uint32_t before, const unsigned char *bytes, size_t size)
{
    uint32_t sum = ~before;
    for (; size >= 8; size -= 8, bytes += 8) {
        sum ^= (uint32_t)kept_get(bytes, 4);
        sum = table->of[7][sum & 255] ^ table->of[6][sum >> 8 & 255] ^ table->of[5][sum >> 16 & 255] ^
              table->of[4][sum >> 24] ^ table->of[3][bytes[4]] ^ table->of[2][bytes[5]] ^ table->of[1][bytes[6]] ^
              table->of[0][bytes[7]];
    }
    for (; size > 0; size--, bytes++) sum = sum >> 8 ^ table->of[0][(sum ^ *bytes) & 255];
    return ~sum;
}

uint32_t kept_piece_checksum(const checksums *table, const unsigned char *piece, size_t size)
{
    uint32_t of_size = kept_checksum(table, 0, piece, 4);
    return kept_checksum(table, of_size, piece + PIECE_HEAD_SIZE, size);
}

unsigned char *kept_put(unsigned char *to, uint64_t number, int size)
{
    for (int byte = 0; byte < size; byte++) to[byte] = (unsigned char)(number >> 8 * byte);
    return to + size;
}

uint64_t kept_get(const unsigned char *from, int size)
{
    uint64_t number = 0;
    for (int byte = 0; byte < size; byte++) number |= (uint64_t)from[byte] << 8 * byte;
    return number;
}
