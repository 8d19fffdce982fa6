/* A keyed hash, and initial sequence numbers (see secret.h). C beside tcpcore.h, tested and not proved. */
#include "secret.h"

#include <string.h>

/* At most eight bytes, the least significant first. */
static uint64_t word_of(const uint8_t *bytes, size_t count)
{
    uint64_t word = 0;
    while (count-- > 0)
        word = word << 8 | bytes[count];
    return word;
}

static uint64_t rotate(uint64_t word, int bits) { return word << bits | word >> (64 - bits); }

static void rounds(uint64_t v[4], int count)
{
    while (count-- > 0) {
        v[0] += v[1], v[2] += v[3];
        v[1] = rotate(v[1], 13) ^ v[0], v[3] = rotate(v[3], 16) ^ v[2];
        v[0] = rotate(v[0], 32);
        v[2] += v[1], v[0] += v[3];
        v[1] = rotate(v[1], 17) ^ v[2], v[3] = rotate(v[3], 21) ^ v[0];
        v[2] = rotate(v[2], 32);
    }
}

static void take(uint64_t v[4], uint64_t block)
{
    v[3] ^= block;
    rounds(v, 2);
    v[0] ^= block;
}

/* The last block has what is left, and the count of all bytes in its highest one. */
uint64_t secret_hash(const uint8_t secret[16], const uint8_t *bytes, size_t length)
{
    uint64_t key = word_of(secret, 8), other = word_of(secret + 8, 8);
    uint64_t v[4] = {key ^ 0x736f6d6570736575, other ^ 0x646f72616e646f6d, key ^ 0x6c7967656e657261, other ^ 0x7465646279746573};
    size_t at = 0;
    for (; length - at >= 8; at += 8)
        take(v, word_of(bytes + at, 8));
    take(v, word_of(bytes + at, length - at) | (uint64_t)length << 56);
    v[2] ^= 0xff;
    rounds(v, 4);
    return v[0] ^ v[1] ^ v[2] ^ v[3];
}

uint32_t secret_isn(const uint8_t secret[16], tcpcore_addr own, uint16_t own_port, tcpcore_addr peer, uint16_t port, uint64_t now)
{
    uint8_t bytes[12];
    memcpy(bytes, own.byte, 4);
    memcpy(bytes + 4, peer.byte, 4);
    bytes[8] = (uint8_t)(own_port >> 8), bytes[9] = (uint8_t)own_port;
    bytes[10] = (uint8_t)(port >> 8), bytes[11] = (uint8_t)port;
    return (uint32_t)(now / 4 + secret_hash(secret, bytes, sizeof bytes));
}
