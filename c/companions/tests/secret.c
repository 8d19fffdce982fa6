/* The test of secret.c: SipHash-2-4 by openssl's values (openssl mac SIPHASH, of 8 bytes), and initial numbers by them. */
#include "../secret.h"
#include "tests/check.h"

static const tcpcore_addr OWN = {{10, 0, 0, 2}}, PEER = {{10, 0, 0, 1}};
static uint8_t bytes[64];

/* The key's bytes are 0 to 15, the text's 0 and on. */
static void hashes(void)
{
    static const struct { size_t length; uint64_t hash; } rows[] = {
        {0, 0x726fdb47dd0e0e31}, {1, 0x74f839c593dc67fd}, {7, 0xab0200f58b01d137}, {8, 0x93f5f5799a932462},
        {9, 0x9e0082df0ba9e4b0}, {15, 0xa129ca6149be45e5}, {16, 0x3f2acc7f57c29bdb}, {63, 0x958a324ceb064572}};
    for (size_t at = 0; at < sizeof rows / sizeof *rows; at++)
        CHECK(secret_hash(bytes, bytes, rows[at].length) == rows[at].hash, 1);
}

/* The lower half of the hash of both addresses and both ports, and a clock of 4 microseconds. */
static void numbers(void)
{
    CHECK(secret_isn(bytes, OWN, 80, PEER, 50000, 0), 0xa0fc00f9);
    CHECK(secret_isn(bytes, OWN, 80, PEER, 50001, 0), 0x6bb6044d);
    CHECK(secret_isn(bytes, OWN, 81, PEER, 50000, 0), 0x46193ec1);
    CHECK(secret_isn(bytes, OWN, 80, PEER, 50000, 3), 0xa0fc00f9);
    CHECK(secret_isn(bytes, OWN, 80, PEER, 50000, 4), 0xa0fc00fa);
    CHECK(secret_isn(bytes, OWN, 80, PEER, 50000, UINT64_C(4) << 32), 0xa0fc00f9);
    bytes[0] = 1;
    CHECK(secret_isn(bytes, OWN, 80, PEER, 50000, 0) == 0xa0fc00f9, 0);
}

int main(void)
{
    for (size_t at = 0; at < sizeof bytes; at++)
        bytes[at] = (uint8_t)at;
    hashes();
    numbers();
    printf("secret: %d checks\n", checks);
    return 0;
}
