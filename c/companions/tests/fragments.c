/* The test of fragments.c: pieces in each order, twice, overlapping, too many and too late. What is put together is compared with what was
   cut, and pieces at random with a plain list of bytes. */
#include "../fragments.h"
#include "../segment.h"
#include "tests/check.h"

#include <string.h>

enum { PLACES = 3, MOST = FRAGMENTS_MOST };

static const tcpcore_addr OWN = {{10, 0, 0, 1}}, PEER = {{10, 0, 0, 2}};
static struct fragments_packet packets[PLACES];
static struct fragments fragments;
static uint8_t text[MOST + 64], bytes[60 + MOST + 64];
static const uint8_t *whole;
static size_t whole_length;

/* A piece of `text`, whose offset counts bytes; its header has so many bytes. */
static int add_with(size_t header, uint16_t id, uint32_t from, uint32_t length, int is_last, uint64_t now)
{
    ip_write_any(bytes, PEER, OWN, length, IP_UDP);
    memmove(bytes + header, text + from, length);
    memset(bytes + IP_HEADER, 1, header - IP_HEADER);
    bytes[0] = (uint8_t)(0x40 | header / 4);
    write16(bytes + 2, (uint16_t)(header + length));
    write16(bytes + 4, id);
    write16(bytes + 6, (uint16_t)(from / 8 | (is_last ? 0 : 0x2000)));
    return fragments_add(&fragments, bytes, header + length, now, &whole, &whole_length);
}

static int add(uint16_t id, uint32_t from, uint32_t length, int is_last, uint64_t now)
{
    return add_with(IP_HEADER, id, from, length, is_last, now);
}

static void begin(void)
{
    memset(packets, 0xee, sizeof packets);
    fragments_init(&fragments, packets, PLACES);
    for (size_t at = 0; at < sizeof text; at++)
        text[at] = (uint8_t)(at * 7 + at / 256);
}

static void is_whole(uint32_t length)
{
    struct ip_packet found;
    uint8_t protocol;
    CHECK(whole_length, length + IP_HEADER);
    CHECK(ip_read_any((struct ip_net){OWN, 32}, whole, whole_length, &found, &protocol), IP_DONE);
    CHECK(memcmp(&found.src, &PEER, sizeof PEER), 0);
    CHECK(protocol, IP_UDP);
    CHECK(found.length, length);
    CHECK(memcmp(found.segment, text, length), 0);
}

/* Five pieces in each of their 120 orders, the last of 3 bytes. */
static void orders(void)
{
    static const uint32_t FROM[] = {0, 8, 24, 1000, 1480}, LENGTH[] = {8, 16, 976, 480, 3};
    begin();
    for (uint32_t order = 0; order < 3125; order++) {
        uint32_t turn[5], seen = 0, rest = order;
        for (int at = 0; at < 5; at++, rest /= 5)
            turn[at] = rest % 5, seen |= 1u << turn[at];
        if (seen != 31)
            continue;
        for (int at = 0; at < 5; at++) {
            uint32_t piece = turn[at];
            CHECK(add_with(at == 2 ? 60 : IP_HEADER, 7, FROM[piece], LENGTH[piece], piece == 4, 0), at == 4 ? FRAGMENTS_WHOLE : FRAGMENTS_WAITING);
            if (at < 4) /* once more: it is passed over */
                CHECK(add(7, FROM[piece], LENGTH[piece], piece == 4, 0), FRAGMENTS_WAITING);
        }
        is_whole(1483);
    }
}

/* The longest packet, in pieces of 8 bytes, and what no packet can have. */
static void lengths(void)
{
    begin();
    for (uint32_t from = 0; from + 8 < MOST; from += 8)
        CHECK(add(1, from, 8, 0, 0), FRAGMENTS_WAITING);
    CHECK(add(1, MOST / 8 * 8, MOST % 8, 1, 0), FRAGMENTS_WHOLE);
    is_whole(MOST);
    CHECK(add(2, MOST / 8 * 8, MOST % 8 + 1, 1, 0), FRAGMENTS_DROPPED);
    CHECK(add(2, 65528, 8, 1, 0), FRAGMENTS_DROPPED);
    CHECK(add(2, 8, 0, 1, 0), FRAGMENTS_DROPPED);
    for (uint32_t length = 1; length < 30; length++)
        CHECK(add(3, 8 * length, length, 0, 0), length % 8 ? FRAGMENTS_DROPPED : FRAGMENTS_WAITING);
    for (size_t length = 0; length < 28; length++) {
        ip_write_any(bytes, PEER, OWN, 8, IP_UDP);
        write16(bytes + 6, 0x2000);
        CHECK(fragments_add(&fragments, bytes, length, 0, &whole, &whole_length), FRAGMENTS_DROPPED);
    }
    bytes[0] = 0x44;
    CHECK(fragments_add(&fragments, bytes, 28, 0, &whole, &whole_length), FRAGMENTS_DROPPED);
    bytes[0] = 0x48;
    CHECK(fragments_add(&fragments, bytes, 28, 0, &whole, &whole_length), FRAGMENTS_DROPPED);
}

/* Overlaps, and two ends: all of the packet goes, also what came before. */
static void overlaps(void)
{
    static const struct { uint32_t from, length; int is_last; } BAD[] = {{0, 24, 0}, {8, 24, 0}, {24, 16, 0}, {16, 8, 1}, {40, 8, 1}, {56, 8, 0}};
    for (size_t at = 0; at < sizeof BAD / sizeof BAD[0]; at++) {
        begin();
        CHECK(add(1, 16, 16, 0, 0), FRAGMENTS_WAITING);
        CHECK(add(1, 48, 5, 1, 0), FRAGMENTS_WAITING);
        CHECK(add(1, BAD[at].from, BAD[at].length, BAD[at].is_last, 0), FRAGMENTS_DROPPED);
        CHECK(add(1, 0, 16, 0, 0), FRAGMENTS_WAITING);
        CHECK(add(1, 32, 16, 0, 0), FRAGMENTS_WAITING);
        CHECK(add(1, 48, 5, 1, 0), FRAGMENTS_WAITING);
        CHECK(add(1, 16, 16, 0, 0), FRAGMENTS_WHOLE);
        is_whole(53);
    }
}

/* Packets of one host are told apart by identification and protocol; the oldest makes way; one that waits too long is forgotten. */
static void places(void)
{
    begin();
    for (uint16_t id = 1; id <= PLACES + 1; id++)
        CHECK(add(id, 0, 8, 0, id), FRAGMENTS_WAITING);
    CHECK(add(1, 8, 8, 1, 10), FRAGMENTS_WAITING); /* takes the place of 2 */
    CHECK(add(3, 8, 8, 1, 10), FRAGMENTS_WHOLE);
    is_whole(16);
    CHECK(add(4, 8, 8, 1, 10), FRAGMENTS_WHOLE);
    CHECK(add(1, 0, 8, 0, 10), FRAGMENTS_WHOLE);
    CHECK(add(5, 0, 8, 0, 100), FRAGMENTS_WAITING);
    CHECK(add(5, 8, 8, 1, 100 + FRAGMENTS_TIME), FRAGMENTS_WAITING);
    CHECK(add(5, 0, 8, 0, 101 + FRAGMENTS_TIME), FRAGMENTS_WHOLE);
}

static uint32_t state = 1;

static uint32_t draw(uint32_t below)
{
    state = state * 1664525 + 1013904223;
    return (uint32_t)((uint64_t)state * below >> 32);
}

/* Pieces at random of some packets: whatever is called whole is what its pieces had. */
static void at_random(void)
{
    int found = 0;
    begin();
    for (int turn = 0; turn < 200000; turn++) {
        uint32_t from = 8 * draw(6), length = draw(4) ? 8 * (1 + draw(3)) : 1 + draw(24);
        if (add((uint16_t)draw(4), from, length, draw(3) == 0, (uint64_t)turn * 10) == FRAGMENTS_WHOLE)
            is_whole((uint32_t)whole_length - IP_HEADER), found++;
    }
    CHECK(found > 1000, 1);
}

int main(void)
{
    orders();
    lengths();
    overlaps();
    places();
    at_random();
    printf("fragments: %d checks\n", checks);
    return 0;
}
