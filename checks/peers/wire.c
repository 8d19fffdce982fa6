/*
 * The wire between two sides (see peer.h): delays, losses, repeats, reordering, damage, and numbers that are shifted.
 * With CAPTURE=PREFIX in the environment a case leaves PREFIX.own and PREFIX.peer: captures (pcap, raw packets) of what
 * that side sent and of what arrived there.
 */
#include "peer.h"
#include "ip.h"
#include "tests/made.h"

#include <stdio.h>
#include <stdlib.h>
#include <string.h>

enum { PLACES = 4096, MOST = 1600, OPTION_END = 0, OPTION_NOP = 1, OPTION_BLOCKS = 5 };

static struct flight {
    uint64_t at;
    size_t length;
    int is_on;
    uint8_t bytes[MOST];
} flights[2][PLACES];
static unsigned first[2], next[2];
static uint64_t counts[2];
static uint32_t state;
static FILE *captures[2];

/* Begins the captures anew. */
static void capture_begin(void)
{
    static const uint32_t HEAD[] = {0xa1b2c3d4, 2 | 4 << 16, 0, 0, 65535, 101};
    const char *prefix = getenv("CAPTURE");
    for (int side = OWN; prefix && side <= PEER; side++) {
        char path[4096];
        snprintf(path, sizeof path, "%s.%s", prefix, side == OWN ? "own" : "peer");
        captures[side] = captures[side] ? freopen(path, "wb", captures[side]) : fopen(path, "wb");
        if (!captures[side] || fwrite(HEAD, sizeof HEAD, 1, captures[side]) != 1) {
            perror(path);
            exit(2);
        }
    }
}

/* A segment of one side, at `place`. */
static void capture(int place, int from, const uint8_t *segment, size_t length)
{
    uint8_t packet[IP_HEADER + MOST];
    tcpcore_addr ends[2] = {{{10, 0, 0, 1}}, {{10, 0, 0, 2}}};
    if (!captures[place] || length > MOST)
        return;
    uint32_t total = (uint32_t)ip_write(packet, ends[from], ends[1 - from], length);
    memcpy(packet + IP_HEADER, segment, length);
    uint32_t head[] = {(uint32_t)(now / 1000), (uint32_t)(now % 1000 * 1000), total, total};
    fwrite(head, sizeof head, 1, captures[place]);
    fwrite(packet, total, 1, captures[place]);
}

void wire_begin(void)
{
    capture_begin();
    first[OWN] = next[OWN] = first[PEER] = next[PEER] = 0;
    counts[OWN] = counts[PEER] = 0;
    state = trial.seed * 2654435761u + 12345;
}

static int chance(uint32_t of_1000)
{
    state = state * 1664525u + 1013904223u;
    return of_1000 > 0 && (state >> 12) % 1000 < of_1000;
}

/* The edges of blocks that our end tells are the peer's numbers. */
static void move_blocks(uint8_t *bytes, uint32_t by)
{
    size_t end = header_of(bytes);
    for (size_t at = SEGMENT_HEADER; at < end && bytes[at] != OPTION_END;) {
        size_t size = bytes[at] == OPTION_NOP ? 1 : bytes[at + 1];
        for (size_t edge = at + 2; bytes[at] == OPTION_BLOCKS && edge + 4 <= at + size; edge += 4)
            write32(bytes + edge, read32(bytes + edge) - by);
        at += size;
    }
}

/* The peer's numbers are others for our end. */
static void move(int side, uint8_t *bytes, size_t length)
{
    if (trial.moves == 0)
        return;
    if (side == PEER && (bits_of(bytes, ACK | RST) != RST || read32(bytes + AT_SEQ) != 0))
        write32(bytes + AT_SEQ, read32(bytes + AT_SEQ) + trial.moves);
    if (side == OWN && bits_of(bytes, ACK))
        write32(bytes + AT_ACK, read32(bytes + AT_ACK) - trial.moves);
    if (side == OWN)
        move_blocks(bytes, trial.moves);
    write_checksum(bytes, length, 1 + 2);
}

static void put(int side, const uint8_t *bytes, size_t length, uint64_t at)
{
    struct flight *flight = &flights[side][next[side]++ % PLACES];
    if (next[side] - first[side] > PLACES || length > MOST) {
        printf("the wire is full\n");
        exit(2);
    }
    flight->at = at;
    flight->length = length;
    flight->is_on = 1;
    memcpy(flight->bytes, bytes, length);
}

void wire_put(int side, const void *segment, size_t length)
{
    uint8_t bytes[MOST];
    memcpy(bytes, segment, length < MOST ? length : MOST);
    counts[side]++;
    capture(side, side, segment, length);
    move(side, bytes, length);
    if (getenv("WIRE"))
        printf("%8llu %s seq %u ack %u bits %u window %u text %zu header %zu\n", (unsigned long long)now, side == OWN ? "own " : "peer",
               read32(bytes + AT_SEQ), read32(bytes + AT_ACK), bits_of(bytes, 63), read16(bytes + AT_WINDOW), length - header_of(bytes),
               header_of(bytes));
    int is_lost = chance(trial.lost), is_doubled = chance(trial.doubled), is_late = chance(trial.late), is_damaged = chance(trial.damaged);
    if (is_lost || (uint64_t)trial.drops[side] == counts[side] || (uint64_t)trial.drops_to[side] >= counts[side] ||
        (trial.vanishes_at > 0 && now >= trial.vanishes_at))
        return;
    if (is_damaged)
        bytes[state % length] ^= (uint8_t)(1 + state % 255);
    put(side, bytes, length, now + trial.delay + (is_late ? 2 * trial.delay + 3 : 0));
    if (is_doubled)
        put(side, bytes, length, now + trial.delay + 1);
}

uint64_t wire_count(int side) { return counts[side]; }

uint64_t wire_next(void)
{
    uint64_t least = UINT64_MAX;
    for (int side = OWN; side <= PEER; side++)
        for (unsigned at = first[side]; at != next[side]; at++)
            if (flights[side][at % PLACES].is_on && flights[side][at % PLACES].at < least)
                least = flights[side][at % PLACES].at;
    return least;
}

int wire_carry(void)
{
    int count = 0;
    for (int side = OWN; side <= PEER; side++)
        for (unsigned at = first[side]; at != next[side]; at++) {
            struct flight *flight = &flights[side][at % PLACES];
            if (flight->is_on && flight->at <= now) {
                flight->is_on = 0;
                count++;
                capture(1 - side, side, flight->bytes, flight->length);
                if (side == OWN)
                    peer_arrive(flight->bytes, flight->length);
                else
                    own_arrive(OWN, flight->bytes, flight->length);
            }
            while (first[side] != next[side] && !flights[side][first[side] % PLACES].is_on)
                first[side]++;
        }
    return count;
}
