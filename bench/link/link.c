/* What link.h says. */
#include "link.h"

#include <stdio.h>
#include <stdlib.h>
#include <string.h>

uint8_t text[PERIOD + CHUNK];

static uint64_t random_state, order;

void fail(const char *what)
{
    fprintf(stderr, "link: %s\n", what);
    exit(1);
}

/* SplitMix64. */
uint64_t draw(void)
{
    uint64_t z = random_state += UINT64_C(0x9e3779b97f4a7c15);
    z = (z ^ z >> 30) * UINT64_C(0xbf58476d1ce4e5b9);
    z = (z ^ z >> 27) * UINT64_C(0x94d049bb133111eb);
    return z ^ z >> 31;
}

double chance(void) { return (double)(draw() >> 11) / 9007199254740992.0; }

void begin(uint64_t seed)
{
    for (size_t at = 0; at < sizeof text; at++)
        text[at] = at < PERIOD ? (uint8_t)draw() : text[at - PERIOD];
    random_state = seed * 7919 + 5;
}

static int is_before(const struct packet *one, const struct packet *other)
{
    return one->at != other->at ? one->at < other->at : one->order < other->order;
}

void push(struct link *link, uint64_t at, const uint8_t *segment, size_t length)
{
    struct packet *packet = malloc(sizeof *packet + length);
    if (link->count == link->room) {
        link->room = 2 * link->room + 64;
        link->heap = realloc(link->heap, link->room * sizeof *link->heap);
    }
    if (!packet || !link->heap)
        fail("no memory");
    packet->at = at;
    packet->order = order++;
    packet->length = length;
    memcpy(packet->bytes, segment, length);
    size_t place = link->count++;
    for (; place > 0 && is_before(packet, link->heap[(place - 1) / 2]); place = (place - 1) / 2)
        link->heap[place] = link->heap[(place - 1) / 2];
    link->heap[place] = packet;
}

uint64_t next_arrival(const struct link *link) { return link->count > 0 ? link->heap[0]->at : UINT64_MAX; }

struct packet *pop(struct link *link)
{
    struct packet *first = link->heap[0], *last = link->heap[--link->count];
    size_t at = 0;
    for (size_t child = 1; child < link->count; child = 2 * at + 1) {
        if (child + 1 < link->count && is_before(link->heap[child + 1], link->heap[child]))
            child++;
        if (!is_before(link->heap[child], last))
            break;
        link->heap[at] = link->heap[child];
        at = child;
    }
    link->heap[at] = last;
    return first;
}

uint64_t leave(struct link *link, uint64_t now, size_t length, double rate)
{
    double bits = 8.0 * (double)(length + IP_HEADER_BYTES);
    link->free_at = (link->free_at > now ? link->free_at : now) + (uint64_t)(bits * 1000 / rate);
    return link->free_at;
}

size_t text_of(const uint8_t *segment, size_t length, uint64_t highest, uint64_t *first)
{
    uint32_t seq = (uint32_t)segment[4] << 24 | (uint32_t)segment[5] << 16 | (uint32_t)segment[6] << 8 | segment[7];
    *first = highest + (uint64_t)(int64_t)(int32_t)(seq - (ISN + 1 + (uint32_t)highest));
    return length - 4 * (size_t)(segment[12] >> 4);
}
