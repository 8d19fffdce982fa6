/*
 * What the benches over a simulated link share: segments on their way, the text that is carried, and what is drawn by a seed. All times are
 * in nanoseconds.
 */
#ifndef BENCH_LINK_H
#define BENCH_LINK_H

#include <stddef.h>
#include <stdint.h>

enum { IP_HEADER_BYTES = 20, PERIOD = 1000003, CHUNK = 1 << 16, ISN = 7 };

#define MILLISECOND UINT64_C(1000000)
#define HOUR UINT64_C(3600000000000)

/* A segment on its way, and when it arrives; those of one time in the order in which they were sent. */
struct packet {
    uint64_t at, order;
    size_t length;
    uint8_t bytes[];
};

/* One direction of the link: what is on its way, as a heap with the next arrival at its front. */
struct link {
    struct packet **heap;
    size_t count, room;
    uint64_t free_at; /* when the last segment has left */
};

/* Byte k of the text is text[k % PERIOD]. */
extern uint8_t text[PERIOD + CHUNK];

/* The program ends: something is wrong with the run, or with its words. */
void fail(const char *what);

/* The text is made, and what is drawn from now on is this seed's. */
void begin(uint64_t seed);

/* A word that is drawn, and a number from 0 to below 1. */
uint64_t draw(void);
double chance(void);

/* A segment arrives at `at`. */
void push(struct link *link, uint64_t at, const uint8_t *segment, size_t length);

/* When the next one does; UINT64_MAX where none is on its way. */
uint64_t next_arrival(const struct link *link);

/* That one, which is the caller's to free. */
struct packet *pop(struct link *link);

/* A segment of so many bytes leaves at `now`, once those before it have left, over a link of `rate` Mbit/s: when its last bit has. */
uint64_t leave(struct link *link, uint64_t now, size_t length, double rate);

/* The bytes of a segment's text, and in *first where they begin in the stream, from its sequence number, near to `highest`. */
size_t text_of(const uint8_t *segment, size_t length, uint64_t highest, uint64_t *first);

#endif
