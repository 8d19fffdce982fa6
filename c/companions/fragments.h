/*
 * fragments.h: puts the pieces of IPv4 packets together (RFC 791, 3.2; RFC 1122, 3.3.2), within a bound of memory and time.
 *
 * This is C beside ip.h, tested and not proved. Whoever sends pieces may never send the last one: a packet has FRAGMENTS_TIME for all of
 * its pieces, and where there is no place for another one the oldest makes way. Pieces that overlap are somebody's attack, or two packets
 * with one identification: all of such a packet is dropped (RFC 5722, 4, has it of IPv6). A piece that has come already is passed over.
 */
#ifndef TCPCORE_FRAGMENTS_H
#define TCPCORE_FRAGMENTS_H

#include "ip.h"

/* The milliseconds after which a packet isn't waited for any longer; the most bytes behind a header. */
enum { FRAGMENTS_TIME = 30000, FRAGMENTS_MOST = 65535 - IP_HEADER };

/* What fragments_add answers. */
enum {
    FRAGMENTS_WAITING = 0, /* the packet isn't whole */
    FRAGMENTS_WHOLE = 1,   /* it is */
    FRAGMENTS_DROPPED = 2  /* the piece can't be one of a packet, or not of this one, which is dropped */
};

/* A packet that isn't whole. */
struct fragments_packet {
    tcpcore_addr src, dst;
    uint16_t id;
    uint8_t protocol;
    uint8_t is_used;                         /* whether there is one here */
    uint64_t since;                          /* when its first piece came */
    uint32_t have, total;                    /* the bytes that have come; of all, 0 until the last piece has come */
    uint32_t end;                            /* behind the last byte that has come */
    uint8_t came[(FRAGMENTS_MOST + 63) / 64]; /* a bit for each 8 bytes that have come */
    uint8_t bytes[IP_HEADER + FRAGMENTS_MOST];
};

struct fragments {
    struct fragments_packet *packets; /* the caller's */
    uint32_t count;
};

/* No pieces, and so many places for packets, at least 1. */
void fragments_init(struct fragments *fragments, struct fragments_packet *packets, uint32_t count);

/*
 * A packet came to which ip_read_any answered IP_FRAGMENT. Where it is the last piece that was missing, *whole is the packet with a header of
 * its own, *whole_length its length; it stays as it is until the next call. `now` is a count of milliseconds that never goes back.
 */
int fragments_add(struct fragments *fragments, const void *bytes, size_t length, uint64_t now, const uint8_t **whole, size_t *whole_length);

#endif
