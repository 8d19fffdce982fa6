/* fuzz.h: what the files of fuzz share. */
#ifndef USERNET_FUZZ_H
#define USERNET_FUZZ_H

#include "companions/icmp6.h"
#include "companions/segment.h"
#include "companions/trains.h"
#include "companions/udp.h"

/* One flow for each client port from FIRST on, of which SOME are used at random; the bytes of text in a segment at most; packets between
   two looks at answers. */
enum { FIRST = 1024, FLOWS = 20000, SOME = 4096, TEXT = 1400, BURST = 64, OPTIONS = 40 };
enum { IDLE, OPENING, OPEN };


static const tcpcore_addr CLIENT = {{10, 0, 2, 50}};

/* One connection of a client port. */
struct flow {
    tcpcore_addr server;
    uint16_t server_port;
    uint32_t seq, ack; /* the next numbers of both directions */
    int phase;
};
extern struct flow flows[FLOWS];

/* A number at random, below another one or any. */
uint32_t draw(uint32_t below);
uint32_t draw32(void);

/* Writes one packet behind the device's header. */
void put(const uint8_t *frame, size_t length);

/* A flow of this or any phase. */
struct flow *some_flow(int phase);

/* Text to an open connection, or a SYN. */
void windows(void);

/* fuzz_packets.c: what is no segment. */
void packets(void);
void datagrams(void);
void messages(void);
void errors(void);
void pieces(void);
void sixes(void);
void pieces6(void);

#endif
