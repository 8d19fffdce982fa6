/*
 * peer.h: a side of ours against another stack, in one process, on a clock and over a wire of the driver's: the same numbers at first
 * give the same run. What a program is linked from: cases.c (the cases), wire.c, own_connection.c for our side, and one file for the other
 * side: lwip.c, slirp.c, gvisor.c, kernel.c, or second.c, a side of ours. The kernel's clock is the machine's.
 */
#ifndef CHECKS_PEER_H
#define CHECKS_PEER_H

#include <stddef.h>
#include <stdint.h>

enum { OWN, PEER };

/* When a user closes: once all was sent; once the other closed, too; or it aborts once so much was sent and read. */
enum { CLOSES_FIRST, CLOSES_LAST, ABORTS };

/* A user: what it does, and what it has seen. */
struct user {
    uint64_t size;    /* it sends so many bytes */
    uint32_t speed;   /* and reads so many in a millisecond; 0: all that is there */
    uint64_t pause;   /* but nothing for so many milliseconds at first */
    uint32_t piece;   /* and has so many more to send in each millisecond; 0: all at once */
    int closes;
    uint64_t aborts_at;
    uint64_t sent, read, came; /* bytes it sent, and read, and had to send by then */
    uint32_t left;    /* of what it reads in this millisecond */
    int has_closed, saw_end, saw_fault, is_wrong, has_aborted;
};

/* One case. What isn't named is 0. */
struct trial {
    const char *name;
    struct user users[2];
    int opens;            /* OWN or PEER */
    uint32_t mss, sends, keeps; /* of our end */
    int shift, sack, nagle, cubic;
    uint32_t isn, moves;  /* our initial number, and what is added to the peer's on the wire */
    uint32_t delay;       /* of the wire, one way, in milliseconds */
    uint32_t lost, doubled, late, damaged; /* of 1,000 segments */
    uint32_t seed;
    int drops[2];         /* of the segments of each side the one that is lost, from 1 on */
    int drops_to[2];      /* and all up to this one */
    uint64_t vanishes_at; /* nothing arrives from then on, or 0 */
    uint64_t limit;       /* in milliseconds */
    uint64_t pace;        /* no more than these until the peer's user has read all, or 0 */
    uint64_t segments;    /* no more than these while a user pauses, or 0 */
    uint64_t most;        /* no more than these of our end in all, or 0 */
    uint64_t again;       /* no more than these of our end again, or 0 */
    uint32_t r2;          /* how long our end is patient, in milliseconds; 0: 924.6 s */
};

extern struct trial trial;
extern uint64_t now, began; /* the time, and when the case began */

/* The byte at a place of what a side sends. */
static inline uint8_t byte_at(int side, uint64_t at)
{
    return (uint8_t)((at * 2654435761u >> 11) ^ (at >> 16) ^ (uint64_t)side * 85);
}

/* A user reads so many bytes at `text`. */
void user_reads(int side, const uint8_t *text, size_t length);

/* What of so many bytes that are there a user reads now. */
size_t user_wants(int side, size_t there);

/* The text of at most `room` bytes that a user hands over next. */
size_t user_text(int side, uint8_t *text, size_t room);

/* Whether a user closes, or aborts, now. */
int user_closes(int side);
int user_aborts(int side);

/* wire.c: a segment leaves a side; all that has come by now arrives; when the next one does. */
void wire_begin(void);
void wire_put(int side, const void *segment, size_t length);
int wire_carry(void);
uint64_t wire_next(void);
uint64_t wire_count(int side);

/* own_connection.c: our end, numbered as it stands in the trial. */
void own_begin(int side);
void own_arrive(int side, const uint8_t *segment, size_t length);
void own_turn(int side);
uint64_t own_next(int side);
int own_is_over(int side);
const char *own_fault(int side);
void own_report(int side);
uint64_t own_resent(int side); /* segments that it sent again, as its emissions were reported */
uint64_t own_timeouts(int side);
extern const int OWN_SYN_ACKS; /* so many of its SYN,ACKs may be lost, one after another */
uint64_t own_came(void);       /* segments that came in all cases */
uint64_t own_kept_out(void);   /* and of these those that the guard kept out, and that would be taken without it */

/* The other side. */
extern const char *const PEER_NAME;
extern const int PEER_IS_REAL;   /* its clock is the machine's: what takes minutes is left out */
extern const uint64_t PEER_PACE; /* the milliseconds that 1 MB to it may take where 2 percent are lost, 10 ms there and back */
void peer_begin(void);
void peer_arrive(const uint8_t *segment, size_t length);
void peer_turn(void);
uint64_t peer_next(void);
uint64_t peer_wait(uint64_t until); /* the time when that comes, or something arrives before */
int peer_is_over(void);
void peer_report(void);

/* 0, or the name of a fault of the peer's own that this run shows. */
const char *peer_fault(void);

#endif
