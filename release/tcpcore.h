/*
 * tcpcore.h: one end of one TCP connection, as a value (RFC 9293; window scale of RFC 7323; selective
 * acknowledgement of RFC 2018). IPv4.
 *
 * It is one C99 file for any machine, release/tcpcore.c: the proved machine code for x86-64 and aarch64 on Linux, and the same code
 * translated to C for any other machine, of 32 bits too and of either order of bytes; or a library of that machine code.
 *
 * Of the file x86-64's code of level v2 is taken where the compiler makes code for such processors (-march=x86-64-v2 or later ones), and
 * else the code that any x86-64 runs; with -DTCPCORE_PORTABLE the C. The library that 'rt lib' builds needs a processor of level v2, and
 * doesn't test for one: 'rt lib --cpu x86-64' builds for any, '--cpu x86-64-v3' for later ones. 'rt lib --target
 * aarch64-unknown-linux-gnu' builds for any aarch64.
 *
 * WHAT IT IS
 *   An end has no socket, clock or thread. User calls, timers and the segments that arrive go in; segments and
 *   the bytes for the user come out. One end carries one connection: after its end free it and make another.
 *
 * WHAT THE CALLER DOES
 *   1. Make an end: tcpcore_new. Open it: tcpcore_connect or tcpcore_listen.
 *   2. After every call, or after a batch of arrivals, emit until nothing is due: call tcpcore_emit until it answers
 *      TCPCORE_NOT_DUE. Put each segment into an IPv4 packet (protocol 6) from the address of the config to the address
 *      that it wrote through `to`, and send it.
 *   3. Hand each TCP segment that arrives to tcpcore_arrive, without its IPv4 header, with the packet's two addresses; or to
 *      tcpcore_arrive_with_at_once, which says where an answer may not wait for the rest of the batch, or tcpcore_arrive_with_report.
 *   4. Call tcpcore_receive when you want bytes. What isn't read closes the window. A window that grows by reading makes a
 *      segment due only where it stood at 0, and a peer that finds it too small waits for a timer of its own: read all that
 *      is there, or call tcpcore_acknowledge where the window has grown by the smaller of a segment and half the
 *      recv_capacity since it was advertised (RFC 9293, 3.8.6.2.2).
 *   5. Keep real time: a connection, below, does it by itself, with measured round trips. For a plain end tcpcore_timers says which timers
 *      have to run. When one has run out call tcpcore_timer, and then emit:
 *
 *      timer                     starts                starts anew                       takes
 *      TCPCORE_TIMER_RETRANSMIT  when its bit is set   when `snd_una` has grown, and after   1 second at first, then what
 *                                                      each run-out, with twice the      measured round trips say, 1 to
 *                                                      time                              60 seconds (RFC 6298)
 *      TCPCORE_TIMER_REORDER     when its bit is set   when `snd_una` has grown, when    one round trip; never leave it
 *                                                      anything is sent again, and       out
 *                                                      after each run-out
 *      TCPCORE_TIMER_TIME_WAIT   when its bit is set   when a segment that arrives is    two maximum segment lifetimes, 4
 *                                                      answered: the peer's FIN came     minutes (RFC 9293, 3.4.2)
 *                                                      again (RFC 9293, 3.10.7.4)
 *
 *      Retransmit runs while the peer's window is zero, too: it lets the end probe the window (RFC 9293, 3.8.6.1).
 *      A timer whose bit is clear is stopped.
 *   6. Free the end: tcpcore_free. Where there are many, each can be freed in TIME-WAIT once all was read: tcpcore_time_wait
 *      writes a record of 48 bytes that answers late segments as the end would.
 *
 * WHICH END A SEGMENT IS FOR
 *   A single end on its address needs no choice: hand it whatever comes. With several ends the caller deals out the
 *   segments, by both addresses and both ports (a pair of sockets identifies a connection: RFC 9293, 4):
 *   1. to the end, not in CLOSED, whose own address and port are the destination, and whose peer's are the source;
 *   2. where there is none, to an end in LISTEN whose own address and port are the destination. If it answers
 *      TCPCORE_DONE the segment was a SYN, its source is the peer, and the end carries that connection: make another
 *      one to listen on;
 *   3. where there is neither, to tcpcore_stray_reset, which writes the reset that answers it.
 *   An end in LISTEN or CLOSED knows no peer. It takes segments from any source to its own address and port, and what
 *   isn't for it, but a reset, it answers by a reset (in LISTEN what has an ACK: RFC 9293, 3.10.7.1 and 3.10.7.2).
 *   So a segment of a connection that another end carries, passed to it, ends that connection: the peer takes the
 *   reset. Never try one end after the other until one doesn't answer TCPCORE_NOT_MINE.
 *
 * WHICH ADDRESSES ARE REFUSED
 *   None: no call looks at what an address means. Before tcpcore_connect and tcpcore_arrive the caller refuses what
 *   can't be a peer's (RFC 9293, 3.9.2.3): 0.0.0.0, a multicast address (224.0.0.0 to 239.255.255.255), a broadcast
 *   address (255.255.255.255, and that of its own network), and its own address together with its own port.
 *
 * MEMORY
 *   The library takes no memory from anywhere: an end lies in a block that the caller hands to tcpcore_new, all of it, and no
 *   call asks for more; but tcpcore_connection_set_recovery is handed a block of its own. tcpcore_new_at puts the struct
 *   there, too. Any block will do, static or from malloc, of any alignment. tcpcore_room says how many bytes are enough, and
 *   TCPCORE_MEMORY(send, receive) the same as a constant, or TCPCORE_MEMORY_RUNS(send, receive, runs) where the config has
 *   `runs`: the two capacities, each in whole units of 16 bytes,
 *   24 bytes for each run and 16 more, what the end takes beside them, and 15 bytes for a block that doesn't begin at a multiple of 16.
 *   That these are enough is measured by the tests (tests/room.c), not proved. The linker is
 *   asked for memcpy, memmove and memset alone.
 *
 * STACK
 *   A call takes less than TCPCORE_STACK bytes, one that makes a connection less than TCPCORE_CONNECTION_STACK, and
 *   tcpcore_connection_set_recovery, any call of a connection behind that, and any of a host, less than TCPCORE_RECOVERY_STACK. That
 *   isn't proved: the tests read it from the disassembly (tests/depth.py: nothing calls through a pointer, and nothing calls itself but
 *   what goes down the trees of a host's tables) and measure the first (tests/stack.c). In the portable file it is
 *   TCPCORE_PORTABLE_STACK, and TCPCORE_PORTABLE_CONNECTION_STACK for any call of a connection, as gcc tells it for x86-64
 *   (c/portable/tests/depth.py).
 *
 * THREADS
 *   None is started. One end is used by one thread at a time: two calls of one end at once are undefined behaviour and
 *   aren't detected. Where threads share an end the caller holds a lock around each call. Two ends have nothing in common.
 *   Not for signal handlers.
 *
 * WHO OWNS WHAT
 *   The caller places the struct tcpcore_end, sets it to TCPCORE_END_INIT, and frees what tcpcore_new put into it. The struct
 *   isn't copied or moved while it holds an end: a copy is refused (TCPCORE_COPIED). If your language moves values use
 *   tcpcore_new_at: the struct lies in the block, and only the pointer moves. Saving a struct's bytes and restoring them to
 *   the same place after its end was freed isn't detected: a call with it uses a block that was given back.
 *   The block is the end's from tcpcore_new to tcpcore_free: nobody else reads, writes, moves or frees it, and no other end
 *   is made in it. Then, and where tcpcore_new was refused, it is the caller's again, whatever its bytes are, and may serve the
 *   next end. The same holds of the block of a connection's recovery, from tcpcore_connection_set_recovery to
 *   tcpcore_connection_free. Leaving an end without tcpcore_free loses nothing but the block.
 *   Buffers belong to the caller; no call keeps a pointer to one.
 *   What tcpcore_peek and tcpcore_parts lend lies in the block: it may be read, never written, until the next call that changes the
 *   end (any but peek, parts, next, pending, timers, peer, status and time_wait).
 *   The record in the place of an end, struct tcpcore_time_wait, is the caller's as a whole: nothing else belongs to it.
 *
 * ANSWERS
 *   Each function answers one number of the table below. A call for an end that was freed answers TCPCORE_NO_END, so that a loop
 *   over tcpcore_emit that goes on while it answers TCPCORE_DONE ends, and a caller that looks for TCPCORE_NOT_DUE, or TCPCORE_NO_RULE
 *   of a timer, sees the difference. A refusal changes no end. What a call writes through a pointer
 *   (a count, an address, timers, a status) is written at every answer, and is all 0 unless the answer is TCPCORE_DONE,
 *   but for what an arrival reports beside TCPCORE_DROPPED, whose a segment is in tcpcore_host_arrive, whose turn it was beside
 *   TCPCORE_NOT_DUE of tcpcore_host_emit, and that no timer has expired in tcpcore_host_timeout; buffers stay as they are then. Such a
 *   pointer may not be over the struct, over the buffer of the same call, or over another such pointer: the answer is TCPCORE_OVERLAP, and
 *   nothing is written there. A buffer may be NULL where its length is 0.
 *
 * WHAT IS TRUSTED
 *   What a call does to an end is proved of the library. Not proved: tcpcore.c, the C compiler, the three functions of the
 *   C library, that a block of TCPCORE_MEMORY or TCPCORE_CONNECTION_MEMORY bytes is enough, and that this header agrees
 *   with the library: layout.h asserts where each field lies, and tests/fields.c reads each one back through what an end
 *   does. A pointer to memory that isn't there, or isn't yours, can't be found: such a call may do anything.
 */
#ifndef TCPCORE_H
#define TCPCORE_H

#include <stddef.h>
#include <stdint.h>

/* What has another name since version 9 is taken by its old one, too. */
#ifndef TCPCORE_NO_OLD_NAMES
#include "tcpcore_old_names.h"
#endif

#ifdef __cplusplus
extern "C" {
#ifdef __GNUC__
/* Some structs have the names of calls. */
#pragma GCC diagnostic push
#pragma GCC diagnostic ignored "-Wshadow"
#endif
#endif

/* N of the project's version 0.N. It grows with each change of a struct, a call or an answer here, of a public contract in Rattle, and of
   the form of a script, list or report, so that two versions may have the same calls (CHANGELOG.md). */
#define TCPCORE_VERSION 23

/* Whether there are hosts (HOSTS, below): where tcpcore.c takes machine code, by the rule that stands at its top. */
#if !defined(TCPCORE_HAS_HOSTS) && !defined(TCPCORE_PORTABLE) && defined(__GNUC__) && !defined(__TINYC__) && defined(__linux__) && \
    defined(__ELF__) && defined(__SIZEOF_POINTER__) && !defined(__code_model_large__)
#if __SIZEOF_POINTER__ == 8 && defined(__x86_64__) && defined(__SSE2__)
#define TCPCORE_HAS_HOSTS 1
#elif __SIZEOF_POINTER__ == 8 && defined(__aarch64__) && defined(__AARCH64EL__) && defined(__ARM_NEON) && \
    !defined(__ARM_FEATURE_BTI_DEFAULT) && !defined(__AARCH64_CMODEL_LARGE__) && !defined(__ANDROID__)
#define TCPCORE_HAS_HOSTS 1
#endif
#ifdef __has_feature
#if __has_feature(memory_sanitizer) || __has_feature(shadow_call_stack)
#undef TCPCORE_HAS_HOSTS
#endif
#endif
#endif

/* The answers; tcpcore_strerror has a text for each. */
enum {
    /* It is done. */
    TCPCORE_DONE = 0,
    /* tcpcore_arrive and tcpcore_arrive_with_at_once: the bytes are no segment, by the first fault; nothing changed. */
    TCPCORE_TOO_SHORT = 1,    /* fewer than 20 bytes */
    TCPCORE_TOO_LONG = 2,     /* more than 65,515 bytes */
    TCPCORE_BAD_CHECKSUM = 3, /* over segment and pseudo-header (RFC 9293, 3.1) */
    TCPCORE_BAD_OFFSET = 4,   /* the data offset is below 5 words or behind the end */
    TCPCORE_BAD_OPTION = 5,   /* an option has no length, or one that doesn't fit */
    TCPCORE_BAD_PADDING = 6,  /* a byte behind the end of the options isn't 0 */
    /* A user call is refused; nothing changed. */
    TCPCORE_NOT_OPEN = 11,      /* CLOSED and never opened */
    TCPCORE_ALREADY_OPEN = 12,  /* opened before */
    TCPCORE_CLOSING = 13,       /* behind a tcpcore_close */
    TCPCORE_ENDED = 14,         /* the connection has ended; tcpcore_status says how */
    TCPCORE_STREAM_FULL = 15,   /* the direction has accepted as many bytes as the config's limit allows */
    TCPCORE_NOT_CONNECTED = 16, /* no peer is known: of tcpcore_send in LISTEN, of tcpcore_peer */
    /* tcpcore_new: the config or the block is refused; the block is the caller's. */
    TCPCORE_BAD_CAPACITY = 21, /* a capacity isn't from 1 to 1,048,576 */
    TCPCORE_NO_MEMORY = 22,    /* the block is too small */
    TCPCORE_BAD_MSS = 23,      /* the MSS isn't from 64 to 1,460 */
    TCPCORE_BAD_SHIFT = 24,    /* the window shift is above 14 */
    TCPCORE_BAD_LIMIT = 25,    /* the limit isn't from 1 to 2^62 */
    TCPCORE_BAD_ADDR = 26,     /* the address is 0.0.0.0, which no end has (RFC 1122, 3.2.1.3) */
    TCPCORE_BAD_PORT = 27,     /* the port is 0, which no end has (RFC 6335, 6) */
    TCPCORE_BAD_RUNS = 28,     /* the number of runs is above TCPCORE_MAX_RUNS */
    TCPCORE_BAD_RULES = 29,    /* no timeout can be made from the rules of a connection; no congestion window has this number */
    /* The boundary refuses; nothing changed. */
    TCPCORE_NO_END = 31,    /* no end is in the struct: never made, or freed */
    TCPCORE_IN_USE = 32,    /* tcpcore_new: the struct holds an end already; tcpcore_connection_set_recovery: it was called already */
    TCPCORE_ROOM = 33,      /* fewer than TCPCORE_EMIT_ROOM bytes; of tcpcore_parts than TCPCORE_HEADER_ROOM, and so on */
    TCPCORE_NO_TIMER = 34,  /* tcpcore_timer: no timer has this number */
    TCPCORE_NULL = 35,      /* a pointer is NULL */
    TCPCORE_LENGTH = 36,    /* a length is above PTRDIFF_MAX */
    TCPCORE_COPIED = 37,    /* the struct was copied or moved, or never set */
    TCPCORE_OVERLAP = 38,   /* a buffer or a pointer that is written through lies over the struct, or over the buffer */
    TCPCORE_NO_TIME_WAIT = 39,   /* tcpcore_time_wait_..: the struct has no TIME-WAIT record: never reported, or other bytes */
    /* The call was made and found this. */
    TCPCORE_NOTHING = 51,       /* tcpcore_receive: nothing to read yet */
    TCPCORE_END_OF_STREAM = 52, /* tcpcore_receive: the peer closed, and all its bytes were delivered */
    TCPCORE_NOT_DUE = 53,       /* no segment is due; tcpcore_stray_reset: no reset answers the bytes; tcpcore_connection_timeout: no
                                   timer has expired */
    TCPCORE_NO_RULE = 54,       /* tcpcore_timer: the timer's bit was clear; tcpcore_resend_first and tcpcore_resend: nothing is in
                                   flight there; tcpcore_connection_set_congestion and tcpcore_connection_set_recovery: text or a
                                   FIN was sent already; nothing changed */
    TCPCORE_DROPPED = 55,       /* an arrival: the segment was dropped; an answer to it may be due */
    TCPCORE_NOT_MINE = 56,      /* an arrival: the segment is another connection's; nothing changed */
    TCPCORE_NOT_TIME_WAIT = 57,   /* tcpcore_time_wait: the end isn't in TIME-WAIT, or has bytes unread */
    TCPCORE_EMIT_FIRST = 58,    /* tcpcore_connection_arrive: a timer has expired, and what was due then has to go out first; nothing
                                   changed: emit until TCPCORE_NOT_DUE, and hand the segment in again */
    TCPCORE_WITHHELD = 59,      /* tcpcore_connection_arrive: a reset that counts as lost; nothing changed, and nothing is to be done */
    /* A host refuses, or has nobody; nothing changed. */
    TCPCORE_TAKEN = 60,         /* tcpcore_host_..: somebody has these values already */
    TCPCORE_GONE = 61,          /* tcpcore_host_..: the connection, or the listener, of this name is gone */
    TCPCORE_BACKLOG_FULL = 62,  /* tcpcore_host_admit: the listener has as many connections in its backlog as it may */
    TCPCORE_NOBODY = 63         /* tcpcore_host_emit: nobody waits for a turn; tcpcore_host_timeout: nobody is due; tcpcore_host_accept:
                                   no connection waits to be accepted */
};

/* The phases (RFC 9293, 3.3.2). */
enum {
    TCPCORE_PHASE_CLOSED = 0,
    TCPCORE_PHASE_LISTEN = 1,
    TCPCORE_PHASE_SYN_SENT = 2,
    TCPCORE_PHASE_SYN_RECEIVED = 3,
    TCPCORE_PHASE_ESTABLISHED = 4,
    TCPCORE_PHASE_FIN_WAIT_1 = 5,
    TCPCORE_PHASE_FIN_WAIT_2 = 6,
    TCPCORE_PHASE_CLOSE_WAIT = 7,
    TCPCORE_PHASE_CLOSING = 8,
    TCPCORE_PHASE_LAST_ACK = 9,
    TCPCORE_PHASE_TIME_WAIT = 10
};

/* How the connection ended. */
enum {
    TCPCORE_ENDING_NOT_ENDED = 0,
    TCPCORE_ENDING_ORDERLY = 1,  /* both sides closed, and knew it; what is unread can still be read */
    TCPCORE_ENDING_RESET = 2,    /* the peer reset it; what was queued or unread is discarded */
    TCPCORE_ENDING_ABORTED = 3   /* this side aborted it; what was queued or unread is discarded */
};

/* The timers. Bit 1 << t of tcpcore_timers is timer t's. */
enum {
    TCPCORE_TIMER_RETRANSMIT = 0, /* the retransmission timeout (RFC 9293, 3.8.1) */
    TCPCORE_TIMER_REORDER = 1,    /* what the peer's blocks passed over is taken for lost */
    TCPCORE_TIMER_TIME_WAIT = 2,  /* the TIME-WAIT timeout (RFC 9293, 3.10.8) */
    TCPCORE_TIMER_USER = 3,       /* of a connection alone: the user timeout (RFC 9293, 3.8.3), the limit of FIN-WAIT-2, or keep-alives
                                     that went unanswered (3.8.4) */
    TCPCORE_TIMER_NONE = 4        /* what tcpcore_host_timeout reports where none has expired: what was held back, or a keep-alive, may go
                                     out */
};

/* Where something is in a host. */
enum {
    TCPCORE_PLACE_NONE = 0,     /* nowhere: too short for ports, or nobody */
    TCPCORE_PLACE_END = 1,      /* at a connection */
    TCPCORE_PLACE_RECORD = 2,   /* at a TIME-WAIT record */
    TCPCORE_PLACE_LISTENER = 3, /* at a listener that it asks for a connection */
    TCPCORE_PLACE_FULL = 4,     /* the same, but as many wait there as may: it is dropped */
    TCPCORE_PLACE_STRAY = 5     /* nobody's */
};

/* The congestion window of a connection, which tcpcore_connection_set_congestion chooses. */
enum {
    TCPCORE_CONGESTION_NONE = 0, /* none: what the peer and the caller let out goes out */
    TCPCORE_CONGESTION_RENO = 1, /* that of RFC 5681, with the recovery of RFC 6582 and the limited transmit of RFC 3042 */
    TCPCORE_CONGESTION_CUBIC = 2 /* that of RFC 9438 */
};

/* How many runs an end keeps where the config has 0, and the greatest number: see `runs` of tcpcore_config. */
#define TCPCORE_RUNS 128
#define TCPCORE_MAX_RUNS 4096

/* How many bytes of a block are enough for an end of these capacities, wherever the block begins: with this number of runs, 1 or more,
   and with TCPCORE_RUNS. */
#define TCPCORE_UNITS(size) (((size_t)(size) + 15) / 16 * 16)
#define TCPCORE_MEMORY_RUNS(send, receive, runs) \
    (TCPCORE_UNITS(send) + TCPCORE_UNITS(receive) + TCPCORE_UNITS(8 * (size_t)(runs)) + 16 * ((size_t)(runs) + 1) + 416 + 15)
#define TCPCORE_MEMORY(send, receive) TCPCORE_MEMORY_RUNS(send, receive, TCPCORE_RUNS)

/* How much more of a block tcpcore_new_at wants, in bytes, than tcpcore_new: TCPCORE_MEMORY(send, receive) + TCPCORE_STRUCT_ROOM,
   or tcpcore_room(config) + TCPCORE_STRUCT_ROOM. */
#define TCPCORE_STRUCT_ROOM 32

/* The bytes of stack that a call takes at most; of the portable file the second, which is for a call of an end: that of a connection
   stands below. */
#define TCPCORE_STACK 2560
#define TCPCORE_PORTABLE_STACK 7680

/* The bytes of stack that tcpcore_connection_connect and tcpcore_connection_listen take at most; a connection's other calls take less
   than TCPCORE_STACK. Of the portable file any call of a connection takes at most the second, with a recovery or without one. */
#define TCPCORE_CONNECTION_STACK 5632
#define TCPCORE_PORTABLE_CONNECTION_STACK 12288

/* The bytes of stack that tcpcore_connection_set_recovery, a call of a connection that has a recovery, and any call of a host take at most;
   of a host with fewer than three million connections, records and listeners each, since it goes down the trees of its tables. */
#define TCPCORE_RECOVERY_STACK 4608

/* The room that tcpcore_emit wants, in bytes: more than the longest segment of an end. */
#define TCPCORE_EMIT_ROOM 1520

/* The most bytes that tcpcore_emit_train and tcpcore_connection_emit_train use: the length of the longest segment in an IPv4 packet. They
   want no more room than tcpcore_emit. */
#define TCPCORE_TRAIN_ROOM 65515

/* The room that tcpcore_parts wants, in bytes: the length of the longest header, options and all (RFC 9293, 3.1). */
#define TCPCORE_HEADER_ROOM 60

/* The room that tcpcore_stray_reset wants, in bytes: the length of a reset. */
#define TCPCORE_RESET_ROOM 20

/* The room that tcpcore_time_wait_emit wants, in bytes: the length of what a TIME-WAIT record sends. */
#define TCPCORE_TIME_WAIT_ROOM 20

/* A limit below which no segment, however old, is taken for another: 2^31 less 16 bytes. */
#define TCPCORE_LIMIT UINT64_C(2147483632)

/* An end, placed by the caller. Its words are the library's: set them by TCPCORE_END_INIT alone. */
typedef struct tcpcore_end {
    uint64_t opaque[3];
} tcpcore_end;

/* No end. */
#define TCPCORE_END_INIT {{0, 0, 0}}

/* An IPv4 address, in network order: 10.0.0.1 is {{10, 0, 0, 1}}. */
typedef struct tcpcore_addr {
    /* In network order: 10, 0, 0, 1 for 10.0.0.1. */
    uint8_t byte[4];
} tcpcore_addr;

/* What an end is made from. */
typedef struct tcpcore_config {
    /* The address of this end. */
    tcpcore_addr addr;
    /* The port of this end. */
    uint16_t port;
    /* The maximum segment size that this end announces, in bytes, from 64 to 1460 (RFC 9293, 3.7.1). */
    uint16_t mss;
    /* The initial sequence number, ISS: choose it as RFC 9293, 3.4.1 says. */
    uint32_t isn;
    unsigned int : 32;
    /* The most bytes that are kept for the peer, from 1 to 1,048,576. */
    uint64_t send_capacity;
    /* The most bytes that are kept for the user, from 1 to 1,048,576: the greatest receive window. */
    uint64_t recv_capacity;
    /* The most bytes that this end's direction carries, from 1 to 2^62. Past TCPCORE_LIMIT the network has to keep the
       maximum segment lifetime (RFC 9293, 3.4). */
    uint64_t limit;
    /* The shift of the windows that this end advertises, from 0 to 14 (RFC 7323, 2.2). Ignored where `scales` is 0. A window
       behind the SYN's is advertised in steps of 2^shift bytes, rounded down: it is 0 while fewer than 2^shift bytes are
       free, with a `recv_capacity` below 2^shift always, and the peer then sends nothing but probes of a byte. No call
       refuses that. Take the least shift with recv_capacity >> shift at most 65,535 (TCPCORE_LEAST_SHIFT): 0 for 65,535
       bytes, 1 for 65,536, 5 for 1,048,576. */
    uint8_t window_shift;
    /* Whether this end offers window scaling (RFC 7323, 2.2): 0 is no, anything else yes. */
    uint8_t scales;
    /* Whether this end permits selective acknowledgement (RFC 2018, 2): 0 is no, anything else yes. */
    uint8_t sack;
    unsigned int : 8;
    /* The most runs of bytes that are kept out of order (RFC 9293, 3.10.7.4), and the most runs of the peer's blocks that
       are remembered (RFC 2018, 5), from 1 to TCPCORE_MAX_RUNS; 0 is TCPCORE_RUNS. What would be one run more is dropped,
       and has to be sent again. A path that reorders makes about one for each five segments that it carries in the time of
       its jitter. Each takes 24 bytes of the block. */
    uint16_t runs;
    unsigned int : 16;
} tcpcore_config;

/* A config with an MSS of 1,460 bytes, 65,535 bytes each way, selective acknowledgement, TCPCORE_LIMIT, TCPCORE_RUNS, and windows that
   aren't scaled:
       tcpcore_config config = TCPCORE_CONFIG_DEFAULT;
   and then the address, the port and the initial sequence number, which have no default. Without address or port no end is made; an initial
   sequence number of 0 is one like any other, so that one that was forgotten isn't found. */
#define TCPCORE_CONFIG_DEFAULT {{{0, 0, 0, 0}}, 0, 1460, 0, 65535, 65535, TCPCORE_LIMIT, 0, 0, 1, 0}

/* The least window shift with which all of a receive capacity can be advertised, 0 where no scaling is needed; `scales` is set where
   it is above 0. A greater shift is taken by tcpcore_new, and wastes what it rounds off: see `window_shift`. */
#define TCPCORE_LEAST_SHIFT(receive) \
    ((uint64_t)(receive) >> 16 == 0 ? 0 : (uint64_t)(receive) >> 17 == 0 ? 1 : (uint64_t)(receive) >> 18 == 0 ? 2 : \
     (uint64_t)(receive) >> 19 == 0 ? 3 : (uint64_t)(receive) >> 20 == 0 ? 4 : 5)

/* What tcpcore_status reports. (The tag alone is a type: the name without `struct` is the function.) */
struct tcpcore_status {
    /* The state of the connection (RFC 9293, 3.3.2): TCPCORE_PHASE_CLOSED, 0, to TCPCORE_PHASE_TIME_WAIT, 10. */
    uint32_t phase;
    /* How it ended: TCPCORE_ENDING_NOT_ENDED, 0, to TCPCORE_ENDING_ABORTED, 3. */
    uint32_t ending;
    /* The count of bytes that came in order and wait for `tcpcore_receive`. */
    uint64_t unread;
    /* The count of text bytes that acknowledgements have released. */
    uint64_t released;
    /* The count of text bytes that came in order up to now, read or not. */
    uint64_t ordered;
    /* SND.UNA: the oldest position of this end's direction that isn't acknowledged. The SYN is at 0, byte i at 1 + i. */
    uint64_t snd_una;
    /* RCV.NXT: the next position of the peer's direction that is expected. The peer's SYN is at 0; this is 1 until it has
       come. */
    uint64_t rcv_position;
    /* How many bytes of a long text `tcpcore_send` would accept, by `send_capacity` and `limit`. */
    uint64_t room;
    /* The count of bytes that were accepted and not released. */
    uint64_t queued;
    /* The count of text bytes that were sent and aren't acknowledged, at most `queued`. SYN and FIN aren't counted. */
    uint64_t in_flight;
    /* The most text bytes of a segment of this end, the smaller of both MSS; options take of it. This and the next fields up
       to `sack` are what both SYNs agreed on, and 0 until the peer's SYN was taken. */
    uint32_t mss;
    /* The shift of the windows that this end advertises; 0 where `scaling` is 0. */
    uint8_t own_shift;
    /* The shift of the windows that the peer advertises. */
    uint8_t peer_shift;
    /* 1 where windows are scaled (RFC 7323, 2.2). */
    uint8_t scaling;
    /* 1 where selective acknowledgement is in use (RFC 2018, 2). */
    uint8_t sack;
    /* SND.WND in bytes, scaled: the peer's window, from the segment that it was last taken from (RFC 9293, 3.3.1 and
       3.10.7.4). It is 0 until this end's SYN was acknowledged. */
    uint32_t snd_wnd;
    /* RCV.WND in bytes: how much more this end accepts (RFC 9293, 3.3.1). */
    uint32_t rcv_wnd;
    /* SND.NXT: the next position of this end's direction to be sent for the first time. */
    uint64_t snd_nxt;
    /* 1 once `tcpcore_close` was accepted. */
    uint32_t closing;
    /* 1 once the peer's FIN was taken. */
    uint32_t finished;
    /* 0. Fields of later versions take their place from here: the struct's size stays. */
    uint32_t reserved[6];
};

/* The rules that an arrival goes by (RFC 9293, 3.10.7), in the order of their tests. */
enum {
    TCPCORE_RULE_NONE = 0,             /* the bytes are no segment */
    TCPCORE_RULE_FOREIGN = 1,          /* for another end, or from another source than the peer */
    TCPCORE_RULE_RESET_IGNORED = 2,    /* a reset that has no effect, or one outside the window (3.10.7.1 to 3.10.7.4) */
    TCPCORE_RULE_STRAY = 3,            /* CLOSED: a reset answers it (3.10.7.1) */
    TCPCORE_RULE_ACK_OF_LISTEN = 4,    /* an acknowledgement in LISTEN: a reset answers it (3.10.7.2, second) */
    TCPCORE_RULE_OPENS_NOTHING = 5,    /* LISTEN, SYN-SENT: it has no effect (3.10.7.2, fourth; 3.10.7.3, fifth) */
    TCPCORE_RULE_PEER_OPENS = 6,       /* a SYN in LISTEN (3.10.7.2, third) */
    TCPCORE_RULE_ACK_OF_NO_SYN = 7,    /* SYN-SENT: an acknowledgement that isn't of the SYN: a reset answers it (3.10.7.3, first) */
    TCPCORE_RULE_PEER_REFUSES = 8,     /* SYN-SENT: a reset that acknowledges the SYN (3.10.7.3, second) */
    TCPCORE_RULE_PEER_ACCEPTS = 9,     /* SYN-SENT: a SYN that acknowledges the SYN (3.10.7.3, fourth) */
    TCPCORE_RULE_UNACCEPTABLE = 10,    /* outside the window: an acknowledgement answers it (3.10.7.4, first) */
    TCPCORE_RULE_PEER_RESETS = 11,     /* a reset at RCV.NXT (3.10.7.4, second) */
    TCPCORE_RULE_RESET_ELSEWHERE = 12, /* a reset elsewhere in the window: an acknowledgement answers it (3.10.7.4, second) */
    TCPCORE_RULE_SYN_IN_WINDOW = 13,   /* an acknowledgement answers it (3.10.7.4, fourth) */
    TCPCORE_RULE_NO_ACK = 14,          /* without ACK: all of it is dropped (3.10.7.4, fifth) */
    TCPCORE_RULE_ACKS_UNSENT = 15,     /* an acknowledgement of what wasn't sent: an acknowledgement answers it (3.10.7.4, fifth) */
    TCPCORE_RULE_HANDSHAKE_REFUSED = 16, /* SYN-RECEIVED: an acknowledgement that isn't of the SYN: a reset answers it (3.10.7.4, fifth) */
    TCPCORE_RULE_HANDSHAKE_REFUSED_SHUT = 17, /* such a one that is unacceptable at a zero window (3.10.7.4, first and fifth) */
    TCPCORE_RULE_TAKEN = 18,           /* all of it is taken (3.10.7.4, fifth to eighth) */
    TCPCORE_RULE_TAKEN_SHUT = 19       /* unacceptable at a zero window: only its acknowledgement, window and blocks are taken */
};

/* What a segment brought of the peer's stream (RFC 9293, 3.10.7.4, seventh and eighth). */
enum {
    TCPCORE_BROUGHT_NOTHING = 0,  /* it has neither text nor a FIN */
    TCPCORE_BROUGHT_IN_ORDER = 1, /* text or a FIN in order: RCV.NXT was moved */
    TCPCORE_BROUGHT_HELD = 2,     /* text out of order, which is held until what is missing before it comes */
    TCPCORE_BROUGHT_NOT_KEPT = 3  /* text or a FIN of which nothing is kept */
};

/* What tcpcore_arrive_with_report reports of bytes that arrived. All 0 where the answer is a refusal. */
struct tcpcore_arrive_report {
    /* 1 where they have to be answered at once (RFC 5681, 4.2). */
    uint32_t at_once;
    /* The rule that applied: TCPCORE_RULE_FOREIGN, 1, to TCPCORE_RULE_TAKEN_SHUT, 19; TCPCORE_RULE_NONE, 0, where they are
       no segment. */
    uint32_t rule;
    /* The count of text bytes that their acknowledgement released. SYN and FIN aren't counted. */
    uint64_t acked;
    /* What they brought: TCPCORE_BROUGHT_NOTHING, 0, to TCPCORE_BROUGHT_NOT_KEPT, 3. */
    uint32_t brought;
    /* 1 where they are a duplicate acknowledgement (RFC 5681, 2): text was in flight, they have no text, no SYN and no FIN,
       they acknowledge up to SND.UNA, and their window is SND.WND. */
    uint32_t is_duplicate;
    /* 1 where SND.WND was taken from them (RFC 9293, 3.10.7.4, fifth). */
    uint32_t window_taken;
    /* 0. Fields of later versions take their place from here: the struct's size stays. */
    uint32_t reserved[9];
};

/* How far a guard reaches by default, two of the greatest windows, and what stands for no guard (RFC 5961, 5.2). */
#define TCPCORE_GUARD UINT32_C(2097152)
#define TCPCORE_NO_GUARD UINT32_MAX

/* How bytes come in by tcpcore_arrive_by. {0} is with a guard of TCPCORE_GUARD, and their checksum is summed. */
struct tcpcore_intake {
    /* How far the guard reaches, in sequence numbers, as in the rules of a connection: TCPCORE_GUARD or more. 0 is
       TCPCORE_GUARD, and TCPCORE_NO_GUARD is none. */
    uint32_t guard;
    /* Whether a device has found their checksum right, so that it isn't summed (RFC 9293, 3.1): 0 is no, anything else yes. */
    uint32_t is_vouched;
    /* 0. Fields of later versions take their place from here: the struct's size stays. */
    uint32_t reserved[6];
};

/* What a segment is that an end emits. */
enum {
    TCPCORE_KIND_NONE = 0,           /* none is due */
    TCPCORE_KIND_RESET = 1,
    TCPCORE_KIND_SYN = 2,            /* for the first time or again, with an acknowledgement once the peer's was taken */
    TCPCORE_KIND_NEW_TEXT = 3,       /* text for the first time, also a byte that probes a window of 0 (RFC 9293, 3.8.6.1) */
    TCPCORE_KIND_TEXT_AGAIN = 4,     /* text that is retransmitted (RFC 9293, 3.8.1) */
    TCPCORE_KIND_FIN = 5,
    TCPCORE_KIND_FIN_AGAIN = 6,
    TCPCORE_KIND_ACKNOWLEDGEMENT = 7 /* without text */
};

/* What tcpcore_transmit and tcpcore_next report of a segment. (The tag alone is a type, as of tcpcore_status.) */
struct tcpcore_transmit {
    /* The address that it goes to. */
    tcpcore_addr to;
    /* Its kind: TCPCORE_KIND_RESET, 1, to TCPCORE_KIND_ACKNOWLEDGEMENT, 7; TCPCORE_KIND_NONE, 0, where there is none. */
    uint32_t kind;
    /* Its length in bytes, with its header. */
    uint64_t length;
    /* Where it begins, as a position of this end's direction: a SYN at 0, byte i at 1 + i, the FIN after the last byte, an
       acknowledgement at SND.NXT; 0 of a reset. */
    uint64_t position;
    /* The length of its text in bytes. */
    uint64_t count;
    /* 0. Fields of later versions take their place from here: the struct's size stays. */
    uint32_t reserved[8];
};

/* Segments that tcpcore_emit_train or tcpcore_connection_emit_train wrote as one, which a device cuts: segment i, from 0 on, has the
   `each` bytes of its text from i * each on, and the last one has the rest. */
struct tcpcore_train {
    /* What was written, as one segment: where it goes and begins, its kind, its length, and that of all its text. */
    struct tcpcore_transmit whole;
    /* The length of its header in bytes with options, which each segment has. */
    uint64_t header;
    /* The length of the text of each segment but the last, in bytes: 0 where there is no text. */
    uint64_t each;
    /* How many segments it is; 1 where there is nothing to cut. */
    uint64_t segments;
    /* 0. Fields of later versions take their place from here: the struct's size stays. */
    uint32_t reserved[10];
};

/* Bytes that are lent where they lie: two fields in the order of POSIX's struct iovec. `at` is NULL where `length` is 0. */
typedef struct tcpcore_piece {
    /* Where they lie. */
    const void *at;
    /* How many they are. */
    size_t length;
} tcpcore_piece;

/* The unread bytes, as tcpcore_peek lends them: all of `first`, then all of `second`. */
struct tcpcore_lent {
    /* The first of them; it is empty only where none is lent. */
    tcpcore_piece first;
    /* The rest of them. */
    tcpcore_piece second;
    /* 1 where the peer has closed, so that none comes after these. */
    uint32_t ends;
    /* 0. Fields of later versions take their place from here: the struct's size stays. */
    uint32_t reserved[7];
};

/*
 * A segment in parts, as tcpcore_parts lends it: its header, which was written, then all of `first`, then all of `second`. (The tag
 * alone is a type, as of tcpcore_status.)
 */
struct tcpcore_parts {
    /* The address that it goes to. */
    tcpcore_addr to;
    /* The length of its header in bytes with options, at most TCPCORE_HEADER_ROOM. */
    uint32_t header;
    /* The first of its text; it is empty only where there is none. */
    tcpcore_piece first;
    /* The rest of its text. */
    tcpcore_piece second;
    /* 0. Fields of later versions take their place from here: the struct's size stays. */
    uint32_t reserved[6];
};

/*
 * What is kept in the place of an end in TIME-WAIT, in 48 bytes, as tcpcore_time_wait reports it: a plain value, which may be copied,
 * moved and stored; a copy is another record. All zero there is none. (The tag alone is a type, as of tcpcore_status.)
 */
struct tcpcore_time_wait {
    /* The library's word for it; with any other there is no record. */
    uint32_t mark;
    /* The address of this end. */
    tcpcore_addr addr;
    /* The peer's address. */
    tcpcore_addr peer_addr;
    /* The port of this end. */
    uint16_t port;
    /* The peer's port. */
    uint16_t peer_port;
    /* SND.NXT, a sequence number: all before it is acknowledged. */
    uint32_t snd_nxt;
    /* RCV.NXT, a sequence number. */
    uint32_t rcv_nxt;
    /* RCV.WND in bytes, at most 1,048,576. */
    uint32_t rcv_wnd;
    /* The address that the waiting reset goes to. This and the next three are ignored where `reset` is 0. */
    tcpcore_addr reset_addr;
    /* The sequence number of the reset. */
    uint32_t reset_seq;
    /* What the reset acknowledges; ignored where `reset` is 1. */
    uint32_t reset_ack;
    /* The port that the reset goes to. */
    uint16_t reset_port;
    /* The shift by which the window is advertised, at most 14. */
    uint8_t shift;
    /* Whether an acknowledgement is pending: 0 is no, anything else yes. */
    uint8_t ack;
    /* The waiting reset: 0 none, 1 one that acknowledges nothing, 2 one that acknowledges. */
    uint16_t reset;
    /* How the connection ended: TCPCORE_ENDING_NOT_ENDED, 0, to TCPCORE_ENDING_ABORTED, 3. */
    uint16_t ending;
};

/*
 * Makes an end in *end: CLOSED, empty, nothing due. All of it lies in the `length` bytes at `block`, which may hold anything: see
 * MEMORY and WHO OWNS WHAT above. *config is read and not kept.
 *   DONE; IN_USE; BAD_ADDR, BAD_PORT, BAD_CAPACITY, BAD_MSS, BAD_SHIFT, BAD_LIMIT, BAD_RUNS, NO_MEMORY, the first that applies; NULL;
 *   LENGTH; OVERLAP (the block lies over the struct); COPIED (the struct is neither TCPCORE_END_INIT nor one that was freed).
 */
uint32_t tcpcore_new(tcpcore_end *end, const tcpcore_config *config, void *block, size_t length);

/*
 * As tcpcore_new, with the struct in the block too, at its front: *end is where. So the caller keeps a pointer, which can be copied
 * and moved, and an end is one piece of memory. The block has TCPCORE_STRUCT_ROOM bytes more. It may hold anything: that an end is in
 * it already isn't found. tcpcore_free(*end) frees the end, and the whole block is the caller's again.
 *   DONE; BAD_ADDR, BAD_PORT, BAD_CAPACITY, BAD_MSS, BAD_SHIFT, BAD_LIMIT, BAD_RUNS, NO_MEMORY, the first that applies; NULL; LENGTH;
 *   OVERLAP (`end` lies in the block).
 */
uint32_t tcpcore_new_at(tcpcore_end **end, const tcpcore_config *config, void *block, size_t length);

/*
 * How many bytes of a block are enough for an end with this config, wherever the block begins; 0 where a capacity isn't from
 * 1 to 1,048,576, the number of runs is above TCPCORE_MAX_RUNS, or `config` is NULL.
 */
size_t tcpcore_room(const tcpcore_config *config);

/*
 * Frees the end, in any phase: its block is the caller's again. Nothing is sent to the peer: where it has to learn of it,
 * tcpcore_abort and tcpcore_emit come first. *end is TCPCORE_END_INIT afterwards.
 *   DONE; NO_END (so a second free is refused); NULL; COPIED.
 */
uint32_t tcpcore_free(tcpcore_end *end);

/*
 * Opens a connection to this address and port (RFC 9293, 3.10.1): SYN-SENT, a SYN is due. Any address and port are
 * taken: see WHICH ADDRESSES ARE REFUSED above.
 *   DONE; ENDED, ALREADY_OPEN; NO_END; NULL; COPIED.
 */
uint32_t tcpcore_connect(tcpcore_end *end, tcpcore_addr addr, uint16_t port);

/*
 * Waits for one peer (RFC 9293, 3.10.1): LISTEN. Answers as tcpcore_connect.
 */
uint32_t tcpcore_listen(tcpcore_end *end);

/*
 * Accepts the front of the `length` bytes at `text` that fits the send capacity, and keeps it until the peer has acknowledged it
 * (RFC 9293, 3.10.2). *taken is its length, 0 to `length`: offer the rest once `released` has grown.
 *   DONE; ENDED, NOT_OPEN, NOT_CONNECTED, CLOSING, STREAM_FULL; NO_END; NULL; LENGTH; OVERLAP; COPIED.
 */
uint32_t tcpcore_send(tcpcore_end *end, const void *text, size_t length, size_t *taken);

/*
 * Delivers the front of what came in order, at most `room` bytes, at `out` (RFC 9293, 3.10.3). *count is its length; what
 * lies behind it in `out` stays.
 * A reset that arrives discards what is unread, in CLOSING, LAST-ACK and TIME-WAIT too, where all the peer's bytes
 * have come (RFC 9293, 3.10.7.4 has there only that the connection is deleted): read to END_OF_STREAM as soon as they
 * are there.
 *   DONE: *count bytes (0 only where room is 0); more may be there. NOTHING: nothing yet. END_OF_STREAM: nothing will come.
 *   ENDED (behind a reset or an abort), NOT_OPEN; NO_END; NULL; LENGTH; OVERLAP; COPIED.
 */
uint32_t tcpcore_receive(tcpcore_end *end, void *out, size_t room, size_t *count);

/*
 * Lends all unread bytes where they lie in the end's block, for a user who reads them there: no copy is made (RFC 9293, 3.10.3). They
 * may be read, and not written, until the next call that changes this end. What was read is taken away by tcpcore_consume. Of
 * version 5.
 *   As tcpcore_receive; never LENGTH.
 */
uint32_t tcpcore_peek(const tcpcore_end *end, struct tcpcore_lent *lent);

/*
 * Takes the first unread bytes away, at most `count`: *taken is how many. The end is then as after a tcpcore_receive into `count`
 * bytes, the window and an acknowledgement that is due included. Of version 5.
 *   DONE: *taken bytes, 0 where nothing is unread, whether or not more may come. ENDED, NOT_OPEN; NO_END; NULL; OVERLAP; COPIED.
 */
uint32_t tcpcore_consume(tcpcore_end *end, size_t count, size_t *taken);

/*
 * Makes an acknowledgement due, which advertises the window as it is now: for a user who has read (4. above). In ESTABLISHED,
 * FIN-WAIT-1 and FIN-WAIT-2, where the peer may send; in any other phase nothing changes.
 *   DONE; NO_END; NULL; COPIED.
 */
uint32_t tcpcore_acknowledge(tcpcore_end *end);

/*
 * This side has no more to send (RFC 9293, 3.10.4); what is queued still goes out, and the peer may send on. In LISTEN and
 * SYN-SENT the connection ends as aborted; in SYN-RECEIVED the close waits for the handshake.
 *   DONE; ENDED, NOT_OPEN, CLOSING; NO_END; NULL; COPIED.
 */
uint32_t tcpcore_close(tcpcore_end *end);

/*
 * Aborts the connection (RFC 9293, 3.10.5): CLOSED, aborted; a reset is due where the peer may know of the connection.
 *   DONE; ENDED, NOT_OPEN; NO_END; NULL; COPIED.
 */
uint32_t tcpcore_abort(tcpcore_end *end);

/*
 * Timer `timer` has expired (RFC 9293, 3.10.8).
 *   DONE: its rule was applied. NO_RULE: there was none; nothing changed. NO_TIMER; NO_END; NULL; COPIED.
 */
uint32_t tcpcore_timer(tcpcore_end *end, uint32_t timer);

/*
 * A TCP segment of `length` bytes has come from `src` to `dst` (RFC 9293, 3.10.7). What is no segment, or is for
 * another address or port, changes nothing; nor does what has another source, once a peer is known. In LISTEN and
 * CLOSED none is known, and a segment of another connection is answered by a reset: see WHICH END A SEGMENT IS FOR.
 *   DONE: it was taken. DROPPED: it wasn't; an answer may be due. NOT_MINE. TOO_SHORT .. BAD_PADDING: it is none.
 *   NO_END; NULL; LENGTH; OVERLAP; COPIED.
 */
uint32_t tcpcore_arrive(tcpcore_end *end, tcpcore_addr src, tcpcore_addr dst, const void *bytes, size_t length);

/*
 * As tcpcore_arrive, and reports whether the segment has to be answered at once (RFC 5681, 4.2), by emitting what is due:
 * *at_once is 1 where it came out of order or filled all or part of a gap, had a SYN or a FIN, was unacceptable at a zero
 * window and has an answer (TCPCORE_RULE_TAKEN_SHUT), or wasn't taken and has an answer. Where it is 0 an acknowledgement
 * that is due may wait: for a second segment, and at most half a second.
 *   As tcpcore_arrive.
 */
uint32_t tcpcore_arrive_with_at_once(tcpcore_end *end, tcpcore_addr src, tcpcore_addr dst, const void *bytes, size_t length,
                                     uint32_t *at_once);

/*
 * As tcpcore_arrive, and reports more of what the segment is to the end: whether it has to be answered at once, the rule
 * that applied, the text that it acknowledged, what it brought, whether it is a duplicate acknowledgement (RFC 5681, 2),
 * and whether its window was taken. Of version 5.
 *   As tcpcore_arrive.
 */
uint32_t tcpcore_arrive_with_report(tcpcore_end *end, tcpcore_addr src, tcpcore_addr dst, const void *bytes, size_t length,
                                    struct tcpcore_arrive_report *report);

/*
 * As tcpcore_arrive, of a segment whose checksum a device has found right: it isn't summed. Answer and end are those of the
 * same bytes with the right checksum, whatever the bytes are: the caller drops what the device found wrong. Of version 5.
 *   As tcpcore_arrive; never BAD_CHECKSUM.
 */
uint32_t tcpcore_arrive_vouched(tcpcore_end *end, tcpcore_addr src, tcpcore_addr dst, const void *bytes, size_t length);

/*
 * As tcpcore_arrive_vouched, with the report of tcpcore_arrive_with_report. Of version 5.
 *   As tcpcore_arrive; never BAD_CHECKSUM.
 */
uint32_t tcpcore_arrive_vouched_with_report(tcpcore_end *end, tcpcore_addr src, tcpcore_addr dst, const void *bytes,
                                            size_t length, struct tcpcore_arrive_report *report);

/*
 * As tcpcore_arrive_with_report, past a guard against segments of somebody who sees nothing of the connection (RFC 5961, 1.1 and 5.2),
 * and summed or not, as *intake says. A segment that would be taken is dropped, and an acknowledgement is due, where it acknowledges what
 * lies more than the guard's reach before SND.UNA; and where it comes while the window is shut, unless its sequence number is within the
 * reach before RCV.NXT, or within the receive buffer and a FIN from there on. Its rule is then TCPCORE_RULE_UNACCEPTABLE. The other calls
 * of an end have no guard, as RFC 9293 has none. Of version 13.
 *   As tcpcore_arrive; never BAD_CHECKSUM where a device has found the checksum right. NULL of `intake`, too.
 */
uint32_t tcpcore_arrive_by(tcpcore_end *end, tcpcore_addr src, tcpcore_addr dst, const void *bytes, size_t length,
                           const struct tcpcore_intake *intake, struct tcpcore_arrive_report *report);

/*
 * Writes the segment that is due to `out`, checksum and all (RFC 9293, 3.7, 3.8 and 3.10).
 *   DONE: it takes the first *length bytes of `out`, and is for address *to; more may be due. What lies behind it in `out` stays.
 *   NOT_DUE: none. ROOM: `room` is below TCPCORE_EMIT_ROOM. NO_END; NULL; LENGTH; OVERLAP; COPIED.
 */
uint32_t tcpcore_emit(tcpcore_end *end, void *out, size_t room, tcpcore_addr *to, size_t *length);

/*
 * As tcpcore_emit, for a device that sums segments: the checksum field has the ones' complement sum over the pseudo-header alone (RFC
 * 9293, 3.1; RFC 1071, 2), and no text is summed. The device sums what was written, from the first byte on, and puts the
 * complement of that sum into the field, bytes 16 and 17: then the bytes are those of tcpcore_emit. Of version 5.
 *   As tcpcore_emit.
 */
uint32_t tcpcore_emit_partial(tcpcore_end *end, void *out, size_t room, tcpcore_addr *to, size_t *length);

/*
 * Emits the segments that are due as one, for a device that cuts it and sums what it has cut (segmentation offload: virtio-net
 * with VIRTIO_NET_F_HOST_TSO4, a TUN device with TUN_F_TSO4). Of new text as many go together as what is queued and the peer's
 * window allow, at most `most` of them, where 0 counts as 1, and as `room` has place for, of which at most TCPCORE_TRAIN_ROOM bytes
 * are used. Anything else goes alone: a SYN, a FIN, a reset, an acknowledgement, text that is sent again. What is written is one
 * segment with all the text; its checksum field has the sum of tcpcore_emit_partial, of a pseudo-header with the length of the whole.
 *
 * The device cuts the text after each train->each bytes. Each piece has the header of the whole, with the sequence number of its own
 * first byte, a checksum of its own, and PSH on the last piece alone (RFC 9293, 3.1 and 3.9.1.2). These are the bytes that
 * train->segments calls of tcpcore_emit would have written, and the end is as after them. In virtio-net's header of a packet whose
 * IPv4 header begins at byte n, and has 20 bytes: flags VIRTIO_NET_HDR_F_NEEDS_CSUM, csum_start n + 20, csum_offset 16, hdr_len
 * n + 20 + train->header. Where train->segments is above 1, gso_type is VIRTIO_NET_HDR_GSO_TCPV4 and gso_size is train->each; else
 * VIRTIO_NET_HDR_GSO_NONE and 0. Of version 7.
 *   DONE: it takes the first train->whole.length bytes of `out`, and is for address train->whole.to; more may be due. All else as of
 *   tcpcore_emit.
 */
uint32_t tcpcore_emit_train(tcpcore_end *end, void *out, size_t room, size_t most, struct tcpcore_train *train);

/*
 * As tcpcore_emit, but writes the acknowledgement that is pending, without data, even where data or the FIN is due (RFC 9293,
 * 3.8.6.3): for a sender that paces what it sends again. Of version 6.
 *   As tcpcore_emit. NOT_DUE: no acknowledgement is pending, or a reset or SYN has to go out before it.
 */
uint32_t tcpcore_emit_acknowledgement(tcpcore_end *end, void *out, size_t room, tcpcore_addr *to, size_t *length);

/*
 * Of what is in flight, as much as one segment carries must be sent again, from SND.UNA on, and then new data, as after three duplicate
 * acknowledgements (RFC 5681, 3.2) or a partial one (RFC 6582, 3.2). That is the first segment; or several, where they were shorter than
 * a full one; and where their text leaves room in it for the FIN behind it the FIN, too, which goes out by itself. It takes the place of
 * what was to be sent again until now. Of version 6.
 *   DONE: it is due. NO_RULE: nothing is in flight. NO_END; NULL; COPIED.
 */
uint32_t tcpcore_resend_first(tcpcore_end *end);

/*
 * Of what is in flight, what lies from the position `from` on and before `to` must be sent again before new data, and nothing else of it:
 * for a caller who knows which stretch of the stream is lost (RFC 6675, 5; RFC 8985, 6.2). What the peer has reported in blocks isn't sent
 * again. Positions are those of tcpcore_transmit: the SYN is at 0, byte i at 1 + i, and the FIN behind the last byte. As
 * tcpcore_resend_first it takes the place of what was to be sent again until now. Of version 17.
 *   DONE: emit. NO_RULE: nothing in flight lies there; nothing changed. NO_END; NULL; COPIED.
 */
uint32_t tcpcore_resend(tcpcore_end *end, uint64_t from, uint64_t to);

/*
 * Writes the header of the segment that is due to `header`, checksum and all, and lends its text where it lies in the end's block:
 * header and text are together what tcpcore_emit would write, for a gathering write such as POSIX's writev. What lies behind the
 * header in `header` stays. Nothing changes in the end: once the segment was sent, call tcpcore_sent. The text may be read, and
 * not written, until the next call that changes this end. Of version 5.
 *   DONE: parts->header bytes of `header`, and the text. NOT_DUE: no segment is due. ROOM: `room` is below TCPCORE_HEADER_ROOM.
 *   NO_END; NULL; LENGTH; OVERLAP; COPIED.
 */
uint32_t tcpcore_parts(const tcpcore_end *end, void *header, size_t room, struct tcpcore_parts *parts);

/*
 * Counts the segment that is due as sent: the end is as after a tcpcore_emit. Call it right after that of tcpcore_parts was
 * sent: a call, an arrival or a timer in between may make another segment due, which then counts as sent. Nothing changes
 * where none is due. Of version 5.
 *   DONE; NO_END; NULL; COPIED.
 */
uint32_t tcpcore_sent(tcpcore_end *end);

/*
 * As tcpcore_emit: the same bytes, and the same end behind it. It reports what the segment is, where it begins, and how much text
 * it has, beside where it goes and its length. Of version 5.
 *   As tcpcore_emit.
 */
uint32_t tcpcore_transmit(tcpcore_end *end, void *out, size_t room, struct tcpcore_transmit *transmit);

/*
 * Reports what tcpcore_transmit would report now, and writes no segment. Of version 5.
 *   DONE; NOT_DUE: no segment is due. NO_END; NULL; OVERLAP; COPIED.
 */
uint32_t tcpcore_next(const tcpcore_end *end, struct tcpcore_transmit *next);

/*
 * Reports the length of the segment that tcpcore_emit would write now, 0 where none is due.
 *   DONE; NO_END; NULL; OVERLAP; COPIED.
 */
uint32_t tcpcore_pending(const tcpcore_end *end, uint32_t *due);

/*
 * Writes the reset that answers a segment of `length` bytes which came from `src` to `dst`, where no end has that address
 * and port (RFC 9293, 3.10.7.1), to `out`: TCPCORE_RESET_ROOM bytes, to be sent from `dst` to `src`. It is what an end in
 * CLOSED would emit.
 *   DONE: it is the first *written bytes of `out`. NOT_DUE: nothing answers the bytes, which are a reset or no segment.
 *   ROOM: `room` is below TCPCORE_RESET_ROOM. NULL; LENGTH; OVERLAP (of `bytes`, `out` and `written`).
 */
uint32_t tcpcore_stray_reset(tcpcore_addr src, tcpcore_addr dst, const void *bytes, size_t length, void *out, size_t room,
                             size_t *written);

/*
 * Which timers have to run: in *due bit 1 << t is set where tcpcore_timer(end, t) would answer DONE.
 *   DONE; NO_END; NULL; COPIED.
 */
uint32_t tcpcore_timers(const tcpcore_end *end, uint32_t *due);

/*
 * Reports the peer's address and port: from tcpcore_connect on, or from the SYN that came in LISTEN on, also after the
 * connection has ended.
 *   DONE; NOT_CONNECTED before; NO_END; NULL; OVERLAP; COPIED.
 */
uint32_t tcpcore_peer(const tcpcore_end *end, tcpcore_addr *addr, uint16_t *port);

/*
 * Reports phase, ending, counts, and what the two SYNs agreed on.
 *   DONE; NO_END; NULL; OVERLAP; COPIED.
 */
uint32_t tcpcore_status(const tcpcore_end *end, struct tcpcore_status *status);

/*
 * Reports what can take the end's place in TIME-WAIT, once nothing is unread: *time_wait takes no memory, and answers and emits as the
 * end would, whatever comes. The end stays as it is, and only one of the two may answer: the caller frees the end, and hands the
 * segments of the connection to *time_wait.
 *   DONE; NOT_TIME_WAIT: the end is in another phase, or bytes are unread; ask again later. NO_END; NULL; OVERLAP; COPIED.
 */
uint32_t tcpcore_time_wait(const tcpcore_end *end, struct tcpcore_time_wait *time_wait);

/*
 * A segment has come, for such a record, which answers it as the end would (RFC 9293, 3.10.7.4, and 3.10.7.1 once the connection has
 * ended). Then emit; if anything was emitted, restart TCPCORE_TIMER_TIME_WAIT.
 *   As tcpcore_arrive, with NO_TIME_WAIT in place of NO_END; never COPIED.
 */
uint32_t tcpcore_time_wait_arrive(struct tcpcore_time_wait *time_wait, tcpcore_addr src, tcpcore_addr dst, const void *bytes,
                                  size_t length);

/*
 * Timer `timer` has expired (RFC 9293, 3.10.8). TCPCORE_TIMER_TIME_WAIT, which runs on from the end's, closes the
 * connection in order; no other timer has a rule.
 *   DONE: its rule was applied. NO_RULE: there was none; nothing changed. NO_TIMER; NO_TIME_WAIT; NULL.
 */
uint32_t tcpcore_time_wait_timer(struct tcpcore_time_wait *time_wait, uint32_t timer);

/*
 * Writes the segment that is due to `out`: an acknowledgement, or a reset that waits; TCPCORE_TIME_WAIT_ROOM bytes.
 *   As tcpcore_emit, but ROOM: `room` is below TCPCORE_TIME_WAIT_ROOM; with NO_TIME_WAIT in place of NO_END; never COPIED.
 */
uint32_t tcpcore_time_wait_emit(struct tcpcore_time_wait *time_wait, void *out, size_t room, tcpcore_addr *to, size_t *length);

/*
 * Reports the length of the segment that tcpcore_time_wait_emit would write now, TCPCORE_TIME_WAIT_ROOM, or 0 where none is due.
 *   DONE; NO_TIME_WAIT; NULL; OVERLAP.
 */
uint32_t tcpcore_time_wait_pending(const struct tcpcore_time_wait *time_wait, uint32_t *due);

/*
 * Aborts the connection: CLOSED, aborted; no reset is sent in TIME-WAIT (RFC 9293, 3.10.5).
 *   DONE; ENDED; NO_TIME_WAIT; NULL.
 */
uint32_t tcpcore_time_wait_abort(struct tcpcore_time_wait *time_wait);

/*
 * Reports the phase, TIME-WAIT, or CLOSED once the connection has ended, and how it did. In CLOSED, once nothing is due, the struct
 * may be forgotten.
 *   DONE; NO_TIME_WAIT; NULL; OVERLAP.
 */
uint32_t tcpcore_time_wait_status(const struct tcpcore_time_wait *time_wait, uint32_t *phase, uint32_t *ending);

/*
 * CONNECTIONS
 *   A connection is an end that keeps its own timers: the retransmission timeout by measured round trips (RFC 6298), what the peer's
 *   blocks passed over (RFC 2018, 5), TIME-WAIT, the user timeout (RFC 9293, 3.8.3), and keep-alives where they are asked for (3.8.4). It
 *   reads no clock: each call that depends on the time is given it, `now`, in microseconds from any beginning; a time below that of an
 *   earlier call counts as that, but for keep-alives and pacing, and at 2^62, 146,000 years, time stands still. It keeps the timers that a
 *   plain end leaves to its caller (5. at the top); all else said there of an end holds: MEMORY (with the sizes of
 *   TCPCORE_CONNECTION_MEMORY and tcpcore_connection_room), STACK, THREADS, WHO OWNS WHAT, ANSWERS. A call that an end has by the same name
 *   answers and does the same.
 *
 *   1. Make and open it: tcpcore_connection_connect or tcpcore_connection_listen. Then emit until nothing is due: the SYN is due at once,
 *      and tcpcore_connection_poll_at is only when it goes out again.
 *   2. Wait for a segment, or until the time of tcpcore_connection_poll_at, which tcpcore_connection_tick reports as well.
 *   3. Hand each segment in by tcpcore_connection_arrive. Where it answers TCPCORE_EMIT_FIRST emit until nothing is due, and hand the
 *      same segment in again.
 *   4. Call what the user wants: send, receive, close. Then emit until tcpcore_connection_emit answers TCPCORE_NOT_DUE.
 *   5. Call tcpcore_connection_timeout, or tcpcore_connection_tick. Where it answers TCPCORE_DONE emit again until nothing is due. Go on
 *      with 2.
 *   6. Free it once `phase` is TCPCORE_PHASE_CLOSED, and nothing is due: tcpcore_connection_free.
 *
 *   Where the path may be congested, one line behind the making chooses a congestion window (RFC 5681; RFC 9438), of which nothing else
 *   has to be called: tcpcore_connection_set_congestion(&connection, TCPCORE_CONGESTION_CUBIC). Another one has losses found by time, so
 *   that few wait for the retransmission timeout (RFC 8985): tcpcore_connection_set_recovery, with TCPCORE_RECOVERY_MEMORY bytes. A third
 *   one has acknowledgements and small segments wait, avoids silly windows, and limits what only answers (RFC 9293, 3.7.4 and 3.8.6; RFC
 *   5961, 7): tcpcore_connection_set_policy, with TCPCORE_POLICY_DEFAULT. A caller who has emissions wait by a rule of his own goes by
 *   `at_once` of the report (RFC 5681, 4.2).
 *   A peer that vanished while nothing was under way is found by keep-alives alone (RFC 9293, 3.8.4), which are off where nobody asks for
 *   them: tcpcore_connection_set_keep_alive, with TCPCORE_KEEP_ALIVE_DEFAULT.
 *   A caller with a fine timer may have text go out spread over a round trip, and not a window at once (RFC 9002, 7.7):
 *   tcpcore_connection_set_pacing.
 */

/* A connection, placed by the caller. Its words are the library's: set them by TCPCORE_CONNECTION_INIT alone. */
typedef struct tcpcore_connection {
    uint64_t opaque[3];
} tcpcore_connection;

/* No connection. */
#define TCPCORE_CONNECTION_INIT {{0, 0, 0}}

/* The time that stands for none: of a limit that there is none, of tcpcore_connection_poll_at that no timer runs and
   nothing waits. */
#define TCPCORE_NEVER UINT64_MAX

/* The rules of a connection: how the retransmission timeout is made (RFC 6298, 2 and 5), how long the end waits (RFC 9293, 3.8.3), and
   what its guard keeps out (RFC 5961, 5.2). Times are microseconds. */
struct tcpcore_connection_rules {
    /* The timeout before any round trip was measured: 1 s (RFC 6298, 2.1). */
    uint64_t first;
    /* No timeout is below it: 1 s (RFC 6298, 2.4). Above 0, and at most `greatest`. */
    uint64_t least;
    /* None is above it: 60 s or more (RFC 6298, 2.5), and at most 2^40. */
    uint64_t greatest;
    /* G, the granularity of the clock (RFC 6298, 2); at most 2^40. */
    uint64_t granularity;
    /* The timeout with which data begin where the SYN was sent again and `first` is less: 3 s (RFC 6298, 5.7). */
    uint64_t after_syn;
    /* How long TIME-WAIT is: two maximum segment lifetimes, 4 minutes (RFC 9293, 3.4.2). */
    uint64_t time_wait;
    /* How long a SYN may be without an answer, 3 minutes or more (RFC 9293, 3.8.3); TCPCORE_NEVER is forever. */
    uint64_t handshake;
    /* The user timeout: how long all else may be, 100 s or more (RFC 9293, 3.8.3); TCPCORE_NEVER is forever. */
    uint64_t user;
    /* How long FIN-WAIT-2 may last without anything of the peer's, while all that came is read; TCPCORE_NEVER is forever, as
       the standard has it. */
    uint64_t fin_wait_2;
    /* After so many timeouts in a row the path is suspect, and before them no end is given up: 3 or more (RFC 9293, 3.8.3). */
    uint32_t suspect_after;
    /* The guard against segments of somebody who sees nothing of the connection (RFC 5961, 5.2): how many sequence numbers
       behind SND.UNA the acknowledgement of a segment may lie that is taken, and while the window is shut how many behind
       RCV.NXT its own number may. TCPCORE_GUARD or more, two of the greatest windows: below it, what the peer sent may be
       kept out. 0 is TCPCORE_GUARD, and TCPCORE_NO_GUARD is none. */
    uint32_t guard;
    /* 0. Fields of later versions take their place from here: the struct's size stays. */
    uint32_t reserved[12];
};

/* The values of the standards, with a clock of milliseconds, 60 s as the greatest timeout, 3 minutes for a SYN, a user timeout of 5
   minutes, FIN-WAIT-2 without a limit, and the guard:
       struct tcpcore_connection_rules rules = TCPCORE_CONNECTION_RULES_DEFAULT; */
#define TCPCORE_CONNECTION_RULES_DEFAULT \
    {1000000, 1000000, 60000000, 1000, 3000000, 240000000, 180000000, 300000000, TCPCORE_NEVER, 3, TCPCORE_GUARD, {0}}

/* The congestion window of a connection (RFC 5681, 3), in bytes. */
struct tcpcore_congestion {
    /* The congestion window; 2^40 where none was chosen, more than is ever in flight. */
    uint64_t cwnd;
    /* The slow start threshold; 2^40 until slow start has ended once. */
    uint64_t ssthresh;
    /* SMSS: 536 until the SYNs have agreed on it; 0 where no window was chosen. */
    uint64_t smss;
    /* Which was chosen: TCPCORE_CONGESTION_NONE, 0, to TCPCORE_CONGESTION_CUBIC, 2. */
    uint32_t congestion;
    /* Whether a loss was found that isn't repaired yet: 1, or 0. */
    uint32_t is_recovering;
    /* 0. Fields of later versions take their place from here: the struct's size stays. */
    uint32_t reserved[8];
};

/* When an acknowledgement and a small segment of a connection go out (RFC 9293, 3.7.4 and 3.8.6), and ACK throttling, by `answer_interval`
   (RFC 5961, 7). Times are microseconds. Any values may be chosen. */
struct tcpcore_policy {
    /* How long an acknowledgement of text waits for a second full segment: 40 ms, and less than 500 ms whatever is chosen
       (RFC 9293, 3.8.6.3). 0: none waits. */
    uint64_t ack_delay;
    /* How long text that isn't worth a segment waits, counted from when only its size holds it back, 0.1 to 1 s (RFC 9293,
       3.8.6.2): until then no small segment goes into a small window, and none goes out just for a window that opened by
       little. TCPCORE_NEVER: no text waits, and a window that was opened by reading is advertised only where it was shut. */
    uint64_t override_timeout;
    /* Of the acknowledgements that only answer segments without text and FIN, or a SYN in a synchronized state, one goes out
       in so long (RFC 5961, 7). 0: all do. */
    uint64_t answer_interval;
    /* Whether text that doesn't fill a segment waits while anything is in flight, by the Nagle algorithm (RFC 9293, 3.7.4):
       0 is no. It counts where `override_timeout` isn't TCPCORE_NEVER. */
    uint32_t nagle;
    /* 0. Fields of later versions take their place from here: the struct's size stays. */
    uint32_t reserved[9];
};

/* Common values: an acknowledgement waits 40 ms, a small segment while anything is in flight, until the override timeout of 0.5 s, and what
   brings nothing is answered once in 0.5 s:
       struct tcpcore_policy policy = TCPCORE_POLICY_DEFAULT; */
#define TCPCORE_POLICY_DEFAULT {40000, 500000, 500000, 1, {0}}

/* When a silent peer is asked whether it is there, and when it is given up (RFC 9293, 3.8.4). Times are microseconds. All 0: never. */
struct tcpcore_keep_alive {
    /* It is asked where nothing was heard of it for so long: 2 hours or more, unless a user chooses less. 0: it is never
       asked. */
    uint64_t idle;
    /* It is asked again after each so long: 75 s by custom. */
    uint64_t interval;
    /* With so many unanswered it is given up, an interval after the last: 9 by custom. Less than 2 counts as 2: one may be
       lost. */
    uint32_t most;
    /* 0. Fields of later versions take their place from here: the struct's size stays. */
    uint32_t reserved[3];
};

/* Usual values: a peer of which nothing was heard for two hours is asked, and again after each 75 s, and is given up behind nine
   keep-alives that went unanswered:
       struct tcpcore_keep_alive keep_alive = TCPCORE_KEEP_ALIVE_DEFAULT; */
#define TCPCORE_KEEP_ALIVE_DEFAULT {UINT64_C(7200000000), 75000000, 9, {0}}

/* What tcpcore_connection_emit reports of the segment that it wrote. */
struct tcpcore_connection_segment {
    /* Its length in bytes, with its header. */
    uint64_t length;
    /* Where it begins, as a position of this end's direction: a SYN at 0, byte i at 1 + i, the FIN after the last byte, an
       acknowledgement at SND.NXT; 0 of a reset. */
    uint64_t position;
    /* How many numbers it takes: one for each byte of text, one for a SYN, one for a FIN (RFC 9293, 3.4). */
    uint64_t count;
    /* The address that it goes to. */
    tcpcore_addr to;
    /* 0. Fields of later versions take their place from here: the struct's size stays. */
    uint32_t reserved[9];
};

/* How many bytes of a block are enough for a connection: as TCPCORE_MEMORY_RUNS and TCPCORE_MEMORY. */
#define TCPCORE_CONNECTION_MEMORY_RUNS(send, receive, runs) (TCPCORE_MEMORY_RUNS(send, receive, runs) - 416 + 1216)
#define TCPCORE_CONNECTION_MEMORY(send, receive) TCPCORE_CONNECTION_MEMORY_RUNS(send, receive, TCPCORE_RUNS)

/* How many bytes of a block of any alignment are enough for loss recovery by time: tcpcore_connection_set_recovery. */
#define TCPCORE_RECOVERY_MEMORY (2832 + 15)

/*
 * Makes an end with its timers in *connection, and opens a connection to this address and port at `now` (RFC 9293, 3.10.1): the SYN is
 * due. All of it lies in the `length` bytes at `block`. *config and *rules are read and not kept.
 *   DONE; IN_USE; BAD_ADDR, BAD_PORT, BAD_RULES, BAD_CAPACITY, BAD_MSS, BAD_SHIFT, BAD_LIMIT, BAD_RUNS, NO_MEMORY, the first that
 *   applies; NULL; LENGTH; OVERLAP (the block lies over the struct); COPIED (the struct is neither TCPCORE_CONNECTION_INIT nor one that
 *   was freed). Of version 11, as the calls of a connection behind it up to tcpcore_connection_status.
 */
uint32_t tcpcore_connection_connect(tcpcore_connection *connection, const tcpcore_config *config,
                                    const struct tcpcore_connection_rules *rules, tcpcore_addr addr, uint16_t port, uint64_t now,
                                    void *block, size_t length);

/*
 * Makes an end with its timers in *connection, and waits for one peer from `now` on (RFC 9293, 3.10.1). Answers as
 * tcpcore_connection_connect.
 */
uint32_t tcpcore_connection_listen(tcpcore_connection *connection, const tcpcore_config *config,
                                   const struct tcpcore_connection_rules *rules, uint64_t now, void *block, size_t length);

/*
 * How many bytes of a block are enough for a connection with this config, wherever the block begins; 0 as of tcpcore_room.
 */
size_t tcpcore_connection_room(const tcpcore_config *config);

/*
 * Frees the end, in any phase: its block is the caller's again, and that of its recovery. Nothing is sent to the peer, as of tcpcore_free.
 *   DONE; NO_END (so a second free is refused); NULL; COPIED.
 */
uint32_t tcpcore_connection_free(tcpcore_connection *connection);

/*
 * Reports when tcpcore_connection_timeout has to be called, or what a policy, a recovery or pacing made wait is to be emitted, or a
 * keep-alive, if nothing else happens before; TCPCORE_NEVER where no timer runs, nothing waits and the peer isn't to be asked. It may have
 * passed: then emit, and call it now. A later call has all that was sent go out again later.
 *   DONE; NO_END; NULL; OVERLAP; COPIED.
 */
uint32_t tcpcore_connection_poll_at(const tcpcore_connection *connection, uint64_t *at);

/*
 * It is `now`: if a timer has expired its rule is applied (RFC 9293, 3.10.8), and *timer is which, TCPCORE_TIMER_RETRANSMIT to
 * TCPCORE_TIMER_USER. After TCPCORE_TIMER_USER the connection is aborted. From an expiry on, but that of keep-alives, no segment is taken,
 * and no other timer expires, until tcpcore_connection_emit or tcpcore_connection_emit_train answers TCPCORE_NOT_DUE: what was due at the
 * expiry goes out first.
 *   DONE: emit. NOT_DUE: none has expired. NO_END; NULL; OVERLAP; COPIED.
 */
uint32_t tcpcore_connection_timeout(tcpcore_connection *connection, uint64_t now, uint32_t *timer);

/*
 * It is `now`: tcpcore_connection_timeout, and then tcpcore_connection_poll_at, in one call, for a caller who has emitted all that was due
 * and asks what is next. Of version 13.
 *   DONE: emit, and call it again. NOT_DUE: none has expired, and *next is when one does, or what waits is to be emitted. NO_END; NULL;
 *   OVERLAP; COPIED.
 */
uint32_t tcpcore_connection_tick(tcpcore_connection *connection, uint64_t now, uint32_t *timer, uint64_t *next);

/*
 * A TCP segment of `length` bytes has come from `src` to `dst` at `now` (RFC 9293, 3.10.7), with the report of
 * tcpcore_arrive_with_report. What the guard of the rules keeps out is dropped, and an acknowledgement is due, as of tcpcore_arrive_by.
 *   As tcpcore_arrive. EMIT_FIRST: a timer has expired, and what was due then has to go out first; nothing changed. Emit until NOT_DUE,
 *   and hand the segment in again. WITHHELD: a reset that counts as lost, in TIME-WAIT (RFC 1337, 3), and in CLOSING and LAST-ACK while
 *   bytes are unread, which it would discard; nothing changed. There is nothing to do.
 */
uint32_t tcpcore_connection_arrive(tcpcore_connection *connection, uint64_t now, tcpcore_addr src, tcpcore_addr dst, const void *bytes,
                                   size_t length, struct tcpcore_arrive_report *report);

/*
 * As tcpcore_connection_arrive, of a segment whose checksum a device has found right: it isn't summed. Of version 13.
 *   As tcpcore_connection_arrive; never BAD_CHECKSUM.
 */
uint32_t tcpcore_connection_arrive_vouched(tcpcore_connection *connection, uint64_t now, tcpcore_addr src, tcpcore_addr dst,
                                           const void *bytes, size_t length, struct tcpcore_arrive_report *report);

/*
 * Writes the segment that is due at `now` to `out`, checksum and all (RFC 9293, 3.7, 3.8 and 3.10). What ends more than `window` numbers
 * past SND.UNA waits, unless nothing before it is in flight: `window` is that of the caller's own congestion control (RFC 5681, 3.1), and
 * UINT64_MAX holds nothing back. So does what ends past the congestion window that was chosen, if one was, and the segments that RFC 3042
 * lets out beyond it, or in congestion avoidance, where losses are found by time, and while none is found, what the peer's blocks report
 * (RFC 6675, 5). A pending acknowledgement goes out alone where what is due waits, and before anything that is sent again. A keep-alive
 * goes out behind all else. New text of a paced connection waits for its portion, too.
 *   DONE: it takes the first segment->length bytes of `out`, and is for address segment->to; more may be due. What lies behind it in
 *   `out` stays. NOT_DUE: none may go out. ROOM: `room` is below TCPCORE_EMIT_ROOM. NO_END; NULL; LENGTH; OVERLAP; COPIED.
 */
uint32_t tcpcore_connection_emit(tcpcore_connection *connection, uint64_t now, uint64_t window, void *out, size_t room,
                                 struct tcpcore_connection_segment *segment);

/*
 * Writes the segments that may go out at `now` as one, for a device that cuts it and sums what it has cut, as tcpcore_emit_train writes
 * those of an end: of new text as many go together as end within `window`, as tcpcore_connection_emit has it, at most `most` of them, where
 * 0 counts as 1, and as `room` has place for. Anything else goes alone, also the pending acknowledgement where what is due waits. The
 * checksum field has the sum of tcpcore_emit_partial: with a `most` of 1 it is one segment, for a device that sums and doesn't cut. The
 * connection is as after train->segments calls of tcpcore_connection_emit at `now`, timers and all. Of version 15.
 *   DONE: it takes the first train->whole.length bytes of `out`, and is for address train->whole.to; more may be due. All else as of
 *   tcpcore_connection_emit.
 */
uint32_t tcpcore_connection_emit_train(tcpcore_connection *connection, uint64_t now, uint64_t window, void *out, size_t room, size_t most,
                                       struct tcpcore_train *train);

/* Accepts text, as tcpcore_send. */
uint32_t tcpcore_connection_send(tcpcore_connection *connection, uint64_t now, const void *text, size_t length, size_t *taken);

/* Delivers what came in order, as tcpcore_receive. */
uint32_t tcpcore_connection_receive(tcpcore_connection *connection, uint64_t now, void *out, size_t room, size_t *count);

/* Lends all unread bytes where they lie, as tcpcore_peek. */
uint32_t tcpcore_connection_peek(const tcpcore_connection *connection, struct tcpcore_lent *lent);

/* Takes the first unread bytes away, as tcpcore_consume. */
uint32_t tcpcore_connection_consume(tcpcore_connection *connection, uint64_t now, size_t count, size_t *taken);

/* Makes an acknowledgement due, as tcpcore_acknowledge. */
uint32_t tcpcore_connection_acknowledge(tcpcore_connection *connection, uint64_t now);

/* This side has no more to send, as tcpcore_close. */
uint32_t tcpcore_connection_close(tcpcore_connection *connection, uint64_t now);

/* Aborts the connection, as tcpcore_abort. */
uint32_t tcpcore_connection_abort(tcpcore_connection *connection, uint64_t now);

/* Reports phase, ending, counts, and what the two SYNs agreed on, as tcpcore_status. */
uint32_t tcpcore_connection_status(const tcpcore_connection *connection, struct tcpcore_status *status);

/* Reports the peer's address and port, as tcpcore_peer. Of version 12, as the two behind it. */
uint32_t tcpcore_connection_peer(const tcpcore_connection *connection, tcpcore_addr *addr, uint16_t *port);

/*
 * Sets the user timeout in the place of `user` of the rules (RFC 9293, 3.8.3 and 3.10.2): how long what was sent may be without an answer
 * before the connection is aborted, in microseconds; TCPCORE_NEVER is forever. The time that has passed already counts, so
 * tcpcore_connection_poll_at may be another then, also one that has passed. A SYN keeps the limit `handshake` of the rules.
 *   DONE; NO_END; NULL; COPIED.
 */
uint32_t tcpcore_connection_set_user_timeout(tcpcore_connection *connection, uint64_t limit);

/*
 * Of what is in flight the first segment must be sent again at once, as tcpcore_resend_first: for a caller who finds losses before the
 * timers do, by the third duplicate acknowledgement or by its own rules (RFC 5681, 3.2; RFC 6675, 5). The retransmission timer starts
 * anew when it goes out, once until something is acknowledged.
 *   DONE: emit. NO_RULE: nothing is in flight. NO_END; NULL; COPIED.
 */
uint32_t tcpcore_connection_resend_first(tcpcore_connection *connection, uint64_t now);

/*
 * Of what is in flight, what lies from the position `from` on and before `to` must be sent again at once, as tcpcore_resend: positions are
 * those of struct tcpcore_connection_segment. The congestion window isn't told of it. Of version 17.
 *   DONE: emit. NO_RULE: nothing in flight lies there; nothing changed. NO_END; NULL; COPIED.
 */
uint32_t tcpcore_connection_resend(tcpcore_connection *connection, uint64_t now, uint64_t from, uint64_t to);

/*
 * Chooses the congestion window of the connection (RFC 5681, 3): TCPCORE_CONGESTION_NONE, which is the default, TCPCORE_CONGESTION_RENO or
 * TCPCORE_CONGESTION_CUBIC. From then on what goes out ends within that window, too, by both emissions and beside `window` of theirs, but
 * for what they let out beyond it; what is acknowledged, lost and resent, and an idle time, make it grow and shrink. Call it any time before
 * text is sent, also right after the making of the connection: the window begins as RFC 6928 has it with the MSS that both SYNs agree on,
 * and with one segment where a SYN was lost since then (RFC 5681, 3.1). A loss before that it doesn't know of: so choose it behind the
 * making. Of version 16, as the next.
 *   DONE; NO_RULE: text was sent already, or a FIN; nothing changed. BAD_RULES: no window has this number. NO_END; NULL; COPIED.
 */
uint32_t tcpcore_connection_set_congestion(tcpcore_connection *connection, uint32_t congestion);

/*
 * Reports the congestion window as it is: which was chosen, cwnd, ssthresh and SMSS, and whether a loss isn't repaired yet.
 *   DONE; NO_END; NULL; OVERLAP; COPIED.
 */
uint32_t tcpcore_connection_congestion(const tcpcore_connection *connection, struct tcpcore_congestion *congestion);

/*
 * Chooses when an acknowledgement and a small segment go out (RFC 9293, 3.7.4 and 3.8.6; RFC 5961, 7): at once where this isn't called.
 * From then on an emission answers NOT_DUE while what is due waits, and tcpcore_connection_poll_at reports when it no longer does: emit
 * then.
 *   An acknowledgement waits for a second full segment, for text that takes it along, or for `ack_delay`; not where its arrival has to be
 *   answered at once. Text waits that neither fills a segment, nor is all that is queued, nor half of the greatest window, and with
 *   `nagle` while anything is in flight; for `override_timeout`, which begins anew behind whatever else goes out. What goes out
 *   again, a SYN, a FIN, a reset, a probe of a zero window, and all that is due behind a timer's expiry never wait.
 *   A window that reading has opened by a segment, or by half of the receive capacity, is advertised where the peer has less than half of
 *   that left (RFC 9293, 3.8.6.2.2): a user who reads needn't call tcpcore_connection_acknowledge.
 *   An acknowledgement that only answers segments without text and FIN, or, as of version 20, a SYN in a synchronized state, goes out once
 *   in `answer_interval`, and is discarded meanwhile, as if it were lost (ACK throttling: RFC 5961, 7): so two ends with zero windows
 *   answer each other once in that time, and not without end. It should be a few seconds at most. What answers text isn't limited. `out` of
 *   an emission may contain what was discarded, then, behind what goes out.
 *   Under a policy of which anything waits or isn't answered, as of version 21, the peer's SYN again in SYN-RECEIVED has the SYN,ACK go
 *   out again, in place of an acknowledgement alone, which a peer without the SYN,ACK drops.
 * It may be called at any time, and again: an acknowledgement that waited is due then, and text begins to wait anew. *policy is read and
 * not kept. Of version 17.
 *   DONE; NO_END; NULL; COPIED.
 */
uint32_t tcpcore_connection_set_policy(tcpcore_connection *connection, const struct tcpcore_policy *policy);

/*
 * From `now` on losses are found by time (RACK-TLP: RFC 8985), instead of a round trip behind a gap. What is in flight is lost, and goes
 * out again, where something that was sent later has come, and a round trip and a window for reordering have passed since it was sent; and
 * where nothing is sent or acknowledged for two round trips, and for the peer's delay behind less than two full segments, the last SMSS
 * numbers, the FIN among them, go out again as a probe, or the first ones while blocks report a gap or a loss is repaired. So a loss rarely
 * waits for the retransmission timeout. The window is a quarter of the least round trip, or more where what was sent again came late, and
 * up to twice as long where round trips have just become shorter; what is late by less isn't taken for lost.
 *   Choose a congestion window, too: without one all that looks lost goes out again at once, and a peer that reports as received what was
 * sent last has all that is in flight sent again for each of its segments. That window shrinks once for all that is in flight when a loss
 * is found, and once more where what was sent again is lost again. It shrinks, too, for a loss that a probe has repaired, behind which the
 * next loss counts anew. As of version 21 its first slow start may end before a loss, where round trips become longer (RFC 9406), and
 * counts up to eight segments of each answer. The steps of `now` have to be finer than a quarter of a round trip: by a coarser clock what
 * isn't answered yet looks lost, and goes out again in vain.
 *   It counts where both SYNs agree on selective acknowledgement. Else, as of version 20, the first two segments in flight go out again as
 * a probe, once until the first of them is acknowledged, and, as of version 21, where its answer covers no more than these what was sent
 * before it and lies behind them is lost, too, and the first slow start is that of RFC 9406; all else is as without it. What falls due by
 * it goes out by an emission, of which tcpcore_connection_poll_at has the time: emit then, whether or not a timer expires, too. At most 64
 * stretches of what is in flight are kept in the `length` bytes at `block`; where there are more, what was joined is found lost later. The
 * block is the connection's until tcpcore_connection_free, whatever has become of the connection; TCPCORE_RECOVERY_MEMORY bytes are enough.
 * Call it once, any time before text is sent, also right after the making of the connection: of text that was sent before it wouldn't be
 * known when. Of version 18.
 *   DONE; IN_USE: it was called already. NO_RULE: text was sent already, or a FIN. NO_MEMORY: the block is too small. At any answer but
 *   DONE nothing has changed, and the block is the caller's. NO_END; NULL; LENGTH; OVERLAP (the block lies over the struct); COPIED.
 */
uint32_t tcpcore_connection_set_recovery(tcpcore_connection *connection, uint64_t now, void *block, size_t length);

/*
 * From `now` on a silent peer is asked whether it is there, by keep-alives (RFC 9293, 3.8.4): never where this isn't called. It is asked
 * where nothing was heard of it for `idle`, and again an `interval` behind each keep-alive. With `most` of them unanswered it is given up
 * an interval behind the last: tcpcore_connection_timeout reports TCPCORE_TIMER_USER, the connection is aborted, and its reset is due. A
 * keep-alive is an acknowledgement alone whose SEG.SEQ is SND.NXT - 1, which each peer answers and none takes. It goes out by an emission,
 * where nothing else does; tcpcore_connection_poll_at has its time.
 *   The peer is heard by each segment that is taken, one without text, too, and by none that is passed over: an unacceptable one may be
 * anybody's (RFC 9293, 3.10.7.4, first). It is asked in ESTABLISHED and CLOSE-WAIT alone, while all that was sent is acknowledged and
 * nothing waits to be sent. Else what is sent asks already, and the user timeout gives up who doesn't answer.
 *   It may be called in any phase, and again: silence counts from `now` on, and no keep-alive counts as unanswered. An `idle` of 0 turns
 * keep-alives off. No time counts as less than a second, and `most` not as less than 2: one keep-alive that is lost is no dead connection
 * (RFC 9293, 3.8.4). Silence is counted by the times of the calls as they are, also where one goes back. *rules is read and not kept. Of
 * version 21.
 *   DONE; NO_END; NULL; COPIED.
 */
uint32_t tcpcore_connection_set_keep_alive(tcpcore_connection *connection, uint64_t now, const struct tcpcore_keep_alive *rules);

/*
 * Has new text go out spread over a round trip, so that no queue on the path has to take a window at once (RFC 9002, 7.7), or, where
 * `is_paced` is 0, as soon as the windows let it out, which is so where this isn't called.
 *   It goes out in portions. One is as many whole segments as go out in 1 ms at the rate 1.25 * cwnd / SRTT, in slow start 2 * cwnd / SRTT,
 * or as many as cwnd has, up to the ten of an initial window (RFC 6928, 2), where those are more; and two at least. The next begins where
 * it is over at that rate. Idle time earns no more than one portion. What is sent again doesn't wait, nor does a FIN that no text waits
 * before, nor a segment before which nothing is in flight. Until a round trip is measured nothing is paced, and without a congestion window
 * (tcpcore_connection_set_congestion) practically nothing waits.
 *   Where text waits for its portion an emission answers NOT_DUE, and tcpcore_connection_poll_at is when the next one begins: emit then,
 * whatever tcpcore_connection_timeout answers. So who paces waits by a timer that is finer than a portion takes, which is often a
 * millisecond or less: by a coarser one text goes out more slowly than the window has it, one portion for each call. Portions go by the
 * times of the emissions as they are, also where one goes back. It may be called at any time, and again. Of version 21.
 *   DONE; NO_END; NULL; COPIED.
 */
uint32_t tcpcore_connection_set_pacing(tcpcore_connection *connection, uint32_t is_paced);

/*
 * HOSTS
 *   A host has many connections under one object, listeners, and what is left of connections in TIME-WAIT. It finds whose a segment is by
 *   its four values (RFC 9293, 3.3.1 and 3.10.7), whose turn it is to send, and who is due first, each by steps that go by the logarithm of
 *   how many there are. What it does to a connection is what the connection's own call does. All said of connections holds: MEMORY,
 *   THREADS, WHO OWNS WHAT, ANSWERS; a host, and all that is in it, is used by one thread at a time.
 *   Hosts are in the machine code alone, for x86-64 and aarch64 on Linux: the C that takes its place elsewhere has none of these calls. So
 *   they are declared where TCPCORE_HAS_HOSTS is defined, and a program for any machine asks for it: '#ifdef TCPCORE_HAS_HOSTS'. It is
 *   defined where tcpcore.c takes machine code by the same words of the compiler. Where a program is compiled by other words than the
 *   library define it, or TCPCORE_PORTABLE, which says that there are none, for the program; pkg-config does.
 *
 *   1. Make it: tcpcore_host_new, in a block of TCPCORE_HOST_MEMORY bytes for its tables. Have it listen: tcpcore_host_listen.
 *   2. To connect make a connection by tcpcore_connection_connect in a block of its own, choose its congestion window, its recovery, its
 *      policy, its keep-alives and its pacing, and move it in: tcpcore_host_open. It has a name then, and its struct is empty; its block
 *      stays its own. Its SYN is due: go on with 6.
 *   3. Wait for a segment, or until the time of tcpcore_host_poll_at. Hand each segment to tcpcore_host_arrive, and go by `place`:
 *      - TCPCORE_PLACE_LISTENER: make a connection by tcpcore_connection_listen with the segment's destination, move it in by
 *        tcpcore_host_admit, and hand the segment in again. Where that isn't TCPCORE_DONE the segment has a fault, and the connection still
 *        listens: move it out. Or leave the segment: then it is as lost.
 *      - TCPCORE_PLACE_STRAY: hand it to tcpcore_host_stray, and send what that writes.
 *      - TCPCORE_PLACE_END with TCPCORE_EMIT_FIRST: emit until nobody waits, and hand it in again.
 *   4. Take what tcpcore_host_accept gives, and make the users' calls by name: tcpcore_host_send, tcpcore_host_receive, tcpcore_host_close.
 *   5. Call tcpcore_host_timeout until it answers TCPCORE_NOBODY.
 *   6. Call tcpcore_host_emit, and send what it writes, until it answers TCPCORE_NOBODY.
 *   7. Look at each connection whose turn brought TCPCORE_NOT_DUE: it may be over. Once it is in TIME-WAIT and all of it was read,
 *      tcpcore_host_retire leaves a record in its place and moves it out. Once its phase is TCPCORE_PHASE_CLOSED, and nothing is due,
 *      tcpcore_host_remove moves it out. Its block is free behind tcpcore_connection_free. Go on with 3.
 *   For a device that sums and cuts segments tcpcore_host_arrive_vouched stands beside tcpcore_host_arrive, and tcpcore_host_emit_train
 *   writes those of one connection by its name, before 6; tcpcore_host_emit_by_id writes one of them at once.
 */

/* A host, placed by the caller. Its words are the library's: set them by TCPCORE_HOST_INIT alone. */
typedef struct tcpcore_host {
    uint64_t opaque[3];
} tcpcore_host;

/* No host. */
#define TCPCORE_HOST_INIT {{0, 0, 0}}

/* The name of a connection or of a listener in a host: no other connection, or listener, has it or had it. The number of none is 0, so that
   a caller keeps zeros where it has no name: calls by them find nothing. A slot that was left is taken again before a new one is (tested,
   not proved), so that it is below the most connections that the host has had at once, or of a listener's name the most listeners: a
   table of as many has place for what a caller keeps of each. */
struct tcpcore_host_id {
    /* Its number, 1 or more, in the order in which they came. */
    uint64_t number;
    /* Its slot: a small number from 0 on, which another one has once this one is gone. A caller's own table goes by it. */
    uint64_t slot;
};

/* What tcpcore_host_arrive reports. */
struct tcpcore_host_arrived {
    /* The end that took it, or the listener; zero of anything else. */
    struct tcpcore_host_id id;
    /* Whose it is: TCPCORE_PLACE_END, 1, to TCPCORE_PLACE_STRAY, 5; TCPCORE_PLACE_NONE, 0, where it is too short for ports. */
    uint32_t place;
    /* 0. Fields of later versions take their place from here: the struct's size stays. */
    uint32_t reserved[11];
};

/* What tcpcore_host_emit reports of the segment that it wrote. */
struct tcpcore_host_sent {
    /* The end whose turn it was; zero of a TIME-WAIT record. */
    struct tcpcore_host_id id;
    /* Its length in bytes, with its header. */
    uint64_t length;
    /* Where it begins, as a position of its end's direction, as of a connection. */
    uint64_t position;
    /* How many numbers it takes: one for each byte of text, one for a SYN, one for a FIN (RFC 9293, 3.4). */
    uint64_t count;
    /* The address that it comes from. */
    tcpcore_addr from;
    /* The address that it goes to. */
    tcpcore_addr to;
    /* Whose turn it was: TCPCORE_PLACE_END, 1, or TCPCORE_PLACE_RECORD, 2; TCPCORE_PLACE_NONE, 0, where nobody waited. */
    uint32_t place;
    /* 0. Fields of later versions take their place from here: the struct's size stays. */
    uint32_t reserved[11];
};

/* What tcpcore_host_timeout reports. */
struct tcpcore_host_told {
    /* The end; zero of a TIME-WAIT record, which is gone. */
    struct tcpcore_host_id id;
    /* TCPCORE_PLACE_END, 1, or TCPCORE_PLACE_RECORD, 2; TCPCORE_PLACE_NONE, 0, where nobody was due. */
    uint32_t place;
    /* The timer that has expired, TCPCORE_TIMER_RETRANSMIT, 0, to TCPCORE_TIMER_USER, 3; TCPCORE_TIMER_NONE, 4, where none
       has: what was held back may go out. */
    uint32_t timer;
    /* 0. Fields of later versions take their place from here: the struct's size stays. */
    uint32_t reserved[10];
};

/* How many bytes of a block are enough for a host of so many connections, TIME-WAIT records and listeners at any time, and of so many in
   all backlogs together. It is measured by the tests (tests/host_room.c) for listeners of one backlog, not proved. The tables double where
   they grow, and what one has taken no other one gets back; what a listener leaves is used again by one with the same backlog. So count your
   connections and your records, and keep no more of either than the block was made for: with tcpcore_host_remove one in TIME-WAIT leaves
   without a record. */
#define TCPCORE_HOST_MEMORY(connections, records, listeners, backlogs) \
    ((size_t)4096 + 512 * (size_t)(connections) + 800 * (size_t)(records) + 448 * (size_t)(listeners) + 16 * (size_t)(backlogs))

#ifdef TCPCORE_HAS_HOSTS
/*
 * Makes a host in *host. Its tables lie in the `length` bytes at `block`. A TIME-WAIT record in which the peer's FIN comes again stays for
 * `time_wait` microseconds from then on: two maximum segment lifetimes, 4 minutes (RFC 9293, 3.4.2). One stray is answered in
 * `stray_interval` microseconds, 10,000 say, since whoever sends strays chooses where their answers go (RFC 5961, 7); 0: all are. Of
 * version 19, as all calls of a host.
 *   DONE; IN_USE; NO_MEMORY; NULL; LENGTH; OVERLAP (the block lies over the struct); COPIED (the struct is neither TCPCORE_HOST_INIT nor
 *   one that was freed).
 */
uint32_t tcpcore_host_new(tcpcore_host *host, uint64_t time_wait, uint64_t stray_interval, void *block, size_t length);

/*
 * Frees the host, and each connection that is in it: its block and theirs are the caller's again. Nothing is sent to any peer.
 *   DONE; NO_END; NULL; COPIED.
 */
uint32_t tcpcore_host_free(tcpcore_host *host);

/*
 * Somebody listens at this address and port from now on (RFC 9293, 3.10.1), and may have `backlog` connections that aren't accepted, in
 * their handshake or behind it (RFC 4987, 3.2): *listener is the listener's name.
 *   DONE; TAKEN: somebody listens there already. NO_MEMORY: the host's block is too small. BAD_ADDR, BAD_PORT, as of tcpcore_new; NO_END;
 *   NULL; OVERLAP; COPIED.
 */
uint32_t tcpcore_host_listen(tcpcore_host *host, tcpcore_addr addr, uint16_t port, size_t backlog, struct tcpcore_host_id *listener);

/*
 * Nobody listens any more where this listener did. The connections that came for it stay, accepted or not.
 *   DONE; GONE; NO_END; NULL; COPIED.
 */
uint32_t tcpcore_host_unlisten(tcpcore_host *host, const struct tcpcore_host_id *listener);

/*
 * Moves a connection into the host, under its own address and port and its peer's: *id is its name, and *connection has none any more. It
 * waits for a turn. Its block, and that of its recovery, stay its own.
 *   DONE; NOT_CONNECTED: it has no peer yet. TAKEN: a connection of the host has these four values, or, as of version 20, a TIME-WAIT
 *   record of it (RFC 9293, 3.10.1). NO_MEMORY: the host's block is too small. NO_END: a struct has none. NULL; OVERLAP; COPIED (of the
 *   host, or of the connection). At any answer but DONE nothing changes.
 */
uint32_t tcpcore_host_open(tcpcore_host *host, tcpcore_connection *connection, struct tcpcore_host_id *id);

/*
 * Moves a connection that listens into the host, for a segment that has come from `src` to `dst` and asks this listener for a connection:
 * *id is its name, and *connection has none any more. It is in the listener's backlog until tcpcore_host_accept gives it. Then hand the
 * same segment in again.
 *   DONE; TOO_SHORT: the bytes have no ports. TAKEN, as of tcpcore_host_open. GONE: the listener is. BACKLOG_FULL;
 *   NO_MEMORY: the host's block is too small. NO_END: a struct has none. NULL; LENGTH; OVERLAP; COPIED (of the host, or of the connection).
 *   At any answer but DONE nothing changes.
 */
uint32_t tcpcore_host_admit(tcpcore_host *host, const struct tcpcore_host_id *listener, tcpcore_connection *connection, tcpcore_addr src,
                            tcpcore_addr dst, const void *bytes, size_t length, struct tcpcore_host_id *id);

/*
 * Accepts the connection of a listener whose handshake was over first: *id is its name. One that was removed meanwhile is given, too: its
 * name finds nothing.
 *   DONE; NOBODY: none waits. GONE: the listener is. NO_END; NULL; OVERLAP; COPIED.
 */
uint32_t tcpcore_host_accept(tcpcore_host *host, const struct tcpcore_host_id *listener, struct tcpcore_host_id *id);

/*
 * A connection in TIME-WAIT, all of which was read, leaves a record in its place, which answers late segments until TIME-WAIT is over (RFC
 * 9293, 3.3.2), and moves to *connection, from where it can be freed.
 *   DONE; GONE; NOT_TIME_WAIT: it isn't there, or something is left to read or to send. TAKEN: a record has its four values already.
 *   NO_MEMORY: the host's block is too small. IN_USE: *connection has one. NO_END; NULL; OVERLAP; COPIED. At any answer but DONE nothing
 *   changes.
 */
uint32_t tcpcore_host_retire(tcpcore_host *host, const struct tcpcore_host_id *id, tcpcore_connection *connection);

/*
 * Moves a connection out of the host to *connection, in any phase. Its four values have none in the host any more, and its name finds
 * nothing.
 *   DONE; GONE; IN_USE: *connection has one. NO_END; NULL; OVERLAP; COPIED.
 */
uint32_t tcpcore_host_remove(tcpcore_host *host, const struct tcpcore_host_id *id, tcpcore_connection *connection);

/*
 * A TCP segment of `length` bytes has come from `src` to `dst` at `now` (RFC 9293, 3.3.1 and 3.10.7). The connection of its four values
 * takes it, or where there is none their TIME-WAIT record; no other one changes. *arrived says whose it is, and *report what a connection
 * reports of it; all 0 of anything else.
 *   At a connection as tcpcore_connection_arrive; at a record as tcpcore_time_wait_arrive, or WITHHELD for a reset (RFC 1337, 3). Else
 *   DONE, and nothing changed. NO_END; NULL; LENGTH; OVERLAP; COPIED.
 */
uint32_t tcpcore_host_arrive(tcpcore_host *host, uint64_t now, tcpcore_addr src, tcpcore_addr dst, const void *bytes, size_t length,
                             struct tcpcore_host_arrived *arrived, struct tcpcore_arrive_report *report);

/*
 * As tcpcore_host_arrive, of a segment whose checksum a device has found right: a connection doesn't sum it. A record does, and
 * tcpcore_host_stray. So where a device has left the sum out, and the place is TCPCORE_PLACE_RECORD or TCPCORE_PLACE_STRAY, make it, and
 * hand the segment to tcpcore_host_arrive or tcpcore_host_stray: nothing has changed, but that a record has a turn in which nothing is due.
 * Of version 21.
 *   As tcpcore_host_arrive; BAD_CHECKSUM of a record alone.
 */
uint32_t tcpcore_host_arrive_vouched(tcpcore_host *host, uint64_t now, tcpcore_addr src, tcpcore_addr dst, const void *bytes, size_t length,
                                     struct tcpcore_host_arrived *arrived, struct tcpcore_arrive_report *report);

/*
 * Writes the reset that answers a stray of `length` bytes from `src` to `dst` at `now` to `out`, TCPCORE_RESET_ROOM bytes, which goes from
 * `dst` to `src` (RFC 9293, 3.10.7.1): of nobody's segment, or of one that acknowledges something at a listener (3.10.7.2, second).
 *   DONE; NOT_DUE: somebody has the bytes, they are no segment or a reset, or the last answer was less than the interval ago. ROOM; NO_END;
 *   NULL; LENGTH; OVERLAP; COPIED.
 */
uint32_t tcpcore_host_stray(tcpcore_host *host, uint64_t now, tcpcore_addr src, tcpcore_addr dst, const void *bytes, size_t length,
                            void *out, size_t room, size_t *written);

/*
 * Whose turn it is has its turn at `now`: TIME-WAIT records first, then each connection, which writes what may go out within `window` as
 * tcpcore_connection_emit does; UINT64_MAX for no window of the caller's own. Who has sent waits behind all others for its next turn.
 *   DONE: send what was written, from `from` to `to`. NOT_DUE: whose turn it was, as `id` and `place` say, has nothing to send, or was moved out
 *   (its `id` is 0 then); call again. NOBODY waits. ROOM: `room` is below TCPCORE_EMIT_ROOM. NO_END; NULL; LENGTH; OVERLAP; COPIED.
 */
uint32_t tcpcore_host_emit(tcpcore_host *host, uint64_t now, uint64_t window, void *out, size_t room, struct tcpcore_host_sent *sent);

/*
 * Writes what is due of a connection at `now` within `window`, by its name and whosever turn it is: one segment, as
 * tcpcore_connection_emit does, or several as one for a device that cuts and sums them, as tcpcore_connection_emit_train does. It goes from
 * the connection's own address. The connection waits for its turn behind this, also where nothing is left to send. Of version 21.
 *   As those; GONE: the connection of this name is.
 */
uint32_t tcpcore_host_emit_by_id(tcpcore_host *host, uint64_t now, const struct tcpcore_host_id *id, uint64_t window, void *out,
                                 size_t room, struct tcpcore_connection_segment *segment);
uint32_t tcpcore_host_emit_train(tcpcore_host *host, uint64_t now, const struct tcpcore_host_id *id, uint64_t window, void *out,
                                 size_t room, size_t most, struct tcpcore_train *train);

/*
 * It is `now`: a TIME-WAIT record that is over goes; else the connection that is due first is told. It waits for a turn then.
 *   DONE: *told says who, and which timer has expired, as of tcpcore_connection_timeout; call again. NOBODY is due. NO_END; NULL; OVERLAP;
 *   COPIED.
 */
uint32_t tcpcore_host_timeout(tcpcore_host *host, uint64_t now, struct tcpcore_host_told *told);

/*
 * Reports when tcpcore_host_timeout has to be called, if nothing else happens before; TCPCORE_NEVER where nobody has a deadline.
 *   DONE; NO_END; NULL; OVERLAP; COPIED.
 */
uint32_t tcpcore_host_poll_at(const tcpcore_host *host, uint64_t *at);

/*
 * Which connection has this address and port, and this peer's (RFC 9293, 3.3.1): *id is its name. Of what an ICMP error quotes, say, whose
 * source is the connection's own. Of version 21.
 *   DONE; NOBODY: no connection of the host has them; a TIME-WAIT record may. NO_END; NULL; OVERLAP; COPIED.
 */
uint32_t tcpcore_host_find(const tcpcore_host *host, tcpcore_addr addr, uint16_t port, tcpcore_addr peer_addr, uint16_t peer_port,
                           struct tcpcore_host_id *id);

/*
 * The calls of a connection's user, by its name: each as tcpcore_connection_send, receive, peek, consume, acknowledge, close, abort, status
 * and peer. What tcpcore_host_peek lends may be read until the next call that changes the host. peek and consume are as of version 20.
 *   As those; GONE: the connection of this name is.
 */
uint32_t tcpcore_host_send(tcpcore_host *host, uint64_t now, const struct tcpcore_host_id *id, const void *text, size_t length,
                           size_t *taken);
uint32_t tcpcore_host_receive(tcpcore_host *host, uint64_t now, const struct tcpcore_host_id *id, void *out, size_t room, size_t *count);
uint32_t tcpcore_host_peek(const tcpcore_host *host, const struct tcpcore_host_id *id, struct tcpcore_lent *lent);
uint32_t tcpcore_host_consume(tcpcore_host *host, uint64_t now, const struct tcpcore_host_id *id, size_t count, size_t *taken);
uint32_t tcpcore_host_acknowledge(tcpcore_host *host, uint64_t now, const struct tcpcore_host_id *id);
uint32_t tcpcore_host_close(tcpcore_host *host, uint64_t now, const struct tcpcore_host_id *id);
uint32_t tcpcore_host_abort(tcpcore_host *host, uint64_t now, const struct tcpcore_host_id *id);
uint32_t tcpcore_host_status(const tcpcore_host *host, const struct tcpcore_host_id *id, struct tcpcore_status *status);
uint32_t tcpcore_host_peer(const tcpcore_host *host, const struct tcpcore_host_id *id, tcpcore_addr *addr, uint16_t *port);

/*
 * What is chosen of a connection while it is in the host, and what its caller has sent again, by its name: each as the call of
 * tcpcore_connection_.. Of version 20, but set_keep_alive and set_pacing, of version 21.
 *   As those; GONE: the connection of this name is.
 */
uint32_t tcpcore_host_set_policy(tcpcore_host *host, const struct tcpcore_host_id *id, const struct tcpcore_policy *policy);
uint32_t tcpcore_host_set_user_timeout(tcpcore_host *host, const struct tcpcore_host_id *id, uint64_t limit);
uint32_t tcpcore_host_set_keep_alive(tcpcore_host *host, uint64_t now, const struct tcpcore_host_id *id,
                                     const struct tcpcore_keep_alive *rules);
uint32_t tcpcore_host_set_pacing(tcpcore_host *host, const struct tcpcore_host_id *id, uint32_t is_paced);
uint32_t tcpcore_host_resend_first(tcpcore_host *host, uint64_t now, const struct tcpcore_host_id *id);
uint32_t tcpcore_host_resend(tcpcore_host *host, uint64_t now, const struct tcpcore_host_id *id, uint64_t from, uint64_t to);
#endif

/*
 * The text of an answer, such as "nothing to read yet". It is never NULL, nobody frees it, and any thread may ask for
 * it at any time. A number that is no answer has the text "unknown answer".
 */
const char *tcpcore_strerror(uint32_t answer);

/*
 * The TCPCORE_VERSION with which tcpcore.c was compiled. A program that loads a shared library looks that this isn't below its
 * own. While the soname stays, later versions add calls, answers, and fields in the place of reserved words. What a program that is
 * built already gets otherwise is in CHANGELOG.md. An older library passes over a newer field: who counts on the guard looks that this
 * is 13 or more.
 */
uint32_t tcpcore_version(void);

/*
 * What code the library is: "x86-64-v2 machine code", "x86-64 machine code" or "aarch64 machine code", the proved code as the proof left
 * it; "machine code", where it isn't said for which machine; "portable C", translated from it, with a test of each access; "portable C,
 * unchecked". It is never NULL, and nobody frees it. A later version may have other texts.
 */
const char *tcpcore_build(void);

#ifdef __cplusplus
#ifdef __GNUC__
#pragma GCC diagnostic pop
#endif
}
#endif

#endif
