/* tcpcore.h of version 4 without its comments, as programs were built with it: not to be changed. */
#ifndef TCPCORE_H
#define TCPCORE_H 
#include <stddef.h>
#include <stdint.h>
#ifdef __cplusplus
extern "C" {
#ifdef __GNUC__
#pragma GCC diagnostic push
#pragma GCC diagnostic ignored "-Wshadow"
#endif
#endif
#define TCPCORE_VERSION 4
enum {
    TCPCORE_DONE = 0,
    TCPCORE_TOO_SHORT = 1,
    TCPCORE_TOO_LONG = 2,
    TCPCORE_BAD_CHECKSUM = 3,
    TCPCORE_BAD_OFFSET = 4,
    TCPCORE_BAD_OPTION = 5,
    TCPCORE_BAD_PADDING = 6,
    TCPCORE_NOT_OPEN = 11,
    TCPCORE_ALREADY_OPEN = 12,
    TCPCORE_CLOSING = 13,
    TCPCORE_ENDED = 14,
    TCPCORE_STREAM_FULL = 15,
    TCPCORE_NOT_CONNECTED = 16,
    TCPCORE_BAD_CAPACITY = 21,
    TCPCORE_NO_MEMORY = 22,
    TCPCORE_BAD_MSS = 23,
    TCPCORE_BAD_SHIFT = 24,
    TCPCORE_BAD_LIMIT = 25,
    TCPCORE_NO_END = 31,
    TCPCORE_IN_USE = 32,
    TCPCORE_ROOM = 33,
    TCPCORE_NO_TIMER = 34,
    TCPCORE_NULL = 35,
    TCPCORE_LENGTH = 36,
    TCPCORE_COPIED = 37,
    TCPCORE_OVERLAP = 38,
    TCPCORE_NO_REST = 39,
    TCPCORE_NOTHING = 51,
    TCPCORE_END_OF_STREAM = 52,
    TCPCORE_NOT_DUE = 53,
    TCPCORE_NO_RULE = 54,
    TCPCORE_DROPPED = 55,
    TCPCORE_NOT_MINE = 56,
    TCPCORE_NOT_AT_REST = 57
};
enum {
    TCPCORE_PHASE_CLOSED = 0,
    TCPCORE_PHASE_LISTEN = 1,
    TCPCORE_PHASE_SYN_SENT = 2,
    TCPCORE_PHASE_SYN_RECEIVED = 3,
    TCPCORE_PHASE_ESTABLISHED = 4,
    TCPCORE_PHASE_FIN_WAIT_1 = 5,
    TCPCORE_PHASE_FIN_WAIT_2 = 6,
    TCPCORE_PHASE_CLOSE_WAIT = 7,
    TCPCORE_PHASE_CLOSING = 8,
    TCPCORE_PHASE_LAST_ACK = 9,
    TCPCORE_PHASE_TIME_WAIT = 10
};
enum {
    TCPCORE_ENDING_NOT_ENDED = 0,
    TCPCORE_ENDING_ORDERLY = 1,
    TCPCORE_ENDING_RESET = 2,
    TCPCORE_ENDING_ABORTED = 3
};
enum {
    TCPCORE_TIMER_RETRANSMIT = 0,
    TCPCORE_TIMER_REORDER = 1,
    TCPCORE_TIMER_TIME_WAIT = 2
};
#define TCPCORE_UNITS(size) (((size_t)(size) + 15) / 16 * 16)
#define TCPCORE_MEMORY(send,receive) (TCPCORE_UNITS(send) + TCPCORE_UNITS(receive) + 704 + 15)
#define TCPCORE_STACK 2048
#define TCPCORE_PORTABLE_STACK 4096
#define TCPCORE_EMIT_ROOM 1520
#define TCPCORE_RESET_ROOM 20
#define TCPCORE_REST_ROOM 20
#define TCPCORE_LIMIT UINT64_C(2147483632)
typedef struct tcpcore_end {
    uint64_t opaque[3];
} tcpcore_end;
#define TCPCORE_END_INIT {{0, 0, 0}}
typedef struct tcpcore_addr {
    uint8_t byte[4];
} tcpcore_addr;
typedef struct tcpcore_config {
    tcpcore_addr addr;
    uint16_t port;
    uint16_t mss;
    uint32_t isn;
    unsigned int : 32;
    uint64_t send_capacity;
    uint64_t recv_capacity;
    uint64_t limit;
    uint8_t window_shift;
    uint8_t scales;
    uint8_t sack;
    unsigned int : 8;
    unsigned int : 32;
} tcpcore_config;
struct tcpcore_status {
    uint32_t phase;
    uint32_t ending;
    uint64_t unread;
    uint64_t released;
    uint64_t ordered;
    uint64_t una;
    uint64_t next;
    uint64_t room;
    uint64_t queued;
    uint64_t in_flight;
    uint32_t mss;
    uint8_t own_shift;
    uint8_t peer_shift;
    uint8_t scaling;
    uint8_t sack;
    uint32_t snd_wnd;
    uint32_t reserved[11];
};
struct tcpcore_rest {
    uint32_t mark;
    tcpcore_addr addr;
    tcpcore_addr peer_addr;
    uint16_t port;
    uint16_t peer_port;
    uint32_t seq;
    uint32_t next;
    uint32_t window;
    tcpcore_addr reset_addr;
    uint32_t reset_seq;
    uint32_t reset_ack;
    uint16_t reset_port;
    uint8_t shift;
    uint8_t ack;
    uint16_t reset;
    uint16_t ending;
};
uint32_t tcpcore_new(tcpcore_end *end, const tcpcore_config *config, void *block, size_t length);
size_t tcpcore_room(const tcpcore_config *config);
uint32_t tcpcore_free(tcpcore_end *end);
uint32_t tcpcore_connect(tcpcore_end *end, tcpcore_addr addr, uint16_t port);
uint32_t tcpcore_listen(tcpcore_end *end);
uint32_t tcpcore_send(tcpcore_end *end, const void *text, size_t length, size_t *taken);
uint32_t tcpcore_receive(tcpcore_end *end, void *out, size_t room, size_t *count);
uint32_t tcpcore_acknowledge(tcpcore_end *end);
uint32_t tcpcore_close(tcpcore_end *end);
uint32_t tcpcore_abort(tcpcore_end *end);
uint32_t tcpcore_timer(tcpcore_end *end, uint32_t timer);
uint32_t tcpcore_arrive(tcpcore_end *end, tcpcore_addr src, tcpcore_addr dst, const void *bytes, size_t length);
uint32_t tcpcore_take(tcpcore_end *end, tcpcore_addr src, tcpcore_addr dst, const void *bytes, size_t length, uint32_t *at_once);
uint32_t tcpcore_emit(tcpcore_end *end, void *out, size_t room, tcpcore_addr *to, size_t *length);
uint32_t tcpcore_pending(const tcpcore_end *end, uint32_t *due);
uint32_t tcpcore_stray_reset(tcpcore_addr src, tcpcore_addr dst, const void *bytes, size_t length, void *out, size_t room,
                             size_t *written);
uint32_t tcpcore_timers(const tcpcore_end *end, uint32_t *due);
uint32_t tcpcore_peer(const tcpcore_end *end, tcpcore_addr *addr, uint16_t *port);
uint32_t tcpcore_status(const tcpcore_end *end, struct tcpcore_status *status);
uint32_t tcpcore_rest(const tcpcore_end *end, struct tcpcore_rest *rest);
uint32_t tcpcore_rest_arrive(struct tcpcore_rest *rest, tcpcore_addr src, tcpcore_addr dst, const void *bytes, size_t length);
uint32_t tcpcore_rest_timer(struct tcpcore_rest *rest, uint32_t timer);
uint32_t tcpcore_rest_emit(struct tcpcore_rest *rest, void *out, size_t room, tcpcore_addr *to, size_t *length);
uint32_t tcpcore_rest_pending(const struct tcpcore_rest *rest, uint32_t *due);
uint32_t tcpcore_rest_abort(struct tcpcore_rest *rest);
uint32_t tcpcore_rest_status(const struct tcpcore_rest *rest, uint32_t *phase, uint32_t *ending);
const char *tcpcore_strerror(uint32_t answer);
uint32_t tcpcore_version(void);
#ifdef __cplusplus
#ifdef __GNUC__
#pragma GCC diagnostic pop
#endif
}
#endif
#endif
