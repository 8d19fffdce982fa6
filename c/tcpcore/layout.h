/*
 * Where each field of the library's structs lies, and how many bytes it takes (crate tcp_c, src/records.rt), on any machine.
 * tcpcore.c alone includes it. Made by layout.py: change nothing here.
 */
#ifndef TCPCORE_LAYOUT_H
#define TCPCORE_LAYOUT_H

#include "tcpcore.h"

#define FIELD(type, field, at, size) \
    _Static_assert(offsetof(type, field) == (at) && sizeof((type){0}.field) == (size), #field " isn't the library's")

FIELD(tcpcore_addr, byte, 0, 4);
_Static_assert(sizeof(tcpcore_addr) == 4, "the size of tcpcore_addr");
FIELD(tcpcore_config, addr, 0, 4);
FIELD(tcpcore_config, port, 4, 2);
FIELD(tcpcore_config, mss, 6, 2);
FIELD(tcpcore_config, isn, 8, 4);
FIELD(tcpcore_config, send_capacity, 16, 8);
FIELD(tcpcore_config, recv_capacity, 24, 8);
FIELD(tcpcore_config, limit, 32, 8);
FIELD(tcpcore_config, window_shift, 40, 1);
FIELD(tcpcore_config, scales, 41, 1);
FIELD(tcpcore_config, sack, 42, 1);
FIELD(tcpcore_config, runs, 44, 2);
_Static_assert(sizeof(tcpcore_config) == 48, "the size of tcpcore_config");
FIELD(struct tcpcore_status, phase, 0, 4);
FIELD(struct tcpcore_status, ending, 4, 4);
FIELD(struct tcpcore_status, unread, 8, 8);
FIELD(struct tcpcore_status, released, 16, 8);
FIELD(struct tcpcore_status, ordered, 24, 8);
FIELD(struct tcpcore_status, snd_una, 32, 8);
FIELD(struct tcpcore_status, rcv_position, 40, 8);
FIELD(struct tcpcore_status, room, 48, 8);
FIELD(struct tcpcore_status, queued, 56, 8);
FIELD(struct tcpcore_status, in_flight, 64, 8);
FIELD(struct tcpcore_status, mss, 72, 4);
FIELD(struct tcpcore_status, own_shift, 76, 1);
FIELD(struct tcpcore_status, peer_shift, 77, 1);
FIELD(struct tcpcore_status, scaling, 78, 1);
FIELD(struct tcpcore_status, sack, 79, 1);
FIELD(struct tcpcore_status, snd_wnd, 80, 4);
FIELD(struct tcpcore_status, rcv_wnd, 84, 4);
FIELD(struct tcpcore_status, snd_nxt, 88, 8);
FIELD(struct tcpcore_status, closing, 96, 4);
FIELD(struct tcpcore_status, finished, 100, 4);
/* The library writes nothing behind these. */
FIELD(struct tcpcore_status, reserved, 104, 24);
_Static_assert(sizeof(struct tcpcore_status) == 128, "the size of struct tcpcore_status");
FIELD(struct tcpcore_arrive_report, at_once, 0, 4);
FIELD(struct tcpcore_arrive_report, rule, 4, 4);
FIELD(struct tcpcore_arrive_report, acked, 8, 8);
FIELD(struct tcpcore_arrive_report, brought, 16, 4);
FIELD(struct tcpcore_arrive_report, is_duplicate, 20, 4);
FIELD(struct tcpcore_arrive_report, window_taken, 24, 4);
/* The library writes nothing behind these. */
FIELD(struct tcpcore_arrive_report, reserved, 28, 36);
_Static_assert(sizeof(struct tcpcore_arrive_report) == 64, "the size of struct tcpcore_arrive_report");
FIELD(struct tcpcore_intake, guard, 0, 4);
FIELD(struct tcpcore_intake, is_vouched, 4, 4);
/* The library writes nothing behind these. */
FIELD(struct tcpcore_intake, reserved, 8, 24);
_Static_assert(sizeof(struct tcpcore_intake) == 32, "the size of struct tcpcore_intake");
FIELD(struct tcpcore_transmit, to, 0, 4);
FIELD(struct tcpcore_transmit, kind, 4, 4);
FIELD(struct tcpcore_transmit, length, 8, 8);
FIELD(struct tcpcore_transmit, position, 16, 8);
FIELD(struct tcpcore_transmit, count, 24, 8);
/* The library writes nothing behind these. */
FIELD(struct tcpcore_transmit, reserved, 32, 32);
_Static_assert(sizeof(struct tcpcore_transmit) == 64, "the size of struct tcpcore_transmit");

/* Segments that were written as one. */
struct train {
    tcpcore_addr to;
    uint32_t kind;
    uint64_t length;
    uint64_t position;
    uint64_t count;
    uint64_t header;
    uint64_t each;
    uint64_t segments;
};
FIELD(struct train, to, 0, 4);
FIELD(struct train, kind, 4, 4);
FIELD(struct train, length, 8, 8);
FIELD(struct train, position, 16, 8);
FIELD(struct train, count, 24, 8);
FIELD(struct train, header, 32, 8);
FIELD(struct train, each, 40, 8);
FIELD(struct train, segments, 48, 8);
_Static_assert(sizeof(struct train) == 56, "the size of struct train");
FIELD(struct tcpcore_time_wait, mark, 0, 4);
FIELD(struct tcpcore_time_wait, addr, 4, 4);
FIELD(struct tcpcore_time_wait, peer_addr, 8, 4);
FIELD(struct tcpcore_time_wait, port, 12, 2);
FIELD(struct tcpcore_time_wait, peer_port, 14, 2);
FIELD(struct tcpcore_time_wait, snd_nxt, 16, 4);
FIELD(struct tcpcore_time_wait, rcv_nxt, 20, 4);
FIELD(struct tcpcore_time_wait, rcv_wnd, 24, 4);
FIELD(struct tcpcore_time_wait, reset_addr, 28, 4);
FIELD(struct tcpcore_time_wait, reset_seq, 32, 4);
FIELD(struct tcpcore_time_wait, reset_ack, 36, 4);
FIELD(struct tcpcore_time_wait, reset_port, 40, 2);
FIELD(struct tcpcore_time_wait, shift, 42, 1);
FIELD(struct tcpcore_time_wait, ack, 43, 1);
FIELD(struct tcpcore_time_wait, reset, 44, 2);
FIELD(struct tcpcore_time_wait, ending, 46, 2);
_Static_assert(sizeof(struct tcpcore_time_wait) == 48, "the size of struct tcpcore_time_wait");

/* Bytes that are lent where they lie, in two parts. An address has 64 bits on any machine. */
struct lent {
    uint64_t first;
    uint64_t first_length;
    uint64_t second;
    uint64_t second_length;
    uint32_t ends;
    uint32_t padding; /* where a number of 64 bits is aligned to 4 bytes, too */
};
FIELD(struct lent, first, 0, 8);
FIELD(struct lent, first_length, 8, 8);
FIELD(struct lent, second, 16, 8);
FIELD(struct lent, second_length, 24, 8);
FIELD(struct lent, ends, 32, 4);
_Static_assert(sizeof(struct lent) == 40, "the size of struct lent");

/* A segment that is due: its header was written, and its text is lent. An address has 64 bits on any machine. */
struct parts {
    tcpcore_addr to;
    uint32_t header;
    uint64_t first;
    uint64_t first_length;
    uint64_t second;
    uint64_t second_length;
};
FIELD(struct parts, to, 0, 4);
FIELD(struct parts, header, 4, 4);
FIELD(struct parts, first, 8, 8);
FIELD(struct parts, first_length, 16, 8);
FIELD(struct parts, second, 24, 8);
FIELD(struct parts, second_length, 32, 8);
_Static_assert(sizeof(struct parts) == 40, "the size of struct parts");
FIELD(struct tcpcore_connection_rules, first, 0, 8);
FIELD(struct tcpcore_connection_rules, least, 8, 8);
FIELD(struct tcpcore_connection_rules, greatest, 16, 8);
FIELD(struct tcpcore_connection_rules, granularity, 24, 8);
FIELD(struct tcpcore_connection_rules, after_syn, 32, 8);
FIELD(struct tcpcore_connection_rules, time_wait, 40, 8);
FIELD(struct tcpcore_connection_rules, handshake, 48, 8);
FIELD(struct tcpcore_connection_rules, user, 56, 8);
FIELD(struct tcpcore_connection_rules, fin_wait_2, 64, 8);
FIELD(struct tcpcore_connection_rules, suspect_after, 72, 4);
FIELD(struct tcpcore_connection_rules, guard, 76, 4);
/* The library writes nothing behind these. */
FIELD(struct tcpcore_connection_rules, reserved, 80, 48);
_Static_assert(sizeof(struct tcpcore_connection_rules) == 128, "the size of struct tcpcore_connection_rules");
FIELD(struct tcpcore_congestion, cwnd, 0, 8);
FIELD(struct tcpcore_congestion, ssthresh, 8, 8);
FIELD(struct tcpcore_congestion, smss, 16, 8);
FIELD(struct tcpcore_congestion, congestion, 24, 4);
FIELD(struct tcpcore_congestion, is_recovering, 28, 4);
/* The library writes nothing behind these. */
FIELD(struct tcpcore_congestion, reserved, 32, 32);
_Static_assert(sizeof(struct tcpcore_congestion) == 64, "the size of struct tcpcore_congestion");
FIELD(struct tcpcore_policy, ack_delay, 0, 8);
FIELD(struct tcpcore_policy, override_timeout, 8, 8);
FIELD(struct tcpcore_policy, answer_interval, 16, 8);
FIELD(struct tcpcore_policy, nagle, 24, 4);
/* The library writes nothing behind these. */
FIELD(struct tcpcore_policy, reserved, 28, 36);
_Static_assert(sizeof(struct tcpcore_policy) == 64, "the size of struct tcpcore_policy");
FIELD(struct tcpcore_keep_alive, idle, 0, 8);
FIELD(struct tcpcore_keep_alive, interval, 8, 8);
FIELD(struct tcpcore_keep_alive, most, 16, 4);
/* The library writes nothing behind these. */
FIELD(struct tcpcore_keep_alive, reserved, 20, 12);
_Static_assert(sizeof(struct tcpcore_keep_alive) == 32, "the size of struct tcpcore_keep_alive");
FIELD(struct tcpcore_connection_segment, length, 0, 8);
FIELD(struct tcpcore_connection_segment, position, 8, 8);
FIELD(struct tcpcore_connection_segment, count, 16, 8);
FIELD(struct tcpcore_connection_segment, to, 24, 4);
/* The library writes nothing behind these. */
FIELD(struct tcpcore_connection_segment, reserved, 28, 36);
_Static_assert(sizeof(struct tcpcore_connection_segment) == 64, "the size of struct tcpcore_connection_segment");
FIELD(struct tcpcore_host_id, number, 0, 8);
FIELD(struct tcpcore_host_id, slot, 8, 8);
_Static_assert(sizeof(struct tcpcore_host_id) == 16, "the size of struct tcpcore_host_id");
FIELD(struct tcpcore_host_arrived, id, 0, 16);
FIELD(struct tcpcore_host_arrived, place, 16, 4);
/* The library writes nothing behind these. */
FIELD(struct tcpcore_host_arrived, reserved, 20, 44);
_Static_assert(sizeof(struct tcpcore_host_arrived) == 64, "the size of struct tcpcore_host_arrived");
FIELD(struct tcpcore_host_sent, id, 0, 16);
FIELD(struct tcpcore_host_sent, length, 16, 8);
FIELD(struct tcpcore_host_sent, position, 24, 8);
FIELD(struct tcpcore_host_sent, count, 32, 8);
FIELD(struct tcpcore_host_sent, from, 40, 4);
FIELD(struct tcpcore_host_sent, to, 44, 4);
FIELD(struct tcpcore_host_sent, place, 48, 4);
/* The library writes nothing behind these. */
FIELD(struct tcpcore_host_sent, reserved, 52, 44);
_Static_assert(sizeof(struct tcpcore_host_sent) == 96, "the size of struct tcpcore_host_sent");
FIELD(struct tcpcore_host_told, id, 0, 16);
FIELD(struct tcpcore_host_told, place, 16, 4);
FIELD(struct tcpcore_host_told, timer, 20, 4);
/* The library writes nothing behind these. */
FIELD(struct tcpcore_host_told, reserved, 24, 40);
_Static_assert(sizeof(struct tcpcore_host_told) == 64, "the size of struct tcpcore_host_told");

#undef FIELD

#endif
