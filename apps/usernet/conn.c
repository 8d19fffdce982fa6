/* The connections of the namespace (see usernet.h). C over tcpcore.h and its companions, tested and not proved. */
#define _GNU_SOURCE
#include "usernet.h"
#include "companions/segment.h"

#include <errno.h>
#include <malloc.h>
#include <netinet/tcp.h>
#include <stdlib.h>
#include <string.h>
#include <sys/epoll.h>
#include <sys/socket.h>
#include <unistd.h>

/* The allocator keeps what is freed for what comes next, which is quick, and the system is given back what is free once so many bytes were used
   up: all at once takes less time than one by one. OWN_PAGES: what an end touches of its block before text comes. */
enum { GIVEN_BACK = 4 << 20, OWN_PAGES = 8192 };

/* The milliseconds for which the loop waits at most: it looks after relays, too. */
enum { LONGEST_WAIT = 250 };

/* A pair is the first field of its connection, which is in the table where it has no end. */
static struct conn *conn_of(struct pair *pair) { return (struct conn *)(void *)pair; }

void wake(struct usernet *net, struct conn *conn)
{
    if (conn->is_awake)
        return;
    conn->is_awake = 1, conn->next = NULL;
    *net->last_awake = conn;
    net->last_awake = &conn->next;
}

/* Makes a connection with the addresses and ports of `key`, which has none yet; NULL where no memory is left. */
static struct conn *conn_new(struct usernet *net, const struct pair *key, int socket, uint32_t capacity)
{
    struct conn *conn = malloc(sizeof *conn);
    if (!conn)
        return NULL;
    *conn = (struct conn){.pair = *key, .socket = socket, .capacity = capacity};
    pairs_add(&net->pairs, &conn->pair);
    v6_hold(net, &conn->pair, 1);
    limits_enter(net, conn);
    return conn;
}

/* Closes a socket of the host's, whose other side gets a reset where `resets`. */
static void close_socket(int socket, int resets)
{
    if (resets)
        setsockopt(socket, SOL_SOCKET, SO_LINGER, &(struct linger){.l_onoff = 1}, sizeof(struct linger));
    close(socket);
}

/* About how much of its memory an end has touched: what went through its two buffers, and some pages for itself. */
static uint64_t touched(const struct conn *conn)
{
    uint64_t most = 2 * (uint64_t)conn->capacity;
    return OWN_PAGES + (conn->end->carried < most ? conn->end->carried : most);
}

/* It is freed by free_dropped. */
static void free_later(struct usernet *net, struct conn *conn)
{
    conn->next = net->dropped;
    net->dropped = conn;
}

/* An event of this turn may be its own, so that it stays where it is; and where it is awake it is still among those that are. */
void drop(struct usernet *net, struct conn *conn, int resets)
{
    limits_leave(net, conn);
    v6_hold(net, &conn->pair, -1);
    if (conn->socket >= 0)
        close_socket(conn->socket, resets);
    if (conn->is_open) {
        net->used_up += touched(conn);
        ends_remove(net, conn);
    } else {
        pairs_remove(&net->pairs, &conn->pair);
        free(conn->syn);
        conn->syn = NULL;
    }
    conn->socket = -1;
    conn->is_dropped = 1;
    if (!conn->is_awake)
        free_later(net, conn);
}

void free_dropped(struct usernet *net)
{
    while (net->dropped) {
        struct conn *conn = net->dropped;
        net->dropped = conn->next;
        free(conn);
    }
    if (net->used_up >= GIVEN_BACK) {
        malloc_trim(0);
        net->used_up = 0;
    }
}

void cut(struct usernet *net, struct conn *conn)
{
    if (conn->is_open && tcpcore_host_abort(&net->ends, time_of(net), &conn->end->id) == TCPCORE_DONE)
        ends_emit(net, conn, 0);
    drop(net, conn, 1);
}

/* Whether what came is a segment (RFC 9293, 3.1), of whichever connection. */
static int is_segment(struct usernet *net, const struct ip_packet *packet, int vouched)
{
    uint32_t answer = (vouched ? tcpcore_arrive_vouched : tcpcore_arrive)(&net->reader, packet->src, packet->dst, packet->segment,
                                                                          packet->length);
    return answer < TCPCORE_TOO_SHORT || answer > TCPCORE_BAD_PADDING;
}

/* Answers a segment for which there is no end (RFC 9293, 3.10.7.1). Its checksum is looked at: one that was left out is made. */
static void stray(struct usernet *net, const struct ip_packet *from, int vouched)
{
    const uint8_t *bytes = from->segment;
    size_t length;
    if (vouched) {
        memcpy(net->text, bytes, from->length);
        trains_sum(net->text, from->length, from->src, from->dst);
        bytes = net->text;
    }
    if (tcpcore_stray_reset(from->src, from->dst, bytes, from->length, segment_place(net), TCPCORE_RESET_ROOM, &length) !=
        TCPCORE_DONE || !limits_answer(net))
        return;
    send_segment(net, length, from->dst, from->src, 0);
    count(net, STRAYS, 1);
}

/* Nobody answers on the host's side: the client is told by ICMP that there is no way to there, or else by a reset. */
static void refuse(struct usernet *net, const struct ip_packet *syn, int vouched, int fault)
{
    struct pair key = {.client = syn->src, .server = syn->dst};
    count(net, REFUSED, 1);
    if (fault == EHOSTUNREACH || fault == ENETUNREACH || fault == ETIMEDOUT || fault == EHOSTDOWN)
        report_unreachable(net, &key, IP_TCP, syn->segment, fault);
    else
        stray(net, syn, vouched);
}

static int watch(struct usernet *net, struct conn *conn)
{
    struct epoll_event event = {.events = EPOLLIN | EPOLLOUT | EPOLLRDHUP | EPOLLET, .data.ptr = conn};
    setsockopt(conn->socket, IPPROTO_TCP, TCP_NODELAY, &(int){1}, sizeof(int));
    setsockopt(conn->socket, SOL_SOCKET, SO_KEEPALIVE, &(int){1}, sizeof(int));
    return epoll_ctl(net->events, EPOLL_CTL_ADD, conn->socket, &event) == 0;
}

/* The connection gets an end, which calls the client or takes its SYN, and leaves the table; whether it did. */
static int make_end(struct usernet *net, struct conn *conn)
{
    if (!ends_make(net, conn))
        return 0;
    pairs_remove(&net->pairs, &conn->pair);
    return 1;
}

/* The host's socket answered: the namespace sees ESTABLISHED, or a reset. Whether there is an end now. */
static int host_answered(struct usernet *net, struct conn *conn)
{
    int fault = 0;
    getsockopt(conn->socket, SOL_SOCKET, SO_ERROR, &fault, &(socklen_t){sizeof fault});
    if (fault == 0 && conn->can_write && make_end(net, conn)) {
        count(net, OPENED, 1);
        return 1;
    }
    refuse(net, &(struct ip_packet){conn->pair.client, conn->pair.server, conn->syn, header_of(conn->syn)}, 0, fault);
    drop(net, conn, 1);
    return 0;
}

/* The header of a SYN is kept, summed; whether there is memory for it. */
static int keep_syn(struct conn *conn, const struct ip_packet *packet)
{
    size_t length = header_of(packet->segment);
    conn->first = read32(packet->segment + AT_SEQ);
    conn->syn = malloc(length);
    if (!conn->syn)
        return 0;
    memcpy(conn->syn, packet->segment, length);
    trains_sum(conn->syn, length, packet->src, packet->dst);
    return 1;
}

/* A SYN came: the host connects to the same address and port, and its header is kept until it has; text comes again. Where a limit is
   reached, or the system lacks something, the SYN is dropped: it comes again, too. */
static void open_conn(struct usernet *net, const struct pair *key, const struct ip_packet *packet, int vouched)
{
    uint32_t capacity = limits_admit(net, key);
    count(net, FULL, capacity == 0);
    union place place;
    int host = capacity && host_place(net, key->server, key->server_port, &place) ? host_socket(net, &place, SOCK_STREAM, 0) : -1, fault = errno;
    struct conn *conn = host >= 0 ? conn_new(net, key, host, capacity) : NULL;
    if (conn) {
        if (keep_syn(conn, packet) && watch(net, conn))
            return;
        drop(net, conn, 1);
    } else if (host >= 0) {
        close(host);
    } else if (capacity && !is_exhausted(fault)) {
        refuse(net, packet, vouched, fault);
        return;
    }
    count(net, EXHAUSTED, capacity > 0);
}

void conn_publish(struct usernet *net, int socket, const struct published *published)
{
    struct pair key = {.client = published->guest, .client_port = published->guest_port, .server = net->gateway};
    uint32_t capacity = ports_deal(net, &net->pairs, &key) ? limits_admit(net, &key) : 0;
    struct conn *conn = capacity ? conn_new(net, &key, socket, capacity) : NULL;
    count(net, FULL, capacity == 0);
    if (conn && make_end(net, conn) && watch(net, conn)) {
        count(net, PUBLISHED, 1);
        wake(net, conn);
        return;
    }
    count(net, EXHAUSTED, capacity > 0);
    if (conn)
        drop(net, conn, 1);
    else
        close_socket(socket, 1);
}

/* Whether a SYN may open anew what is in TIME-WAIT: its number lies behind all that came (RFC 9293, 3.10.7.4). */
static int reopens(const struct usernet *net, const struct conn *conn, const uint8_t *bytes)
{
    struct tcpcore_status status = ends_status(net, conn);
    uint32_t after = read32(bytes + AT_SEQ) - (conn->first + (uint32_t)status.rcv_position);
    return status.phase == TCPCORE_PHASE_TIME_WAIT && after < UINT32_C(1) << 31;
}

/* Whether this answers what was no segment (RFC 9293, 3.1). */
static int is_malformed(uint32_t answer) { return answer >= TCPCORE_TOO_SHORT && answer <= TCPCORE_BAD_PADDING; }

/* A connection's end has answered a segment. */
static void taken(struct usernet *net, struct conn *conn, uint32_t answer, const struct tcpcore_arrive_report *report)
{
    if (report->rule == TCPCORE_RULE_NONE) {
        count(net, MALFORMED, is_malformed(answer) != 0);
        return;
    }
    limits_touch(net, conn);
    if (report->at_once)
        ends_emit(net, conn, answer == TCPCORE_DROPPED); /* out of order, or a gap was filled (RFC 5681, 4.2) */
    wake(net, conn);
}

/* The addresses and ports of a segment. */
static struct pair key_of(const struct ip_packet *packet)
{
    return (struct pair){packet->src, packet->dst, read16(packet->segment), read16(packet->segment + 2), NULL};
}

/* A segment for which there is no end. */
static void arrive_early(struct usernet *net, const struct ip_packet *packet, int vouched)
{
    const uint8_t *bytes = packet->segment;
    struct pair key = key_of(packet);
    struct conn *conn = conn_of(pairs_find(&net->pairs, &key));
    if (!is_segment(net, packet, vouched))
        count(net, MALFORMED, 1);
    else if (!conn && bits_of(bytes, SYN | ACK | RST | FIN) == SYN)
        open_conn(net, &key, packet, vouched);
    else if (!conn)
        stray(net, packet, vouched);
    else if (bits_of(bytes, RST) && read32(bytes + AT_SEQ) == conn->first + 1)
        drop(net, conn, 1); /* the client doesn't wait for the host any longer */
}

void arrive(struct usernet *net, const struct ip_packet *packet, int vouched)
{
    const uint8_t *bytes = packet->segment;
    struct tcpcore_host_arrived arrived;
    struct tcpcore_arrive_report report;
    uint32_t answer = (vouched ? tcpcore_host_arrive_vouched : tcpcore_host_arrive)(&net->ends, time_of(net), packet->src, packet->dst, bytes,
                                                                                    packet->length, &arrived, &report);
    if (arrived.place != TCPCORE_PLACE_END) {
        arrive_early(net, packet, vouched);
        return;
    }
    struct conn *conn = net->owners[arrived.id.slot];
    if (bits_of(bytes, SYN | ACK | RST | FIN) == SYN && !is_malformed(answer) && reopens(net, conn, bytes)) {
        struct pair key = key_of(packet);
        drop(net, conn, 0);
        open_conn(net, &key, packet, vouched);
        return;
    }
    taken(net, conn, answer, &report);
}

void conn_error(struct usernet *net, const struct icmp_error *error)
{
    struct pair key = {error->dst, error->src, error->dst_port, error->src_port, NULL};
    struct conn *conn = error->protocol == IP_TCP ? ends_find(net, &key) : NULL;
    if (!conn)
        return;
    struct tcpcore_status status = ends_status(net, conn);
    int found = path_error(&conn->end->path, &status, error, net->now);
    count(net, ERRORS, found != PATH_NOTHING);
    count(net, NARROWED, found == PATH_NARROWER);
    if (found == PATH_HARD)
        tcpcore_host_abort(&net->ends, time_of(net), &conn->end->id);
    else if (found == PATH_NARROWER)
        tcpcore_host_resend_first(&net->ends, time_of(net), &conn->end->id);
    wake(net, conn);
}

/* Hears what SND.UNA and an expiry say of the path, and emits all that is due. */
static void follow_path(struct usernet *net, struct conn *conn, uint64_t una, int is_resent)
{
    count(net, NARROWED, (uint64_t)path_run(&conn->end->path, una, is_resent, net->now));
    ends_emit(net, conn, 0);
}

/* Text goes both ways, from the handshake on; 0 where the connection can't go on. */
static int carries(struct usernet *net, struct conn *conn, const struct tcpcore_status *status)
{
    return conn->socket < 0 || status->phase < TCPCORE_PHASE_ESTABLISHED ||
           (carry_up(net, conn, status->rcv_position) && carry_down(net, conn, (size_t)status->room));
}

/* Looks at one connection: both ways, what is due, and whether it has ended. */
static void turn(struct usernet *net, struct conn *conn)
{
    if (!conn->is_open && !host_answered(net, conn))
        return;
    struct tcpcore_status status = ends_status(net, conn);
    int goes_on = carries(net, conn, &status);
    if (!goes_on)
        tcpcore_host_abort(&net->ends, time_of(net), &conn->end->id);
    follow_path(net, conn, status.snd_una, 0);
    if (!goes_on || conn->host_done || status.phase != TCPCORE_PHASE_ESTABLISHED) /* else it is there still */
        status = ends_status(net, conn);
    int is_orderly = status.ending == TCPCORE_ENDING_ORDERLY;
    if (is_orderly && conn->socket >= 0)
        carry_up(net, conn, status.rcv_position); /* what came with the last acknowledgement */
    if (conn->host_done && conn->client_done && conn->socket >= 0)
        close(conn->socket), conn->socket = -1;
    limits_follow(net, conn, status.phase);
    if (status.phase == TCPCORE_PHASE_CLOSED && (!is_orderly || conn->socket < 0))
        drop(net, conn, !is_orderly);
}

/* Those that are awake are looked at. */
static void turn_awake(struct usernet *net)
{
    struct conn *conn;
    while ((conn = net->awake)) {
        net->awake = conn->next;
        if (!net->awake)
            net->last_awake = &net->awake;
        conn->is_awake = 0;
        if (conn->is_dropped)
            free_later(net, conn);
        else
            turn(net, conn);
    }
}

/* Then those whose time has come emit what is due, and are looked at. Nothing that was due behind a timer is left, so that what arrives is never
   to wait for it (TCPCORE_EMIT_FIRST). */
void turn_all(struct usernet *net)
{
    struct tcpcore_host_told told;
    turn_awake(net);
    while (tcpcore_host_timeout(&net->ends, time_of(net), &told) == TCPCORE_DONE) {
        struct conn *conn = net->owners[told.id.slot];
        count(net, ABANDONED, told.timer == TCPCORE_TIMER_USER);
        follow_path(net, conn, ends_status(net, conn).snd_una, told.timer == TCPCORE_TIMER_RETRANSMIT);
        wake(net, conn);
    }
    turn_awake(net);
}

int turn_wait(const struct usernet *net)
{
    uint64_t at, now = time_of(net);
    if (net->awake || tcpcore_host_poll_at(&net->ends, &at) != TCPCORE_DONE || at <= now)
        return 0;
    return (at - now) / 1000 < LONGEST_WAIT ? (int)((at - now + 999) / 1000) : LONGEST_WAIT;
}

static void cut_all(struct usernet *net, const struct queue *queue)
{
    while (queue->oldest)
        cut(net, conn_of_order(queue->oldest));
}

void end_all(struct usernet *net)
{
    cut_all(net, &net->half_open);
    cut_all(net, &net->active);
    cut_all(net, &net->resting);
    turn_awake(net);
    free_dropped(net);
    ends_free(net);
}
