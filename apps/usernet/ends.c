/* The ends of the connections, all of them in one host (see usernet.h). C over tcpcore.h and its companions, tested and not proved. */
#include "usernet.h"
#include "companions/segment.h"

#include <stdlib.h>
#include <string.h>

/* The times of an end, in microseconds: those of the standards, but for the least timeout, TIME-WAIT, and a user timeout as long as Linux's.
   An end that a client calls is given a minute for the handshake, and one that calls a client three. */
#define RULES(limit) {.first = 1000000, .least = 200000, .greatest = 60000000, .granularity = 1000, .after_syn = 3000000, .time_wait = 2000000, \
                      .handshake = (limit), .user = 924600000, .fin_wait_2 = TCPCORE_NEVER, .suspect_after = 3, .guard = TCPCORE_GUARD}
static const struct tcpcore_connection_rules CALLED = RULES(60000000), CALLING = RULES(180000000);

int ends_init(struct usernet *net)
{
    size_t room = TCPCORE_HOST_MEMORY(net->limits.connections, 0, 0, 0);
    net->tables = malloc(room);
    net->owners = calloc(net->limits.connections, sizeof(struct conn *));
    net->ends = (tcpcore_host)TCPCORE_HOST_INIT;
    return net->tables && net->owners && tcpcore_host_new(&net->ends, 0, 0, net->tables, room) == TCPCORE_DONE;
}

void ends_free(struct usernet *net)
{
    tcpcore_host_free(&net->ends);
    free(net->tables);
    free(net->owners);
}

struct conn *ends_find(const struct usernet *net, const struct pair *key)
{
    struct tcpcore_host_id id;
    uint32_t answer = tcpcore_host_find(&net->ends, key->server, key->server_port, key->client, key->client_port, &id);
    return answer == TCPCORE_DONE ? net->owners[id.slot] : NULL;
}

struct tcpcore_status ends_status(const struct usernet *net, const struct conn *conn)
{
    struct tcpcore_status status;
    tcpcore_host_status(&net->ends, &conn->end->id, &status);
    return status;
}

/* The right edge of the window that the end would advertise. */
static uint64_t edge_of(const struct usernet *net, const struct conn *conn)
{
    struct tcpcore_status status = ends_status(net, conn);
    return status.rcv_position + status.rcv_wnd;
}

/* Whether a segment that was written goes out. What the end refuses brought it nothing: an answer to that which says once more what was
   said, or resets, goes out once in a while, whatever the refused segment had in it (RFC 5961, 7; the end's own limit is on answers to
   segments without text). To the end what doesn't go out is lost. */
static int goes(struct usernet *net, struct conn *conn, size_t length, int is_refused)
{
    const uint8_t *segment = segment_place(net);
    struct end *end = conn->end;
    int is_said = bits_of(segment, RST) || (read32(segment + AT_ACK) == end->ack && read16(segment + AT_WINDOW) == end->window);
    if (!is_said)
        end->ack = read32(segment + AT_ACK), end->window = read16(segment + AT_WINDOW), end->edge = edge_of(net, conn);
    if (!is_refused || !is_said || length != header_of(segment) || bits_of(segment, SYN | FIN))
        return 1;
    if (net->now < end->quiet_until) {
        count(net, UNSAID, 1);
        return 0;
    }
    end->quiet_until = net->now + net->limits.quiet;
    return 1;
}

/* Sends a segment in pieces that the path takes. */
static void send_pieces(struct usernet *net, const struct conn *conn, size_t length)
{
    const struct pair *pair = &conn->pair;
    size_t from = 0, piece;
    memcpy(net->text, segment_place(net), length);
    while ((piece = path_piece(&conn->end->path, net->text, length, &from, segment_place(net), pair->server, pair->client)))
        send_segment(net, piece, pair->server, pair->client, conn->end->path.may_be_cut);
}

/* Emits the segment that is due, summed; whether there was one. */
static int emit_segment(struct usernet *net, struct conn *conn, int is_refused)
{
    struct tcpcore_connection_segment sent;
    if (tcpcore_host_emit_by_id(&net->ends, time_of(net), &conn->end->id, UINT64_MAX, segment_place(net), TCPCORE_EMIT_ROOM, &sent) != TCPCORE_DONE)
        return 0;
    if (!goes(net, conn, (size_t)sent.length, is_refused))
        return 1;
    size_t length = (size_t)sent.length, packet = IP_HEADER + length;
    path_sent(&conn->end->path, sent.position + sent.count, packet < conn->end->path.mtu ? packet : conn->end->path.mtu);
    if (packet <= conn->end->path.mtu)
        send_segment(net, length, conn->pair.server, sent.to, conn->end->path.may_be_cut);
    else
        send_pieces(net, conn, length);
    return 1;
}

/* The device cuts a train into segments that the path takes. */
static void fit(const struct path *path, struct tcpcore_train *train)
{
    size_t most = path_text(path, (size_t)train->header), text = (size_t)train->whole.count;
    if (text <= most || (train->segments > 1 && train->each <= most))
        return;
    train->each = most;
    train->segments = (text + most - 1) / most;
}

/* Emits as many segments as go together, which a device with offloads cuts and sums; whether there was any. */
static int emit_train(struct usernet *net, struct conn *conn, int is_refused)
{
    struct tcpcore_train train;
    if (tcpcore_host_emit_train(&net->ends, time_of(net), &conn->end->id, UINT64_MAX, segment_place(net), TCPCORE_TRAIN_ROOM, SIZE_MAX, &train) !=
        TCPCORE_DONE)
        return 0;
    if (!goes(net, conn, (size_t)train.whole.length, is_refused))
        return 1;
    fit(&conn->end->path, &train);
    uint64_t text = train.segments > 1 ? train.each : train.whole.count;
    path_sent(&conn->end->path, train.whole.position + train.whole.count, IP_HEADER + (size_t)(train.header + text));
    send_train(net, conn->pair.server, &train);
    return 1;
}

void ends_emit(struct usernet *net, struct conn *conn, int is_refused)
{
    while (net->offloads && !conn->end->path.may_be_cut ? emit_train(net, conn, is_refused) : emit_segment(net, conn, is_refused))
        ;
}

/* What an end is made of. */
static tcpcore_config config_of(const struct usernet *net, const struct conn *conn)
{
    uint32_t isn = (uint32_t)(250 * net->now + pairs_secret(&net->pairs, &conn->pair));
    uint16_t mss = (uint16_t)(net->mss - (ip6_is_surrogate(conn->pair.client) ? IP6_MORE : 0));
    return (tcpcore_config){.addr = conn->pair.server, .port = conn->pair.server_port, .mss = mss, .isn = isn,
                            .send_capacity = conn->capacity, .recv_capacity = conn->capacity, .limit = UINT64_C(1) << 62,
                            .window_shift = SHIFT, .scales = 1, .sack = 1, .runs = RUNS};
}

/* Makes an end in a block, which calls the client, or takes the client's SYN where there is one; whether it could. An acknowledgement waits for
   the rest of the batch that it came with, and for nothing else. Text doesn't wait: where it may, the last bytes of what is queued go apart from
   the train before. */
static int open_end(const struct usernet *net, const struct conn *conn, tcpcore_connection *end, const tcpcore_config *config, void *block,
                    size_t room)
{
    struct tcpcore_policy policy = {.override_timeout = TCPCORE_NEVER, .answer_interval = 1000 * net->limits.quiet};
    const struct pair *pair = &conn->pair;
    struct tcpcore_arrive_report taken;
    uint64_t now = time_of(net);
    uint32_t answer = conn->syn ? tcpcore_connection_listen(end, config, &CALLED, now, block, room)
                                : tcpcore_connection_connect(end, config, &CALLING, pair->client, pair->client_port, now, block, room);
    return answer == TCPCORE_DONE && tcpcore_connection_set_policy(end, &policy) == TCPCORE_DONE &&
           (!conn->syn || tcpcore_connection_arrive(end, now, pair->client, pair->server, conn->syn, header_of(conn->syn), &taken) == TCPCORE_DONE);
}

int ends_make(struct usernet *net, struct conn *conn)
{
    size_t room = TCPCORE_CONNECTION_MEMORY_RUNS(conn->capacity, conn->capacity, RUNS);
    tcpcore_connection connection = TCPCORE_CONNECTION_INIT;
    tcpcore_config config = config_of(net, conn);
    struct end *end = malloc(sizeof *end + room);
    if (!end)
        return 0;
    *end = (struct end){.ack = 0};
    path_init(&end->path, config.isn, config.mss + (uint32_t)HEADERS);
    if (!open_end(net, conn, &connection, &config, end->block, room) || tcpcore_host_open(&net->ends, &connection, &end->id) != TCPCORE_DONE) {
        tcpcore_connection_free(&connection);
        free(end);
        return 0;
    }
    net->owners[end->id.slot] = conn;
    free(conn->syn);
    conn->end = end, conn->is_open = 1;
    return 1;
}

void ends_remove(struct usernet *net, struct conn *conn)
{
    tcpcore_connection connection = TCPCORE_CONNECTION_INIT;
    net->owners[conn->end->id.slot] = NULL;
    tcpcore_host_remove(&net->ends, &conn->end->id, &connection);
    tcpcore_connection_free(&connection);
    free(conn->end);
    conn->end = NULL, conn->is_open = 0;
}
