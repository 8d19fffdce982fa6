/*
 * Our stack (see child.h): a host, whose connections have CUBIC's window, losses found by time and a policy, as the examples of c/tcpcore
 * have them, and keep-alives where they are wished for. What the library leaves to its caller is done here: initial numbers, an address that
 * no peer has is refused, and a user that leaves with bytes unread aborts (RFC 9293, 3.6.1).
 */
#define _GNU_SOURCE
#include "child.h"

#include "ip.h"
#include "secret.h"
#include "segment.h"

#include <stdlib.h>
#include <string.h>
#include <unistd.h>

#ifndef TCPCORE_HAS_HOSTS
#error "there are no hosts here, only in machine code: see HOSTS in tcpcore.h"
#endif

/* Of all listeners together so many connections have no handle yet; TIME-WAIT leaves so many records. */
enum { SEND = 262144, RECEIVE = 131072, BACKLOG = 8, PLACES = HANDLES + LISTENERS * BACKLOG, RECORDS = 1024, WAITING = 1 << 18 };

/* The clock stands still between the tester's calls: no stray is the second one in an interval. */
enum { MILLISECOND = 1000, STRAY_INTERVAL = 0 };

const unsigned stack_step = 100;

/* The stack's, or where TCPTEST_ADDRESS is set that of the tester, whose partner in a transfer this is. */
static struct ip_net OWN = {{{10, 9, 0, 1}}, 24};

/* A connection, and what its user has of it. */
static struct handle {
    struct tcpcore_host_id id;
    void *block, *recovery;
    uint8_t *rest;   /* once it is out of the host, as `has_gone` says: what was unread, */
    size_t length;   /* so many bytes, */
    uint32_t ending; /* and how it ended */
    uint16_t port;
    uint8_t is_used, is_open, is_given; /* its handshake is over; it is the user's */
    uint8_t has_left, closes, has_gone;
    size_t waits; /* bytes of its `waiting` */
} handles[PLACES], *by_slot[PLACES];

/* What users have sent, and their connections haven't taken yet; then comes the close, if `closes`. */
static uint8_t waiting[PLACES][WAITING];

static struct listener {
    struct tcpcore_host_id id;
    tcpcore_config config;
    struct wishes wishes;
} listeners[LISTENERS];
static int listener_count;

static tcpcore_host host;
static unsigned char tables[TCPCORE_HOST_MEMORY(PLACES, RECORDS, LISTENERS, LISTENERS * BACKLOG)];
static size_t records;
static uint8_t secret[16];

/* The host's times are microseconds. */
static uint64_t time_now(void) { return MILLISECOND * now; }

static void send_segment(const void *segment, size_t length, tcpcore_addr to)
{
    uint8_t packet[IP_HEADER + TCPCORE_EMIT_ROOM];
    size_t total = ip_write(packet, OWN.addr, to, length);
    memcpy(packet + IP_HEADER, segment, length);
    child_leave(packet, total);
}

static struct handle *new_handle(uint16_t port)
{
    for (int at = 0; at < PLACES; at++)
        if (!handles[at].is_used) {
            handles[at] = (struct handle){.is_used = 1, .port = port};
            return &handles[at];
        }
    return NULL;
}

/* Its status, while it is in the host. Whether it is. */
static int status_of(const struct handle *handle, struct tcpcore_status *status)
{
    return handle->is_used && !handle->has_gone && tcpcore_host_status(&host, &handle->id, status) == TCPCORE_DONE;
}

/* What a handle's connection lay in is free. Who has none in the hand has nothing to ask for. */
static void release(struct handle *handle, tcpcore_connection *connection)
{
    tcpcore_connection_free(connection);
    free(handle->block);
    free(handle->recovery);
    handle->block = handle->recovery = NULL;
    handle->has_gone = 1;
    handle->is_used = handle->is_given;
}

/* Its connection leaves the host without a trace. */
static void leave(struct handle *handle)
{
    tcpcore_connection connection = TCPCORE_CONNECTION_INIT;
    tcpcore_host_remove(&host, &handle->id, &connection);
    release(handle, &connection);
}

/* One that has nothing to send leaves the host if it is done, in TIME-WAIT behind a record: what its user may still ask for is kept. One
   that still listens was none: its SYN had a fault. */
static void settle(struct handle *handle)
{
    tcpcore_connection connection = TCPCORE_CONNECTION_INIT;
    struct tcpcore_status status;
    if (!status_of(handle, &status))
        return;
    uint32_t answer = records < RECORDS ? tcpcore_host_retire(&host, &handle->id, &connection) : TCPCORE_NO_MEMORY;
    if (answer == TCPCORE_DONE) {
        records++;
        handle->ending = TCPCORE_ENDING_ORDERLY;
        release(handle, &connection);
    } else if (status.phase == TCPCORE_PHASE_CLOSED || status.phase == TCPCORE_PHASE_LISTEN) {
        handle->ending = status.ending;
        handle->rest = malloc(status.unread + 1);
        if (!handle->rest)
            return;
        tcpcore_host_receive(&host, time_now(), &handle->id, handle->rest, status.unread, &handle->length);
        leave(handle);
    }
}

/* Sends all that may go out. */
static void emit(void)
{
    uint8_t segment[TCPCORE_EMIT_ROOM];
    struct tcpcore_host_sent sent;
    uint32_t answer;
    while ((answer = tcpcore_host_emit(&host, time_now(), UINT64_MAX, segment, sizeof segment, &sent)) != TCPCORE_NOBODY) {
        struct handle *handle = sent.place == TCPCORE_PLACE_END ? by_slot[sent.id.slot] : NULL;
        if (answer == TCPCORE_NOT_DUE && handle)
            settle(handle);
        if (answer == TCPCORE_DONE)
            send_segment(segment, (size_t)sent.length, sent.to);
    }
}

/* Offers what waits, and closes behind it. What comes to a user who has left is passed over. */
static void offer(struct handle *handle)
{
    uint8_t none[4096];
    uint8_t *text = waiting[handle - handles];
    size_t taken = 0;
    if (handle->has_gone)
        return;
    if (handle->waits > 0 && tcpcore_host_send(&host, time_now(), &handle->id, text, handle->waits, &taken) == TCPCORE_DONE)
        memmove(text, text + taken, handle->waits -= taken);
    if (handle->closes && handle->waits == 0) {
        tcpcore_host_close(&host, time_now(), &handle->id);
        handle->closes = 0;
    }
    while (handle->has_left && tcpcore_host_receive(&host, time_now(), &handle->id, none, sizeof none, &taken) == TCPCORE_DONE)
        continue;
}

void stack_begin(void)
{
    tcpcore_host_free(&host);
    for (int at = 0; at < PLACES; at++) {
        free(handles[at].block);
        free(handles[at].recovery);
        free(handles[at].rest);
    }
    memset(handles, 0, sizeof handles);
    listener_count = 0;
    records = 0;
    OWN.addr.byte[3] = getenv("TCPTEST_ADDRESS") ? 2 : 1;
    struct tcpcore_connection_rules rules = TCPCORE_CONNECTION_RULES_DEFAULT;
    if (getentropy(secret, sizeof secret) < 0 || tcpcore_host_new(&host, rules.time_wait, STRAY_INTERVAL, tables, sizeof tables) != TCPCORE_DONE)
        abort();
}

static tcpcore_config config_of(uint16_t port, const struct wishes *wishes)
{
    tcpcore_config config = TCPCORE_CONFIG_DEFAULT;
    config.addr = OWN.addr;
    config.port = port;
    config.send_capacity = SEND;
    config.recv_capacity = wishes->capacity > 0 ? wishes->capacity : RECEIVE;
    config.window_shift = TCPCORE_LEAST_SHIFT(config.recv_capacity);
    config.scales = 1;
    return config;
}

/* Where no times are wished for keep-alives have the library's; where none are wished for they are off. */
static struct tcpcore_keep_alive keep_of(const struct wishes *wishes)
{
    struct tcpcore_keep_alive rules = TCPCORE_KEEP_ALIVE_DEFAULT;
    if (!wishes->keeps)
        rules.idle = 0;
    else if (wishes->interval > 0) {
        rules.idle = (uint64_t)MILLISECOND * wishes->idle;
        rules.interval = (uint64_t)MILLISECOND * wishes->interval;
    }
    return rules;
}

/* Whether this can be wished: `ip` writes the header of IPv4. */
static int can_be(const struct wishes *wishes) { return wishes->ttl < 0 && wishes->service < 0; }

/* A connection in memory of its own, with all that is chosen for it, which connects to this peer, or listens where its port is 0. Whether
   there is one. */
static int make(struct handle *handle, tcpcore_connection *connection, tcpcore_config *config, tcpcore_addr peer, uint16_t to,
                const struct wishes *wishes)
{
    struct tcpcore_connection_rules rules = TCPCORE_CONNECTION_RULES_DEFAULT;
    struct tcpcore_policy policy = TCPCORE_POLICY_DEFAULT;
    struct tcpcore_keep_alive keep = keep_of(wishes);
    size_t room = tcpcore_connection_room(config);
    policy.nagle = wishes->nagle > 0;
    handle->block = malloc(room);
    handle->recovery = malloc(TCPCORE_RECOVERY_MEMORY);
    uint32_t answer = to > 0 ? tcpcore_connection_connect(connection, config, &rules, peer, to, time_now(), handle->block, room)
                             : tcpcore_connection_listen(connection, config, &rules, time_now(), handle->block, room);
    return answer == TCPCORE_DONE && tcpcore_connection_set_congestion(connection, TCPCORE_CONGESTION_CUBIC) == TCPCORE_DONE &&
           tcpcore_connection_set_recovery(connection, time_now(), handle->recovery, TCPCORE_RECOVERY_MEMORY) == TCPCORE_DONE &&
           tcpcore_connection_set_policy(connection, &policy) == TCPCORE_DONE &&
           tcpcore_connection_set_keep_alive(connection, time_now(), &keep) == TCPCORE_DONE;
}

int stack_listen(uint16_t port, const struct wishes *wishes)
{
    struct listener *listener = &listeners[listener_count];
    if (listener_count == LISTENERS || !can_be(wishes))
        return 0;
    *listener = (struct listener){.config = config_of(port, wishes), .wishes = *wishes};
    return tcpcore_host_listen(&host, OWN.addr, port, BACKLOG, &listener->id) == TCPCORE_DONE ? ++listener_count : 0;
}

int stack_connect(uint16_t port, const uint8_t address[4], uint16_t to, const struct wishes *wishes)
{
    tcpcore_config config = config_of(port, wishes);
    tcpcore_connection connection = TCPCORE_CONNECTION_INIT;
    tcpcore_addr peer;
    memcpy(peer.byte, address, sizeof peer.byte);
    struct handle *handle = ip_may_be_peer(OWN, peer) ? new_handle(port) : NULL;
    if (!handle)
        return -1;
    config.isn = secret_isn(secret, OWN.addr, port, peer, to, time_now());
    if (!make(handle, &connection, &config, peer, to, wishes) || tcpcore_host_open(&host, &connection, &handle->id) != TCPCORE_DONE) {
        release(handle, &connection);
        return -1;
    }
    handle->is_open = handle->is_given = 1;
    by_slot[handle->id.slot] = handle;
    return (int)(handle - handles);
}

int stack_accept(uint16_t port)
{
    struct handle *first = NULL;
    for (int at = 0; at < PLACES; at++)
        if (handles[at].is_used && handles[at].is_open && !handles[at].is_given && handles[at].port == port &&
            (!first || handles[at].id.number < first->id.number))
            first = &handles[at];
    if (!first)
        return -1;
    first->is_given = 1;
    return (int)(first - handles);
}

static long fault_of(uint32_t ending)
{
    return ending == TCPCORE_ENDING_RESET ? STACK_RESET : ending == TCPCORE_ENDING_ABORTED ? STACK_TIMED_OUT : STACK_ENDED;
}

long stack_send(int number, const void *text, size_t length)
{
    struct handle *handle = &handles[number];
    struct tcpcore_status status;
    size_t room = WAITING - handle->waits, taken = length < room ? length : room;
    if (!status_of(handle, &status) || status.ending != TCPCORE_ENDING_NOT_ENDED)
        return STACK_RESET;
    memcpy(waiting[number] + handle->waits, text, taken);
    handle->waits += taken;
    offer(handle);
    return (long)taken;
}

static long receive_rest(struct handle *handle, void *out, size_t room)
{
    size_t count = room < handle->length ? room : handle->length;
    if (count == 0)
        return fault_of(handle->ending);
    memcpy(out, handle->rest, count);
    memmove(handle->rest, handle->rest + count, handle->length -= count);
    return (long)count;
}

long stack_receive(int number, void *out, size_t room)
{
    struct handle *handle = &handles[number];
    struct tcpcore_status status;
    size_t count;
    if (handle->has_gone)
        return receive_rest(handle, out, room);
    uint32_t answer = tcpcore_host_receive(&host, time_now(), &handle->id, out, room, &count);
    if (answer == TCPCORE_DONE)
        return (long)count;
    if (answer == TCPCORE_NOTHING)
        return STACK_NOTHING;
    return answer == TCPCORE_END_OF_STREAM || !status_of(handle, &status) ? STACK_ENDED : fault_of(status.ending);
}

int stack_is_open(int number)
{
    struct tcpcore_status status;
    return status_of(&handles[number], &status) && status.phase == TCPCORE_PHASE_ESTABLISHED;
}

void stack_close(int number)
{
    handles[number].closes = 1;
    offer(&handles[number]);
}

void stack_abort(int number)
{
    if (!handles[number].has_gone)
        tcpcore_host_abort(&host, time_now(), &handles[number].id);
}

void stack_leave(int number)
{
    struct handle *handle = &handles[number];
    struct tcpcore_status status;
    if (!status_of(handle, &status))
        return;
    handle->has_left = 1;
    if (status.unread > 0)
        stack_abort(number);
    else
        stack_close(number);
}

int stack_wish(int number, const struct wishes *wishes)
{
    struct tcpcore_keep_alive keep = keep_of(wishes);
    if (!wishes->keeps || !can_be(wishes) || wishes->nagle >= 0 || wishes->capacity > 0 || handles[number].has_gone)
        return 0;
    return tcpcore_host_set_keep_alive(&host, time_now(), &handles[number].id, &keep) == TCPCORE_DONE;
}

/* The listener of a segment's port. */
static struct listener *listener_of(const struct ip_packet *packet)
{
    struct listener *listener = listeners;
    while (listener->config.port != read16(packet->segment + 2))
        listener++;
    return listener;
}

/* Where the backlog is full the oldest handshake makes way (RFC 4987, 3.4). */
static void make_way(uint16_t port)
{
    struct handle *oldest = NULL;
    for (struct handle *handle = handles; handle < handles + PLACES; handle++)
        if (handle->is_used && !handle->is_open && handle->port == port && (!oldest || handle->id.number < oldest->id.number))
            oldest = handle;
    if (oldest)
        leave(oldest);
}

/* A connection for a peer that asks for one. Whether there is one. */
static int admit(const struct ip_packet *packet)
{
    struct listener *listener = listener_of(packet);
    tcpcore_config config = listener->config;
    tcpcore_connection connection = TCPCORE_CONNECTION_INIT;
    struct handle *handle = new_handle(config.port);
    if (!handle)
        return 0;
    config.isn = secret_isn(secret, OWN.addr, config.port, packet->src, read16(packet->segment), time_now());
    if (!make(handle, &connection, &config, packet->src, 0, &listener->wishes) ||
        tcpcore_host_admit(&host, &listener->id, &connection, packet->src, packet->dst, packet->segment, packet->length, &handle->id) !=
            TCPCORE_DONE) {
        release(handle, &connection);
        return 0;
    }
    by_slot[handle->id.slot] = handle;
    return 1;
}

/* Those whose handshake is over wait for their users. */
static void accept_all(void)
{
    struct tcpcore_host_id id;
    for (int at = 0; at < listener_count; at++)
        while (tcpcore_host_accept(&host, &listeners[at].id, &id) == TCPCORE_DONE)
            by_slot[id.slot]->is_open = 1;
}

/* A segment that is nobody's may be answered by a reset. */
static void refuse(const struct ip_packet *packet)
{
    uint8_t reset[TCPCORE_RESET_ROOM];
    size_t length;
    if (tcpcore_host_stray(&host, time_now(), packet->src, packet->dst, packet->segment, packet->length, reset, sizeof reset, &length) ==
        TCPCORE_DONE)
        send_segment(reset, length, packet->src);
}

void stack_arrive(const uint8_t *bytes, size_t length)
{
    struct ip_packet packet;
    struct tcpcore_host_arrived at;
    struct tcpcore_arrive_report report;
    uint32_t answer;
    int is_again;
    if (ip_read(OWN, bytes, length, &packet) != IP_DONE || packet.length < SEGMENT_HEADER)
        return;
    do {
        answer = tcpcore_host_arrive(&host, time_now(), packet.src, packet.dst, packet.segment, packet.length, &at, &report);
        if (answer == TCPCORE_EMIT_FIRST)
            emit();
        if (at.place == TCPCORE_PLACE_FULL)
            make_way(read16(packet.segment + 2));
        is_again = answer == TCPCORE_EMIT_FIRST ||
                   ((at.place == TCPCORE_PLACE_LISTENER || at.place == TCPCORE_PLACE_FULL) && admit(&packet));
    } while (is_again);
    if (at.place == TCPCORE_PLACE_STRAY)
        refuse(&packet);
    if (at.place == TCPCORE_PLACE_END) {
        accept_all();
        offer(by_slot[at.id.slot]);
    }
    if (report.at_once)
        emit();
}

void stack_turn(void)
{
    struct tcpcore_host_told told;
    while (tcpcore_host_timeout(&host, time_now(), &told) == TCPCORE_DONE)
        records -= told.place == TCPCORE_PLACE_RECORD;
    for (struct handle *handle = handles; handle < handles + PLACES; handle++)
        if (handle->is_used)
            offer(handle);
    emit();
}
