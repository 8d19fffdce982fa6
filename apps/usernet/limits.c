/* What the namespace may hold at most (see usernet.h). C beside tcpcore.h, tested and not proved. */
#include "usernet.h"

#include <errno.h>

/* PARTS: a connection's two directions take at most one of so many parts of the memory that is left, so that there is some for the next
   one, with smaller windows. GRACE: for so many milliseconds a half-open connection makes way for no other: so each
   has the time of a handshake, and a flood of SYNs costs the host no more than so many connections in that time. IDLE: the same of one
   that is established and of whose client nothing comes. */
enum { PARTS = 1024, GRACE = 1000, IDLE = 10000 };

void queue_leave(struct link *link)
{
    struct queue *queue = link->queue;
    if (!queue)
        return;
    *(link->older ? &link->older->newer : &queue->oldest) = link->newer;
    *(link->newer ? &link->newer->older : &queue->newest) = link->older;
    queue->count--;
    *link = (struct link){0};
}

void queue_add(struct queue *queue, struct link *link)
{
    queue_leave(link);
    *link = (struct link){.older = queue->newest, .queue = queue};
    *(queue->newest ? &queue->newest->newer : &queue->oldest) = link;
    queue->newest = link;
    queue->count++;
}

struct conn *conn_of_order(struct link *link)
{
    return (struct conn *)(void *)((char *)link - offsetof(struct conn, order));
}

static struct conn *conn_of_place(struct link *link)
{
    return (struct conn *)(void *)((char *)link - offsetof(struct conn, place));
}

/* Those half-open to one address and port, and to few others. */
static struct queue *place_of(struct usernet *net, const struct pair *pair)
{
    struct pair key = {.server = pair->server, .server_port = pair->server_port};
    return &net->places[(pairs_secret(&net->pairs, &key) >> 32) % PLACES];
}

/* The oldest of a queue makes way for a newer one (RFC 4987, 3.4), where it has been there for long enough; whether it did. */
static int oldest_goes(struct usernet *net, const struct queue *queue, uint64_t age, struct conn *(*conn_of)(struct link *))
{
    struct conn *oldest = queue->oldest ? conn_of(queue->oldest) : NULL;
    if (!oldest || net->now - oldest->since < age)
        return 0;
    cut(net, oldest);
    count(net, RECYCLED, 1);
    return 1;
}

/* Whether one more may be half-open, of all or to one destination. */
static int has_place(struct usernet *net, const struct queue *queue, uint64_t limit, struct conn *(*conn_of)(struct link *))
{
    return queue->count < limit || oldest_goes(net, queue, GRACE, conn_of);
}

static uint64_t room_of(uint32_t capacity)
{
    uint64_t in_host = TCPCORE_HOST_MEMORY(1, 0, 0, 0) - TCPCORE_HOST_MEMORY(0, 0, 0, 0) + sizeof(struct conn *);
    return TCPCORE_CONNECTION_MEMORY_RUNS(capacity, capacity, RUNS) + sizeof(struct end) + sizeof(struct conn) + in_host;
}

/* What a new connection would keep for each direction. */
static uint32_t capacity_now(const struct usernet *net)
{
    uint64_t left = net->limits.memory - net->reserved;
    uint32_t capacity = CAPACITY;
    while (capacity > LEAST_CAPACITY && room_of(capacity) > left / PARTS)
        capacity /= 2;
    return room_of(capacity) <= left ? capacity : 0;
}

/* Whether there may be one more connection, of whatever kind. */
static int has_room(struct usernet *net)
{
    uint64_t most = net->limits.connections;
    while (net->resting.count > 0 && (net->connections >= most || capacity_now(net) < CAPACITY))
        drop(net, conn_of_order(net->resting.oldest), 0);
    return (net->connections < most && capacity_now(net) > 0) || oldest_goes(net, &net->half_open, GRACE, conn_of_order) ||
           oldest_goes(net, &net->active, IDLE, conn_of_order);
}

uint32_t limits_admit(struct usernet *net, const struct pair *key)
{
    const struct limits *limits = &net->limits;
    int may_be = has_place(net, place_of(net, key), limits->each, conn_of_place) &&
                 has_place(net, &net->half_open, limits->half_open, conn_of_order) && has_room(net);
    return may_be ? capacity_now(net) : 0;
}

void limits_enter(struct usernet *net, struct conn *conn)
{
    conn->since = net->now;
    net->connections++;
    net->most = net->connections > net->most ? net->connections : net->most;
    queue_add(&net->half_open, &conn->order);
    queue_add(place_of(net, &conn->pair), &conn->place);
    net->reserved += room_of(conn->capacity);
}

void limits_follow(struct usernet *net, struct conn *conn, uint32_t phase)
{
    struct queue *queue = phase == TCPCORE_PHASE_TIME_WAIT && conn->socket < 0 ? &net->resting : &net->active;
    if (phase < TCPCORE_PHASE_ESTABLISHED || conn->order.queue == queue)
        return;
    conn->since = net->now;
    queue_leave(&conn->place);
    queue_add(queue, &conn->order);
}

void limits_touch(struct usernet *net, struct conn *conn)
{
    if (conn->order.queue != &net->active)
        return;
    conn->since = net->now;
    if (net->active.newest != &conn->order)
        queue_add(&net->active, &conn->order);
}

void limits_leave(struct usernet *net, struct conn *conn)
{
    queue_leave(&conn->order);
    queue_leave(&conn->place);
    net->connections--;
    net->reserved -= room_of(conn->capacity);
}

int limits_answer(struct usernet *net)
{
    if (net->second != net->now / 1000)
        net->second = net->now / 1000, net->answered = 0;
    if (net->answered >= net->limits.strays) {
        count(net, WITHHELD, 1);
        return 0;
    }
    net->answered++;
    return 1;
}

int is_exhausted(int fault)
{
    return fault == EMFILE || fault == ENFILE || fault == ENOBUFS || fault == ENOMEM || fault == EADDRNOTAVAIL;
}
