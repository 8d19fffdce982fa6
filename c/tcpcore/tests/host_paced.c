/*
 * The test of pacing in a host (RFC 9002, 7.7): each connection's text goes out in portions, and the host asks for the time of the next,
 * as a connection by itself does (paced.c). Segments have 100 bytes of text, and the first window is ten of them (RFC 6928, 2). Its one
 * acknowledgement adds a segment (RFC 5681, 3.1), so that in slow start 2 * 1,100 bytes go out in a round trip then. Each time and size is
 * worked out by hand. Times are microseconds.
 */
#include "host.h"

enum { FULL = 100, FIRST = 10, SEGMENTS = 11, HEADER = 20 };

static const uint64_t NOW = 5 * (uint64_t)SECOND;
static struct side a, b;
static struct tcpcore_host_id listener, server;

/* A connection from this port, by a handshake of such a trip, whose first window has been acknowledged at NOW, when the text of eleven more
   segments is given. */
static struct tcpcore_host_id opens(uint16_t port, uint64_t trip, uint32_t is_paced)
{
    static const unsigned char text[SEGMENTS * FULL];
    tcpcore_config config = config_of(a.addr, port, 1000u * port);
    tcpcore_connection connection = TCPCORE_CONNECTION_INIT;
    struct tcpcore_host_id id;
    size_t taken;
    config.mss = FULL;
    CHECK(tcpcore_connection_connect(&connection, &config, &RULES, SERVER, PORT, 0, a.blocks[a.next], sizeof *a.blocks), TCPCORE_DONE);
    a.next++;
    CHECK(tcpcore_connection_set_congestion(&connection, TCPCORE_CONGESTION_CUBIC), TCPCORE_DONE);
    CHECK(tcpcore_connection_set_pacing(&connection, is_paced), TCPCORE_DONE);
    CHECK(tcpcore_host_open(&a.host, &connection, &id), TCPCORE_DONE);
    CHECK(carries(&a, &b, 0), 1);
    CHECK(carries(&b, &a, trip), 1);
    CHECK(carries(&a, &b, trip), 1);
    CHECK(tcpcore_host_accept(&b.host, &listener, &server), TCPCORE_DONE);
    CHECK(tcpcore_host_send(&a.host, NOW - trip, &id, text, FIRST * FULL, &taken), TCPCORE_DONE);
    CHECK(taken, FIRST * FULL);
    CHECK(carries(&a, &b, NOW - trip), FIRST);
    CHECK(carries(&b, &a, NOW), 1);
    CHECK(tcpcore_host_send(&a.host, NOW, &id, text, sizeof text, &taken), TCPCORE_DONE);
    CHECK(taken, sizeof text);
    return id;
}

static void both_begin(void)
{
    begins(&a, CLIENT);
    begins(&b, SERVER);
    CHECK(tcpcore_host_listen(&b.host, SERVER, PORT, 4, &listener), TCPCORE_DONE);
}

static void both_end(void)
{
    CHECK(tcpcore_host_free(&a.host), TCPCORE_DONE);
    CHECK(tcpcore_host_free(&b.host), TCPCORE_DONE);
}

/* At `now`, and not before, the connection has a turn, in which so many segments go out; no timer has expired. */
static void goes_on(struct tcpcore_host_id id, uint64_t now, unsigned segments)
{
    struct tcpcore_host_told told;
    CHECK(poll_at(&a), now);
    CHECK(tcpcore_host_timeout(&a.host, now - 1, &told), TCPCORE_NOBODY);
    CHECK(carries(&a, &b, now - 1), 0);
    CHECK(tcpcore_host_timeout(&a.host, now, &told), TCPCORE_DONE);
    CHECK(told.place == TCPCORE_PLACE_END && told.id.number == id.number && told.id.slot == id.slot, 1);
    CHECK(told.timer, TCPCORE_TIMER_NONE);
    CHECK(carries(&a, &b, now), segments);
    CHECK(last_length, HEADER + FULL);
}

/* A portion of so many whole segments, which takes so long, until all eleven are out. */
static void in_portions(uint64_t trip, unsigned portion, uint64_t interval)
{
    uint64_t now = NOW;
    both_begin();
    struct tcpcore_host_id client = opens(1001, trip, 1);
    CHECK(carries(&a, &b, now), portion);
    for (unsigned left = SEGMENTS - portion; left > 0; left -= left < portion ? left : portion) {
        now += interval;
        goes_on(client, now, left < portion ? left : portion);
    }
    CHECK(poll_at(&a), NOW + SECOND);
    both_end();
}

/* Chosen by its name, and off again: the rest waits for its portion, and where that is off goes out in the connection's next turn. */
static void by_name(void)
{
    struct tcpcore_host_sent sent;
    struct tcpcore_host_id none = {0, 0};
    struct tcpcore_connection_segment segment;
    both_begin();
    struct tcpcore_host_id client = opens(1001, 100 * MS, 0);
    CHECK(tcpcore_host_set_pacing(&a.host, &none, 1), TCPCORE_GONE);
    CHECK(tcpcore_host_set_pacing(&a.host, &client, 1), TCPCORE_DONE);
    CHECK(carries(&a, &b, NOW), 10);
    CHECK(tcpcore_host_emit_by_id(&a.host, NOW + 45454, &client, UINT64_MAX, last, sizeof last, &segment), TCPCORE_NOT_DUE);
    CHECK(tcpcore_host_emit_by_id(&a.host, NOW + 45455, &client, UINT64_MAX, last, sizeof last, &segment), TCPCORE_DONE);
    CHECK(segment.position == 1 + 20 * FULL && segment.count == FULL, 1);
    both_end();
    both_begin();
    client = opens(1001, 100 * MS, 1);
    CHECK(carries(&a, &b, NOW), 10);
    CHECK(tcpcore_host_set_pacing(&a.host, &client, 0), TCPCORE_DONE);
    unsigned count = 0;
    while (tcpcore_host_emit(&a.host, NOW + MS, UINT64_MAX, last, sizeof last, &sent) != TCPCORE_NOBODY)
        count += sent.length == HEADER + FULL;
    CHECK(count, 1);
    both_end();
    CHECK(tcpcore_host_set_pacing(&a.host, &client, 1), TCPCORE_NO_END);
    CHECK(tcpcore_host_set_pacing(&a.host, NULL, 1), TCPCORE_NULL);
    CHECK(tcpcore_host_set_pacing(NULL, &client, 1), TCPCORE_NULL);
}

int main(void)
{
    /* 100 ms: 22 bytes a millisecond: ten segments, in 1,000 / 22 = 45 5/11 ms. */
    in_portions(100 * MS, 10, 45455);
    /* 5.5 ms: 400 bytes a millisecond: ten, in 1,000 / 400 = 2.5 ms. */
    in_portions(5500, 10, 2500);
    /* 2.1 ms: 1,047 13/21 bytes a millisecond: ten whole segments, in 1,000 / (1,047 13/21) = 21/22 ms. */
    in_portions(2100, 10, 955);
    /* 2 ms: 1,100 bytes a millisecond: eleven, in 1 ms. */
    in_portions(2 * MS, 11, MS);
    by_name();
    printf("host_paced: each connection of a host is paced by itself\n");
    return checks > 100 ? 0 : 1;
}
