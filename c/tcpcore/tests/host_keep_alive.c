/*
 * The test of keep-alives in a host (RFC 9293, 3.8.4): the host asks for each connection's time, whose peer is asked as that of a connection
 * by itself is (keep_alive.c). Each time is worked out by hand. Times are microseconds.
 */
#include "host.h"

enum { HEADER = 20, MOST_ASKED = 3, IDLE = 100 * SECOND, INTERVAL = 10 * SECOND };

static const struct tcpcore_keep_alive KEEPS = {IDLE, INTERVAL, MOST_ASKED, {0}};
static struct side a, b;
static struct tcpcore_host_id listener, server;

static int same(struct tcpcore_host_id one, struct tcpcore_host_id other) { return one.number == other.number && one.slot == other.slot; }

static unsigned carry_all(uint64_t now)
{
    unsigned count = 0, more;
    while ((more = carries(&a, &b, now) + carries(&b, &a, now)) > 0)
        count += more;
    return count;
}

/* A connection from this port, in ESTABLISHED at `now`; the server's is `server`. */
static struct tcpcore_host_id opens(uint16_t port, uint64_t now)
{
    struct tcpcore_host_id client = connects(&a, port, now);
    CHECK(carry_all(now), 3);
    CHECK(tcpcore_host_accept(&b.host, &listener, &server), TCPCORE_DONE);
    return client;
}

static void both_begin(void)
{
    begins(&a, CLIENT);
    begins(&b, SERVER);
    CHECK(tcpcore_host_listen(&b.host, SERVER, PORT, 4, &listener), TCPCORE_DONE);
}

static void both_end(void)
{
    CHECK(tcpcore_host_free(&a.host), TCPCORE_DONE);
    CHECK(tcpcore_host_free(&b.host), TCPCORE_DONE);
}

/* At `now`, and not before, this connection of a's is told, by this timer, and no other one. */
static void is_told(uint64_t now, struct tcpcore_host_id id, uint32_t timer)
{
    struct tcpcore_host_told told;
    CHECK(poll_at(&a), now);
    CHECK(tcpcore_host_timeout(&a.host, now - 1, &told), TCPCORE_NOBODY);
    CHECK(tcpcore_host_timeout(&a.host, now, &told), TCPCORE_DONE);
    CHECK(told.place == TCPCORE_PLACE_END && same(told.id, id), 1);
    CHECK(told.timer, timer);
    CHECK(tcpcore_host_timeout(&a.host, now, &told), TCPCORE_NOBODY);
}

/* What went out last asks: SEG.SEQ is SND.NXT - 1, which is the initial number where nothing was sent. */
static void was_asked(uint16_t port)
{
    uint32_t isn = 1000u * port;
    CHECK(last_length, HEADER);
    CHECK(last[4], isn >> 24);
    CHECK(last[5], isn >> 16 & 255);
    CHECK(last[6], isn >> 8 & 255);
    CHECK(last[7], isn & 255);
    CHECK(last[13], ACK);
}

/* Off at first; then asked by its turn, answered, and asked again. Whoever else is there is asked by his own rules. */
static void by_turns(void)
{
    both_begin();
    struct tcpcore_host_id one = opens(1001, 0), other = opens(1002, 0), none = {0, 0};
    CHECK(poll_at(&a), TCPCORE_NEVER);
    CHECK(tcpcore_host_set_keep_alive(&a.host, SECOND, &none, &KEEPS), TCPCORE_GONE);
    CHECK(tcpcore_host_set_keep_alive(&a.host, SECOND, &one, &KEEPS), TCPCORE_DONE);
    CHECK(tcpcore_host_set_keep_alive(&a.host, 2 * SECOND, &other, &KEEPS), TCPCORE_DONE);
    uint64_t now = SECOND + IDLE;
    for (int again = 0; again < 2; again++, now += IDLE) {
        is_told(now, one, TCPCORE_TIMER_NONE);
        CHECK(carries(&a, &b, now), 1);
        was_asked(1001);
        CHECK(carries(&b, &a, now), 1);
        is_told(now + SECOND, other, TCPCORE_TIMER_NONE);
        CHECK(carries(&a, &b, now + SECOND), 1);
        was_asked(1002);
        CHECK(carries(&b, &a, now + SECOND), 1);
        CHECK(carry_all(now + SECOND), 0);
    }
    /* Off again. */
    struct tcpcore_keep_alive off = {0, 0, 0, {0}};
    CHECK(tcpcore_host_set_keep_alive(&a.host, now, &one, &off), TCPCORE_DONE);
    is_told(now + SECOND, other, TCPCORE_TIMER_NONE);
    CHECK(tcpcore_host_set_keep_alive(&a.host, now + SECOND, &other, &off), TCPCORE_DONE);
    CHECK(carry_all(now + SECOND), 0);
    CHECK(poll_at(&a), TCPCORE_NEVER);
    both_end();
}

/* By its name, as one segment and for a device that sums it; then nobody answers, and it is given up. */
static void by_names(void)
{
    both_begin();
    struct tcpcore_host_id client = opens(1001, 0);
    struct tcpcore_connection_segment segment;
    struct tcpcore_train train;
    CHECK(tcpcore_host_set_keep_alive(&a.host, 0, &client, &KEEPS), TCPCORE_DONE);
    is_told(IDLE, client, TCPCORE_TIMER_NONE);
    CHECK(tcpcore_host_emit_by_id(&a.host, IDLE, &client, UINT64_MAX, last, sizeof last, &segment), TCPCORE_DONE);
    CHECK(segment.length == HEADER && segment.position == 0 && segment.count == 0, 1);
    last_length = (size_t)segment.length;
    was_asked(1001);
    CHECK(carry_all(IDLE), 0);
    is_told(IDLE + INTERVAL, client, TCPCORE_TIMER_NONE);
    CHECK(tcpcore_host_emit_train(&a.host, IDLE + INTERVAL, &client, UINT64_MAX, last, sizeof last, 9, &train), TCPCORE_DONE);
    CHECK(train.whole.length == HEADER && train.whole.position == 0 && train.whole.count == 0 && train.segments == 1, 1);
    was_asked(1001);
    CHECK(carry_all(IDLE + INTERVAL), 0);
    is_told(IDLE + 2 * INTERVAL, client, TCPCORE_TIMER_NONE);
    CHECK(tcpcore_host_emit_by_id(&a.host, IDLE + 2 * INTERVAL, &client, UINT64_MAX, last, sizeof last, &segment), TCPCORE_DONE);
    CHECK(carry_all(IDLE + 2 * INTERVAL), 0);
    CHECK(phase_of(&a, client), TCPCORE_PHASE_ESTABLISHED);
    is_told(IDLE + 3 * INTERVAL, client, TCPCORE_TIMER_USER);
    CHECK(phase_of(&a, client), TCPCORE_PHASE_CLOSED);
    CHECK(carries(&a, &b, IDLE + 3 * INTERVAL), 1);
    CHECK(last[13] & RST, RST);
    CHECK(phase_of(&b, server), TCPCORE_PHASE_CLOSED);
    CHECK(poll_at(&a), TCPCORE_NEVER);
    both_end();
}

/* What was chosen before a connection moves in goes with it, and out with it again. */
static void moves(void)
{
    tcpcore_config config = config_of(CLIENT, 1001, 1000u * 1001);
    tcpcore_connection connection = TCPCORE_CONNECTION_INIT;
    struct tcpcore_host_id client;
    uint64_t at;
    both_begin();
    CHECK(tcpcore_connection_connect(&connection, &config, &RULES, SERVER, PORT, 0, a.blocks[0], sizeof *a.blocks), TCPCORE_DONE);
    CHECK(tcpcore_connection_set_keep_alive(&connection, 0, &KEEPS), TCPCORE_DONE);
    CHECK(tcpcore_host_open(&a.host, &connection, &client), TCPCORE_DONE);
    CHECK(carry_all(SECOND), 3);
    is_told(SECOND + IDLE, client, TCPCORE_TIMER_NONE);
    CHECK(carries(&a, &b, SECOND + IDLE), 1);
    was_asked(1001);
    CHECK(poll_at(&a), SECOND + IDLE + INTERVAL);
    CHECK(tcpcore_host_remove(&a.host, &client, &connection), TCPCORE_DONE);
    CHECK(tcpcore_connection_poll_at(&connection, &at) == TCPCORE_DONE && at == SECOND + IDLE + INTERVAL, 1);
    CHECK(tcpcore_host_set_keep_alive(&a.host, 0, &client, &KEEPS), TCPCORE_GONE);
    CHECK(tcpcore_connection_free(&connection), TCPCORE_DONE);
    both_end();
}

static void refusals(void)
{
    both_begin();
    struct tcpcore_host_id client = opens(1001, 0);
    tcpcore_host copy = a.host;
    CHECK(tcpcore_host_set_keep_alive(NULL, 0, &client, &KEEPS), TCPCORE_NULL);
    CHECK(tcpcore_host_set_keep_alive(&a.host, 0, NULL, &KEEPS), TCPCORE_NULL);
    CHECK(tcpcore_host_set_keep_alive(&a.host, 0, &client, NULL), TCPCORE_NULL);
    CHECK(tcpcore_host_set_keep_alive(&copy, 0, &client, &KEEPS), TCPCORE_COPIED);
    CHECK(poll_at(&a), TCPCORE_NEVER);
    both_end();
    CHECK(tcpcore_host_set_keep_alive(&a.host, 0, &client, &KEEPS), TCPCORE_NO_END);
}

int main(void)
{
    by_turns();
    by_names();
    moves();
    refusals();
    printf("host_keep_alive: each connection of a host asks for itself\n");
    return checks > 100 ? 0 : 1;
}
