/*
 * The test of a connection's calls: what each answers and reports, in each phase; misuse, as misuse.c has it of a plain end; and the room
 * that it takes. Times are microseconds.
 */
#include "connection.h"

/* Each call but those that make and free answers `wanted`, reports 0, and leaves the buffers as they are. */
static void every_call(tcpcore_connection *connection, uint32_t wanted)
{
    unsigned char buffer[TCPCORE_EMIT_ROOM];
    size_t count = 7;
    uint64_t at = 7;
    uint32_t timer = 7;
    uint16_t port = 7;
    tcpcore_addr addr = THERE;
    struct tcpcore_status status;
    struct tcpcore_arrive_report report;
    struct tcpcore_connection_segment segment;
    struct tcpcore_train train;
    struct tcpcore_lent lent;
    struct tcpcore_congestion congestion;
    const struct tcpcore_policy policy = TCPCORE_POLICY_DEFAULT;
    const struct tcpcore_keep_alive keep_alive = TCPCORE_KEEP_ALIVE_DEFAULT;
    memset(&congestion, 7, sizeof congestion);
    memset(buffer, 0xee, sizeof buffer);
    memset(&status, 7, sizeof status);
    memset(&report, 7, sizeof report);
    memset(&segment, 7, sizeof segment);
    memset(&lent, 7, sizeof lent);
    CHECK(tcpcore_connection_poll_at(connection, &at), wanted);
    CHECK(at, 0);
    CHECK(tcpcore_connection_timeout(connection, 0, &timer), wanted);
    CHECK(timer, 0);
    timer = 7, at = 7;
    CHECK(tcpcore_connection_tick(connection, 0, &timer, &at), wanted);
    CHECK(timer, 0);
    CHECK(at, 0);
    CHECK(tcpcore_connection_arrive(connection, 0, THERE, HERE, "short", 5, &report), wanted);
    CHECK(are_all(&report, sizeof report, 0), 1);
    memset(&report, 7, sizeof report);
    CHECK(tcpcore_connection_arrive_vouched(connection, 0, THERE, HERE, "short", 5, &report), wanted);
    CHECK(are_all(&report, sizeof report, 0), 1);
    CHECK(tcpcore_connection_emit(connection, 0, UINT64_MAX, buffer, sizeof buffer, &segment), wanted);
    CHECK(are_all(&segment, sizeof segment, 0), 1);
    memset(&train, 7, sizeof train);
    CHECK(tcpcore_connection_emit_train(connection, 0, UINT64_MAX, buffer, sizeof buffer, 9, &train), wanted);
    CHECK(are_all(&train, sizeof train, 0), 1);
    CHECK(tcpcore_connection_send(connection, 0, "abc", 3, &count), wanted);
    CHECK(count, 0);
    count = 7;
    CHECK(tcpcore_connection_receive(connection, 0, buffer, sizeof buffer, &count), wanted);
    CHECK(count, 0);
    CHECK(tcpcore_connection_peek(connection, &lent), wanted);
    CHECK(are_all(&lent, sizeof lent, 0), 1);
    count = 7;
    CHECK(tcpcore_connection_consume(connection, 0, 1, &count), wanted);
    CHECK(count, 0);
    CHECK(tcpcore_connection_acknowledge(connection, 0), wanted);
    CHECK(tcpcore_connection_close(connection, 0), wanted);
    CHECK(tcpcore_connection_abort(connection, 0), wanted);
    CHECK(tcpcore_connection_set_user_timeout(connection, 0), wanted);
    CHECK(tcpcore_connection_resend_first(connection, 0), wanted);
    CHECK(tcpcore_connection_resend(connection, 0, 0, 9), wanted);
    CHECK(tcpcore_connection_set_congestion(connection, TCPCORE_CONGESTION_CUBIC), wanted);
    CHECK(tcpcore_connection_set_policy(connection, &policy), wanted);
    CHECK(tcpcore_connection_set_keep_alive(connection, 0, &keep_alive), wanted);
    CHECK(tcpcore_connection_set_pacing(connection, 1), wanted);
    CHECK(tcpcore_connection_set_recovery(connection, 0, buffer, sizeof buffer), wanted);
    CHECK(tcpcore_connection_congestion(connection, &congestion), wanted);
    CHECK(are_all(&congestion, sizeof congestion, 0), 1);
    CHECK(tcpcore_connection_status(connection, &status), wanted);
    CHECK(are_all(&status, sizeof status, 0), 1);
    CHECK(tcpcore_connection_peer(connection, &addr, &port), wanted);
    CHECK(are_all(&addr, sizeof addr, 0), 1);
    CHECK(port, 0);
    CHECK(are_all(buffer, sizeof buffer, 0xee), 1);
}

/* Never made, copied, never set, freed twice. */
static void no_connection(void)
{
    tcpcore_connection garbage = {{1, 2, 3}}, copy;
    tcpcore_config config = good_config(HERE);
    every_call(NULL, TCPCORE_NULL);
    every_call(&a, TCPCORE_NO_END);
    every_call(&garbage, TCPCORE_COPIED);
    CHECK(tcpcore_connection_free(NULL), TCPCORE_NULL);
    CHECK(tcpcore_connection_free(&a), TCPCORE_NO_END);
    CHECK(tcpcore_connection_free(&garbage), TCPCORE_COPIED);
    open_both();
    copy = a;
    every_call(&copy, TCPCORE_COPIED);
    CHECK(tcpcore_connection_free(&copy), TCPCORE_COPIED);
    CHECK(connects(&config, &RULES), TCPCORE_IN_USE);
    CHECK(tcpcore_connection_listen(&a, &config, &RULES, 0, blocks[0], sizeof *blocks), TCPCORE_IN_USE);
    CHECK(status_of(&a).phase, TCPCORE_PHASE_SYN_SENT);
    free_both();
    CHECK(tcpcore_connection_free(&a), TCPCORE_NO_END);
    every_call(&a, TCPCORE_NO_END);
}

/* Each fault of the config and of the rules, in the order in which they are looked for. */
static void refused_makings(void)
{
    tcpcore_config config = good_config(HERE);
    struct tcpcore_connection_rules rules = RULES;
    CHECK(connects(NULL, &RULES), TCPCORE_NULL);
    CHECK(connects(&config, NULL), TCPCORE_NULL);
    CHECK(tcpcore_connection_connect(NULL, &config, &RULES, THERE, 9, 0, blocks[0], sizeof *blocks), TCPCORE_NULL);
    CHECK(tcpcore_connection_connect(&a, &config, &RULES, THERE, 9, 0, NULL, 16), TCPCORE_NULL);
    CHECK(tcpcore_connection_connect(&a, &config, &RULES, THERE, 9, 0, blocks[0], HUGE_LENGTH), TCPCORE_LENGTH);
    CHECK(tcpcore_connection_connect(&a, &config, &RULES, THERE, 9, 0, &a, sizeof a), TCPCORE_OVERLAP);
    CHECK(tcpcore_connection_connect(&a, &config, &RULES, THERE, 9, 0, NULL, 0), TCPCORE_NO_MEMORY);
    config.runs = TCPCORE_MAX_RUNS + 1;
    CHECK(connects(&config, &RULES), TCPCORE_BAD_RUNS);
    config.limit = 0;
    CHECK(connects(&config, &RULES), TCPCORE_BAD_LIMIT);
    config.scales = 1;
    config.window_shift = 15;
    CHECK(connects(&config, &RULES), TCPCORE_BAD_SHIFT);
    config.mss = 63;
    CHECK(connects(&config, &RULES), TCPCORE_BAD_MSS);
    config.recv_capacity = 0;
    CHECK(connects(&config, &RULES), TCPCORE_BAD_CAPACITY);
    rules.least = 0;
    CHECK(connects(&config, &rules), TCPCORE_BAD_RULES);
    config.port = 0;
    CHECK(connects(&config, &rules), TCPCORE_BAD_PORT);
    config.addr = NOWHERE;
    CHECK(connects(&config, &rules), TCPCORE_BAD_ADDR);
    CHECK(are_all(&a, sizeof a, 0), 1);
    /* What a timeout can be made from: 0 < least <= greatest <= 2^40, granularity <= 2^40. */
    config = good_config(HERE);
    rules = RULES;
    rules.greatest = rules.least - 1;
    CHECK(connects(&config, &rules), TCPCORE_BAD_RULES);
    rules.greatest = (UINT64_C(1) << 40) + 1;
    CHECK(connects(&config, &rules), TCPCORE_BAD_RULES);
    rules.greatest--;
    rules.granularity = (UINT64_C(1) << 40) + 1;
    CHECK(connects(&config, &rules), TCPCORE_BAD_RULES);
    CHECK(tcpcore_connection_listen(&a, &config, &rules, 0, blocks[0], sizeof *blocks), TCPCORE_BAD_RULES);
    rules.granularity--;
    CHECK(connects(&config, &rules), TCPCORE_DONE);
    CHECK(tcpcore_connection_free(&a), TCPCORE_DONE);
}

/* Pointers that are NULL, lengths that are too long, and places over the struct or the buffer. */
static void refused_pointers(void)
{
    unsigned char buffer[TCPCORE_EMIT_ROOM] = {0};
    struct tcpcore_arrive_report report;
    struct tcpcore_connection_segment segment;
    struct tcpcore_train train;
    size_t count;
    tcpcore_addr addr;
    uint16_t port;
    uint32_t timer;
    uint64_t at;
    void *over = &a;
    open_both();
    tcpcore_connection was = a;
    CHECK(tcpcore_connection_poll_at(&a, NULL), TCPCORE_NULL);
    CHECK(tcpcore_connection_poll_at(&a, over), TCPCORE_OVERLAP);
    CHECK(tcpcore_connection_timeout(&a, 0, NULL), TCPCORE_NULL);
    CHECK(tcpcore_connection_timeout(&a, 0, over), TCPCORE_OVERLAP);
    CHECK(tcpcore_connection_tick(&a, 0, NULL, &at), TCPCORE_NULL);
    CHECK(tcpcore_connection_tick(&a, 0, &timer, NULL), TCPCORE_NULL);
    CHECK(tcpcore_connection_tick(&a, 0, over, &at), TCPCORE_OVERLAP);
    CHECK(tcpcore_connection_tick(&a, 0, &timer, over), TCPCORE_OVERLAP);
    CHECK(tcpcore_connection_tick(&a, 0, (uint32_t *)(void *)&at, &at), TCPCORE_OVERLAP);
    CHECK(tcpcore_connection_arrive(&a, 0, THERE, HERE, buffer, 20, NULL), TCPCORE_NULL);
    CHECK(tcpcore_connection_arrive(&a, 0, THERE, HERE, NULL, 20, &report), TCPCORE_NULL);
    CHECK(tcpcore_connection_arrive(&a, 0, THERE, HERE, NULL, 0, &report), TCPCORE_TOO_SHORT);
    CHECK(tcpcore_connection_arrive(&a, 0, THERE, HERE, buffer, HUGE_LENGTH, &report), TCPCORE_LENGTH);
    CHECK(tcpcore_connection_arrive(&a, 0, THERE, HERE, &report, 20, &report), TCPCORE_OVERLAP);
    CHECK(tcpcore_connection_arrive(&a, 0, THERE, HERE, &a, sizeof a, &report), TCPCORE_OVERLAP);
    CHECK(tcpcore_connection_arrive_vouched(&a, 0, THERE, HERE, buffer, 20, NULL), TCPCORE_NULL);
    CHECK(tcpcore_connection_arrive_vouched(&a, 0, THERE, HERE, NULL, 20, &report), TCPCORE_NULL);
    CHECK(tcpcore_connection_arrive_vouched(&a, 0, THERE, HERE, NULL, 0, &report), TCPCORE_TOO_SHORT);
    CHECK(tcpcore_connection_arrive_vouched(&a, 0, THERE, HERE, buffer, HUGE_LENGTH, &report), TCPCORE_LENGTH);
    CHECK(tcpcore_connection_arrive_vouched(&a, 0, THERE, HERE, &report, 20, &report), TCPCORE_OVERLAP);
    CHECK(tcpcore_connection_arrive_vouched(&a, 0, THERE, HERE, &a, sizeof a, &report), TCPCORE_OVERLAP);
    CHECK(tcpcore_connection_emit(&a, 0, UINT64_MAX, buffer, sizeof buffer, NULL), TCPCORE_NULL);
    CHECK(tcpcore_connection_emit(&a, 0, UINT64_MAX, NULL, sizeof buffer, &segment), TCPCORE_NULL);
    CHECK(tcpcore_connection_emit(&a, 0, UINT64_MAX, NULL, 0, &segment), TCPCORE_ROOM);
    CHECK(tcpcore_connection_emit(&a, 0, UINT64_MAX, buffer, TCPCORE_EMIT_ROOM - 1, &segment), TCPCORE_ROOM);
    CHECK(tcpcore_connection_emit(&a, 0, UINT64_MAX, buffer, HUGE_LENGTH, &segment), TCPCORE_LENGTH);
    CHECK(tcpcore_connection_emit(&a, 0, UINT64_MAX, buffer, sizeof buffer, over), TCPCORE_OVERLAP);
    CHECK(tcpcore_connection_emit(&a, 0, UINT64_MAX, over, sizeof buffer, &segment), TCPCORE_OVERLAP);
    CHECK(tcpcore_connection_emit_train(&a, 0, UINT64_MAX, buffer, sizeof buffer, 9, NULL), TCPCORE_NULL);
    CHECK(tcpcore_connection_emit_train(&a, 0, UINT64_MAX, NULL, sizeof buffer, 9, &train), TCPCORE_NULL);
    CHECK(tcpcore_connection_emit_train(&a, 0, UINT64_MAX, NULL, 0, 9, &train), TCPCORE_ROOM);
    CHECK(tcpcore_connection_emit_train(&a, 0, UINT64_MAX, buffer, TCPCORE_EMIT_ROOM - 1, 9, &train), TCPCORE_ROOM);
    CHECK(tcpcore_connection_emit_train(&a, 0, UINT64_MAX, buffer, HUGE_LENGTH, 9, &train), TCPCORE_LENGTH);
    CHECK(tcpcore_connection_emit_train(&a, 0, UINT64_MAX, buffer, sizeof buffer, 9, over), TCPCORE_OVERLAP);
    CHECK(tcpcore_connection_emit_train(&a, 0, UINT64_MAX, over, sizeof buffer, 9, &train), TCPCORE_OVERLAP);
    CHECK(tcpcore_connection_send(&a, 0, NULL, 1, &count), TCPCORE_NULL);
    CHECK(tcpcore_connection_send(&a, 0, buffer, 1, NULL), TCPCORE_NULL);
    CHECK(tcpcore_connection_send(&a, 0, buffer, HUGE_LENGTH, &count), TCPCORE_LENGTH);
    CHECK(tcpcore_connection_send(&a, 0, over, 1, &count), TCPCORE_OVERLAP);
    CHECK(tcpcore_connection_receive(&a, 0, NULL, 1, &count), TCPCORE_NULL);
    CHECK(tcpcore_connection_receive(&a, 0, buffer, sizeof buffer, NULL), TCPCORE_NULL);
    CHECK(tcpcore_connection_receive(&a, 0, buffer, HUGE_LENGTH, &count), TCPCORE_LENGTH);
    CHECK(tcpcore_connection_receive(&a, 0, over, 1, &count), TCPCORE_OVERLAP);
    CHECK(tcpcore_connection_peek(&a, NULL), TCPCORE_NULL);
    CHECK(tcpcore_connection_peek(&a, over), TCPCORE_OVERLAP);
    CHECK(tcpcore_connection_consume(&a, 0, 1, NULL), TCPCORE_NULL);
    CHECK(tcpcore_connection_consume(&a, 0, 1, over), TCPCORE_OVERLAP);
    CHECK(tcpcore_connection_status(&a, NULL), TCPCORE_NULL);
    CHECK(tcpcore_connection_status(&a, over), TCPCORE_OVERLAP);
    CHECK(tcpcore_connection_peer(&a, NULL, &port), TCPCORE_NULL);
    CHECK(tcpcore_connection_peer(&a, &addr, NULL), TCPCORE_NULL);
    CHECK(tcpcore_connection_peer(&a, over, &port), TCPCORE_OVERLAP);
    CHECK(tcpcore_connection_peer(&a, &addr, over), TCPCORE_OVERLAP);
    CHECK(tcpcore_connection_peer(&a, (tcpcore_addr *)(void *)buffer, (uint16_t *)(void *)buffer), TCPCORE_OVERLAP);
    CHECK(memcmp(&a, &was, sizeof a), 0);
    free_both();
}

/* What a handshake, text both ways and the end of it report. */
static void reports(void)
{
    unsigned char bytes[TCPCORE_EMIT_ROOM], read[8];
    struct tcpcore_connection_segment segment;
    struct tcpcore_arrive_report report;
    struct tcpcore_lent lent;
    size_t count;
    uint64_t now = 5 * SECOND;
    open_both();
    CHECK(status_of(&b).phase, TCPCORE_PHASE_LISTEN);
    CHECK(poll_at(&b), TCPCORE_NEVER);
    CHECK(poll_at(&a), SECOND);
    CHECK(tcpcore_connection_emit(&a, 0, UINT64_MAX, bytes, sizeof bytes, &segment), TCPCORE_DONE);
    CHECK(memcmp(&segment.to, &THERE, sizeof THERE), 0);
    CHECK(segment.position, 0);
    CHECK(segment.count, 1);
    CHECK(segment.length, 4 * (bytes[12] >> 4));
    CHECK(tcpcore_connection_emit(&a, 0, UINT64_MAX, bytes, sizeof bytes, &segment), TCPCORE_NOT_DUE);
    free_both();
    establish(0);
    CHECK(tcpcore_connection_receive(&b, now, read, sizeof read, &count), TCPCORE_NOTHING);
    CHECK(tcpcore_connection_peek(&b, &lent), TCPCORE_NOTHING);
    CHECK(tcpcore_connection_send(&a, now, "hello, you", 10, &count), TCPCORE_DONE);
    CHECK(count, 10);
    /* A window of 4 numbers holds nothing back while nothing is in flight, and all of it once something is. */
    CHECK(tcpcore_connection_emit(&a, now, 4, bytes, sizeof bytes, &segment), TCPCORE_DONE);
    CHECK(segment.position, 1);
    CHECK(segment.count, 10);
    CHECK(segment.length, 30);
    CHECK(tcpcore_connection_send(&a, now, "again", 5, &count), TCPCORE_DONE);
    CHECK(tcpcore_connection_arrive(&b, now, HERE, THERE, bytes, segment.length, &report), TCPCORE_DONE);
    CHECK(report.rule, TCPCORE_RULE_TAKEN);
    CHECK(report.brought, TCPCORE_BROUGHT_IN_ORDER);
    CHECK(report.acked, 0);
    CHECK(tcpcore_connection_emit(&a, now, 14, bytes, sizeof bytes, &segment), TCPCORE_NOT_DUE);
    CHECK(tcpcore_connection_emit(&a, now, 15, bytes, sizeof bytes, &segment), TCPCORE_DONE);
    CHECK(segment.position, 11);
    CHECK(segment.count, 5);
    CHECK(tcpcore_connection_arrive(&b, now, THERE, HERE, bytes, segment.length, &report), TCPCORE_NOT_MINE);
    CHECK(tcpcore_connection_arrive(&b, now, HERE, THERE, bytes, segment.length, &report), TCPCORE_DONE);
    CHECK(tcpcore_connection_peek(&b, &lent), TCPCORE_DONE);
    CHECK(lent.first.length + lent.second.length, 15);
    CHECK(tcpcore_connection_receive(&b, now, read, sizeof read, &count), TCPCORE_DONE);
    CHECK(count, 8);
    CHECK(memcmp(read, "hello, y", 8), 0);
    CHECK(tcpcore_connection_peek(&b, &lent), TCPCORE_DONE);
    CHECK(memcmp(lent.first.at, "ouagain", lent.first.length), 0);
    CHECK(tcpcore_connection_consume(&b, now, 3, &count), TCPCORE_DONE);
    CHECK(count, 3);
    CHECK(status_of(&b).unread, 4);
    CHECK(tcpcore_connection_consume(&b, now, 5, &count), TCPCORE_DONE);
    CHECK(count, 4);
    CHECK(tcpcore_connection_consume(&b, now, 5, &count), TCPCORE_DONE);
    CHECK(count, 0);
    CHECK(carry(&b, THERE, &a, now), 1);
    CHECK(status_of(&a).released, 15);
    CHECK(poll_at(&a), TCPCORE_NEVER);
    CHECK(tcpcore_connection_acknowledge(&b, now), TCPCORE_DONE);
    CHECK(carry(&b, THERE, &a, now), 1);
    CHECK(tcpcore_connection_close(&b, now), TCPCORE_DONE);
    CHECK(tcpcore_connection_close(&b, now), TCPCORE_CLOSING);
    CHECK(tcpcore_connection_send(&b, now, "x", 1, &count), TCPCORE_CLOSING);
    CHECK(carry(&b, THERE, &a, now), 1);
    CHECK(tcpcore_connection_receive(&a, now, read, sizeof read, &count), TCPCORE_END_OF_STREAM);
    CHECK(tcpcore_connection_abort(&a, now), TCPCORE_DONE);
    CHECK(tcpcore_connection_abort(&a, now), TCPCORE_ENDED);
    CHECK(carry(&a, HERE, &b, now), 1);
    CHECK(status_of(&a).ending, TCPCORE_ENDING_ABORTED);
    CHECK(status_of(&b).ending, TCPCORE_ENDING_RESET);
    CHECK(tcpcore_connection_receive(&b, now, read, sizeof read, &count), TCPCORE_ENDED);
    CHECK(poll_at(&a), TCPCORE_NEVER);
    free_both();
}

/* An expiry: nothing is taken until what was due has gone out, and the timeout is doubled (RFC 6298, 5.5). */
static void expires(void)
{
    unsigned char first[TCPCORE_EMIT_ROOM], again[TCPCORE_EMIT_ROOM];
    struct tcpcore_connection_segment segment;
    struct tcpcore_arrive_report report;
    uint32_t timer = 7;
    uint64_t next = 7;
    open_both();
    CHECK(tcpcore_connection_emit(&a, 0, UINT64_MAX, first, sizeof first, &segment), TCPCORE_DONE);
    CHECK(tcpcore_connection_timeout(&a, SECOND - 1, &timer), TCPCORE_NOT_DUE);
    CHECK(timer, 0);
    timer = 7;
    CHECK(tcpcore_connection_tick(&a, SECOND - 1, &timer, &next), TCPCORE_NOT_DUE);
    CHECK(timer, 0);
    CHECK(next, SECOND);
    timer = 7;
    CHECK(tcpcore_connection_timeout(&a, SECOND, &timer), TCPCORE_DONE);
    CHECK(timer, TCPCORE_TIMER_RETRANSMIT);
    CHECK(tcpcore_connection_arrive(&a, SECOND, THERE, HERE, first, segment.length, &report), TCPCORE_EMIT_FIRST);
    CHECK(are_all(&report, sizeof report, 0), 1);
    CHECK(tcpcore_connection_timeout(&a, 60 * SECOND, &timer), TCPCORE_NOT_DUE);
    CHECK(tcpcore_connection_emit(&a, SECOND, UINT64_MAX, again, sizeof again, &segment), TCPCORE_DONE);
    CHECK(memcmp(first, again, segment.length), 0);
    CHECK(tcpcore_connection_emit(&a, SECOND, UINT64_MAX, again, sizeof again, &segment), TCPCORE_NOT_DUE);
    CHECK(tcpcore_connection_arrive(&a, SECOND, THERE, HERE, first, 20, &report) != TCPCORE_EMIT_FIRST, 1);
    free_both();
}

/* The peer is known from its opening or its SYN on, also behind the end (RFC 9293, 3.10.6). */
static void peers(void)
{
    tcpcore_addr addr = HERE;
    uint16_t port = 7;
    open_both();
    CHECK(tcpcore_connection_peer(&b, &addr, &port), TCPCORE_NOT_CONNECTED);
    CHECK(memcmp(&addr, &NOWHERE, sizeof addr), 0);
    CHECK(port, 0);
    CHECK(tcpcore_connection_peer(&a, &addr, &port), TCPCORE_DONE);
    CHECK(memcmp(&addr, &THERE, sizeof addr), 0);
    CHECK(port, 9);
    CHECK(carry(&a, HERE, &b, 0), 1);
    CHECK(tcpcore_connection_abort(&b, 0), TCPCORE_DONE);
    port = 7;
    CHECK(tcpcore_connection_peer(&b, &addr, &port), TCPCORE_DONE);
    CHECK(memcmp(&addr, &HERE, sizeof addr), 0);
    CHECK(port, 9);
    free_both();
}

/* A round trip of 0 makes a timeout of a second, which doubles (RFC 6298, 2.4 and 5.5): it expires after 1, 3 and 7 s, and then the path is
   suspect. The user timeout counts from when the text was sent (RFC 9293, 3.8.3). */
static void user_timeouts(void)
{
    unsigned char bytes[TCPCORE_EMIT_ROOM];
    struct tcpcore_connection_segment segment;
    uint32_t timer;
    uint64_t next;
    establish(0);
    lose_text();
    CHECK(tcpcore_connection_set_user_timeout(&a, 10 * SECOND), TCPCORE_DONE);
    for (uint64_t after = 1; after <= 7; after = 2 * after + 1) {
        CHECK(poll_at(&a), (5 + after) * SECOND);
        CHECK(tcpcore_connection_tick(&a, (5 + after) * SECOND, &timer, &next), TCPCORE_DONE);
        CHECK(next, poll_at(&a));
        CHECK(timer, TCPCORE_TIMER_RETRANSMIT);
        while (tcpcore_connection_emit(&a, (5 + after) * SECOND, UINT64_MAX, bytes, sizeof bytes, &segment) == TCPCORE_DONE)
            continue;
    }
    CHECK(poll_at(&a), 15 * SECOND);
    CHECK(tcpcore_connection_set_user_timeout(&a, TCPCORE_NEVER), TCPCORE_DONE);
    CHECK(poll_at(&a), 20 * SECOND);
    CHECK(tcpcore_connection_set_user_timeout(&a, 6 * SECOND), TCPCORE_DONE);
    CHECK(poll_at(&a), 11 * SECOND);
    CHECK(tcpcore_connection_set_user_timeout(&a, 9 * SECOND), TCPCORE_DONE);
    CHECK(tcpcore_connection_timeout(&a, 14 * SECOND - 1, &timer), TCPCORE_NOT_DUE);
    CHECK(tcpcore_connection_timeout(&a, 14 * SECOND, &timer), TCPCORE_DONE);
    CHECK(timer, TCPCORE_TIMER_USER);
    CHECK(status_of(&a).ending, TCPCORE_ENDING_ABORTED);
    free_both();
}

/* The first segment goes out again, with what else one carries, and the timer starts anew when it first does. */
static void resends(void)
{
    unsigned char bytes[TCPCORE_EMIT_ROOM];
    struct tcpcore_connection_segment segment;
    establish(0);
    CHECK(tcpcore_connection_resend_first(&a, SECOND), TCPCORE_NO_RULE);
    lose_text();
    CHECK(poll_at(&a), 6 * SECOND);
    for (uint64_t now = 5500; now < 6000; now += 400) {
        CHECK(tcpcore_connection_emit(&a, now * 1000, UINT64_MAX, bytes, sizeof bytes, &segment), TCPCORE_NOT_DUE);
        CHECK(tcpcore_connection_resend_first(&a, now * 1000), TCPCORE_DONE);
        CHECK(tcpcore_connection_emit(&a, now * 1000, UINT64_MAX, bytes, sizeof bytes, &segment), TCPCORE_DONE);
        CHECK(segment.position, 1);
        CHECK(segment.count, 10);
        CHECK(poll_at(&a), 6500000);
    }
    /* What begins behind SND.UNA goes out alone, and its timer stays. */
    CHECK(tcpcore_connection_resend(&a, 6 * SECOND, 4, 6), TCPCORE_DONE);
    CHECK(tcpcore_connection_emit(&a, 6 * SECOND, UINT64_MAX, bytes, sizeof bytes, &segment), TCPCORE_DONE);
    CHECK(segment.position, 4);
    CHECK(segment.count, 2);
    CHECK(poll_at(&a), 6500000);
    CHECK(tcpcore_connection_resend(&a, 6 * SECOND, 11, 20), TCPCORE_NO_RULE);
    free_both();
}

/* At each alignment the room is enough, and one byte less isn't; nothing beside it is touched. */
static void room(void)
{
    enum { UNIT = 16, PAINT = 0xee };
    static unsigned char memory[TCPCORE_CONNECTION_MEMORY_RUNS(4096, 1000, TCPCORE_MAX_RUNS) + 3 * UNIT];
    static const uint16_t RUNS[] = {0, 1, 4, 16, 300, TCPCORE_MAX_RUNS};
    CHECK(tcpcore_connection_room(NULL), 0);
    for (size_t at = 0; at < sizeof RUNS / sizeof *RUNS; at++)
        for (size_t offset = 0; offset < UNIT; offset++) {
            tcpcore_config config = good_config(HERE);
            config.send_capacity = 4096;
            config.runs = RUNS[at];
            unsigned char *block = memory + UNIT + -(uintptr_t)memory % UNIT + offset;
            size_t enough = tcpcore_connection_room(&config), least = enough - (offset == 0 ? UNIT - 1 : offset - 1);
            CHECK(enough, config.runs == 0 ? TCPCORE_CONNECTION_MEMORY(4096, 1000)
                                           : TCPCORE_CONNECTION_MEMORY_RUNS(4096, 1000, config.runs));
            memset(memory, PAINT, sizeof memory);
            CHECK(tcpcore_connection_listen(&a, &config, &RULES, 0, block, least - 1), TCPCORE_NO_MEMORY);
            memset(memory, PAINT, sizeof memory);
            CHECK(tcpcore_connection_listen(&a, &config, &RULES, 0, block, least), TCPCORE_DONE);
            CHECK(are_all(memory, (size_t)(block - memory), PAINT), 1);
            CHECK(are_all(block + least, (size_t)(memory + sizeof memory - block) - least, PAINT), 1);
            CHECK(tcpcore_connection_free(&a), TCPCORE_DONE);
            config.runs = TCPCORE_MAX_RUNS + 1;
            CHECK(tcpcore_connection_room(&config), 0);
        }
    tcpcore_config config = good_config(HERE);
    memcpy(memory, &config, sizeof config);
    memcpy(memory + 128, &RULES, sizeof RULES);
    CHECK(tcpcore_connection_listen(&a, (const tcpcore_config *)(void *)memory,
                                    (const struct tcpcore_connection_rules *)(void *)(memory + 128), 0, memory, sizeof memory),
          TCPCORE_DONE);
    CHECK(tcpcore_connection_free(&a), TCPCORE_DONE);
}

int main(void)
{
    no_connection();
    refused_makings();
    refused_pointers();
    reports();
    expires();
    peers();
    user_timeouts();
    resends();
    room();
    printf("connection: each call answers and reports what it has to\n");
    return 0;
}
