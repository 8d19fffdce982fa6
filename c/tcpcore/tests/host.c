/*
 * The test of hosts: two of them speak over a wire that loses nothing, with each answer by hand from the header and RFC 9293. Times are
 * microseconds.
 */
#include "host.h"

static struct side a, b;
static struct tcpcore_host_id listener;

static void both_begin(size_t backlog)
{
    begins(&a, CLIENT);
    begins(&b, SERVER);
    CHECK(tcpcore_host_listen(&b.host, SERVER, PORT, backlog, &listener), TCPCORE_DONE);
}

static void both_end(void)
{
    CHECK(tcpcore_host_free(&a.host), TCPCORE_DONE);
    CHECK(tcpcore_host_free(&b.host), TCPCORE_DONE);
    CHECK(tcpcore_host_free(&a.host), TCPCORE_NO_END);
}

static int same(struct tcpcore_host_id one, struct tcpcore_host_id other) { return one.number == other.number && one.slot == other.slot; }

/* A handshake, bytes each way, and both close: TIME-WAIT is the client's, its record answers a FIN that comes again, and goes. */
static void one_connection(void)
{
    both_begin(4);
    CHECK(poll_at(&a) == TCPCORE_NEVER && poll_at(&b) == TCPCORE_NEVER, 1);
    struct tcpcore_host_id client = connects(&a, 1001, 0), server, none = {0, 0};
    struct tcpcore_status of_none;
    CHECK(client.number == 1 && listener.number == 1 && client.slot == 0, 1);
    CHECK(tcpcore_host_status(&a.host, &none, &of_none), TCPCORE_GONE);
    CHECK(tcpcore_host_accept(&b.host, &none, &server), TCPCORE_GONE);
    CHECK(tcpcore_host_accept(&b.host, &listener, &server), TCPCORE_NOBODY);
    CHECK(carries(&a, &b, 0), 1); /* SYN */
    CHECK(tcpcore_host_accept(&b.host, &listener, &server), TCPCORE_NOBODY);
    CHECK(carries(&b, &a, 0), 1); /* SYN, ACK */
    CHECK(carries(&a, &b, 0), 1); /* ACK */
    CHECK(tcpcore_host_accept(&b.host, &listener, &server), TCPCORE_DONE);
    CHECK(tcpcore_host_accept(&b.host, &listener, &none), TCPCORE_NOBODY);
    CHECK(phase_of(&a, client), TCPCORE_PHASE_ESTABLISHED);
    CHECK(phase_of(&b, server), TCPCORE_PHASE_ESTABLISHED);
    tcpcore_addr addr;
    uint16_t port;
    CHECK(tcpcore_host_peer(&b.host, &server, &addr, &port), TCPCORE_DONE);
    CHECK(memcmp(&addr, &CLIENT, sizeof addr) == 0 && port == 1001, 1);
    struct tcpcore_host_id found = none;
    CHECK(tcpcore_host_find(&a.host, CLIENT, 1001, SERVER, PORT, &found) == TCPCORE_DONE && same(found, client), 1);
    CHECK(tcpcore_host_find(&b.host, SERVER, PORT, CLIENT, 1001, &found) == TCPCORE_DONE && same(found, server), 1);
    CHECK(tcpcore_host_find(&b.host, CLIENT, 1001, SERVER, PORT, &found) == TCPCORE_NOBODY && same(found, (struct tcpcore_host_id){0, 0}), 1);
    CHECK(tcpcore_host_find(&a.host, CLIENT, 1002, SERVER, PORT, &found), TCPCORE_NOBODY);

    size_t count;
    unsigned char out[16];
    CHECK(tcpcore_host_send(&a.host, 0, &client, "question", 8, &count), TCPCORE_DONE);
    CHECK(count, 8);
    CHECK(carries(&a, &b, 0), 1);
    CHECK(tcpcore_host_receive(&b.host, 0, &server, out, sizeof out, &count), TCPCORE_DONE);
    CHECK(count == 8 && memcmp(out, "question", 8) == 0, 1);
    CHECK(tcpcore_host_receive(&b.host, 0, &server, out, sizeof out, &count), TCPCORE_NOTHING);
    CHECK(tcpcore_host_acknowledge(&b.host, 0, &server), TCPCORE_DONE);
    CHECK(carries(&b, &a, 0), 1);

    struct tcpcore_host_told told;
    CHECK(tcpcore_host_timeout(&a.host, 0, &told), TCPCORE_NOBODY);
    CHECK(told.place == TCPCORE_PLACE_NONE && told.timer == TCPCORE_TIMER_NONE, 1);
    CHECK(poll_at(&a), TCPCORE_NEVER);
    CHECK(tcpcore_host_send(&a.host, SECOND, &client, "lost", 4, &count), TCPCORE_DONE);
    struct tcpcore_host_sent sent;
    CHECK(tcpcore_host_emit(&a.host, SECOND, UINT64_MAX, last, sizeof last, &sent), TCPCORE_DONE);
    CHECK(sent.place == TCPCORE_PLACE_END && same(sent.id, client) && sent.length == 24 && sent.position == 9 && sent.count == 4, 1);
    CHECK(tcpcore_host_emit(&a.host, SECOND, UINT64_MAX, last, sizeof last, &sent), TCPCORE_NOT_DUE);
    CHECK(sent.place == TCPCORE_PLACE_END && same(sent.id, client) && sent.length == 0 && sent.count == 0, 1);
    CHECK(tcpcore_host_emit(&a.host, SECOND, UINT64_MAX, last, sizeof last, &sent), TCPCORE_NOBODY);
    CHECK(poll_at(&a), 2 * SECOND);
    CHECK(tcpcore_host_timeout(&a.host, 2 * SECOND - 1, &told), TCPCORE_NOBODY);
    CHECK(tcpcore_host_timeout(&a.host, 2 * SECOND, &told), TCPCORE_DONE);
    CHECK(told.place == TCPCORE_PLACE_END && same(told.id, client) && told.timer == TCPCORE_TIMER_RETRANSMIT, 1);
    CHECK(tcpcore_host_timeout(&a.host, 2 * SECOND, &told), TCPCORE_NOBODY);
    CHECK(carries(&a, &b, 2 * SECOND), 1);
    struct tcpcore_lent lent;
    CHECK(tcpcore_host_peek(&b.host, &server, &lent), TCPCORE_DONE);
    CHECK(lent.first.length == 4 && memcmp(lent.first.at, "lost", 4) == 0 && lent.second.at == NULL && !lent.ends, 1);
    CHECK(tcpcore_host_consume(&b.host, 2 * SECOND, &server, 1, &count), TCPCORE_DONE);
    CHECK(count, 1);
    CHECK(tcpcore_host_peek(&b.host, &server, &lent), TCPCORE_DONE);
    CHECK(lent.first.length == 3 && memcmp(lent.first.at, "ost", 3) == 0, 1);
    CHECK(tcpcore_host_consume(&b.host, 2 * SECOND, &server, 9, &count), TCPCORE_DONE);
    CHECK(count, 3);
    CHECK(tcpcore_host_peek(&b.host, &server, &lent), TCPCORE_NOTHING);
    CHECK(lent.first.at == NULL && lent.first.length == 0 && lent.second.length == 0, 1);
    CHECK(tcpcore_host_peek(&b.host, &none, &lent) == TCPCORE_GONE && lent.first.at == NULL, 1);
    CHECK(tcpcore_host_consume(&b.host, 2 * SECOND, &none, 1, &count) == TCPCORE_GONE && count == 0, 1);
    CHECK(carries(&b, &a, 2 * SECOND), 1);

    uint64_t now = 3 * SECOND;
    CHECK(tcpcore_host_close(&a.host, now, &client), TCPCORE_DONE);
    CHECK(carries(&a, &b, now), 1);
    CHECK(tcpcore_host_receive(&b.host, now, &server, out, sizeof out, &count), TCPCORE_END_OF_STREAM);
    CHECK(carries(&b, &a, now), 1);
    tcpcore_connection connection = TCPCORE_CONNECTION_INIT;
    CHECK(tcpcore_host_retire(&a.host, &client, &connection), TCPCORE_NOT_TIME_WAIT);
    CHECK(tcpcore_host_close(&b.host, now, &server), TCPCORE_DONE);
    CHECK(carries(&b, &a, now), 1);
    unsigned char fin[TCPCORE_EMIT_ROOM], reset[TCPCORE_RESET_ROOM];
    size_t fin_length = last_length;
    memcpy(fin, last, fin_length);
    CHECK(fin[13], FIN | ACK);
    CHECK(carries(&a, &b, now), 1);
    CHECK(phase_of(&a, client), TCPCORE_PHASE_TIME_WAIT);
    CHECK(phase_of(&b, server), TCPCORE_PHASE_CLOSED);

    /* The server's has ended, and goes; the client's gives its place to a record. */
    CHECK(tcpcore_host_remove(&b.host, &server, &connection), TCPCORE_DONE);
    CHECK(tcpcore_host_remove(&b.host, &server, &connection), TCPCORE_IN_USE);
    struct tcpcore_status status;
    CHECK(tcpcore_connection_status(&connection, &status), TCPCORE_DONE);
    CHECK(status.phase == TCPCORE_PHASE_CLOSED && status.ending == TCPCORE_ENDING_ORDERLY, 1);
    CHECK(tcpcore_connection_free(&connection), TCPCORE_DONE);
    CHECK(tcpcore_host_remove(&b.host, &server, &connection), TCPCORE_GONE);
    CHECK(tcpcore_host_retire(&a.host, &client, &connection), TCPCORE_DONE);
    CHECK(tcpcore_connection_free(&connection), TCPCORE_DONE);
    CHECK(tcpcore_host_retire(&a.host, &client, &connection), TCPCORE_GONE);
    CHECK(poll_at(&a), now + TIME_WAIT);

    /* While the record is there the connection exists already (3.10.1). */
    tcpcore_config again = config_of(CLIENT, 1001, 7);
    CHECK(tcpcore_connection_connect(&connection, &again, &RULES, SERVER, PORT, now, a.blocks[9], sizeof *a.blocks), TCPCORE_DONE);
    CHECK(tcpcore_host_open(&a.host, &connection, &none), TCPCORE_TAKEN);
    CHECK(none.number | none.slot, 0);

    /* The peer's FIN again has TIME-WAIT begin anew, and is acknowledged (3.10.7.4, eighth); a reset is withheld (RFC 1337, 3). */
    struct tcpcore_host_arrived arrived;
    struct tcpcore_arrive_report report;
    now += SECOND;
    CHECK(tcpcore_host_arrive(&a.host, now, SERVER, CLIENT, fin, fin_length, &arrived, &report), TCPCORE_DROPPED);
    CHECK(arrived.place == TCPCORE_PLACE_RECORD && arrived.id.number == 0 && arrived.id.slot == 0, 1);
    CHECK(poll_at(&a), now + TIME_WAIT);
    CHECK(tcpcore_host_emit(&a.host, now, UINT64_MAX, last, sizeof last, &sent), TCPCORE_DONE);
    CHECK(sent.place == TCPCORE_PLACE_RECORD && sent.length == 20 && last[13] == ACK && memcmp(&sent.from, &CLIENT, 4) == 0, 1);
    CHECK(carries(&a, &b, now), 0);
    /* A record sums what a device has vouched for: where the device has left the sum out one is made (3.1). */
    memcpy(last, fin, fin_length);
    last[16] ^= 1;
    CHECK(tcpcore_host_arrive_vouched(&a.host, now, SERVER, CLIENT, last, fin_length, &arrived, &report), TCPCORE_BAD_CHECKSUM);
    CHECK(arrived.place == TCPCORE_PLACE_RECORD && arrived.id.number == 0, 1);
    CHECK(tcpcore_host_emit(&a.host, now, UINT64_MAX, last, sizeof last, &sent), TCPCORE_NOT_DUE);
    CHECK(tcpcore_host_find(&a.host, CLIENT, 1001, SERVER, PORT, &found), TCPCORE_NOBODY);
    memcpy(last, fin, fin_length);
    last[13] = RST;
    CHECK(tcpcore_host_arrive(&a.host, now, SERVER, CLIENT, last, fin_length, &arrived, &report), TCPCORE_WITHHELD);
    CHECK(tcpcore_host_stray(&a.host, now, SERVER, CLIENT, fin, fin_length, reset, sizeof reset, &count), TCPCORE_NOT_DUE);

    /* TIME-WAIT is over: the FIN is a stray's, and a reset answers it, once in 10 ms (3.10.7.1; RFC 5961, 7). */
    CHECK(tcpcore_host_timeout(&a.host, now + TIME_WAIT - 1, &told), TCPCORE_NOBODY);
    now += TIME_WAIT;
    CHECK(tcpcore_host_timeout(&a.host, now, &told), TCPCORE_DONE);
    CHECK(told.place == TCPCORE_PLACE_RECORD && told.timer == TCPCORE_TIMER_TIME_WAIT && told.id.number == 0, 1);
    CHECK(poll_at(&a), TCPCORE_NEVER);
    CHECK(tcpcore_host_arrive(&a.host, now, SERVER, CLIENT, fin, fin_length, &arrived, &report), TCPCORE_DONE);
    CHECK(arrived.place, TCPCORE_PLACE_STRAY);
    CHECK(tcpcore_host_stray(&a.host, now, SERVER, CLIENT, fin, fin_length, reset, sizeof reset, &count), TCPCORE_DONE);
    CHECK(count == TCPCORE_RESET_ROOM && reset[13] == RST && memcmp(reset + 4, fin + 8, 4) == 0, 1);
    CHECK(tcpcore_host_stray(&a.host, now + 9999, SERVER, CLIENT, fin, fin_length, reset, sizeof reset, &count), TCPCORE_NOT_DUE);
    CHECK(tcpcore_host_stray(&a.host, now + 10 * MS, SERVER, CLIENT, fin, fin_length, reset, sizeof reset, &count), TCPCORE_DONE);
    CHECK(tcpcore_host_stray(&a.host, now + SECOND, SERVER, CLIENT, fin, fin_length, reset, TCPCORE_RESET_ROOM - 1, &count), TCPCORE_ROOM);

    /* What acknowledges draws one from a listener, too (3.10.7.2, second): it asks for nothing. What is too short is nobody's. */
    CHECK(comes(&b, CLIENT, fin, 3, now), TCPCORE_PLACE_NONE);
    unsigned char data[20];
    memcpy(data, fin, sizeof data);
    data[0] = 3, data[1] = 233, data[2] = 0, data[3] = PORT, data[13] = ACK;
    CHECK(comes(&b, CLIENT, data, sizeof data, now), TCPCORE_PLACE_STRAY);

    /* With the record gone its four values are free again. */
    CHECK(tcpcore_host_open(&a.host, &connection, &none), TCPCORE_DONE);
    CHECK(none.number, client.number + 1);
    both_end();
}

/* A listener whose backlog is two: the third SYN is dropped until one is accepted, and one that is removed in its handshake leaves room. */
static void a_full_backlog(void)
{
    both_begin(2);
    struct tcpcore_host_id ids[3], first, second, third;
    for (size_t i = 0; i < 3; i++)
        ids[i] = connects(&a, (uint16_t)(1001 + i), 0);
    CHECK(same(ids[0], ids[1]) || same(ids[1], ids[2]), 0);
    unsigned char syns[3][TCPCORE_EMIT_ROOM];
    size_t lengths[3];
    struct tcpcore_host_sent sent;
    for (size_t i = 0; i < 3; i++) {
        CHECK(tcpcore_host_emit(&a.host, 0, UINT64_MAX, syns[i], sizeof syns[i], &sent), TCPCORE_DONE);
        CHECK(same(sent.id, ids[i]), 1);
        lengths[i] = (size_t)sent.length;
    }
    CHECK(comes(&b, CLIENT, syns[0], lengths[0], 0), TCPCORE_PLACE_LISTENER);
    CHECK(comes(&b, CLIENT, syns[0], lengths[0], 0), TCPCORE_PLACE_END);
    CHECK(comes(&b, CLIENT, syns[1], lengths[1], 0), TCPCORE_PLACE_LISTENER);
    CHECK(comes(&b, CLIENT, syns[2], lengths[2], 0), TCPCORE_PLACE_FULL);
    struct tcpcore_host_arrived arrived;
    struct tcpcore_arrive_report report;
    CHECK(tcpcore_host_arrive(&b.host, 0, CLIENT, SERVER, syns[2], lengths[2], &arrived, &report), TCPCORE_DONE);
    CHECK(same(arrived.id, listener), 1);
    CHECK(admits(&b, &listener, CLIENT, syns[2], lengths[2], 0, &third), TCPCORE_BACKLOG_FULL);
    CHECK(admits(&b, &listener, CLIENT, syns[1], lengths[1], 0, &third), TCPCORE_TAKEN);
    CHECK(admits(&b, &listener, CLIENT, syns[2], 3, 0, &third), TCPCORE_TOO_SHORT);

    /* Both handshakes are over: they wait in the order in which they were. */
    carries(&b, &a, 0);
    carries(&a, &b, 0);
    CHECK(comes(&b, CLIENT, syns[2], lengths[2], 0), TCPCORE_PLACE_FULL);
    CHECK(tcpcore_host_accept(&b.host, &listener, &first), TCPCORE_DONE);
    CHECK(comes(&b, CLIENT, syns[2], lengths[2], 0), TCPCORE_PLACE_LISTENER);
    CHECK(tcpcore_host_accept(&b.host, &listener, &second), TCPCORE_DONE);
    CHECK(tcpcore_host_accept(&b.host, &listener, &third), TCPCORE_NOBODY);
    tcpcore_addr addr;
    uint16_t port;
    CHECK(tcpcore_host_peer(&b.host, &first, &addr, &port), TCPCORE_DONE);
    CHECK(port, 1001);
    CHECK(tcpcore_host_peer(&b.host, &second, &addr, &port), TCPCORE_DONE);
    CHECK(port, 1002);

    /* The third is in its handshake, and goes: its name is never given again, though its slot is. */
    tcpcore_connection connection = TCPCORE_CONNECTION_INIT;
    CHECK(tcpcore_host_arrive(&b.host, 0, CLIENT, SERVER, syns[2], lengths[2], &arrived, &report), TCPCORE_DROPPED);
    third = arrived.id;
    CHECK(tcpcore_host_remove(&b.host, &third, &connection), TCPCORE_DONE);
    CHECK(tcpcore_connection_free(&connection), TCPCORE_DONE);
    CHECK(comes(&b, CLIENT, syns[2], lengths[2], 0), TCPCORE_PLACE_LISTENER);
    CHECK(tcpcore_host_arrive(&b.host, 0, CLIENT, SERVER, syns[2], lengths[2], &arrived, &report), TCPCORE_DROPPED);
    CHECK(arrived.id.slot == third.slot && arrived.id.number > third.number, 1);
    size_t count = 7;
    unsigned char out[4];
    struct tcpcore_status status;
    CHECK(tcpcore_host_send(&b.host, 0, &third, "x", 1, &count), TCPCORE_GONE);
    CHECK(count, 0);
    CHECK(tcpcore_host_receive(&b.host, 0, &third, out, sizeof out, &count), TCPCORE_GONE);
    CHECK(tcpcore_host_acknowledge(&b.host, 0, &third), TCPCORE_GONE);
    CHECK(tcpcore_host_close(&b.host, 0, &third), TCPCORE_GONE);
    CHECK(tcpcore_host_abort(&b.host, 0, &third), TCPCORE_GONE);
    CHECK(tcpcore_host_status(&b.host, &third, &status), TCPCORE_GONE);
    CHECK(tcpcore_host_peer(&b.host, &third, &addr, &port), TCPCORE_GONE);
    CHECK(tcpcore_host_remove(&b.host, &third, &connection), TCPCORE_GONE);
    CHECK(tcpcore_host_retire(&b.host, &third, &connection), TCPCORE_GONE);

    /* Nobody listens any more: the connections stay, and a SYN is a stray's, which a reset answers (3.10.7.1). */
    CHECK(tcpcore_host_listen(&b.host, SERVER, PORT, 1, &third), TCPCORE_TAKEN);
    CHECK(tcpcore_host_unlisten(&b.host, &listener), TCPCORE_DONE);
    CHECK(tcpcore_host_unlisten(&b.host, &listener), TCPCORE_GONE);
    CHECK(tcpcore_host_accept(&b.host, &listener, &third), TCPCORE_GONE);
    CHECK(admits(&b, &listener, CLIENT, syns[2], lengths[2], 0, &third), TCPCORE_TAKEN);
    syns[2][1]++;
    CHECK(admits(&b, &listener, CLIENT, syns[2], lengths[2], 0, &third), TCPCORE_GONE);
    CHECK(comes(&b, CLIENT, syns[2], lengths[2], 0), TCPCORE_PLACE_STRAY);
    CHECK(phase_of(&b, first), TCPCORE_PHASE_ESTABLISHED);
    CHECK(tcpcore_host_abort(&b.host, 0, &first), TCPCORE_DONE);
    CHECK(tcpcore_host_listen(&b.host, SERVER, PORT, 1, &third), TCPCORE_DONE);
    CHECK(third.slot == listener.slot && third.number > listener.number, 1);
    both_end();
}

/* No connection moves in that has no peer, or whose four values are somebody's; none moves out over another. */
static void what_moves(void)
{
    both_begin(1);
    struct tcpcore_host_id id, client = connects(&a, 1001, 0);
    tcpcore_config config = config_of(CLIENT, 1001, 7);
    tcpcore_connection connection = TCPCORE_CONNECTION_INIT;
    CHECK(tcpcore_host_open(&a.host, &connection, &id), TCPCORE_NO_END);
    CHECK(tcpcore_connection_listen(&connection, &config, &RULES, 0, a.blocks[9], sizeof *a.blocks), TCPCORE_DONE);
    CHECK(tcpcore_host_open(&a.host, &connection, &id), TCPCORE_NOT_CONNECTED);
    CHECK(tcpcore_host_remove(&a.host, &client, &connection), TCPCORE_IN_USE);
    CHECK(tcpcore_connection_free(&connection), TCPCORE_DONE);
    CHECK(tcpcore_connection_connect(&connection, &config, &RULES, SERVER, PORT, 0, a.blocks[9], sizeof *a.blocks), TCPCORE_DONE);
    CHECK(tcpcore_host_open(&a.host, &connection, &id), TCPCORE_TAKEN);
    CHECK(id.number | id.slot, 0);
    CHECK(tcpcore_connection_free(&connection), TCPCORE_DONE);

    /* It moves out as it was, and goes on by itself. */
    struct tcpcore_status status;
    CHECK(tcpcore_host_remove(&a.host, &client, &connection), TCPCORE_DONE);
    CHECK(tcpcore_connection_status(&connection, &status), TCPCORE_DONE);
    CHECK(status.phase, TCPCORE_PHASE_SYN_SENT);
    struct tcpcore_connection_segment segment;
    CHECK(tcpcore_connection_emit(&connection, 0, UINT64_MAX, last, sizeof last, &segment), TCPCORE_DONE);
    CHECK(last[13], SYN);
    CHECK(tcpcore_host_open(&a.host, &connection, &id), TCPCORE_DONE);
    CHECK(id.slot == client.slot && id.number == client.number + 1, 1);
    CHECK(tcpcore_connection_status(&connection, &status), TCPCORE_NO_END);
    both_end();
}

/* What is chosen of a connection by its name is that of the connection: a delayed acknowledgement (RFC 9293, 3.8.6.3), what is sent again at
   once (RFC 5681, 3.2), and the user timeout (RFC 9293, 3.8.3). */
static void what_is_chosen(void)
{
    both_begin(1);
    struct tcpcore_host_id client = connects(&a, 1001, 0), server, none = {0, 0};
    while (carries(&a, &b, 0) + carries(&b, &a, 0) > 0)
        ;
    CHECK(tcpcore_host_accept(&b.host, &listener, &server), TCPCORE_DONE);
    CHECK(tcpcore_host_resend_first(&a.host, 0, &client), TCPCORE_NO_RULE);
    CHECK(tcpcore_host_resend(&a.host, 0, &client, 1, 5), TCPCORE_NO_RULE);
    struct tcpcore_policy policy = {.ack_delay = 100 * MS, .override_timeout = TCPCORE_NEVER};
    CHECK(tcpcore_host_set_policy(&b.host, &server, &policy), TCPCORE_DONE);

    size_t count;
    struct tcpcore_host_sent sent;
    CHECK(tcpcore_host_send(&a.host, 0, &client, "text", 4, &count), TCPCORE_DONE);
    CHECK(carries(&a, &b, 0), 1);
    CHECK(carries(&b, &a, 0), 0);
    CHECK(poll_at(&b), 100 * MS);
    for (int again = 0; again < 2; again++) {
        CHECK(again ? tcpcore_host_resend(&a.host, MS, &client, 1, 5) : tcpcore_host_resend_first(&a.host, MS, &client), TCPCORE_DONE);
        CHECK(tcpcore_host_emit(&a.host, MS, UINT64_MAX, last, sizeof last, &sent), TCPCORE_DONE);
        CHECK(same(sent.id, client) && sent.position == 1 && sent.count == 4 && memcmp(last + 20, "text", 4) == 0, 1);
        CHECK(carries(&a, &b, MS), 0);
    }
    CHECK(tcpcore_host_resend(&a.host, MS, &client, 5, 9), TCPCORE_NO_RULE);

    /* 9 s without an answer end it, of which 2 have passed when that is chosen. */
    struct tcpcore_host_told told;
    uint64_t now = 0;
    CHECK(tcpcore_host_timeout(&a.host, 2 * SECOND, &told) == TCPCORE_DONE && told.timer == TCPCORE_TIMER_RETRANSMIT, 1);
    carries(&a, &b, 2 * SECOND);
    CHECK(tcpcore_host_set_user_timeout(&a.host, &client, 9 * SECOND), TCPCORE_DONE);
    do {
        now = poll_at(&a);
        CHECK(now <= 9 * SECOND, 1);
        CHECK(tcpcore_host_timeout(&a.host, now, &told), TCPCORE_DONE);
        while (tcpcore_host_emit(&a.host, now, UINT64_MAX, last, sizeof last, &sent) != TCPCORE_NOBODY)
            ;
    } while (told.timer == TCPCORE_TIMER_RETRANSMIT);
    CHECK(now == 9 * SECOND && told.timer == TCPCORE_TIMER_USER && phase_of(&a, client) == TCPCORE_PHASE_CLOSED, 1);

    CHECK(tcpcore_host_set_policy(&a.host, &none, &policy), TCPCORE_GONE);
    CHECK(tcpcore_host_set_user_timeout(&a.host, &none, SECOND), TCPCORE_GONE);
    CHECK(tcpcore_host_resend_first(&a.host, now, &none), TCPCORE_GONE);
    CHECK(tcpcore_host_resend(&a.host, now, &none, 1, 5), TCPCORE_GONE);
    both_end();
}

/* Pointers, lengths, copies and overlaps: refused, and nothing changes. */
static void misuse(void)
{
    static unsigned char block[TCPCORE_HOST_MEMORY(4, 4, 2, 8)];
    tcpcore_host host = TCPCORE_HOST_INIT, copy;
    struct tcpcore_host_id id = {9, 9};
    const size_t huge = (size_t)PTRDIFF_MAX + 1;
    CHECK(tcpcore_host_new(NULL, 0, 0, block, sizeof block), TCPCORE_NULL);
    CHECK(tcpcore_host_new(&host, 0, 0, NULL, sizeof block), TCPCORE_NULL);
    CHECK(tcpcore_host_new(&host, 0, 0, block, huge), TCPCORE_LENGTH);
    CHECK(tcpcore_host_new(&host, 0, 0, &host, sizeof host), TCPCORE_OVERLAP);
    CHECK(tcpcore_host_new(&host, 0, 0, block, 512), TCPCORE_NO_MEMORY);
    CHECK(tcpcore_host_listen(&host, SERVER, PORT, 1, &id), TCPCORE_NO_END);
    CHECK(id.number | id.slot, 0);
    CHECK(tcpcore_host_new(&host, 0, 0, block, sizeof block), TCPCORE_DONE);
    CHECK(tcpcore_host_new(&host, 0, 0, block, sizeof block), TCPCORE_IN_USE);
    copy = host;
    uint64_t at = 7;
    CHECK(tcpcore_host_poll_at(&copy, &at), TCPCORE_COPIED);
    CHECK(at, 0);
    CHECK(tcpcore_host_free(&copy), TCPCORE_COPIED);
    CHECK(tcpcore_host_poll_at(&host, NULL), TCPCORE_NULL);
    CHECK(tcpcore_host_poll_at(&host, &host.opaque[1]), TCPCORE_OVERLAP);
    tcpcore_addr nowhere = {{0, 0, 0, 0}};
    CHECK(tcpcore_host_listen(&host, nowhere, PORT, 1, &id), TCPCORE_BAD_ADDR);
    CHECK(tcpcore_host_listen(&host, SERVER, 0, 1, &id), TCPCORE_BAD_PORT);
    CHECK(tcpcore_host_listen(&host, SERVER, PORT, sizeof block, &id), TCPCORE_NO_MEMORY);
    CHECK(tcpcore_host_listen(&host, SERVER, PORT, 1, NULL), TCPCORE_NULL);
    CHECK(tcpcore_host_listen(&host, SERVER, PORT, 1, &id), TCPCORE_DONE);
    CHECK(tcpcore_host_unlisten(&host, NULL), TCPCORE_NULL);

    tcpcore_connection connection = TCPCORE_CONNECTION_INIT;
    tcpcore_config config = config_of(CLIENT, 1001, 7);
    struct tcpcore_host_id end;
    CHECK(tcpcore_connection_connect(&connection, &config, &RULES, SERVER, PORT, 0, a.blocks[0], sizeof *a.blocks), TCPCORE_DONE);
    tcpcore_connection other = connection;
    CHECK(tcpcore_host_open(&host, NULL, &end), TCPCORE_NULL);
    CHECK(tcpcore_host_open(&host, &other, &end), TCPCORE_COPIED);
    CHECK(tcpcore_host_open(&host, &connection, NULL), TCPCORE_NULL);
    CHECK(tcpcore_host_open(&host, &connection, (struct tcpcore_host_id *)(void *)&connection), TCPCORE_OVERLAP);
    CHECK(tcpcore_host_open(&host, (tcpcore_connection *)(void *)&host, &end), TCPCORE_OVERLAP);
    CHECK(tcpcore_host_admit(&host, NULL, &connection, CLIENT, SERVER, last, 20, &end), TCPCORE_NULL);
    CHECK(tcpcore_host_admit(&host, &id, &connection, CLIENT, SERVER, NULL, 20, &end), TCPCORE_NULL);
    CHECK(tcpcore_host_admit(&host, &id, &connection, CLIENT, SERVER, last, huge, &end), TCPCORE_LENGTH);
    CHECK(tcpcore_host_admit(&host, &id, &connection, CLIENT, SERVER, &connection, 8, &end), TCPCORE_OVERLAP);
    CHECK(tcpcore_host_open(&host, &connection, &end), TCPCORE_DONE);
    CHECK(tcpcore_host_open(&host, &other, &end), TCPCORE_COPIED);

    struct tcpcore_host_arrived arrived;
    struct tcpcore_arrive_report report;
    CHECK(tcpcore_host_arrive(&host, 0, CLIENT, SERVER, NULL, 1, &arrived, &report), TCPCORE_NULL);
    CHECK(tcpcore_host_arrive(&host, 0, CLIENT, SERVER, last, 20, NULL, &report), TCPCORE_NULL);
    CHECK(tcpcore_host_arrive(&host, 0, CLIENT, SERVER, last, 20, &arrived, NULL), TCPCORE_NULL);
    struct tcpcore_arrive_report *over = (struct tcpcore_arrive_report *)(void *)&arrived;
    CHECK(tcpcore_host_arrive(&host, 0, CLIENT, SERVER, last, 20, &arrived, over), TCPCORE_OVERLAP);
    CHECK(tcpcore_host_arrive(&host, 0, CLIENT, SERVER, NULL, 0, &arrived, &report), TCPCORE_DONE);
    CHECK(arrived.place, TCPCORE_PLACE_NONE);
    struct tcpcore_host_sent sent;
    CHECK(tcpcore_host_emit(&host, 0, UINT64_MAX, last, TCPCORE_EMIT_ROOM - 1, &sent), TCPCORE_ROOM);
    CHECK(tcpcore_host_emit(&host, 0, UINT64_MAX, NULL, 0, &sent), TCPCORE_ROOM);
    CHECK(tcpcore_host_emit(&host, 0, UINT64_MAX, &host, sizeof host, &sent), TCPCORE_OVERLAP);
    CHECK(tcpcore_host_emit(&host, 0, UINT64_MAX, last, sizeof last, (struct tcpcore_host_sent *)(void *)last), TCPCORE_OVERLAP);
    CHECK(tcpcore_host_arrive_vouched(&host, 0, CLIENT, SERVER, NULL, 1, &arrived, &report), TCPCORE_NULL);
    CHECK(tcpcore_host_arrive_vouched(&host, 0, CLIENT, SERVER, last, 20, &arrived, over), TCPCORE_OVERLAP);
    CHECK(tcpcore_host_arrive_vouched(&copy, 0, CLIENT, SERVER, last, 20, &arrived, &report), TCPCORE_COPIED);
    CHECK(tcpcore_host_arrive_vouched(&host, 0, CLIENT, SERVER, NULL, 0, &arrived, &report), TCPCORE_DONE);
    CHECK(arrived.place, TCPCORE_PLACE_NONE);
    struct tcpcore_connection_segment segment;
    struct tcpcore_train train;
    CHECK(tcpcore_host_emit_by_id(&host, 0, NULL, UINT64_MAX, last, sizeof last, &segment), TCPCORE_NULL);
    CHECK(tcpcore_host_emit_by_id(&host, 0, &end, UINT64_MAX, last, sizeof last, NULL), TCPCORE_NULL);
    CHECK(tcpcore_host_emit_by_id(&host, 0, &end, UINT64_MAX, last, TCPCORE_EMIT_ROOM - 1, &segment), TCPCORE_ROOM);
    CHECK(tcpcore_host_emit_by_id(&host, 0, &end, UINT64_MAX, &host, sizeof host, &segment), TCPCORE_OVERLAP);
    CHECK(tcpcore_host_emit_by_id(&host, 0, &end, UINT64_MAX, last, sizeof last, (struct tcpcore_connection_segment *)(void *)last),
          TCPCORE_OVERLAP);
    CHECK(tcpcore_host_emit_by_id(&copy, 0, &end, UINT64_MAX, last, sizeof last, &segment), TCPCORE_COPIED);
    CHECK(tcpcore_host_emit_train(&host, 0, NULL, UINT64_MAX, last, sizeof last, 1, &train), TCPCORE_NULL);
    CHECK(tcpcore_host_emit_train(&host, 0, &end, UINT64_MAX, last, sizeof last, 1, NULL), TCPCORE_NULL);
    CHECK(tcpcore_host_emit_train(&host, 0, &end, UINT64_MAX, last, TCPCORE_EMIT_ROOM - 1, 1, &train), TCPCORE_ROOM);
    CHECK(tcpcore_host_emit_train(&host, 0, &end, UINT64_MAX, last, sizeof last, 1, (struct tcpcore_train *)(void *)last), TCPCORE_OVERLAP);
    CHECK(tcpcore_host_emit_train(&copy, 0, &end, UINT64_MAX, last, sizeof last, 1, &train), TCPCORE_COPIED);
    CHECK(tcpcore_host_find(&host, CLIENT, 1001, SERVER, PORT, NULL), TCPCORE_NULL);
    CHECK(tcpcore_host_find(&host, CLIENT, 1001, SERVER, PORT, (struct tcpcore_host_id *)(void *)&host), TCPCORE_OVERLAP);
    CHECK(tcpcore_host_find(&copy, CLIENT, 1001, SERVER, PORT, &end), TCPCORE_COPIED);
    size_t count;
    CHECK(tcpcore_host_stray(&host, 0, CLIENT, SERVER, last, 20, last, 20, &count), TCPCORE_OVERLAP);
    CHECK(tcpcore_host_stray(&host, 0, CLIENT, SERVER, last, 20, NULL, 20, &count), TCPCORE_NULL);
    CHECK(tcpcore_host_timeout(&host, 0, NULL), TCPCORE_NULL);
    CHECK(tcpcore_host_send(&host, 0, NULL, "x", 1, &count), TCPCORE_NULL);
    CHECK(tcpcore_host_send(&host, 0, &end, NULL, 1, &count), TCPCORE_NULL);
    CHECK(tcpcore_host_receive(&host, 0, &end, &host, sizeof host, &count), TCPCORE_OVERLAP);
    struct tcpcore_lent lent;
    CHECK(tcpcore_host_peek(&host, NULL, &lent), TCPCORE_NULL);
    CHECK(tcpcore_host_peek(&host, &end, NULL), TCPCORE_NULL);
    CHECK(tcpcore_host_peek(&copy, &end, &lent), TCPCORE_COPIED);
    CHECK(tcpcore_host_consume(&host, 0, NULL, 1, &count), TCPCORE_NULL);
    CHECK(tcpcore_host_consume(&host, 0, &end, 1, (size_t *)(void *)&host), TCPCORE_OVERLAP);
    CHECK(tcpcore_host_acknowledge(&host, 0, NULL), TCPCORE_NULL);
    CHECK(tcpcore_host_close(&copy, 0, &end), TCPCORE_COPIED);
    struct tcpcore_policy policy = TCPCORE_POLICY_DEFAULT;
    CHECK(tcpcore_host_set_policy(&host, &end, NULL), TCPCORE_NULL);
    CHECK(tcpcore_host_set_policy(&host, NULL, &policy), TCPCORE_NULL);
    CHECK(tcpcore_host_set_user_timeout(&host, NULL, 0), TCPCORE_NULL);
    CHECK(tcpcore_host_set_keep_alive(&host, 0, &end, NULL), TCPCORE_NULL);
    CHECK(tcpcore_host_set_pacing(&host, NULL, 1), TCPCORE_NULL);
    CHECK(tcpcore_host_resend_first(&copy, 0, &end), TCPCORE_COPIED);
    CHECK(tcpcore_host_resend(&host, 0, NULL, 0, 1), TCPCORE_NULL);
    CHECK(tcpcore_host_status(&host, &end, NULL), TCPCORE_NULL);
    CHECK(tcpcore_host_retire(&host, NULL, &connection), TCPCORE_NULL);
    CHECK(tcpcore_host_remove(&host, &end, (tcpcore_connection *)(void *)&host), TCPCORE_OVERLAP);
    CHECK(tcpcore_host_remove(&host, &end, &other), TCPCORE_COPIED);
    CHECK(tcpcore_host_free(&host), TCPCORE_DONE);
    CHECK(tcpcore_host_poll_at(&host, &at), TCPCORE_NO_END);
    CHECK(tcpcore_host_send(&host, 0, &end, "x", 1, &count), TCPCORE_NO_END);
    CHECK(tcpcore_host_peek(&host, &end, &lent), TCPCORE_NO_END);
    CHECK(tcpcore_host_consume(&host, 0, &end, 1, &count), TCPCORE_NO_END);
    CHECK(tcpcore_host_remove(&host, &end, &connection), TCPCORE_NO_END);
    CHECK(tcpcore_host_arrive_vouched(&host, 0, CLIENT, SERVER, last, 20, &arrived, &report), TCPCORE_NO_END);
    CHECK(tcpcore_host_emit_by_id(&host, 0, &end, UINT64_MAX, last, sizeof last, &segment), TCPCORE_NO_END);
    CHECK(tcpcore_host_emit_train(&host, 0, &end, UINT64_MAX, last, sizeof last, 1, &train), TCPCORE_NO_END);
    CHECK(tcpcore_host_find(&host, CLIENT, 1001, SERVER, PORT, &end), TCPCORE_NO_END);
    CHECK(tcpcore_host_new(&host, 0, 0, block, sizeof block), TCPCORE_DONE);
    CHECK(tcpcore_host_free(&host), TCPCORE_DONE);
}

int main(void)
{
    one_connection();
    a_full_backlog();
    what_moves();
    what_is_chosen();
    misuse();
    printf("host: each call answers and reports what it has to, and no name finds another's connection\n");
    return checks > 100 ? 0 : 1;
}
