/* The test of misuse, of what is lent and of the calls for a device that sums: NULL, copied structs, huge lengths, short room, pointers
   over the struct or over the buffer, no end. */
#include "carry.h"
#include "misuse.h"

static unsigned char blocks[2][TCPCORE_MEMORY(1000, 1000)];

static void make(tcpcore_end *end, tcpcore_addr addr)
{
    tcpcore_config config = good_config(addr);
    CHECK(tcpcore_new(end, &config, blocks[addr.byte[3] - 1], sizeof *blocks), TCPCORE_DONE);
}

/* Nothing is lent: no address is told. */
static void nothing_lent(const struct tcpcore_lent *lent)
{
    CHECK(!lent->first.at && !lent->second.at, 1);
    CHECK(lent->first.length + lent->second.length + lent->ends, 0);
    CHECK(is_zero(lent->reserved, sizeof lent->reserved), 1);
}

static void no_parts(const struct tcpcore_parts *parts)
{
    CHECK(!parts->first.at && !parts->second.at, 1);
    CHECK(parts->first.length + parts->second.length + parts->header, 0);
    CHECK(memcmp(&parts->to, &NOWHERE, sizeof NOWHERE), 0);
    CHECK(is_zero(parts->reserved, sizeof parts->reserved), 1);
}

/* No segment was written: all is 0. */
static void no_train(const struct tcpcore_train *train) { CHECK(is_zero(train, sizeof *train), 1); }

/* With a guard, and summed. */
static const struct tcpcore_intake INTAKE = {0};

/* Each call answers `wanted`, tells 0, and leaves the buffer as it is. */
static void every_call(tcpcore_end *end, uint32_t wanted)
{
    unsigned char buffer[TCPCORE_EMIT_ROOM];
    struct tcpcore_lent lent;
    struct tcpcore_parts parts;
    struct tcpcore_arrive_report report;
    struct tcpcore_train train;
    tcpcore_addr to = THERE;
    size_t count = 7, taken = 7;
    memset(buffer, 0xee, sizeof buffer);
    memset(&lent, 7, sizeof lent);
    memset(&parts, 7, sizeof parts);
    memset(&report, 7, sizeof report);
    CHECK(tcpcore_peek(end, &lent), wanted);
    nothing_lent(&lent);
    CHECK(tcpcore_consume(end, 5, &taken), wanted);
    CHECK(taken, 0);
    CHECK(tcpcore_arrive_vouched(end, THERE, HERE, "short", 5), wanted);
    CHECK(tcpcore_arrive_vouched_with_report(end, THERE, HERE, "short", 5, &report), wanted);
    CHECK(is_zero(&report, sizeof report), 1);
    memset(&report, 7, sizeof report);
    CHECK(tcpcore_arrive_by(end, THERE, HERE, "short", 5, &INTAKE, &report), wanted);
    CHECK(is_zero(&report, sizeof report), 1);
    CHECK(tcpcore_emit_partial(end, buffer, sizeof buffer, &to, &count), wanted);
    CHECK(count, 0);
    CHECK(memcmp(&to, &NOWHERE, sizeof to), 0);
    memset(&train, 7, sizeof train);
    CHECK(tcpcore_emit_train(end, buffer, sizeof buffer, 9, &train), wanted);
    no_train(&train);
    CHECK(tcpcore_parts(end, buffer, sizeof buffer, &parts), wanted);
    no_parts(&parts);
    CHECK(tcpcore_sent(end), wanted);
    to = THERE;
    count = 7;
    CHECK(tcpcore_emit_acknowledgement(end, buffer, sizeof buffer, &to, &count), wanted);
    CHECK(count, 0);
    CHECK(memcmp(&to, &NOWHERE, sizeof to), 0);
    CHECK(tcpcore_resend_first(end), wanted);
    CHECK(tcpcore_resend(end, 0, 9), wanted);
    for (size_t i = 0; i < sizeof buffer; i++)
        CHECK(buffer[i], 0xee);
}

/* No end, a struct that nobody set, a copy, a freed end. */
static void no_ends(void)
{
    tcpcore_end end = TCPCORE_END_INIT, copy;
    every_call(NULL, TCPCORE_NULL);
    every_call(&end, TCPCORE_NO_END);
    memset(&copy, 0xff, sizeof copy);
    every_call(&copy, TCPCORE_COPIED);
    make(&end, HERE);
    copy = end;
    every_call(&copy, TCPCORE_COPIED);
    CHECK(tcpcore_free(&end), TCPCORE_DONE);
    every_call(&end, TCPCORE_NO_END);
    every_call(&copy, TCPCORE_COPIED);
}

/* NULL, lengths that no buffer has, and too little room: nothing changes. */
static void pointers(tcpcore_end *end)
{
    unsigned char buffer[TCPCORE_EMIT_ROOM] = {0};
    struct tcpcore_parts parts;
    struct tcpcore_arrive_report report;
    struct tcpcore_train train;
    tcpcore_addr to = THERE;
    size_t count = 7;
    CHECK(tcpcore_peek(end, NULL), TCPCORE_NULL);
    CHECK(tcpcore_consume(end, 5, NULL), TCPCORE_NULL);
    CHECK(tcpcore_arrive_vouched(end, THERE, HERE, NULL, 20), TCPCORE_NULL);
    CHECK(tcpcore_arrive_vouched(end, THERE, HERE, NULL, 0), TCPCORE_TOO_SHORT);
    CHECK(tcpcore_arrive_vouched(end, THERE, HERE, buffer, HUGE_LENGTH), TCPCORE_LENGTH);
    CHECK(tcpcore_arrive_vouched_with_report(end, THERE, HERE, NULL, 20, &report), TCPCORE_NULL);
    CHECK(tcpcore_arrive_vouched_with_report(end, THERE, HERE, buffer, 20, NULL), TCPCORE_NULL);
    CHECK(tcpcore_arrive_vouched_with_report(end, THERE, HERE, buffer, HUGE_LENGTH, &report), TCPCORE_LENGTH);
    CHECK(tcpcore_arrive_by(end, THERE, HERE, NULL, 20, &INTAKE, &report), TCPCORE_NULL);
    CHECK(tcpcore_arrive_by(end, THERE, HERE, buffer, 20, NULL, &report), TCPCORE_NULL);
    CHECK(tcpcore_arrive_by(end, THERE, HERE, buffer, 20, &INTAKE, NULL), TCPCORE_NULL);
    CHECK(tcpcore_arrive_by(end, THERE, HERE, buffer, HUGE_LENGTH, &INTAKE, &report), TCPCORE_LENGTH);
    CHECK(tcpcore_emit_partial(end, NULL, sizeof buffer, &to, &count), TCPCORE_NULL);
    CHECK(tcpcore_emit_partial(end, buffer, sizeof buffer, NULL, &count), TCPCORE_NULL);
    CHECK(tcpcore_emit_partial(end, buffer, sizeof buffer, &to, NULL), TCPCORE_NULL);
    CHECK(tcpcore_emit_partial(end, buffer, SIZE_MAX, &to, &count), TCPCORE_LENGTH);
    CHECK(tcpcore_emit_partial(end, buffer, TCPCORE_EMIT_ROOM - 1, &to, &count), TCPCORE_ROOM);
    CHECK(tcpcore_emit_train(end, NULL, sizeof buffer, 9, &train), TCPCORE_NULL);
    CHECK(tcpcore_emit_train(end, buffer, sizeof buffer, 9, NULL), TCPCORE_NULL);
    CHECK(tcpcore_emit_train(end, buffer, SIZE_MAX, 9, &train), TCPCORE_LENGTH);
    memset(&train, 7, sizeof train);
    CHECK(tcpcore_emit_train(end, buffer, TCPCORE_EMIT_ROOM - 1, 9, &train), TCPCORE_ROOM);
    no_train(&train);
    memset(&train, 7, sizeof train);
    CHECK(tcpcore_emit_train(end, NULL, 0, 9, &train), TCPCORE_ROOM);
    no_train(&train);
    CHECK(tcpcore_emit_acknowledgement(end, NULL, sizeof buffer, &to, &count), TCPCORE_NULL);
    CHECK(tcpcore_emit_acknowledgement(end, buffer, sizeof buffer, NULL, &count), TCPCORE_NULL);
    CHECK(tcpcore_emit_acknowledgement(end, buffer, sizeof buffer, &to, NULL), TCPCORE_NULL);
    CHECK(tcpcore_emit_acknowledgement(end, buffer, SIZE_MAX, &to, &count), TCPCORE_LENGTH);
    CHECK(tcpcore_emit_acknowledgement(end, buffer, TCPCORE_EMIT_ROOM - 1, &to, &count), TCPCORE_ROOM);
    CHECK(tcpcore_parts(end, NULL, TCPCORE_HEADER_ROOM, &parts), TCPCORE_NULL);
    CHECK(tcpcore_parts(end, buffer, TCPCORE_HEADER_ROOM, NULL), TCPCORE_NULL);
    CHECK(tcpcore_parts(end, buffer, SIZE_MAX, &parts), TCPCORE_LENGTH);
    memset(&parts, 7, sizeof parts);
    CHECK(tcpcore_parts(end, buffer, TCPCORE_HEADER_ROOM - 1, &parts), TCPCORE_ROOM);
    no_parts(&parts);
    CHECK(tcpcore_parts(end, NULL, 0, &parts), TCPCORE_ROOM);
    CHECK(is_zero(buffer, sizeof buffer), 1);
    CHECK(count, 0);
}

/* What a call writes, over the struct word by word, and over the buffer of the same call; and a buffer over the struct. */
static void overlaps(void)
{
    struct {
        tcpcore_end end;
        unsigned char behind[TCPCORE_EMIT_ROOM];
    } place = {TCPCORE_END_INIT, {0}};
    union {
        tcpcore_addr to;
        size_t count;
        struct tcpcore_arrive_report taken;
        struct tcpcore_parts parts;
        struct tcpcore_train train;
        unsigned char bytes[TCPCORE_EMIT_ROOM];
    } shared = {.bytes = {0}};
    unsigned char *first = (unsigned char *)&place.end;
    struct tcpcore_parts parts;
    struct tcpcore_arrive_report report;
    struct tcpcore_train train;
    tcpcore_addr to;
    size_t count;
    make(&place.end, HERE);
    CHECK(tcpcore_connect(&place.end, THERE, 9), TCPCORE_DONE);
    tcpcore_end before = place.end;
    for (size_t at = 0; at < sizeof place.end; at += sizeof(void *)) {
        void *over = first + at;
        CHECK(tcpcore_peek(&place.end, over), TCPCORE_OVERLAP);
        CHECK(tcpcore_consume(&place.end, 5, over), TCPCORE_OVERLAP);
        CHECK(tcpcore_arrive_vouched(&place.end, THERE, HERE, over, 20), TCPCORE_OVERLAP);
        CHECK(tcpcore_arrive_vouched_with_report(&place.end, THERE, HERE, over, 20, &report), TCPCORE_OVERLAP);
        CHECK(tcpcore_arrive_vouched_with_report(&place.end, THERE, HERE, place.behind, 20, over), TCPCORE_OVERLAP);
        CHECK(tcpcore_arrive_by(&place.end, THERE, HERE, over, 20, &INTAKE, &report), TCPCORE_OVERLAP);
        CHECK(tcpcore_arrive_by(&place.end, THERE, HERE, place.behind, 20, &INTAKE, over), TCPCORE_OVERLAP);
        CHECK(tcpcore_emit_partial(&place.end, over, TCPCORE_EMIT_ROOM, &to, &count), TCPCORE_OVERLAP);
        CHECK(tcpcore_emit_acknowledgement(&place.end, over, TCPCORE_EMIT_ROOM, &to, &count), TCPCORE_OVERLAP);
        CHECK(tcpcore_emit_partial(&place.end, place.behind, TCPCORE_EMIT_ROOM, over, &count), TCPCORE_OVERLAP);
        CHECK(tcpcore_emit_partial(&place.end, place.behind, TCPCORE_EMIT_ROOM, &to, over), TCPCORE_OVERLAP);
        CHECK(tcpcore_emit_train(&place.end, over, TCPCORE_EMIT_ROOM, 9, &train), TCPCORE_OVERLAP);
        CHECK(tcpcore_emit_train(&place.end, place.behind, TCPCORE_EMIT_ROOM, 9, over), TCPCORE_OVERLAP);
        CHECK(tcpcore_parts(&place.end, over, TCPCORE_HEADER_ROOM, &parts), TCPCORE_OVERLAP);
        CHECK(tcpcore_parts(&place.end, place.behind, TCPCORE_HEADER_ROOM, over), TCPCORE_OVERLAP);
        CHECK(memcmp(&place.end, &before, sizeof before), 0);
        CHECK(is_zero(place.behind, sizeof place.behind), 1);
    }
    CHECK(tcpcore_arrive_vouched_with_report(&place.end, THERE, HERE, shared.bytes, 20, &shared.taken), TCPCORE_OVERLAP);
    CHECK(tcpcore_emit_partial(&place.end, shared.bytes, sizeof shared.bytes, &shared.to, &count), TCPCORE_OVERLAP);
    CHECK(tcpcore_emit_partial(&place.end, shared.bytes, sizeof shared.bytes, &to, &shared.count), TCPCORE_OVERLAP);
    CHECK(tcpcore_emit_partial(&place.end, place.behind, sizeof place.behind, &shared.to, &shared.count), TCPCORE_OVERLAP);
    CHECK(tcpcore_emit_train(&place.end, shared.bytes, sizeof shared.bytes, 9, &shared.train), TCPCORE_OVERLAP);
    CHECK(tcpcore_parts(&place.end, shared.bytes, sizeof shared.bytes, &shared.parts), TCPCORE_OVERLAP);
    CHECK(is_zero(shared.bytes, sizeof shared.bytes), 1);
    /* None of it changed the end: the SYN is due, 20 bytes and 4 + 2 of options, in whole words. */
    pointers(&place.end);
    CHECK(tcpcore_parts(&place.end, place.behind, TCPCORE_HEADER_ROOM, &parts), TCPCORE_DONE);
    CHECK(parts.header, 28);
    CHECK(parts.first.length + parts.second.length, 0);
    CHECK(memcmp(&parts.to, &THERE, sizeof THERE), 0);
    CHECK(tcpcore_sent(&place.end), TCPCORE_DONE);
    memset(&parts, 7, sizeof parts);
    CHECK(tcpcore_parts(&place.end, place.behind, TCPCORE_HEADER_ROOM, &parts), TCPCORE_NOT_DUE);
    no_parts(&parts);
    CHECK(tcpcore_sent(&place.end), TCPCORE_DONE);
    CHECK(tcpcore_emit_partial(&place.end, place.behind, sizeof place.behind, &to, &count), TCPCORE_NOT_DUE);
    memset(&train, 7, sizeof train);
    CHECK(tcpcore_emit_train(&place.end, place.behind, sizeof place.behind, 9, &train), TCPCORE_NOT_DUE);
    no_train(&train);
    CHECK(tcpcore_free(&place.end), TCPCORE_DONE);
}

/* Before, in and behind a connection: the answers of tcpcore_receive. */
static void answers(void)
{
    tcpcore_end end = TCPCORE_END_INIT, peer = TCPCORE_END_INIT;
    struct tcpcore_lent lent;
    size_t count = 7;
    make(&end, HERE);
    make(&peer, THERE);
    CHECK(tcpcore_peek(&end, &lent), TCPCORE_NOT_OPEN);
    nothing_lent(&lent);
    CHECK(tcpcore_consume(&end, 5, &count), TCPCORE_NOT_OPEN);
    CHECK(count, 0);
    CHECK(tcpcore_listen(&peer), TCPCORE_DONE);
    CHECK(tcpcore_connect(&end, THERE, 9), TCPCORE_DONE);
    for (int turn = 0; turn < 2; turn++) {
        carry(&end, HERE, &peer);
        carry(&peer, THERE, &end);
    }
    CHECK(tcpcore_peek(&peer, &lent), TCPCORE_NOTHING);
    nothing_lent(&lent);
    CHECK(tcpcore_consume(&peer, 5, &count), TCPCORE_DONE);
    CHECK(count, 0);
    CHECK(tcpcore_send(&end, "abcdef", 6, &count), TCPCORE_DONE);
    CHECK(tcpcore_close(&end), TCPCORE_DONE);
    carry(&end, HERE, &peer);
    CHECK(tcpcore_consume(&peer, 0, &count), TCPCORE_DONE);
    CHECK(count, 0);
    CHECK(tcpcore_consume(&peer, 2, &count), TCPCORE_DONE);
    CHECK(count, 2);
    CHECK(tcpcore_peek(&peer, &lent), TCPCORE_DONE);
    CHECK(lent.first.length == 4 && memcmp(lent.first.at, "cdef", 4) == 0 && !lent.second.at && lent.ends == 1, 1);
    CHECK(tcpcore_consume(&peer, SIZE_MAX, &count), TCPCORE_DONE);
    CHECK(count, 4);
    CHECK(tcpcore_peek(&peer, &lent), TCPCORE_END_OF_STREAM);
    nothing_lent(&lent);
    CHECK(tcpcore_consume(&peer, 5, &count), TCPCORE_DONE);
    CHECK(tcpcore_abort(&peer), TCPCORE_DONE);
    CHECK(tcpcore_peek(&peer, &lent), TCPCORE_ENDED);
    CHECK(tcpcore_consume(&peer, 5, &count), TCPCORE_ENDED);
    CHECK(count, 0);
    CHECK(tcpcore_free(&end), TCPCORE_DONE);
    CHECK(tcpcore_free(&peer), TCPCORE_DONE);
}

int main(void)
{
    no_ends();
    overlaps();
    answers();
    printf("misuse_lending: no call was taken in\n");
    return checks > 5000 ? 0 : 1;
}
