/* The test of misuse, of numbers and pointers: huge lengths, short room, unknown timers, buffers over the struct or over each other, bytes
   that are no segment, calls behind the end. */
#include "misuse.h"

static unsigned char block[TCPCORE_MEMORY(1000, 1000)];

/* An end in the block. Each row frees its end before the next one is made. */
static uint32_t make(tcpcore_end *end, const tcpcore_config *config)
{
    return tcpcore_new(end, config, block, sizeof block);
}

/* Huge lengths, short room, unknown timers, bytes that are no segment. */
static void numbers(void)
{
    tcpcore_end end = TCPCORE_END_INIT;
    tcpcore_config config = good_config(HERE);
    unsigned char buffer[TCPCORE_EMIT_ROOM] = {0};
    size_t count = 7;
    tcpcore_addr to = NOWHERE;
    CHECK(tcpcore_new(&end, &config, block, HUGE_LENGTH), TCPCORE_LENGTH);
    CHECK(is_empty(&end), 1);
    CHECK(make(&end, &config), TCPCORE_DONE);
    CHECK(tcpcore_connect(&end, THERE, 9), TCPCORE_DONE);
    CHECK(tcpcore_send(&end, buffer, HUGE_LENGTH, &count), TCPCORE_LENGTH);
    CHECK(tcpcore_receive(&end, buffer, SIZE_MAX, &count), TCPCORE_LENGTH);
    CHECK(tcpcore_arrive(&end, THERE, HERE, buffer, HUGE_LENGTH), TCPCORE_LENGTH);
    CHECK(tcpcore_emit(&end, buffer, SIZE_MAX, &to, &count), TCPCORE_LENGTH);
    struct tcpcore_arrive_report taken;
    struct tcpcore_transmit transmit;
    memset(&taken, 7, sizeof taken);
    memset(&transmit, 7, sizeof transmit);
    uint32_t at_once = 7;
    CHECK(tcpcore_arrive_with_at_once(&end, THERE, HERE, buffer, HUGE_LENGTH, &at_once), TCPCORE_LENGTH);
    CHECK(at_once, 0);
    CHECK(tcpcore_arrive_with_report(&end, THERE, HERE, buffer, HUGE_LENGTH, &taken), TCPCORE_LENGTH);
    CHECK(is_zero(&taken, sizeof taken), 1);
    CHECK(tcpcore_transmit(&end, buffer, SIZE_MAX, &transmit), TCPCORE_LENGTH);
    CHECK(tcpcore_transmit(&end, buffer, TCPCORE_EMIT_ROOM - 1, &transmit), TCPCORE_ROOM);
    CHECK(is_zero(&transmit, sizeof transmit), 1);
    CHECK(tcpcore_transmit(&end, NULL, 0, &transmit), TCPCORE_ROOM);
    CHECK(count, 0);
    count = 7;
    CHECK(tcpcore_emit(&end, buffer, TCPCORE_EMIT_ROOM - 1, &to, &count), TCPCORE_ROOM);
    CHECK(count, 0);
    CHECK(tcpcore_emit(&end, NULL, 0, &to, &count), TCPCORE_ROOM);
    for (uint32_t timer = 3; timer < UINT32_MAX; timer = timer * 2 + 1)
        CHECK(tcpcore_timer(&end, timer), TCPCORE_NO_TIMER);
    CHECK(tcpcore_timer(&end, UINT32_MAX), TCPCORE_NO_TIMER);
    CHECK(tcpcore_timer(&end, TCPCORE_TIMER_TIME_WAIT), TCPCORE_NO_RULE);
    CHECK(tcpcore_arrive(&end, THERE, HERE, buffer, 19), TCPCORE_TOO_SHORT);
    CHECK(tcpcore_arrive(&end, THERE, HERE, buffer, 20), TCPCORE_BAD_CHECKSUM);
    /* None of it changed the end: the SYN is still due, 20 bytes and 4 + 4 of options. */
    CHECK(tcpcore_emit(&end, buffer, sizeof buffer, &to, &count), TCPCORE_DONE);
    CHECK(count, 28);
    CHECK(to.byte[3], 2);
    CHECK(tcpcore_emit(&end, buffer, sizeof buffer, &to, &count), TCPCORE_NOT_DUE);
    CHECK(to.byte[3], 0);
    CHECK(tcpcore_free(&end), TCPCORE_DONE);
}

/* Buffers over the struct; and what a call writes through a pointer, over the struct or over the buffer of the same call. */
static void overlaps(void)
{
    struct {
        unsigned char before[8];
        tcpcore_end end;
        unsigned char behind[TCPCORE_EMIT_ROOM];
    } place = {{0}, TCPCORE_END_INIT, {0}};
    unsigned char *first = (unsigned char *)&place.end;
    tcpcore_config config = good_config(HERE);
    union {
        size_t count;
        uint32_t at_once;
        struct tcpcore_arrive_report taken;
        struct tcpcore_transmit transmit;
        uint16_t port;
        tcpcore_addr to;
        unsigned char bytes[TCPCORE_EMIT_ROOM];
    } shared = {.bytes = {0}};
    size_t count = 7;
    tcpcore_addr to = NOWHERE;
    CHECK(tcpcore_new(&place.end, &config, place.before, 9), TCPCORE_OVERLAP);
    CHECK(tcpcore_new(&place.end, &config, first, sizeof place.end), TCPCORE_OVERLAP);
    CHECK(tcpcore_new(&place.end, &config, first + sizeof place.end - 1, 1000), TCPCORE_OVERLAP);
    CHECK(tcpcore_new(&place.end, &config, place.before, 8), TCPCORE_NO_MEMORY);
    CHECK(is_empty(&place.end), 1);
    CHECK(make(&place.end, &config), TCPCORE_DONE);
    CHECK(tcpcore_connect(&place.end, THERE, 9), TCPCORE_DONE);
    CHECK(tcpcore_send(&place.end, first, 1, &count), TCPCORE_OVERLAP);
    CHECK(count, 0);
    CHECK(tcpcore_receive(&place.end, first + sizeof place.end - 1, 1, &count), TCPCORE_OVERLAP);
    CHECK(tcpcore_arrive(&place.end, THERE, HERE, place.before, 9), TCPCORE_OVERLAP);
    struct tcpcore_arrive_report taken;
    struct tcpcore_transmit transmit;
    uint32_t at_once;
    CHECK(tcpcore_arrive_with_at_once(&place.end, THERE, HERE, place.before, 9, &at_once), TCPCORE_OVERLAP);
    CHECK(tcpcore_arrive_with_report(&place.end, THERE, HERE, place.before, 9, &taken), TCPCORE_OVERLAP);
    CHECK(tcpcore_transmit(&place.end, place.before, sizeof place, &transmit), TCPCORE_OVERLAP);
    CHECK(tcpcore_emit(&place.end, place.before, sizeof place, &to, &count), TCPCORE_OVERLAP);
    /* Beside it is no overlap. */
    CHECK(tcpcore_arrive(&place.end, THERE, HERE, place.before, 8), TCPCORE_TOO_SHORT);
    CHECK(tcpcore_arrive(&place.end, THERE, HERE, place.behind, 8), TCPCORE_TOO_SHORT);
    CHECK(tcpcore_emit(&place.end, place.behind, sizeof place.behind, &to, &count), TCPCORE_DONE);
    CHECK(count, 28);
    /* Each pointer over the struct, word by word: nothing is written there. */
    tcpcore_end before = place.end;
    for (size_t at = 0; at < sizeof place.end; at += sizeof(uint32_t)) {
        void *over = first + at;
        CHECK(tcpcore_send(&place.end, "x", 0, over), TCPCORE_OVERLAP);
        CHECK(tcpcore_receive(&place.end, place.behind, 1, over), TCPCORE_OVERLAP);
        CHECK(tcpcore_emit(&place.end, place.behind, sizeof place.behind, over, &count), TCPCORE_OVERLAP);
        CHECK(tcpcore_emit(&place.end, place.behind, sizeof place.behind, &to, over), TCPCORE_OVERLAP);
        CHECK(tcpcore_timers(&place.end, over), TCPCORE_OVERLAP);
        CHECK(tcpcore_status(&place.end, over), TCPCORE_OVERLAP);
        CHECK(tcpcore_time_wait(&place.end, over), TCPCORE_OVERLAP);
        CHECK(tcpcore_arrive_with_at_once(&place.end, THERE, HERE, place.behind, 20, over), TCPCORE_OVERLAP);
        CHECK(tcpcore_arrive_with_report(&place.end, THERE, HERE, place.behind, 20, over), TCPCORE_OVERLAP);
        CHECK(tcpcore_transmit(&place.end, place.behind, sizeof place.behind, over), TCPCORE_OVERLAP);
        CHECK(tcpcore_next(&place.end, over), TCPCORE_OVERLAP);
        CHECK(tcpcore_pending(&place.end, over), TCPCORE_OVERLAP);
        uint16_t port;
        CHECK(tcpcore_peer(&place.end, over, &port), TCPCORE_OVERLAP);
        CHECK(tcpcore_peer(&place.end, &to, over), TCPCORE_OVERLAP);
        CHECK(memcmp(&place.end, &before, sizeof before), 0);
    }
    /* Over the buffer of the same call, and one over the other. */
    CHECK(tcpcore_timer(&place.end, TCPCORE_TIMER_RETRANSMIT), TCPCORE_DONE);
    CHECK(tcpcore_send(&place.end, shared.bytes, 5, &shared.count), TCPCORE_OVERLAP);
    CHECK(tcpcore_receive(&place.end, shared.bytes, sizeof shared.bytes, &shared.count), TCPCORE_OVERLAP);
    CHECK(tcpcore_emit(&place.end, shared.bytes, sizeof shared.bytes, &shared.to, &count), TCPCORE_OVERLAP);
    CHECK(tcpcore_emit(&place.end, shared.bytes, sizeof shared.bytes, &to, &shared.count), TCPCORE_OVERLAP);
    CHECK(tcpcore_emit(&place.end, place.behind, sizeof place.behind, &shared.to, &shared.count), TCPCORE_OVERLAP);
    CHECK(tcpcore_arrive_with_at_once(&place.end, THERE, HERE, shared.bytes, 20, &shared.at_once), TCPCORE_OVERLAP);
    CHECK(tcpcore_arrive_with_report(&place.end, THERE, HERE, shared.bytes, 20, &shared.taken), TCPCORE_OVERLAP);
    CHECK(tcpcore_transmit(&place.end, shared.bytes, sizeof shared.bytes, &shared.transmit), TCPCORE_OVERLAP);
    CHECK(tcpcore_peer(&place.end, &shared.to, &shared.port), TCPCORE_OVERLAP);
    for (size_t i = 0; i < sizeof shared.bytes; i++)
        if (shared.bytes[i] != 0)
            CHECK(shared.bytes[i], 0);
    /* None of it changed the end: the SYN is due again. */
    CHECK(tcpcore_emit(&place.end, place.behind, sizeof place.behind, &to, &count), TCPCORE_DONE);
    CHECK(count, 28);
    CHECK(tcpcore_free(&place.end), TCPCORE_DONE);
}

/* The end of a stream, a refusal behind an abort, and numbers that end a call. */
static void endings(void)
{
    tcpcore_end end = TCPCORE_END_INIT;
    tcpcore_config config = good_config(HERE);
    struct tcpcore_status status;
    unsigned char buffer[8] = {0};
    size_t count;
    CHECK(make(&end, &config), TCPCORE_DONE);
    CHECK(tcpcore_receive(&end, buffer, sizeof buffer, &count), TCPCORE_NOT_OPEN);
    CHECK(tcpcore_close(&end), TCPCORE_NOT_OPEN);
    CHECK(tcpcore_connect(&end, THERE, 9), TCPCORE_DONE);
    CHECK(tcpcore_listen(&end), TCPCORE_ALREADY_OPEN);
    CHECK(tcpcore_send(&end, buffer, sizeof buffer, &count), TCPCORE_DONE);
    CHECK(count, sizeof buffer);
    CHECK(tcpcore_abort(&end), TCPCORE_DONE);
    CHECK(tcpcore_abort(&end), TCPCORE_ENDED);
    CHECK(tcpcore_send(&end, buffer, sizeof buffer, &count), TCPCORE_ENDED);
    CHECK(count, 0);
    CHECK(tcpcore_status(&end, &status), TCPCORE_DONE);
    CHECK(status.ending, TCPCORE_ENDING_ABORTED);
    CHECK(tcpcore_free(&end), TCPCORE_DONE);
}

/* A reset for no end: NULL, huge lengths, short room, overlaps, and bytes that nothing answers. */
static void strays(void)
{
    unsigned char bytes[TCPCORE_RESET_ROOM] = {0}, out[TCPCORE_RESET_ROOM];
    union {
        size_t count;
        unsigned char bytes[TCPCORE_RESET_ROOM];
    } shared = {.bytes = {0}};
    size_t count = 7;
    memset(out, 0xee, sizeof out);
    CHECK(tcpcore_stray_reset(THERE, HERE, NULL, 20, out, sizeof out, &count), TCPCORE_NULL);
    CHECK(count, 0);
    count = 7;
    CHECK(tcpcore_stray_reset(THERE, HERE, bytes, 20, NULL, sizeof out, &count), TCPCORE_NULL);
    CHECK(tcpcore_stray_reset(THERE, HERE, bytes, 20, out, sizeof out, NULL), TCPCORE_NULL);
    CHECK(tcpcore_stray_reset(THERE, HERE, bytes, HUGE_LENGTH, out, sizeof out, &count), TCPCORE_LENGTH);
    CHECK(tcpcore_stray_reset(THERE, HERE, bytes, 20, out, HUGE_LENGTH, &count), TCPCORE_LENGTH);
    CHECK(count, 0);
    count = 7;
    CHECK(tcpcore_stray_reset(THERE, HERE, bytes, 20, out, sizeof out - 1, &count), TCPCORE_ROOM);
    CHECK(tcpcore_stray_reset(THERE, HERE, bytes, 20, NULL, 0, &count), TCPCORE_ROOM);
    CHECK(tcpcore_stray_reset(THERE, HERE, NULL, 0, out, sizeof out, &count), TCPCORE_NOT_DUE);
    CHECK(tcpcore_stray_reset(THERE, HERE, bytes, 20, out, sizeof out, &count), TCPCORE_NOT_DUE);
    CHECK(count, 0);
    count = 7;
    CHECK(tcpcore_stray_reset(THERE, HERE, out, 20, out, sizeof out, &count), TCPCORE_OVERLAP);
    CHECK(count, 0);
    CHECK(tcpcore_stray_reset(THERE, HERE, shared.bytes, 20, out, sizeof out, &shared.count), TCPCORE_OVERLAP);
    CHECK(tcpcore_stray_reset(THERE, HERE, bytes, 20, shared.bytes, sizeof shared.bytes, &shared.count), TCPCORE_OVERLAP);
    CHECK(memcmp(shared.bytes, bytes, sizeof bytes), 0);
    for (size_t i = 0; i < sizeof out; i++)
        CHECK(out[i], 0xee);
}

int main(void)
{
    strays();
    numbers();
    overlaps();
    endings();
    printf("misuse_numbers: no call was taken in\n");
    return checks > 200 ? 0 : 1;
}
