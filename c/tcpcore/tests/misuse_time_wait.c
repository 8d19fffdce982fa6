/* The test of misuse, of a TIME-WAIT record: NULL, structs that are none, each field out of its range, pointers over the struct, short
   room, unknown timers. */
#include "carry.h"
#include "misuse.h"

/* The record of an end whose peer has closed too; an acknowledgement is pending. No end before has one. */
static struct tcpcore_time_wait record_of_an_end(void)
{
    static unsigned char blocks[2][TCPCORE_MEMORY(100, 100)];
    tcpcore_end end = TCPCORE_END_INIT, peer = TCPCORE_END_INIT;
    tcpcore_config config = {.addr = HERE, .port = 9, .mss = 100, .isn = 1, .send_capacity = 100, .recv_capacity = 100,
                             .limit = TCPCORE_LIMIT};
    struct tcpcore_time_wait time_wait;
    unsigned char text[1];
    size_t count;
    CHECK(tcpcore_new(&end, &config, blocks[0], sizeof *blocks), TCPCORE_DONE);
    config.addr = THERE;
    CHECK(tcpcore_new(&peer, &config, blocks[1], sizeof *blocks), TCPCORE_DONE);
    CHECK(tcpcore_listen(&peer), TCPCORE_DONE);
    CHECK(tcpcore_connect(&end, THERE, 9), TCPCORE_DONE);
    for (int turn = 0; turn < 2; turn++) {
        carry(&end, HERE, &peer);
        carry(&peer, THERE, &end);
    }
    CHECK(tcpcore_send(&peer, "x", 1, &count), TCPCORE_DONE);
    CHECK(tcpcore_close(&end), TCPCORE_DONE);
    CHECK(tcpcore_close(&peer), TCPCORE_DONE);
    CHECK(tcpcore_time_wait(&end, &time_wait), TCPCORE_NOT_TIME_WAIT);
    carry(&end, HERE, &peer);
    carry(&peer, THERE, &end);
    /* In TIME-WAIT, but a byte is unread. */
    CHECK(tcpcore_timer(&end, TCPCORE_TIMER_RETRANSMIT), TCPCORE_NO_RULE);
    CHECK(tcpcore_time_wait(&end, &time_wait), TCPCORE_NOT_TIME_WAIT);
    CHECK(tcpcore_receive(&end, text, sizeof text, &count), TCPCORE_DONE);
    CHECK(tcpcore_time_wait(&end, &time_wait), TCPCORE_DONE);
    CHECK(tcpcore_free(&end), TCPCORE_DONE);
    CHECK(tcpcore_free(&peer), TCPCORE_DONE);
    return time_wait;
}

/* Each call answers `wanted`, tells 0, and leaves the struct and the buffer as they are. */
static void every_call(struct tcpcore_time_wait *time_wait, uint32_t wanted)
{
    unsigned char buffer[TCPCORE_TIME_WAIT_ROOM];
    struct tcpcore_time_wait before = {0};
    if (time_wait)
        before = *time_wait;
    memset(buffer, 0xee, sizeof buffer);
    tcpcore_addr to = THERE;
    size_t count = 7;
    uint32_t due = 7, phase = 7, ending = 7;
    CHECK(tcpcore_time_wait_arrive(time_wait, THERE, HERE, "short", 5), wanted);
    for (uint32_t timer = 0; timer < 4; timer++)
        CHECK(tcpcore_time_wait_timer(time_wait, timer), wanted);
    CHECK(tcpcore_time_wait_emit(time_wait, buffer, sizeof buffer, &to, &count), wanted);
    CHECK(count, 0);
    CHECK(memcmp(&to, &NOWHERE, sizeof to), 0);
    CHECK(tcpcore_time_wait_pending(time_wait, &due), wanted);
    CHECK(due, 0);
    CHECK(tcpcore_time_wait_abort(time_wait), wanted);
    CHECK(tcpcore_time_wait_status(time_wait, &phase, &ending), wanted);
    CHECK(phase | ending, 0);
    for (size_t i = 0; i < sizeof buffer; i++)
        CHECK(buffer[i], 0xee);
    if (time_wait)
        CHECK(memcmp(time_wait, &before, sizeof before), 0);
}

/* Structs that nobody told, and each field out of its range, by one. */
static void no_records(const struct tcpcore_time_wait *time_wait)
{
    struct tcpcore_time_wait other = {0};
    every_call(NULL, TCPCORE_NULL);
    every_call(&other, TCPCORE_NO_TIME_WAIT);
    memset(&other, 0xff, sizeof other);
    every_call(&other, TCPCORE_NO_TIME_WAIT);
    uint64_t word = 1;
    for (int turn = 0; turn < 1000; turn++) {
        for (size_t i = 0; i < sizeof other; i++) {
            word = word * 6364136223846793005u + 1442695040888963407u;
            ((unsigned char *)&other)[i] = (unsigned char)(word >> 56);
        }
        every_call(&other, TCPCORE_NO_TIME_WAIT);
    }
    for (int i = 0; i < 32; i++) {
        other = *time_wait;
        other.mark ^= UINT32_C(1) << i;
        every_call(&other, TCPCORE_NO_TIME_WAIT);
    }
    other = *time_wait;
    other.rcv_wnd = 1048577;
    every_call(&other, TCPCORE_NO_TIME_WAIT);
    other.rcv_wnd = 1048576;
    CHECK(tcpcore_time_wait_timer(&other, TCPCORE_TIMER_REORDER), TCPCORE_NO_RULE);
    other.shift = 15;
    every_call(&other, TCPCORE_NO_TIME_WAIT);
    other.shift = 14;
    CHECK(tcpcore_time_wait_timer(&other, TCPCORE_TIMER_REORDER), TCPCORE_NO_RULE);
    for (unsigned int ending = 4; ending < 65536; ending = ending * 2 + 1) {
        other.ending = (uint16_t)ending;
        every_call(&other, TCPCORE_NO_TIME_WAIT);
    }
    /* Anything but 0 is yes, and anything above 1 a reset that acknowledges. */
    other = *time_wait;
    other.ack = 200;
    other.reset = 3;
    uint32_t due = 7;
    CHECK(tcpcore_time_wait_pending(&other, &due), TCPCORE_DONE);
    CHECK(due, TCPCORE_TIME_WAIT_ROOM);
}

/* NULL, huge lengths, short room, unknown timers, bytes that are no segment: the rest stays as it is. */
static void numbers(struct tcpcore_time_wait time_wait)
{
    const struct tcpcore_time_wait before = time_wait;
    unsigned char buffer[TCPCORE_TIME_WAIT_ROOM] = {0};
    tcpcore_addr to = THERE;
    size_t count = 7;
    uint32_t reported = 7;
    CHECK(tcpcore_time_wait_arrive(&time_wait, THERE, HERE, NULL, 20), TCPCORE_NULL);
    CHECK(tcpcore_time_wait_arrive(&time_wait, THERE, HERE, NULL, 0), TCPCORE_TOO_SHORT);
    CHECK(tcpcore_time_wait_arrive(&time_wait, THERE, HERE, buffer, HUGE_LENGTH), TCPCORE_LENGTH);
    CHECK(tcpcore_time_wait_arrive(&time_wait, THERE, HERE, buffer, 20), TCPCORE_BAD_CHECKSUM);
    CHECK(tcpcore_time_wait_emit(&time_wait, NULL, sizeof buffer, &to, &count), TCPCORE_NULL);
    CHECK(count, 0);
    CHECK(tcpcore_time_wait_emit(&time_wait, buffer, sizeof buffer, NULL, &count), TCPCORE_NULL);
    CHECK(tcpcore_time_wait_emit(&time_wait, buffer, sizeof buffer, &to, NULL), TCPCORE_NULL);
    CHECK(tcpcore_time_wait_emit(&time_wait, buffer, SIZE_MAX, &to, &count), TCPCORE_LENGTH);
    CHECK(tcpcore_time_wait_emit(&time_wait, NULL, 0, &to, &count), TCPCORE_ROOM);
    to = THERE;
    count = 7;
    CHECK(tcpcore_time_wait_emit(&time_wait, buffer, sizeof buffer - 1, &to, &count), TCPCORE_ROOM);
    CHECK(count, 0);
    CHECK(memcmp(&to, &NOWHERE, sizeof to), 0);
    CHECK(tcpcore_time_wait_pending(&time_wait, NULL), TCPCORE_NULL);
    CHECK(tcpcore_time_wait_status(&time_wait, NULL, &reported), TCPCORE_NULL);
    CHECK(reported, 0);
    CHECK(tcpcore_time_wait_status(&time_wait, &reported, NULL), TCPCORE_NULL);
    for (uint32_t timer = 3; timer < UINT32_MAX; timer = timer * 2 + 1)
        CHECK(tcpcore_time_wait_timer(&time_wait, timer), TCPCORE_NO_TIMER);
    CHECK(tcpcore_time_wait_timer(&time_wait, UINT32_MAX), TCPCORE_NO_TIMER);
    CHECK(tcpcore_time_wait_timer(&time_wait, TCPCORE_TIMER_RETRANSMIT), TCPCORE_NO_RULE);
    CHECK(memcmp(&time_wait, &before, sizeof time_wait), 0);
}

/* Buffers over the struct, and what a call writes through a pointer over the struct, over the buffer, or over the other one. */
static void overlaps(struct tcpcore_time_wait time_wait)
{
    struct {
        unsigned char before[8];
        struct tcpcore_time_wait time_wait;
        unsigned char behind[TCPCORE_TIME_WAIT_ROOM];
    } place = {{0}, time_wait, {0}};
    union {
        size_t count;
        uint32_t reported;
        tcpcore_addr to;
        unsigned char bytes[TCPCORE_TIME_WAIT_ROOM];
    } shared = {.bytes = {0}};
    unsigned char *first = (unsigned char *)&place.time_wait;
    tcpcore_addr to;
    size_t count;
    uint32_t reported;
    CHECK(tcpcore_time_wait_arrive(&place.time_wait, THERE, HERE, place.before, 9), TCPCORE_OVERLAP);
    CHECK(tcpcore_time_wait_arrive(&place.time_wait, THERE, HERE, first + sizeof place.time_wait - 1, 1), TCPCORE_OVERLAP);
    CHECK(tcpcore_time_wait_arrive(&place.time_wait, THERE, HERE, place.before, 8), TCPCORE_TOO_SHORT);
    CHECK(tcpcore_time_wait_arrive(&place.time_wait, THERE, HERE, place.behind, 8), TCPCORE_TOO_SHORT);
    CHECK(tcpcore_time_wait_emit(&place.time_wait, place.before, 9, &to, &count), TCPCORE_OVERLAP);
    CHECK(tcpcore_time_wait_emit(&place.time_wait, first, sizeof place.time_wait, &to, &count), TCPCORE_OVERLAP);
    for (size_t at = 0; at < sizeof place.time_wait; at += sizeof(uint32_t)) {
        void *over = first + at;
        CHECK(tcpcore_time_wait_emit(&place.time_wait, place.behind, sizeof place.behind, over, &count), TCPCORE_OVERLAP);
        CHECK(tcpcore_time_wait_emit(&place.time_wait, place.behind, sizeof place.behind, &to, over), TCPCORE_OVERLAP);
        CHECK(tcpcore_time_wait_pending(&place.time_wait, over), TCPCORE_OVERLAP);
        CHECK(tcpcore_time_wait_status(&place.time_wait, over, &reported), TCPCORE_OVERLAP);
        CHECK(tcpcore_time_wait_status(&place.time_wait, &reported, over), TCPCORE_OVERLAP);
    }
    CHECK(tcpcore_time_wait_emit(&place.time_wait, shared.bytes, sizeof shared.bytes, &shared.to, &count), TCPCORE_OVERLAP);
    CHECK(tcpcore_time_wait_emit(&place.time_wait, shared.bytes, sizeof shared.bytes, &to, &shared.count), TCPCORE_OVERLAP);
    CHECK(tcpcore_time_wait_emit(&place.time_wait, place.behind, sizeof place.behind, &shared.to, &shared.count), TCPCORE_OVERLAP);
    CHECK(tcpcore_time_wait_status(&place.time_wait, &shared.reported, &shared.reported), TCPCORE_OVERLAP);
    for (size_t i = 0; i < sizeof shared.bytes; i++)
        CHECK(shared.bytes[i], 0);
    CHECK(memcmp(&place.time_wait, &time_wait, sizeof time_wait), 0);
    /* None of it changed the rest: the acknowledgement is due. */
    CHECK(tcpcore_time_wait_emit(&place.time_wait, place.behind, sizeof place.behind, &to, &count), TCPCORE_DONE);
    CHECK(count, TCPCORE_TIME_WAIT_ROOM);
    CHECK(tcpcore_time_wait_emit(&place.time_wait, place.behind, sizeof place.behind, &to, &count), TCPCORE_NOT_DUE);
    CHECK(count, 0);
}

/* Once it has ended, no call but an arrival has an effect. */
static void endings(struct tcpcore_time_wait time_wait)
{
    struct tcpcore_time_wait other = time_wait;
    CHECK(tcpcore_time_wait_abort(&time_wait), TCPCORE_DONE);
    CHECK(time_wait.ending, TCPCORE_ENDING_ABORTED);
    CHECK(tcpcore_time_wait_abort(&time_wait), TCPCORE_ENDED);
    CHECK(tcpcore_time_wait_timer(&time_wait, TCPCORE_TIMER_TIME_WAIT), TCPCORE_NO_RULE);
    CHECK(tcpcore_time_wait_timer(&other, TCPCORE_TIMER_TIME_WAIT), TCPCORE_DONE);
    CHECK(other.ending, TCPCORE_ENDING_ORDERLY);
    CHECK(tcpcore_time_wait_timer(&other, TCPCORE_TIMER_TIME_WAIT), TCPCORE_NO_RULE);
    CHECK(tcpcore_time_wait_abort(&other), TCPCORE_ENDED);
}

int main(void)
{
    struct tcpcore_time_wait time_wait = record_of_an_end();
    no_records(&time_wait);
    numbers(time_wait);
    overlaps(time_wait);
    endings(time_wait);
    printf("misuse_time_wait: no call was taken in\n");
    return checks > 10000 ? 0 : 1;
}
