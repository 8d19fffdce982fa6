/* A program of version 4, which makes each of its calls: two ends with blocks of exactly TCPCORE_MEMORY bytes, from the handshake to
   TIME-WAIT and the record in its place. What is wanted is what that version's header and RFC 9293 say. */
#include "tcpcore.h"

#include <stdio.h>
#include <stdlib.h>
#include <string.h>

#define CHECK(found, wanted) check(__LINE__, #found, (long long)(found), (long long)(wanted))

enum { CAPACITY = 257, SYN = 20 + 4, HEADER = 20 };

static const tcpcore_addr A = {{10, 0, 0, 1}}, B = {{10, 0, 0, 2}};
static tcpcore_end a = TCPCORE_END_INIT, b = TCPCORE_END_INIT;
static unsigned char blocks[2][1 + TCPCORE_MEMORY(CAPACITY, CAPACITY)], segment[TCPCORE_EMIT_ROOM];
static struct tcpcore_status status;
static struct tcpcore_rest rest;
static int checks;

static void check(int line, const char *what, long long found, long long wanted)
{
    checks++;
    if (found != wanted) {
        printf("program.c:%d: %s is %lld, not %lld\n", line, what, found, wanted);
        exit(1);
    }
}

static void make(tcpcore_end *end, int number, tcpcore_addr addr, uint16_t port)
{
    tcpcore_config config = {.addr = addr, .port = port, .mss = 1000, .isn = 4294967290u, .send_capacity = CAPACITY,
                             .recv_capacity = CAPACITY, .limit = TCPCORE_LIMIT};
    CHECK(tcpcore_room(&config) <= sizeof *blocks - 1, 1);
    CHECK(tcpcore_new(end, &config, blocks[number] + 1, sizeof *blocks - 1), TCPCORE_DONE);
    CHECK(tcpcore_new(end, &config, blocks[number] + 1, sizeof *blocks - 1), TCPCORE_IN_USE);
}

/* Carries what is due from one end to the other, and answers the bytes of it. */
static size_t carry(tcpcore_end *from, tcpcore_addr src, tcpcore_end *to)
{
    tcpcore_addr dst;
    size_t length = 0, sum = 0;
    uint32_t due = 0, at_once;
    for (;;) {
        CHECK(tcpcore_pending(from, &due), TCPCORE_DONE);
        if (tcpcore_emit(from, segment, sizeof segment, &dst, &length) != TCPCORE_DONE)
            return sum;
        CHECK(due, length);
        CHECK(tcpcore_take(to, src, dst, segment, length, &at_once), TCPCORE_DONE);
        sum += length;
    }
}

static void phase_is(tcpcore_end *end, uint32_t phase)
{
    CHECK(tcpcore_status(end, &status), TCPCORE_DONE);
    CHECK(status.phase, phase);
}

static void open_both(void)
{
    tcpcore_addr peer;
    uint16_t port;
    make(&a, 0, A, 1);
    make(&b, 1, B, 2);
    CHECK(tcpcore_peer(&a, &peer, &port), TCPCORE_NOT_CONNECTED);
    CHECK(tcpcore_listen(&b), TCPCORE_DONE);
    CHECK(tcpcore_connect(&a, B, 2), TCPCORE_DONE);
    CHECK(carry(&a, A, &b), SYN);
    CHECK(carry(&b, B, &a), SYN);
    CHECK(carry(&a, A, &b), HEADER);
    CHECK(tcpcore_peer(&b, &peer, &port), TCPCORE_DONE);
    CHECK(memcmp(&peer, &A, sizeof A), 0);
    CHECK(port, 1);
    phase_is(&a, TCPCORE_PHASE_ESTABLISHED);
    CHECK(status.mss, 1000);
    CHECK(status.snd_wnd, CAPACITY);
}

static void carry_text(void)
{
    char out[CAPACITY];
    size_t count;
    uint32_t timers;
    CHECK(tcpcore_send(&a, "text", 4, &count), TCPCORE_DONE);
    CHECK(count, 4);
    CHECK(carry(&a, A, &b), HEADER + 4);
    CHECK(tcpcore_timers(&a, &timers), TCPCORE_DONE);
    CHECK(timers, 1 << TCPCORE_TIMER_RETRANSMIT);
    CHECK(tcpcore_receive(&b, out, sizeof out, &count), TCPCORE_DONE);
    CHECK(count, 4);
    CHECK(memcmp(out, "text", 4), 0);
    CHECK(tcpcore_receive(&b, out, sizeof out, &count), TCPCORE_NOTHING);
    CHECK(carry(&b, B, &a), HEADER);
    CHECK(tcpcore_status(&a, &status), TCPCORE_DONE);
    CHECK(status.released, 4);
    CHECK(status.una, 1 + 4);
    CHECK(status.room, CAPACITY);
    CHECK(tcpcore_acknowledge(&b), TCPCORE_DONE);
    CHECK(carry(&b, B, &a), HEADER);
}

/* A closes, then B: A goes to TIME-WAIT, and its record takes its place. */
static void close_both(void)
{
    tcpcore_addr to;
    size_t length;
    uint32_t phase, ending, due;
    CHECK(tcpcore_close(&a), TCPCORE_DONE);
    CHECK(carry(&a, A, &b), HEADER);
    CHECK(carry(&b, B, &a), HEADER);
    CHECK(tcpcore_close(&b), TCPCORE_DONE);
    CHECK(tcpcore_rest(&a, &rest), TCPCORE_NOT_AT_REST);
    CHECK(carry(&b, B, &a), HEADER);
    phase_is(&a, TCPCORE_PHASE_TIME_WAIT);
    CHECK(tcpcore_rest(&a, &rest), TCPCORE_DONE);
    CHECK(tcpcore_free(&a), TCPCORE_DONE);
    CHECK(tcpcore_rest_pending(&rest, &due), TCPCORE_DONE);
    CHECK(due, TCPCORE_REST_ROOM);
    CHECK(tcpcore_rest_emit(&rest, segment, sizeof segment, &to, &length), TCPCORE_DONE);
    CHECK(tcpcore_arrive(&b, A, to, segment, length), TCPCORE_DONE);
    phase_is(&b, TCPCORE_PHASE_CLOSED);
    CHECK(status.ending, TCPCORE_ENDING_ORDERLY);
    CHECK(tcpcore_rest_arrive(&rest, B, A, segment, length), TCPCORE_NOT_MINE);
    CHECK(tcpcore_rest_timer(&rest, TCPCORE_TIMER_TIME_WAIT), TCPCORE_DONE);
    CHECK(tcpcore_rest_status(&rest, &phase, &ending), TCPCORE_DONE);
    CHECK(phase, TCPCORE_PHASE_CLOSED);
    CHECK(ending, TCPCORE_ENDING_ORDERLY);
    CHECK(tcpcore_rest_abort(&rest), TCPCORE_ENDED);
    CHECK(tcpcore_free(&b), TCPCORE_DONE);
    CHECK(tcpcore_free(&b), TCPCORE_NO_END);
}

/* A segment for no end is answered by a reset, which aborts nothing but what it is for. */
static void give_up(void)
{
    unsigned char reset[TCPCORE_RESET_ROOM];
    tcpcore_addr to;
    size_t length, written;
    make(&a, 0, A, 1);
    CHECK(tcpcore_connect(&a, B, 2), TCPCORE_DONE);
    CHECK(tcpcore_emit(&a, segment, sizeof segment, &to, &length), TCPCORE_DONE);
    CHECK(tcpcore_stray_reset(A, to, segment, length, reset, sizeof reset, &written), TCPCORE_DONE);
    CHECK(written, TCPCORE_RESET_ROOM);
    reset[16] ^= 1;
    CHECK(tcpcore_arrive(&a, B, A, reset, written), TCPCORE_BAD_CHECKSUM);
    CHECK(tcpcore_timer(&a, TCPCORE_TIMER_RETRANSMIT), TCPCORE_DONE);
    CHECK(tcpcore_abort(&a), TCPCORE_DONE);
    CHECK(tcpcore_status(&a, &status), TCPCORE_DONE);
    CHECK(status.ending, TCPCORE_ENDING_ABORTED);
    CHECK(tcpcore_free(&a), TCPCORE_DONE);
}

int main(void)
{
    CHECK(tcpcore_version() >= TCPCORE_VERSION, 1);
    CHECK(strcmp(tcpcore_strerror(TCPCORE_NOTHING), "nothing to read yet"), 0);
    open_both();
    carry_text();
    close_both();
    give_up();
    printf("version %d: %d checks\n", TCPCORE_VERSION, checks);
    return 0;
}
