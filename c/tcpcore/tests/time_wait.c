/* The test of TIME-WAIT records: an end in TIME-WAIT and its record side by side, over the same arrivals, timers, emissions and aborts.
   Each answer, address and byte is the same; and a record with another number is told apart. */
#include "carry.h"
#include "tcpcore.h"

#include <stdio.h>
#include <stdlib.h>
#include <string.h>

enum { RUNS = 600, ROUNDS = 60, CAPACITY = 4096, MOST_TEXT = 40, ANSWERS = 64 };

static const tcpcore_addr A = {{10, 0, 0, 1}}, B = {{10, 0, 0, 2}}, C = {{10, 0, 0, 3}};
static const uint16_t A_PORT = 4660, B_PORT = 22136;
static tcpcore_end a = TCPCORE_END_INIT, b = TCPCORE_END_INIT;
/* How often an arrival had each answer, and how often both ended so. */
static unsigned long answers[ANSWERS], endings[4], emitted, differences;

static void need(const char *call, uint32_t answer)
{
    if (answer != TCPCORE_DONE) {
        printf("time_wait: %s: %s\n", call, tcpcore_strerror(answer));
        exit(1);
    }
}

static uint32_t below(uint32_t bound)
{
    static uint64_t word = 88172645463325252u;
    word ^= word << 13;
    word ^= word >> 7;
    word ^= word << 17;
    return (uint32_t)(word >> 32) % bound;
}

static void make(tcpcore_end *end, tcpcore_addr addr, uint16_t port)
{
    static unsigned char blocks[2][TCPCORE_MEMORY(CAPACITY, CAPACITY)];
    /* Numbers near the end of their space too. */
    uint32_t isn = below(2) ? below(UINT32_MAX) : UINT32_MAX - below(50);
    tcpcore_config config = {.addr = addr, .port = port, .mss = 100, .isn = isn, .send_capacity = CAPACITY,
                             .recv_capacity = 1 + below(CAPACITY), .limit = TCPCORE_LIMIT, .window_shift = (uint8_t)below(15),
                             .scales = (uint8_t)below(2), .sack = (uint8_t)below(2)};
    need("new", tcpcore_new(end, &config, blocks[end == &b], sizeof *blocks));
}

/* A and B connect, A sends and closes, then B does: A is in TIME-WAIT, and has to send the last acknowledgement. */
static void wait_for_strays(void)
{
    unsigned char text[MOST_TEXT] = {0};
    size_t count;
    make(&a, A, A_PORT);
    make(&b, B, B_PORT);
    need("listen", tcpcore_listen(&b));
    need("connect", tcpcore_connect(&a, B, B_PORT));
    for (int turn = 0; turn < 2; turn++) {
        carry(&a, A, &b);
        carry(&b, B, &a);
    }
    need("send", tcpcore_send(&a, text, below(MOST_TEXT), &count));
    need("close", tcpcore_close(&a));
    for (int turn = 0; turn < 50; turn++) {
        carry(&a, A, &b);
        tcpcore_receive(&b, text, sizeof text, &count);
        carry(&b, B, &a);
        tcpcore_timer(&a, TCPCORE_TIMER_RETRANSMIT);
    }
    need("close", tcpcore_close(&b));
    carry(&b, B, &a);
}

static void store(unsigned char *at, uint32_t value, int bytes)
{
    for (int i = 0; i < bytes; i++)
        at[i] = (unsigned char)(value >> 8 * (bytes - 1 - i));
}

/* The checksum of a segment whose checksum field is 0, with the pseudo-header (RFC 9293, 3.1). */
static uint16_t checksum(tcpcore_addr src, tcpcore_addr dst, const unsigned char *bytes, size_t length)
{
    uint32_t sum = 6 + (uint32_t)length;
    for (int i = 0; i < 4; i += 2)
        sum += (uint32_t)(src.byte[i] << 8 | src.byte[i + 1]) + (uint32_t)(dst.byte[i] << 8 | dst.byte[i + 1]);
    for (size_t i = 0; i < length; i++)
        sum += i % 2 == 0 ? (uint32_t)bytes[i] << 8 : bytes[i];
    while (sum >> 16)
        sum = (sum & 0xffff) + (sum >> 16);
    return (uint16_t)~sum;
}

/* A number near this one, or any. */
static uint32_t near(uint32_t number) { return below(8) ? number + below(6) - 3 : below(UINT32_MAX); }

/* The same segment arrives at both: mostly from B to A, mostly near what is wanted, and with any flags. */
static void arrive(struct tcpcore_time_wait *time_wait)
{
    unsigned char bytes[20 + 4] = {0};
    size_t length = 20 + below(5);
    tcpcore_addr src = below(12) ? B : C, dst = below(20) ? A : C;
    store(bytes, below(15) ? B_PORT : below(65536), 2);
    store(bytes + 2, below(20) ? A_PORT : below(65536), 2);
    store(bytes + 4, near(time_wait->rcv_nxt), 4);
    store(bytes + 8, near(time_wait->snd_nxt), 4);
    bytes[12] = below(30) ? 5 << 4 : (unsigned char)(below(16) << 4);
    bytes[13] = (unsigned char)(below(3) ? 16 | below(64) : below(64));
    store(bytes + 14, below(65536), 2);
    store(bytes + 16, checksum(src, dst, bytes, length), 2);
    if (!below(25))
        bytes[below((uint32_t)length)] ^= (unsigned char)(1 + below(255));
    length = below(40) ? length : below(20);
    uint32_t answer = tcpcore_arrive(&a, src, dst, bytes, length);
    differences += answer != tcpcore_time_wait_arrive(time_wait, src, dst, bytes, length);
    answers[answer % ANSWERS]++;
}

/* Both emit until nothing is due: the same bytes, to the same address. */
static void emit(struct tcpcore_time_wait *time_wait)
{
    unsigned char one[TCPCORE_EMIT_ROOM], other[TCPCORE_TIME_WAIT_ROOM];
    uint32_t answer;
    do {
        tcpcore_addr to, its_to;
        size_t length, its_length;
        memset(one, 0xee, sizeof one);
        memset(other, 0xee, sizeof other);
        answer = tcpcore_emit(&a, one, sizeof one, &to, &length);
        differences += answer != tcpcore_time_wait_emit(time_wait, other, sizeof other, &its_to, &its_length);
        differences += length != its_length || memcmp(&to, &its_to, sizeof to) || memcmp(one, other, sizeof other);
        emitted += answer == TCPCORE_DONE;
    } while (answer == TCPCORE_DONE);
}

/* A timer, an abort, an emission, or nothing. */
static void call(struct tcpcore_time_wait *time_wait, uint32_t choice)
{
    if (choice <= 3)
        differences += tcpcore_timer(&a, choice) != tcpcore_time_wait_timer(time_wait, choice);
    else if (choice == 4)
        differences += tcpcore_abort(&a) != tcpcore_time_wait_abort(time_wait);
    else if (choice < 50)
        emit(time_wait);
}

/* What is said of both: phase, ending, and what is due. */
static void compare(const struct tcpcore_time_wait *time_wait)
{
    struct tcpcore_status status;
    uint32_t due, its_due, phase, ending;
    need("status", tcpcore_status(&a, &status));
    need("time_wait_status", tcpcore_time_wait_status(time_wait, &phase, &ending));
    need("pending", tcpcore_pending(&a, &due));
    need("time_wait_pending", tcpcore_time_wait_pending(time_wait, &its_due));
    differences += phase != status.phase || ending != status.ending || due != its_due;
}

static void run(uint32_t later)
{
    struct tcpcore_time_wait time_wait;
    struct tcpcore_status status;
    wait_for_strays();
    if (below(2))
        carry(&a, A, &b);
    need("time_wait", tcpcore_time_wait(&a, &time_wait));
    time_wait.snd_nxt += later;
    compare(&time_wait);
    for (int round = 0; round < ROUNDS; round++) {
        arrive(&time_wait);
        compare(&time_wait);
        call(&time_wait, below(80));
        compare(&time_wait);
    }
    need("status", tcpcore_status(&a, &status));
    endings[status.ending]++;
    need("free", tcpcore_free(&a));
    need("free", tcpcore_free(&b));
}

int main(void)
{
    for (int i = 0; i < RUNS; i++)
        run(0);
    int all = emitted > RUNS && answers[TCPCORE_DONE] && answers[TCPCORE_DROPPED] && answers[TCPCORE_NOT_MINE]
              && answers[TCPCORE_TOO_SHORT] && answers[TCPCORE_BAD_CHECKSUM] && answers[TCPCORE_BAD_OFFSET];
    for (int i = TCPCORE_ENDING_NOT_ENDED; i <= TCPCORE_ENDING_ABORTED; i++)
        all = all && endings[i];
    const char *seen = all ? "every answer and ending" : "not every answer or ending";
    printf("time_wait: %lu differences from the end, %s\n", differences, seen);
    for (int i = 0; i < RUNS; i++)
        run(1);
    printf("time_wait: another's number is %s\n", differences ? "told apart" : "not told apart");
    return 0;
}
