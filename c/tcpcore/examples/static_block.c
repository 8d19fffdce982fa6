/*
 * An example without a C library: each end lies in a static block, and the program is linked with -nostdlib. The three
 * functions that the library needs, memcpy, memmove and memset, are in system.h.
 */
#include "system.h"
#include "tcpcore.h"

enum { CAPACITY = 4096, TEXT = 10000 };

/* ---- Memory: a static block for each end, and the three functions of the C library that are needed. */

static unsigned char first[TCPCORE_MEMORY(CAPACITY, CAPACITY)], second[TCPCORE_MEMORY(CAPACITY, CAPACITY)];

static void say(const char *words, size_t number)
{
    char digits[24];
    size_t at = sizeof digits;
    do
        digits[--at] = (char)('0' + number % 10);
    while ((number /= 10) > 0);
    size_t length = 0;
    while (words[length])
        length++;
    system_call(SYSTEM_WRITE, 1, words, length);
    system_call(SYSTEM_WRITE, 1, digits + at, sizeof digits - at);
    system_call(SYSTEM_WRITE, 1, "\n", 1);
}

/* ---- Two ends. */

static const tcpcore_addr A = {{10, 0, 0, 1}}, B = {{10, 0, 0, 2}};
static tcpcore_end a = TCPCORE_END_INIT, b = TCPCORE_END_INIT;

static uint32_t make(tcpcore_end *end, tcpcore_addr addr, void *block, size_t length)
{
    tcpcore_config config = {
        .addr = addr, .port = 7, .mss = 1460, .isn = 1, .send_capacity = CAPACITY, .recv_capacity = CAPACITY,
        .limit = TCPCORE_LIMIT};
    return tcpcore_new(end, &config, block, length);
}

static void carry(tcpcore_end *from, tcpcore_addr src, tcpcore_end *to)
{
    static unsigned char segment[TCPCORE_EMIT_ROOM];
    tcpcore_addr dst;
    size_t length;
    while (tcpcore_emit(from, segment, sizeof segment, &dst, &length) == TCPCORE_DONE)
        tcpcore_arrive(to, src, dst, segment, length);
}

/* Sends TEXT bytes from A to B and compares them; how many came as they were sent. Then both sides close. */
static size_t transfer(void)
{
    size_t sent = 0, read = 0, right = 0;
    uint32_t answer = TCPCORE_NOTHING;
    for (int turn = 0; turn < 100 && answer != TCPCORE_END_OF_STREAM; turn++) {
        unsigned char text[1000];
        size_t count = TEXT - sent < sizeof text ? TEXT - sent : sizeof text;
        for (size_t i = 0; i < count; i++)
            text[i] = (unsigned char)((sent + i) * 7);
        size_t taken;
        if (tcpcore_send(&a, text, count, &taken) == TCPCORE_DONE)
            sent += taken;
        if (sent == TEXT)
            tcpcore_close(&a);
        carry(&a, A, &b);
        while ((answer = tcpcore_receive(&b, text, sizeof text, &count)) == TCPCORE_DONE)
            for (size_t i = 0; i < count; i++, read++)
                right += text[i] == (unsigned char)(read * 7);
        carry(&b, B, &a);
    }
    tcpcore_close(&b);
    carry(&b, B, &a);
    carry(&a, A, &b);
    return right;
}

static int run(void)
{
    say("bytes of a block: ", sizeof first);
    say("an end in half a block is answered: ", make(&a, A, first, sizeof first / 2));
    make(&a, A, first, sizeof first);
    make(&b, B, second, sizeof second);
    tcpcore_listen(&b);
    tcpcore_connect(&a, B, 7);
    carry(&a, A, &b);
    carry(&b, B, &a);
    carry(&a, A, &b);
    say("bytes that came as they were sent: ", transfer());
    struct tcpcore_status status;
    tcpcore_status(&b, &status);
    say("B's ending: ", status.ending);
    tcpcore_timer(&a, TCPCORE_TIMER_TIME_WAIT);
    tcpcore_status(&a, &status);
    say("A's ending: ", status.ending);
    tcpcore_free(&a);
    say("another end in A's block is answered: ", make(&a, A, first, sizeof first));
    tcpcore_free(&a);
    tcpcore_free(&b);
    return 0;
}

__attribute__((used)) static void begin(void) { system_call(SYSTEM_EXIT, run(), 0, 0); }
