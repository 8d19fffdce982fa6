/*
 * What a segment costs where runs are held: `runs KIND RUNS ROUNDS`, two plain ends with so many runs each, segments of 100 bytes.
 *   order  each comes in order, and no run is held;
 *   beside each comes in order while RUNS runs are held behind a gap that isn't filled;
 *   held   RUNS of them leave a gap each, and come in any order; then the gaps' come in any order.
 * Each segment is answered by an acknowledgement, which the sender takes. It prints how many segments came in these rounds, so that
 * counting the instructions of two run lengths gives what one segment takes, both ends together (bench/runs.sh).
 */
#include "tcpcore.h"

#include <stdint.h>
#include <stdio.h>
#include <stdlib.h>
#include <string.h>

enum { TEXT = 100, CAPACITY = 1 << 20, MOST = CAPACITY / TEXT };

static const tcpcore_addr A = {{10, 0, 0, 1}}, B = {{10, 0, 0, 2}};
static tcpcore_end a = TCPCORE_END_INIT, b = TCPCORE_END_INIT;
static unsigned char segments[MOST][TCPCORE_EMIT_ROOM], text[CAPACITY], into[CAPACITY];
static size_t lengths[MOST];
static unsigned long came;

/* What isn't done is a fault of this program. */
static void done(uint32_t answer)
{
    if (answer != TCPCORE_DONE) {
        fprintf(stderr, "runs: %s\n", tcpcore_strerror(answer));
        exit(1);
    }
}

static void make(tcpcore_end *end, tcpcore_addr addr, uint16_t port, uint16_t runs)
{
    tcpcore_config config = TCPCORE_CONFIG_DEFAULT;
    config.addr = addr;
    config.port = port;
    config.mss = TEXT;
    config.send_capacity = config.recv_capacity = CAPACITY;
    config.scales = 1;
    config.window_shift = TCPCORE_LEAST_SHIFT(CAPACITY);
    config.runs = runs;
    size_t room = tcpcore_room(&config);
    done(tcpcore_new(end, &config, malloc(room), room));
}

/* All that is due at an end arrives at the other. */
static void carry(tcpcore_end *from, tcpcore_addr src, tcpcore_end *to)
{
    unsigned char segment[TCPCORE_EMIT_ROOM];
    tcpcore_addr dst;
    size_t length;
    while (tcpcore_emit(from, segment, sizeof segment, &dst, &length) == TCPCORE_DONE)
        done(tcpcore_arrive(to, src, dst, segment, length));
}

/* So many segments are written, and wait. */
static void write_all(size_t count)
{
    tcpcore_addr dst;
    size_t taken;
    done(tcpcore_send(&a, text, count * TEXT, &taken));
    for (size_t at = 0; at < count; at++)
        done(tcpcore_emit(&a, segments[at], sizeof segments[at], &dst, &lengths[at]));
}

static void arrives(size_t at)
{
    done(tcpcore_arrive(&b, A, B, segments[at], lengths[at]));
    carry(&b, B, &a);
    came++;
}

/* The user reads, and the sender hears of the room. */
static void read_all(void)
{
    size_t count;
    done(tcpcore_receive(&b, into, sizeof into, &count));
    done(tcpcore_acknowledge(&b));
    carry(&b, B, &a);
}

/* The first `count` numbers in an order that is always the same. */
static void shuffle(uint32_t *order, size_t count)
{
    uint64_t state = 88172645463325252u;
    for (size_t at = 0; at < count; at++)
        order[at] = (uint32_t)at;
    for (size_t at = count; at > 1; at--) {
        state ^= state << 13;
        state ^= state >> 7;
        state ^= state << 17;
        size_t other = state % at;
        uint32_t kept = order[at - 1];
        order[at - 1] = order[other];
        order[other] = kept;
    }
}

/* The second, fourth and further segments come, then the others. */
static void held(size_t runs)
{
    static uint32_t order[MOST];
    shuffle(order, runs);
    write_all(2 * runs);
    for (size_t at = 0; at < runs; at++)
        arrives(2 * order[at] + 1);
    for (size_t at = 0; at < runs; at++)
        arrives(2 * order[at]);
    read_all();
}

static void in_order(size_t first, size_t count)
{
    for (size_t at = first; at < first + count; at++)
        arrives(at);
    read_all();
}

int main(int count, char **words)
{
    size_t runs = count == 4 ? strtoul(words[2], NULL, 10) : 0, rounds = count == 4 ? strtoul(words[3], NULL, 10) : 0;
    if (runs == 0 || 2 * runs + 200 * rounds > MOST) {
        fprintf(stderr, "runs order|beside|held RUNS ROUNDS, with 2 * RUNS + 200 * ROUNDS at most %d\n", MOST);
        return 2;
    }
    make(&a, A, 1, (uint16_t)runs);
    make(&b, B, 2, (uint16_t)runs);
    done(tcpcore_listen(&b));
    done(tcpcore_connect(&a, B, 2));
    for (int turn = 0; turn < 3; turn++) {
        carry(&a, A, &b);
        carry(&b, B, &a);
    }
    /* The window is scaled from the first acknowledgement on. */
    write_all(1);
    in_order(0, 1);
    came = 0;
    int is_held = strcmp(words[1], "held") == 0, is_beside = strcmp(words[1], "beside") == 0;
    if (is_beside) {
        /* The runs lie behind all that comes in order. */
        write_all(200 * rounds + 2 * runs);
        for (size_t at = 0; at < runs; at++)
            arrives(200 * rounds + 2 * at + 1);
        came = 0;
    }
    for (size_t round = 0; round < rounds; round++) {
        if (is_held) {
            held(runs);
            continue;
        }
        if (!is_beside)
            write_all(200);
        in_order(is_beside ? 200 * round : 0, 200);
    }
    printf("%lu\n", came);
    return 0;
}
