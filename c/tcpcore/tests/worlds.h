/*
 * The random worlds of worlds.c: the words of both sides and of the links between them, how they are drawn from a seed, what a link does with
 * a segment, and what is kept of a side. Times are nanoseconds, but those of words, which are microseconds; chances are of 10,000.
 */
#ifndef TCPCORE_WORLDS_H
#define TCPCORE_WORLDS_H

#include "device.h"

#include <inttypes.h>
#include <stdio.h>
#include <stdlib.h>
#include <string.h>

enum { TEXT = 500000, PER_10000 = 10000, SYN = 2, RST = 4, ACK_BIT = 16 };

#define US UINT64_C(1000)
#define SECOND (1000000 * US)
#define NEVER UINT64_MAX

/* Of a side: its buffers and options; when it sends; its rules and its clock; what its user does; how it is called; and the link from it. */
enum {
    SEND_CAP, RECV_CAP, MSS, RUNS, SHIFT, SACK, ISN, LIMITED,
    POLICY, ACK, OVERRIDE, ANSWERS, NAGLE, CONGESTION, RECOVERY, WINDOW, CHOICE, CHANGE,
    FIRST, LEAST, GREATEST, TIME_WAIT, FIN_WAIT, CLOCK, OFFSET, LATENESS, BATCH,
    SIZE, WRITE, PAUSE, READ, REST, STALL_AT, STALL, CLOSE, ABORT, VANISH, UPDATE, RESEND,
    TRAIN, VOUCHED, TICK, EAGER, EARLY, PEEK,
    DELAY, JITTER, ORDERED, LOSS, BURST, TWICE, LATE, LATER, DAMAGE, RATE, QUEUE, WORDS
};
static const char *const NAMES[WORDS] = {
    "send", "recv", "mss", "runs", "shift", "sack", "isn", "limited",
    "policy", "ack", "override", "answers", "nagle", "congestion", "recovery", "window", "choice", "change",
    "first", "least", "greatest", "time_wait", "fin_wait", "clock", "offset", "lateness", "batch",
    "size", "write", "pause", "read", "rest", "stall_at", "stall", "close", "abort", "vanish", "update", "resend",
    "train", "vouched", "tick", "eager", "early", "peek",
    "delay", "jitter", "ordered", "loss", "burst", "twice", "late", "later", "damage", "rate", "queue"};
static uint64_t words[2][WORDS];

/* When a user closes, once all is given: at once, behind the peer, later, or as early as in SYN-RECEIVED. */
enum { AT_ONCE, BEHIND_THE_PEER, A_SECOND_LATER, IN_THE_HANDSHAKE };

/* SplitMix64. Users and links draw from streams of their own, so that what one does leaves the others as they are. */
enum { OF_WORLD, OF_USERS, OF_LINKS = 3, STREAMS = 5 };
static uint64_t seed, now, streams[STREAMS];

static uint64_t any(int stream, uint64_t bound)
{
    uint64_t z = streams[stream] += UINT64_C(0x9e3779b97f4a7c15);
    z = (z ^ z >> 30) * UINT64_C(0xbf58476d1ce4e5b9);
    z = (z ^ z >> 27) * UINT64_C(0x94d049bb133111eb);
    return (z ^ z >> 31) % bound;
}

static uint64_t lesser(uint64_t a, uint64_t b) { return a < b ? a : b; }
static uint64_t greater(uint64_t a, uint64_t b) { return a > b ? a : b; }
static uint64_t one_of(uint64_t many) { return any(OF_WORLD, many) == 0 ? 1 : 0; }

/* From `least` to `most`, each doubling as often as another. */
static uint64_t spread(uint64_t least, uint64_t most)
{
    uint64_t doublings = 0;
    while (least << doublings < most)
        doublings++;
    uint64_t value = least << any(OF_WORLD, doublings + 1);
    return lesser(value + any(OF_WORLD, value), most);
}

static uint64_t pick(const uint64_t *from, uint64_t count) { return from[any(OF_WORLD, count)]; }
#define PICK(...) pick((const uint64_t[]){__VA_ARGS__}, sizeof((const uint64_t[]){__VA_ARGS__}) / sizeof(uint64_t))

/* At most a tenth is lost or damaged; a queue has room for eight segments. */
static void draw_link(uint64_t *w)
{
    w[JITTER] = one_of(2) ? 0 : spread(1, w[DELAY]);
    w[ORDERED] = one_of(2);
    w[LOSS] = one_of(4) ? 0 : any(OF_WORLD, 1001);
    w[BURST] = one_of(3) ? spread(100, 400000) : 0;
    w[TWICE] = one_of(3) ? any(OF_WORLD, 500) : 0;
    w[LATE] = w[ORDERED] || !one_of(4) ? 0 : any(OF_WORLD, 1000);
    w[LATER] = w[LATE] == 0 ? 0 : spread(10, 4 * w[DELAY]);
    w[DAMAGE] = one_of(3) && w[LOSS] < 1000 ? any(OF_WORLD, 1000 - w[LOSS]) : 0;
    w[RATE] = one_of(2) ? 0 : spread(200, 1000000);
    w[QUEUE] = one_of(2) || w[RATE] == 0 ? 0 : spread(100000000 / w[RATE] + 1, 1000000000 / w[RATE]);
}

static void draw_end(uint64_t *w)
{
    w[SEND_CAP] = one_of(3) ? spread(1, 2000) : spread(2000, 262144);
    w[RECV_CAP] = one_of(3) ? spread(1, 2000) : spread(2000, 262144);
    w[MSS] = one_of(3) ? 1460 : spread(64, 1460);
    w[RUNS] = one_of(3) ? spread(1, 16) : spread(16, 256);
    w[SHIFT] = one_of(4) ? NEVER : TCPCORE_LEAST_SHIFT(w[RECV_CAP]) + (w[RECV_CAP] > 1000 && one_of(3) ? any(OF_WORLD, 4) : 0);
    w[SACK] = !one_of(5);
    w[ISN] = one_of(2) ? any(OF_WORLD, UINT64_C(1) << 32) : UINT32_MAX - any(OF_WORLD, 20000);
    w[LIMITED] = one_of(10);
    w[POLICY] = !one_of(3);
    w[ACK] = PICK(0, 1000, 40000, 40000, 200000, 499000);
    w[OVERRIDE] = PICK(TCPCORE_NEVER, 0, 100000, 500000, 500000, 1000000);
    w[ANSWERS] = PICK(0, 100000, 500000, 500000, 2000000);
    w[NAGLE] = any(OF_WORLD, 2);
    w[CONGESTION] = any(OF_WORLD, 3);
    w[RECOVERY] = !one_of(3);
    w[WINDOW] = one_of(6) ? spread(1, 262144) : NEVER;
    w[CHOICE] = one_of(4);
    w[CHANGE] = one_of(10);
    w[FIRST] = w[LEAST] = 1000000;
    w[GREATEST] = 60000000;
    if (one_of(3)) {
        w[LEAST] = spread(1000, 1000000);
        w[FIRST] = spread(greater(w[LEAST], 100000), 3000000);
        w[GREATEST] = spread(3000000, 120000000);
    }
    w[TIME_WAIT] = one_of(5) ? spread(1000, 240000000) : 240000000;
    w[FIN_WAIT] = one_of(10) ? spread(60000000, 240000000) : TCPCORE_NEVER;
    w[OFFSET] = one_of(2) ? 0 : any(OF_WORLD, UINT64_C(1) << 40);
    w[LATENESS] = one_of(20) ? spread(1, 2000000) : one_of(4) ? spread(1, 20000) : 0;
    w[BATCH] = one_of(6) ? spread(1, 20000) : 1;
}

static void draw_user(uint64_t *w)
{
    w[PAUSE] = one_of(15) ? spread(50000, 5000000) : one_of(3) ? spread(1, 50000) : 0;
    w[WRITE] = one_of(3) ? spread(1, 1460) : spread(1000, 100000);
    w[READ] = one_of(3) ? spread(1, 1460) : spread(1000, 100000);
    w[REST] = one_of(4) ? spread(1, 50000) : 0;
    w[STALL] = one_of(3) ? spread(1000, 20000000) : 0;
    w[CLOSE] = PICK(AT_ONCE, AT_ONCE, BEHIND_THE_PEER, A_SECOND_LATER, IN_THE_HANDSHAKE);
    w[ABORT] = one_of(20);
    w[VANISH] = one_of(40);
    w[UPDATE] = !one_of(10);
    w[RESEND] = one_of(10) ? spread(10, 1000) : 0;
    w[TRAIN] = one_of(3) ? spread(1, 64) : 0;
    w[VOUCHED] = one_of(3);
    w[TICK] = any(OF_WORLD, 2);
    w[EAGER] = any(OF_WORLD, 2);
    w[EARLY] = one_of(3);
    w[PEEK] = one_of(3);
}

/* The most text that a segment of a side has. */
static uint64_t unit_of(int at)
{
    const uint64_t *w = words[at], *other = words[1 - at];
    return lesser(lesser(lesser(w[MSS], other[MSS]), lesser(w[SEND_CAP], other[RECV_CAP])), w[WINDOW]);
}

/* Two ends may answer each other without end where neither limits its answers, as docs/EMBEDDING.md says. */
static int are_unlimited(void)
{
    int are = 1;
    for (int at = 0; at < 2; at++)
        are &= (!words[at][POLICY] || words[at][ANSWERS] == 0) && !words[at][CHANGE];
    return are;
}

/* What one side's words ask of the other's. */
static void fit(int at)
{
    uint64_t *w = words[at], *other = words[1 - at];
    uint64_t unit = lesser(unit_of(at), lesser(w[WRITE], other[READ])), most = lesser(TEXT, (one_of(10) ? 4000 : 600) * unit);
    w[SIZE] = one_of(8) ? 0 : spread(1, w[PAUSE] > 50000 ? lesser(most, 40 * w[WRITE]) : most);
    w[STALL_AT] = any(OF_WORLD, most);
    /* Without a congestion window a full queue loses most of what is sent. */
    if (w[CONGESTION] == TCPCORE_CONGESTION_NONE) {
        w[QUEUE] = 0;
        w[RATE] = w[RATE] == 0 ? 0 : greater(w[RATE], 16 * lesser(w[SEND_CAP], other[RECV_CAP]) / 1000 + 1);
    }
    /* Where losses are found by time mostly finer than a quarter of a round trip, as the header wants it. */
    w[CLOCK] = PICK(1, 1, 10, 100, 1000, 10000);
    while (w[RECOVERY] && !one_of(10) && w[CLOCK] > 1 && 8 * w[CLOCK] > w[DELAY] + other[DELAY])
        w[CLOCK] /= 10;
    if (are_unlimited()) {
        w[STALL] = lesser(w[STALL], 1000 * w[DELAY]);
        w[TWICE] = 0;
    }
}

/* A world, with what words of the command line set: NAME=VALUE of both sides, a.NAME=VALUE or b.NAME=VALUE of one; `-` is never. */
static void draw(int count, char **set)
{
    uint64_t delay;
    for (uint64_t i = 0; i < STREAMS; i++)
        streams[i] = seed * 7919 + i * UINT64_C(0x123456789abcdef);
    delay = spread(50, 300000);
    for (int at = 0; at < 2; at++) {
        words[at][DELAY] = one_of(4) ? spread(50, 300000) : delay;
        draw_end(words[at]);
        draw_user(words[at]);
        draw_link(words[at]);
    }
    fit(0);
    fit(1);
    /* Two that wait for each other. */
    if (words[0][CLOSE] == BEHIND_THE_PEER && words[1][CLOSE] == BEHIND_THE_PEER)
        words[1][CLOSE] = AT_ONCE;
    for (int i = 0; i < count; i++) {
        int one = set[i][1] == '.' ? set[i][0] - 'a' : -1;
        const char *name = set[i] + (one < 0 ? 0 : 2), *value = strchr(name, '=');
        for (int word = 0; value && word < WORDS; word++)
            for (int at = 0; at < 2; at++)
                if (one != 1 - at && strlen(NAMES[word]) == (size_t)(value - name) && strncmp(NAMES[word], name, (size_t)(value - name)) == 0)
                    words[at][word] = value[1] == '-' ? NEVER : strtoull(value + 1, NULL, 10);
    }
}

static const tcpcore_addr ADDRS[2] = {{{10, 0, 0, 1}}, {{10, 0, 0, 2}}};

static tcpcore_config config_of(int at)
{
    const uint64_t *w = words[at];
    return (tcpcore_config){.addr = ADDRS[at],
                            .port = (uint16_t)(1 + at),
                            .mss = (uint16_t)w[MSS],
                            .isn = (uint32_t)w[ISN],
                            .send_capacity = w[SEND_CAP],
                            .recv_capacity = w[RECV_CAP],
                            .limit = w[LIMITED] ? greater(w[SIZE], 1) : TCPCORE_LIMIT,
                            .window_shift = (uint8_t)(w[SHIFT] == NEVER ? 0 : w[SHIFT]),
                            .scales = w[SHIFT] != NEVER,
                            .sack = w[SACK] != 0,
                            .runs = (uint16_t)w[RUNS]};
}

static struct tcpcore_connection_rules rules_of(int at)
{
    const uint64_t *w = words[at];
    struct tcpcore_connection_rules rules = TCPCORE_CONNECTION_RULES_DEFAULT;
    rules.first = w[FIRST];
    rules.least = w[LEAST];
    rules.greatest = w[GREATEST];
    rules.granularity = w[CLOCK];
    rules.time_wait = w[TIME_WAIT];
    rules.fin_wait_2 = w[FIN_WAIT];
    return rules;
}

/* How long a trip there and back takes at most, with all that waits, in microseconds. */
static uint64_t longest_trip(void)
{
    uint64_t trip = 0;
    for (int at = 0; at < 2; at++) {
        const uint64_t *w = words[at];
        trip += w[DELAY] + w[JITTER] + w[LATER] + 2 * w[CLOCK] + w[LATENESS] + w[BATCH] + (w[POLICY] ? w[ACK] : 0);
        trip += w[QUEUE] > 0 ? w[QUEUE] : w[RATE] > 0 ? 16000 * lesser(w[SEND_CAP], words[1 - at][RECV_CAP]) / w[RATE] : 0;
    }
    return trip;
}

/* Where no retransmission timer expires before an answer can have come. */
static int is_regular(void) { return words[0][LEAST] == 1000000 && words[1][LEAST] == 1000000 && longest_trip() < 900000; }

/* Where trips are even, too, windows stay open, and clocks are fine. */
static int is_even(void)
{
    int is = is_regular();
    for (int at = 0; at < 2; at++) {
        const uint64_t *w = words[at];
        is &= w[JITTER] + w[RATE] + w[LATENESS] + w[STALL] + w[REST] + w[RESEND] == 0 && (!w[POLICY] || w[ACK] < 200000) && w[BATCH] == 1;
        is &= 8 * w[CLOCK] <= words[0][DELAY] + words[1][DELAY] && w[RECV_CAP] >= 4 * w[MSS];
    }
    return is;
}

static void show(void)
{
    for (int at = 0; at < 2; at++) {
        printf("%c:", "ab"[at]);
        for (int word = 0; word < WORDS; word++)
            if (words[at][word] == NEVER)
                printf(" %s=-", NAMES[word]);
            else
                printf(" %s=%" PRIu64, NAMES[word], words[at][word]);
        printf("\n");
    }
}

/* The worst that was found, and in which world. */
struct worst {
    double most;
    uint64_t seed;
};

static void note(struct worst *worst, double found)
{
    if (found > worst->most)
        *worst = (struct worst){found, seed};
}

/* The time by a side's clock, and when that clock shows `time`. */
static uint64_t clock_of(int at) { return now / (words[at][CLOCK] * US) * words[at][CLOCK] + words[at][OFFSET]; }

static uint64_t when(int at, uint64_t time)
{
    uint64_t step = words[at][CLOCK];
    return time == TCPCORE_NEVER ? NEVER : time <= words[at][OFFSET] ? 0 : (time - words[at][OFFSET] + step - 1) / step * step * US;
}

static uint32_t get32(const unsigned char *at) { return get16(at) << 16 | get16(at + 2); }

/* The position of a number that is near another one. */
static uint64_t position_of(uint32_t number, int at, uint64_t near)
{
    return near + (uint64_t)(int64_t)(int32_t)(number - (uint32_t)(words[at][ISN] + near));
}

static int is_traced;

static void trace(int from, const char *what, const unsigned char *bytes, size_t length)
{
    size_t header = 4 * (size_t)(bytes[12] >> 4);
    if (!is_traced)
        return;
    printf("%12" PRIu64 " %c %-10s %02x seq %" PRIu32 " +%zu ack %" PRIu32 " wnd %" PRIu32, now / US, "ab"[from], what, bytes[13],
           get32(bytes + 4) - (uint32_t)words[from][ISN], length - header, get32(bytes + 8) - (uint32_t)words[1 - from][ISN], get16(bytes + 14));
    for (size_t i = 20; i + 4 <= header && bytes[i] == 1; i += 4)
        for (size_t block = i + 4; bytes[i + 2] == 5 && block + 8 <= header; block += 8)
            printf(" [%" PRIu32 " %" PRIu32 "]", get32(bytes + block) - (uint32_t)words[1 - from][ISN],
                   get32(bytes + block + 4) - (uint32_t)words[1 - from][ISN]);
    printf("\n");
}

/* A segment under way, and the links to each side, as heaps by the time at which segments come. */
struct packet {
    uint64_t at, order;
    size_t length;
    int is_damaged;
    unsigned char bytes[TCPCORE_EMIT_ROOM];
};
static struct link {
    struct packet **heap;
    size_t count, room;
    uint64_t free_at, last_at, burst_until, burst_left, order;
} links[2];

static int is_before(const struct packet *one, const struct packet *other)
{
    return one->at != other->at ? one->at < other->at : one->order < other->order;
}

static void push(struct link *link, struct packet *packet)
{
    if (link->count == link->room) {
        link->room = 2 * link->room + 64;
        link->heap = realloc(link->heap, link->room * sizeof *link->heap);
    }
    size_t place = link->count++;
    for (; place > 0 && is_before(packet, link->heap[(place - 1) / 2]); place = (place - 1) / 2)
        link->heap[place] = link->heap[(place - 1) / 2];
    link->heap[place] = packet;
}

static struct packet *pop(struct link *link)
{
    struct packet *first = link->heap[0], *last = link->heap[--link->count];
    size_t at = 0;
    for (size_t child = 1; child < link->count; child = 2 * at + 1) {
        if (child + 1 < link->count && is_before(link->heap[child + 1], link->heap[child]))
            child++;
        if (!is_before(link->heap[child], last))
            break;
        link->heap[at] = link->heap[child];
        at = child;
    }
    link->heap[at] = last;
    return first;
}

/* A segment of a side goes onto the link, which does it harm where it may: how many copies come undamaged. */
static int carry(int from, const unsigned char *bytes, size_t length, int is_harmful)
{
    const uint64_t *w = words[from];
    struct link *link = &links[1 - from];
    uint64_t left = greater(link->free_at, now), loss = w[BURST] > 0 ? w[LOSS] / 2 : w[LOSS];
    int stream = OF_LINKS + from, copies = is_harmful && any(stream, PER_10000) < w[TWICE] ? 2 : 1, whole = 0;
    if (is_harmful && w[BURST] > 0 && link->burst_left == 0 && any(stream, 10 * PER_10000) < w[LOSS]) {
        link->burst_left = 2 + any(stream, 7);
        link->burst_until = now + any(stream, w[BURST] * US);
    }
    int is_lost = any(stream, PER_10000) < loss || (link->burst_left > 0 && now < link->burst_until);
    link->burst_left -= link->burst_left > 0;
    if (is_harmful && (is_lost || (w[QUEUE] > 0 && left - now > w[QUEUE] * US)))
        return 0;
    link->free_at = left += w[RATE] > 0 ? (length + 20) * 8 * 1000 * 1000 / w[RATE] : 0;
    for (; copies > 0; copies--) {
        struct packet *packet = malloc(sizeof *packet);
        packet->at = left + w[DELAY] * US + (w[JITTER] > 0 ? any(stream, w[JITTER] * US) : 0);
        packet->at += is_harmful && any(stream, PER_10000) < w[LATE] ? w[LATER] * US : 0;
        if (w[ORDERED])
            packet->at = link->last_at = greater(link->last_at, packet->at);
        packet->order = link->order++;
        packet->length = length;
        memcpy(packet->bytes, bytes, length);
        packet->is_damaged = is_harmful && any(stream, PER_10000) < w[DAMAGE];
        if (packet->is_damaged)
            packet->bytes[any(stream, length)] ^= (unsigned char)(1 + any(stream, 255));
        whole += !packet->is_damaged;
        push(link, packet);
    }
    return whole;
}

/* A side, as its host and its user have it. */
static struct side {
    tcpcore_connection connection;
    unsigned char *block, *recovery;
    size_t shift;
    /* When it has to be called, and when its user acts. */
    uint64_t wake, write_at, read_at, close_at;
    int in_burst, has_stalled, has_chosen, is_closed, is_aborted, is_gone, is_at_end;
    /* Bytes that were accepted, read, sent, came in order and were released; and the position to which the peer may send. */
    uint64_t given, got, highest, ordered, released, edge;
    uint64_t emitted, again, calls, harmed, not_kept, probes, expired[4];
    struct tcpcore_status status;
    /* A mark for each position of its text and its FIN that blocks have reported. */
    unsigned char is_reported[TEXT + 2];
} sides[2];

/* Whether the world is without losses, in order. */
static int is_clean;

static void fail(int at, const char *what)
{
    printf("worlds: world %" PRIu64 "%s: side %c at %" PRIu64 " us: %s\n", seed, is_clean ? ", without losses" : "", "ab"[at], now / US, what);
    exit(1);
}

/* The segment that comes to a side next, whose blocks report some of what that sent. */
static struct packet *arrived(int at)
{
    struct packet *packet = pop(&links[at]);
    const unsigned char *bytes = packet->bytes;
    size_t header = 4 * (size_t)(bytes[12] >> 4);
    for (size_t i = 20; !packet->is_damaged && i + 4 <= header && header <= packet->length && bytes[i] == 1; i += 4)
        for (size_t block = i + 4; bytes[i + 2] == 5 && block + 8 <= header; block += 8) {
            uint64_t from = position_of(get32(bytes + block), at, sides[at].highest);
            uint64_t to = position_of(get32(bytes + block + 4), at, sides[at].highest);
            if (from < to && to <= TEXT + 2)
                memset(sides[at].is_reported + from, 1, (size_t)(to - from));
        }
    return packet;
}

/* How far text may go past the congestion window: two segments (RFC 3042), or at most what blocks have reported, where losses are found by
 * time and no recovery goes on (RFC 6675, 5). The bound is looser than the rule: marks are never taken back, what blocks reported counts
 * behind a timeout, too, and two segments may go past where blocks report less. */
static uint64_t past_window(int at, uint64_t una, const struct tcpcore_congestion *congestion)
{
    int is_open = words[at][RECOVERY] && !congestion->is_recovering && congestion->ssthresh <= congestion->cwnd;
    uint64_t reported = 0;
    for (uint64_t position = una; is_open && position <= sides[at].highest + 1; position++)
        reported += sides[at].is_reported[position];
    return greater(2 * congestion->smss, reported);
}

/* Whether a side has a congestion window, and the other one room for four of its segments. */
static int is_wide(int at)
{
    return words[at][CONGESTION] != TCPCORE_CONGESTION_NONE && words[1 - at][RECV_CAP] >= 4 * lesser(words[0][MSS], words[1][MSS]);
}

#define SURE(at, is_so, what) ((is_so) ? (void)0 : fail(at, what))
#define DONE(at, call) SURE(at, (call) == TCPCORE_DONE, #call)

#endif
