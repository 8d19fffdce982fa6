/*
 * loss NAME=VALUE..: text from one connection to another (tcpcore.h) over a simulated link in one process, with all that a connection
 * decides by itself: its timers, its congestion window, its loss recovery. It prints a line of numbers, in this order:
 *   seconds from the SYN to the last byte that was read (of several requests, to the last one's acknowledgement);
 *   segments with text that were sent, those of them that were sent again, and those again of which no byte was lost;
 *   retransmission timeouts; probes, which are the last segment again where nothing but time has passed; other segments that were sent
 *   again where nothing but time has passed; how often ssthresh fell; segments with text that the link lost; and how often a connection
 *   asked to be called for nothing.
 * It fails where other bytes come than were sent, where the transfer, or what is due at one time, doesn't end, and where a time that a
 * connection asks for stays in the past. The same words give the same numbers on each machine. Times are in milliseconds, and parts in
 * percent. NAME is
 * - rate (of the link each way, Mbit/s), trip (there and back without a load), queue (what would wait longer to leave is lost; 0: nothing
 *   is), jitter (each segment takes up to so much more, drawn for it alone, so that segments overtake each other);
 * - loss (of the segments each way), late and later (so many take so much longer), twice (so many come twice);
 * - tail (the last segments of each request that are lost when they are sent first), drop (the number of a segment with text that is lost,
 *   and so is each `every` behind it, if that isn't 0), cut and uncut (between these times all is lost);
 * - bytes of a request, requests one after another, pause from the acknowledgement of one to the next; shut and open (between these times
 *   nothing is read);
 * - mss, window (bytes of each buffer), runs, sack, congestion (0 none, 1 Reno, 2 CUBIC), recovery (1: by time), pacing (1: new text goes
 *   out in portions), ack (how long an acknowledgement waits), clock (the step of the connections' clock), seed, trace (1: each segment
 *   that is sent, each that is lost, and each timer).
 */
#include "link.h"
#include "tcpcore.h"

#include <stdio.h>
#include <stdlib.h>
#include <string.h>

enum {
    RATE, TRIP, QUEUE, JITTER, LOSS, LATE, LATER, TWICE, TAIL, DROP, EVERY, CUT, UNCUT, BYTES, REQUESTS, PAUSE, SHUT, OPEN, MSS, WINDOW, RUNS,
    SACK, CONGESTION, RECOVERY, PACING, ACK, CLOCK, SEED, TRACE, WORDS
};

static struct {
    const char *name;
    double value;
} words[WORDS] = {
    [RATE] = {"rate", 100}, [TRIP] = {"trip", 50}, [QUEUE] = {"queue", 0}, [JITTER] = {"jitter", 0}, [LOSS] = {"loss", 0},
    [LATE] = {"late", 0}, [LATER] = {"later", 10}, [TWICE] = {"twice", 0}, [TAIL] = {"tail", 0}, [DROP] = {"drop", 0},
    [EVERY] = {"every", 0}, [CUT] = {"cut", 0}, [UNCUT] = {"uncut", 0}, [BYTES] = {"bytes", 1000000}, [REQUESTS] = {"requests", 1},
    [PAUSE] = {"pause", 0}, [SHUT] = {"shut", 0}, [OPEN] = {"open", 0}, [MSS] = {"mss", 1460}, [WINDOW] = {"window", 1048576},
    [RUNS] = {"runs", 1024}, [SACK] = {"sack", 1}, [CONGESTION] = {"congestion", TCPCORE_CONGESTION_RENO}, [RECOVERY] = {"recovery", 0},
    [PACING] = {"pacing", 0}, [ACK] = {"ack", 0}, [CLOCK] = {"clock", 0.001}, [SEED] = {"seed", 1}, [TRACE] = {"trace", 0},
};

static double of(int word) { return words[word].value; }
static uint64_t time_of(int word) { return (uint64_t)(of(word) * (double)MILLISECOND); }

/* A connection, the direction of the link that leads to it, and when it has to be called. */
static struct side {
    tcpcore_connection connection;
    tcpcore_addr addr;
    struct link link;
    uint64_t next;
} sides[2]; /* the sender, and the receiver */

/* What has passed: the bytes that were offered, the ends of what was sent and of the requests, and when the next request begins. */
static uint64_t now, total, given, got, highest, request_end, begins_at;
static uint64_t segments, resent, needless, timeouts, probes, others, reductions, lost, woken;

/* Whether something arrived, was offered or expired in this turn, and whether something went out. */
static int is_caused, is_heard;
/* A mark for each byte of which something that wasn't lost was sent. */
static uint8_t *is_under_way;
static uint64_t ssthresh = UINT64_C(1) << 40;

/* The time that the connections are told, and when it is a later one. */
static uint64_t micros(void) { return now / time_of(CLOCK) * time_of(CLOCK) / 1000; }
static uint64_t when(uint64_t time) { return (time * 1000 + time_of(CLOCK) - 1) / time_of(CLOCK) * time_of(CLOCK); }

static void tell(const char *what, int at, uint64_t first, uint64_t size)
{
    if (of(TRACE) != 0)
        printf("%12.3f %d %s %llu +%llu\n", (double)now / (double)MILLISECOND, at, what, (unsigned long long)first, (unsigned long long)size);
}

/* Counts a segment that the sender emits, of which `size` bytes of text begin at `first`. */
static void count(uint64_t first, size_t size)
{
    int is_again = first < highest, is_last = first + size == highest;
    segments++;
    resent += is_again;
    needless += is_again && !memchr(is_under_way + first, 0, size);
    probes += is_again && !is_caused && is_last;
    others += is_again && !is_caused && !is_last;
    tell(!is_again ? "text" : is_caused ? "again" : is_last ? "probe" : "again, by time", 0, first, size);
}

/* Whether the link loses this segment: by chance, while it is cut, or as one that was told. */
static int is_lost(int from, uint64_t first, size_t size, uint64_t left)
{
    uint64_t tail = of(TAIL) > 0 ? (uint64_t)of(TAIL) * (uint64_t)of(MSS) : 0, nth = (uint64_t)of(DROP), every = (uint64_t)of(EVERY);
    int is_new_text = from == 0 && size > 0 && first >= highest;
    int is_nth = from == 0 && size > 0 && nth > 0 && (segments == nth || (segments > nth && every > 0 && (segments - nth) % every == 0));
    return chance() * 100 < of(LOSS) || (time_of(CUT) <= now && now < time_of(UNCUT)) || is_nth ||
           (of(QUEUE) > 0 && left - now > time_of(QUEUE)) || (is_new_text && first + size + tail > request_end);
}

/* A segment leaves once those before it have left. */
static void carry(int from, const uint8_t *segment, size_t length)
{
    struct link *link = &sides[1 - from].link;
    uint64_t first = 0, left = link->free_at;
    size_t size = text_of(segment, length, highest, &first);
    if (from == 0 && size > 0)
        count(first, size);
    int is_gone = is_lost(from, first, size, left > now ? left : now);
    if (!is_gone || of(QUEUE) == 0)
        left = leave(link, now, length, of(RATE));
    for (int copies = chance() * 100 < of(TWICE) ? 2 : 1; copies > 0 && !is_gone; copies--) {
        uint64_t more = (uint64_t)(chance() * (double)time_of(JITTER)) + (chance() * 100 < of(LATE) ? time_of(LATER) : 0);
        push(link, left + time_of(TRIP) / 2 + more, segment, length);
    }
    if (from != 0 || size == 0)
        return;
    if (is_gone)
        lost++, tell("lost", 0, first, size);
    else
        memset(is_under_way + first, 1, size);
    highest = first + size > highest ? first + size : highest;
}

/* How often something went out or expired at one time, which has to end. */
static void ends(void)
{
    static uint64_t time, count_of_these;
    count_of_these = time == now ? count_of_these + 1 : 0;
    time = now;
    if (count_of_these > 100000)
        fail("what is due at one time doesn't end");
}

static void emit(int at)
{
    uint8_t bytes[TCPCORE_EMIT_ROOM];
    struct tcpcore_connection_segment segment;
    while (tcpcore_connection_emit(&sides[at].connection, micros(), UINT64_MAX, bytes, sizeof bytes, &segment) == TCPCORE_DONE) {
        is_heard = 1;
        ends();
        carry(at, bytes, (size_t)segment.length);
    }
}

/* Text of which nothing is kept is as lost. */
static void note(const struct tcpcore_arrive_report *report, const struct packet *packet)
{
    uint64_t first;
    size_t size = text_of(packet->bytes, packet->length, highest, &first);
    if (report->brought == TCPCORE_BROUGHT_NOT_KEPT && first >= got)
        memset(is_under_way + first, 0, size), tell("not kept", 1, first, size);
}

/* All that has come by now arrives. */
static void arrive(int at)
{
    struct side *side = &sides[at];
    while (next_arrival(&side->link) <= now) {
        struct packet *packet = pop(&side->link);
        struct tcpcore_arrive_report report;
        uint32_t answer;
        while ((answer = tcpcore_connection_arrive(&side->connection, micros(), sides[1 - at].addr, side->addr, packet->bytes, packet->length,
                                                   &report)) == TCPCORE_EMIT_FIRST)
            emit(at);
        if (answer != TCPCORE_DONE && answer != TCPCORE_DROPPED)
            fail("a segment is refused");
        is_caused = is_heard = 1;
        if (at == 1)
            note(&report, packet);
        free(packet);
    }
}

/* The sender's user offers what is left of the request, or begins the next one. */
static void offer(void)
{
    struct tcpcore_status status;
    size_t size = 1;
    if (tcpcore_connection_status(&sides[0].connection, &status) != TCPCORE_DONE)
        fail("no status");
    if (given == request_end && request_end < total && status.released == given) {
        begins_at = begins_at == UINT64_MAX ? now + time_of(PAUSE) : begins_at;
        if (begins_at <= now)
            request_end += (uint64_t)of(BYTES), begins_at = UINT64_MAX;
    }
    while (given < request_end && size > 0) {
        size_t left = request_end - given < CHUNK ? (size_t)(request_end - given) : CHUNK;
        if (tcpcore_connection_send(&sides[0].connection, micros(), text + given % PERIOD, left, &size) != TCPCORE_DONE)
            return;
        given += size;
        is_caused |= size > 0;
    }
}

/* The receiver's user reads all that is there, but where it rests. */
static void read_all(void)
{
    static uint8_t bytes[CHUNK];
    size_t size;
    if (time_of(SHUT) <= now && now < time_of(OPEN))
        return;
    while (tcpcore_connection_receive(&sides[1].connection, micros(), bytes, sizeof bytes, &size) == TCPCORE_DONE && size > 0) {
        if (got + size > given || memcmp(bytes, text + got % PERIOD, size) != 0)
            fail("what came isn't what was sent");
        got += size;
    }
}

/* How often ssthresh has fallen. */
static void watch(void)
{
    struct tcpcore_congestion found;
    if (tcpcore_connection_congestion(&sides[0].connection, &found) != TCPCORE_DONE)
        fail("no congestion window");
    reductions += found.ssthresh < ssthresh;
    ssthresh = found.ssthresh;
}

/* One turn of a side's loop, as tcpcore.h says. */
static void turn(int at)
{
    static const char *const EXPIRED[] = {"timeout", "reorder", "time-wait", "user timeout"};
    struct side *side = &sides[at];
    int is_due = side->next <= micros();
    uint32_t timer;
    is_caused = is_heard = 0;
    arrive(at);
    if (at == 0)
        offer();
    else
        read_all();
    emit(at);
    while (tcpcore_connection_tick(&side->connection, micros(), &timer, &side->next) == TCPCORE_DONE) {
        tell(EXPIRED[timer], at, given, 0);
        timeouts += at == 0 && timer == TCPCORE_TIMER_RETRANSMIT;
        is_caused = is_heard = 1;
        ends();
        emit(at);
    }
    if (at == 0)
        watch();
    woken += is_due && !is_heard;
}

/* To the next arrival or deadline. */
static void pass_time(void)
{
    static unsigned late;
    uint64_t next = now < time_of(OPEN) && time_of(OPEN) < begins_at ? time_of(OPEN) : begins_at;
    for (int at = 0; at < 2; at++) {
        uint64_t arrival = next_arrival(&sides[at].link), deadline = sides[at].next < HOUR ? when(sides[at].next) : UINT64_MAX;
        next = arrival < next ? arrival : next;
        next = deadline < next ? deadline : next;
    }
    if (next == UINT64_MAX || next > HOUR)
        fail("the transfer doesn't end");
    late = next > now ? 0 : late + 1;
    if (late > 1000)
        fail("a connection asks for a time that has passed, again and again");
    now = next > now ? next : now;
}

/* A side finds losses by time. */
static void recover(int at)
{
#ifdef TCPCORE_RECOVERY_MEMORY
    void *recovery = malloc(TCPCORE_RECOVERY_MEMORY);
    if (!recovery || tcpcore_connection_set_recovery(&sides[at].connection, micros(), recovery, TCPCORE_RECOVERY_MEMORY) != TCPCORE_DONE)
        fail("no recovery");
#else
    (void)at;
    fail("this library finds no loss by time");
#endif
}

/* A side's new text goes out in portions. */
static void pace(int at)
{
#if TCPCORE_VERSION >= 21
    if (tcpcore_connection_set_pacing(&sides[at].connection, 1) != TCPCORE_DONE)
        fail("no pacing");
#else
    (void)at;
    fail("this library paces nothing");
#endif
}

/* From the first segment on, so that a SYN that is lost is in the numbers, too. */
static void make(int at)
{
    uint64_t window = (uint64_t)of(WINDOW);
    tcpcore_config config = {.addr = {{10, 0, 0, (uint8_t)(1 + at)}}, .port = (uint16_t)(1 + at), .mss = (uint16_t)of(MSS), .isn = ISN,
                             .send_capacity = window, .recv_capacity = window, .limit = TCPCORE_LIMIT,
                             .window_shift = TCPCORE_LEAST_SHIFT(window), .scales = 1, .sack = of(SACK) != 0, .runs = (uint16_t)of(RUNS)};
    struct tcpcore_connection_rules rules = TCPCORE_CONNECTION_RULES_DEFAULT;
    struct tcpcore_policy policy = {(uint64_t)(of(ACK) * 1000), TCPCORE_NEVER, 0, 0, {0}};
    tcpcore_connection *connection = &sides[at].connection;
    tcpcore_addr peer = {{10, 0, 0, (uint8_t)(2 - at)}};
    size_t room = tcpcore_connection_room(&config);
    void *block = malloc(room);
    sides[at].addr = config.addr;
    if (!block ||
        (at == 1 ? tcpcore_connection_listen(connection, &config, &rules, micros(), block, room)
                 : tcpcore_connection_connect(connection, &config, &rules, peer, (uint16_t)(2 - at), micros(), block, room)) ||
        tcpcore_connection_set_congestion(connection, (uint32_t)of(CONGESTION)) || tcpcore_connection_set_policy(connection, &policy))
        fail("no connection");
    if (of(RECOVERY) != 0)
        recover(at);
    if (of(PACING) != 0)
        pace(at);
}

static int is_over(void)
{
    struct tcpcore_status status;
    if (of(REQUESTS) == 1)
        return got == total;
    return got == total && tcpcore_connection_status(&sides[0].connection, &status) == TCPCORE_DONE && status.released == total;
}

static void set(const char *word)
{
    const char *value = strchr(word, '=');
    int at = 0;
    while (value && at < WORDS && (strlen(words[at].name) != (size_t)(value - word) || strncmp(words[at].name, word, (size_t)(value - word)) != 0))
        at++;
    if (!value || at == WORDS)
        fail("wants NAME=VALUE.., with a name that is told at the beginning of loss.c");
    words[at].value = strtod(value + 1, NULL);
}

int main(int count_of_words, char **word)
{
    for (int at = 1; at < count_of_words; at++)
        set(word[at]);
    begin((uint64_t)of(SEED));
    total = (uint64_t)of(BYTES) * (uint64_t)of(REQUESTS);
    request_end = (uint64_t)of(BYTES);
    begins_at = UINT64_MAX;
    is_under_way = calloc(total + 1, 1);
    if (!is_under_way)
        fail("no memory");
    now = MILLISECOND;
    make(0);
    make(1);
    for (;;) {
        turn(0);
        turn(1);
        if (is_over())
            break;
        pass_time();
    }
    const uint64_t counts[] = {segments, resent, needless, timeouts, probes, others, reductions, lost, woken};
    printf("%.4f", (double)(now - MILLISECOND) / (1000 * (double)MILLISECOND));
    for (size_t at = 0; at < sizeof counts / sizeof *counts; at++)
        printf(" %llu", (unsigned long long)counts[at]);
    printf("\n");
    return 0;
}
