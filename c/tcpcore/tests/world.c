/*
 * One scripted world, as checks/programs/test_connections has it, by tcpcore.h's connections: reads a script and prints its trace.
 * c/bindings/test.sh compares what each language prints with what the proved end itself does in Rattle.
 */
#include "tcpcore.h"

#include <inttypes.h>
#include <stdio.h>
#include <stdlib.h>
#include <string.h>

enum { MOST = 4096, CAPACITY = 1 << 17, RUNS = 64, FATES = 64 };

static const tcpcore_addr ADDRS[2] = {{{10, 0, 0, 1}}, {{10, 0, 0, 2}}};
static unsigned char blocks[2][TCPCORE_CONNECTION_MEMORY_RUNS(CAPACITY, CAPACITY, RUNS)];
static tcpcore_connection ends[2];
static struct tcpcore_connection_rules rules = TCPCORE_CONNECTION_RULES_DEFAULT;
static uint64_t now, way, window, emitted[2], given[2];

/* What is on its way, in the order in which it was emitted. */
static struct packet {
    uint64_t at;
    int side;
    size_t length;
    unsigned char bytes[TCPCORE_EMIT_ROOM];
} packets[MOST];
static size_t packet_count;

/* What becomes of a side's emissions: from `first` on `count` are lost, or come so much later. */
static struct fate {
    int side;
    uint64_t first, count, later;
} fates[FATES];
static size_t fate_count;

static void fail(const char *what)
{
    fprintf(stderr, "world: %s\n", what);
    exit(1);
}

/* Prints a time or a limit, `-` for none. */
static void print_time(uint64_t time)
{
    if (time == TCPCORE_NEVER)
        printf(" -\n");
    else
        printf(" %" PRIu64 "\n", time);
}

static void show(int side)
{
    struct tcpcore_status s;
    uint64_t at;
    if (tcpcore_connection_status(&ends[side], &s) != TCPCORE_DONE || tcpcore_connection_poll_at(&ends[side], &at) != TCPCORE_DONE)
        fail("no status");
    printf("%" PRIu64 " %c is %" PRIu32 " %" PRIu32 " %" PRIu64 " %" PRIu64 " %" PRIu64 " %" PRIu64 " %" PRIu64 " %" PRIu64, now, "AB"[side],
           s.phase, s.ending, s.unread, s.ordered, s.released, s.room, s.queued, s.in_flight);
    print_time(at);
}

/* When the side's emission of this number comes; never where it is lost. */
static uint64_t arrival(int side, uint64_t number)
{
    uint64_t at = now + way;
    for (size_t i = 0; i < fate_count; i++) {
        const struct fate *fate = &fates[i];
        if (fate->side == side && number >= fate->first && number - fate->first < fate->count) {
            if (fate->later == TCPCORE_NEVER)
                return TCPCORE_NEVER;
            at += fate->later;
        }
    }
    return at;
}

static void emit(int side)
{
    struct tcpcore_connection_segment sent;
    for (;;) {
        if (packet_count == MOST)
            fail("too many packets");
        struct packet *packet = &packets[packet_count];
        if (tcpcore_connection_emit(&ends[side], now, window, packet->bytes, sizeof packet->bytes, &sent) != TCPCORE_DONE)
            return;
        packet->at = arrival(side, emitted[side]++);
        packet->side = 1 - side;
        packet->length = (size_t)sent.length;
        printf("%" PRIu64 " %c sent %" PRIu64 " %" PRIu64 " %" PRIu64 " ", now, "AB"[side], sent.length, sent.position, sent.count);
        for (size_t i = 0; i < 4u * (packet->bytes[12] >> 4); i++)
            printf("%02x", packet->bytes[i]);
        printf(packet->at == TCPCORE_NEVER ? " lost\n" : "\n");
        packet_count += packet->at != TCPCORE_NEVER;
    }
}

/* Hands in all that has come, in the order in which it was emitted. */
static void deliver(void)
{
    struct tcpcore_arrive_report report;
    for (size_t i = 0; i < packet_count;) {
        const struct packet *packet = &packets[i];
        int side = packet->side;
        if (packet->at > now) {
            i++;
            continue;
        }
        uint32_t answer = tcpcore_connection_arrive(&ends[side], now, ADDRS[1 - side], ADDRS[side], packet->bytes, packet->length, &report);
        printf("%" PRIu64 " %c came %" PRIu32 " %" PRIu64 " %" PRIu32 " %" PRIu32 " %" PRIu32 "\n", now, "AB"[side], answer,
               report.acked, report.at_once, report.is_duplicate, report.window_taken);
        packet_count--;
        memmove(&packets[i], &packets[i + 1], (packet_count - i) * sizeof *packets);
    }
}

/* What is due goes out, and timers expire. */
static void turn(int side)
{
    uint32_t timer;
    emit(side);
    while (tcpcore_connection_timeout(&ends[side], now, &timer) == TCPCORE_DONE) {
        printf("%" PRIu64 " %c expired %" PRIu32 "\n", now, "AB"[side], timer);
        emit(side);
    }
    show(side);
}

/* Time goes on, and whatever happens by then. */
static void go_on(uint64_t until)
{
    for (;;) {
        uint64_t next = TCPCORE_NEVER, at;
        for (size_t i = 0; i < packet_count; i++)
            next = packets[i].at < next ? packets[i].at : next;
        for (int side = 0; side < 2; side++) {
            if (tcpcore_connection_poll_at(&ends[side], &at) != TCPCORE_DONE)
                fail("no time");
            next = at < next ? at : next;
        }
        if (next == TCPCORE_NEVER || next > until)
            break;
        now = next > now ? next : now;
        deliver();
        turn(0);
        turn(1);
    }
    now = until > now ? until : now;
}

/* The words of a line behind the first. */
static uint64_t number(void)
{
    const char *word = strtok(NULL, " ");
    if (word == NULL)
        fail("a word is missing");
    return strcmp(word, "-") == 0 ? TCPCORE_NEVER : strtoull(word, NULL, 10);
}

static int side_of(const char *word)
{
    if (word == NULL || (strcmp(word, "A") != 0 && strcmp(word, "B") != 0))
        fail("no side");
    return word[0] == 'B';
}

/* A new world: A connects to B, at time 0. */
static void begin(void)
{
    tcpcore_config config = TCPCORE_CONFIG_DEFAULT;
    for (int side = 0; side < 2; side++)
        tcpcore_connection_free(&ends[side]);
    now = packet_count = fate_count = emitted[0] = emitted[1] = given[0] = given[1] = 0;
    window = TCPCORE_NEVER;
    way = number();
    config.mss = (uint16_t)number();
    config.send_capacity = config.recv_capacity = number();
    uint64_t shift = number();
    config.scales = shift != TCPCORE_NEVER;
    config.window_shift = (uint8_t)(config.scales ? shift : 0);
    config.runs = (uint16_t)number();
    for (int side = 0; side < 2; side++) {
        config.addr = ADDRS[side];
        config.port = (uint16_t)(1 + side);
        config.isn = side == 0 ? 4294967290 : 5000;
        uint32_t answer = side == 0 ? tcpcore_connection_connect(&ends[0], &config, &rules, ADDRS[1], 2, 0, blocks[0], sizeof *blocks)
                                    : tcpcore_connection_listen(&ends[1], &config, &rules, 0, blocks[1], sizeof *blocks);
        if (answer != TCPCORE_DONE)
            fail("no connection");
    }
    printf("new\n");
    turn(0);
    turn(1);
}

static void set_rules(void)
{
    uint64_t *times[] = {&rules.first, &rules.least, &rules.greatest, &rules.granularity, &rules.after_syn, &rules.time_wait,
                         &rules.handshake, &rules.user, &rules.fin_wait_2};
    for (size_t i = 0; i < sizeof times / sizeof *times; i++)
        *times[i] = number();
    rules.suspect_after = (uint32_t)number();
}

static void fate(uint64_t is_lost)
{
    if (fate_count == FATES)
        fail("too many fates");
    struct fate *fate = &fates[fate_count++];
    fate->side = side_of(strtok(NULL, " "));
    fate->first = number();
    fate->count = number();
    fate->later = is_lost ? TCPCORE_NEVER : number();
}

/* Prints what a call that counts bytes answered. */
static void counted(uint32_t answer, size_t count)
{
    if (answer == TCPCORE_DONE)
        printf("%zu\n", count);
    else
        printf("answer %" PRIu32 "\n", answer);
}

static void sends(int side, uint64_t length)
{
    static unsigned char text[CAPACITY];
    size_t taken;
    for (size_t i = 0; i < length; i++) {
        uint64_t at = given[side] + i;
        text[i] = (unsigned char)(at * 7 + (at >> 8) + 3 * (unsigned)side);
    }
    uint32_t answer = tcpcore_connection_send(&ends[side], now, text, (size_t)length, &taken);
    counted(answer, taken);
    given[side] += taken;
}

/* The bytes are told by their sum of FNV-1a. */
static void receives(int side, uint64_t room)
{
    static unsigned char text[CAPACITY];
    size_t count;
    uint32_t sum = 2166136261, answer = tcpcore_connection_receive(&ends[side], now, text, (size_t)room, &count);
    for (size_t i = 0; i < count; i++)
        sum = (sum ^ text[i]) * 16777619;
    if (answer == TCPCORE_DONE)
        printf("%zu %" PRIu32 "\n", count, sum);
    else
        counted(answer, count);
}

static void peeks(int side)
{
    struct tcpcore_lent lent;
    uint32_t answer = tcpcore_connection_peek(&ends[side], &lent);
    counted(answer, lent.first.length + lent.second.length);
}

/* A call of a side's user. */
static void call(int side)
{
    const char *name = strtok(NULL, " ");
    size_t count = 0;
    go_on(number());
    if (name == NULL)
        fail("no call");
    printf("%" PRIu64 " %c %s ", now, "AB"[side], name);
    if (strcmp(name, "send") == 0)
        sends(side, number());
    else if (strcmp(name, "receive") == 0)
        receives(side, number());
    else if (strcmp(name, "peek") == 0)
        peeks(side);
    else if (strcmp(name, "consume") == 0) {
        uint32_t answer = tcpcore_connection_consume(&ends[side], now, (size_t)number(), &count);
        counted(answer, count);
    } else if (strcmp(name, "acknowledge") == 0)
        counted(tcpcore_connection_acknowledge(&ends[side], now), 0);
    else if (strcmp(name, "close") == 0)
        counted(tcpcore_connection_close(&ends[side], now), 0);
    else if (strcmp(name, "abort") == 0)
        counted(tcpcore_connection_abort(&ends[side], now), 0);
    else
        fail("an unknown call");
    turn(side);
}

int main(void)
{
    char line[256];
    while (fgets(line, sizeof line, stdin) != NULL) {
        line[strcspn(line, "\n")] = 0;
        const char *word = strtok(line, " ");
        if (word == NULL)
            fail("an empty line");
        else if (strcmp(word, "rules") == 0)
            set_rules();
        else if (strcmp(word, "new") == 0)
            begin();
        else if (strcmp(word, "lose") == 0)
            fate(1);
        else if (strcmp(word, "late") == 0)
            fate(0);
        else if (strcmp(word, "window") == 0)
            window = number();
        else if (strcmp(word, "run") == 0)
            go_on(number());
        else
            call(side_of(word));
    }
    return 0;
}
