/*
 * Random calls of the whole interface, COUNT of them, from a number FIRST that chooses them (bare metal has no words). It prints a sum over every answer, every
 * value that was told and every byte that was emitted or handed over, line by line, and at last how often each answer came. The native
 * library and the portable file have to print the same, on any machine.
 */
#include "tcpcore.h"

#include <stdio.h>
#include <string.h>

#ifndef COUNT
#define COUNT 100000
#endif
#ifndef FIRST
#define FIRST 0
#endif

enum { KEPT = 24, LONGEST = 65600, MOST_RUNS = 300, BLOCK = TCPCORE_MEMORY_RUNS(70000, 70000, MOST_RUNS), ANSWERS = 64, TEXT = 80000 };

/* A segment as it went out, or as the test made it. */
struct kept {
    tcpcore_addr to;
    size_t length;
    unsigned char bytes[LONGEST];
};

struct side {
    tcpcore_end end;
    tcpcore_addr addr;
    uint16_t port;
    struct tcpcore_time_wait time_wait;
    int is_time_wait;
    unsigned long emitted;
    struct kept kept[KEPT];
    unsigned char block[BLOCK + 48];
};

static struct side sides[2];
static unsigned char text[TEXT], room[TEXT];
static uint64_t chosen, sum = UINT64_C(14695981039346656037);
static unsigned long long answers[ANSWERS];

static uint32_t next(uint32_t below)
{
    chosen ^= chosen >> 12, chosen ^= chosen << 25, chosen ^= chosen >> 27;
    return (uint32_t)((chosen * UINT64_C(2685821657736338717)) >> 32) % below;
}

static void mix_bytes(const void *bytes, size_t length)
{
    const unsigned char *at = bytes;
    for (size_t i = 0; i < length; i++)
        sum = (sum ^ at[i]) * UINT64_C(1099511628211);
}

static void mix(uint64_t value)
{
    for (int i = 0; i < 8; i++, value >>= 8)
        sum = (sum ^ (value & 255)) * UINT64_C(1099511628211);
}

static uint32_t reported(uint32_t answer)
{
    answers[answer < ANSWERS ? answer : 0]++;
    mix(answer);
    return answer;
}

static void put16(unsigned char *at, uint32_t value)
{
    at[0] = (unsigned char)(value >> 8);
    at[1] = (unsigned char)value;
}

/* Sets the checksum of a segment (RFC 9293, 3.1). */
static void sign(struct kept *kept, tcpcore_addr src)
{
    uint32_t total = 6 + (uint32_t)kept->length;
    if (kept->length < 20)
        return;
    put16(kept->bytes + 16, 0);
    for (int i = 0; i < 4; i++)
        total += (uint32_t)(src.byte[i] + kept->to.byte[i]) << (i % 2 ? 0 : 8);
    for (size_t i = 0; i < kept->length; i++)
        total += (uint32_t)kept->bytes[i] << (i % 2 ? 0 : 8);
    total = (total & 0xffff) + (total >> 16);
    total = (total & 0xffff) + (total >> 16);
    put16(kept->bytes + 16, ~total);
}

static size_t some_capacity(void)
{
    static const uint32_t BOUNDS[] = {2, 20, 2000, 70000};
    return 1 + next(BOUNDS[next(4)]);
}

static uint16_t some_runs(void)
{
    static const uint16_t RUNS[] = {0, 1, 2, 5, 16, MOST_RUNS};
    return next(60) ? RUNS[next(6)] : TCPCORE_MAX_RUNS + 1;
}

static tcpcore_config some_config(struct side *side)
{
    static const uint32_t ISNS[] = {0, 77, UINT32_MAX, UINT32_MAX - 900, UINT32_C(1) << 31};
    tcpcore_config config;
    memset(&config, 0, sizeof config);
    config.addr = side->addr;
    config.port = side->port;
    config.mss = (uint16_t)(next(40) ? 64 + next(1397) : next(65536));
    config.isn = ISNS[next(5)];
    config.send_capacity = next(60) ? some_capacity() : next(2) ? 0 : UINT64_C(1) << 32;
    config.recv_capacity = next(60) ? some_capacity() : 1048577;
    config.limit = next(60) ? next(3) ? TCPCORE_LIMIT : 1 + next(100000) : 0;
    config.window_shift = (uint8_t)(next(60) ? next(15) : 15);
    config.scales = (uint8_t)(next(3) ? next(256) : 0);
    config.sack = (uint8_t)next(3);
    config.runs = some_runs();
    return config;
}

static void make(struct side *side)
{
    tcpcore_config config = some_config(side);
    size_t wanted = tcpcore_room(&config), length = next(20) ? sizeof side->block - 32 : next(900);
    /* Where a block begins decides whether few bytes are enough: on each machine at the same distance from a multiple of 16. */
    unsigned char *even = side->block + -(uintptr_t)side->block % 16;
    mix(wanted);
    side->is_time_wait = 0;
    reported(tcpcore_new(&side->end, &config, even + next(16), length));
}

/* What is due, and the same once it is written, each number of it. */
static uint32_t transmit(struct side *side, struct kept *kept, size_t given, size_t *length)
{
    struct tcpcore_transmit all[2];
    reported(tcpcore_next(&side->end, &all[0]));
    uint32_t answer = tcpcore_transmit(&side->end, kept->bytes, given, &all[1]);
    for (int i = 0; i < 2; i++) {
        mix_bytes(all[i].to.byte, 4), mix(all[i].kind), mix(all[i].length), mix(all[i].position), mix(all[i].count);
        for (size_t at = 0; at < sizeof all[i].reserved / sizeof *all[i].reserved; at++)
            mix(all[i].reserved[at]);
    }
    kept->to = all[1].to;
    *length = (size_t)all[1].length;
    return answer;
}

/* All bytes of what is lent, one piece behind the other. */
static size_t gather(unsigned char *out, const tcpcore_piece *first, const tcpcore_piece *second)
{
    if (first->length > 0)
        memcpy(out, first->at, first->length);
    if (second->length > 0)
        memcpy(out + first->length, second->at, second->length);
    mix(first->length), mix(second->length), mix(!first->at), mix(!second->at);
    return first->length + second->length;
}

/* In parts, and said to be sent. */
static uint32_t parts(struct side *side, struct kept *kept, size_t given, size_t *length)
{
    struct tcpcore_parts all;
    uint32_t answer = tcpcore_parts(&side->end, kept->bytes, given, &all);
    kept->to = all.to;
    mix(all.header);
    for (size_t i = 0; i < sizeof all.reserved / sizeof *all.reserved; i++)
        mix(all.reserved[i]);
    *length = all.header + gather(kept->bytes + all.header, &all.first, &all.second);
    if (answer == TCPCORE_DONE || answer == TCPCORE_NOT_DUE)
        reported(tcpcore_sent(&side->end));
    return answer;
}

/* For a device that sums: what it would sum is what is kept. */
static uint32_t partial(struct side *side, struct kept *kept, size_t given, size_t *length)
{
    uint32_t answer = tcpcore_emit_partial(&side->end, kept->bytes, given, &kept->to, length);
    mix(*length);
    mix_bytes(kept->bytes, *length);
    if (answer == TCPCORE_DONE) {
        kept->length = *length;
        sign(kept, side->addr);
    }
    return answer;
}

/* As one, for a device that cuts it; what is kept is the whole. */
static uint32_t train(struct side *side, struct kept *kept, size_t given, size_t *length)
{
    struct tcpcore_train all;
    size_t longer = next(3) ? LONGEST : given + next(5000), most = next(2) ? next(5) : SIZE_MAX;
    uint32_t answer = tcpcore_emit_train(&side->end, kept->bytes, given < TCPCORE_EMIT_ROOM ? given : longer, most, &all);
    mix(all.whole.kind), mix(all.whole.position), mix(all.whole.count), mix(all.header), mix(all.each), mix(all.segments);
    for (size_t i = 0; i < sizeof all.reserved / sizeof *all.reserved; i++)
        mix(all.reserved[i]);
    kept->to = all.whole.to;
    *length = (size_t)all.whole.length;
    mix_bytes(kept->bytes, *length);
    if (answer == TCPCORE_DONE) {
        kept->length = *length;
        sign(kept, side->addr);
    }
    return answer;
}

static void emit(struct side *side, int is_in_time_wait)
{
    struct kept *kept = &side->kept[side->emitted % KEPT];
    size_t given = next(50) ? TCPCORE_EMIT_ROOM : next(TCPCORE_EMIT_ROOM), length;
    uint32_t alone = !is_in_time_wait && next(8) == 0;
    uint32_t answer = alone                    ? tcpcore_emit_acknowledgement(&side->end, kept->bytes, given, &kept->to, &length)
                      : is_in_time_wait                  ? tcpcore_time_wait_emit(&side->time_wait, kept->bytes, given, &kept->to, &length)
                      : side->emitted % 5 == 1 ? transmit(side, kept, given, &length)
                      : side->emitted % 5 == 2 ? partial(side, kept, given, &length)
                      : side->emitted % 5 == 3 ? parts(side, kept, given, &length)
                      : side->emitted % 5 == 4 ? train(side, kept, given, &length)
                                               : tcpcore_emit(&side->end, kept->bytes, given, &kept->to, &length);
    if (reported(answer) == TCPCORE_DONE) {
        kept->length = length;
        side->emitted++;
    }
    mix(length);
    mix_bytes(kept->to.byte, 4);
    mix_bytes(kept->bytes, length);
}

/* Changes a segment on its way. (Each number is drawn in a statement of its own: their order is the same with any compiler.) */
static void harm(struct kept *kept, tcpcore_addr src)
{
    uint32_t change = next(255) + 1, place = next(12) + 4, bit = next(8);
    switch (next(5)) {
    case 0:
        if (kept->length > 0)
            kept->bytes[next((uint32_t)kept->length)] ^= (unsigned char)change;
        break;
    case 1:
        kept->length = next((uint32_t)kept->length + 1);
        break;
    case 2: { /* more text, up to the longest segment and a little more */
        size_t longer = kept->length + next(next(3) ? 3000 : LONGEST + 2000);
        for (longer = longer < LONGEST ? longer : LONGEST; kept->length < longer; kept->length++)
            kept->bytes[kept->length] = (unsigned char)next(256);
        sign(kept, src);
        break;
    }
    case 3: /* other fields of the header, well summed */
        if (kept->length >= 20) {
            kept->bytes[place] ^= (unsigned char)(1u << bit);
            sign(kept, src);
        }
        break;
    default: /* nothing but chance */
        kept->length = next(100);
        for (size_t i = 0; i < kept->length; i++)
            kept->bytes[i] = (unsigned char)next(256);
        if (next(2) && kept->length >= 20) {
            put16(kept->bytes, sides[0].port), put16(kept->bytes + 2, sides[1].port);
            kept->bytes[12] = 5 << 4;
            sign(kept, src);
        }
    }
}

static void arrive(struct side *from, struct side *to)
{
    static struct kept kept;
    struct tcpcore_arrive_report taken = {0};
    uint32_t back = next(next(3) ? 3 : KEPT);
    if (from->emitted <= back)
        return;
    struct kept *sent = &from->kept[(from->emitted - 1 - back) % KEPT];
    kept.to = sent->to;
    kept.length = sent->length;
    memcpy(kept.bytes, sent->bytes, sent->length);
    if (next(12) == 0)
        harm(&kept, from->addr);
    if (to->is_time_wait)
        reported(tcpcore_time_wait_arrive(&to->time_wait, from->addr, kept.to, kept.bytes, kept.length));
    else if (next(8) == 0)
        reported(tcpcore_arrive_vouched(&to->end, from->addr, kept.to, kept.bytes, kept.length));
    else if (next(8) == 0)
        reported(tcpcore_arrive_vouched_with_report(&to->end, from->addr, kept.to, kept.bytes, kept.length, &taken));
    else if (next(8) == 0) {
        struct tcpcore_intake intake = {next(2) ? 0 : next(2) ? TCPCORE_NO_GUARD : next(5000), next(2), {0}};
        reported(tcpcore_arrive_by(&to->end, from->addr, kept.to, kept.bytes, kept.length, &intake, &taken));
    } else if (next(2))
        reported(tcpcore_arrive(&to->end, from->addr, kept.to, kept.bytes, kept.length));
    else if (next(2))
        reported(tcpcore_arrive_with_at_once(&to->end, from->addr, kept.to, kept.bytes, kept.length, &taken.at_once));
    else
        reported(tcpcore_arrive_with_report(&to->end, from->addr, kept.to, kept.bytes, kept.length, &taken));
    mix(taken.at_once), mix(taken.rule), mix(taken.acked), mix(taken.brought), mix(taken.is_duplicate), mix(taken.window_taken);
    for (size_t i = 0; i < sizeof taken.reserved / sizeof *taken.reserved; i++)
        mix(taken.reserved[i]);
    if (next(8) == 0) {
        size_t written = 0;
        if (reported(tcpcore_stray_reset(from->addr, kept.to, kept.bytes, kept.length, room, next(9) ? 20 : next(20), &written)) == 0)
            mix_bytes(room, written);
        mix(written);
    }
}

static void report(struct side *side)
{
    struct tcpcore_status status;
    tcpcore_addr addr;
    uint16_t port;
    uint32_t due, phase, ending;
    reported(tcpcore_status(&side->end, &status));
    mix(status.phase), mix(status.ending), mix(status.unread), mix(status.released), mix(status.ordered), mix(status.snd_una);
    mix(status.rcv_position), mix(status.room), mix(status.queued), mix(status.in_flight), mix(status.mss), mix(status.own_shift);
    mix(status.peer_shift), mix(status.scaling), mix(status.sack), mix(status.snd_wnd);
    mix(status.rcv_wnd), mix(status.snd_nxt), mix(status.closing), mix(status.finished);
    for (size_t i = 0; i < sizeof status.reserved / sizeof *status.reserved; i++)
        mix(status.reserved[i]);
    reported(tcpcore_pending(&side->end, &due)), mix(due);
    reported(tcpcore_timers(&side->end, &due)), mix(due);
    reported(tcpcore_peer(&side->end, &addr, &port)), mix_bytes(addr.byte, 4), mix(port);
    reported(tcpcore_time_wait_pending(&side->time_wait, &due)), mix(due);
    reported(tcpcore_time_wait_status(&side->time_wait, &phase, &ending)), mix(phase), mix(ending);
}

static void report_time_wait(const struct tcpcore_time_wait *time_wait)
{
    mix(time_wait->mark), mix_bytes(time_wait->addr.byte, 4), mix_bytes(time_wait->peer_addr.byte, 4), mix(time_wait->port), mix(time_wait->peer_port);
    mix(time_wait->snd_nxt), mix(time_wait->rcv_nxt), mix(time_wait->rcv_wnd), mix_bytes(time_wait->reset_addr.byte, 4), mix(time_wait->reset_seq);
    mix(time_wait->reset_ack), mix(time_wait->reset_port), mix(time_wait->shift), mix(time_wait->ack), mix(time_wait->reset), mix(time_wait->ending);
}

static void send(struct side *side)
{
    size_t taken, length = next(next(2) ? 300 : TEXT);
    reported(tcpcore_send(&side->end, text + next((uint32_t)(TEXT - length)), length, &taken));
    mix(taken);
}

/* What is lent, and a part of it taken away. */
static void read_lent(struct side *side)
{
    struct tcpcore_lent lent;
    size_t count;
    reported(tcpcore_peek(&side->end, &lent)), mix(lent.ends);
    for (size_t i = 0; i < sizeof lent.reserved / sizeof *lent.reserved; i++)
        mix(lent.reserved[i]);
    mix_bytes(room, gather(room, &lent.first, &lent.second));
    reported(tcpcore_consume(&side->end, next(next(2) ? 300 : TEXT), &count));
    mix(count);
}

static void receive(struct side *side)
{
    size_t count;
    if (next(3) == 0) {
        read_lent(side);
        return;
    }
    reported(tcpcore_receive(&side->end, room, next(next(2) ? 300 : TEXT), &count));
    mix(count);
    mix_bytes(room, count);
}

/* Another end in the place of one that is CLOSED, mostly open at once. */
static void anew(struct side *side, struct side *other)
{
    reported(tcpcore_free(&side->end));
    make(side);
    if (next(8))
        reported(next(2) ? tcpcore_listen(&side->end) : tcpcore_connect(&side->end, other->addr, other->port));
}

/* A user's call that comes seldom. */
static void seldom(struct side *side, struct side *other)
{
    struct tcpcore_status status;
    uint32_t phase = tcpcore_status(&side->end, &status) == TCPCORE_DONE ? status.phase : 0;
    if (phase == TCPCORE_PHASE_CLOSED && !side->is_time_wait && next(4)) {
        anew(side, other);
        return;
    }
    switch (next(12)) {
    case 0: case 1:
        if (next(4) == 0)
            reported(tcpcore_close(&side->end));
        break;
    case 3:
        if (next(4) == 0)
            reported(tcpcore_abort(&side->end)), reported(tcpcore_time_wait_abort(&side->time_wait));
        break;
    case 2: case 4: case 5:
        reported(tcpcore_connect(&side->end, other->addr, next(30) ? other->port : 9));
        break;
    case 6: case 7:
        reported(tcpcore_listen(&side->end));
        break;
    case 8: case 9:
        if (side->is_time_wait || next(40) == 0)
            anew(side, other);
        else
            make(side);
        break;
    case 10:
        reported(tcpcore_time_wait_timer(&side->time_wait, next(4)));
        report_time_wait(&side->time_wait);
        break;
    default:
        if (!side->is_time_wait && reported(tcpcore_time_wait(&side->end, &side->time_wait)) == TCPCORE_DONE)
            side->is_time_wait = (int)next(2);
        report_time_wait(&side->time_wait);
    }
}

static void step(void)
{
    struct side *side = &sides[next(2)], *other = side == sides ? sides + 1 : sides;
    uint32_t kind = next(100);
    if (kind < 20)
        send(side);
    else if (kind < 35)
        receive(side);
    else if (kind < 60)
        emit(side, side->is_time_wait);
    else if (kind < 88)
        arrive(other, side);
    else if (kind < 93)
        reported(next(4) ? tcpcore_timer(&side->end, next(4)) : tcpcore_resend_first(&side->end));
    else if (kind < 94)
        reported(tcpcore_acknowledge(&side->end));
    else if (kind < 97)
        report(side);
    else
        seldom(side, other);
}

int main(void)
{
    unsigned long count = COUNT, every = count < 20 ? 1 : count / 20;
    chosen = UINT64_C(88172645463325252) + FIRST;
    for (size_t i = 0; i < TEXT; i++)
        text[i] = (unsigned char)next(256);
    for (int i = 0; i < 2; i++) {
        sides[i].addr = (tcpcore_addr){{10, 0, 0, (uint8_t)(i + 1)}};
        sides[i].port = (uint16_t)(i + 7);
        sides[i].end = (tcpcore_end)TCPCORE_END_INIT;
        make(&sides[i]);
    }
    for (unsigned long at = 1; at <= count; at++) {
        step();
        if (at % every == 0)
            printf("%lu %08lx%08lx\n", at, (unsigned long)(sum >> 32), (unsigned long)(sum & 0xffffffff));
    }
    for (int i = 0; i < ANSWERS; i++)
        if (answers[i] > 0)
            printf("%d: %s: %llu\n", i, tcpcore_strerror((uint32_t)i), answers[i]);
    return 0;
}
