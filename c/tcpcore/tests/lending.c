/*
 * The test of what is lent, and of the calls for a device that sums: two pairs of ends have the same traffic side by side, one by
 * tcpcore_receive, tcpcore_arrive, tcpcore_arrive_with_report and tcpcore_emit, the other by the calls that take their place. Every answer, byte
 * and status has to be the same. The sums of the second pair's device are this file's own (RFC 1071; RFC 9293, 3.1).
 */
enum { CAPACITY = 3000, WAITING = 8, ROUNDS = 100, STEPS = 600, CANARY = 0x5a };
#include "pairs.h"

/* What the traffic has met. */
static unsigned long lent_in_two, text_in_two, of_no_sum, of_partial, at_the_end, refused, malformed;

static void fill(unsigned char *bytes, size_t length)
{
    for (size_t i = 0; i < length; i++)
        bytes[i] = (unsigned char)any(256);
}

/* Makes bytes check, where they have a checksum field. */
static void put_checksum(struct segment *segment, tcpcore_addr src)
{
    if (segment->length < 18)
        return;
    put16(segment->bytes + 16, 0);
    put16(segment->bytes + 16, ~summed(pseudo(src, segment->to, segment->length), segment->bytes, segment->length));
}

static int is_within(const tcpcore_piece *piece, int end)
{
    uintptr_t at = (uintptr_t)piece->at, first = (uintptr_t)blocks[1][end];
    return piece->length == 0 ? !piece->at : at >= first && at - first + piece->length <= sizeof blocks[1][end];
}

/* All bytes of two pieces. */
static size_t gathered(unsigned char *out, const tcpcore_piece *first, const tcpcore_piece *second)
{
    if (first->length > 0)
        memcpy(out, first->at, first->length);
    if (second->length > 0)
        memcpy(out + first->length, second->at, second->length);
    return first->length + second->length;
}

/* The first pair copies, the second looks at what is lent and takes it away. */
static void read_some(int end)
{
    static unsigned char copied[CAPACITY], seen[CAPACITY];
    size_t room = 1 + any(any(2) ? CAPACITY : 200), count, taken, length;
    struct tcpcore_status status = status_of(1, end), behind;
    struct tcpcore_lent lent;
    memset(&lent, 7, sizeof lent);
    uint32_t looked = tcpcore_peek(&ends[1][end], &lent);
    behind = status_of(1, end);
    CHECK(memcmp(&status, &behind, sizeof status), 0);
    CHECK(is_within(&lent.first, end) && is_within(&lent.second, end), 1);
    length = gathered(seen, &lent.first, &lent.second);
    CHECK(tcpcore_receive(&ends[0][end], copied, room, &count), looked);
    uint32_t answer = tcpcore_consume(&ends[1][end], room, &taken);
    CHECK(answer, looked == TCPCORE_NOTHING || looked == TCPCORE_END_OF_STREAM ? TCPCORE_DONE : looked);
    CHECK(length, looked == TCPCORE_DONE ? status.unread : 0);
    CHECK(lent.ends, looked == TCPCORE_DONE ? status.finished : 0);
    CHECK(lent.first.length > 0, looked == TCPCORE_DONE);
    for (size_t i = 0; i < sizeof lent.reserved / sizeof *lent.reserved; i++)
        CHECK(lent.reserved[i], 0);
    CHECK(taken, count);
    CHECK(count, room < length ? room : length);
    CHECK(memcmp(copied, seen, count), 0);
    lent_in_two += lent.second.length > 0;
    at_the_end += lent.ends;
    refused += answer != TCPCORE_DONE;
}

/* The second pair's segment, by one of three ways; what lies behind it in the buffer stays. */
static uint32_t emit_otherwise(int end, struct segment *out)
{
    tcpcore_end *which = &ends[1][end];
    struct tcpcore_parts parts;
    uint32_t way = any(3), answer;
    memset(out->bytes, CANARY, sizeof out->bytes);
    if (way == 0)
        return tcpcore_emit(which, out->bytes, sizeof out->bytes, &out->to, &out->length);
    if (way == 1) {
        answer = tcpcore_emit_partial(which, out->bytes, sizeof out->bytes, &out->to, &out->length);
        if (answer != TCPCORE_DONE)
            return answer;
        CHECK(out->bytes[16] << 8 | out->bytes[17], pseudo(ADDRS[end], out->to, out->length));
        put16(out->bytes + 16, ~summed(0, out->bytes, out->length));
        of_partial++;
        return answer;
    }
    memset(&parts, 7, sizeof parts);
    struct tcpcore_status status = status_of(1, end), behind;
    answer = tcpcore_parts(which, out->bytes, TCPCORE_HEADER_ROOM, &parts);
    behind = status_of(1, end);
    CHECK(memcmp(&status, &behind, sizeof status), 0);
    CHECK(is_within(&parts.first, end) && is_within(&parts.second, end), 1);
    for (size_t i = 0; i < sizeof parts.reserved / sizeof *parts.reserved; i++)
        CHECK(parts.reserved[i], 0);
    out->to = parts.to;
    out->length = parts.header + gathered(out->bytes + parts.header, &parts.first, &parts.second);
    text_in_two += parts.second.length > 0;
    CHECK(tcpcore_sent(which), TCPCORE_DONE);
    return answer;
}

static void emit_some(int end)
{
    struct segment old, other;
    memset(old.bytes, CANARY, sizeof old.bytes);
    uint32_t answer = tcpcore_emit(&ends[0][end], old.bytes, sizeof old.bytes, &old.to, &old.length);
    CHECK(emit_otherwise(end, &other), answer);
    CHECK(other.length, old.length);
    CHECK(memcmp(&other.to, &old.to, sizeof old.to), 0);
    CHECK(memcmp(other.bytes, old.bytes, sizeof old.bytes), 0);
    if (answer == TCPCORE_DONE && waiting[!end] < WAITING && any(20) > 0)
        wire[!end][waiting[!end]++] = old;
}

/* An arrival: the first pair's bytes check, those of the second have any number in the place of the checksum. */
static void arrive(int end, struct segment *segment)
{
    struct segment other;
    struct tcpcore_arrive_report taken[PAIRS];
    put_checksum(segment, ADDRS[!end]);
    other = *segment;
    if (other.length >= 18)
        fill(other.bytes + 16, 2);
    uint32_t answer;
    if (any(2)) {
        answer = tcpcore_arrive(&ends[0][end], ADDRS[!end], segment->to, segment->bytes, segment->length);
        CHECK(tcpcore_arrive_vouched(&ends[1][end], ADDRS[!end], other.to, other.bytes, other.length), answer);
    } else {
        memset(taken, 7, sizeof taken);
        answer = tcpcore_arrive_with_report(&ends[0][end], ADDRS[!end], segment->to, segment->bytes, segment->length, &taken[0]);
        CHECK(tcpcore_arrive_vouched_with_report(&ends[1][end], ADDRS[!end], other.to, other.bytes, other.length, &taken[1]), answer);
        CHECK(memcmp(&taken[0], &taken[1], sizeof *taken), 0);
    }
    of_no_sum += memcmp(other.bytes, segment->bytes, other.length) != 0;
    malformed += answer >= TCPCORE_TOO_SHORT && answer <= TCPCORE_BAD_PADDING;
    CHECK(answer != TCPCORE_BAD_CHECKSUM, 1);
}

/* One of the segments that wait comes, whole or changed, and perhaps again later. */
static void arrive_some(int end)
{
    if (waiting[end] == 0)
        return;
    size_t which = any(3) ? 0 : any((uint32_t)waiting[end]);
    struct segment segment = wire[end][which];
    if (any(10) > 0)
        memmove(&wire[end][which], &wire[end][which + 1], (--waiting[end] - which) * sizeof segment);
    if (any(25) == 0)
        segment.bytes[4 + any((uint32_t)segment.length - 4)] ^= (unsigned char)(1u << any(8));
    if (any(60) == 0)
        segment.length = any((uint32_t)segment.length);
    arrive(end, &segment);
}

/* A call that both pairs make alike. */
static void call(int end)
{
    static unsigned char text[CAPACITY];
    uint32_t answers[PAIRS], which = any(100), timer = any(3);
    size_t length = any(any(2) ? CAPACITY : 300), taken[PAIRS] = {0, 0};
    fill(text, length);
    for (int pair = 0; pair < PAIRS; pair++) {
        tcpcore_end *it = &ends[pair][end];
        answers[pair] = which < 60 ? tcpcore_send(it, text, length, &taken[pair])
                        : which < 90 ? tcpcore_timer(it, timer)
                        : which < 99 ? tcpcore_acknowledge(it)
                                     : tcpcore_close(it);
    }
    CHECK(answers[1], answers[0]);
    CHECK(taken[1], taken[0]);
}

/* The end is made anew, in both pairs. */
static void make(int end)
{
    tcpcore_config config = {.addr = ADDRS[end], .port = (uint16_t)(7 + end), .mss = (uint16_t)(64 + any(1397)), .isn = any(UINT32_MAX),
                             .send_capacity = 1 + any(any(2) ? CAPACITY : 100), .recv_capacity = 1 + any(any(4) ? CAPACITY : 100),
                             .limit = TCPCORE_LIMIT, .scales = (uint8_t)any(2), .sack = (uint8_t)any(2)};
    waiting[end] = 0;
    for (int pair = 0; pair < PAIRS; pair++) {
        CHECK(tcpcore_new(&ends[pair][end], &config, blocks[pair][end], sizeof blocks[pair][end]), TCPCORE_DONE);
        CHECK(end == 0 ? tcpcore_connect(&ends[pair][0], ADDRS[1], 8) : tcpcore_listen(&ends[pair][1]), TCPCORE_DONE);
    }
}

static void step(void)
{
    int end = (int)any(2);
    uint32_t what = any(10);
    if (what < 4)
        emit_some(end);
    else if (what < 7)
        arrive_some(end);
    else if (what < 8)
        read_some(end);
    else
        call(end);
    same_states();
}

/* Two pairs from the first SYN on; in the end one side aborts. */
static void round_of_calls(void)
{
    for (int end = ENDS; end-- > 0;)
        make(end);
    for (int i = 0; i < STEPS; i++)
        step();
    int end = (int)any(2);
    CHECK(tcpcore_abort(&ends[1][end]), tcpcore_abort(&ends[0][end]));
    for (int i = 0; i < 10; i++)
        step();
    for (int pair = 0; pair < PAIRS; pair++)
        for (int each = 0; each < ENDS; each++)
            CHECK(tcpcore_free(&ends[pair][each]), TCPCORE_DONE);
}

int main(void)
{
    for (int i = 0; i < ROUNDS; i++)
        round_of_calls();
    /* The traffic has met what the calls are for. */
    CHECK(lent_in_two > 100 && text_in_two > 100 && of_no_sum > 1000 && of_partial > 1000, 1);
    CHECK(at_the_end > 10 && refused > 10 && malformed > 10, 1);
    printf("lending: both pairs agree\n");
    return checks > 100000 ? 0 : 1;
}
