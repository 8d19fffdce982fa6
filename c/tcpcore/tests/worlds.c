/*
 * The test of two connections in random worlds (worlds.h): capacities, options, numbers that wrap, rules, policies, congestion windows and
 * loss recovery of each side, clocks of coarse steps, hosts that call late or in batches, users who write little, stall, close early, abort
 * or vanish, and links that delay, lose (a tenth at most), double, reorder and damage, all drawn from a seed. Of each world is asked:
 * - Each byte that is read or emitted is one that was accepted, in its place; the end of the stream comes behind the last. No more is
 *   released than the peer has in order. Status, emissions and answers are as the header says.
 * - No storm. What is due at one time goes out at once, each byte twice at most; then each timer has expired once at most, and poll_at is to
 *   come. A user's call, a timer's expiry, new text and progress are causes of what goes out. Between two of them no more goes out than
 *   STORM times what was under way, and four times what is queued, and its answers: what is missing may have to go out again behind all
 *   else, and what answers itself goes beyond any such count. Two ends without a limit on answers may do so, and are left out. Where no
 *   trip takes a second, a retransmission timer of a second expires no more often than segments are lost, damaged or dropped, but to probe a
 *   window of zero.
 * - The world gets on: there is progress in each ten minutes, nobody is given up but who has vanished, and both ends come to the end, in
 *   order. The link does no harm once there was no progress for 100 s, so that no run of losses by chance has an end given up. All is over
 *   within twice the time that it takes without losses, two trips for each segment that is needed or harmed, and a wait for each expiry.
 * - Without losses, in order, where windows stay open and trips are even, nothing goes out again, and no timer but TIME-WAIT expires. With a
 *   congestion window, to who has room for a few segments, at most MOST_AGAIN go out again for each that is needed, and be it a single run.
 * 'worlds FIRST COUNT NAME=VALUE..' runs COUNT worlds from that seed on, with words set; TRACE in the environment shows them, stderr the worst.
 */
#include "worlds.h"

enum { STORM = 20, MOST_AGAIN = 3 };
static unsigned char text[2][TEXT];
static uint64_t progress_at, idle, widest, clean_time;

/* Segments for each that is needed, time relative to that without losses, and what goes out without a cause to what may. */
static struct worst worst_segments, worst_time, worst_idle;

/* Something has happened that emissions may follow. */
static void cause(void)
{
    idle = 0;
    widest = links[0].count + links[1].count;
}

/* New text ends no further past the congestion window than past_window has it, but for what goes out while nothing is in flight. */
static void inspect_new(int at, uint64_t position, uint64_t size)
{
    struct tcpcore_congestion congestion;
    struct tcpcore_status status;
    DONE(at, tcpcore_connection_congestion(&sides[at].connection, &congestion));
    DONE(at, tcpcore_connection_status(&sides[at].connection, &status));
    SURE(at, congestion.cwnd >= congestion.smss, "a congestion window below a segment");
    uint64_t most = lesser(words[at][WINDOW], congestion.cwnd + past_window(at, status.snd_una, &congestion));
    SURE(at, position == status.snd_una || position + size <= status.snd_una + most, "text past the congestion window");
    cause();
}

/* A segment that goes out is as it was reported, of accepted text, with right numbers, ports and sum; and it goes onto the link. */
static void goes(int at, const unsigned char *bytes, size_t length, uint64_t position, uint64_t count)
{
    struct side *s = &sides[at], *other = &sides[1 - at];
    size_t header = 4 * (size_t)(bytes[12] >> 4), size = length - header;
    SURE(at, length >= 20 && header >= 20 && header <= length && length <= TCPCORE_EMIT_ROOM, "a segment of this length");
    SURE(at, summed(pseudo(ADDRS[at], ADDRS[1 - at], length), bytes, length) == 0xffff, "a wrong sum");
    SURE(at, bytes[1] == 1 + at && bytes[3] == 2 - at, "wrong ports");
    SURE(at, count == size + ((bytes[13] & SYN) != 0) + (bytes[13] & FIN), "a count that isn't the segment's");
    if (!(bytes[13] & RST)) {
        SURE(at, get32(bytes + 4) == (uint32_t)(words[at][ISN] + position), "a position that isn't the segment's");
        SURE(at, size <= lesser(words[at][MSS], words[1 - at][MSS]), "more text than the MSS");
        SURE(at, position + count <= s->given + 2 && (size == 0 || position + size <= s->given + 1), "more than was accepted");
        SURE(at, size == 0 || (position > 0 && memcmp(bytes + header, text[at] + position - 1, size) == 0), "other text than was accepted");
        SURE(at, size == 0 || position - 1 + size <= other->ordered + words[1 - at][RECV_CAP], "text past the receive buffer");
        if (bytes[13] & ACK_BIT)
            s->edge = greater(s->edge, position_of(get32(bytes + 8), 1 - at, s->ordered + 1) +
                                           ((uint64_t)get16(bytes + 14) << (bytes[13] & SYN ? 0 : s->status.own_shift)));
        if (size > 0 && position + size > s->highest + 1)
            inspect_new(at, position, size);
        s->again += size > 0 && position + size <= s->highest + 1;
        s->highest = size > 0 ? greater(s->highest, position - 1 + size) : s->highest;
    }
    s->emitted++;
    idle++;
    int whole = carry(at, bytes, length, !is_clean && now - progress_at < 100 * SECOND);
    s->harmed += whole == 0;
    trace(at, whole == 0 ? "harmed" : whole == 1 ? "goes" : "goes twice", bytes, length);
    widest = greater(widest, links[0].count + links[1].count);
    uint64_t most = STORM * (widest + 16);
    for (int side = 0; side < 2; side++)
        most += 4 * (sides[side].status.queued / unit_of(side));
    note(&worst_idle, are_unlimited() ? 0 : (double)idle / (double)most);
    SURE(at, are_unlimited() || idle <= most, "a storm");
}

/* The next emission, if one is due, in pieces where it is a train. */
static uint32_t emit_one(int at)
{
    static unsigned char bytes[TCPCORE_TRAIN_ROOM];
    struct side *s = &sides[at];
    struct tcpcore_connection_segment segment;
    struct tcpcore_train train;
    if (words[at][TRAIN] == 0) {
        uint32_t answer = tcpcore_connection_emit(&s->connection, clock_of(at), words[at][WINDOW], bytes, TCPCORE_EMIT_ROOM, &segment);
        if (answer == TCPCORE_DONE) {
            SURE(at, memcmp(&segment.to, &ADDRS[1 - at], sizeof segment.to) == 0, "a wrong address");
            goes(at, bytes, (size_t)segment.length, segment.position, segment.count);
        }
        return answer;
    }
    size_t room = TCPCORE_EMIT_ROOM + (size_t)any(OF_USERS + at, sizeof bytes - TCPCORE_EMIT_ROOM);
    uint32_t answer = tcpcore_connection_emit_train(&s->connection, clock_of(at), words[at][WINDOW], bytes, room, (size_t)words[at][TRAIN], &train);
    for (size_t which = 0; answer == TCPCORE_DONE && which < train.segments; which++) {
        unsigned char piece[TCPCORE_EMIT_ROOM];
        size_t length = cut_piece(bytes, (size_t)train.whole.length, (size_t)train.each, which, ADDRS[at], train.whole.to, piece);
        size_t size = length - 4 * (size_t)(piece[12] >> 4);
        goes(at, piece, length, train.whole.position + which * train.each, size + ((piece[13] & SYN) != 0) + (piece[13] & FIN));
    }
    return answer;
}

/* All that is due goes out: no byte more than twice, nor a SYN, FIN, reset or acknowledgement more than a few times. */
static void emit(int at)
{
    uint64_t before = sides[at].emitted;
    uint32_t answer;
    while ((answer = emit_one(at)) == TCPCORE_DONE)
        SURE(at, sides[at].emitted - before <= 2 * words[at][SEND_CAP] + 8, "what is due at one time doesn't end");
    SURE(at, answer == TCPCORE_NOT_DUE, "emit answers neither DONE nor NOT_DUE");
    sides[at].in_burst = 0;
}

/* What a side's status says fits what was called, and what the other side has. */
static void look(int at)
{
    struct side *s = &sides[at], *other = &sides[1 - at];
    const struct tcpcore_status old = s->status, *t = &s->status;
    DONE(at, tcpcore_connection_status(&s->connection, &s->status));
    if (t->released > s->released || t->ordered > s->ordered || t->phase != old.phase) {
        progress_at = now;
        cause();
    }
    s->ordered = greater(s->ordered, t->ordered);
    s->released = greater(s->released, t->released);
    SURE(at, s->released <= other->ordered && s->ordered <= other->given, "released, or in order, is more than there is");
    if (t->ending == TCPCORE_ENDING_NOT_ENDED || t->ending == TCPCORE_ENDING_ORDERLY) {
        SURE(at, t->queued == s->given - t->released && t->in_flight <= t->queued, "queued isn't what is left");
        SURE(at, t->unread == t->ordered - s->got && t->unread <= words[at][RECV_CAP], "unread isn't what is left");
    }
    uint64_t left = words[at][LIMITED] ? greater(words[at][SIZE], 1) - s->given : NEVER;
    if (t->ending == TCPCORE_ENDING_NOT_ENDED && !t->closing)
        SURE(at, t->room == lesser(words[at][SEND_CAP] - t->queued, left), "another room");
    SURE(at, old.ending == TCPCORE_ENDING_NOT_ENDED || (t->phase == TCPCORE_PHASE_CLOSED && t->ending == old.ending), "an end that lives on");
}

/* A segment that has come is handed in; what was damaged is found by the device or by the end. */
static void hand_in(int at)
{
    struct side *s = &sides[at];
    struct packet *packet = arrived(at);
    struct tcpcore_arrive_report report;
    uint32_t answer = TCPCORE_BAD_CHECKSUM;
    for (int turns = 0; !packet->is_damaged || !words[at][VOUCHED]; turns++) {
        answer = (words[at][VOUCHED] ? tcpcore_connection_arrive_vouched : tcpcore_connection_arrive)(
            &s->connection, clock_of(at), ADDRS[1 - at], ADDRS[at], packet->bytes, packet->length, &report);
        SURE(at, s->in_burst == (answer == TCPCORE_EMIT_FIRST) || packet->is_damaged || answer == TCPCORE_WITHHELD,
             "EMIT_FIRST, though no timer has expired, or not, though one has");
        if (answer != TCPCORE_EMIT_FIRST)
            break;
        emit(at);
    }
    trace(1 - at, answer == TCPCORE_DONE ? "comes" : packet->is_damaged ? "is damaged" : "is dropped", packet->bytes, packet->length);
    /* A reset that counts as lost isn't looked at any further. */
    if (answer == TCPCORE_WITHHELD)
        SURE(at, packet->bytes[13] & RST, "WITHHELD, and no reset");
    else if (packet->is_damaged)
        SURE(at, answer == TCPCORE_BAD_CHECKSUM, "a damaged segment isn't found");
    else
        SURE(at, answer == TCPCORE_DONE || answer == TCPCORE_DROPPED, "an arrival's answer");
    s->not_kept += answer == TCPCORE_DROPPED || (answer == TCPCORE_DONE && report.brought == TCPCORE_BROUGHT_NOT_KEPT);
    free(packet);
}

/* What the user has to say. */
static void write_some(int at)
{
    struct side *s = &sides[at];
    const uint64_t *w = words[at];
    size_t taken;
    while (s->has_chosen && !s->is_closed && s->given < w[SIZE] && now >= s->write_at) {
        size_t length = (size_t)lesser(w[WRITE], w[SIZE] - s->given);
        uint64_t room = s->status.room;
        uint32_t answer = tcpcore_connection_send(&s->connection, clock_of(at), text[at] + s->given, length, &taken);
        SURE(at, answer == (s->status.phase == TCPCORE_PHASE_LISTEN ? TCPCORE_NOT_CONNECTED : TCPCORE_DONE), "an answer of send");
        SURE(at, answer != TCPCORE_DONE || taken == lesser(length, room), "send takes another count than there is room for");
        s->given += taken;
        s->calls += taken > 0;
        idle = taken > 0 ? 0 : idle;
        look(at);
        if (taken < length)
            return;
        s->write_at = now + w[PAUSE] * US;
        if (w[LIMITED] && s->given == w[SIZE])
            SURE(at, tcpcore_connection_send(&s->connection, clock_of(at), text[at], 1, &taken) == TCPCORE_STREAM_FULL, "send past the limit");
    }
}

/* Unread bytes, copied out or read where they lie. */
static uint32_t read_once(int at, unsigned char *copy, size_t *count)
{
    struct side *s = &sides[at];
    struct tcpcore_lent lent;
    if (!words[at][PEEK])
        return tcpcore_connection_receive(&s->connection, clock_of(at), copy, (size_t)words[at][READ], count);
    uint32_t answer = tcpcore_connection_peek(&s->connection, &lent);
    SURE(at, lent.first.length + lent.second.length == s->status.unread, "another count is lent than is unread");
    if (answer == TCPCORE_DONE) {
        memcpy(copy, lent.first.at, lent.first.length);
        if (lent.second.length > 0)
            memcpy(copy + lent.first.length, lent.second.at, lent.second.length);
        DONE(at, tcpcore_connection_consume(&s->connection, clock_of(at), (size_t)words[at][READ], count));
    }
    return answer;
}

/* The user rests behind a stretch that was read, stalls once, and may choose another policy then. */
static void rest(int at)
{
    static const struct tcpcore_policy STANDARD = TCPCORE_POLICY_DEFAULT;
    struct side *s = &sides[at];
    const uint64_t *w = words[at];
    int stalls = !s->has_stalled && s->got > w[STALL_AT];
    s->read_at = now + (w[REST] + (stalls ? w[STALL] : 0)) * US;
    s->has_stalled |= stalls;
    if (stalls && w[CHANGE])
        DONE(at, tcpcore_connection_set_policy(&s->connection, &STANDARD));
    /* A window that has grown is advertised, as the header asks of a user without a policy. */
    uint64_t open = lesser(s->status.rcv_wnd, UINT64_C(65535) << s->status.own_shift);
    if ((stalls && w[CHANGE]) || (w[UPDATE] && s->ordered + 1 + open >= s->edge + lesser(w[MSS], (w[RECV_CAP] + 1) / 2)))
        DONE(at, tcpcore_connection_acknowledge(&s->connection, clock_of(at)));
}

static void read_some(int at)
{
    static unsigned char copy[TEXT];
    struct side *s = &sides[at], *other = &sides[1 - at];
    while (!s->is_at_end && now >= s->read_at) {
        uint64_t unread = s->status.unread;
        size_t count = 0;
        uint32_t answer = read_once(at, copy, &count);
        s->is_at_end = answer == TCPCORE_END_OF_STREAM;
        SURE(at, answer == (unread > 0 ? TCPCORE_DONE : s->status.finished ? TCPCORE_END_OF_STREAM : TCPCORE_NOTHING), "an answer of receive");
        SURE(at, count == lesser(unread, words[at][READ]), "another count was read than there is");
        SURE(at, !s->is_at_end || (other->is_closed && s->got == other->given), "the end of the stream before its last byte");
        if (answer != TCPCORE_DONE)
            return;
        SURE(at, s->got + count <= other->given && memcmp(copy, text[1 - at] + s->got, count) == 0, "a wrong byte was read");
        s->got += count;
        s->calls++;
        cause();
        look(at);
        rest(at);
    }
}

/* Whether the user closes now. */
static int closes(int at)
{
    struct side *s = &sides[at];
    const uint64_t *w = words[at];
    if (s->status.phase < (w[CLOSE] == IN_THE_HANDSHAKE ? TCPCORE_PHASE_SYN_RECEIVED : TCPCORE_PHASE_ESTABLISHED) || !s->has_chosen)
        return 0;
    if (s->is_closed || s->given < w[SIZE] || (w[CLOSE] == BEHIND_THE_PEER && !s->is_at_end))
        return 0;
    if (w[CLOSE] == A_SECOND_LATER && s->close_at == NEVER)
        s->close_at = now + SECOND;
    return w[CLOSE] != A_SECOND_LATER || now >= s->close_at;
}

/* A congestion window, loss recovery and a policy. */
static void choose(int at)
{
    struct side *s = &sides[at];
    const uint64_t *w = words[at];
    struct tcpcore_policy policy = {w[ACK], w[OVERRIDE], w[ANSWERS], (uint32_t)w[NAGLE], {0}};
    DONE(at, tcpcore_connection_set_congestion(&s->connection, (uint32_t)w[CONGESTION]));
    if (w[RECOVERY])
        DONE(at, tcpcore_connection_set_recovery(&s->connection, clock_of(at), s->recovery + s->shift, TCPCORE_RECOVERY_MEMORY));
    if (w[POLICY])
        DONE(at, tcpcore_connection_set_policy(&s->connection, &policy));
    s->has_chosen = 1;
}

static void use(int at)
{
    struct side *s = &sides[at];
    size_t count;
    if (s->status.ending == TCPCORE_ENDING_RESET || s->status.ending == TCPCORE_ENDING_ABORTED) {
        SURE(at, tcpcore_connection_send(&s->connection, clock_of(at), text[at], 1, &count) == TCPCORE_ENDED, "send behind the end");
        SURE(at, tcpcore_connection_receive(&s->connection, clock_of(at), NULL, 0, &count) == TCPCORE_ENDED, "receive behind the end");
        SURE(at, tcpcore_connection_close(&s->connection, clock_of(at)) == TCPCORE_ENDED, "close behind the end");
        return;
    }
    if (!s->has_chosen && s->status.phase >= TCPCORE_PHASE_ESTABLISHED)
        choose(at);
    write_some(at);
    read_some(at);
    s->is_gone = words[at][VANISH] && s->given + s->got >= words[at][STALL_AT];
    int aborts = words[at][ABORT] && s->given + s->got >= words[at][STALL_AT] && s->status.phase != TCPCORE_PHASE_CLOSED;
    if (!aborts && !closes(at))
        return;
    if (aborts)
        DONE(at, tcpcore_connection_abort(&s->connection, clock_of(at)));
    else {
        DONE(at, tcpcore_connection_close(&s->connection, clock_of(at)));
        SURE(at, tcpcore_connection_close(&s->connection, clock_of(at)) == TCPCORE_CLOSING, "a second close");
    }
    s->is_aborted = aborts;
    s->is_closed = 1;
    cause();
    look(at);
}

/* Timers expire, each at most once at one time, and what is due by them goes out; when the side has to be called again. */
static void expire(int at)
{
    struct side *s = &sides[at];
    for (int turns = 0;; turns++) {
        uint32_t timer = 9, answer;
        uint64_t next = 0;
        if (words[at][TICK])
            answer = tcpcore_connection_tick(&s->connection, clock_of(at), &timer, &next);
        else {
            answer = tcpcore_connection_timeout(&s->connection, clock_of(at), &timer);
            DONE(at, tcpcore_connection_poll_at(&s->connection, &next));
        }
        if (answer == TCPCORE_NOT_DUE) {
            SURE(at, next > clock_of(at), "nothing is due, and poll_at has passed");
            s->wake = when(at, next);
            if (s->wake != NEVER && words[at][LATENESS] > 0)
                s->wake += any(OF_USERS + at, words[at][LATENESS] * US);
            return;
        }
        SURE(at, answer == TCPCORE_DONE && timer <= TCPCORE_TIMER_USER, "an answer of timeout");
        SURE(at, turns < 4, "timers expire without end at one time");
        if (is_traced)
            printf("%12" PRIu64 " %c timer %" PRIu32 "\n", now / US, "ab"[at], timer);
        cause();
        s->expired[timer]++;
        s->probes += timer == TCPCORE_TIMER_RETRANSMIT && s->status.snd_wnd == 0 && s->status.phase >= TCPCORE_PHASE_ESTABLISHED;
        s->in_burst = 1;
        if (words[at][EARLY] && links[at].count > 0 && links[at].heap[0]->at <= now)
            hand_in(at);
        emit(at);
        look(at);
    }
}

/* At times its caller finds losses by rules of his own. */
static void resend(int at)
{
    struct side *s = &sides[at];
    uint64_t from = s->status.snd_una + any(OF_USERS + at, 3000), to = from + any(OF_USERS + at, 3000);
    if (any(OF_USERS + at, PER_10000) >= words[at][RESEND])
        return;
    uint32_t answer = any(OF_USERS + at, 2) == 0 ? tcpcore_connection_resend(&s->connection, clock_of(at), from, to)
                                                 : tcpcore_connection_resend_first(&s->connection, clock_of(at));
    SURE(at, answer == TCPCORE_DONE || answer == TCPCORE_NO_RULE, "an answer of resend");
    SURE(at, answer == TCPCORE_NO_RULE || s->status.snd_una < s->status.snd_nxt, "nothing is in flight, and goes out again");
    cause();
}

/* A turn of a side's loop, unless its host has gone. */
static void turn(int at)
{
    while (sides[at].is_gone && links[at].count > 0)
        free(pop(&links[at]));
    if (sides[at].is_gone)
        return;
    idle += sides[at].wake <= now;
    if (words[at][EARLY])
        emit(at), expire(at);
    while (links[at].count > 0 && links[at].heap[0]->at <= now) {
        hand_in(at);
        if (words[at][EAGER])
            emit(at);
    }
    look(at);
    resend(at);
    use(at);
    emit(at);
    look(at);
    expire(at);
}

/* When something happens next at a side. */
static uint64_t next_of(int at)
{
    const struct side *s = &sides[at];
    uint64_t batch = words[at][BATCH] * US, next = s->is_gone ? NEVER : s->wake;
    if (links[at].count > 0)
        next = lesser(next, (links[at].heap[0]->at + batch - 1) / batch * batch);
    if (s->is_gone)
        return next;
    next = s->write_at > now ? lesser(next, s->write_at) : next;
    next = s->read_at > now ? lesser(next, s->read_at) : next;
    return s->close_at > now ? lesser(next, s->close_at) : next;
}

static void make(int at)
{
    struct side *s = &sides[at];
    const uint64_t *w = words[at];
    const tcpcore_config config = config_of(at);
    const struct tcpcore_connection_rules rules = rules_of(at);
    size_t room = tcpcore_connection_room(&config);
    *s = (struct side){.wake = now, .close_at = NEVER, .shift = (size_t)any(OF_USERS + at, 16)};
    s->block = malloc(room + 16);
    s->recovery = malloc(TCPCORE_RECOVERY_MEMORY + 16);
    if (at == 0)
        DONE(at, tcpcore_connection_connect(&s->connection, &config, &rules, ADDRS[1], 2, clock_of(at), s->block + s->shift, room));
    else
        DONE(at, tcpcore_connection_listen(&s->connection, &config, &rules, clock_of(at), s->block + s->shift, room));
    if (!w[CHOICE])
        choose(at);
    look(at);
}

/* What has to be so of a side at the end of a world that nobody has aborted. */
static void judge(int at, uint64_t took, uint64_t needed, uint64_t waits)
{
    const struct side *s = &sides[at], *other = &sides[1 - at];
    uint64_t harmed = s->harmed + other->harmed, expired = s->expired[TCPCORE_TIMER_RETRANSMIT], ending = s->status.ending;
    int is_short = lesser(words[0][TIME_WAIT], words[1][TIME_WAIT]) < 240000000;
    SURE(at, s->status.phase == TCPCORE_PHASE_CLOSED, "the world stands still before the end");
    SURE(at, s->expired[TCPCORE_TIMER_USER] == 0, "a living peer is given up");
    SURE(at, ending == TCPCORE_ENDING_ORDERLY || (is_short && ending == TCPCORE_ENDING_RESET), "no orderly end");
    SURE(at, s->given == words[at][SIZE] && s->got == other->given && s->is_at_end, "not all was read");
    SURE(at, !is_regular() || expired - s->probes <= harmed + s->not_kept + other->not_kept, "a timer expires, and nothing was harmed");
    SURE(at, !is_clean || !is_even() || (s->again == 0 && expired + s->expired[TCPCORE_TIMER_REORDER] == 0), "text goes out again for nothing");
    SURE(at, s->again <= MOST_AGAIN * needed || !is_wide(at), "too much goes out again");
    SURE(at, is_clean || took <= 2 * clean_time + 2 * (needed + harmed) * longest_trip() * US + waits, "it takes too long");
}

/* A whole world; how long it took to the last byte that was read or acknowledged. */
static uint64_t run(int count, char **set)
{
    uint64_t done = 0, last = now = progress_at = SECOND, needed = 16, waits = 0, is_cut_short = 0;
    draw(count, set);
    memset(links, 0, sizeof links);
    for (int at = 0; at < 2; at++) {
        words[at][ORDERED] |= (uint64_t)is_clean;
        make(at);
    }
    if (is_traced)
        show();
    for (;;) {
        uint64_t next[2] = {next_of(0), next_of(1)};
        if (lesser(next[0], next[1]) == NEVER)
            break;
        now = greater(now, lesser(next[0], next[1]));
        SURE(0, now - progress_at < 600 * SECOND, "nothing goes on");
        for (int at = 0; at < 2; at++)
            if (next[at] <= now)
                turn(at);
        uint64_t all = sides[0].got + sides[1].got + sides[0].released + sides[1].released;
        last = all > done ? now : last;
        done = all;
    }
    for (int at = 0; at < 2; at++) {
        needed += (sides[at].given + unit_of(at) - 1) / unit_of(at) + sides[at].calls;
        waits += (sides[at].expired[TCPCORE_TIMER_RETRANSMIT] + 1) * words[at][GREATEST] * US;
        /* Who has vanished is given up where anything waits for it. */
        SURE(at, sides[at].is_gone || sides[at].status.ending != TCPCORE_ENDING_NOT_ENDED || sides[at].status.queued == 0, "text waits for good");
        is_cut_short += sides[at].is_aborted || sides[at].is_gone || words[at][FIN_WAIT] != TCPCORE_NEVER;
    }
    for (int at = 0; at < 2; at++) {
        if (!is_cut_short)
            judge(at, last - SECOND, needed, waits);
        DONE(at, tcpcore_connection_free(&sides[at].connection));
        SURE(at, tcpcore_connection_free(&sides[at].connection) == TCPCORE_NO_END, "a second free");
        free(sides[at].block), free(sides[at].recovery), free(links[at].heap);
    }
    note(&worst_segments, (double)(sides[0].emitted + sides[1].emitted) / (double)needed);
    if (!is_clean)
        note(&worst_time, (double)(last - SECOND) / (double)(clean_time + SECOND));
    return last - SECOND;
}

int main(int count_of_words, char **word)
{
    uint64_t first = count_of_words > 1 ? strtoull(word[1], NULL, 10) : 1;
    uint64_t count = count_of_words > 2 ? strtoull(word[2], NULL, 10) : 400;
    int set = count_of_words > 3 ? count_of_words - 3 : 0;
    is_traced = getenv("TRACE") != NULL;
    for (size_t i = 0; i < sizeof text; i++)
        text[i / TEXT][i % TEXT] = (unsigned char)any(OF_WORLD, 256);
    for (seed = first; seed < first + count; seed++) {
        is_clean = 1;
        clean_time = run(set, word + 3);
        is_clean = 0;
        run(set, word + 3);
        if ((seed - first + 1) % 1000 == 0)
            fprintf(stderr, "worlds: %" PRIu64 "\n", seed - first + 1);
    }
    fprintf(stderr, "worlds: at most %.1f segments for each that is needed (world %" PRIu64 "), %.1f times as long as without losses (%" PRIu64
            "), %.2f of what may go out without a cause (%" PRIu64 ")\n",
            worst_segments.most, worst_segments.seed, worst_time.most, worst_time.seed, worst_idle.most, worst_idle.seed);
    printf("worlds: %" PRIu64 " worlds, no wrong byte, no storm, nobody given up\n", count);
    return 0;
}
