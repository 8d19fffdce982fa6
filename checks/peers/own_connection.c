/* A side of ours (see peer.h): a connection, with a congestion window, losses found by time and a policy, and its user. */
#include "peer.h"
#include "segment.h"

#include <stdlib.h>
#include <stdio.h>

enum { CAPACITY = 1 << 20, PEER_ISN = 77777 };

static struct own {
    tcpcore_connection end;
    int abandoned;
    uint32_t isn, irs;          /* the initial numbers of both directions */
    uint64_t highest;           /* the position behind all that was sent */
    uint64_t resent, timeouts;
    uint8_t block[TCPCORE_CONNECTION_MEMORY(CAPACITY, CAPACITY)], recovery[TCPCORE_RECOVERY_MEMORY];
} owns[2];

static uint64_t came, kept_out;

/* A SYN that comes again is answered by an acknowledgement, and the SYN,ACK goes out again by its timeout, after 1, 3, 7, 15 and 31 s: when
   that comes lwIP, whose SYNs end after 18 s, is gone. */
const int OWN_SYN_ACKS = 4;

uint64_t own_came(void) { return came; }
uint64_t own_kept_out(void) { return kept_out; }

static tcpcore_addr addr_of(int side) { return (tcpcore_addr){{10, 0, 0, (uint8_t)(1 + side)}}; }

/* A connection's times are microseconds. */
static uint64_t time_now(void) { return 1000 * now; }

static struct tcpcore_status status_of(int side)
{
    struct tcpcore_status status;
    tcpcore_connection_status(&owns[side].end, &status);
    return status;
}

/* Chooses all that a connection decides; whether it could. */
static int choose(struct own *own)
{
    struct tcpcore_policy policy = TCPCORE_POLICY_DEFAULT;
    policy.nagle = trial.nagle != 0;
    return tcpcore_connection_set_congestion(&own->end, trial.cubic ? TCPCORE_CONGESTION_CUBIC : TCPCORE_CONGESTION_RENO) == TCPCORE_DONE &&
           tcpcore_connection_set_recovery(&own->end, time_now(), own->recovery, sizeof own->recovery) == TCPCORE_DONE &&
           tcpcore_connection_set_policy(&own->end, &policy) == TCPCORE_DONE;
}

/* Its user timeout is Linux's, 924.6 s, which the cases count on. */
void own_begin(int side)
{
    struct own *own = &owns[side];
    struct tcpcore_connection_rules rules = TCPCORE_CONNECTION_RULES_DEFAULT;
    uint64_t at = time_now();
    tcpcore_connection_free(&own->end);
    own->isn = side == OWN ? trial.isn : PEER_ISN;
    own->abandoned = 0;
    own->highest = own->resent = own->timeouts = 0;
    tcpcore_config config = {.addr = addr_of(side), .port = (uint16_t)(1 + side), .mss = (uint16_t)trial.mss, .isn = own->isn,
                             .send_capacity = trial.sends, .recv_capacity = trial.keeps, .limit = TCPCORE_LIMIT,
                             .window_shift = (uint8_t)trial.shift, .scales = trial.shift > 0, .sack = (uint8_t)trial.sack};
    rules.user = trial.r2 > 0 ? 1000 * (uint64_t)trial.r2 : 924600000;
    uint32_t answer = trial.opens == side ? tcpcore_connection_connect(&own->end, &config, &rules, addr_of(1 - side), (uint16_t)(2 - side), at,
                                                                       own->block, sizeof own->block)
                                          : tcpcore_connection_listen(&own->end, &config, &rules, at, own->block, sizeof own->block);
    if (answer != TCPCORE_DONE || !choose(own))
        abort();
}

/* Emits all that may go out. lwIP answers an acknowledgement by a reset while its own SYN isn't answered, so that none goes out alone then. */
static void emit(int side)
{
    struct own *own = &owns[side];
    uint8_t bytes[TCPCORE_EMIT_ROOM];
    struct tcpcore_connection_segment segment;
    while (tcpcore_connection_emit(&own->end, time_now(), UINT64_MAX, bytes, sizeof bytes, &segment) == TCPCORE_DONE) {
        uint64_t behind = segment.position + segment.count;
        own->resent += segment.count > 0 && segment.position < own->highest;
        own->highest = behind > own->highest ? behind : own->highest;
        if (segment.count > 0 || bits_of(bytes, RST) || status_of(side).phase != TCPCORE_PHASE_SYN_RECEIVED)
            wire_put(side, bytes, (size_t)segment.length);
    }
}

/* Whether the numbers of a segment, for an end that was in this state, are such as a guard keeps out (RFC 5961, 5.2). */
static int is_guarded(const struct own *own, const struct tcpcore_status *before, const uint8_t *segment)
{
    uint32_t behind = own->isn + (uint32_t)before->snd_una - read32(segment + AT_ACK);
    uint32_t ahead = read32(segment + AT_SEQ) - (own->irs + (uint32_t)before->rcv_position);
    int is_old = behind > TCPCORE_GUARD && behind <= UINT32_C(1) << 31, is_elsewhere = ahead > trial.keeps + 1 && 0 - ahead > TCPCORE_GUARD;
    return bits_of(segment, ACK) && (is_old || (before->rcv_wnd == 0 && is_elsewhere));
}

void own_arrive(int side, const uint8_t *segment, size_t length)
{
    struct own *own = &owns[side];
    struct tcpcore_arrive_report report;
    struct tcpcore_status before = status_of(side);
    while (tcpcore_connection_arrive(&own->end, time_now(), addr_of(1 - side), addr_of(side), segment, length, &report) == TCPCORE_EMIT_FIRST)
        emit(side);
    came += report.rule != TCPCORE_RULE_NONE;
    if (report.rule == TCPCORE_RULE_PEER_OPENS || report.rule == TCPCORE_RULE_PEER_ACCEPTS)
        own->irs = read32(segment + AT_SEQ);
    kept_out += report.rule == TCPCORE_RULE_UNACCEPTABLE && is_guarded(own, &before, segment);
    emit(side);
}

static void use(int side)
{
    static uint8_t text[CAPACITY];
    struct own *own = &owns[side];
    struct user *user = &trial.users[side];
    uint32_t answer = TCPCORE_DONE;
    size_t count, taken;
    while (answer == TCPCORE_DONE) {
        size_t unread = (size_t)status_of(side).unread, wants = user_wants(side, unread);
        if (wants == 0 && unread > 0)
            break;
        answer = tcpcore_connection_receive(&own->end, time_now(), text, wants > 0 ? wants : 1, &count);
        if (answer == TCPCORE_DONE)
            user_reads(side, text, count);
    }
    user->saw_end |= answer == TCPCORE_END_OF_STREAM;
    while ((count = user_text(side, text, (size_t)status_of(side).room)) > 0) {
        if (tcpcore_connection_send(&own->end, time_now(), text, count, &taken) != TCPCORE_DONE)
            break;
        user->sent += taken;
    }
    if (user_aborts(side))
        tcpcore_connection_abort(&own->end, time_now());
    else if (user_closes(side))
        tcpcore_connection_close(&own->end, time_now());
}

void own_turn(int side)
{
    struct own *own = &owns[side];
    uint32_t timer;
    if (status_of(side).phase >= TCPCORE_PHASE_ESTABLISHED)
        use(side);
    emit(side);
    while (tcpcore_connection_timeout(&own->end, time_now(), &timer) == TCPCORE_DONE) {
        own->abandoned |= timer == TCPCORE_TIMER_USER;
        own->timeouts += timer == TCPCORE_TIMER_RETRANSMIT;
        emit(side);
    }
}

uint64_t own_next(int side)
{
    uint64_t at;
    tcpcore_connection_poll_at(&owns[side].end, &at);
    return at == TCPCORE_NEVER ? UINT64_MAX : (at + 999) / 1000;
}

int own_is_over(int side)
{
    struct tcpcore_status status = status_of(side);
    return (status.phase == TCPCORE_PHASE_TIME_WAIT && trial.users[side].saw_end) || (status.phase == TCPCORE_PHASE_CLOSED && status.ending != 0);
}

const char *own_fault(int side)
{
    struct tcpcore_status status = status_of(side);
    if (owns[side].abandoned)
        return "gave up";
    return status.ending == TCPCORE_ENDING_RESET ? "was reset" : status.ending == TCPCORE_ENDING_ABORTED ? "aborted" : 0;
}

uint64_t own_resent(int side) { return owns[side].resent; }
uint64_t own_timeouts(int side) { return owns[side].timeouts; }

void own_report(int side)
{
    struct tcpcore_status status = status_of(side);
    struct tcpcore_congestion window;
    tcpcore_connection_congestion(&owns[side].end, &window);
    printf("    phase %u ending %u una %llu in flight %llu queued %llu window %u cwnd %llu ssthresh %llu, resent %llu, timeouts %llu\n", status.phase,
           status.ending, (unsigned long long)status.snd_una, (unsigned long long)status.in_flight, (unsigned long long)status.queued, status.snd_wnd,
           (unsigned long long)window.cwnd, (unsigned long long)window.ssthresh, (unsigned long long)owns[side].resent,
           (unsigned long long)owns[side].timeouts);
}
