/*
 * The cases of one peer (see peer.h): PROGRAM [--long] [--only NUMBER] [--part K N], of which the last runs the K-th of N parts, from 0
 * on. Prints each case that failed and what it saw, how many segments came and how many of these the guard kept out, which counts as a
 * failure unless it is none, and as its last line `N cases, M failed`. With --bulk SEEDS it runs 20 MB at 2 percent loss alone, so many
 * times with Reno and with CUBIC, and prints the means.
 */
#include "peer.h"

#include <stdio.h>
#include <stdlib.h>
#include <string.h>

struct trial trial;
uint64_t now, began;

static int count, ran, failed, only, is_long, part, parts = 1;
static uint64_t in_pause; /* segments that went out while a user paused */
static uint64_t read_at;  /* when all of our user's bytes were read, or 0 */

/* ---- Users. */

void user_reads(int side, const uint8_t *text, size_t length)
{
    struct user *user = &trial.users[side];
    for (size_t at = 0; at < length; at++)
        user->is_wrong |= text[at] != byte_at(1 - side, user->read + at);
    user->read += length;
    user->left -= user->speed > 0 ? (uint32_t)length : 0;
}

size_t user_wants(int side, size_t there)
{
    const struct user *user = &trial.users[side];
    if (now - began < user->pause)
        return 0;
    return user->speed > 0 && there > user->left ? user->left : there;
}

size_t user_text(int side, uint8_t *text, size_t room)
{
    const struct user *user = &trial.users[side];
    uint64_t there = user->piece > 0 && user->came < user->size ? user->came : user->size;
    uint64_t left = user->has_closed || user->has_aborted ? 0 : there - user->sent;
    size_t length = left < room ? (size_t)left : room;
    for (size_t at = 0; at < length; at++)
        text[at] = byte_at(side, user->sent + at);
    return length;
}

int user_closes(int side)
{
    struct user *user = &trial.users[side];
    if (user->has_closed || user->sent < user->size || (user->closes != CLOSES_FIRST && !user->saw_end) || user->closes == ABORTS)
        return 0;
    user->has_closed = 1;
    return 1;
}

int user_aborts(int side)
{
    struct user *user = &trial.users[side];
    if (user->closes != ABORTS || user->has_aborted || user->sent + user->read < user->aborts_at)
        return 0;
    user->has_aborted = 1;
    return 1;
}

/* ---- One case. */

static uint64_t smaller(uint64_t a, uint64_t b) { return a < b ? a : b; }

/* The next time at which there is something to do. */
static uint64_t next_time(void)
{
    uint64_t at = smaller(smaller(wire_next(), own_next(OWN)), peer_next());
    int is_slow = trial.users[OWN].speed > 0 || trial.users[PEER].speed > 0 || trial.users[OWN].piece > 0 || trial.users[PEER].piece > 0;
    at = is_slow ? smaller(at, now + 1) : at;
    for (int side = OWN; side <= PEER; side++)
        if (now - began < trial.users[side].pause)
            at = smaller(at, began + trial.users[side].pause);
    return at > now ? at : now + 1;
}

static void step(void)
{
    for (int side = OWN; side <= PEER; side++) {
        trial.users[side].left = trial.users[side].speed;
        trial.users[side].came += trial.users[side].piece;
    }
    for (int round = 0; round < 100 && (wire_carry() > 0 || round == 0); round++) {
        own_turn(OWN);
        peer_turn();
    }
}

static int is_over(void) { return (own_is_over(OWN) || trial.users[OWN].has_aborted) && peer_is_over(); }

/* What is wrong with what was seen, or 0. */
static const char *fault_of(void)
{
    int aborts = trial.users[OWN].closes == ABORTS || trial.users[PEER].closes == ABORTS;
    for (int side = OWN; side <= PEER; side++) {
        const struct user *user = &trial.users[side];
        if (user->is_wrong || user->read > trial.users[1 - side].size)
            return "other bytes than were sent";
        if (user->saw_end && user->read < trial.users[1 - side].size && !aborts)
            return "an end of stream before its end";
    }
    if (trial.pace > 0 && (read_at == 0 || read_at - began > trial.pace))
        return "too slow";
    if ((trial.segments > 0 && in_pause > trial.segments) || (trial.most > 0 && wire_count(OWN) > trial.most))
        return "too many segments";
    if (trial.again > 0 && own_resent(OWN) > trial.again)
        return "too many segments again";
    if (trial.vanishes_at > 0)
        return own_fault(OWN) ? 0 : "not given up";
    if (own_fault(OWN) && !aborts)
        return own_fault(OWN);
    if (!is_over())
        return now - began >= trial.limit ? "took too long" : "stands still";
    if (aborts)
        return 0;
    if (trial.users[PEER].saw_fault)
        return "the peer was reset";
    return trial.users[OWN].read < trial.users[PEER].size || trial.users[PEER].read < trial.users[OWN].size ? "bytes are missing" : 0;
}

static void report(const char *fault)
{
    printf("case %d: %s: %s\n    own sends %llu, of which %llu were read; the peer %llu, of which %llu; %s opens; loss %u doubles %u late %u "
           "damaged %u seed %u, mss %u shift %d sack %d capacity %u delay %u; %llu ms, %llu and %llu segments\n", count, trial.name, fault,
           (unsigned long long)trial.users[OWN].size, (unsigned long long)trial.users[PEER].read,
           (unsigned long long)trial.users[PEER].size, (unsigned long long)trial.users[OWN].read, trial.opens == OWN ? "own" : "peer",
           trial.lost, trial.doubled, trial.late, trial.damaged, trial.seed, trial.mss, trial.shift, trial.sack, trial.keeps,
           trial.delay, (unsigned long long)(now - began), (unsigned long long)wire_count(OWN), (unsigned long long)wire_count(PEER));
    own_report(OWN);
    peer_report();
}

/* Runs the case in `trial`, unless our side can't pass it. Answers the milliseconds until the peer's user had read all. */
static uint64_t run(void)
{
    count++;
    if ((only > 0 && only != count) || count % parts != part || (trial.opens == PEER && trial.drops_to[OWN] > OWN_SYN_ACKS))
        return 0;
    ran++;
    began = now += 1000000;
    in_pause = read_at = 0;
    if (trial.vanishes_at > 0)
        trial.vanishes_at += now;
    wire_begin();
    peer_begin();
    own_begin(OWN);
    for (step(); !is_over() && now - began < trial.limit; step()) {
        if (now - began < trial.users[OWN].pause || now - began < trial.users[PEER].pause)
            in_pause = wire_count(OWN) + wire_count(PEER);
        if (read_at == 0 && trial.users[PEER].read == trial.users[OWN].size)
            read_at = now;
        if (trial.segments > 0 && in_pause > trial.segments)
            break;
        now = peer_wait(next_time());
    }
    const char *fault = fault_of();
    if (fault && peer_fault() && !own_fault(OWN)) {
        printf("case %d: %s: the peer's own: %s\n", count, trial.name, peer_fault());
        return 0;
    }
    if (fault)
        report(fault);
    failed += fault != 0;
    return read_at > 0 ? read_at - began : now - began;
}

/* A case to begin with: 5 ms each way. */
static void set(const char *name, uint64_t own_sends, uint64_t peer_sends)
{
    trial = (struct trial){.name = name, .users = {{.size = own_sends}, {.size = peer_sends}}, .mss = 1460, .sends = 65535,
                           .keeps = 65535, .sack = 1, .isn = 1000, .delay = 5, .seed = 1, .limit = 200000};
    trial.users[PEER].closes = CLOSES_LAST;
}

static const uint32_t SIZES[] = {0, 1, 2, 100, 535, 536, 537, 1459, 1460, 1461, 2920, 10000, 65535, 65536, 100000, 300000};
enum { SIZE_COUNT = sizeof SIZES / sizeof *SIZES };

/* Each size up, down and both ways; either opens, and either closes first, or both at once. */
static void plain(void)
{
    for (int at = 0; at < SIZE_COUNT; at++)
        for (int way = 1; way <= 3; way++)
            for (int variant = 0; variant < 6; variant++) {
                set("plain", way & 1 ? SIZES[at] : 0, way & 2 ? SIZES[at] : 0);
                trial.opens = variant % 2;
                trial.users[OWN].closes = variant / 2 == 1 ? CLOSES_LAST : CLOSES_FIRST;
                trial.users[PEER].closes = variant / 2 == 0 ? CLOSES_LAST : CLOSES_FIRST;
                run();
            }
}

/* The k-th segment of a side is lost, or of both. */
static void drops(void)
{
    for (int nth = 1; nth <= 12; nth++)
        for (int who = 1; who <= 3; who++)
            for (int variant = 0; variant < 4; variant++) {
                set("one is lost", variant / 2 ? 5000 : 100, variant / 2 ? 5000 : 100);
                trial.opens = variant % 2;
                trial.drops[OWN] = who & 1 ? nth : 0;
                trial.drops[PEER] = who & 2 ? nth : 0;
                run();
            }
}

/* The first segments of a side are lost: SYNs, and the SYN,ACKs that answer them. */
static void openings(void)
{
    for (int most = 1; most <= 5; most++)
        for (int variant = 0; variant < 4; variant++) {
            set("the first ones are lost", 1000, 1000);
            trial.opens = variant % 2;
            trial.drops_to[variant / 2] = most;
            run();
        }
}

/* Losses, repeats, reordering and damage. */
static void faults(int seeds)
{
    static const uint32_t RATES[] = {10, 50, 200}, MSS[] = {64, 536, 1460};
    for (int seed = 1; seed <= seeds; seed++)
        for (int rate = 0; rate < 3; rate++)
            for (int kind = 0; kind < 5; kind++)
                for (int way = 1; way <= 3; way++)
                    for (int mss = 0; mss < 3; mss++) {
                        uint32_t size = rate < 2 ? 100000 : PEER_IS_REAL ? 2000 : 20000;
                        set("faults", way & 1 ? size : 100, way & 2 ? size : 100);
                        trial.mss = MSS[mss];
                        trial.sack = seed % 2;
                        trial.opens = (seed + way + mss) % 2;
                        trial.cubic = (seed + kind) % 2;
                        trial.nagle = (seed + kind + mss) % 2;
                        trial.seed = (uint32_t)(seed * 1000 + rate * 100 + kind * 10 + way);
                        trial.lost = kind == 0 || kind == 4 ? RATES[rate] : 0;
                        trial.doubled = kind == 1 || kind == 4 ? RATES[rate] : 0;
                        trial.late = kind == 2 || kind == 4 ? RATES[rate] : 0;
                        trial.damaged = kind == 3 ? RATES[rate] : 0;
                        /* A fifth is lost each way: the end is patient, and a peer's timeout grows. */
                        trial.r2 = rate == 2 ? 1000000 : 0;
                        trial.limit = rate == 2 ? 20000000 : 4000000;
                        run();
                    }
}

/* Long paths and small segments, where a millisecond is worth less than a segment, or less than a byte of one. */
static void paths(void)
{
    static const uint32_t DELAYS[] = {50, 150, 900}, MSS[] = {64, 536, 1460};
    for (int delay = 0; delay < 3; delay++)
        for (int mss = 0; mss < 3; mss++)
            for (int variant = 0; variant < 8; variant++) {
                set("long paths", variant & 1 ? 30000 : 100, variant & 1 ? 100 : 30000);
                trial.delay = DELAYS[delay];
                trial.mss = MSS[mss];
                trial.opens = variant >> 1 & 1;
                trial.lost = variant & 4 ? 20 : 0;
                trial.drops[trial.opens] = variant & 4 ? 1 : 0;
                trial.limit = 400000;
                run();
            }
}

/* Windows that are scaled, where the peer scales, too. */
static void scaled(void)
{
    for (int variant = 0; variant < 8; variant++) {
        set("scaled windows", 400000, 400000);
        trial.sends = trial.keeps = 1 << 20;
        trial.shift = 5;
        trial.opens = variant & 1;
        trial.sack = variant >> 1 & 1;
        trial.lost = variant & 4 ? 10 : 0;
        run();
    }
}

/* The numbers of each side pass 0 at each of some places. */
static void wraps(void)
{
    static const uint32_t PLACES[] = {0, 1, 2, 101, 1461, 5000, 65536};
    for (int at = 0; at < 7; at++)
        for (int variant = 0; variant < 8; variant++) {
            set("numbers wrap", 100000, 100000);
            trial.opens = variant % 2;
            trial.sack = variant / 2 % 2;
            trial.lost = variant / 4 ? 20 : 0;
            trial.isn = 0u - PLACES[at];
            /* lwIP begins near 6510, and a little later each time: these are what it has, roughly, and the places are covered. */
            trial.moves = 0u - 6510u - PLACES[at] * (uint32_t)(1 + variant);
            trial.limit = 400000;
            run();
        }
}

/* Users that read slowly, so that windows shut. */
static void slow(void)
{
    static const uint32_t SPEEDS[] = {1, 7, 100};
    for (int speed = 0; speed < 3; speed++)
        for (int who = 1; who <= 3; who++)
            for (int variant = 0; variant < 8; variant++) {
                uint32_t size = SPEEDS[speed] == 1 ? 20000 : 150000;
                set("slow readers", who & 2 ? size : 1000, who & 1 ? size : 1000);
                trial.users[OWN].speed = who & 1 ? SPEEDS[speed] : 0;
                trial.users[PEER].speed = who & 2 ? SPEEDS[speed] : 0;
                trial.opens = variant % 2;
                trial.keeps = variant / 2 % 2 ? 65535 : 4000;
                trial.lost = variant / 4 ? 20 : 0;
                trial.seed = (uint32_t)(17 * speed + who);
                trial.limit = 2000000;
                run();
            }
}

/* Users that have a little more to send in each millisecond, with Nagle's rule and without, to a peer that delays its
   acknowledgements: with it no more than a third of the segments go out. */
static void pieces(void)
{
    for (int variant = 0; variant < 8; variant++) {
        set("pieces", 20000, variant & 4 ? 20000 : 0);
        trial.users[OWN].piece = 40;
        trial.users[PEER].piece = variant & 4 ? 40 : 0;
        trial.nagle = variant & 1;
        trial.opens = variant >> 1 & 1;
        trial.most = variant & 1 ? 170 : 0;
        run();
    }
}

/* Users that read nothing for a while: both windows are shut, both ends probe, and each finds the other's acknowledgements
   unacceptable. Nobody sends more than the probes and their answers ask for. */
static void shut(void)
{
    for (int who = 1; who <= 3; who++)
        for (int variant = 0; variant < 4; variant++) {
            set("both shut", 200000, 200000);
            trial.users[OWN].pause = who & 1 ? 60000 : 0;
            trial.users[PEER].pause = who & 2 ? 60000 : 0;
            trial.opens = variant % 2;
            trial.keeps = variant / 2 ? 65535 : 20000;
            trial.segments = who == 3 ? 450 : 1200;
            run();
        }
}

/* Both send all that they can into windows that the loss of a first segment fills: its acknowledgements lie at RCV.NXT + RCV.WND then,
   which isn't acceptable (RFC 9293, 3.4). What goes out again is what was lost, and little more. */
static void both_full(void)
{
    for (int variant = 0; variant < 8; variant++) {
        set("both full", 300000, 300000);
        trial.opens = variant & 1;
        trial.sack = variant >> 1 & 1;
        trial.keeps = variant & 4 ? 65535 : 16384;
        trial.lost = 20;
        trial.seed = (uint32_t)variant;
        trial.again = 200;
        trial.limit = 400000;
        run();
    }
}

/* Either aborts, with and without losses. */
static void aborts(void)
{
    static const uint32_t PLACES[] = {0, 1, 1460, 50000};
    for (int at = 0; at < 4; at++)
        for (int variant = 0; variant < 8; variant++) {
            set("abort", 100000, 100000);
            trial.users[variant % 2].closes = ABORTS;
            trial.users[variant % 2].aborts_at = PLACES[at];
            trial.users[1 - variant % 2].closes = CLOSES_FIRST;
            trial.opens = variant / 2 % 2;
            trial.lost = variant / 4 ? 50 : 0;
            trial.limit = 1000000;
            run();
        }
}

/* The peer vanishes with text under way: the end gives up, at the earliest after 924.6 s. */
static void vanishes(void)
{
    for (int at = 1; at <= 4; at++) {
        set("vanishes", 1000000, 0);
        trial.vanishes_at = 20 * (uint64_t)at;
        trial.limit = 1100000;
        run();
    }
}

/* A case of throughput: 2 percent of the segments are lost, 10 ms there and back. Proportional to the loss, and not to timeouts of a
   second. */
static uint64_t bulk_case(uint64_t size, int cubic, uint32_t seed)
{
    set(cubic ? "bulk, CUBIC" : "bulk", size, 0);
    trial.opens = OWN;
    trial.sack = 1;
    trial.cubic = cubic;
    trial.lost = 20;
    trial.seed = seed;
    trial.pace = size / 1000000 * PEER_PACE;
    trial.limit = trial.pace + 60000;
    return run();
}

static void bulk(uint64_t size)
{
    for (int variant = 0; variant < 4; variant++) {
        uint64_t took = bulk_case(size, variant % 2, (uint32_t)(1 + variant / 2));
        if (took > 0)
            printf("    %s: %llu bytes at 2 percent loss: %llu ms\n", trial.name, (unsigned long long)size, (unsigned long long)took), own_report(OWN);
    }
}

/* The means of so many runs. */
static void measure(int seeds)
{
    for (int cubic = 0; cubic <= 1; cubic++) {
        uint64_t sum = 0, resent = 0, segments = 0, timeouts = 0;
        for (int seed = 1; seed <= seeds; seed++) {
            sum += bulk_case(20000000, cubic, (uint32_t)seed);
            segments += wire_count(OWN);
            resent += own_resent(OWN);
            timeouts += own_timeouts(OWN);
        }
        printf("    %s, %s: %llu ms for 20 MB, %llu segments, of which %llu again, %llu timeouts\n", PEER_NAME, cubic ? "CUBIC" : "Reno",
               (unsigned long long)sum / (unsigned)seeds, (unsigned long long)segments / (unsigned)seeds,
               (unsigned long long)resent / (unsigned)seeds, (unsigned long long)timeouts / (unsigned)seeds);
    }
}

/* 20 MiB up, down and both ways, with and without blocks, scaled windows and losses. */
static void large(void)
{
    for (int way = 1; way <= 3; way++)
        for (int variant = 0; variant < 8; variant++) {
            set("large", way & 1 ? 20 << 20 : 100, way & 2 ? 20 << 20 : 100);
            trial.opens = way % 2;
            trial.sack = variant & 1;
            trial.lost = variant & 2 ? 10 : 0;
            trial.shift = variant & 4 ? 5 : 0;
            trial.sends = trial.keeps = variant & 4 ? 1 << 20 : 65535;
            trial.limit = 4000000;
            run();
        }
}

static void all(void)
{
    plain();
    drops();
    openings();
    faults(is_long ? 8 : 2);
    paths();
    scaled();
    wraps();
    slow();
    pieces();
    shut();
    both_full();
    aborts();
    vanishes();
    if (is_long)
        large();
    bulk(is_long ? 20000000 : 2000000);
}

int main(int words, char **word)
{
    int seeds = 0;
    setvbuf(stdout, NULL, _IOLBF, 0);
    for (int at = 1; at < words; at++) {
        is_long |= strcmp(word[at], "--long") == 0;
        only = strcmp(word[at], "--only") == 0 && at + 1 < words ? atoi(word[at + 1]) : only;
        seeds = strcmp(word[at], "--bulk") == 0 && at + 1 < words ? atoi(word[at + 1]) : seeds;
        if (strcmp(word[at], "--part") == 0 && at + 2 < words) {
            part = atoi(word[at + 1]);
            parts = atoi(word[at + 2]);
        }
    }
    if (parts < 1)
        return 2;
    if (seeds > 0)
        measure(seeds);
    else
        all();
    printf("%s: %llu segments came, of which the guard kept out %llu\n", PEER_NAME, (unsigned long long)own_came(),
           (unsigned long long)own_kept_out());
    failed += own_came() == 0 || own_kept_out() > 0;
    printf("%s: %d cases, %d failed\n", PEER_NAME, ran, failed);
    return failed > 0;
}
