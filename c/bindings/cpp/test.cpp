// Ends and connections in C++: text both ways with losses, moves, and what is thrown.
#include "tcpcore.hpp"

#include <algorithm>
#include <chrono>
#include <cstdio>
#include <cstdlib>
#include <cstring>
#include <string>
#include <vector>

static int checks;
#define CHECK(condition) (checks++, (condition) ? (void)0 : (std::printf("%s:%d: %s\n", __FILE__, __LINE__, #condition), std::exit(1)))

static const tcpcore_addr A = {{10, 0, 0, 1}}, B = {{10, 0, 0, 2}};

static tcpcore_config config(tcpcore_addr addr, std::uint16_t port)
{
    tcpcore_config found = {};
    found.addr = addr, found.port = port, found.mss = 1000, found.isn = 1, found.limit = TCPCORE_LIMIT, found.sack = 1;
    found.send_capacity = found.recv_capacity = 5000;
    return found;
}

static std::size_t carry(tcpcore::end &from, tcpcore_addr src, tcpcore::end &to)
{
    static unsigned count;
    unsigned char segment[TCPCORE_EMIT_ROOM];
    tcpcore_addr dst;
    std::size_t sent = 0;
    while (std::size_t length = from.emit(segment, dst))
        if (sent++, ++count % 4 != 0)
            to.arrive(src, dst, segment, length);
    return sent;
}

// Two ends, connected, of the same config each time.
static void connect(tcpcore::end &a, tcpcore::end &b)
{
    unsigned char segment[TCPCORE_EMIT_ROOM];
    tcpcore_addr dst;
    b.listen();
    a.connect(B, 7);
    b.arrive(A, B, segment, a.emit(segment, dst));
    a.arrive(B, A, segment, b.emit(segment, dst));
    b.arrive(A, B, segment, a.emit(segment, dst));
}

// Of two pairs of ends one is used by the calls that report and lend: the same bytes and states.
static void beside()
{
    tcpcore::end a(config(A, 7)), b(config(B, 7)), c(config(A, 7)), d(config(B, 7));
    connect(a, b);
    connect(c, d);
    CHECK(d.peek()->first.length == 0 && d.consume(1) == 0);
    std::string text(2500, 'y'), got;
    for (std::size_t i = 0; i < text.size(); i++)
        text[i] = static_cast<char>(i * 7);
    CHECK(a.send(text.data(), text.size()) == text.size() && c.send(text.data(), text.size()) == text.size());
    a.close();
    c.close();
    unsigned char one[TCPCORE_EMIT_ROOM], other[TCPCORE_EMIT_ROOM];
    std::uint64_t position = 1;
    tcpcore_addr dst;
    while (std::size_t length = a.emit(one, dst)) {
        struct tcpcore_transmit reported = c.transmit(other);
        CHECK(reported.length == length && std::memcmp(one, other, length) == 0);
        CHECK(reported.kind == (reported.count > 0 ? TCPCORE_KIND_NEW_TEXT : TCPCORE_KIND_FIN) && reported.position == position);
        position += reported.count;
        std::pair<std::uint32_t, bool> became = b.arrive(A, B, one, length);
        std::pair<std::uint32_t, struct tcpcore_arrive_report> report = d.arrive_with_report(A, B, other, length);
        CHECK(report.first == became.first && (report.second.at_once == 1) == became.second);
        CHECK(report.second.rule == TCPCORE_RULE_TAKEN && report.second.brought == TCPCORE_BROUGHT_IN_ORDER);
    }
    CHECK(position == 1 + text.size() && c.transmit(other).length == 0);
    char out[700];
    for (std::optional<std::size_t> count; (count = b.receive(out, sizeof out));) {
        std::optional<struct tcpcore_lent> lent = d.peek();
        CHECK(lent && lent->ends == 1 && lent->second.length == 0 && std::memcmp(lent->first.at, out, *count) == 0);
        CHECK(d.consume(sizeof out) == *count && d.status().unread == b.status().unread);
        got.append(out, *count);
    }
    CHECK(got == text && !d.peek() && d.consume(1) == 0);
    try {
        tcpcore::end(config(A, 1)).peek();
        CHECK(false);
    } catch (const tcpcore::refused &found) {
        CHECK(found.answer == TCPCORE_NOT_OPEN);
    }
}

// Three segments are lost. An acknowledgement goes out alone before what is due again, and of that the first segment alone.
static void pacing()
{
    tcpcore::end a(config(A, 7)), b(config(B, 7));
    unsigned char out[TCPCORE_EMIT_ROOM];
    tcpcore_addr dst;
    CHECK(!a.resend_first() && a.emit_acknowledgement(out, dst) == 0);
    connect(a, b);
    CHECK(!a.resend_first() && a.emit_acknowledgement(out, dst) == 0);
    std::string text(3000, 'z');
    CHECK(a.send(text.data(), text.size()) == text.size());
    for (std::uint64_t position = 1; position < 3001; position += 1000) {
        struct tcpcore_transmit reported = a.transmit(out);
        CHECK(reported.kind == TCPCORE_KIND_NEW_TEXT && reported.position == position && reported.count == 1000);
    }
    CHECK(a.timer(TCPCORE_TIMER_RETRANSMIT) && b.send("x", 1) == 1);
    std::size_t length = b.emit(out, dst);
    CHECK(length == 21 && a.arrive(B, A, out, length).first == TCPCORE_DONE);
    CHECK(a.emit_acknowledgement(out, dst) == 20 && dst.byte[3] == 2);
    CHECK(out[11] == 3 && a.emit_acknowledgement(out, dst) == 0); // B's number is 1, its text 2, and 3 is next
    struct tcpcore_transmit again = a.transmit(out);
    CHECK(again.kind == TCPCORE_KIND_TEXT_AGAIN && again.position == 1 && again.count == 1000);
    CHECK(a.resend_first());
    again = a.transmit(out);
    CHECK(again.kind == TCPCORE_KIND_TEXT_AGAIN && again.position == 1 && again.count == 1000);
    CHECK(a.transmit(out).length == 0);
    CHECK(a.resend(1001, 1501) && !a.resend(3001, 4000));
    again = a.transmit(out);
    CHECK(again.kind == TCPCORE_KIND_TEXT_AGAIN && again.position == 1001 && again.count == 500);
    CHECK(a.transmit(out).length == 0);
}

// What a device makes of a checksum field that has the sum of the pseudo-header: the complement of the sum over all (RFC 1071).
static void sum(unsigned char *segment, std::size_t length)
{
    std::uint32_t sum = 0;
    for (std::size_t i = 0; i < length; i++)
        sum += i % 2 ? segment[i] : std::uint32_t(segment[i]) << 8;
    while (sum >> 16)
        sum = (sum & 0xffff) + (sum >> 16);
    segment[16] = static_cast<unsigned char>(~sum >> 8);
    segment[17] = static_cast<unsigned char>(~sum);
}

// Of two pairs of ends one is used by the calls for a device that sums and cuts: the same text, and the same states.
static void train()
{
    tcpcore::end a(config(A, 7)), b(config(B, 7)), c(config(A, 7)), d(config(B, 7));
    connect(a, b);
    connect(c, d);
    std::string text(3500, 'y');
    for (std::size_t i = 0; i < text.size(); i++)
        text[i] = static_cast<char>(i * 7);
    CHECK(a.send(text.data(), text.size()) == text.size() && c.send(text.data(), text.size()) == text.size());
    std::vector<unsigned char> room(TCPCORE_TRAIN_ROOM);
    struct tcpcore_train train = c.emit_train(room.data(), room.size(), 64);
    CHECK(train.segments == 4 && train.each == 1000 && train.header == 20 && train.whole.count == text.size());
    CHECK(train.whole.kind == TCPCORE_KIND_NEW_TEXT && train.whole.length == 20 + text.size() && train.whole.position == 1);
    CHECK(std::memcmp(room.data() + 20, text.data(), text.size()) == 0);
    unsigned char one[TCPCORE_EMIT_ROOM], other[TCPCORE_EMIT_ROOM];
    tcpcore_addr dst, to;
    for (std::size_t i = 0; i < train.segments; i++) {
        std::size_t length = a.emit(one, dst);
        CHECK(length == (i < 3 ? 1020 : 520) && std::memcmp(one + 20, room.data() + 20 + 1000 * i, length - 20) == 0);
        b.arrive(A, dst, one, length);
    }
    std::pair<std::uint32_t, struct tcpcore_arrive_report> report = d.arrive_vouched_with_report(A, B, room.data(), 20 + text.size());
    CHECK(report.first == TCPCORE_DONE && report.second.brought == TCPCORE_BROUGHT_IN_ORDER);
    CHECK(a.emit(one, dst) == 0 && c.emit_train(room.data(), room.size(), 64).segments == 0);
    std::size_t length = b.emit(one, dst);
    CHECK(length == 20 && d.emit_partial(other, to) == length && std::memcmp(one, other, length) != 0);
    sum(other, length);
    CHECK(std::memcmp(one, other, length) == 0 && to.byte[3] == dst.byte[3]);
    struct tcpcore_status here = b.status(), there = d.status();
    CHECK(std::memcmp(&here, &there, sizeof here) == 0);
    here = a.status(), there = c.status();
    CHECK(std::memcmp(&here, &there, sizeof here) == 0);
    try {
        c.emit_train(room.data(), TCPCORE_EMIT_ROOM - 1, 64);
        CHECK(false);
    } catch (const tcpcore::refused &found) {
        CHECK(found.answer == TCPCORE_ROOM);
    }
}

// What the call throws.
template <typename Call> static std::uint32_t thrown(Call call)
{
    try {
        call();
    } catch (const tcpcore::refused &found) {
        return found.answer;
    }
    return TCPCORE_DONE;
}

// An end that was moved from has nothing due and no rule: each call says that there is no end.
static void moved_from()
{
    tcpcore::end a(config(A, 7)), b = std::move(a);
    unsigned char out[TCPCORE_EMIT_ROOM];
    tcpcore_addr dst;
    b.listen();
    CHECK(b.emit(out, dst) == 0 && !b.timer(TCPCORE_TIMER_RETRANSMIT) && b.arrive(B, A, "x", 1).first == TCPCORE_TOO_SHORT);
    CHECK(thrown([&] { b.timer(3); }) == TCPCORE_NO_TIMER);
    CHECK(thrown([&] { a.emit(out, dst); }) == TCPCORE_NULL);
    CHECK(thrown([&] { a.emit_partial(out, dst); }) == TCPCORE_NULL);
    CHECK(thrown([&] { a.emit_acknowledgement(out, dst); }) == TCPCORE_NULL);
    CHECK(thrown([&] { a.emit_train(out, sizeof out, 1); }) == TCPCORE_NULL);
    CHECK(thrown([&] { a.transmit(out); }) == TCPCORE_NULL);
    CHECK(thrown([&] { a.resend_first(); }) == TCPCORE_NULL);
    CHECK(thrown([&] { a.resend(0, 9); }) == TCPCORE_NULL);
    CHECK(thrown([&] { a.timer(TCPCORE_TIMER_RETRANSMIT); }) == TCPCORE_NULL);
    CHECK(thrown([&] { a.arrive(B, A, "x", 1); }) == TCPCORE_NULL);
    CHECK(thrown([&] { a.arrive_with_report(B, A, "x", 1); }) == TCPCORE_NULL);
    CHECK(thrown([&] { a.arrive_vouched_with_report(B, A, "x", 1); }) == TCPCORE_NULL);
}

// The SYN of a default config has an MSS of 1,460 bytes, permits selective acknowledgement and offers no scaling (RFC 9293, 3.7.1; RFC
// 2018, 2). Shifts are worked out by hand.
static void defaults()
{
    tcpcore::end a(tcpcore::default_config(A, 7, 1));
    unsigned char out[TCPCORE_EMIT_ROOM];
    static const unsigned char options[] = {2, 4, 1460 >> 8, 1460 & 255, 1, 1, 4, 2};
    tcpcore_addr dst;
    a.connect(B, 7);
    CHECK(a.emit(out, dst) == 28 && std::memcmp(out + 20, options, 8) == 0 && out[14] == 255 && out[15] == 255);
    static_assert(tcpcore::least_shift(65535) == 0 && tcpcore::least_shift(65536) == 1 && tcpcore::least_shift(1048576) == 5);
}

// What is on the way between two connections.
struct on_the_way {
    tcpcore::connection::time at;
    int side;
    std::vector<unsigned char> bytes;
};

// A connection's user sends its text, closes, and reads.
struct user {
    std::string left, got;
    bool is_closed, has_ended;

    void act(tcpcore::connection &it, tcpcore::connection::time now)
    {
        left.erase(0, it.send(now, left.data(), left.size()));
        if (left.empty())
            it.close(now), is_closed = true;
    }
    void read(tcpcore::connection &it, tcpcore::connection::time now)
    {
        char out[3000];
        std::optional<std::size_t> count;
        while ((count = it.receive(now, out, sizeof out)) && *count > 0)
            got.append(out, *count);
        has_ended |= !count;
    }
};

// Two connections with their users, and a link that takes 20 ms and loses each seventh segment.
struct lossy_pair {
    const tcpcore_addr addrs[2] = {A, B};
    tcpcore::connection::time now;
    tcpcore::connection ends[2];
    user users[2] = {{std::string(50001, 'x'), "", false, false}, {std::string(40001, 'y'), "", false, false}};
    std::vector<on_the_way> link;
    unsigned count = 0, expired[4] = {0, 0, 0, 0};

    explicit lossy_pair(tcpcore::connection::time start)
        : now(start), ends{tcpcore::connection::connect(config(A, 7), tcpcore::default_rules(), B, 7, start),
                           tcpcore::connection::listen(config(B, 7), tcpcore::default_rules(), start)}
    {
    }

    void emit(int side)
    {
        unsigned char out[TCPCORE_EMIT_ROOM];
        while (std::size_t length = ends[side].emit(now, out).length)
            if (count++ % 7 != 0)
                link.push_back({now + std::chrono::milliseconds(20), 1 - side, {out, out + length}});
    }

    // When anything happens next, if anything does.
    std::optional<tcpcore::connection::time> next() const
    {
        std::optional<tcpcore::connection::time> found;
        for (const on_the_way &it : link)
            found = found ? std::min(*found, it.at) : it.at;
        for (const tcpcore::connection &it : ends)
            if (auto at = it.poll_at())
                found = found ? std::min(*found, *at) : *at;
        return found;
    }

    void take()
    {
        std::vector<on_the_way> left;
        for (on_the_way &it : link) {
            if (it.at > now) {
                left.push_back(std::move(it));
                continue;
            }
            std::uint32_t answer = ends[it.side].arrive(now, addrs[1 - it.side], addrs[it.side], it.bytes.data(), it.bytes.size()).first;
            CHECK(answer == TCPCORE_DONE || answer == TCPCORE_DROPPED || answer == TCPCORE_WITHHELD);
        }
        link = std::move(left);
    }

    void use(int side)
    {
        if (std::optional<std::uint32_t> timer = ends[side].timeout(now))
            expired[*timer]++;
        if (ends[side].status().mss > 0 && !users[side].is_closed)
            users[side].act(ends[side], now);
        if (!users[side].has_ended)
            users[side].read(ends[side], now);
    }
};

// Text both ways at the connections' own times alone. RFC 6298, 2.1: the SYN, which is lost, goes out again after a second; RFC 9293,
// 3.4.2: TIME-WAIT takes four minutes.
static void over_a_lossy_link()
{
    using namespace std::chrono_literals;
    const tcpcore::connection::time start(1000s);
    lossy_pair pair(start);
    pair.emit(0);
    CHECK(pair.count == 1 && pair.next() == start + 1s);
    while (auto next = pair.next()) {
        pair.now = std::max(pair.now, *next);
        pair.take();
        for (int side = 0; side < 2; side++) {
            pair.use(side);
            pair.emit(side);
        }
    }
    CHECK(pair.users[0].got == std::string(40001, 'y') && pair.users[1].got == std::string(50001, 'x'));
    for (int side = 0; side < 2; side++)
        CHECK(pair.users[side].has_ended && pair.ends[side].status().ending == TCPCORE_ENDING_ORDERLY && pair.ends[side].is_closed());
    CHECK(pair.expired[TCPCORE_TIMER_RETRANSMIT] > 0 && pair.expired[TCPCORE_TIMER_TIME_WAIT] > 0);
    CHECK(pair.expired[TCPCORE_TIMER_USER] == 0);
    CHECK(pair.now >= start + 240s);
}

// What a call of a connection refuses; what is due goes out first; a window.
static void a_connection_refuses()
{
    using namespace std::chrono_literals;
    tcpcore::connection::time now(5s);
    struct tcpcore_connection_rules rules = tcpcore::default_rules(), bad = rules;
    bad.least = 0;
    auto answer_of = [](auto call) -> std::uint32_t {
        try { call(); } catch (const tcpcore::refused &found) { return found.answer; }
        return TCPCORE_DONE;
    };
    tcpcore_config small = config(A, 7);
    small.mss = 1;
    CHECK(answer_of([&] { tcpcore::connection::connect(config(A, 7), bad, B, 7, now); }) == TCPCORE_BAD_RULES);
    CHECK(answer_of([&] { tcpcore::connection::listen(small, rules, now); }) == TCPCORE_BAD_MSS);
    tcpcore::connection a = tcpcore::connection::connect(config(A, 7), rules, B, 7, now);
    tcpcore::connection b = tcpcore::connection::listen(config(B, 7), rules, now);
    CHECK(!b.poll_at() && answer_of([&] { b.send(now, "x", 1); }) == TCPCORE_NOT_CONNECTED);
    CHECK(!b.peer() && a.peer()->second == 7 && std::memcmp(&a.peer()->first, &B, sizeof B) == 0);
    unsigned char out[TCPCORE_EMIT_ROOM], ack[TCPCORE_EMIT_ROOM];
    for (int turn = 0; turn < 2; turn++) {
        while (std::size_t length = a.emit(now, out).length) CHECK(b.arrive(now, A, B, out, length).first == TCPCORE_DONE);
        while (std::size_t length = b.emit(now, out).length) CHECK(a.arrive(now, B, A, out, length).first == TCPCORE_DONE);
    }
    std::string text(2500, 'y');
    CHECK(b.peer()->second == 7 && !a.resend_first(now) && a.send(now, text.data(), text.size()) == 2500);
    struct tcpcore_connection_segment first = a.emit(now, out, 1000);
    CHECK(first.position == 1 && first.count == 1000 && first.length == 1020 && a.emit(now, ack, 1999).length == 0);
    CHECK(a.resend_first(now) && a.emit(now, ack, 1000).position == 1 && std::memcmp(out, ack, first.length) == 0);
    CHECK(b.arrive(now, A, B, out, first.length).first == TCPCORE_DONE);
    std::size_t length = b.emit(now, ack).length;
    CHECK(length == 20 && b.peek()->first.length == 1000 && b.consume(now, 400) == 400);
    now = *a.poll_at();
    CHECK(a.tick(now - 1us) == std::pair(std::optional<std::uint32_t>(), std::optional(now)));
    CHECK(!a.timeout(now - 1us) && a.timeout(now) == TCPCORE_TIMER_RETRANSMIT);
    CHECK(a.arrive(now, B, A, ack, length).first == TCPCORE_EMIT_FIRST);
    while (a.emit(now, out).length > 0) continue;
    CHECK(a.arrive(now, B, A, ack, length).first == TCPCORE_DONE && a.status().snd_una == 1001);
    b.acknowledge(now);
    CHECK(b.emit(now, out).length == 20);
    a.abort(now);
    CHECK(a.is_closed() && a.emit(now, out).length == 20 && !a.poll_at() && answer_of([&] { a.close(now); }) == TCPCORE_ENDED);
    // The reset isn't at RCV.NXT: an acknowledgement answers it, and to that the reset comes that is (RFC 9293, 3.10.7.4 and 3.10.7.1).
    CHECK(b.arrive(now, A, B, out, 20).second.rule == TCPCORE_RULE_RESET_ELSEWHERE && b.emit(now, ack).length == 20);
    CHECK(a.arrive(now, B, A, ack, 20).second.rule == TCPCORE_RULE_STRAY && a.emit(now, out).length == 20);
    CHECK(b.arrive(now, A, B, out, 20).first == TCPCORE_DONE && b.status().ending == TCPCORE_ENDING_RESET);
    tcpcore::connection moved = std::move(a);
    CHECK(moved.is_closed() && answer_of([&] { a.status(); }) == TCPCORE_NULL && answer_of([&] { a.peer(); }) == TCPCORE_NULL);
}

// A segment of somebody who knows the peer's address and port and this end's, without a checksum (RFC 9293, 3.1).
static std::vector<unsigned char> blind(std::uint32_t seq, std::uint32_t ack, std::string_view text)
{
    std::vector<unsigned char> segment = {0, 7, 0, 7};
    for (std::uint32_t number : {seq, ack})
        for (int shift = 24; shift >= 0; shift -= 8) segment.push_back(static_cast<unsigned char>(number >> shift));
    segment.insert(segment.end(), {5 << 4, 0x10, 4, 0, 0, 0, 0, 0});
    segment.insert(segment.end(), text.begin(), text.end());
    return segment;
}

// An acknowledgement more than the guard's reach behind SND.UNA comes with nothing that is taken (RFC 5961, 5.2); without a guard it does
// (RFC 9293, 3.10.7.4, fifth). What isn't vouched for is summed.
static void a_guard_keeps_out_what_is_blind()
{
    using namespace std::chrono_literals;
    tcpcore::connection::time now(5s);
    for (std::uint32_t guard : {std::uint32_t(TCPCORE_GUARD), std::uint32_t(0), TCPCORE_NO_GUARD}) {
        struct tcpcore_connection_rules rules = tcpcore::default_rules();
        CHECK(rules.guard == TCPCORE_GUARD);
        rules.guard = guard;
        tcpcore::connection a = tcpcore::connection::connect(config(A, 7), rules, B, 7, now);
        tcpcore::connection b = tcpcore::connection::listen(config(B, 7), rules, now);
        unsigned char out[TCPCORE_EMIT_ROOM];
        std::uint32_t seq = 0, una = 0;
        for (int turn = 0; turn < 2; turn++) {
            while (std::size_t length = a.emit(now, out).length) CHECK(b.arrive(now, A, B, out, length).first == TCPCORE_DONE);
            while (std::size_t length = b.emit(now, out).length) {
                for (int at = 0; at < 4; at++) seq = seq << 8 | out[4 + at], una = una << 8 | out[8 + at];
                CHECK(a.arrive(now, B, A, out, length).first == TCPCORE_DONE);
            }
        }
        auto old = blind(seq + 1, una - TCPCORE_GUARD - 1, "x"), edge = blind(seq + 1, una - TCPCORE_GUARD, "xy");
        CHECK(a.arrive(now, B, A, old.data(), old.size()).first == TCPCORE_BAD_CHECKSUM);
        std::uint32_t wanted = guard == TCPCORE_NO_GUARD ? TCPCORE_DONE : TCPCORE_DROPPED;
        CHECK(a.arrive_vouched(now, B, A, old.data(), old.size()).first == wanted);
        CHECK(a.arrive_vouched(now, B, A, edge.data(), edge.size()).first == TCPCORE_DONE && a.status().unread == 2);
    }
}

// Of two pairs of connections one's segments go out as one, for a device that cuts them and sums: the same text, and the same states and
// times. Segments of 1,000 bytes: two end within a window of 2,999.
static void a_connection_s_train()
{
    using namespace std::chrono_literals;
    tcpcore::connection::time now(5s);
    std::vector<tcpcore::connection> ends;
    unsigned char one[TCPCORE_EMIT_ROOM];
    for (int pair = 0; pair < 2; pair++) {
        ends.push_back(tcpcore::connection::connect(config(A, 7), tcpcore::default_rules(), B, 7, now));
        ends.push_back(tcpcore::connection::listen(config(B, 7), tcpcore::default_rules(), now));
        tcpcore::connection &a = ends[ends.size() - 2], &b = ends.back();
        for (int turn = 0; turn < 2; turn++) {
            while (std::size_t length = a.emit(now, one).length) CHECK(b.arrive(now, A, B, one, length).first == TCPCORE_DONE);
            while (std::size_t length = b.emit(now, one).length) CHECK(a.arrive(now, B, A, one, length).first == TCPCORE_DONE);
        }
    }
    std::string text(3500, 'y');
    for (std::size_t i = 0; i < text.size(); i++) text[i] = static_cast<char>(i * 7);
    CHECK(ends[0].send(now, text.data(), text.size()) == text.size() && ends[2].send(now, text.data(), text.size()) == text.size());
    std::vector<unsigned char> room(TCPCORE_TRAIN_ROOM);
    try {
        ends[2].emit_train(now, room.data(), TCPCORE_EMIT_ROOM - 1, 64);
        CHECK(false);
    } catch (const tcpcore::refused &found) {
        CHECK(found.answer == TCPCORE_ROOM);
    }
    struct tcpcore_train train = ends[2].emit_train(now, room.data(), room.size(), 64, 2999);
    CHECK(train.segments == 2 && train.each == 1000 && train.header == 20 && train.whole.count == 2000 && train.whole.position == 1);
    CHECK(train.whole.kind == TCPCORE_KIND_NEW_TEXT && train.whole.length == 2020 && std::memcmp(room.data() + 20, text.data(), 2000) == 0);
    for (std::size_t i = 0; i < 2; i++) {
        struct tcpcore_connection_segment it = ends[0].emit(now, one, 2999);
        CHECK(it.length == 1020 && it.position == 1 + 1000 * i && std::memcmp(one + 20, room.data() + 20 + 1000 * i, 1000) == 0);
    }
    CHECK(ends[0].emit(now, one, 2999).length == 0 && ends[2].emit_train(now, room.data(), room.size(), 64, 2999).segments == 0);
    struct tcpcore_status here = ends[0].status(), there = ends[2].status();
    CHECK(std::memcmp(&here, &there, sizeof here) == 0 && ends[0].poll_at() == ends[2].poll_at());
    CHECK(ends[3].arrive_vouched(now, A, B, room.data(), 2020).second.brought == TCPCORE_BROUGHT_IN_ORDER);
    train = ends[3].emit_train(now, room.data(), room.size(), 1);
    CHECK(train.segments == 1 && train.each == 0 && train.whole.kind == TCPCORE_KIND_ACKNOWLEDGEMENT && train.whole.length == 20);
}

// RFC 6298, 2.4 and 5.5: after a round trip of 0 the timer expires 1, 3 and 7 s after what is lost; RFC 9293, 3.8.3: a user timeout that is
// set later counts from then, too, and ends no connection before that.
static void a_user_timeout_is_set()
{
    using namespace std::chrono_literals;
    tcpcore::connection::time now(5s);
    struct tcpcore_connection_rules rules = tcpcore::default_rules();
    tcpcore::connection a = tcpcore::connection::connect(config(A, 7), rules, B, 7, now);
    tcpcore::connection b = tcpcore::connection::listen(config(B, 7), rules, now);
    unsigned char out[TCPCORE_EMIT_ROOM];
    for (int turn = 0; turn < 2; turn++) {
        while (std::size_t length = a.emit(now, out).length) CHECK(b.arrive(now, A, B, out, length).first == TCPCORE_DONE);
        while (std::size_t length = b.emit(now, out).length) CHECK(a.arrive(now, B, A, out, length).first == TCPCORE_DONE);
    }
    CHECK(a.send(now, "x", 1) == 1 && a.emit(now, out).length == 21);
    a.set_user_timeout(2s);
    for (auto after : {1s, 3s, 7s}) {
        CHECK(a.poll_at() == now + after && a.timeout(now + after) == TCPCORE_TIMER_RETRANSMIT);
        while (a.emit(now + after, out).length > 0) continue;
    }
    CHECK(a.poll_at() == now + 2s);
    a.set_user_timeout(std::nullopt);
    CHECK(a.poll_at() == now + 15s);
    a.set_user_timeout(9s);
    CHECK(!a.timeout(now + 9s - 1us) && a.timeout(now + 9s) == TCPCORE_TIMER_USER && a.status().ending == TCPCORE_ENDING_ABORTED);
}

// RFC 9293, 3.8.6.3: an acknowledgement of one segment waits 40 ms.
static void a_policy()
{
    using namespace std::chrono_literals;
    tcpcore::connection::time now(5s);
    tcpcore::connection a = tcpcore::connection::connect(config(A, 7), tcpcore::default_rules(), B, 7, now);
    tcpcore::connection b = tcpcore::connection::listen(config(B, 7), tcpcore::default_rules(), now);
    unsigned char out[TCPCORE_EMIT_ROOM];
    for (int turn = 0; turn < 2; turn++) {
        while (std::size_t length = a.emit(now, out).length) CHECK(b.arrive(now, A, B, out, length).first == TCPCORE_DONE);
        while (std::size_t length = b.emit(now, out).length) CHECK(a.arrive(now, B, A, out, length).first == TCPCORE_DONE);
    }
    b.set_policy(tcpcore::default_policy());
    CHECK(a.send(now, "x", 1) == 1);
    CHECK(b.arrive(now, A, B, out, a.emit(now, out).length).first == TCPCORE_DONE);
    CHECK(b.emit(now, out).length == 0 && b.poll_at() == now + 40ms);
    CHECK(b.emit(now + 40ms, out).length == 20);
}

// RFC 9293, 3.8.4: a silent peer is asked at SND.NXT - 1, and answers; one that doesn't is asked again behind each interval, and given up behind
// the last. By default none is asked.
static void keep_alives()
{
    using namespace std::chrono_literals;
    tcpcore::connection::time now(5s);
    tcpcore::connection a = tcpcore::connection::connect(config(A, 7), tcpcore::default_rules(), B, 7, now);
    tcpcore::connection b = tcpcore::connection::listen(config(B, 7), tcpcore::default_rules(), now);
    unsigned char out[TCPCORE_EMIT_ROOM];
    for (int turn = 0; turn < 2; turn++) {
        while (std::size_t length = a.emit(now, out).length) CHECK(b.arrive(now, A, B, out, length).first == TCPCORE_DONE);
        while (std::size_t length = b.emit(now, out).length) CHECK(a.arrive(now, B, A, out, length).first == TCPCORE_DONE);
    }
    CHECK(!a.poll_at());
    a.set_keep_alive(now, tcpcore::default_keep_alive());
    now += 2h;
    CHECK(a.poll_at() == now && !a.timeout(now - 1us) && a.emit(now - 1us, out).length == 0 && !a.timeout(now));
    struct tcpcore_connection_segment asked = a.emit(now, out);
    CHECK(asked.length == 20 && asked.position == 0 && asked.count == 0 && a.emit(now, out).length == 0);
    CHECK(b.arrive(now, A, B, out, 20).first == TCPCORE_DROPPED && b.emit(now, out).length == 20);
    CHECK(a.arrive(now, B, A, out, 20).first == TCPCORE_DONE && a.poll_at() == now + 2h);
    now += 2h;
    for (int turn = 0; turn < 9; turn++, now += 75s) CHECK(a.poll_at() == now && !a.timeout(now) && a.emit(now, out).length == 20);
    CHECK(a.timeout(now) == TCPCORE_TIMER_USER && a.status().ending == TCPCORE_ENDING_ABORTED && a.emit(now, out).length == 20);
    b.set_keep_alive(now, tcpcore::default_keep_alive());
    CHECK(b.poll_at() == now + 2h);
    b.set_keep_alive(now, {});
    CHECK(!b.poll_at());
}

// RFC 9002, 7.7: with a round trip of 100 ms and a window of 13 segments of 100 bytes 26 bytes a millisecond go out in slow start: ten segments
// in 38 6/13 ms. By default all goes out at once. The first window is ten segments (RFC 6928, 2), and one acknowledgement of each window adds
// another (RFC 5681, 3.1).
static void paced_text()
{
    using namespace std::chrono_literals;
    tcpcore::connection::time now(5s);
    tcpcore_config configs[2] = {config(A, 7), config(B, 7)};
    configs[0].mss = configs[1].mss = 100;
    tcpcore::connection a = tcpcore::connection::connect(configs[0], tcpcore::default_rules(), B, 7, now);
    tcpcore::connection b = tcpcore::connection::listen(configs[1], tcpcore::default_rules(), now);
    unsigned char out[TCPCORE_EMIT_ROOM], text[1300] = {};
    CHECK(a.set_congestion(TCPCORE_CONGESTION_CUBIC));
    CHECK(b.arrive(now, A, B, out, a.emit(now, out).length).first == TCPCORE_DONE);
    now += 100ms;
    CHECK(a.arrive(now, B, A, out, b.emit(now, out).length).first == TCPCORE_DONE);
    CHECK(b.arrive(now, A, B, out, a.emit(now, out).length).first == TCPCORE_DONE);
    auto sent = [&] {
        std::size_t count = 0;
        for (std::size_t length; (length = a.emit(now, out).length) > 0; count++)
            CHECK(b.arrive(now, A, B, out, length).first == TCPCORE_DONE);
        return count;
    };
    auto answered = [&] {
        now += 100ms;
        CHECK(a.arrive(now, B, A, out, b.emit(now, out).length).first == TCPCORE_DONE);
    };
    CHECK(a.send(now, text, 1000) == 1000 && sent() == 10);
    answered();
    CHECK(a.send(now, text, 1100) == 1100 && sent() == 11);
    answered();
    a.set_pacing(true);
    CHECK(a.send(now, text, 1200) == 1200 && sent() == 10);
    a.set_pacing(false);
    CHECK(sent() == 2);
    answered();
    a.set_pacing(true);
    CHECK(a.send(now, text, 1300) == 1300 && sent() == 10 && a.poll_at() == now + 38462us);
    now += 38461us;
    CHECK(sent() == 0 && !a.timeout(now));
    now += 1us;
    CHECK(a.poll_at() == now && !a.timeout(now) && sent() == 3);
}

// RFC 8985, 7.2: with a round trip of 100 ms the end of what was sent goes out again behind two of them, and the peer's delay of 200 ms behind
// a single segment; no timer expires. A connection that was moved has its recovery with it.
static void losses_by_time()
{
    using namespace std::chrono_literals;
    tcpcore::connection::time now(5s);
    tcpcore::connection made = tcpcore::connection::connect(config(A, 7), tcpcore::default_rules(), B, 7, now);
    tcpcore::connection b = tcpcore::connection::listen(config(B, 7), tcpcore::default_rules(), now);
    CHECK(made.set_recovery(now));
    tcpcore::connection a = std::move(made);
    try {
        a.set_recovery(now);
        CHECK(false);
    } catch (const tcpcore::refused &found) {
        CHECK(found.answer == TCPCORE_IN_USE);
    }
    unsigned char out[TCPCORE_EMIT_ROOM];
    CHECK(b.arrive(now, A, B, out, a.emit(now, out).length).first == TCPCORE_DONE);
    now += 100ms;
    CHECK(a.arrive(now, B, A, out, b.emit(now, out).length).first == TCPCORE_DONE);
    CHECK(b.arrive(now, A, B, out, a.emit(now, out).length).first == TCPCORE_DONE);
    CHECK(a.send(now, "x", 1) == 1 && a.emit(now, out).length == 21 && a.poll_at() == now + 400ms);
    CHECK(a.emit(now + 400ms - 1us, out).length == 0);
    struct tcpcore_connection_segment again = a.emit(now + 400ms, out);
    CHECK(again.length == 21 && again.position == 1 && a.emit(now + 400ms, out).length == 0);
    CHECK(!a.timeout(now + 400ms) && a.poll_at() > now + 400ms);
    CHECK(b.send(now, "x", 1) == 1 && b.emit(now, out).length == 21 && !b.set_recovery(now));
}

// RFC 6928, 2: of segments of 1,000 bytes ten go out at first, of 536 before both SYNs have agreed on them (RFC 9293, 3.7.1). RFC 9438, 4.8,
// and RFC 5681, 3.1: after a timeout ssthresh is 0.7 of the 4,000 bytes in flight, and half of them, and the window a segment.
static void a_congestion_window()
{
    using namespace std::chrono_literals;
    constexpr std::uint64_t greatest = std::uint64_t(1) << 40;
    for (std::uint32_t which : {TCPCORE_CONGESTION_RENO, TCPCORE_CONGESTION_CUBIC}) {
        tcpcore::connection::time now(5s);
        tcpcore::connection a = tcpcore::connection::connect(config(A, 7), tcpcore::default_rules(), B, 7, now);
        tcpcore::connection b = tcpcore::connection::listen(config(B, 7), tcpcore::default_rules(), now);
        struct tcpcore_congestion it = a.congestion();
        CHECK(it.congestion == TCPCORE_CONGESTION_NONE && it.cwnd == greatest && it.ssthresh == greatest && it.smss == 0);
        CHECK(a.set_congestion(which) && a.congestion().cwnd == 5360 && a.congestion().smss == 536);
        unsigned char out[TCPCORE_EMIT_ROOM];
        for (int turn = 0; turn < 2; turn++) {
            while (std::size_t length = a.emit(now, out).length) CHECK(b.arrive(now, A, B, out, length).first == TCPCORE_DONE);
            while (std::size_t length = b.emit(now, out).length) CHECK(a.arrive(now, B, A, out, length).first == TCPCORE_DONE);
        }
        it = a.congestion();
        CHECK(it.congestion == which && it.cwnd == 10000 && it.ssthresh == greatest && it.smss == 1000 && it.is_recovering == 0);
        CHECK(a.send(now, std::string(4000, 'x').data(), 4000) == 4000);
        for (int i = 0; i < 4; i++) CHECK(a.emit(now, out).length == 1020);
        CHECK(!a.set_congestion(TCPCORE_CONGESTION_NONE) && a.congestion().congestion == which);
        try {
            a.set_congestion(3);
            CHECK(false);
        } catch (const tcpcore::refused &found) {
            CHECK(found.answer == TCPCORE_BAD_RULES);
        }
        CHECK(a.timeout(now + 1s) == TCPCORE_TIMER_RETRANSMIT);
        it = a.congestion();
        CHECK(it.cwnd == 1000 && it.ssthresh == (which == TCPCORE_CONGESTION_RENO ? 2000 : 2800));
        CHECK(a.emit(now + 1s, out).length == 1020 && a.emit(now + 1s, out).length == 0);
    }
}

int main()
{
    std::vector<tcpcore::end> ends;
    for (int i = 0; i < 2; i++)
        ends.emplace_back(config(i ? B : A, 7));
    tcpcore::end a = std::move(ends[0]), b = std::move(ends[1]);
    b.listen();
    a.connect(B, 7);
    std::string text(100000, 'x'), got;
    for (std::size_t i = 0; i < text.size(); i++)
        text[i] = static_cast<char>(i * 7);
    std::size_t sent = 0;
    for (bool ended = false; !ended;) {
        if (a.status().phase == TCPCORE_PHASE_ESTABLISHED && sent < text.size()) {
            sent += a.send(text.data() + sent, text.size() - sent);
            if (sent == text.size())
                a.close();
        }
        if (carry(a, A, b) + carry(b, B, a) == 0)
            for (std::uint32_t timer = 0; timer < 2; timer++)
                a.timer(timer), b.timer(timer);
        char out[3000];
        for (std::optional<std::size_t> count; (count = b.receive(out, sizeof out)) != std::size_t(0); got.append(out, *count))
            if (!count) { ended = true; break; }
    }
    CHECK(got == text);
    CHECK(a.arrive(B, A, "x", 1).first == TCPCORE_TOO_SHORT);
    try {
        tcpcore_config bad = config(A, 1);
        bad.mss = 1;
        tcpcore::end refused(bad);
        CHECK(false);
    } catch (const tcpcore::refused &found) {
        CHECK(found.answer == TCPCORE_BAD_MSS && std::string(found.what()) == tcpcore_strerror(TCPCORE_BAD_MSS));
    }
    try {
        tcpcore_config bad = config(A, 1);
        bad.runs = TCPCORE_MAX_RUNS + 1;
        tcpcore::end refused(bad);
        CHECK(false);
    } catch (const tcpcore::refused &found) {
        CHECK(found.answer == TCPCORE_BAD_RUNS);
    }
    try {
        a.listen();
        CHECK(false);
    } catch (const tcpcore::refused &found) {
        CHECK(found.answer == TCPCORE_ALREADY_OPEN);
    }
    beside();
    pacing();
    train();
    moved_from();
    defaults();
    over_a_lossy_link();
    a_connection_refuses();
    a_connection_s_train();
    a_congestion_window();
    a_policy();
    keep_alives();
    paced_text();
    losses_by_time();
    a_user_timeout_is_set();
    a_guard_keeps_out_what_is_blind();
    CHECK(tcpcore::build().find("machine code") != std::string_view::npos || tcpcore::build().find("portable C") == 0);
    a = tcpcore::end(config(A, 9));
    CHECK(a.status().phase == TCPCORE_PHASE_CLOSED);
    std::printf("cpp: %d checks\n", checks);
}
