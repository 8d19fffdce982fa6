// tcpcore.hpp: tcpcore.h for C++17. A connection keeps its own times, an end leaves them to its caller. Both own their memory, can be
// moved, and are freed with their object. What a call refuses is thrown; so is each call of an object that was moved from. One thread at a
// time uses an object: where threads share one, they hold a lock around each call.
#ifndef TCPCORE_HPP
#define TCPCORE_HPP

#include "tcpcore.h"

#include <chrono>
#include <memory>
#include <new>
#include <optional>
#include <stdexcept>
#include <string_view>
#include <utility>

namespace tcpcore {

// A call was refused; what() is the library's text.
struct refused : std::runtime_error {
    std::uint32_t answer;
    explicit refused(std::uint32_t found) : std::runtime_error(tcpcore_strerror(found)), answer(found) {}
};

// What code the library is, such as "x86-64-v2 machine code" or "portable C".
inline std::string_view build() noexcept { return tcpcore_build(); }

// The config of TCPCORE_CONFIG_DEFAULT with these fields, which have no default.
inline tcpcore_config default_config(tcpcore_addr addr, std::uint16_t port, std::uint32_t isn)
{
    tcpcore_config config = TCPCORE_CONFIG_DEFAULT;
    config.addr = addr, config.port = port, config.isn = isn;
    return config;
}

// The least window shift with which all of a receive capacity can be advertised; `scales` is set where it is above 0. With a greater one
// the window is 0 while fewer than 2^shift bytes are free.
constexpr std::uint8_t least_shift(std::uint64_t receive) { return TCPCORE_LEAST_SHIFT(receive); }

// The rules of the standards: TCPCORE_CONNECTION_RULES_DEFAULT.
inline struct tcpcore_connection_rules default_rules() { return TCPCORE_CONNECTION_RULES_DEFAULT; }

// Common values: TCPCORE_POLICY_DEFAULT.
inline struct tcpcore_policy default_policy() { return TCPCORE_POLICY_DEFAULT; }

// Usual keep-alives: TCPCORE_KEEP_ALIVE_DEFAULT.
inline struct tcpcore_keep_alive default_keep_alive() { return TCPCORE_KEEP_ALIVE_DEFAULT; }

namespace detail {

// Throws what a call refused.
inline void done(std::uint32_t answer) { if (answer != TCPCORE_DONE) throw refused(answer); }
// Whether a call found something: nothing is due, or no rule applies, where it didn't.
inline bool found(std::uint32_t answer)
{
    if (answer != TCPCORE_NOT_DUE && answer != TCPCORE_NO_RULE) done(answer);
    return answer == TCPCORE_DONE;
}
// What became of a segment, where there is something to take it.
inline std::uint32_t taken_by(std::uint32_t answer)
{
    if (answer >= TCPCORE_NO_END && answer < TCPCORE_NOTHING) throw refused(answer);
    return answer;
}
// What was read, where the stream hasn't ended.
template <typename Read> std::optional<Read> read_by(std::uint32_t answer, const Read &read)
{
    if (answer == TCPCORE_END_OF_STREAM) return std::nullopt;
    if (answer != TCPCORE_NOTHING) done(answer);
    return read;
}

}

class end {
    // The C struct lies in its block; the object that holds both may move. One that was moved from can only be assigned or destroyed.
    // The end is freed before its block.
    struct owner {
        std::unique_ptr<unsigned char[]> block;
        void operator()(tcpcore_end *raw) const { tcpcore_free(raw); }
    };
    std::unique_ptr<tcpcore_end, owner> held;

    static void done(std::uint32_t answer) { detail::done(answer); }
    static bool found(std::uint32_t answer) { return detail::found(answer); }
    static std::uint32_t taken_by(std::uint32_t answer) { return detail::taken_by(answer); }

public:
    explicit end(const tcpcore_config &config)
    {
        std::size_t room = tcpcore_room(&config) + TCPCORE_STRUCT_ROOM;
        std::unique_ptr<unsigned char[]> block(new unsigned char[room]);
        tcpcore_end *made;
        done(tcpcore_new_at(&made, &config, block.get(), room));
        held = {made, owner{std::move(block)}};
    }

    void connect(tcpcore_addr addr, std::uint16_t port) { done(tcpcore_connect(raw(), addr, port)); }
    void listen() { done(tcpcore_listen(raw())); }
    void close() { done(tcpcore_close(raw())); }
    void abort() { done(tcpcore_abort(raw())); }
    void acknowledge() { done(tcpcore_acknowledge(raw())); }

    // How many bytes were taken.
    std::size_t send(const void *text, std::size_t length)
    {
        std::size_t taken;
        return done(tcpcore_send(raw(), text, length, &taken)), taken;
    }
    // How many bytes were handed over, 0 where there are none yet; nothing at the end of the stream.
    std::optional<std::size_t> receive(void *out, std::size_t room)
    {
        std::size_t count;
        std::uint32_t answer = tcpcore_receive(raw(), out, room, &count);
        return detail::read_by(answer, count);
    }
    // The unread bytes where they lie, until the next call that changes the end; nothing at the end of the stream.
    std::optional<struct tcpcore_lent> peek() const
    {
        struct tcpcore_lent lent;
        std::uint32_t answer = tcpcore_peek(raw(), &lent);
        return detail::read_by(answer, lent);
    }
    // How many of them were taken away.
    std::size_t consume(std::size_t count)
    {
        std::size_t taken;
        return done(tcpcore_consume(raw(), count, &taken)), taken;
    }
    // The length of the segment that was due, 0 where none was.
    std::size_t emit(unsigned char (&out)[TCPCORE_EMIT_ROOM], tcpcore_addr &to)
    {
        std::size_t length;
        return found(tcpcore_emit(raw(), out, sizeof out, &to, &length)), length;
    }
    // The length of the acknowledgement that was pending, alone, though data is due; 0 where none goes out before that.
    std::size_t emit_acknowledgement(unsigned char (&out)[TCPCORE_EMIT_ROOM], tcpcore_addr &to)
    {
        std::size_t length;
        return found(tcpcore_emit_acknowledgement(raw(), out, sizeof out, &to, &length)), length;
    }
    // Of what is in flight as much as one segment carries must be sent again, the first segment: whether anything is.
    bool resend_first() { return found(tcpcore_resend_first(raw())); }
    bool resend(std::uint64_t from, std::uint64_t to) { return found(tcpcore_resend(raw(), from, to)); }
    // As emit, with a report: its length is 0 where none was.
    struct tcpcore_transmit transmit(unsigned char (&out)[TCPCORE_EMIT_ROOM])
    {
        struct tcpcore_transmit reported;
        return found(tcpcore_transmit(raw(), out, sizeof out, &reported)), reported;
    }
    // As emit, for a device that sums: the checksum field has the sum of the pseudo-header alone.
    std::size_t emit_partial(unsigned char (&out)[TCPCORE_EMIT_ROOM], tcpcore_addr &to)
    {
        std::size_t length;
        return found(tcpcore_emit_partial(raw(), out, sizeof out, &to, &length)), length;
    }
    // As many segments of new text as one as the peer's window allows, at most `most`, for a device that cuts them and sums; anything
    // else goes alone. `segments` is 0 where none was due.
    struct tcpcore_train emit_train(void *out, std::size_t room, std::size_t most)
    {
        struct tcpcore_train reported;
        return found(tcpcore_emit_train(raw(), out, room, most, &reported)), reported;
    }
    // What became of the segment: DONE, DROPPED, NOT_MINE, or why it is none; and whether it has to be answered at once.
    std::pair<std::uint32_t, bool> arrive(tcpcore_addr src, tcpcore_addr dst, const void *segment, std::size_t length)
    {
        std::uint32_t at_once, answer = taken_by(tcpcore_arrive_with_at_once(raw(), src, dst, segment, length, &at_once));
        return {answer, at_once == 1};
    }
    // The same, with a report.
    std::pair<std::uint32_t, struct tcpcore_arrive_report> arrive_with_report(tcpcore_addr src, tcpcore_addr dst, const void *segment, std::size_t length)
    {
        struct tcpcore_arrive_report reported;
        std::uint32_t answer = taken_by(tcpcore_arrive_with_report(raw(), src, dst, segment, length, &reported));
        return {answer, reported};
    }
    // The same of a segment whose checksum a device has found right: it isn't summed again.
    std::pair<std::uint32_t, struct tcpcore_arrive_report> arrive_vouched_with_report(tcpcore_addr src, tcpcore_addr dst, const void *segment,
                                                                 std::size_t length)
    {
        struct tcpcore_arrive_report reported;
        std::uint32_t answer = taken_by(tcpcore_arrive_vouched_with_report(raw(), src, dst, segment, length, &reported));
        return {answer, reported};
    }
    // The same past a guard, and summed or not, as `intake` says: {} is with a guard of TCPCORE_GUARD, and summed.
    std::pair<std::uint32_t, struct tcpcore_arrive_report> arrive_by(tcpcore_addr src, tcpcore_addr dst, const void *segment, std::size_t length,
                                                                     const struct tcpcore_intake &intake)
    {
        struct tcpcore_arrive_report reported;
        std::uint32_t answer = taken_by(tcpcore_arrive_by(raw(), src, dst, segment, length, &intake, &reported));
        return {answer, reported};
    }
    bool timer(std::uint32_t timer) { return found(tcpcore_timer(raw(), timer)); }
    struct tcpcore_status status() const
    {
        struct tcpcore_status reported;
        return done(tcpcore_status(raw(), &reported)), reported;
    }
    // For the calls of tcpcore.h that aren't here.
    tcpcore_end *raw() const { return held.get(); }
};

// A connection: an end with its clock, which tcpcore.h describes under CONNECTIONS. It reads no clock: each call that depends on the time
// is given it, and a time before that of an earlier call counts as that, but for keep-alives and pacing, which go by the times as they are.
//
//     1. emit until nothing is due, and send each segment. In CLOSED the connection is over then.
//     2. Wait for a segment, or until poll_at.
//     3. arrive for each one that came, and then timeout.
//     4. send, receive and close as the user wants. Go on with 1.
class connection {
    // As of an end. A connection's struct lies at the front of its block.
    struct owner {
        std::unique_ptr<unsigned char[]> block, recovery;
        void operator()(tcpcore_connection *raw) const { tcpcore_connection_free(raw); }
    };
    std::unique_ptr<tcpcore_connection, owner> held;

    static constexpr std::size_t front = sizeof(tcpcore_connection);

    // Makes one by `open`, which is given its struct and the block for the rest.
    template <typename Open> connection(const tcpcore_config &config, Open open)
    {
        std::size_t room = tcpcore_connection_room(&config);
        std::unique_ptr<unsigned char[]> block(new unsigned char[front + room]);
        auto *made = new (block.get()) tcpcore_connection TCPCORE_CONNECTION_INIT;
        detail::done(open(made, block.get() + front, room));
        held = {made, owner{std::move(block), nullptr}};
    }

public:
    // A time, of std::chrono::steady_clock, or of another clock that the caller has: all times of a connection have one beginning.
    using time = std::chrono::steady_clock::time_point;

private:
    static std::uint64_t micros(time at)
    {
        auto count = std::chrono::duration_cast<std::chrono::microseconds>(at.time_since_epoch()).count();
        return count < 0 ? 0 : static_cast<std::uint64_t>(count);
    }
    // TCPCORE_NEVER is none, and a time that `time` can't tell the last one.
    static std::optional<time> time_of(std::uint64_t at)
    {
        if (at == TCPCORE_NEVER) return std::nullopt;
        auto last = std::chrono::duration_cast<std::chrono::microseconds>(time::max().time_since_epoch()).count();
        return time(std::chrono::microseconds(at < static_cast<std::uint64_t>(last) ? static_cast<decltype(last)>(at) : last));
    }

public:
    // Opens a connection to this address and port: the SYN is due.
    static connection connect(const tcpcore_config &config, const struct tcpcore_connection_rules &rules, tcpcore_addr addr,
                              std::uint16_t port, time now)
    {
        return {config, [&](tcpcore_connection *made, void *block, std::size_t room) {
            return tcpcore_connection_connect(made, &config, &rules, addr, port, micros(now), block, room);
        }};
    }
    // Waits for one peer.
    static connection listen(const tcpcore_config &config, const struct tcpcore_connection_rules &rules, time now)
    {
        return {config, [&](tcpcore_connection *made, void *block, std::size_t room) {
            return tcpcore_connection_listen(made, &config, &rules, micros(now), block, room);
        }};
    }

    // What became of the segment, DONE, DROPPED, NOT_MINE, WITHHELD, or why it is none, and a report. EMIT_FIRST: a timer has expired, and
    // what was due then has to go out first: emit until nothing is due, and hand the segment in again. Who calls arrive before timeout, or
    // emits all that is due behind it, never meets that.
    [[nodiscard]] std::pair<std::uint32_t, struct tcpcore_arrive_report> arrive(time now, tcpcore_addr src, tcpcore_addr dst,
                                                                               const void *segment, std::size_t length)
    {
        struct tcpcore_arrive_report reported;
        std::uint32_t answer = tcpcore_connection_arrive(raw(), micros(now), src, dst, segment, length, &reported);
        return {detail::taken_by(answer), reported};
    }
    // The same of a segment whose checksum a device has found right: it isn't summed.
    [[nodiscard]] std::pair<std::uint32_t, struct tcpcore_arrive_report> arrive_vouched(time now, tcpcore_addr src, tcpcore_addr dst,
                                                                                       const void *segment, std::size_t length)
    {
        struct tcpcore_arrive_report reported;
        std::uint32_t answer = tcpcore_connection_arrive_vouched(raw(), micros(now), src, dst, segment, length, &reported);
        return {detail::taken_by(answer), reported};
    }
    // Writes the segment that is due, if one is: its length is 0 where none was. What ends more than `window` numbers past SND.UNA waits,
    // unless nothing before it is in flight.
    struct tcpcore_connection_segment emit(time now, unsigned char (&out)[TCPCORE_EMIT_ROOM], std::uint64_t window = UINT64_MAX)
    {
        struct tcpcore_connection_segment reported;
        return detail::found(tcpcore_connection_emit(raw(), micros(now), window, out, sizeof out, &reported)), reported;
    }
    // The segments that may go out as one, for a device that cuts them and sums: as many of new text as end within `window`, as emit has it,
    // at most `most`; anything else goes alone. With a `most` of 1 it is one segment for a device that sums. `segments` is 0 where none was.
    struct tcpcore_train emit_train(time now, void *out, std::size_t room, std::size_t most, std::uint64_t window = UINT64_MAX)
    {
        struct tcpcore_train reported;
        return detail::found(tcpcore_connection_emit_train(raw(), micros(now), window, out, room, most, &reported)), reported;
    }
    // When timeout has to be called, or what waits is to be emitted, if nothing else happens before; nothing where no timer runs and nothing
    // waits.
    std::optional<time> poll_at() const
    {
        std::uint64_t at;
        detail::done(tcpcore_connection_poll_at(raw(), &at));
        return time_of(at);
    }
    // It is `now`: the timer that has expired, if one has, whose rule was applied. Then emit until nothing is due.
    std::optional<std::uint32_t> timeout(time now)
    {
        std::uint32_t timer;
        if (!detail::found(tcpcore_connection_timeout(raw(), micros(now), &timer))) return std::nullopt;
        return timer;
    }

    // timeout and then poll_at in one call, for a caller who has emitted all that was due: the timer, and when to call next.
    std::pair<std::optional<std::uint32_t>, std::optional<time>> tick(time now)
    {
        std::uint32_t timer;
        std::uint64_t next;
        bool has_expired = detail::found(tcpcore_connection_tick(raw(), micros(now), &timer, &next));
        return {has_expired ? std::optional<std::uint32_t>(timer) : std::nullopt, time_of(next)};
    }

    // As of an end.
    std::size_t send(time now, const void *text, std::size_t length)
    {
        std::size_t taken;
        return detail::done(tcpcore_connection_send(raw(), micros(now), text, length, &taken)), taken;
    }
    std::optional<std::size_t> receive(time now, void *out, std::size_t room)
    {
        std::size_t count;
        std::uint32_t answer = tcpcore_connection_receive(raw(), micros(now), out, room, &count);
        return detail::read_by(answer, count);
    }
    std::optional<struct tcpcore_lent> peek() const
    {
        struct tcpcore_lent lent;
        std::uint32_t answer = tcpcore_connection_peek(raw(), &lent);
        return detail::read_by(answer, lent);
    }
    std::size_t consume(time now, std::size_t count)
    {
        std::size_t taken;
        return detail::done(tcpcore_connection_consume(raw(), micros(now), count, &taken)), taken;
    }
    void acknowledge(time now) { detail::done(tcpcore_connection_acknowledge(raw(), micros(now))); }
    void close(time now) { detail::done(tcpcore_connection_close(raw(), micros(now))); }
    void abort(time now) { detail::done(tcpcore_connection_abort(raw(), micros(now))); }
    bool resend_first(time now) { return detail::found(tcpcore_connection_resend_first(raw(), micros(now))); }
    // Whether anything in flight lies between these positions: then that must be sent again at once, and nothing else.
    bool resend(time now, std::uint64_t from, std::uint64_t to)
    {
        return detail::found(tcpcore_connection_resend(raw(), micros(now), from, to));
    }
    // Sets the user timeout in the place of `user` of the rules; without one it is forever. The time that has passed already counts, so that
    // poll_at may be another then.
    void set_user_timeout(std::optional<std::chrono::microseconds> limit)
    {
        std::uint64_t wanted = !limit ? TCPCORE_NEVER : limit->count() < 0 ? 0 : static_cast<std::uint64_t>(limit->count());
        detail::done(tcpcore_connection_set_user_timeout(raw(), wanted));
    }
    // Chooses the congestion window, TCPCORE_CONGESTION_NONE to TCPCORE_CONGESTION_CUBIC; false where text was sent already.
    bool set_congestion(std::uint32_t congestion) { return detail::found(tcpcore_connection_set_congestion(raw(), congestion)); }
    struct tcpcore_congestion congestion() const
    {
        struct tcpcore_congestion reported;
        return detail::done(tcpcore_connection_congestion(raw(), &reported)), reported;
    }
    // Chooses when an acknowledgement and a small segment go out: at once where this isn't called.
    void set_policy(const struct tcpcore_policy &policy) { detail::done(tcpcore_connection_set_policy(raw(), &policy)); }
    // From `now` on losses are found by time, and the end of what is sent is probed (RFC 8985), where both SYNs agree on selective
    // acknowledgement; else silence alone is probed, by the first two segments in flight. It takes TCPCORE_RECOVERY_MEMORY bytes of its
    // own. False where text or a FIN was sent already; a second call is refused (TCPCORE_IN_USE).
    bool set_recovery(time now)
    {
        std::unique_ptr<unsigned char[]> memory(new unsigned char[TCPCORE_RECOVERY_MEMORY]);
        if (!detail::found(tcpcore_connection_set_recovery(raw(), micros(now), memory.get(), TCPCORE_RECOVERY_MEMORY))) return false;
        held.get_deleter().recovery = std::move(memory);
        return true;
    }
    // From `now` on the peer is asked by these rules where nothing is heard of it (RFC 9293, 3.8.4), and the connection is aborted where it
    // doesn't answer: timeout reports TCPCORE_TIMER_USER then. Never where this isn't called, and with an `idle` of 0.
    void set_keep_alive(time now, const struct tcpcore_keep_alive &rules)
    {
        detail::done(tcpcore_connection_set_keep_alive(raw(), micros(now), &rules));
    }
    // Has new text go out spread over a round trip, in portions (RFC 9002, 7.7), or at once, as a connection begins. Where text waits for its
    // portion poll_at is when the next one begins: emit then, by a fine timer.
    void set_pacing(bool is_paced) { detail::done(tcpcore_connection_set_pacing(raw(), is_paced)); }
    // The peer's address and port, once they are known.
    std::optional<std::pair<tcpcore_addr, std::uint16_t>> peer() const
    {
        tcpcore_addr addr;
        std::uint16_t port;
        std::uint32_t answer = tcpcore_connection_peer(raw(), &addr, &port);
        if (answer == TCPCORE_NOT_CONNECTED) return std::nullopt;
        return detail::done(answer), std::pair(addr, port);
    }
    struct tcpcore_status status() const
    {
        struct tcpcore_status reported;
        return detail::done(tcpcore_connection_status(raw(), &reported)), reported;
    }
    // Whether it is in CLOSED: `ending` of status says how it ended. A reset that is due still goes out by emit.
    bool is_closed() const { return status().phase == TCPCORE_PHASE_CLOSED; }
    // For the calls of tcpcore.h that aren't here.
    tcpcore_connection *raw() const { return held.get(); }
};

}

#endif
