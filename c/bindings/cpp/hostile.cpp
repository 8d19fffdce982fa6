// Connections of tcpcore.hpp under hostile calls, drawn from a seed: any call, in any order and at any time, of objects that were moved
// from, too; segments that were damaged, cut or come from elsewhere; configs and rules out of their ranges. A call throws `refused` alone,
// and by an answer that the header has for it: of a connection that is there never that there is none. 'hostile SEED CALLS' makes so many;
// without words it makes 20,000.
#include "tcpcore.hpp"

#include <algorithm>
#include <cstdio>
#include <cstdlib>
#include <cstring>
#include <random>
#include <vector>

namespace {

constexpr tcpcore_addr addrs[3] = {{{10, 0, 0, 1}}, {{10, 0, 0, 2}}, {{0, 0, 0, 0}}};
std::mt19937_64 drawn;

std::uint64_t any(std::uint64_t bound) { return drawn() % bound; }
bool rarely() { return any(60) == 0; }

void check(bool holds, const char *what)
{
    if (holds) return;
    std::printf("hostile: %s\n", what);
    std::exit(1);
}

struct hostile {
    std::optional<tcpcore::connection> ends[2];
    std::vector<std::vector<unsigned char>> seen;
    std::vector<unsigned char> large = std::vector<unsigned char>(TCPCORE_TRAIN_ROOM);
    std::uint64_t micros = 0, refusals = 0, moved = 0;
    bool is_making = false;

    tcpcore::connection::time now() const
    {
        return tcpcore::connection::time(std::chrono::microseconds(static_cast<std::int64_t>(any(20) == 0 ? any(micros + 1) : micros)));
    }

    void make(std::size_t side)
    {
        auto config = tcpcore::default_config(addrs[rarely() ? 2 : side], static_cast<std::uint16_t>(rarely() ? 0 : 1 + side), static_cast<std::uint32_t>(drawn()));
        config.mss = static_cast<std::uint16_t>(rarely() ? any(100) : 64 + any(1397));
        config.send_capacity = rarely() ? 0 : 1 + any(6000), config.recv_capacity = rarely() ? 2000000 : 1 + any(6000);
        config.scales = static_cast<std::uint8_t>(any(2)), config.window_shift = static_cast<std::uint8_t>(any(16));
        config.runs = static_cast<std::uint16_t>(any(rarely() ? 65536 : 9));
        auto rules = tcpcore::default_rules();
        rules.least = rarely() ? 0 : 1 + any(2000000), rules.user = any(2) ? TCPCORE_NEVER : any(1u << 31);
        rules.guard = any(3) ? TCPCORE_GUARD : any(2) ? TCPCORE_NO_GUARD : static_cast<std::uint32_t>(any(5000));
        ends[side].reset();
        ends[side] = any(2) ? tcpcore::connection::listen(config, rules, now())
                            : tcpcore::connection::connect(config, rules, addrs[1 - side], static_cast<std::uint16_t>(2 - side), now());
        if (any(3)) check(ends[side]->set_recovery(now()), "nothing was sent yet");
    }

    void arrive(tcpcore::connection &it, std::size_t side)
    {
        std::vector<unsigned char> bytes(any(80));
        if (!seen.empty() && any(10) > 0) bytes = seen[seen.size() - 1 - any(std::min<std::size_t>(seen.size(), 8))];
        if (any(6) == 0 && !bytes.empty()) bytes[any(bytes.size())] ^= static_cast<unsigned char>(1 << any(8));
        if (rarely()) bytes.resize(any(70000));
        std::size_t from = rarely() ? any(3) : 1 - side, to = rarely() ? any(3) : side;
        auto [answer, report] = any(4) ? it.arrive(now(), addrs[from], addrs[to], bytes.data(), bytes.size())
                                       : it.arrive_vouched(now(), addrs[from], addrs[to], bytes.data(), bytes.size());
        check(answer <= TCPCORE_BAD_PADDING || (answer >= TCPCORE_DROPPED && answer <= TCPCORE_WITHHELD), "arrive answers what it may");
        check(answer == TCPCORE_DONE || answer == TCPCORE_DROPPED || report.acked == 0, "nothing is acknowledged by what isn't taken");
    }

    // Losses are found by time from now on, where no text was sent, once.
    void recovers(tcpcore::connection &it)
    {
        try {
            it.set_recovery(now());
        } catch (const tcpcore::refused &found) {
            if (found.answer != TCPCORE_IN_USE) throw;
        }
    }

    void call(tcpcore::connection &it, std::size_t side)
    {
        unsigned char out[TCPCORE_EMIT_ROOM], text[5000] = {};
        std::size_t length = any(sizeof text);
        switch (any(14)) {
        case 0: case 1: case 2:
            arrive(it, side);
            break;
        case 3: case 4: case 5: {
            if (any(6) == 0) {
                std::size_t most = any(9);
                auto train = it.emit_train(now(), large.data(), large.size(), most, any(3) == 0 ? any(5000) : UINT64_MAX);
                check(train.segments <= std::max<std::size_t>(most, 1) && train.whole.length == train.header + train.whole.count, "a train is what was asked for");
                break;
            }
            auto sent = it.emit(now(), out, any(3) == 0 ? any(5000) : UINT64_MAX);
            check(sent.length <= sizeof out, "a segment has room");
            if (sent.length > 0) seen.emplace_back(out, out + sent.length);
            break;
        }
        case 6:
            check(it.send(now(), text, length) <= length, "no more is sent than was given");
            break;
        case 7:
            check(it.receive(now(), text, length).value_or(0) <= length, "no more is read than there is room");
            break;
        case 8:
            if (auto lent = it.peek()) check(it.consume(now(), length) == std::min(length, lent->first.length + lent->second.length), "what is lent can be consumed");
            break;
        case 9: {
            auto at = it.poll_at();
            if (at && any(2)) micros = std::max<std::uint64_t>(micros, std::chrono::duration_cast<std::chrono::microseconds>(at->time_since_epoch()).count());
            check((any(2) ? it.timeout(now()) : it.tick(now()).first).value_or(0) <= TCPCORE_TIMER_USER, "a timer is one of four");
            break;
        }
        case 10:
            it.acknowledge(now());
            break;
        case 11: {
            const auto peer = it.peer();
            auto is_peer = [&](const tcpcore_addr &addr) { return std::memcmp(&addr, &peer->first, sizeof addr) == 0; };
            check(!peer || std::any_of(addrs, addrs + 3, is_peer), "a peer is one that a segment came from");
            break;
        }
        case 12:
            if (any(2))
                any(2) ? it.resend_first(now()) : it.resend(now(), drawn() % 4000, drawn() % 4000);
            else if (any(2))
                it.set_congestion(static_cast<std::uint32_t>(any(3))), check(it.congestion().cwnd >= it.congestion().smss, "a window has a segment");
            else if (any(2))
                it.set_policy(any(2) ? tcpcore::default_policy() : tcpcore_policy{drawn(), drawn(), drawn(), static_cast<std::uint32_t>(any(2)), {}});
            else if (any(2))
                recovers(it);
            else if (any(3) == 0)
                it.set_keep_alive(now(), any(2) ? tcpcore::default_keep_alive()
                                                : tcpcore_keep_alive{drawn() % 3000000, drawn() % 3000000, static_cast<std::uint32_t>(any(4)), {}});
            else if (any(3) == 0)
                it.set_pacing(any(2));
            else if (any(2))
                it.set_user_timeout(std::nullopt);
            else
                it.set_user_timeout(std::chrono::microseconds(static_cast<std::int64_t>(drawn())));
            break;
        default:
            any(12) == 0 ? it.abort(now()) : any(4) == 0 ? it.close(now()) : it.acknowledge(now());
        }
        auto s = it.status();
        check(s.unread <= s.ordered && s.in_flight <= s.queued && s.snd_una <= s.snd_nxt, "a status can be");
        if (it.is_closed() && any(10) == 0) ends[side].reset();
    }

    void step()
    {
        std::size_t side = any(2);
        micros += any(std::uint64_t(1) << any(20));
        try {
            is_making = !ends[side] || any(3000) == 0;
            if (is_making) return make(side);
            if (rarely()) {
                // It goes on from where it was moved to, and what it was moved from refuses each call.
                tcpcore::connection other = std::move(*ends[side]);
                moved++;
                try {
                    call(*ends[side], side);
                    check(!ends[side], "an object that was moved from has nothing");
                } catch (const tcpcore::refused &refused) {
                    check(refused.answer == TCPCORE_NULL, "an object that was moved from refuses");
                }
                ends[side] = std::move(other);
            }
            call(*ends[side], side);
        } catch (const tcpcore::refused &refused) {
            bool is_call = refused.answer >= TCPCORE_NOT_OPEN && refused.answer <= TCPCORE_NOT_CONNECTED;
            bool is_of_config = refused.answer >= TCPCORE_BAD_CAPACITY && refused.answer <= TCPCORE_BAD_RULES;
            check(is_making ? is_of_config : is_call, "a refusal has one of the answers");
            refusals++;
        }
        if (seen.size() > 64) seen.erase(seen.begin(), seen.begin() + 32);
    }
};

}

int main(int count, char **words)
{
    drawn.seed(count > 2 ? std::strtoull(words[1], nullptr, 10) : 1);
    std::uint64_t calls = count > 2 ? std::strtoull(words[2], nullptr, 10) : 20000;
    hostile it;
    for (std::uint64_t call = 0; call < calls; call++) it.step();
    check(it.refusals > 0 && it.moved > 0, "something was refused, and something moved");
    std::printf("tcpcore.hpp: %llu hostile calls\n", static_cast<unsigned long long>(calls));
}
