// One scripted world, as checks/programs/test_connections has it, by the connections of tcpcore.hpp: reads a script and prints its trace.
#include "tcpcore.hpp"

#include <cstdio>
#include <iostream>
#include <sstream>
#include <string>
#include <vector>

namespace {

constexpr std::uint64_t never = UINT64_MAX;
constexpr tcpcore_addr addrs[2] = {{{10, 0, 0, 1}}, {{10, 0, 0, 2}}};

struct packet {
    std::uint64_t at;
    int side;
    std::vector<unsigned char> bytes;
};

// What becomes of a side's emissions: from `first` on `count` are lost, or come so much later.
struct fate {
    int side;
    std::uint64_t first, count, later;
};

std::uint64_t number(std::istream &words)
{
    std::string word;
    if (!(words >> word)) throw std::runtime_error("a word is missing");
    return word == "-" ? never : std::stoull(word);
}

int side_of(const std::string &word) { return word == "A" ? 0 : word == "B" ? 1 : throw std::runtime_error("no side"); }

int side(std::istream &words)
{
    std::string word;
    words >> word;
    return side_of(word);
}

// Only a byte's number can be told by its digits.
unsigned flag(std::uint32_t value) { return static_cast<unsigned>(value); }

struct world {
    std::vector<tcpcore::connection> ends;
    std::uint64_t now = 0, way = 0, window = never, emitted[2] = {0, 0}, given[2] = {0, 0};
    std::vector<packet> packets;
    std::vector<fate> fates;

    tcpcore::connection::time time() const { return tcpcore::connection::time(std::chrono::microseconds(now)); }

    std::uint64_t poll_at(int side) const
    {
        auto at = ends[side].poll_at();
        return at ? std::chrono::duration_cast<std::chrono::microseconds>(at->time_since_epoch()).count() : never;
    }

    std::ostream &line(int side) const { return std::cout << now << ' ' << "AB"[side] << ' '; }

    void show(int side) const
    {
        auto s = ends[side].status();
        line(side) << "is " << s.phase << ' ' << s.ending << ' ' << s.unread << ' ' << s.ordered << ' ' << s.released << ' ' << s.room << ' '
                   << s.queued << ' ' << s.in_flight << ' ';
        auto at = poll_at(side);
        std::cout << (at == never ? "-" : std::to_string(at)) << '\n';
    }

    std::uint64_t arrival(int side, std::uint64_t number) const
    {
        std::uint64_t at = now + way;
        for (const fate &it : fates) {
            if (it.side != side || number < it.first || number - it.first >= it.count) continue;
            if (it.later == never) return never;
            at += it.later;
        }
        return at;
    }

    void emit(int side)
    {
        unsigned char out[TCPCORE_EMIT_ROOM];
        for (;;) {
            auto sent = ends[side].emit(time(), out, window);
            if (sent.length == 0) return;
            line(side) << "sent " << sent.length << ' ' << sent.position << ' ' << sent.count << ' ';
            for (int i = 0; i < 4 * (out[12] >> 4); i++) std::cout << "0123456789abcdef"[out[i] >> 4] << "0123456789abcdef"[out[i] & 15];
            auto at = arrival(side, emitted[side]++);
            std::cout << (at == never ? " lost\n" : "\n");
            if (at != never) packets.push_back({at, 1 - side, {out, out + sent.length}});
        }
    }

    void deliver()
    {
        std::vector<packet> left;
        for (packet &it : packets) {
            if (it.at > now) {
                left.push_back(std::move(it));
                continue;
            }
            auto [answer, report] = ends[it.side].arrive(time(), addrs[1 - it.side], addrs[it.side], it.bytes.data(), it.bytes.size());
            line(it.side) << "came " << answer << ' ' << report.acked << ' ' << flag(report.at_once) << ' ' << flag(report.is_duplicate) << ' '
                          << flag(report.window_taken) << '\n';
        }
        packets = std::move(left);
    }

    void turn(int side)
    {
        emit(side);
        while (auto timer = ends[side].timeout(time())) {
            line(side) << "expired " << *timer << '\n';
            emit(side);
        }
        show(side);
    }

    void go_on(std::uint64_t until)
    {
        for (;;) {
            std::uint64_t next = std::min(poll_at(0), poll_at(1));
            for (const packet &it : packets) next = std::min(next, it.at);
            if (next == never || next > until) break;
            now = std::max(now, next);
            deliver();
            turn(0);
            turn(1);
        }
        now = std::max(now, until);
    }

    // A connects to B, at time 0.
    world(const struct tcpcore_connection_rules &rules, std::istream &words) : way(number(words))
    {
        auto config = tcpcore::default_config(addrs[0], 1, 4294967290);
        config.mss = static_cast<std::uint16_t>(number(words));
        config.send_capacity = config.recv_capacity = number(words);
        auto shift = number(words);
        config.scales = shift != never;
        config.window_shift = static_cast<std::uint8_t>(config.scales ? shift : 0);
        config.runs = static_cast<std::uint16_t>(number(words));
        ends.push_back(tcpcore::connection::connect(config, rules, addrs[1], 2, time()));
        config.addr = addrs[1], config.port = 2, config.isn = 5000;
        ends.push_back(tcpcore::connection::listen(config, rules, time()));
        std::cout << "new\n";
        turn(0);
        turn(1);
    }

    std::size_t send(int side, std::uint64_t count)
    {
        std::vector<unsigned char> text;
        for (std::uint64_t at = given[side]; at < given[side] + count; at++)
            text.push_back(static_cast<unsigned char>(at * 7 + (at >> 8) + 3 * static_cast<unsigned>(side)));
        auto taken = ends[side].send(time(), text.data(), text.size());
        given[side] += taken;
        return taken;
    }

    std::string receive(int side, std::uint64_t room)
    {
        std::vector<unsigned char> out(room);
        auto count = ends[side].receive(time(), out.data(), out.size());
        if (!count) return "answer 52";
        if (*count == 0) return "answer 51";
        std::uint32_t sum = 2166136261;
        for (std::size_t i = 0; i < *count; i++) sum = (sum ^ out[i]) * 16777619;
        return std::to_string(*count) + ' ' + std::to_string(sum);
    }

    std::string peek(int side) const
    {
        auto lent = ends[side].peek();
        auto count = lent ? lent->first.length + lent->second.length : 0;
        return !lent ? "answer 52" : count == 0 ? "answer 51" : std::to_string(count);
    }

    // What a call of a side's user answers.
    std::string answer(int side, const std::string &name, std::istream &words)
    {
        auto &end = ends[side];
        if (name == "send") return std::to_string(send(side, number(words)));
        if (name == "receive") return receive(side, number(words));
        if (name == "peek") return peek(side);
        if (name == "consume") return std::to_string(end.consume(time(), number(words)));
        if (name == "acknowledge") return end.acknowledge(time()), "0";
        if (name == "close") return end.close(time()), "0";
        if (name == "abort") return end.abort(time()), "0";
        throw std::runtime_error("an unknown call");
    }

    void call(int side, std::istream &words)
    {
        std::string name;
        words >> name;
        go_on(number(words));
        line(side) << name << ' ';
        try {
            std::cout << answer(side, name, words) << '\n';
        } catch (const tcpcore::refused &refused) {
            std::cout << "answer " << refused.answer << '\n';
        }
        turn(side);
    }
};

void set_rules(struct tcpcore_connection_rules &rules, std::istream &words)
{
    for (auto *it : {&rules.first, &rules.least, &rules.greatest, &rules.granularity, &rules.after_syn, &rules.time_wait, &rules.handshake,
                     &rules.user, &rules.fin_wait_2})
        *it = number(words);
    rules.suspect_after = static_cast<std::uint32_t>(number(words));
}

}

int main()
{
    auto rules = tcpcore::default_rules();
    std::optional<world> it;
    for (std::string line; std::getline(std::cin, line);) {
        std::istringstream words(line);
        std::string word;
        words >> word;
        if (word == "rules") set_rules(rules, words);
        else if (word == "new") it.reset(), it.emplace(rules, words);
        else if (!it) throw std::runtime_error("no world");
        else if (word == "lose" || word == "late") {
            fate fate = {side(words), number(words), number(words), never};
            if (word == "late") fate.later = number(words);
            it->fates.push_back(fate);
        }
        else if (word == "window") it->window = number(words);
        else if (word == "run") it->go_on(number(words));
        else it->call(side_of(word), words);
    }
}
