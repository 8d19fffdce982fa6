// handed MODE COUNT in C++: COUNT bursts of in_order or one_byte, as bench/handed.c moves them in C.
#include "tcpcore.hpp"

#include <cstdio>
#include <cstdlib>
#include <cstring>

enum { SEGMENT = 1460, CAPACITY = 65536 };

static const tcpcore_addr A = {{10, 0, 0, 1}}, B = {{10, 0, 0, 2}};
static unsigned char text[2 * SEGMENT], read_bytes[2 * SEGMENT];

static tcpcore::end made(tcpcore_addr addr, std::uint16_t port)
{
    tcpcore_config config = tcpcore::default_config(addr, port, 1000);
    config.send_capacity = config.recv_capacity = CAPACITY;
    config.limit = TCPCORE_LIMIT << 30, config.window_shift = 5, config.scales = 1;
    return tcpcore::end(config);
}

static void carry(tcpcore::end &from, tcpcore_addr src, tcpcore::end &to)
{
    unsigned char segment[TCPCORE_EMIT_ROOM];
    tcpcore_addr dst;
    if (std::size_t length = from.emit(segment, dst)) to.arrive(src, dst, segment, length);
}

static void burst(tcpcore::end &a, tcpcore::end &b, bool is_of_bytes)
{
    if (!is_of_bytes) a.send(text, sizeof text);
    for (int k = 0; k < 2; k++) {
        if (is_of_bytes) a.send(text, 1);
        carry(a, A, b);
    }
    carry(b, B, a);
    b.receive(read_bytes, is_of_bytes ? 2 : sizeof read_bytes);
}

int main(int number, char **words)
{
    if (number != 3) return 2;
    bool is_of_bytes = std::strcmp(words[1], "one_byte") == 0;
    unsigned long count = std::strtoul(words[2], nullptr, 10);
    tcpcore::end a = made(A, 1), b = made(B, 2);
    b.listen();
    a.connect(B, 2);
    carry(a, A, b);
    carry(b, B, a);
    carry(a, A, b);
    for (unsigned long k = 0; k < count; k++) burst(a, b, is_of_bytes);
    return a.status().released == count * (is_of_bytes ? 2 : sizeof text) ? 0 : 1;
}
