/* The test of what the header warns of: another connection's segments, addresses, windows that are 0, late resets. */
#include "tcpcore.h"

#include <stdio.h>
#include <stdlib.h>

struct segment {
    unsigned char bytes[TCPCORE_EMIT_ROOM];
    size_t length;
    tcpcore_addr to;
};

static const tcpcore_addr SERVER = {{10, 0, 0, 1}}, CLIENT = {{10, 0, 0, 2}};
static const uint16_t SERVICE = 80;
static tcpcore_end server = TCPCORE_END_INIT, client = TCPCORE_END_INIT, other = TCPCORE_END_INIT;

static void need(const char *call, uint32_t answer)
{
    if (answer != TCPCORE_DONE) {
        printf("%s: %s\n", call, tcpcore_strerror(answer));
        exit(1);
    }
}

static void make(tcpcore_end *end, tcpcore_addr addr, uint16_t port, size_t capacity, uint8_t shift)
{
    tcpcore_config config = {.addr = addr, .port = port, .mss = 1460, .isn = port, .send_capacity = 1000,
                             .recv_capacity = capacity, .limit = TCPCORE_LIMIT, .window_shift = shift, .scales = 1};
    static unsigned char blocks[3][TCPCORE_MEMORY(1000, 1 << 20)];
    void *block = blocks[end == &server ? 0 : end == &client ? 1 : 2];
    need("new", tcpcore_new(end, &config, block, sizeof *blocks));
}

static struct segment due(tcpcore_end *end)
{
    struct segment found;
    need("emit", tcpcore_emit(end, found.bytes, sizeof found.bytes, &found.to, &found.length));
    return found;
}

static uint32_t hand(tcpcore_end *end, tcpcore_addr src, const struct segment *segment)
{
    return tcpcore_arrive(end, src, segment->to, segment->bytes, segment->length);
}

/* Carries one segment that has to be due. */
static void carry(tcpcore_end *from, tcpcore_addr src, tcpcore_end *to)
{
    struct segment segment = due(from);
    need("arrive", hand(to, src, &segment));
}

static void open_both(size_t capacity, uint8_t shift)
{
    make(&server, SERVER, SERVICE, capacity, shift);
    make(&client, CLIENT, 1000, 1000, 0);
    need("listen", tcpcore_listen(&server));
    need("connect", tcpcore_connect(&client, SERVER, SERVICE));
    carry(&client, CLIENT, &server);
    carry(&server, SERVER, &client);
    carry(&client, CLIENT, &server);
}

static void send(tcpcore_end *end, const char *text, size_t length)
{
    size_t taken;
    need("send", tcpcore_send(end, text, length, &taken));
}

static void report(const char *name, const tcpcore_end *end)
{
    struct tcpcore_status reported;
    need("status", tcpcore_status(end, &reported));
    printf("  %s: phase %u, ending %u, unread %llu\n", name, reported.phase, reported.ending, (unsigned long long)reported.unread);
}

static void free_all(void)
{
    need("free", tcpcore_free(&server));
    need("free", tcpcore_free(&client));
    (void)tcpcore_free(&other);
}

/* The client's segment is handed to another end of the server's port: its reset ends the client's connection. */
static void of_another_connection(const char *name, int listens)
{
    open_both(1000, 0);
    make(&other, SERVER, SERVICE, 1000, 0);
    if (listens)
        need("listen", tcpcore_listen(&other));
    send(&client, "abc", 3);
    struct segment text = due(&client);
    printf("another connection's segment, to an end in %s: %s\n", name, tcpcore_strerror(hand(&other, CLIENT, &text)));
    struct segment reset = due(&other);
    printf("  %zu bytes, flags %02x; the client: %s\n", reset.length, reset.bytes[13],
           tcpcore_strerror(hand(&client, SERVER, &reset)));
    report("client", &client);
    free_all();
}

/* Once the peer is known, and for another port in any phase, nothing is answered. */
static void not_mine(void)
{
    open_both(1000, 0);
    make(&other, SERVER, SERVICE + 1, 1000, 0);
    send(&client, "abc", 3);
    struct segment text = due(&client), none;
    tcpcore_addr third = {{10, 0, 0, 3}};
    printf("to an end of another port: %s\n", tcpcore_strerror(hand(&other, CLIENT, &text)));
    /* The checksum covers the source address: what is 1 more there is 1 less here. */
    text.bytes[17] = (unsigned char)(text.bytes[17] - 1);
    printf("from another source, to an end with a peer: %s\n", tcpcore_strerror(hand(&server, third, &text)));
    uint32_t first = tcpcore_emit(&other, none.bytes, sizeof none.bytes, &none.to, &none.length);
    uint32_t second = tcpcore_emit(&server, none.bytes, sizeof none.bytes, &none.to, &none.length);
    printf("due then: %s, %s\n", tcpcore_strerror(first), tcpcore_strerror(second));
    free_all();
}

static void addresses(void)
{
    static const tcpcore_addr PEERS[] = {{{0, 0, 0, 0}}, {{224, 0, 0, 1}}, {{255, 255, 255, 255}}, {{10, 0, 0, 1}}};
    for (size_t i = 0; i < sizeof PEERS / sizeof *PEERS; i++) {
        make(&other, SERVER, SERVICE, 1000, 0);
        printf("connect to %d.%d.%d.%d: %s\n", PEERS[i].byte[0], PEERS[i].byte[1], PEERS[i].byte[2], PEERS[i].byte[3],
               tcpcore_strerror(tcpcore_connect(&other, PEERS[i], SERVICE)));
        need("free", tcpcore_free(&other));
    }
}

/* The first text goes by the SYN's window, which isn't scaled; the second, with all read before it, by one that is. */
static void shift_and_capacity(size_t capacity)
{
    struct segment segment;
    size_t count;
    open_both(capacity, 7);
    send(&client, "abc", 3);
    carry(&client, CLIENT, &server);
    need("receive", tcpcore_receive(&server, segment.bytes, sizeof segment.bytes, &count));
    carry(&server, SERVER, &client);
    send(&client, "def", 3);
    printf("shift 7, capacity %zu: %s\n", capacity,
           tcpcore_strerror(tcpcore_emit(&client, segment.bytes, sizeof segment.bytes, &segment.to, &segment.length)));
    free_all();
}

/* The server has closed first and is in TIME-WAIT, with three bytes unread, where the client's FIN comes again. */
static void late_reset(void)
{
    char text[3];
    size_t count;
    open_both(1000, 0);
    send(&client, "abc", 3);
    carry(&client, CLIENT, &server);
    carry(&server, SERVER, &client);
    need("close", tcpcore_close(&server));
    carry(&server, SERVER, &client);
    carry(&client, CLIENT, &server);
    need("close", tcpcore_close(&client));
    struct segment fin = due(&client);
    need("arrive", hand(&server, CLIENT, &fin));
    carry(&server, SERVER, &client);
    printf("a late reset\n");
    report("client", &client);
    report("server", &server);
    printf("  FIN again: %s\n", tcpcore_strerror(hand(&server, CLIENT, &fin)));
    struct segment answer = due(&server);
    printf("  to the client in CLOSED: %s\n", tcpcore_strerror(hand(&client, SERVER, &answer)));
    carry(&client, CLIENT, &server);
    report("server", &server);
    printf("  receive: %s\n", tcpcore_strerror(tcpcore_receive(&server, text, sizeof text, &count)));
    free_all();
}

int main(void)
{
    of_another_connection("LISTEN", 1);
    of_another_connection("CLOSED", 0);
    not_mine();
    addresses();
    shift_and_capacity(127);
    shift_and_capacity(128);
    late_reset();
    return 0;
}
