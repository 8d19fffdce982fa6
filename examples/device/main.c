/*
 * A device: an HTTP server on a Cortex-M3 with 64 KiB of RAM, without operating system, heap or C library, on the library as one C file.
 * Each request is answered by a page whose first lines tell how much of the stack was ever used.
 *
 *     examples/device/build.sh device.elf
 *     qemu-system-arm -M lm3s6965evb -nographic -kernel device.elf -nic user,hostfwd=tcp::8080-:80,model=stellaris
 *     curl http://localhost:8080/
 *
 * For another board write board.c and device.ld anew.
 */
#include "board.h"
#include "net.h"
#include "secret.h"
#include "tcpcore.h"

#include <string.h>

/* Buffers of one and of two full segments hold two runs of bytes at most; of a peer whose segments are small they could hold more, some of
   which then come again. A client takes 1.3 KB beside its two buffers. */
enum { PORT = 80, MSS = 1460, SEND = 2 * MSS, RECEIVE = MSS, RUNS = 4, CLIENTS = 5, BATCH = 8 };

/* Times in microseconds: how long a client may take, how soon a handshake makes way for another one, and how often a stray is answered. */
enum { MILLISECOND = 1000, PATIENCE = 20000 * MILLISECOND, GRACE = 1000 * MILLISECOND, STRAY_INTERVAL = 10 * MILLISECOND };

/* A TCP header: its least length, where its flags are, and three of them (RFC 9293, 3.1). */
enum { HEADER = 20, FLAGS = 13, SYN = 2, RST = 4, ACK = 16 };

/* The page: what is the same for all in flash, and what isn't, with places for numbers, for each slot in RAM. */
#define LENGTH "HTTP/1.0 200 OK\r\nContent-Type: text/plain\r\nContent-Length:           "
#define USED "\r\n\r\nstack used, bytes:           "
#define STACK "\nof all stack, bytes:           "
#define UPTIME "\nrunning for milliseconds:           "
#define TEN(text) text text text text text text text text text text
static const char HEAD[] = LENGTH USED STACK UPTIME "\n";
static const char BODY[] = TEN("These lines lie in flash, in one piece, and are sent from there. They are\n"
                               "more than the send queue holds, so that a part of them has to wait until\n"
                               "the client has acknowledged what came before; the connection says how\n"
                               "much it took, and the server goes on from there once more has room. What is\n"
                               "sent again after a loss comes from the connection's buffer, not from here.\n");
enum { HEAD_LENGTH = sizeof HEAD - 1, BODY_LENGTH = sizeof BODY - 1, TEXT_BEGINS = sizeof LENGTH "\r\n\r\n" - 1 };

static const char BLANK_LINE[] = "\r\n\r\n";
enum { ASKED = sizeof BLANK_LINE - 1 };

struct client {
    tcpcore_connection connection;
    uint64_t began, at; /* when it came, and when it has its next turn */
    size_t asked, sent; /* so many bytes of the blank line that ends a request have come, and so many of the page were taken */
    int is_used;
    tcpcore_addr addr;
    uint8_t port[2];
    char head[sizeof HEAD];
    uint8_t memory[TCPCORE_CONNECTION_MEMORY_RUNS(SEND, RECEIVE, RUNS)];
};

static struct net net;
static struct client clients[CLIENTS];
static tcpcore_config config = TCPCORE_CONFIG_DEFAULT;
static const struct tcpcore_connection_rules rules = TCPCORE_CONNECTION_RULES_DEFAULT;
static struct tcpcore_policy policy = TCPCORE_POLICY_DEFAULT;

/* This board has no source of random bytes. Whoever knows the secret can guess sequence numbers (RFC 9293, 3.4.1): a device that anybody
   can reach takes it from a source of its own, or is given one when it is made. */
static const uint8_t SECRET[16] = {0x3c, 0x91, 0x5e, 0x07, 0xd8, 0x2b, 0xf4, 0x66, 0x19, 0xaa, 0x70, 0xc3, 0x8d, 0x12, 0xe9, 0x54};

static uint64_t now(void) { return MILLISECOND * board_now(); }

/* Writes a number's decimals before `end`. */
static void write_number(char *end, uint64_t number)
{
    do
        *--end = (char)('0' + number % 10);
    while ((number /= 10) > 0);
}

/* Makes the head of a page, in as many bytes for any numbers. */
static void write_head(char *head)
{
    memcpy(head, HEAD, sizeof HEAD);
    write_number(head + sizeof LENGTH - 1, HEAD_LENGTH + BODY_LENGTH - TEXT_BEGINS);
    write_number(head + sizeof LENGTH USED - 1, board_stack_used());
    write_number(head + sizeof LENGTH USED STACK - 1, board_stack());
    write_number(head + sizeof LENGTH USED STACK UPTIME - 1, board_now() % 1000000000);
}

/* Looks for the end of the request in what came. */
static void read_request(struct client *client, const char *text, size_t count)
{
    for (size_t at = 0; at < count && client->asked < ASKED; at++)
        client->asked = text[at] == BLANK_LINE[client->asked] ? client->asked + 1 : text[at] == '\r';
    if (client->asked == ASKED && client->sent == 0)
        write_head(client->head);
}

/* Sends as much of the page as has room. */
static void send_page(struct client *client)
{
    size_t taken = 0;
    if (client->sent < HEAD_LENGTH)
        tcpcore_connection_send(&client->connection, now(), client->head + client->sent, HEAD_LENGTH - client->sent, &taken);
    client->sent += taken;
    if (client->sent >= HEAD_LENGTH) {
        size_t at = client->sent - HEAD_LENGTH;
        tcpcore_connection_send(&client->connection, now(), BODY + at, BODY_LENGTH - at, &taken);
        client->sent += taken;
    }
}

/* Reads the request, and sends the page. The server closes after the client, so that TIME-WAIT, which would take a place for minutes, is on
   the client's side: the page's length tells it when it has all. */
static void serve(struct client *client)
{
    char text[64];
    size_t count;
    uint32_t answer;
    while ((answer = tcpcore_connection_receive(&client->connection, now(), text, sizeof text, &count)) == TCPCORE_DONE)
        read_request(client, text, count);
    if (client->asked == ASKED)
        send_page(client);
    if (answer == TCPCORE_END_OF_STREAM && (client->asked < ASKED || client->sent == HEAD_LENGTH + BODY_LENGTH))
        tcpcore_connection_close(&client->connection, now());
}

/* Sends all that may go out. */
static void emit(struct client *client)
{
    static uint8_t segment[TCPCORE_EMIT_ROOM];
    struct tcpcore_connection_segment sent;
    while (tcpcore_connection_emit(&client->connection, now(), UINT64_MAX, segment, sizeof segment, &sent) == TCPCORE_DONE)
        net_send(&net, sent.to, segment, (size_t)sent.length);
}

static void forget(struct client *client)
{
    tcpcore_connection_free(&client->connection);
    client->is_used = 0;
}

/* It is time for a client. One that takes longer than PATIENCE is aborted, so that one that is gone, or waits, doesn't keep its place. One
   that still listens was none: its SYN had a fault. */
static void turn(struct client *client)
{
    struct tcpcore_status status;
    uint32_t timer;
    tcpcore_connection_timeout(&client->connection, now(), &timer);
    if (now() - client->began > PATIENCE)
        tcpcore_connection_abort(&client->connection, now());
    serve(client);
    emit(client);
    tcpcore_connection_status(&client->connection, &status);
    tcpcore_connection_poll_at(&client->connection, &client->at);
    if (client->at > client->began + PATIENCE)
        client->at = client->began + PATIENCE + 1;
    if (status.phase == TCPCORE_PHASE_CLOSED || status.phase == TCPCORE_PHASE_LISTEN)
        forget(client);
}

/* Where all places are taken the oldest handshake makes way that nobody has answered for a second (RFC 4987, 3.4): a client that is there
   has answered by then. NULL where there is none. */
static struct client *make_way(void)
{
    struct client *oldest = NULL;
    struct tcpcore_status status;
    for (struct client *client = clients; client < clients + CLIENTS; client++) {
        tcpcore_connection_status(&client->connection, &status);
        if (status.phase == TCPCORE_PHASE_SYN_RECEIVED && now() - client->began > GRACE && (!oldest || client->began < oldest->began))
            oldest = client;
    }
    if (oldest)
        forget(oldest);
    return oldest;
}

/* A connection that listens for the client of this SYN, if there is a place. */
static struct client *admit(struct client *client, tcpcore_addr src, const uint8_t *segment)
{
    uint16_t port = (uint16_t)(segment[0] << 8 | segment[1]);
    if (!client)
        return NULL;
    memset(client, 0, sizeof *client);
    config.isn = secret_isn(SECRET, config.addr, PORT, src, port, now());
    client->is_used = tcpcore_connection_listen(&client->connection, &config, &rules, now(), client->memory, sizeof client->memory) ==
                      TCPCORE_DONE;
    if (!client->is_used)
        return NULL;
    tcpcore_connection_set_congestion(&client->connection, TCPCORE_CONGESTION_CUBIC);
    tcpcore_connection_set_policy(&client->connection, &policy);
    client->addr = src;
    memcpy(client->port, segment, 2);
    client->began = now();
    return client;
}

/* The client that a segment to the server is from: one that has a place, or where it asks for one gets it. */
static struct client *client_of(tcpcore_addr src, const uint8_t *segment)
{
    struct client *free = NULL;
    for (struct client *client = clients; client < clients + CLIENTS; client++) {
        if (!client->is_used)
            free = client;
        else if (memcmp(&client->addr, &src, sizeof src) == 0 && memcmp(client->port, segment, 2) == 0)
            return client;
    }
    if ((segment[FLAGS] & (SYN | RST | ACK)) != SYN)
        return NULL;
    return admit(free ? free : make_way(), src, segment);
}

/* A segment that is nobody's is answered by a reset (RFC 9293, 3.10.7.1), now and then; at the server's port where it acknowledges
   something (3.10.7.2). */
static void refuse(tcpcore_addr src, const uint8_t *segment, size_t length, int is_served)
{
    static uint64_t next;
    uint8_t reset[TCPCORE_RESET_ROOM];
    size_t written;
    if (now() < next || (is_served && !(segment[FLAGS] & ACK)) ||
        tcpcore_stray_reset(src, config.addr, segment, length, reset, sizeof reset, &written) != TCPCORE_DONE)
        return;
    next = now() + STRAY_INTERVAL;
    net_send(&net, src, reset, written);
}

/* A segment has come. Its client has a turn behind those of the same batch, or now where it has to be answered at once (RFC 5681, 4.2). */
static void arrive(tcpcore_addr src, const void *segment, size_t length)
{
    const uint8_t *bytes = segment;
    struct tcpcore_arrive_report report;
    if (length < HEADER)
        return;
    int is_served = (bytes[2] << 8 | bytes[3]) == PORT;
    struct client *client = is_served ? client_of(src, bytes) : NULL;
    if (!client) {
        refuse(src, bytes, length, is_served);
        return;
    }
    if (tcpcore_connection_arrive(&client->connection, now(), src, config.addr, bytes, length, &report) == TCPCORE_EMIT_FIRST) {
        emit(client);
        tcpcore_connection_arrive(&client->connection, now(), src, config.addr, bytes, length, &report);
    }
    client->at = 0;
    if (report.at_once)
        turn(client);
}

/* Takes what came, at most a batch, so that the clients are answered in between. Whether there may be more. */
static int read_board(void)
{
    static uint8_t frame[FRAME_MOST];
    size_t length;
    int count = 0;
    while (count < BATCH && (length = board_receive(frame)) > 0) {
        net_arrive(&net, frame, length);
        count++;
    }
    return count == BATCH;
}

/* The addresses are those of qemu's user network. */
static void set_up(void)
{
    net = (struct net){
        .own = {{{10, 0, 2, 15}}, 24}, .gateway = {{10, 0, 2, 2}}, .ethernet = {0x02, 0, 0, 0, 0, 0x0f}, .arrive = arrive};
    config.addr = net.own.addr;
    config.port = PORT;
    config.mss = MSS;
    config.send_capacity = SEND;
    config.recv_capacity = RECEIVE;
    config.runs = RUNS;
    policy.nagle = 0;
    board_start(net.ethernet);
}

int main(void)
{
    set_up();
    for (;;) {
        int has_more = read_board();
        for (struct client *client = clients; client < clients + CLIENTS; client++)
            if (client->is_used && client->at <= now())
                turn(client);
        if (!has_more)
            board_sleep();
    }
}
