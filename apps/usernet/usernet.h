/*
 * usernet.h: what the files of usernet share. All is in one struct usernet, and one thread does it all.
 *
 * Whatever the namespace sends is taken for hostile. Nothing is connected for what is no segment, all that a client can hold is
 * bounded (limits.c), and a connection that is dropped stays in memory until the events that were found with it are worked off.
 */
#ifndef USERNET_H
#define USERNET_H

#include "companions/ethernet.h"
#include "companions/faults.h"
#include "companions/fragments.h"
#include "companions/icmp.h"
#include "companions/icmp6.h"
#include "companions/ip.h"
#include "companions/ip6.h"
#include "companions/path.h"
#include "companions/trains.h"
#include "companions/udp.h"
#include "pairs.h"

#include <netinet/in.h>
#include <time.h>

#ifndef TCPCORE_HAS_HOSTS
#error "there are no hosts here, only in machine code: see HOSTS in tcpcore.h"
#endif

/* The most and the fewest bytes kept for each direction of a connection, and by how much its windows are shifted. */
enum { CAPACITY = 262144, LEAST_CAPACITY = 8192, SHIFT = 3, FLOW_BUCKETS = 4096 };

/* The runs of bytes that an end keeps out of order: a device hands packets over in their order, so that only losses make any. */
enum { RUNS = 16 };

/* The most ports that are published; the queues of half-open connections by their destination. */
enum { LISTENERS = 256, PLACES = 4096 };

/* The IPv6 addresses that are known at once: in so many sets, of so many each. */
enum { V6_SETS = 16384, V6_WAYS = 4 };

/* For so many milliseconds one answer to what a connection refuses is enough, as Linux has it (tcp_invalid_ratelimit). */
enum { QUIET = 500 };

/* The packets that are put together from their pieces at once. */
enum { CUT = 8 };

/* The most clients of the API's socket at once. */
enum { CALLERS = 8 };

/* What an event of epoll is about: a published port by its place, one of these, or else a connection or relay by its address. */
enum { DEVICE = LISTENERS, SIGNALS, EXITS, API, CALLER, NAMED = CALLER + CALLERS };

/* The first of the gateway's ports from which connections and datagrams are carried in. */
enum { FIRST_PORT = 32768 };

/* The bytes of the shortest IPv4 and TCP headers together. */
enum { HEADERS = 40 };

/* A place on the host: a socket's address. */
union place { struct sockaddr any; struct sockaddr_in v4; struct sockaddr_in6 v6; };
static inline socklen_t place_length(const union place *place) { return place->any.sa_family == AF_INET6 ? sizeof place->v6 : sizeof place->v4; }

/* The connections of one kind, the oldest first, and a connection's place among them; all zero where it is in none. */
struct link { struct link *older, *newer; struct queue *queue; };
struct queue { struct link *oldest, *newest; uint32_t count; };

/* An end of ours, the namespace's peer, and what it has said. */
struct end {
    struct tcpcore_host_id id; /* its name */
    struct path path;
    uint64_t quiet_until;      /* before that no answer to what was refused goes out that says what was said */
    uint64_t edge;             /* what was said: the window's right edge, as a position of the client's direction, */
    uint32_t ack;              /* and the acknowledgement number and the window of what went out last */
    uint16_t window;
    uint64_t carried;          /* bytes of text that went through it, either way */
    uint8_t block[];           /* its memory */
};

/* One connection of the namespace: an end of ours, and the host's socket behind it. */
struct conn {
    struct pair pair;               /* as the namespace has it: its own address is the client's */
    struct link order, place;       /* among those of its phase; among those half-open to one destination */
    struct conn *next;              /* of those that are looked at next, or of those that were dropped */
    union {
        struct end *end;            /* once the host's socket is connected; */
        uint8_t *syn;               /* before that the header of the client's SYN, summed, which opens the end, if one came */
    };
    uint32_t capacity;              /* bytes kept for each direction */
    int socket;                     /* the host's, or -1 once both directions are done */
    uint8_t is_open;                /* whether there is an end */
    uint8_t is_awake;               /* whether it is looked at next, whatever the time is */
    uint8_t is_dropped;             /* whether it waits to be freed */
    uint8_t can_read, can_write;    /* what epoll said of the socket, until a call would block */
    uint8_t host_done, client_done; /* whether that side's end of stream was passed on */
    uint64_t since;                 /* when it was made, or something of the client's came last */
    uint32_t first;                 /* the client's initial sequence number */
};

/* All datagrams of one of the namespace's sockets: an open socket of the host. Or questions to the host's name server, or echoes with one
   identifier: a socket that is connected to the other side. Or datagrams that a client of the host's sends to a published port, whose socket
   serves all of its clients. */
struct relay {
    struct pair pair;    /* as the namespace has it; of echoes the client's port is the identifier, and the server's 0 */
    struct pair outer;   /* of a published port: who sends, by a hash, and as the server's port the published port's place */
    union place from;    /* who that is */
    struct link order;   /* among all, by when a packet went through last */
    struct relay *next;  /* of those that were dropped */
    uint64_t since;      /* when one went through last */
    int socket;
    int hops;            /* how many routers what it sends may pass, or -1: the host's choice */
    uint8_t protocol;    /* IP_UDP, IP_ICMP or IP6_ICMP */
    uint8_t is_open;     /* whether it leads to any place: its pair has no server then */
    uint8_t is_inward;   /* whether its socket is a published port's */
    uint8_t is_lasting;  /* whether it is more than questions to name servers, or an echo */
    uint8_t has_loopback; /* of an open one: whether it has sent to the host's loopback, which may answer */
    uint8_t is_dropped;  /* whether it waits to be freed */
};

/* An IPv6 address, and the address that stands for it. */
struct v6_entry {
    struct ip6_addr addr;
    tcpcore_addr surrogate;
    uint32_t uses;    /* by connections and relays */
    uint64_t entered; /* when it came, before others or behind them; 0 where there is none */
};

/* What is counted. */
enum counter {
    OPENED, REFUSED, PUBLISHED, /* connections of the namespace: done at the host, refused by it; carried in */
    STRAYS, ABANDONED, MALFORMED, /* resets for what no connection takes; connections that timers gave up; what was no segment */
    ARRIVED, EMITTED, UP, DOWN, /* packets; bytes of text */
    FULL, RECYCLED,             /* connections that a limit kept out; half-open or silent ones that made way for another */
    EXHAUSTED,                  /* connections that found no descriptor, memory or port of the host */
    WITHHELD, UNSAID,           /* resets, and answers of connections, that a limit kept back */
    NOW, MOST, HALF_OPEN,       /* connections now, the most at once, and those half-open now */
    RESERVED,                   /* bytes of all ends now, as limits.memory counts them */
    FLOWS, FLOWS_NOW,           /* flows of datagrams and echoes so far, and now */
    DATAGRAMS, UNREACHABLE,     /* datagrams and echoes that went through, either way; what ICMP said couldn't */
    PIECES, JOINED,             /* pieces of packets that came; packets that were put together from them */
    ERRORS, NARROWED,           /* the namespace's ICMP errors that were about a connection's flight; those that shortened its packets */
    COUNTERS
};

/* What a client can hold at most, and what it is answered at most. */
struct limits {
    uint64_t connections;
    uint64_t half_open;    /* of them those whose handshake isn't done */
    uint64_t each;         /* and of these those to one address and port */
    uint64_t memory;       /* bytes of all ends */
    uint64_t ports;        /* of the gateway's, from which connections are carried in */
    uint64_t flows;        /* of datagrams and echoes */
    uint64_t strays;       /* resets in a second for what no connection takes */
    uint64_t quiet;        /* milliseconds for which a connection repeats no answer (RFC 5961, 7) */
};

/* A port of the host's, and the place in the namespace that it leads to. */
struct published {
    uint32_t id;          /* its number, never used again; 0 where there is none here */
    int socket;           /* it listens, or takes datagrams */
    uint8_t protocol;     /* IP_TCP or IP_UDP */
    uint16_t guest_port;  /* the namespace's */
    union place at;       /* the host's address and port */
    tcpcore_addr guest;   /* the namespace's address */
};

/* The host's name servers: the first one of either kind, whose family is 0 where there is none. */
struct servers {
    struct timespec read_at; /* the age of the file that names them when it was read */
    union place v4, v6;
};

struct usernet {
    struct limits limits;
    int device, events;        /* the TUN or TAP device, and epoll's descriptor, below 0 before there is one */
    int is_gone;               /* whether the device is */
    int stops, status;         /* whether the program ends, and its status then */
    int offloads;              /* whether trains of segments are exchanged with the device */
    int is_tap;                /* whether packets lie behind Ethernet headers */
    struct ethernet_addr host; /* then: the namespace's address, as its last frame has it */
    uint32_t mtu;              /* of the device */
    uint16_t mss, next_port;   /* the maximum segment size; the last of the gateway's ports that was tried */
    uint8_t hops;              /* how many routers the packet that came last may pass */
    uint16_t next_id;          /* the identification of the last packet that may be cut */
    tcpcore_addr own, gateway; /* the namespace's address, and that which means the host's loopback */
    tcpcore_addr resolver;     /* that which means the host's name server */
    struct in_addr outbound;   /* the address from which the host's sockets send; all zero: the system's choice */
    struct in6_addr outbound6; /* the same of IPv6 */
    int has_loopback, has_dns; /* whether the host's loopback and its name server are reached */
    struct published published[LISTENERS];
    uint32_t last_id;          /* of what was published */
    int api;                   /* the API's socket, or below 0 */
    struct v6_entry *v6;           /* NULL where there is no IPv6 */
    uint64_t v6_entered;      /* how many were entered */
    struct ip6_packet v6_packet; /* the last one that came */
    struct servers servers;
    uint64_t now;              /* milliseconds */
    uint64_t listens_at;       /* when it listens again, or 0 where it does */
    uint64_t counters[COUNTERS];
    tcpcore_host ends;         /* the ends of all connections that have one, with its tables in a block of memory, */
    void *tables;
    struct conn **owners;      /* and the connection of each, by its slot */
    struct pairs pairs;        /* the connections that have none yet */
    struct pair *buckets[FLOW_BUCKETS];
    uint32_t connections, most; /* how many there are, and the most there were at once */
    struct conn *awake, **last_awake; /* what is looked at next, and where the last of it points to */
    struct conn *dropped;      /* what is freed behind these events */
    struct queue half_open, active, resting; /* the connections by their phase: active ones by when something came last */
    struct queue places[PLACES];
    struct pairs datagrams, echoes; /* the relays, by their protocols */
    struct pairs inward;            /* those of published ports, by the host's clients */
    struct pair *datagram_buckets[FLOW_BUCKETS], *echo_buckets[FLOW_BUCKETS], *inward_buckets[FLOW_BUCKETS];
    struct queue relays, brief; /* all of them, by when a packet went through last: those that are soon over are in `brief` */
    struct fragments fragments; /* pieces of the namespace's packets */
    struct fragments_packet cut[CUT];
    struct relay *gone;        /* relays that are freed behind these events */
    uint64_t reserved;         /* bytes of all ends */
    uint64_t used_up;          /* bytes that ends had touched which are gone, since the system was given back what is free */
    uint64_t second, answered; /* the second in which the last stray came, and resets in it */
    tcpcore_end reader;        /* an end that is never opened: it reads what comes for no other */
    uint8_t reader_block[TCPCORE_MEMORY(1, 1)];
    struct faults up, down;    /* the path between device and ends */
    uint8_t frame[TUN_HEADER + ETHERNET_HEADER + 65535]; /* what the device gave */
    uint8_t packet[ETHERNET_HEADER + IP6_MORE + TRAINS_ROOM]; /* what the device is given */
    uint8_t text[CAPACITY];    /* what a socket gave */
};

static inline void count(struct usernet *net, enum counter which, uint64_t number) { net->counters[which] += number; }

/* What ends are told that the time is, in microseconds. */
static inline uint64_t time_of(const struct usernet *net) { return 1000 * net->now; }

/* loop.c: a segment for the namespace is written to segment_place, then sent: summed and of `length` bytes, or what tcpcore_emit_train wrote. */
static inline uint8_t *segment_place(struct usernet *net) { return net->packet + ETHERNET_HEADER + IP6_MORE + TRAINS_FRONT; }
void send_segment(struct usernet *net, size_t length, tcpcore_addr from, tcpcore_addr to, int may_be_cut);
void send_packet(struct usernet *net, size_t length, tcpcore_addr from, tcpcore_addr to, uint8_t protocol);
void send_train(struct usernet *net, tcpcore_addr from, const struct tcpcore_train *train);

/* A packet behind the device's header, with room for an Ethernet header before both, goes to the device. */
void pass_on_wire(struct usernet *net, uint8_t *frame, size_t length);

/* The gateway's address on Ethernet, and the name server's. */
extern const struct ethernet_addr GATEWAY_ETHERNET;

/* ipv6.c: addresses that mean the host's loopback and its name server; whether an address is one of these, or the namespace's own. */
extern const struct ip6_addr V6_GATEWAY, V6_RESOLVER;
int v6_is_own(const struct ip6_addr *addr);

/* Deals an address its surrogate; whether there is a place for it. */
int v6_enter(struct usernet *net, const struct ip6_addr *addr, tcpcore_addr *surrogate);

/* The address of a surrogate, or NULL. A pair holds its two (1), or lets go of them (-1). */
const struct ip6_addr *v6_find(struct usernet *net, tcpcore_addr surrogate);
void v6_hold(struct usernet *net, const struct pair *pair, int change);

/* Reads a packet, whose checksum needs no look where `vouched` and afterwards; its addresses are surrogates. Whether there is one. */
int v6_read(struct usernet *net, const uint8_t *bytes, size_t length, int vouched, struct ip_packet *found, uint8_t *protocol);

/* Of the packet that v6_read found last: whether it is an error, of which the addresses are surrogates. */
int v6_read_error(struct usernet *net, struct icmp_error *error);

/* As icmp_unreachable, at segment_place and without its checksum: of a packet with these surrogates. Its length, or 0. */
size_t v6_unreachable(struct usernet *net, const struct pair *key, uint8_t protocol, const uint8_t *front, uint8_t code);

/* A frame with an IPv4 packet between surrogates becomes one between their addresses, which begins before it; NULL where one isn't known. */
uint8_t *v6_write(struct usernet *net, uint8_t *frame, size_t *length);

/* Makes what the loop needs; whether it could. */
int loop_init(struct usernet *net, const uint8_t secret[16]);

/* Runs until `stops` is set, then ends all connections. `signalled` is called where a signal came; where the other side of `exits` is
   closed the loop stops. Either may be below 0. */
void loop_run(struct usernet *net, int signals, int exits, void (*signalled)(void));

/* conn.c: a packet came from the namespace, whose checksum needs no look where `vouched`; a connection of the host's came to a published
   port, to be carried in. */
void arrive(struct usernet *net, const struct ip_packet *packet, int vouched);
void conn_publish(struct usernet *net, int socket, const struct published *published);

/* An ICMP error came from the namespace about a packet that it was sent. */
void conn_error(struct usernet *net, const struct icmp_error *error);

/* ports.c: publishes a port, whose `id` and `socket` aren't looked at; answers its number, or 0 with errno. What has this number is no
   longer published; whether there was any. */
uint32_t ports_publish(struct usernet *net, struct published wanted);
int ports_remove(struct usernet *net, uint32_t id);

/* Reads a numeric address of either family, with port 0; whether it is one. */
int ports_read_host(const char *word, union place *place);

/* What comes to published ports is waited for from now on; something has come to the one at this place. */
int ports_listen(struct usernet *net);
void ports_take(struct usernet *net, uint64_t place);

/* A port of the gateway's that isn't in use towards the key's client, as the key's server; whether there was one. */
int ports_deal(struct usernet *net, const struct pairs *used, struct pair *key);

/* api.c: makes the API's socket at this path, below 0 where it can't; waits for its clients; one has come, or
   the one at this place has sent something; those that were silent for long go; the milliseconds until then, or `wait` where that is
   sooner; all go. */
int api_open(const char *path);
int api_watch(struct usernet *net);
void api_accept(struct usernet *net);
void api_take(struct usernet *net, uint64_t place);
void api_expire(struct usernet *net);
int api_wait(int wait);
void api_end(void);

/* What the API answers to a request of so many bytes, written to `out`, of API_ROOM bytes; answers its length. */
enum { API_REQUEST = 4095, API_ROOM = 64 + 192 * LISTENERS };
size_t api_answer(struct usernet *net, const char *request, size_t length, char *out);

/* Drops a connection: it has no socket, no end and no place any more, and is freed by free_dropped. Where `resets`, the host gets a
   reset; where it is cut, the client does, too. */
void drop(struct usernet *net, struct conn *conn, int resets);
void cut(struct usernet *net, struct conn *conn);
void free_dropped(struct usernet *net);

/* A connection is looked at next. */
void wake(struct usernet *net, struct conn *conn);

/* Looks at all connections that are awake, or whose time has come; for so many milliseconds there are none then, at most a quarter of a second;
   end_all resets and frees all there are. */
void turn_all(struct usernet *net);
int turn_wait(const struct usernet *net);
void end_all(struct usernet *net);

/* host.c: where `to` and `port` lead on the host; 0 where that is nowhere, or where the program was told to leave that place alone, with
   EACCES in errno. */
int host_place(struct usernet *net, tcpcore_addr to, uint16_t port, union place *place);

/* A socket of the host's that is connected to this place, or begins to; or of datagrams of a family, to any place. Below 0 where there is
   none, with errno. `kind` is SOCK_STREAM or SOCK_DGRAM. */
int host_socket(struct usernet *net, const union place *to, int kind, int protocol);
int host_open(struct usernet *net, int family);

/* Whether a place is the host's loopback, which its gateway's address leads to. */
int host_is_loopback(const union place *place);

/* The namespace's address for a host that sends to it; whether it may. Its loopback is the gateway. */
int host_sender(struct usernet *net, const union place *from, tcpcore_addr *addr);

/* The address of an interface of this family; whether it has one. */
int host_interface(const char *name, int family, void *addr);

/* relays.c and datagrams.c: the namespace is told that what it sent with these addresses and ports couldn't be delivered, as often as strays are answered. `front` is
   what its packet has behind the IPv4 header. */
enum { UNREACHABLE_FRONT = 8 };
void report_unreachable(struct usernet *net, const struct pair *key, uint8_t protocol, const uint8_t *front, int fault);

/* The same of what may pass no more routers, from that which it has come to (RFC 1812, 5.2.7.3). */
void report_expired(struct usernet *net, const struct pair *key, uint8_t protocol, const uint8_t *front, tcpcore_addr router);

/* A datagram or an ICMP message came from the namespace; a socket of a relay has something, or that of the published port at this
   place; all relays of that one go; those that were silent for long go; those that were dropped are freed; all go. */
void relays_datagram(struct usernet *net, const struct ip_packet *packet, int vouched);
void relays_message(struct usernet *net, const struct ip_packet *packet, uint8_t protocol);
void relays_readable(struct usernet *net, struct relay *relay, uint32_t events);
void relays_inward(struct usernet *net, const struct published *published, uint64_t place);
void relays_remove(struct usernet *net, uint64_t place);
void relays_expire(struct usernet *net);
void relays_free(struct usernet *net);
void relays_end(struct usernet *net);

/* carry.c: text between the end and the host's socket, up to the host, of which `rcv_position` bytes have come in order, and down from it, for
   which the end has so much room; 0 where the connection can't go on. */
int carry_up(struct usernet *net, struct conn *conn, uint64_t rcv_position);
int carry_down(struct usernet *net, struct conn *conn, size_t room);

/* ends.c: makes what keeps the ends, whether it could; frees it, and all ends. */
int ends_init(struct usernet *net);
void ends_free(struct usernet *net);

/* Makes the connection's end, which takes the client's SYN, or calls the client where none came, whether it could; it has none any more. */
int ends_make(struct usernet *net, struct conn *conn);
void ends_remove(struct usernet *net, struct conn *conn);

/* The connection with these addresses and ports, if it has an end; what is reported of the end of one that has. */
struct conn *ends_find(const struct usernet *net, const struct pair *key);
struct tcpcore_status ends_status(const struct usernet *net, const struct conn *conn);

/* Emits all that is due: behind a segment that the end has refused where `is_refused`. */
void ends_emit(struct usernet *net, struct conn *conn, int is_refused);

/* limits.c: the bytes that a new connection to this destination keeps for each direction, or 0 where there may be none. Ones that have
   been half-open or silent for some time, or are in TIME-WAIT, make way for it. */
uint32_t limits_admit(struct usernet *net, const struct pair *key);

/* A connection was made, half-open; its end is in this phase now; its client has sent something; it is dropped. */
void limits_enter(struct usernet *net, struct conn *conn);
void limits_follow(struct usernet *net, struct conn *conn, uint32_t phase);
void limits_touch(struct usernet *net, struct conn *conn);
void limits_leave(struct usernet *net, struct conn *conn);

/* The connection whose place among those of its phase this is. */
struct conn *conn_of_order(struct link *link);

/* A place in a queue becomes its newest, or leaves the queue that it is in. */
void queue_add(struct queue *queue, struct link *link);
void queue_leave(struct link *link);

/* Whether one more stray is answered in this second. */
int limits_answer(struct usernet *net);

/* Whether a socket wasn't to be had for want of descriptors, memory or ports: there may be some later. */
int is_exhausted(int fault);

/* words.c: what the program was told. */
struct words {
    struct tun_config device;
    char space[256];
    struct limits limits;  /* with the memory in MiB */
    uint64_t mtu, fault;
    uint64_t ready, exits; /* descriptors, or NO_DESCRIPTOR: one is written to once all is there, the other's end ends the program */
    uint32_t network;      /* its number, without the host's */
    const char *api;       /* the path of the API's socket, or NULL */
    int has_ipv6;           /* whether there is IPv6 */
    int is_path;           /* whether the namespace is named by its file */
    int shows;             /* whether counts are reported */
    int is_boxed, is_filtered; /* whether what isn't needed is given up: files and rights; calls of the system */
};

#define NO_DESCRIPTOR UINT64_MAX

/* sandbox.c: nothing of the file system is left but /etc and /run to be read, and no right. Then: no call of the system is left but those that
   the loop makes. Whether it could be done. */
int sandbox_enter(const struct words *options);
int sandbox_filter(void);

/* Reads the program's words, which may publish ports. Answers below 0 where it goes on, else the status to end with. */
int words_read(int number, char **words, struct words *options, struct usernet *net);

#endif
