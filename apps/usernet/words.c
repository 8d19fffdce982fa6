/* What the program is told (see usernet.h). C, tested and not proved. */
#define _GNU_SOURCE
#include "usernet.h"

#include <arpa/inet.h>
#include <fcntl.h>
#include <getopt.h>
#include <stdio.h>
#include <stdlib.h>
#include <string.h>
#include <sys/socket.h>

static const char USAGE[] =
    "usernet [OPTION ..] PID|PATH [DEVICE]\n"
    "The network of a namespace, in user space: TCP, UDP and echoes over IPv4 and IPv6. PID is a process in the namespace, or with --netns-type=path PATH\n"
    "is its file. The namespace is 10.0.2.100; 10.0.2.2 leads to the host's loopback, and 10.0.2.3 to its name server. DEVICE is the name that\n"
    "the namespace's TUN device gets (tun0), or of a TAP device that is there.\n"
    "\n"
    "  --publish HOST:PORT:INNER[/udp]\n"
    "                             carries connections (or datagrams) to this address and port of the host, [::1] or the like among them, to a\n"
    "                             port of the namespace's IPv4 address\n"
    "  -a, --api-socket PATH      publishes ports, lists them and removes them for who writes slirp4netns's requests to this socket: add_hostfwd,\n"
    "                             list_hostfwd, remove_hostfwd\n"
    "  --disable-host-loopback    10.0.2.2 leads nowhere\n"
    "  --disable-dns              10.0.2.3 leads nowhere\n"
    "  --outbound-addr ADDRESS|INTERFACE, --outbound-addr6 ADDRESS|INTERFACE\n"
    "                             connects from this address of the host, or from that which an interface has\n"
    "  -6, --enable-ipv6          IPv6, too: the namespace is fd00::100, fd00::2 leads to the host's loopback, fd00::3 to its name server\n"
    "  --cidr ADDRESS/PREFIX      the network, of at most 25 bits, in place of 10.0.2.0/24; its hosts keep their last numbers\n"
    "  -m, --mtu N                of the device, 576 to 65535 (1500), with IPv6 from 1280 on\n"
    "  -r, --ready-fd FD          writes 1 to this descriptor once the network is there\n"
    "  -e, --exit-fd FD           ends when the other side of this descriptor is closed\n"
    "  --netns-type pid|path, --userns-path PATH, --netns NAME\n"
    "                             what the namespace is named by; the user namespace that is entered first; NAME as ip netns has it\n"
    "  -c, --configure            gives a TAP device its address and a route, too, which a TUN device is always given\n"
    "  --enable-sandbox           gives up the file system, but for /etc and /run to be read, and all rights, once the network is there\n"
    "  --enable-seccomp           ends where the program makes a call of the system that it never makes by itself\n"
    "  --no-offloads              exchanges segments with the device one by one, each with its checksum\n"
    "  --stats                    reports counts at its end and on SIGUSR1\n"
    "  -h, --help, -v, --version  says this, or the version of its library, and ends\n"
    "\n"
    "Limits of what the namespace can hold and is answered:\n"
    "  --connections N     so many connections (4096), and no more than there may be descriptors: one whose client was silent for ten\n"
    "                      seconds makes way for another\n"
    "  --half-open N       of them so many whose handshake isn't done (1024), and 256 to one address and port: after a second one makes way for\n"
    "                      another\n"
    "  --memory MIB        so much memory for all ends, at least 4 (1024): the less is left, the smaller are the windows of new ones\n"
    "  --flows N           so many sockets for datagrams and echoes (1024): the one that was silent longest makes way for another\n"
    "  --strays N          so many resets and ICMP messages a second for what leads nowhere, refusals among them (1000)\n"
    "\n"
    "An echo to a host needs the host's leave (net.ipv4.ping_group_range).\n";

/* A number from `least` to `most`; whether the word is one. */
static int read_number(const char *word, uint64_t least, uint64_t most, uint64_t *number)
{
    char *end;
    *number = strtoull(word, &end, 10);
    return *word >= '0' && *word <= '9' && *end == 0 && *number >= least && *number <= most;
}

/* The host of HOST:PORT:INNER, of IPv6 in brackets, ends at its colon; NULL where there is none. */
static const char *read_host(const char *word, union place *at)
{
    char host[INET6_ADDRSTRLEN];
    int end = 0, is_v6 = *word == '[';
    if (sscanf(word, is_v6 ? "[%45[0-9a-fA-F:.]]%n" : "%15[0-9.]%n", host, &end) != 1 || end == 0 || word[end] != ':' || !ports_read_host(host, at))
        return NULL;
    return (at->any.sa_family == AF_INET6) == is_v6 ? word + end : NULL;
}

/* Publishes HOST:PORT:INNER, or HOST:PORT:INNER/udp; whether it could. */
static int publish(const char *word, struct usernet *net)
{
    struct published wanted = {.protocol = IP_TCP};
    const char *rest = read_host(word, &wanted.at);
    char ports[2][6];
    uint64_t port, inner;
    int end = 0;
    if (!rest || sscanf(rest, ":%5[0-9]:%5[0-9]%n", ports[0], ports[1], &end) != 2 || !read_number(ports[0], 1, UINT16_MAX, &port) ||
        !read_number(ports[1], 1, UINT16_MAX, &inner))
        return 0;
    if (strcmp(rest + end, "/udp") == 0)
        wanted.protocol = IP_UDP;
    else if (rest[end] && strcmp(rest + end, "/tcp") != 0)
        return 0;
    *(wanted.at.any.sa_family == AF_INET6 ? &wanted.at.v6.sin6_port : &wanted.at.v4.sin_port) = htons((uint16_t)port);
    wanted.guest_port = (uint16_t)inner;
    if (ports_publish(net, wanted))
        return 1;
    perror(word);
    return 0;
}

/* What is published leads to the namespace's own address, which other words may say later. */
static void aim_published(struct usernet *net, uint32_t addr)
{
    for (int at = 0; at < LISTENERS; at++)
        net->published[at].guest = (tcpcore_addr){{(uint8_t)(addr >> 24), (uint8_t)(addr >> 16), (uint8_t)(addr >> 8), (uint8_t)addr}};
}

/* Whether a descriptor is one that the program was started with: its own are all closed where another one is started. */
static int is_given(uint64_t descriptor) { return fcntl((int)descriptor, F_GETFD) == 0; }

/* Words that a number follows. */
static int read_limit(const char *name, const char *word, struct words *options)
{
    struct limits *limits = &options->limits;
    const struct { const char *name; uint64_t *number, least, most; } NAMES[] = {
        {"mtu", &options->mtu, 576, 65535}, {"connections", &limits->connections, 1, 1 << 20}, {"half-open", &limits->half_open, 1, 1 << 20},
        {"memory", &limits->memory, 4, 1 << 20}, {"flows", &limits->flows, 1, 1 << 20}, {"strays", &limits->strays, 0, UINT32_MAX},
        {"test-fault", &options->fault, 0, 20}, {"test-half-open-each", &limits->each, 1, 1 << 20}, {"test-ports", &limits->ports, 1, 32768},
        {"test-quiet", &limits->quiet, 0, 60000}, {"ready-fd", &options->ready, 0, INT32_MAX}, {"exit-fd", &options->exits, 0, INT32_MAX}};
    for (size_t at = 0; at < sizeof NAMES / sizeof NAMES[0]; at++)
        if (strcmp(name, NAMES[at].name) == 0)
            return read_number(word, NAMES[at].least, NAMES[at].most, NAMES[at].number) &&
                   (NAMES[at].most != INT32_MAX || is_given(*NAMES[at].number));
    return 0;
}

/* A network, of which the hosts 2, 3 and 100 are used. */
static int read_network(const char *word, struct words *options)
{
    char address[16];
    struct in_addr found;
    unsigned prefix;
    int end = 0;
    if (sscanf(word, "%15[0-9.]/%2u%n", address, &prefix, &end) != 2 || word[end] || inet_pton(AF_INET, address, &found) != 1 || prefix < 1 || prefix > 25)
        return 0;
    options->network = ntohl(found.s_addr) & ~(UINT32_MAX >> prefix);
    options->device.prefix = prefix;
    return 1;
}

/* A word with its value, or without one; whether it could be read. */
static int read_option(const char *name, const char *value, struct words *options, struct usernet *net)
{
    const struct { const char *name; int *flag, value; } FLAGS[] = {
        {"stats", &options->shows, 1}, {"no-offloads", &options->device.offloads, 0}, {"configure", &options->device.configures, 1},
        {"enable-sandbox", &options->is_boxed, 1}, {"enable-seccomp", &options->is_filtered, 1}, {"enable-ipv6", &options->has_ipv6, 1}, {"disable-host-loopback", &net->has_loopback, 0},
        {"disable-dns", &net->has_dns, 0}};
    for (size_t at = 0; at < sizeof FLAGS / sizeof FLAGS[0]; at++)
        if (strcmp(name, FLAGS[at].name) == 0)
            return *FLAGS[at].flag = FLAGS[at].value, 1;
    if (strcmp(name, "netns") == 0)
        return snprintf(options->space, sizeof options->space, "/run/netns/%s", value) < (int)sizeof options->space;
    if (strcmp(name, "netns-type") == 0)
        return options->is_path = strcmp(value, "path") == 0, options->is_path || strcmp(value, "pid") == 0;
    if (strcmp(name, "userns-path") == 0)
        return options->device.users = value, 1;
    if (strcmp(name, "api-socket") == 0)
        return options->api = value, *value != 0;
    if (strcmp(name, "outbound-addr") == 0)
        return inet_pton(AF_INET, value, &net->outbound) == 1 || host_interface(value, AF_INET, &net->outbound);
    if (strcmp(name, "outbound-addr6") == 0)
        return inet_pton(AF_INET6, value, &net->outbound6) == 1 || host_interface(value, AF_INET6, &net->outbound6);
    if (strcmp(name, "publish") == 0)
        return publish(value, net);
    if (strcmp(name, "cidr") == 0)
        return read_network(value, options);
    return read_limit(name, value, options);
}

/* What the namespace is named by; whether it could be read. */
static int read_space(const char *word, struct words *options)
{
    uint64_t pid;
    if (options->is_path)
        return snprintf(options->space, sizeof options->space, "%s", word) < (int)sizeof options->space;
    if (!read_number(word, 1, INT32_MAX, &pid))
        return 0;
    options->device.pid = (pid_t)pid;
    return snprintf(options->space, sizeof options->space, "/proc/%d/ns/net", (int)pid) > 0;
}

/* The words that aren't options: the namespace, and the device's name. */
static int read_rest(char **words, struct words *options)
{
    if (*words && !*options->space && !read_space(*words++, options))
        return 0;
    if (*words)
        options->device.name = *words++;
    return !*words && strlen(options->device.name) < 16;
}

static const struct option OPTIONS[] = {
    {"configure", 0, 0, 'c'}, {"mtu", 1, 0, 'm'}, {"ready-fd", 1, 0, 'r'}, {"exit-fd", 1, 0, 'e'}, {"help", 0, 0, 'h'}, {"version", 0, 0, 'v'},
    {"publish", 1, 0, 0}, {"disable-host-loopback", 0, 0, 0}, {"disable-dns", 0, 0, 0}, {"enable-sandbox", 0, 0, 0}, {"enable-seccomp", 0, 0, 0},
    {"outbound-addr", 1, 0, 0}, {"cidr", 1, 0, 0}, {"api-socket", 1, 0, 'a'}, {"enable-ipv6", 0, 0, '6'}, {"outbound-addr6", 1, 0, 0},
    {"netns-type", 1, 0, 0}, {"userns-path", 1, 0, 0}, {"netns", 1, 0, 0}, {"no-offloads", 0, 0, 0}, {"stats", 0, 0, 0},
    {"connections", 1, 0, 0}, {"half-open", 1, 0, 0}, {"memory", 1, 0, 0}, {"flows", 1, 0, 0}, {"strays", 1, 0, 0},
    /* For tests alone, and told to nobody: packets that are lost, doubled and late; limits that no user has to know. */
    {"test-fault", 1, 0, 0}, {"test-half-open-each", 1, 0, 0}, {"test-ports", 1, 0, 0}, {"test-quiet", 1, 0, 0}, {0}};

/* The long name of an option that was told by its letter, or by its place. */
static const char *name_of(int letter, int place)
{
    for (int at = 0; letter && OPTIONS[at].name; at++)
        if (OPTIONS[at].val == letter)
            return OPTIONS[at].name;
    return OPTIONS[place].name;
}

static int fault(const char *before, const char *word, const char *value)
{
    return fprintf(stderr, "usernet: no such word, or no such value behind it: '%s%s%s%s' (see usernet --help)\n", before, word, *value ? "=" : "", value), 1;
}

/* Reads all options; answers below 0 where it goes on. */
static int read_options(int number, char **words, struct words *options, struct usernet *net)
{
    int letter, place = 0;
    opterr = 0;
    while ((letter = getopt_long(number, words, "cm:r:e:a:6hv", OPTIONS, &place)) != -1) {
        if (letter == 'h')
            return fputs(USAGE, stdout), 0;
        if (letter == 'v')
            return printf("usernet 0.%u\n", tcpcore_version()), 0;
        if (letter == '?')
            return fault("", words[optind - 1], "");
        const char *name = name_of(letter, place);
        if (!read_option(name, optarg, options, net))
            return fault("--", name, optarg ? optarg : "");
    }
    return -1;
}

int words_read(int number, char **words, struct words *options, struct usernet *net)
{
    *options = (struct words){.device = {.name = "tun0", .prefix = 24, .offloads = 1}, .network = 0x0a000200, .mtu = 1500,
                           .ready = NO_DESCRIPTOR, .exits = NO_DESCRIPTOR,
                           .limits = {.connections = 4096, .half_open = 1024, .each = 256, .memory = 1024, .ports = 32768, .flows = 1024,
                                      .strays = 1000, .quiet = QUIET}};
    net->has_loopback = net->has_dns = 1;
    int status = read_options(number, words, options, net);
    if (status >= 0)
        return status;
    if (!read_rest(words + optind, options) || !*options->space)
        return fputs("usernet: no namespace, or more words than it and a device: see usernet --help\n", stderr), 1;
    options->device.space = options->space;
    options->device.mtu = (uint32_t)options->mtu;
    options->device.addr = options->network + 100;
    options->device.gateway = options->network + 2;
    options->device.has_ipv6 = options->has_ipv6;
    aim_published(net, options->device.addr);
    if (options->has_ipv6 && options->mtu < IP6_LEAST_MTU)
        return fputs("usernet: IPv6 wants an MTU of 1280 or more\n", stderr), 1;
    return -1;
}
