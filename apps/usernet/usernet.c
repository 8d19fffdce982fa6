/*
 * usernet: the network of a namespace, in user space.
 *     usernet [OPTION ..] PID|PATH [DEVICE]
 * Each connection of the namespace ends in an end of ours (../../c/tcpcore/tcpcore.h), behind which a socket of the host goes
 * on to the same address and port; datagrams and echoes go through sockets of the host's, too. 10.0.2.2 is the host's loopback,
 * 10.0.2.3 its name server, 10.0.2.100 the namespace; with -6 fd00::2, fd00::3 and fd00::100 are, too. It prints "ready", ends on
 * SIGTERM or SIGINT with every connection reset, and reports counts and bytes held with --stats, at its end and on SIGUSR1.
 * What the namespace can hold is limited: --help tells how, and all other words. Where the device is deleted it ends with status 1.
 */
#define _GNU_SOURCE
#include "usernet.h"

#include <malloc.h>
#include <signal.h>
#include <stdio.h>
#include <stdlib.h>
#include <string.h>
#include <sys/resource.h>
#include <sys/signalfd.h>
#include <sys/stat.h>
#include <unistd.h>
#include <wchar.h>

/* The descriptors that are for no connection, and the fewest that are for some. */
enum { SPARE = 40, LEAST = 2, MIB = 1 << 20 };

/* For so many milliseconds a namespace is waited for, and looked at after so many. */
enum { PATIENCE = 5000, STEP = 5 };

static struct usernet net;
static struct words options;
static int signals;

static void report(void)
{
    static const char *const names[COUNTERS] = {
        "opened", "refused", "published", "strays", "abandoned", "malformed", "arrived", "emitted", "up", "down", "full", "recycled",
        "exhausted", "withheld", "unsaid", "now", "most", "half_open", "reserved", "flows", "flows_now", "datagrams", "unreachable",
        "pieces", "joined", "errors", "narrowed"};
    struct mallinfo2 held = mallinfo2();
    for (int at = 0; at < COUNTERS; at++)
        printf("%s %llu ", names[at], (unsigned long long)net.counters[at]);
    printf("held %zu\n", held.uordblks + held.hblkhd);
    fflush(stdout);
}

/* SIGUSR1 asks for the counts, another signal ends the program. */
static void read_signal(void)
{
    struct signalfd_siginfo found = {0};
    if (read(signals, &found, sizeof found) < 0 || found.ssi_signo != SIGUSR1)
        net.stops = 1;
    else if (options.shows)
        report();
}

/* The host with this number in the namespace's network. */
static tcpcore_addr host_of(uint8_t number)
{
    uint32_t addr = options.network + number;
    return (tcpcore_addr){{(uint8_t)(addr >> 24), (uint8_t)(addr >> 16), (uint8_t)(addr >> 8), (uint8_t)addr}};
}

/* As many descriptors as there may be, and no more connections and flows than these are for. */
static struct limits limits_now(void)
{
    struct rlimit files;
    struct limits limits = options.limits;
    getrlimit(RLIMIT_NOFILE, &files);
    files.rlim_cur = files.rlim_max;
    setrlimit(RLIMIT_NOFILE, &files);
    uint64_t all = files.rlim_max > SPARE + LEAST ? files.rlim_max - SPARE : LEAST;
    limits.flows = limits.flows < all / 2 ? limits.flows : all / 2;
    limits.connections = limits.connections < all - limits.flows ? limits.connections : all - limits.flows;
    limits.memory *= MIB;
    return limits;
}

/* What the words say of the network. */
static int prepare(void)
{
    net.limits = limits_now();
    net.offloads = options.device.offloads;
    net.is_tap = tun_is_tap(net.device, net.host.byte);
    net.mtu = options.device.mtu;
    net.mss = (uint16_t)(options.device.mtu < 1500 ? options.device.mtu - HEADERS : 1460);
    net.own = host_of(100), net.gateway = host_of(2), net.resolver = host_of(3);
    net.up.percent = net.down.percent = (uint32_t)options.fault;
    net.up.state = 0, net.down.state = 1;
    return !options.has_ipv6 || (net.v6 = calloc((size_t)V6_SETS * V6_WAYS, sizeof *net.v6)) != NULL;
}

/* Makes all that there is; whether it could. */
static int set_up(void)
{
    uint8_t secret[16];
    sigset_t taken;
    sigemptyset(&taken);
    sigaddset(&taken, SIGTERM), sigaddset(&taken, SIGINT), sigaddset(&taken, SIGUSR1);
    sigprocmask(SIG_BLOCK, &taken, NULL);
    signals = signalfd(-1, &taken, SFD_NONBLOCK | SFD_CLOEXEC);
    if (options.api && (net.api = api_open(options.api)) < 0)
        return perror(options.api), 0;
    return signals >= 0 && !getentropy(secret, sizeof secret) && tun_open(&options.device, &net.device, 1) && prepare() &&
           loop_init(&net, secret);
}

/* Whether a namespace is that of this program. */
static int is_ours(const char *file)
{
    struct stat found, ours;
    return stat(file, &found) == 0 && stat("/proc/self/ns/net", &ours) == 0 && found.st_dev == ours.st_dev && found.st_ino == ours.st_ino;
}

/* A process that was just started may not have its namespace yet: until then it has that of whoever started it, which nobody wants to be
   given a device. */
static int is_another(const char *file)
{
    for (int waited = 0; is_ours(file) && waited < PATIENCE; waited += STEP)
        usleep(1000 * STEP);
    if (is_ours(file))
        fprintf(stderr, "usernet: %s is the network namespace that usernet runs in\n", file);
    return !is_ours(file);
}

/* The network is there: who started the program is told. */
static void report_ready(void)
{
    puts("ready");
    fflush(stdout);
    if (options.ready == NO_DESCRIPTOR)
        return;
    if (write((int)options.ready, "1", 1) != 1)
        perror("--ready-fd");
    if (options.ready > STDERR_FILENO) /* else a socket would have its number, and get what is said */
        close((int)options.ready);
}

/* A stream that is first used behind the filter would ask the system what its file is, which the filter doesn't allow: so stdout is given its
   buffer here, and stderr the width of its characters. Where nobody reads what is written the program goes on. */
static void prepare_streams(void)
{
    static char room[BUFSIZ];
    setvbuf(stdout, room, _IOFBF, sizeof room);
    fwide(stderr, -1);
    signal(SIGPIPE, SIG_IGN);
}

int main(int number, char **words)
{
    prepare_streams();
    net.api = net.events = -1;
    int status = number == 0 ? 1 : words_read(number, words, &options, &net);
    if (status >= 0)
        return status;
    if (!is_another(options.space) || !set_up() || (options.is_boxed && !sandbox_enter(&options)) || (options.is_filtered && !sandbox_filter()))
        return 1;
    report_ready();
    loop_run(&net, signals, options.exits == NO_DESCRIPTOR ? -1 : (int)options.exits, read_signal);
    if (options.shows)
        report();
    return net.status;
}
