/* Where the namespace's addresses lead on the host (see usernet.h). C, tested and not proved. */
#define _GNU_SOURCE
#include "usernet.h"
#include "companions/segment.h"

#include <arpa/inet.h>
#include <errno.h>
#include <ifaddrs.h>
#include <net/if.h>
#include <stdio.h>
#include <stdlib.h>
#include <string.h>
#include <sys/ioctl.h>
#include <sys/socket.h>
#include <sys/stat.h>
#include <unistd.h>

/* The port of name servers (RFC 1035, 4.2), and the file that has the host's. */
enum { DOMAIN_PORT = 53 };
static const char SERVERS[] = "/etc/resolv.conf";

static int is_equal(const struct ip6_addr *one, const struct ip6_addr *other) { return memcmp(one, other, sizeof *one) == 0; }
static int is_same(tcpcore_addr one, tcpcore_addr other) { return memcmp(&one, &other, sizeof one) == 0; }

/* The number of an interface, by its name or as it is written; 0 where there is none. */
static uint32_t interface_number(const char *word)
{
    struct ifreq request = {0};
    int any = socket(AF_INET6, SOCK_DGRAM | SOCK_CLOEXEC, 0);
    snprintf(request.ifr_name, sizeof request.ifr_name, "%s", word);
    int is_there = any >= 0 && ioctl(any, SIOCGIFINDEX, &request) == 0;
    if (any >= 0)
        close(any);
    return is_there ? (uint32_t)request.ifr_ifindex : (uint32_t)strtoul(word, NULL, 10);
}

/* A name server's address as the file has it: of this link's with its interface, and 0.0.0.0 or :: where it is this host. */
static void read_server(char *word, struct servers *servers)
{
    union place found;
    char *scope = strchr(word, '%');
    if (scope)
        *scope++ = 0;
    if (!ports_read_host(word, &found))
        return;
    if (found.any.sa_family == AF_INET && servers->v4.any.sa_family == 0) {
        found.v4.sin_port = htons(DOMAIN_PORT);
        if (found.v4.sin_addr.s_addr == 0)
            found.v4.sin_addr.s_addr = htonl(INADDR_LOOPBACK);
        servers->v4 = found;
    } else if (found.any.sa_family == AF_INET6 && servers->v6.any.sa_family == 0) {
        found.v6.sin6_port = htons(DOMAIN_PORT);
        found.v6.sin6_scope_id = scope ? interface_number(scope) : 0;
        if (IN6_IS_ADDR_UNSPECIFIED(&found.v6.sin6_addr))
            found.v6.sin6_addr = in6addr_loopback;
        servers->v6 = found;
    }
}

/* The first name server of either family. Of a line that is longer than any name server's the rest isn't taken for another one. */
static void read_servers(struct servers *servers)
{
    char line[256], word[64];
    FILE *file = fopen(SERVERS, "re");
    int begins = 1;
    servers->v4 = servers->v6 = (union place){0};
    while (file && fgets(line, sizeof line, file)) {
        if (begins && sscanf(line, " nameserver %63s", word) == 1)
            read_server(word, servers);
        begins = strchr(line, '\n') != NULL;
    }
    if (file)
        fclose(file);
}

/* The host's name server: the first one of the family in which it is asked, or else of the other one. Where the file names none it is the
   host itself (resolv.conf(5)), unless its loopback is left alone. The file is read again where it has changed. */
static int name_server(struct usernet *net, int family, union place *place)
{
    const union place here = {.v4 = {.sin_family = AF_INET, .sin_port = htons(DOMAIN_PORT), .sin_addr = {htonl(INADDR_LOOPBACK)}}};
    struct stat now = {.st_mtim = {.tv_nsec = -1}};
    struct servers *servers = &net->servers;
    stat(SERVERS, &now);
    if (memcmp(&now.st_mtim, &servers->read_at, sizeof now.st_mtim) != 0) {
        read_servers(servers);
        servers->read_at = now.st_mtim;
    }
    int has_v4 = servers->v4.any.sa_family != 0, has_v6 = servers->v6.any.sa_family != 0;
    *place = has_v6 && (family == AF_INET6 || !has_v4) ? servers->v6 : has_v4 ? servers->v4 : here;
    return has_v4 || has_v6 || net->has_loopback;
}

/* An address of IPv4: none but the gateway's leads to the host's loopback. What a namespace makes up with 127.0.0.1 in it doesn't (RFC
   1122, 3.2.1.3). */
static int place_v4(struct usernet *net, tcpcore_addr to, uint16_t port, union place *place)
{
    *place = (union place){.v4 = {.sin_family = AF_INET, .sin_port = htons(port), .sin_addr = {htonl(INADDR_LOOPBACK)}}};
    if (is_same(to, net->gateway))
        return net->has_loopback;
    if (is_same(to, net->resolver))
        return net->has_dns && port == DOMAIN_PORT && name_server(net, AF_INET, place);
    memcpy(&place->v4.sin_addr, &to, sizeof to);
    return to.byte[0] != 0 && to.byte[0] != 127 && to.byte[0] < 224;
}

/* One of IPv6: neither its loopback nor an IPv4 address in another form leads anywhere, nor does an address that means one of this link's
   hosts. */
static int place_v6(struct usernet *net, const struct ip6_addr *to, uint16_t port, union place *place)
{
    *place = (union place){.v6 = {.sin6_family = AF_INET6, .sin6_port = htons(port), .sin6_addr = in6addr_loopback}};
    if (is_equal(to, &V6_GATEWAY))
        return net->has_loopback;
    if (is_equal(to, &V6_RESOLVER))
        return net->has_dns && port == DOMAIN_PORT && name_server(net, AF_INET6, place);
    memcpy(&place->v6.sin6_addr, to, sizeof *to);
    return ip6_may_be_peer(*to) && !(to->byte[0] == 0xfe && to->byte[1] >= 0x80);
}

int host_place(struct usernet *net, tcpcore_addr to, uint16_t port, union place *place)
{
    const struct ip6_addr *v6 = ip6_is_surrogate(to) ? v6_find(net, to) : NULL;
    int leads = v6 ? place_v6(net, v6, port, place) : place_v4(net, to, port, place);
    errno = leads ? errno : EACCES;
    return leads;
}

int host_is_loopback(const union place *place)
{
    return place->any.sa_family == AF_INET6 ? IN6_IS_ADDR_LOOPBACK(&place->v6.sin6_addr) : ntohl(place->v4.sin_addr.s_addr) >> 24 == 127;
}

/* Addresses that mean this network's own hosts are nobody else's: who sends by one of them would be taken for that. */
static int is_own(const struct usernet *net, tcpcore_addr addr)
{
    return is_same(addr, net->own) || is_same(addr, net->gateway) || is_same(addr, net->resolver);
}

int host_sender(struct usernet *net, const union place *from, tcpcore_addr *addr)
{
    const struct ip_net none = {.prefix = 32};
    struct ip6_addr v6;
    if (from->any.sa_family == AF_INET6) {
        memcpy(&v6, &from->v6.sin6_addr, sizeof v6);
        if (host_is_loopback(from))
            return v6_enter(net, &V6_GATEWAY, addr);
        return ip6_may_be_peer(v6) && !v6_is_own(&v6) && !(v6.byte[0] == 0xfe && v6.byte[1] >= 0x80) && v6_enter(net, &v6, addr);
    }
    memcpy(addr, &from->v4.sin_addr, sizeof *addr);
    if (host_is_loopback(from))
        return *addr = net->gateway, 1;
    return ip_may_be_peer(none, *addr) && !is_own(net, *addr);
}

/* A socket has the address that the program was told to go out by. Where the host doesn't have this address nothing is reached by it: that
   is no want of ports, which end later. */
static int is_bound(const struct usernet *net, int socket, int family)
{
    const union place v4 = {.v4 = {.sin_family = AF_INET, .sin_addr = net->outbound}};
    const union place v6 = {.v6 = {.sin6_family = AF_INET6, .sin6_addr = net->outbound6}};
    int is_v6 = family == AF_INET6;
    if (is_v6 ? IN6_IS_ADDR_UNSPECIFIED(&net->outbound6) : net->outbound.s_addr == 0)
        return 1;
    setsockopt(socket, IPPROTO_IP, IP_BIND_ADDRESS_NO_PORT, &(int){1}, sizeof(int));
    int is_done = bind(socket, is_v6 ? &v6.any : &v4.any, is_v6 ? sizeof v6.v6 : sizeof v4.v4) == 0;
    if (!is_done && errno == EADDRNOTAVAIL)
        errno = ENETUNREACH;
    return is_done;
}

/* A socket that is of no use any more; below 0, and errno as it was. */
static int without(int socket)
{
    int fault = errno;
    if (socket >= 0)
        close(socket);
    errno = fault;
    return -1;
}

static int new_socket(int family, int kind, int protocol)
{
    int host = socket(family, kind | SOCK_NONBLOCK | SOCK_CLOEXEC, protocol);
    if (host >= 0 && family == AF_INET6)
        setsockopt(host, IPPROTO_IPV6, IPV6_V6ONLY, &(int){1}, sizeof(int));
    return host;
}

/* What a socket's packets meet on their way is told by its queue of errors, one by one. */
static int tells_errors(int socket, int family)
{
    int is_v6 = family == AF_INET6;
    return setsockopt(socket, is_v6 ? IPPROTO_IPV6 : IPPROTO_IP, is_v6 ? IPV6_RECVERR : IP_RECVERR, &(int){1}, sizeof(int)) == 0;
}

int host_socket(struct usernet *net, const union place *to, int kind, int protocol)
{
    int host = new_socket(to->any.sa_family, kind, protocol), is_echo = protocol != 0;
    if (host >= 0 && (!is_echo || tells_errors(host, to->any.sa_family)) && (host_is_loopback(to) || is_bound(net, host, to->any.sa_family)) &&
        (connect(host, &to->any, place_length(to)) == 0 || errno == EINPROGRESS))
        return host;
    return without(host);
}

/* Its port is dealt when it sends first. */
int host_open(struct usernet *net, int family)
{
    int host = new_socket(family, SOCK_DGRAM, 0);
    if (host >= 0 && tells_errors(host, family) && is_bound(net, host, family))
        return host;
    return without(host);
}

/* Of IPv6 not an address of its link alone, by which nothing farther is reached. */
int host_interface(const char *name, int family, void *addr)
{
    struct ifaddrs *all = NULL;
    int is_found = 0;
    if (getifaddrs(&all) != 0)
        return 0;
    for (const struct ifaddrs *at = all; at && !is_found; at = at->ifa_next) {
        if (!at->ifa_addr || at->ifa_addr->sa_family != family || strcmp(at->ifa_name, name) != 0)
            continue;
        const union place *place = (const union place *)(const void *)at->ifa_addr;
        is_found = family != AF_INET6 || !IN6_IS_ADDR_LINKLOCAL(&place->v6.sin6_addr);
        if (is_found && family == AF_INET6)
            memcpy(addr, &place->v6.sin6_addr, sizeof place->v6.sin6_addr);
        else if (is_found)
            memcpy(addr, &place->v4.sin_addr, sizeof place->v4.sin_addr);
    }
    freeifaddrs(all);
    return is_found;
}
