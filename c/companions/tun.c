/* A TUN device inside a namespace (see tun.h). A child enters the namespace and hands the descriptor over. */
#define _GNU_SOURCE
#include "tun.h"

#include <arpa/inet.h>
#include <fcntl.h>
#include <linux/if_tun.h>
#include <net/if.h>
#include <net/route.h>
#include <sched.h>
#include <stdio.h>
#include <string.h>
#include <sys/ioctl.h>
#include <sys/socket.h>
#include <sys/wait.h>
#include <unistd.h>

static int fails(const char *what)
{
    perror(what);
    return -1;
}

/* Enters the namespaces, that of users first: it decides what may be done in the other one. */
static int enter(const struct tun_config *config)
{
    char name[64];
    int net = open(config->space, O_RDONLY | O_CLOEXEC);
    snprintf(name, sizeof name, "/proc/%d/ns/user", (int)config->pid);
    int enters = config->users || (config->pid && geteuid() != 0);
    int user = enters ? open(config->users ? config->users : name, O_RDONLY | O_CLOEXEC) : -1;
    if (net < 0 || (config->users && user < 0) || (user >= 0 && setns(user, CLONE_NEWUSER) != 0) || setns(net, CLONE_NEWNET) != 0)
        return fails(config->space);
    return 0;
}

static struct sockaddr of_addr(uint32_t addr)
{
    struct sockaddr_in in = {.sin_family = AF_INET, .sin_addr.s_addr = htonl(addr)};
    struct sockaddr out;
    memcpy(&out, &in, sizeof out);
    return out;
}

/* Address, MTU, up, and the default route; the loopback device too. */
static int bring_up(const struct tun_config *config, int is_tap)
{
    int control = socket(AF_INET, SOCK_DGRAM | SOCK_CLOEXEC, 0);
    struct ifreq request = {.ifr_mtu = (int)config->mtu}, lo = {.ifr_name = "lo", .ifr_flags = IFF_UP | IFF_RUNNING};
    char name[IFNAMSIZ];
    struct rtentry route = {.rt_dst = of_addr(0), .rt_genmask = of_addr(0), .rt_flags = RTF_UP, .rt_dev = name};
    if (is_tap)
        route.rt_gateway = of_addr(config->gateway), route.rt_flags |= RTF_GATEWAY;
    snprintf(name, sizeof name, "%s", config->name);
    memcpy(request.ifr_name, name, sizeof name);
    int bad = control < 0 || ioctl(control, SIOCSIFMTU, &request) != 0;
    request.ifr_addr = of_addr(config->addr);
    bad = bad || ioctl(control, SIOCSIFADDR, &request) != 0;
    request.ifr_addr = of_addr(~(uint32_t)(UINT64_C(0xffffffff) >> config->prefix));
    bad = bad || ioctl(control, SIOCSIFNETMASK, &request) != 0;
    request.ifr_flags = IFF_UP | IFF_RUNNING;
    bad = bad || ioctl(control, SIOCSIFFLAGS, &request) != 0 || ioctl(control, SIOCSIFFLAGS, &lo) != 0 ||
          ioctl(control, SIOCADDRT, &route) != 0;
    if (control >= 0)
        close(control);
    return bad ? fails(config->name) : 0;
}

/* As the ioctl SIOCSIFADDR takes it of IPv6 (struct in6_ifreq of linux/ipv6.h, which can't stand beside the C library's headers). */
struct v6_request { struct in6_addr addr; uint32_t prefix; int index; };

/* Nobody else can have the address: nothing waits until that was asked. */
static void ask_nobody(const char *device)
{
    char name[64];
    snprintf(name, sizeof name, "/proc/sys/net/ipv6/conf/%.15s/accept_dad", device);
    int setting = open(name, O_WRONLY | O_CLOEXEC);
    if (setting >= 0 && write(setting, "0", 1) != 1)
        perror(name);
    if (setting >= 0)
        close(setting);
}

/* IPv6 address and default route. */
static int bring_up_v6(const struct tun_config *config, int is_tap)
{
    int control = socket(AF_INET6, SOCK_DGRAM | SOCK_CLOEXEC, 0), index = (int)if_nametoindex(config->name);
    struct v6_request request = {.addr = {.s6_addr = {0xfd, [14] = 1}}, .prefix = 64, .index = index};
    struct in6_rtmsg route = {.rtmsg_flags = RTF_UP, .rtmsg_metric = 1, .rtmsg_ifindex = index};
    if (is_tap)
        route.rtmsg_gateway = (struct in6_addr){.s6_addr = {0xfd, [15] = 2}}, route.rtmsg_flags |= RTF_GATEWAY;
    int bad = control < 0 || ioctl(control, SIOCSIFADDR, &request) != 0 || ioctl(control, SIOCADDRT, &route) != 0;
    if (control >= 0)
        close(control);
    return bad ? fails(config->name) : 0;
}

static int bring_up_all(const struct tun_config *config, int is_tap)
{
    if (config->has_ipv6)
        ask_nobody(config->name);
    return bring_up(config, is_tap) != 0 || (config->has_ipv6 && bring_up_v6(config, is_tap) != 0);
}

/* Attaches to the device, and makes it where it isn't there. */
static int attach(const struct tun_config *config, int device, short kind)
{
    struct ifreq request = {.ifr_flags = (short)(IFF_NO_PI | kind | (config->offloads ? IFF_VNET_HDR : 0))};
    snprintf(request.ifr_name, sizeof request.ifr_name, "%s", config->name);
    return ioctl(device, TUNSETIFF, &request);
}

/* One queue of the device, which the first of them makes: a TUN device, unless there is a TAP device of this name. */
static int queue(const struct tun_config *config, short kind)
{
    int device = open("/dev/net/tun", O_RDWR | O_NONBLOCK | O_CLOEXEC), header = TUN_HEADER;
    if (device < 0 || (attach(config, device, IFF_TUN | kind) != 0 && attach(config, device, IFF_TAP | kind) != 0))
        return fails("/dev/net/tun");
    if (config->offloads && (ioctl(device, TUNSETVNETHDRSZ, &header) != 0 ||
                             ioctl(device, TUNSETOFFLOAD, TUN_F_CSUM | TUN_F_TSO4 | (config->has_ipv6 ? TUN_F_TSO6 : 0)) != 0))
        return fails("offloads");
    return device;
}

/* One descriptor over a socket: sent where `device` isn't negative, else received. */
static int pass(int channel, int device)
{
    char byte = 0;
    union { struct cmsghdr head; char bytes[CMSG_SPACE(sizeof(int))]; } control = {.bytes = {0}};
    struct iovec piece = {&byte, 1};
    struct msghdr message = {.msg_iov = &piece, .msg_iovlen = 1, .msg_control = &control,
                             .msg_controllen = sizeof control};
    if (device < 0) {
        if (recvmsg(channel, &message, MSG_CMSG_CLOEXEC) == 1 && CMSG_FIRSTHDR(&message))
            memcpy(&device, CMSG_DATA(CMSG_FIRSTHDR(&message)), sizeof device);
        return device;
    }
    *CMSG_FIRSTHDR(&message) = (struct cmsghdr){
        .cmsg_len = CMSG_LEN(sizeof device), .cmsg_level = SOL_SOCKET, .cmsg_type = SCM_RIGHTS};
    memcpy(CMSG_DATA(CMSG_FIRSTHDR(&message)), &device, sizeof device);
    return sendmsg(channel, &message, 0) == 1 ? 0 : -1;
}

/* What the child does: each queue is handed over as it is made. */
static int make(const struct tun_config *config, int channel, uint32_t count)
{
    if (enter(config) != 0)
        return -1;
    for (uint32_t at = 0; at < count; at++) {
        int device = queue(config, count > 1 ? IFF_MULTI_QUEUE : 0), is_tap = device >= 0 && tun_is_tap(device, (uint8_t[6]){0});
        int comes_up = at == 0 && (!is_tap || config->configures);
        if (device < 0 || (comes_up && bring_up_all(config, is_tap) != 0) || pass(channel, device) != 0)
            return -1;
    }
    return 0;
}

int tun_is_tap(int queue, uint8_t addr[6])
{
    struct ifreq request = {0}, hardware = {0};
    if (ioctl(queue, TUNGETIFF, &request) != 0 || !(request.ifr_flags & IFF_TAP) || ioctl(queue, SIOCGIFHWADDR, &hardware) != 0)
        return 0;
    memcpy(addr, hardware.ifr_hwaddr.sa_data, 6);
    return 1;
}

int tun_open(const struct tun_config *config, int *queues, uint32_t count)
{
    int channel[2], made = 1;
    if (socketpair(AF_UNIX, SOCK_STREAM | SOCK_CLOEXEC, 0, channel) != 0)
        return fails("socketpair") == 0;
    pid_t child = fork();
    if (child == 0)
        _exit(make(config, channel[1], count) < 0);
    close(channel[1]);
    for (uint32_t at = 0; child > 0 && at < count && made; at++)
        made = (queues[at] = pass(channel[0], -1)) >= 0;
    close(channel[0]);
    if (child > 0)
        waitpid(child, NULL, 0);
    return child < 0 ? fails("fork") == 0 : made;
}
