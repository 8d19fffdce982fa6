/* What the program gives up once it has all that it needs (see usernet.h). C, tested and not proved. */
#define _GNU_SOURCE
#include "usernet.h"

#include <errno.h>
#include <fcntl.h>
#include <linux/capability.h>
#include <sched.h>
#include <stdio.h>
#include <string.h>
#include <sys/ioctl.h>
#include <sys/mount.h>
#include <sys/prctl.h>
#include <sys/stat.h>
#include <sys/syscall.h>
#include <unistd.h>
#ifdef HAS_SECCOMP
#include <seccomp.h>
#endif

static int fails(const char *what)
{
    perror(what);
    return 0;
}

/* The namespace's user namespace is entered by who isn't root: there this program may make a namespace of mounts. */
static int enter_users(const struct words *options)
{
    char name[64];
    snprintf(name, sizeof name, "/proc/%d/ns/user", (int)options->device.pid);
    int users = open(options->device.users ? options->device.users : name, O_RDONLY | O_CLOEXEC);
    int is_there = users >= 0 && setns(users, CLONE_NEWUSER) == 0;
    if (users >= 0)
        close(users);
    return is_there;
}

/* A folder of the system's is in the new root, and nothing can be written to it, nor to what is mounted in it: so it takes Linux 5.12. */
static int keep_folder(const char *name)
{
    struct mount_attr only_read = {.attr_set = MOUNT_ATTR_RDONLY | MOUNT_ATTR_NOSUID | MOUNT_ATTR_NODEV | MOUNT_ATTR_NOEXEC};
    char place[64];
    snprintf(place, sizeof place, "/tmp%s", name);
    return mkdir(place, 0755) == 0 && mount(name, place, NULL, MS_BIND | MS_REC, NULL) == 0 &&
           mount_setattr(AT_FDCWD, place, AT_RECURSIVE, &only_read, sizeof only_read) == 0;
}

/* The root is an empty folder but for /etc and /run, of which the file of name servers is read. */
static int change_root(void)
{
    return unshare(CLONE_NEWNS) == 0 && mount(NULL, "/", NULL, MS_REC | MS_PRIVATE, NULL) == 0 &&
           mount("usernet", "/tmp", "tmpfs", MS_NOSUID | MS_NODEV | MS_NOEXEC, "size=4k,mode=755") == 0 && keep_folder("/etc") &&
           keep_folder("/run") && mkdir("/tmp/old", 0700) == 0 && syscall(SYS_pivot_root, "/tmp", "/tmp/old") == 0 && chdir("/") == 0 &&
           umount2("/old", MNT_DETACH) == 0 && rmdir("/old") == 0 &&
           mount(NULL, "/", NULL, MS_REMOUNT | MS_BIND | MS_RDONLY | MS_NOSUID | MS_NODEV | MS_NOEXEC, NULL) == 0;
}

/* No capability is left, and none can be had again; but where ports may be published later, that to have one below 1024. */
static int drop_capabilities(int publishes)
{
    struct __user_cap_header_struct head = {.version = _LINUX_CAPABILITY_VERSION_3};
    struct __user_cap_data_struct kept[2] = {{0}};
    if (publishes)
        kept[0].effective = kept[0].permitted = 1u << CAP_NET_BIND_SERVICE;
    for (int number = 0; prctl(PR_CAPBSET_READ, number, 0, 0, 0) >= 0; number++)
        if (!(publishes && number == CAP_NET_BIND_SERVICE) && prctl(PR_CAPBSET_DROP, number, 0, 0, 0) != 0)
            return 0;
    return syscall(SYS_capset, &head, kept) == 0 && prctl(PR_SET_NO_NEW_PRIVS, 1, 0, 0, 0) == 0;
}

int sandbox_enter(const struct words *options)
{
    int is_root = geteuid() == 0;
    if (!is_root && !enter_users(options))
        return fails("--enable-sandbox: the user namespace");
    if (!change_root())
        return fails("--enable-sandbox: the root");
    return drop_capabilities(is_root && options->api) ? 1 : fails("--enable-sandbox: the capabilities");
}

#ifdef HAS_SECCOMP
/* What the loop calls, and what its memory and its end take. */
static const int CALLS[] = {
    SCMP_SYS(epoll_wait), SCMP_SYS(epoll_pwait), SCMP_SYS(epoll_pwait2), SCMP_SYS(epoll_ctl), SCMP_SYS(read), SCMP_SYS(write), SCMP_SYS(close),
    SCMP_SYS(recvfrom), SCMP_SYS(recvmsg), SCMP_SYS(sendto), SCMP_SYS(sendmsg), SCMP_SYS(accept4), SCMP_SYS(connect), SCMP_SYS(bind),
    SCMP_SYS(listen), SCMP_SYS(shutdown), SCMP_SYS(getsockopt), SCMP_SYS(setsockopt), SCMP_SYS(clock_gettime), SCMP_SYS(futex), SCMP_SYS(brk), SCMP_SYS(mmap),
    SCMP_SYS(munmap), SCMP_SYS(mremap), SCMP_SYS(mprotect), SCMP_SYS(madvise), SCMP_SYS(fstat), SCMP_SYS(newfstatat), SCMP_SYS(lseek),
    SCMP_SYS(rt_sigprocmask), SCMP_SYS(rt_sigreturn), SCMP_SYS(restart_syscall), SCMP_SYS(sched_yield), SCMP_SYS(sched_getaffinity), SCMP_SYS(set_robust_list),
    SCMP_SYS(rseq), SCMP_SYS(exit), SCMP_SYS(exit_group)};

/* Beside them sockets of IPv4 and IPv6 (the host's name server may have either), files that are only read, and the number of an interface,
   which a name server's address may name. Whatever else is called ends the program. */
int sandbox_filter(void)
{
    scmp_filter_ctx filter = seccomp_init(SCMP_ACT_KILL_PROCESS);
    int fault = !filter || seccomp_attr_set(filter, SCMP_FLTATR_CTL_TSYNC, 1) != 0;
    for (size_t at = 0; !fault && at < sizeof CALLS / sizeof CALLS[0]; at++)
        fault = seccomp_rule_add(filter, SCMP_ACT_ALLOW, CALLS[at], 0) != 0;
    fault = fault || seccomp_rule_add(filter, SCMP_ACT_ALLOW, SCMP_SYS(socket), 1, SCMP_A0(SCMP_CMP_EQ, AF_INET)) != 0 ||
            seccomp_rule_add(filter, SCMP_ACT_ALLOW, SCMP_SYS(socket), 1, SCMP_A0(SCMP_CMP_EQ, AF_INET6)) != 0 ||
            seccomp_rule_add(filter, SCMP_ACT_ALLOW, SCMP_SYS(ioctl), 1, SCMP_A1(SCMP_CMP_EQ, SIOCGIFINDEX)) != 0 ||
            seccomp_rule_add(filter, SCMP_ACT_ALLOW, SCMP_SYS(openat), 1, SCMP_A2(SCMP_CMP_MASKED_EQ, O_ACCMODE | O_CREAT, O_RDONLY)) != 0 ||
            seccomp_load(filter) != 0;
    seccomp_release(filter);
    return !fault || fails("--enable-seccomp");
}
#else
int sandbox_filter(void)
{
    fputs("usernet: --enable-seccomp: built without libseccomp\n", stderr);
    return 0;
}
#endif
