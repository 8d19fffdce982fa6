/* The test of sandbox.c's filter: each call that it doesn't know of ends a process with SIGSYS, and some that it knows don't. */
#define _GNU_SOURCE
#include "usernet.h"

#include <errno.h>
#include <fcntl.h>
#include <linux/if_tun.h>
#include <signal.h>
#include <stdio.h>
#include <stdlib.h>
#include <sys/ioctl.h>
#include <sys/mount.h>
#include <sys/ptrace.h>
#include <sys/socket.h>
#include <sys/stat.h>
#include <sys/syscall.h>
#include <sys/wait.h>
#include <unistd.h>

static char *const WORDS[] = {"true", NULL};

static int start(void) { return execve("/bin/true", WORDS, WORDS + 1); }
static int copy(void) { return (int)syscall(SYS_clone, SIGCHLD, 0, 0, 0, 0); }
static int trace(void) { return (int)ptrace(PTRACE_TRACEME, 0, NULL, NULL); }
static int attach(void) { return mount("none", "/tmp", "tmpfs", 0, NULL); }
static int other_socket(void) { return socket(AF_NETLINK, SOCK_RAW, 0); }
static int six_socket(void) { return socket(AF_INET6, SOCK_STREAM, 0); }
static int interface(void) { return ioctl(0, SIOCGIFINDEX, NULL) == 0; }
static int device(void) { return ioctl(0, TUNSETIFF, NULL); }
static int local_socket(void) { return socket(AF_UNIX, SOCK_STREAM, 0); }
static int write_file(void) { return open("/dev/null", O_WRONLY); }
static int make_file(void) { return open("/tmp/usernet.made", O_RDONLY | O_CREAT, 0600); }
static int end_other(void) { return kill(1, 0); }
static int change(void) { return chmod("/tmp", 01777); }
static int read_file(void) { return open("/etc/resolv.conf", O_RDONLY); }
static int plain_socket(void) { return socket(AF_INET, SOCK_DGRAM, 0); }
static int nothing(void) { return write(1, "", 0) < 0; }

static const struct call { const char *name; int (*make)(void); int is_forbidden; } CALLS[] = {
    {"execve", start, 1}, {"clone", copy, 1}, {"ptrace", trace, 1}, {"mount", attach, 1}, {"a socket of routes", other_socket, 1},
    {"a local socket", local_socket, 1}, {"a file to be written", write_file, 1}, {"a file to be made", make_file, 1}, {"kill", end_other, 1},
    {"chmod", change, 1}, {"a file to be read", read_file, 0}, {"a socket of IPv4", plain_socket, 0}, {"write", nothing, 0},
    {"a socket of IPv6", six_socket, 0}, {"the number of an interface", interface, 0}, {"a device", device, 1}};

int main(void)
{
    int count = sizeof CALLS / sizeof CALLS[0];
    for (int at = 0; at < count; at++) {
        int status;
        pid_t child = fork();
        if (child == 0)
            exit(sandbox_filter() ? CALLS[at].make() < 0 : 2);
        waitpid(child, &status, 0);
        int is_ended = WIFSIGNALED(status) && WTERMSIG(status) == SIGSYS, is_well = WIFEXITED(status) && WEXITSTATUS(status) == 0;
        if (CALLS[at].is_forbidden ? !is_ended : !is_well)
            return printf("sandbox: FAILED: %s: status %x\n", CALLS[at].name, (unsigned)status), 1;
    }
    printf("sandbox: %d calls\n", count);
    return 0;
}
