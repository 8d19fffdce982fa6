#!/usr/bin/env bash
# Builds out/usernet over a static library, or over the C file of release/, whose machine code has hosts, where the first argument ends in .c.
# Without an argument it takes the library of crates/tcp_c where that was built, and else release/tcpcore.c, which wants no kit. The words
# behind it are the compiler's. With PROGRAM=NAME it is out/NAME. And out/fuzz, which hostile.py runs, and out/pairs_test. --enable-seccomp
# wants Debian's libseccomp-dev; where it is there, out/sandbox_test is built, too.
set -euo pipefail
cd "$(dirname "$0")"
own=../../crates/tcp_c/out/libtcp_c.a
[[ -e $own ]] || own=../../release/tcpcore.c
library=$(realpath "${1:-$own}")
shift || true
compiler=${CC:-gcc}
companions=$(printf ' ../../c/companions/%s.c' ethernet faults fragments icmp icmp6 ip ip6 path secret trains tun udp)
seccomp=
[[ ! -e /usr/include/seccomp.h ]] || seccomp="-DHAS_SECCOMP -lseccomp"
flags="-std=c11 -O2 -g -Wall -Wextra -Wpedantic -Wconversion -Wshadow -Wcast-qual -Werror -I../../c -I../../c/tcpcore"
mkdir -p out
core="../../c/tcpcore/tcpcore.c $library"
if [[ $library == *.c ]]; then
    # It has the layer of c/tcpcore in it, and isn't written for our warnings.
    core=out/portable.o
    [[ $core -nt $library ]] || $compiler -std=c99 -O2 -I"$(dirname "$library")" -c "$library" -o $core
fi
$compiler $flags "$@" usernet.c words.c loop.c conn.c ends.c pairs.c host.c relays.c datagrams.c carry.c limits.c ports.c api.c json.c ipv6.c sandbox.c $companions $core \
    $seccomp -o "out/${PROGRAM:-usernet}"
[[ -z $seccomp ]] || $compiler $flags sandbox_test.c sandbox.c $seccomp -o out/sandbox_test
$compiler $flags "$@" pairs_test.c pairs.c ../../c/companions/secret.c -o out/pairs_test
$compiler $flags fuzz.c fuzz_packets.c $(printf ' ../../c/companions/%s.c' icmp icmp6 ip ip6 secret trains udp) $core -o out/fuzz
