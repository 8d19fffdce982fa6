#!/bin/sh
# What reordering costs without a loss: one transfer between two connections, with CUBIC's window, losses found by time and the default
# policy, over a simulated link in one process, on which each segment takes up to some milliseconds more, so that they overtake each other.
# Prints for each number of runs that an end keeps apart (what it holds out of order, and what it knows of the peer's blocks) the bytes of
# a connection's block beside its buffers, and for each MSS and seed how many segments were sent again, of how many, Mbit/s, and the most
# runs that the path made. Fails where other bytes come than were sent. The same words give the same counts on each machine.
#     bench/jitter.sh [LIBRARY] [NAME=VALUE]..
# LIBRARY is a static library, crates/tcp_c's own by default, or the file tcpcore.c of a release, with its header beside it. NAME is
# - rate (Mbit/s, 1000), trip (milliseconds there and back, 50), jitter (milliseconds each way at most, 6), loss (percent each way, 0);
# - runs ("16 64 128 256 1024"), mss ("1460 70"), seeds ("1 2 3");
# - bytes (29200000, which are 20,000 segments of 1,460), window (of each buffer in bytes, 1048576).
# It wants gcc.
set -eu

top=$(cd "$(dirname "$0")/.." && pwd)
out=$top/bench/out
mkdir -p "$out"
. "$top/bench/common.sh"
library=$top/crates/tcp_c/out/libtcp_c.a
rate=1000 trip=50 jitter=6 loss=0 mss='1460 70' seeds='1 2 3' bytes=29200000 window=1048576 runs='16 64 128 256 1024'
for word in "$@"; do
    case $word in
    rate=* | trip=* | jitter=* | loss=* | mss=* | seeds=* | bytes=* | window=* | runs=*)
        name=${word%%=*}
        eval "$name=\${word#*=}"
        ;;
    *=*) echo "jitter: no $word" >&2; exit 1 ;;
    *) library=$word ;;
    esac
done
[ -e "$library" ] || { echo "jitter: no $library: run 'rt lib' in crates/tcp_c" >&2; exit 1; }

header=$top/c/tcpcore
layer=$header/tcpcore.c
case $library in *.c)
    header=$(dirname "$library")
    layer= ;;
esac
# shellcheck disable=SC2086
gcc -std=c11 -O2 -ffunction-sections -Wl,--gc-sections -Wall -Wextra -I"$header" "$top/bench/link/jitter.c" "$top/bench/link/link.c" $layer "$library" -o "$out/jitter"

tell_commit
echo "$rate Mbit/s, $trip ms there and back, up to $jitter ms more each way, $loss percent lost, windows of $window bytes"
printf '%8s %8s %6s %6s %10s %10s %8s %6s\n' runs bytes MSS seed resent 'of all' Mbit/s made
for number in $runs; do
    room=$("$out/jitter" memory "$number")
    for size in $mss; do
        for seed in $seeds; do
            found=$("$out/jitter" "$number" "$size" "$bytes" "$window" "$rate" "$trip" "$jitter" "$loss" "$seed")
            # shellcheck disable=SC2086
            printf '%8s %8s %6s %6s %10s %10s %8s %6s\n' "$number" "$room" "$size" "$seed" $found
        done
    done
done
