#!/bin/sh
# What losses and reordering cost a connection: text from one connection to another, with their timers, congestion windows and loss recovery,
# over a simulated link in one process (link/loss.c, which says what its words are). Prints a row for each path, way of recovery and
# congestion window, with the means of some seeds: seconds, segments with text, those that were sent again, and those of which nothing was
# lost, timeouts, probes, other segments that were sent again by time alone, and how often ssthresh fell. The same words give the same numbers
# on each machine.
#     bench/loss.sh [LIBRARY] [NAME=VALUE]..
# LIBRARY is a static library, crates/tcp_c's own by default, or the file tcpcore.c of a release, with its header beside it. NAME is
# - seeds ("1 2 3 4 5"), recovery ("0 1": a round trip behind a gap, and by time; 0 where the library has no other), congestion ("1 2": Reno
#   and CUBIC);
# - paths: the words of which the names of the paths are made (all of them);
# - any of the words of link/loss.c: then that is the one path.
# It wants gcc.
set -eu

top=$(cd "$(dirname "$0")/.." && pwd)
out=$top/bench/out
mkdir -p "$out"
. "$top/bench/common.sh"
library=$top/crates/tcp_c/out/libtcp_c.a
seeds='1 2 3 4 5' congestion='1 2' recovery='' paths='' own=''
for word in "$@"; do
    case $word in
    seeds=* | recovery=* | congestion=* | paths=*)
        name=${word%%=*}
        eval "$name=\${word#*=}"
        ;;
    *=*) own="$own $word" ;;
    *) library=$word ;;
    esac
done
[ -e "$library" ] || { echo "loss: no $library: run 'rt lib' in crates/tcp_c" >&2; exit 1; }

header=$top/c/tcpcore
layer=$header/tcpcore.c
case $library in *.c)
    header=$(dirname "$library")
    layer= ;;
esac
# shellcheck disable=SC2086
gcc -std=c11 -O2 -ffunction-sections -Wl,--gc-sections -Wall -Wextra -I"$header" "$top/bench/link/loss.c" "$top/bench/link/link.c" $layer "$library" -o "$out/loss"
grep -q TCPCORE_RECOVERY_MEMORY "$header/tcpcore.h" && ways='0 1' || ways=0
recovery=${recovery:-$ways}

# The means of the seeds on a path: its name, and its words.
path() {
    name=$1
    shift
    case $name in *"$paths"*) ;; *) return 0 ;; esac
    for way in $recovery; do
        for window in $congestion; do
            for seed in $seeds; do
                "$out/loss" "recovery=$way" "congestion=$window" "$@" "seed=$seed"
            done | awk -v name="$name" -v way="$way" -v window="$window" '
                { for (i = 1; i <= NF; i++) sum[i] += $i; turns++ }
                END {
                    if (turns == 0) { printf "%-34s %-8s fails\n", name, way ? "by time" : "a trip"; exit }
                    printf "%-34s %-8s %-6s %8.2f", name, way ? "by time" : "a trip", substr("none  Reno  CUBIC ", 1 + 6 * window, 6), sum[1] / turns
                    for (i = 2; i <= 8; i++) printf " %9.1f", sum[i] / turns
                    printf "\n"
                }'
        done
    done
}

tell_commit
printf '%-34s %-8s %-6s %8s %9s %9s %9s %9s %9s %9s %9s\n' path recovery window seconds segments again 'in vain' timeouts probes 'by time' shrinks
if [ -n "$own" ]; then
    # shellcheck disable=SC2086
    path "$(echo $own | cut -c1-34)" $own
    exit
fi
path '2 % lost, 10 ms, 20 MB' loss=2 trip=10 bytes=20000000
path '2 % lost, 50 ms, 5 MB' loss=2 trip=50 bytes=5000000
path '0.1 % lost, 50 ms, 20 MB' loss=0.1 trip=50 bytes=20000000
path '6 ms of jitter, 29 MB, 1,024 runs' jitter=6 trip=50 rate=1000 bytes=29200000 runs=1024
path '6 ms of jitter, 29 MB, 16 runs' jitter=6 trip=50 rate=1000 bytes=29200000 runs=16
path '6 ms of jitter, 0.1 % lost, 29 MB' jitter=6 loss=0.1 trip=50 rate=1000 bytes=29200000
path '1 % late by 10 ms, 50 ms, 5 MB' late=1 later=10 trip=50 bytes=5000000
path 'last of 20 requests of 10 lost' tail=1 trip=50 bytes=14600 requests=20
path 'last 3 of 20 requests of 10 lost' tail=3 trip=50 bytes=14600 requests=20
path '20 requests of 1, a third lost' drop=2 every=4 trip=50 bytes=1000 requests=20
path '2 % lost, 50 ms, 5 MB, ack 40 ms' loss=2 trip=50 bytes=5000000 ack=40
path '2 % lost, 500 requests of 5' loss=2 trip=50 bytes=7300 requests=500 ack=40
path 'one of 400 lost, 600 ms' drop=200 trip=600 bytes=584000
path '20 ms of queue, 20 Mbit/s, 20 MB' queue=20 rate=20 trip=20 bytes=20000000
path 'a clock of 1 ms, 0.1 ms, 1 % lost' clock=1 trip=0.1 rate=1000 bytes=3000000 loss=1
