#!/bin/sh
# A connection beside this machine's Linux: text to Linux over an emulated link, in real time, from each of the two (link/linux.c, which says
# what its words are). Prints a row for each path and congestion window: the means of some seeds of Linux, of the connection, and how much
# longer the connection takes. The seeds of a row run side by side.
#     bench/linux.sh [LIBRARY] [NAME=VALUE]..
# LIBRARY is a static library, crates/tcp_c's own by default, or the file tcpcore.c of a release, with its header beside it. NAME is
# - seeds ("1 2 3 4 5 6 7 8 9 10 11 12"), congestion ("1 2": Reno and CUBIC), paths (the words of which the names of the paths are made: all);
# - any of the words of link/linux.c: then that is the one path.
# It wants gcc, root, and the modules for TUN devices and for Linux's `cubic` and `reno`.
set -eu

top=$(cd "$(dirname "$0")/.." && pwd)
out=$top/bench/out
mkdir -p "$out"
. "$top/bench/common.sh"
library=$top/crates/tcp_c/out/libtcp_c.a
seeds='1 2 3 4 5 6 7 8 9 10 11 12' congestion='1 2' paths='' own=''
for word in "$@"; do
    case $word in
    seeds=* | congestion=* | paths=*)
        name=${word%%=*}
        eval "$name=\${word#*=}"
        ;;
    *=*) own="$own $word" ;;
    *) library=$word ;;
    esac
done
[ -e "$library" ] || { echo "linux: no $library: run 'rt lib' in crates/tcp_c" >&2; exit 1; }
[ "$(id -u)" = 0 ] || { echo "linux: run as root, for network namespaces and TUN devices" >&2; exit 1; }

header=$top/c/tcpcore
layer=$header/tcpcore.c
case $library in *.c)
    header=$(dirname "$library")
    layer= ;;
esac
# shellcheck disable=SC2086
gcc -std=c11 -O2 -ffunction-sections -Wl,--gc-sections -march=native -Wall -Wextra -I"$header" "$top/bench/link/linux.c" "$top/bench/link/link.c" $layer "$library" -o "$out/linux"

# A row: its name, and the words of the path.
path() {
    name=$1
    shift
    case $name in *"$paths"*) ;; *) return 0 ;; esac
    for window in $congestion; do
        : >"$out/linux.rows"
        for seed in $seeds; do
            for sender in 0 1; do
                { "$out/linux" "ours=$sender" "congestion=$window" "$@" "seed=$seed" | sed "s/^/$sender /" >>"$out/linux.rows"; } &
            done
        done
        wait
        awk -v name="$name" -v window="$window" -v wanted="$(echo "$seeds" | wc -w)" '
            { turns[$1]++; for (i = 2; i <= 4; i++) sum[$1, i] += $i }
            END {
                printf "%-26s %-6s", name, substr("none  Reno  CUBIC ", 1 + 6 * window, 6)
                if (turns[0] != wanted || turns[1] != wanted) { print "fails"; exit }
                for (sender = 0; sender < 2; sender++)
                    printf " %9.2f %9.1f %7.1f", sum[sender, 2] / turns[sender], sum[sender, 3] / turns[sender], sum[sender, 4] / turns[sender]
                printf " %7.2f\n", sum[1, 2] / sum[0, 2]
            }' "$out/linux.rows"
    done
}

tell_commit
printf '%-26s %-6s %9s %9s %7s %9s %9s %7s %7s\n' path window Linux segments again ours segments again ratio
if [ -n "$own" ]; then
    # shellcheck disable=SC2086
    path "$(echo $own | cut -c1-26)" $own
    exit
fi
path 'no loss, 50 ms, 20 MB' trip=50 bytes=20000000
path '2 % lost, 10 ms, 10 MB' loss=2 trip=10 bytes=10000000
path '2 % lost, 50 ms, 5 MB' loss=2 trip=50 bytes=5000000
path '0.1 % lost, 50 ms, 20 MB' loss=0.1 trip=50 bytes=20000000
path '6 ms of jitter, 50 ms, 5 MB' jitter=6 trip=50 bytes=5000000
path '20 ms of queue, 20 Mbit/s' queue=20 rate=20 trip=20 bytes=10000000
