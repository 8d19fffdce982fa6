#!/bin/sh
# What its own times cost an end (bench/clock.c): cycles of the processor's clock for a segment of 1,460 bytes in order, both ends together,
# with half an acknowledgement, of two plain ends and of two connections, over the C library and over release/tcpcore.c. The programs run in
# turns, five times (`bench/clock.sh TURNS` takes another number), and what counts is the least of all turns.
# It wants gcc and the C library (`rt lib` in crates/tcp_c).
set -eu

top=$(cd "$(dirname "$0")/.." && pwd)
out=$top/bench/out
mkdir -p "$out"
turns=${1:-5}
library=$top/crates/tcp_c/out/libtcp_c.a
[ -e "$library" ] || { echo "bench: no $library: run 'rt lib' in crates/tcp_c" >&2; exit 1; }
gcc -O2 -I"$top/c/tcpcore" "$top/bench/clock.c" "$top/c/tcpcore/tcpcore.c" "$library" -o "$out/clock_library"
gcc -O2 -I"$top/release" "$top/bench/clock.c" "$top/release/tcpcore.c" -o "$out/clock_release"
for turn in $(seq "$turns"); do
    for over in library release; do
        for kind in plain timed; do
            echo "$over $kind $("$out/clock_$over" "$kind" 10000) $turn"
        done
    done
done >"$out/clock"
awk '{ name = $1 " " $2; if (!(name in least) || $3 < least[name]) least[name] = $3 }
    END {
        split("library release", overs)
        for (i = 1; i <= 2; i++) {
            plain = least[overs[i] " plain"]; timed = least[overs[i] " timed"]
            printf "%s: %d cycles plain, %d with its times, %.2f times\n", overs[i], plain, timed, timed / plain
        }
    }' "$out/clock"
