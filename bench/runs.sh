#!/bin/sh
# What a segment costs by the number of runs that its ends keep (bench/runs.c): instructions a segment with its acknowledgement, both ends
# together, by callgrind, as the difference of two run lengths. `bench/runs.sh [TCPCORE.C]`: of that file of a release, with its header
# beside it; else of release/tcpcore.c. It wants gcc and valgrind.
set -eu

top=$(cd "$(dirname "$0")/.." && pwd)
out=$top/bench/out
mkdir -p "$out"
. "$top/bench/common.sh"
file=${1:-$top/release/tcpcore.c}
gcc -O2 -I"$(dirname "$file")" "$top/bench/runs.c" "$file" -o "$out/runs"

# Of a kind and a number of runs.
cost() {
    few=$("$out/runs" "$1" "$2" 1)
    many=$("$out/runs" "$1" "$2" 3)
    less=$(instructions "$out/runs" "$1" "$2" 1)
    more=$(instructions "$out/runs" "$1" "$2" 3)
    echo $(((more - less) / (many - few)))
}

tell_commit
printf '%-8s %9s %9s %9s %9s\n' '' 16 128 1024 4096
for kind in order beside held; do
    printf '%-8s' "$kind"
    for runs in 16 128 1024 4096; do printf ' %9s' "$(cost "$kind" "$runs")"; done
    printf '\n'
done
