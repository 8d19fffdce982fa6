#!/bin/sh
# Many ends in one process: 1, 1,000 and 100,000 connections of two ends each, with capacities of 512 bytes, each of which echoes 64 bytes
# in turn. Prints what a turn of a connection costs in instructions (callgrind, the difference of two run lengths, for 1 and 1,000) and
# in nanoseconds, and the bytes of memory that a connection takes (what 100,000 of them make resident more than 50,000 do).
set -eu

top=$(cd "$(dirname "$0")/.." && pwd)
out=$top/bench/out
mkdir -p "$out"
. "$top/bench/common.sh"
capacity=512
build_ours

# The greatest resident size of a run, in bytes.
resident() {
    python3 -c 'import resource, subprocess, sys
subprocess.run(sys.argv[1:], stdout=subprocess.DEVNULL, check=True)
print(resource.getrusage(resource.RUSAGE_CHILDREN).ru_maxrss * 1024)' "$@"
}

# The least of five runs, in nanoseconds.
nanoseconds() {
    for _ in 1 2 3 4 5; do
        start=$(date +%s%N)
        "$@" >/dev/null
        echo $(($(date +%s%N) - start))
    done | sort -n | head -1
}

tell_commit
printf '%12s %20s %12s\n' connections 'instructions a turn' 'ns a turn'
for count in 1 1000 100000; do
    turns=$((1000000 / count))
    counted=-
    if [ $count -lt 100000 ]; then
        less=$(instructions "$ours" ends $count 2 $capacity)
        more=$(instructions "$ours" ends $count 12 $capacity)
        counted=$(((more - less) / (10 * count)))
    fi
    less=$(nanoseconds "$ours" ends $count 1 $capacity)
    more=$(nanoseconds "$ours" ends $count $((1 + turns)) $capacity)
    printf '%12d %20s %12d\n' $count "$counted" $(((more - less) / (turns * count)))
done
half=$(resident "$ours" ends 50000 1 $capacity)
echo "bytes of memory a connection: $((($(resident "$ours" ends 100000 1 $capacity) - half) / 50000))"
portable=$top/c/portable/out/tcpcore_portable.c
[ -e "$portable" ] || portable=$top/release/tcpcore.c
gcc -O2 -DTCPCORE_PORTABLE -I"$top/c/tcpcore" "$top/bench/resident.c" "$portable" -o "$out/resident"
echo "bytes of an end's block that are resident: $("$out/resident" 1200)"
