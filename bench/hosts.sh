#!/bin/sh
# Many connections at a host: two hosts of release/tcpcore.c in one process (bench/hosts.c), with 1, 1,000 and 100,000 connections between
# them, or with as many as the words say. Counts in instructions (callgrind, of the second half of a run's rounds alone, so that neither
# the making of the hosts nor what is touched for the first time counts) what these take:
# - a segment: its emission and its arrival, and the turns around it that bring nothing, without what users call;
# - a tick: tcpcore_host_timeout until nobody is due, and tcpcore_host_poll_at, where nobody is due and where one is;
# - a round: three segments, three ticks, and what both users call;
# - an opening, of the last 100: both connections made, moved in and accepted, and three segments.
# It wants gcc and valgrind with its headers; 100,000 connections take 0.6 GB of memory.
set -eu

top=$(cd "$(dirname "$0")/.." && pwd)
out=$top/bench/out
mkdir -p "$out"
. "$top/bench/common.sh"
rounds=2000
[ $# -gt 0 ] || set -- 1 1000 100000

# What a function took with all that it calls, in a part of a run.
taken() {
    callgrind_annotate --inclusive=yes --threshold=100 "$out/hosts.counts.$1" |
        awk -v name=":$2 " 'index($0, name) { gsub(/,/, "", $1); print $1; exit }'
}

gcc -O2 -I"$top/release" "$top/bench/hosts.c" "$top/release/tcpcore.c" -o "$out/hosts"
tell_commit
printf '%12s %10s %18s %15s %8s %8s\n' connections segment 'tick, nobody due' 'tick, one due' round opening
for connections in "$@"; do
    rm -f "$out"/hosts.counts*
    valgrind --tool=callgrind --instr-atstart=no --callgrind-out-file="$out/hosts.counts" "$out/hosts" "$connections" $rounds \
        >"$out/log" 2>&1 || { cat "$out/log" >&2; exit 1; }
    opened=$((connections < 100 ? connections : 100))
    printf '%12d %10d %18d %15d %8d %8d\n' "$connections" $(($(taken 3 carry) / (3 * rounds))) $(($(taken 3 idle_tick) / (2 * rounds))) \
        $(($(taken 3 due_tick) / rounds)) $(($(taken 3 one_round) / rounds)) $(($(taken 1 open_one) / opened))
done
