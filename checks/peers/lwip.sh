#!/usr/bin/env bash
# A connection against lwIP 2.1.3 in four builds and against another connection, in one process each, on a clock and over a wire of the
# driver's: checks/peers/lwip.sh [LIBRARY] [--long]. Sizes, openings and closes of all kinds, the k-th segment lost, losses, repeats,
# reordering and damage, slow readers, aborts, numbers that wrap, a peer that vanishes, and how long 2 MB take where 2 percent are lost.
# Every byte is compared. --long has more of the random ones, and 20 MB. Last come the means of ten runs of 20 MB at 2 percent loss: without
# blocks they take no longer than 1.5 times of what they take with blocks, and where nothing is kept out of order no longer than 1.9 times;
# a loss costs one segment, or a little more, as a probe without blocks is two; and CUBIC takes no longer than Reno, or a little. lwIP's
# source is Debian's, in bench/out, as the benches have it. The last line is `N cases, M failed`; what is lwIP's own fault isn't counted as
# failed, but named, with the line of its source. --build only builds the programs, into checks/peers/out.
set -euo pipefail
cd "$(dirname "$0")"
. ./common.sh
out=$top/bench/out
mkdir -p "$out"
. ../../../bench/common.sh
[[ -d $out/lwip-2.1.3 ]] || fetch_lwip
lwip=$out/lwip-2.1.3/src

common_objects
program second "$top/checks/peers/second.c"
for build in SHIPPED BLOCKS TINY BARE; do
    objects "$build" -O2 -w -DBUILD="$build" -I"$top/checks/peers" -I"$top/bench/peer" -I"$lwip/include" -c "$lwip"/core/*.c \
        "$lwip"/core/ipv4/{ip4,ip4_addr,ip4_frag,icmp}.c
    against=(-DBUILD="$build" -I"$top/bench/peer" -isystem "$lwip/include" "$top/checks/peers/lwip.c" "$build"/*.o)
    program "lwip.$build" "${against[@]}"
done
[[ -z $only_builds ]] || exit 0
run_all env

# The mean of ten runs: milliseconds, segments, and of these those that went out again.
mean() { sed -nE "s/.*, $2: ([0-9]+) ms for 20 MB, ([0-9]+) segments, of which ([0-9]+) again.*/\\1 \\2 \\3/p" "$1.bulk"; }

# A bound on such a mean.
holds() {
    cases=$((cases + 1))
    (($2)) || { echo "$1: $2 doesn't hold"; failed=$((failed + 1)); }
}

for program in "${programs[@]}"; do
    "./$program" --bulk 10 >"$program.bulk" || true
    grep 'for 20 MB' "$program.bulk"
    read -r reno sent again < <(mean "$program" Reno)
    read -r cubic _ < <(mean "$program" CUBIC)
    holds "$program, CUBIC beside Reno" "$cubic * 10 <= $reno * 11"
    # 2 percent of them, and a fifth more; with windows of four segments most losses are found by a probe, and half more go out again.
    bound=24
    [[ $program != lwip.TINY ]] || bound=29
    [[ $program == lwip.BARE ]] || holds "$program, segments again" "$again * 1000 <= $sent * $bound"
done
read -r blocks _ < <(mean lwip.BLOCKS Reno)
read -r shipped _ < <(mean lwip.SHIPPED Reno)
holds "lwip.SHIPPED beside lwip.BLOCKS" "$shipped * 10 <= $blocks * 15"
read -r bare _ < <(mean lwip.BARE Reno)
holds "lwip.BARE beside lwip.BLOCKS" "$bare * 10 <= $blocks * 19"
total
