#!/bin/sh
# Counts in instructions (callgrind), by the difference of two run lengths, so that what a program costs once falls out: our two ends
# beside two of lwIP over a wire in memory, as Debian ships it (`-O2`) and in its best build.
# - in_order, late, early: a data segment of 1,460 bytes, both ends together, with half an acknowledgement: in order; one of ten
#   late; thirty-nine of forty held. Ours at capacities of 64 KiB and of 1 MiB.
# - acknowledgement: one that is written, carried and taken; what a second one adds to two segments in order.
# - one_byte: a segment of one byte with half an acknowledgement.
# - connection: two ends made, handshake, orderly close. lwIP's ends have no block of their own.
# Then one call of `checksum`, `decode` and `encode` on such a segment. `bench/instructions.sh --cpu=x86-64-v3` counts our program and
# lwIP's best build for that processor. It wants gcc, valgrind, apt-get and the network; our program is built anew where it is stale.
set -eu

top=$(cd "$(dirname "$0")/.." && pwd)
out=$top/bench/out
mkdir -p "$out"
. "$top/bench/common.sh"
build_ours "$@"
build_both_lwips "$@"
short=200
long=400

# What a turn costs: mode, the program, and what it is told behind the count.
turn() {
    mode=$1
    program=$2
    behind=${3:-}
    less=$(instructions "$program" "$mode" $short $behind)
    more=$(instructions "$program" "$mode" $long $behind)
    echo $(((more - less) / (long - short)))
}

# The four numbers of a row, each a turn's cost by its segments.
row() {
    printf '%-16s' "$1"
    shift
    for cost in "$@"; do printf ' %13s' "$cost"; done
    printf '\n'
}

# One row of a mode with so many segments a turn.
segments() {
    row "$1" $(($(turn "$1" "$ours" 65536) / $2)) $(($(turn "$1" "$ours" 1048576) / $2)) $(($(turn "$1" "$out/shipped") / $2)) \
        $(($(turn "$1" "$out/best") / $2))
}

# What one acknowledgement more costs.
acknowledgement() {
    echo $(($(turn each_acknowledged "$@") - $(turn in_order "$@")))
}

tell_commit
row '' 'ours, 64 KiB' 'ours, 1 MiB' 'lwIP, shipped' 'lwIP, best'
segments in_order 2
segments late 10
segments early 40
row acknowledgement "$(acknowledgement "$ours" 65536)" "$(acknowledgement "$ours" 1048576)" "$(acknowledgement "$out/shipped")" \
    "$(acknowledgement "$out/best")"
segments one_byte 2
row connection "$(turn connection "$ours" 65536)" "$(turn connection "$ours" 1048576)" "$(turn connection "$out/shipped")" "$(turn connection "$out/best")"
for call in checksum decode encode; do
    row $call "$(turn $call "$ours")"
done
