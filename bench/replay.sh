#!/bin/sh
# Replays scripts of 10,000 and of 100,000 events, and prints how long each took and the ratio of the two:
# it is to be at most 12 for each of three runs: in order, with a full queue of 1 MiB, and with a gap held through it.
# Then it counts in instructions (callgrind, the difference of two lengths) a round of six events in order, beside the same round
# of two ends without a script, and prints which of the program's functions take most of it.
# Run it from anywhere; the programs are built where they aren't. It wants valgrind.
set -eu

top=$(cd "$(dirname "$0")/.." && pwd)
out=$top/bench/out
mkdir -p "$out"
. "$top/bench/common.sh"
program=${1:-$top/crates/tcpkit/out/tcpkit}
most=12
folder=$(mktemp -d)
trap 'rm -rf "$folder"' EXIT

if [ ! -x "$program" ]; then
    (cd "$top/crates/tcpkit" && rt run -- replay data/first-run.script >/dev/null)
fi

handshake() {
    printf '%s\n' 'listen B' 'connect A' 'emit A' 'deliver A 0' 'emit B' 'deliver B 0' 'emit A' 'deliver A 1'
}

# Rounds of six events: 16 bytes are sent, emitted, delivered and received, and then acknowledged.
in_order() {
    handshake
    awk -v events="$1" 'BEGIN {
        for (i = 0; i < events - 8; i++) {
            k = int(i / 6)
            if (i % 6 == 0) print "send A 000102030405060708090a0b0c0d0e0f"
            else if (i % 6 == 1) print "emit A"
            else if (i % 6 == 2) print "deliver A " k + 2
            else if (i % 6 == 3) print "receive B 16"
            else if (i % 6 == 4) print "emit B"
            else print "deliver B " k + 1
        }
    }'
}

# A queue of 1 MiB is filled by sixteen calls, and each round of six events refills what its segment of 1,460 bytes took.
full_queue() {
    echo 'config A send 1048576'
    handshake
    awk -v events="$1" 'BEGIN {
        text = "000102030405060708090a0b0c0d0e0f"
        for (i = 0; i < 12; i++) text = text text
        for (i = 0; i < 16; i++) print "send A " text
        refill = "send A " substr(text, 1, 2 * 1460)
        for (i = 0; i < events - 24; i++) {
            k = int(i / 6)
            if (i % 6 == 0) print "emit A"
            else if (i % 6 == 1) print "deliver A " k + 2
            else if (i % 6 == 2) print "receive B 1460"
            else if (i % 6 == 3) print "emit B"
            else if (i % 6 == 4) print "deliver B " k + 1
            else print refill
        }
    }'
}

# The first piece is lost and 40 behind it are held. In each round one of them comes again, and its acknowledgement,
# with a block, is emitted and delivered.
held_gap() {
    handshake
    awk -v events="$1" 'BEGIN {
        for (i = 0; i < 41; i++) {
            print "send A 000102030405060708090a0b0c0d0e0f"
            print "emit A"
        }
        for (i = 0; i < 40; i++) print "deliver A " i + 3
        for (i = 0; i < events - 130; i++) {
            k = int(i / 3)
            if (i % 3 == 0) print "deliver A " 3 + k % 40
            else if (i % 3 == 1) print "emit B"
            else print "deliver B " k + 1
        }
    }'
}

# The least of five runs, in milliseconds.
milliseconds() {
    least=
    for run in 1 2 3 4 5; do
        start=$(date +%s%N)
        "$program" replay "$1" >"$folder/report"
        end=$(date +%s%N)
        took=$(((end - start) / 1000000))
        if [ -z "$least" ] || [ "$took" -lt "$least" ]; then least=$took; fi
    done
    echo "$least"
}

status=0
for run in in_order full_queue held_gap; do
    $run 10000 >"$folder/short"
    $run 100000 >"$folder/long"
    short=$(milliseconds "$folder/short")
    long=$(milliseconds "$folder/long")
    lines=$(wc -l <"$folder/report")
    if [ "$lines" -ne 100002 ]; then
        echo "$run: the report has $lines lines in place of 100002" >&2
        exit 1
    fi
    if grep -qE ' (refused|malformed|dropped)' "$folder/report"; then
        echo "$run: an event was refused or a segment was not processed" >&2
        exit 1
    fi
    if [ "$short" -eq 0 ]; then short=1; fi
    awk -v run="$run" -v short="$short" -v long="$long" -v most="$most" 'BEGIN {
        ratio = long / short
        printf "%s: 10,000 events %d ms, 100,000 events %d ms, ratio %.1f (at most %d)\n", run, short, long, ratio, most
        exit ratio > most
    }' || status=1
done

# What a round in order costs: a script's, and that of two ends alone.
build_ours
for rounds in 2000 4000; do in_order $((8 + 6 * rounds)) >"$folder/$rounds"; done
script=$((($(instructions "$program" replay "$folder/4000") - $(instructions "$program" replay "$folder/2000")) / 2000))
ends=$((($(instructions "$ours" rounds 4000 65536) - $(instructions "$ours" rounds 2000 65536)) / 2000))
awk -v script="$script" -v ends="$ends" 'BEGIN {
    printf "a round of six events: %d instructions, the two ends alone %d, ratio %.2f\n", script, ends, script / ends
}'
valgrind --tool=callgrind --callgrind-out-file="$folder/profile" "$program" replay "$folder/4000" >"$folder/report" 2>"$folder/log"
echo 'of them, with all that is called, and by function:'
for inclusive in yes no; do
    callgrind_annotate --inclusive=$inclusive --threshold=97 "$folder/profile" | grep -vE '0x0|below main|libc_start' |
        sed -nE 's/^ *([0-9,]+) \( *[0-9.]+%\) +[^: ]*:([^ ]+).*/\1 \2/p' |
        awk -v inclusive=$inclusive '{ gsub(",", "", $1); printf "%-5s %6d %s\n", inclusive == "yes" ? "with" : "alone", $1 / 4000, $2 }' | head -40
done
exit $status
