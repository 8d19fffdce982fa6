#!/usr/bin/env bash
# Refuses each allocation of the built program in turn, on a script and on a list of segments. A run of which one was refused ends
# by `tcpkit: 42` and status 2, and has written a prefix of what a run with memory writes; or, where the words' parser does without
# what was refused, it ends as a run with memory does.
set -euo pipefail
here=$(cd "$(dirname "$0")" && pwd)
cd "$here/../../crates/tcpkit"
room=$(mktemp -d)
trap 'rm -rf "$room"' EXIT
cc -std=c11 -Wall -Wextra -Werror -O1 -shared -fPIC "$here/refuse.c" -o "$room/refuse.so"

passed=0 failed=0
check() {
    if "$@"; then passed=$((passed + 1)); else
        failed=$((failed + 1))
        echo "failed at allocation $number of $words: $*"
    fi
}

is_prefix() {
    cmp -s -n "$(stat -c %s "$1")" "$1" "$2"
}

for words in "decode data/segments.list" "replay data/first-run.script"; do
    whole=0 faults=0 others=0
    out/tcpkit $words >"$room/whole" || whole=$?
    for ((number = 1; ; number++)); do
        status=0
        LD_PRELOAD="$room/refuse.so" REFUSE=$number out/tcpkit $words >"$room/told" 2>"$room/fault" 9>"$room/refused" || status=$?
        if [ ! -s "$room/refused" ]; then break; fi
        if [ "$status" = "$whole" ]; then
            others=$((others + 1))
            check cmp -s "$room/told" "$room/whole"
        else
            faults=$((faults + 1))
            check [ "$status" = 2 ]
            check [ "$(cat "$room/fault")" = "tcpkit: 42" ]
            check is_prefix "$room/told" "$room/whole"
        fi
    done
    check [ "$status" = "$whole" ]
    check [ "$faults" -gt 10 ]
    echo "$words: $faults refused allocations are 42, $others are done without"
done
echo "memory: $passed passed, $failed failed"
((failed == 0))
