#!/usr/bin/env bash
# lib.sh: what a machine lacks fails a script, unless LEAVE_OUT=1 is set: then it is told, and counted in the script and in
# LEFT_OUT_FILE.
set -euo pipefail
cd "$(dirname "$0")"
work=$(mktemp -d)
trap 'rm -rf "$work"' EXIT
passed=0
# No package is installed here.
printf '#!/bin/sh\nexit 1\n' >"$work/apt-get"
chmod +x "$work/apt-get"

# A script of these lines prints this text and ends with this status.
ends() {
    local lines=$1 text=$2 wanted=$3 found status=0
    shift 3
    found=$(env -u LEAVE_OUT -u LEFT_OUT_FILE "$@" bash -euo pipefail -c "test=script; . ./lib.sh; $lines") || status=$?
    if [[ $found != "$text" || $status != "$wanted" ]]; then
        printf "lib: '%s' found\n%s\nand status %s, wanted\n%s\nand %s\n" "$lines" "$found" "$status" "$text" "$wanted"
        exit 1
    fi
    passed=$((passed + 1))
}

fails="script: FAILED: no thing here (LEAVE_OUT=1 leaves out what this machine can't run)"
left="script: left out: no thing"
ends 'leave_out thing; echo on' "$fails" 1
ends 'leave_out thing; echo on' "$fails" 1 LEAVE_OUT=0
ends 'leave_out_all thing; echo on' "$fails" 1
ends 'has thing false || true; echo on' "script: installs thing (apt-get)
$fails" 1 PATH="$work:$PATH"
ends 'leave_out thing; leave_out thing; echo "$left_out"' "$left
$left
2" 0 LEAVE_OUT=1
ends 'leave_out_all thing; echo on' "$left
script: nothing ran, 1 left out" 0 LEAVE_OUT=1
ends 'has thing false || echo "$left_out"' "script: installs thing (apt-get)
$left
1" 0 LEAVE_OUT=1 PATH="$work:$PATH"
ends 'has thing true && echo "$left_out"' 0 0
ends count_left_out 0 0 LEFT_OUT_FILE="$work/none"
ends 'leave_out thing; leave_out other; count_left_out' "$left
script: left out: no other
2" 0 LEAVE_OUT=1 LEFT_OUT_FILE="$work/list"
ends 'cat "$LEFT_OUT_FILE"' "script: no thing
script: no other" 0 LEFT_OUT_FILE="$work/list"
echo "lib: $passed passed"
