#!/usr/bin/env bash
# The built programs against the second programs on random inputs, a minute of it: scripts, lists of segments, one end's calls,
# the two buffers, times and windows, losses by time, keep-alives, a driver and a flow. The programs are those that 'rt ci' has built, or 'rt
# run' in their folders; where one isn't built this fails, or, with LEAVE_OUT=1 in the environment, says so and leaves its
# comparison out. And turns of a caller's loop, and the scripted world of two connections, whose trace is stored, which need
# none.
set -euo pipefail
cd "$(dirname "$0")"
test=differential
. ../lib.sh
passed=0

# The comparison behind the name of a program, which prints how much it compared.
compared() {
    local program=$1
    shift
    if [[ ! -x ../../crates/$program/out/$program ]]; then
        leave_out "crates/$program/out/$program, which 'rt run' there builds"
        return
    fi
    python3 "$@"
    passed=$((passed + 1))
}

compared tcpkit replay.py 100
compared tcpkit decode.py 20
compared test_one_end one_end.py 200
compared test_buffers buffers.py --check 6000
compared test_timing times.py --check 6000
compared test_recovery recovery.py --check 6000
compared test_keep_alive keep_alive.py --check
compared test_driver driver.py --check 6000
compared test_flow flows.py --check 6000
python3 turns.py 1500
python3 connections.py
passed=$((passed + 2))
echo "differential: $passed passed, $left_out left out"
