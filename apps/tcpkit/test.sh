#!/usr/bin/env bash
# The programs as one C file each (out/tcpkit.c and out/tcpjudge.c, which build.sh makes): their machine code is that of LIBRARIES (the
# argument, a folder of MACHINE/libtcp_web.a, or c/dist's) to the byte; with it, by gcc and clang, and on aarch64 under qemu, and in C, by
# gcc, under sanitizers, and on a machine of 32 bits and on one of the other order of bytes under qemu, they write and answer on stored
# cases what is stored, and on random scripts, lists and logs what the second programs of checks/differential do. With --only PART it
# runs one part: machine_code, sanitized, translated or emulated. It installs what this machine lacks by apt-get; where that fails it
# fails, or, with LEAVE_OUT=1 in the environment, says what it leaves out. Stops at the first failure.
set -euo pipefail
cd "$(dirname "$0")"
parts="machine_code sanitized translated emulated"
if [[ ${1-} == --only ]]; then
    [[ " $parts " == *" $2 "* ]] || { echo "tcpkit: the parts are $parts"; exit 1; }
    parts=$2
    shift 2
fi
test=tcpkit
. ../../checks/lib.sh
. ../../c/machine/common.sh
top=$(cd ../.. && pwd)
libraries=$(realpath -m "${1:-$top/c/dist/out/prebuilt}")
# The program that the gate has built, with which the one of C is compared where it is here.
proved=("$top/crates/tcpjudge/out/tcpjudge")
[[ -x ${proved[0]} ]] || proved=()
passed=0
pass() { passed=$((passed + 1)); }
fail() { echo "tcpkit: FAILED: $*"; exit 1; }
for program in tcpkit tcpjudge; do
    [[ -e out/$program.c ]] || { echo "tcpkit: no out/$program.c: run apps/tcpkit/build.sh"; exit 1; }
done

# Both programs on all cases, by their words in tested.NAME, and on random ones: the number of the first, and how many.
stored() {
    python3 cases.py "$out/tested.tcpkit"
    python3 judge_cases.py --numbers "$1" "$2" "$out/tested.tcpjudge" "${proved[@]}"
    passed=$((passed + 2))
}

# Random scripts and lists, so many of each, as the second programs have them.
random() {
    TCPKIT=$out/tested.tcpkit python3 ../../checks/differential/replay.py "$1"
    TCPKIT=$out/tested.tcpkit python3 ../../checks/differential/decode.py "$2"
    passed=$((passed + 2))
}

# Whether a program has the machine code in it, and nothing of the translated C, or the other way round.
is_machine_code() {
    nm "$1" >"$out/names"
    if grep -q ' tcp_web_' "$out/names"; then [[ $2 == yes ]]; else [[ $2 == no ]] && grep -q w2c_ "$out/names"; fi || fail "$1: machine code is wanted: $2"
    pass
}

# With little memory a program does what fits into it; where that isn't enough it says so, and has written nothing.
little_memory() {
    local status=0
    (ulimit -v 20000 && "$out/tested.tcpkit" replay "$top/crates/tcpkit/data/first-run.script") >"$out/found"
    cmp "$out/found" "$top/crates/tcpkit/stdout" || fail "the first run with 20 MB"
    awk 'BEGIN { print "listen B"; print "connect A"; for (i = 0; i < 400000; i++) print "emit A" }' >"$out/many.script"
    (ulimit -v 20000 && "$out/tested.tcpkit" replay "$out/many.script") >"$out/found" 2>"$out/told" || status=$?
    [[ $status == 2 && $(<"$out/told") == "tcpkit: 42" && ! -s $out/found ]] || fail "400,000 events with 20 MB: $status, $(<"$out/told")"
    pass
}

# FIRST COUNT COMPILER WORDS..: the programs that a compiler makes with these words, on COUNT random cases from the number FIRST on.
cases() {
    local first=$1 count=$2 program
    shift 2
    for program in tcpkit tcpjudge; do
        "$@" -std=c99 -Wall -Wextra -Wpedantic -Werror "out/$program.c" -o "$out/tested.$program"
    done
    stored "$first" "$count"
}

# FIRST COUNT RUNNER COMPILER WORDS..: the same of another machine, under its runner.
cases_under() {
    local first=$1 count=$2 runner=$3 program
    shift 3
    for program in tcpkit tcpjudge; do
        "$@" -std=c99 -O1 -static "out/$program.c" -o "$out/emulated.$program"
        printf '#!/bin/sh\nexec %s %s "$@"\n' "$runner" "$out/emulated.$program" >"$out/tested.$program"
        chmod +x "$out/tested.$program"
    done
    stored "$first" "$count"
}

# Each compiler has random cases of its own: more are met so than by the same ones again.
machine_code() {
    same_code out/tcpkit.c "$libraries" libtcp_web.a tcp_web_list tcp_web_replay
    same_code out/tcpjudge.c "$libraries" libtcp_web.a tcp_web_judge tcp_web_capture
    cases 0 600 gcc -O2
    is_machine_code "$out/tested.tcpkit" yes
    is_machine_code "$out/tested.tcpjudge" yes
    little_memory
    random 60 20
    cases 600 150 gcc -O2 -march=x86-64-v2
    if has clang clang --version; then
        cases 750 150 clang -O1
        cases 900 150 clang -O2 -flto
    fi
}

translated() {
    cases 1050 600 gcc -O2 -DTCPCORE_PORTABLE
    is_machine_code "$out/tested.tcpkit" no
    is_machine_code "$out/tested.tcpjudge" no
    random 30 10
}

sanitized() {
    cases 1650 600 gcc -g -O1 -fsanitize=address,undefined -fno-sanitize-recover=all
    cases 2250 600 gcc -g -O1 -DTCPCORE_PORTABLE -fsanitize=address,undefined -fno-sanitize-recover=all
}

emulated() {
    if has_aarch64; then cases_under 2850 150 qemu-aarch64-static aarch64-linux-gnu-gcc; fi
    if has qemu-user-static qemu-s390x-static --version && has gcc-s390x-linux-gnu s390x-linux-gnu-gcc --version &&
        has libc6-dev-s390x-cross test -e /usr/s390x-linux-gnu/include/stdio.h; then
        cases_under 3000 150 qemu-s390x-static s390x-linux-gnu-gcc
    fi
    if has qemu-user-static qemu-arm-static --version && has gcc-arm-linux-gnueabihf arm-linux-gnueabihf-gcc --version &&
        has libc6-dev-armhf-cross test -e /usr/arm-linux-gnueabihf/include/stdio.h; then
        cases_under 3150 150 qemu-arm-static arm-linux-gnueabihf-gcc
    fi
}

for part in $parts; do
    # Parts may run side by side.
    out=$PWD/out/$part
    mkdir -p "$out"
    $part
done
echo "tcpkit: $parts: $passed passed, $left_out left out"
