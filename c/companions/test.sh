#!/usr/bin/env bash
# Builds the companions and their tests with gcc and clang over a static library (the first argument, or crates/tcp_c's
# own), and runs them, also under sanitizers and valgrind. It installs clang, valgrind and the sanitizers by apt-get where
# this machine lacks them; where that fails it fails, or, with LEAVE_OUT=1 in the environment, says what it leaves out.
# Stops at the first failure.
set -euo pipefail
cd "$(dirname "$0")"
test=companions
. ../../checks/lib.sh
library=$(realpath -m "${1:-../../crates/tcp_c/out/libtcp_c.a}")
warnings="-std=c11 -g -Wall -Wextra -Wpedantic -Werror"
stricter="-Wcast-qual -Wconversion -Wshadow -Wstrict-prototypes"
sanitizers="-O1 -fsanitize=address,undefined -fno-sanitize-recover=all"
tests="ip datagrams faults fragments ip6 path trains secret"
passed=0

pass() { passed=$((passed + 1)); }

# All companions and the layer in out/VARIANT, built once for all programs; the words behind are the compiler's.
objects() {
    local variant=$1 compiler=$2
    shift 2
    mkdir -p "out/$variant"
    (cd "out/$variant" && "$compiler" $warnings -I../../../tcpcore "$@" -c ../../*.c ../../../tcpcore/tcpcore.c)
}

# The program out/PROGRAM of SOURCE, these objects and the library.
build() {
    local variant=$1 source=$2 program=$3 compiler=$4
    shift 4
    "$compiler" $warnings -I../tcpcore "$@" "$source" "out/$variant/"*.o "$library" -o "out/$program"
}

# Runs a test: its last line has to count at least one check.
runs() {
    "$@" >out/found 2>&1 || { cat out/found; exit 1; }
    grep -Eq ': [1-9][0-9]* checks$' out/found || { echo "companions: '$*' checked nothing:"; cat out/found; exit 1; }
    pass
}

# The names of an object that an awk program picks have to be none.
no_names() {
    local what=$1 found
    found=$(nm "$2" | awk "$3")
    [[ -z $found ]] || { printf 'companions: %s: %s\n%s\n' "$2" "$what" "$found"; exit 1; }
    pass
}

# Each file alone: its header, no state, names that begin with its own, and of a C library nothing but four functions.
check_file() {
    local compiler=$1 name=$2
    "$compiler" $warnings $stricter -I../tcpcore -fsyntax-only -x c-header "$name.h"
    "$compiler" $warnings $stricter -I../tcpcore -O2 -fno-stack-protector -c "$name.c" -o "out/$name.o"
    no_names "global state" "out/$name.o" 'NF == 3 && $2 ~ /[BbCDd]/'
    no_names "other names" "out/$name.o" "NF == 3 && \$2 ~ /[A-Z]/ && tolower(\$3) !~ /^${name}_/"
    no_names "what it needs" "out/$name.o" \
        '$1 == "U" && $2 !~ /^(tcpcore|icmp|ip6?|secret)_|^mem(cpy|move|set|cmp)$/'
}

# All under sanitizers, and a test of them.
sanitized() { objects "$1" "$1" $sanitizers && build "$1" tests/ip.c ip.sanitized "$1" $sanitizers; }

check_with() {
    local compiler=$1 package=$2 name level
    for name in ip ethernet icmp udp faults fragments ip6 icmp6 path trains secret; do
        check_file "$compiler" "$name"
    done
    # What it needs is the system's; ../../apps/usernet runs it.
    "$compiler" $warnings $stricter -I../tcpcore -O2 -c tun.c -o out/tun.o
    for level in -O0 -O2; do
        objects "$compiler$level" "$compiler" "$level"
        for name in $tests; do
            build "$compiler$level" "tests/$name.c" "$name$level.$compiler" "$compiler" "$level"
            runs "out/$name$level.$compiler"
        done
    done
    if has "$package" sanitized "$compiler"; then
        for name in $tests; do
            build "$compiler" "tests/$name.c" "$name.sanitized" "$compiler" $sanitizers
            runs "out/$name.sanitized"
        done
    fi
}

[[ -e $library ]] || { echo "companions: no $library: run 'rt lib' in crates/tcp_c"; exit 1; }
mkdir -p out
check_with gcc libasan8
if has clang clang --version; then
    check_with clang libclang-rt-14-dev
fi
if has valgrind valgrind --version; then
    for name in $tests; do
        runs valgrind --quiet --error-exitcode=1 --leak-check=full --errors-for-leak-kinds=all "out/$name-O0.gcc"
    done
fi
echo "companions: $passed passed, $left_out left out"
