#!/usr/bin/env bash
# Builds the C layer, the examples and the tests with gcc and clang over a static library (the first argument, or
# crates/tcp_c's own), and compares what they print with tests/expected/. Stops at the first failure.
# With --target aarch64 as its first words it does so with Debian's cross compiler, under qemu, over a library that
# 'rt lib --target aarch64-unknown-linux-gnu' has built.
# It installs packages by apt-get where this machine lacks them: clang, valgrind and the compilers' sanitizers, make and
# pkg-config, or the cross compiler and qemu. Where that fails it fails, or, with LEAVE_OUT=1 in the environment, says what it
# leaves out.
set -euo pipefail
cd "$(dirname "$0")"
test=tcpcore
. ../../checks/lib.sh
target=x86_64 runner=
if [[ ${1-} == --target ]]; then
    target=$2
    shift 2
fi
library=${1:-../../crates/tcp_c/out/libtcp_c.a}
warnings="-std=c11 -g -Wall -Wextra -Wpedantic -Wcast-qual -Wconversion -Wshadow -Wstrict-prototypes -Werror"
sanitizers="-O1 -fsanitize=address,undefined -fno-sanitize-recover=all"
# The header's calls that are the library's; four are the layer's alone.
calls=$(grep -o '^[a-z].* \**tcpcore_[a-z_]*(' tcpcore.h | sed -n 's/.*tcpcore_\([a-z_]*\)($/\1/p' | grep -vxE 'strerror|version|build|new_at' | sort)
tests="examples/two_ends examples/hello tests/misuse tests/misuse_numbers tests/misuse_time_wait tests/room tests/runs tests/fields tests/answers tests/cautions tests/time_wait tests/old_names tests/reports tests/misuse_lending tests/lending tests/train tests/pacing tests/placed tests/defaults tests/connection tests/connection_train tests/connection_guard tests/connection_link tests/congestion tests/policy tests/keep_alive tests/paced tests/recovery tests/recovery_window tests/hostile tests/worlds tests/host tests/host_alone tests/host_room tests/host_world tests/host_keep_alive tests/host_paced"
passed=0

pass() { passed=$((passed + 1)); }

# The command's output has to be tests/expected/NAME.
prints() {
    local name=$1
    shift
    if ! "$@" >out/found 2>out/errors || ! cmp -s out/found "tests/expected/$name"; then
        echo "tcpcore: '$*' failed, or didn't print tests/expected/$name:"
        diff out/found "tests/expected/$name" || true
        cat out/errors
        exit 1
    fi
    pass
}

# The program FOLDER/NAME.c, built with the words after the compiler and run.
runs() {
    local source=$1 name=${1#*/} compiler=$2
    shift 2
    "$compiler" $warnings -I. "$@" "$source.c" tcpcore.c "$library" -o "out/$name.$compiler"
    prints "$name" $runner "out/$name.$compiler"
}

# What the disassembly tells of the stack, beside what tests/stack has just measured.
depth() {
    local compiler=$1 objdump=$2 level=$3 bound making recovery
    bound=$(sed -n 's/^#define TCPCORE_STACK //p' tcpcore.h)
    making=$(sed -n 's/^#define TCPCORE_CONNECTION_STACK //p' tcpcore.h)
    recovery=$(sed -n 's/^#define TCPCORE_RECOVERY_STACK //p' tcpcore.h)
    "$compiler" $warnings "$level" -c tcpcore.c -o "out/layer.$compiler.o"
    python3 tests/depth.py "$objdump" "$bound" "$making" "$recovery" "$(tail -n 1 out/errors)" "out/layer.$compiler.o" "$library"
    pass
}

# The echo server, whose packets are the companions' (c/companions); checks/live/run.sh runs it against this machine's kernel.
echo_server() {
    local compiler=$1 program=$2
    shift 2
    "$compiler" $warnings -I. -I../companions "$@" examples/host_echo.c ../companions/ip.c ../companions/secret.c tcpcore.c "$library" \
        -o "out/host_echo.$program"
}

# No C library: the functions that are needed come from the program.
static_block() {
    local compiler=$1
    "$compiler" $warnings -O2 -ffreestanding -fno-stack-protector -nostdlib -static -I. examples/static_block.c tcpcore.c "$library" \
        -o "out/static_block.$compiler"
    prints static_block $runner "out/static_block.$compiler"
}

# The names that others can link to.
exports() { nm "$@" --defined-only | awk '$2 ~ /[A-TV-Z]/ { print $NF }' | sort; }

same() {
    if [[ $2 != "$3" ]]; then
        printf 'tcpcore: %s: found\n%s\nwanted\n%s\n' "$1" "$2" "$3"
        exit 1
    fi
    pass
}

# Everything but valgrind, with one compiler.
check_with() {
    local compiler=$1 package=$2 source level shared="$PWD/out/libtcpcore.$1.so"
    "$compiler" $warnings -fsyntax-only -x c-header tcpcore.h
    "$compiler" -std=c++11 -Wall -Wextra -Wpedantic -Werror -fsyntax-only -x c++-header tcpcore.h
    pass
    for level in -O0 -O2; do
        for source in $tests; do
            runs "$source" "$compiler" "$level"
        done
        runs tests/stack "$compiler" "$level" -static
        depth "$compiler" objdump "$level"
    done
    # It takes some seconds, and what it runs of the layer the other tests run under the sanitizers.
    runs tests/blind "$compiler" -O2
    static_block "$compiler"
    echo_server "$compiler" "$compiler" -O2
    pass
    # The shared library: the header's calls and no other name.
    "$compiler" $warnings -O2 -shared -fPIC tcpcore.c "$library" -Wl,--exclude-libs,ALL -Wl,-z,defs \
        -o "$shared"
    same "exported names" "$(exports -D "$shared")" "$(printf 'tcpcore_%s\n' $calls strerror version build new_at | sort)"
    for source in examples/two_ends examples/hello examples/lossy_link examples/own_link examples/udp_file tests/fields tests/answers tests/lifetime \
        tests/calls tests/batches tests/connections tests/simulations tests/streams; do
        prints "${source#*/}" env LIBTCPCORE="$shared" PYTHONPATH="$PWD" python3 "$source.py"
    done
    if has "$package" "$compiler" $sanitizers -I. tests/misuse.c tcpcore.c "$library" -o out/sanitized; then
        for source in $tests; do
            runs "$source" "$compiler" $sanitizers
        done
        echo_server "$compiler" sanitized $sanitizers
        pass
    fi
}

# The tests on another machine than this one.
check_aarch64() {
    local compiler=aarch64-linux-gnu-gcc source
    { has qemu-user-static qemu-aarch64-static --version && has gcc-aarch64-linux-gnu "$compiler" --version &&
        has libc6-dev-arm64-cross test -e /usr/aarch64-linux-gnu/include/stdio.h; } || return 0
    runner=qemu-aarch64-static
    for source in $tests tests/stack; do
        runs "$source" "$compiler" -O2 -static
    done
    depth "$compiler" aarch64-linux-gnu-objdump -O2
    static_block "$compiler"
}

[[ -e $library ]] || { echo "tcpcore: no $library: run 'rt lib' in crates/tcp_c"; exit 1; }
mkdir -p out
same "machine of the library" "$(readelf -h "$library" | grep -o 'X86-64\|AArch64')" \
    "$(case $target in x86_64) echo X86-64 ;; aarch64) echo AArch64 ;; *) echo "x86_64 or aarch64" ;; esac)"
same "names of the static library" "$(exports "$library")" "$(sed 's/^/tcp_c_/' <<<"$calls")"
needs=$(nm "$library" --undefined-only | awk 'NF == 2 { print $2 }' | sort)
same "names that it needs" "$needs" "$(printf '%s\n' memcpy memmove memset)"
if [[ $target == aarch64 ]]; then
    check_aarch64
    echo "tcpcore: aarch64: $passed passed, $left_out left out"
    exit 0
fi
check_with gcc libasan8
# A new file: one that a running program has mapped is left as it is.
cp out/libtcpcore.gcc.so out/new.so
mv -f out/new.so out/libtcpcore.so
# What is reported, against the second program.
python3 ../../checks/differential/reports.py out/libtcpcore.so 1500 >out/reports.log || { cat out/reports.log; exit 1; }
pass
if has clang clang --version; then
    check_with clang libclang-rt-14-dev
fi
if has make make --version && has pkg-config pkg-config --version; then
    tests/install.sh "$library"
    pass
fi
if has valgrind valgrind --version; then
    for source in $tests; do
        name=${source#*/}
        gcc $warnings -O1 -I. "$source.c" tcpcore.c "$library" -o "out/$name"
        prints "$name" valgrind --quiet --error-exitcode=1 --leak-check=full --errors-for-leak-kinds=all "out/$name"
    done
fi
echo "tcpcore: $passed passed, $left_out left out"
