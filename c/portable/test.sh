#!/usr/bin/env bash
# The portable file (out/tcpcore_portable.c, which build.sh makes) under the tests of c/tcpcore, on this machine and on others under
# qemu; and against the native library (the first argument, or crates/tcp_c's own): over random calls of the whole interface every
# answer, told value and emitted byte is the same. Writes MACHINES.md, the table of sizes. With --short before it: one compiler, two
# machines, and no table; with --only NAME that machine alone, and the others' lines of the table as they were.
# It installs compilers and qemu by apt-get where this machine lacks them; where that fails it fails, or, with LEAVE_OUT=1 in the
# environment, says what it leaves out. Stops at the first failure.
set -euo pipefail
cd "$(dirname "$0")"
test=portable
. ../../checks/lib.sh
short='' only='' calls=1000000
case ${1-} in
    --short) short=1 calls=200000 && shift ;;
    --only) only=$2 && shift 2 ;;
esac
native=$(realpath -m "${1:-../../crates/tcp_c/out/libtcp_c.a}")
layer=$(realpath ../tcpcore)
file=out/tcpcore_portable.c
clean="-Wall -Wextra -Wpedantic -Wcast-qual -Wshadow -Wstrict-prototypes -Werror"
tests="examples/two_ends examples/hello tests/misuse tests/misuse_numbers tests/misuse_time_wait tests/room tests/fields tests/answers tests/cautions tests/time_wait tests/old_names tests/reports tests/misuse_lending tests/lending tests/train tests/pacing tests/defaults tests/connection tests/policy tests/keep_alive tests/paced tests/recovery tests/recovery_window tests/hostile tests/stack"
passed=0

pass() { passed=$((passed + 1)); }

fail() {
    echo "portable: $*"
    exit 1
}

# The names that an object defines for others, and those that it wants: the compiler's own helpers begin with two underscores.
names() { nm "$@" | awk '$2 ~ /[A-TV-Z]/ && NF == 3 { print $3 }' | sort; }
wants() { nm "$1" -u | awk '$NF !~ /^__|^_GLOBAL_OFFSET_TABLE_$/ { print $NF }' | sort; }

# out/NAME.o of the file, by a compiler and its words; nothing in it is global and variable.
object() {
    local name=$1
    shift
    "$@" -std=c99 $clean -I"$layer" -c "$file" -o "out/$name.o"
    [[ -z $(size -A "out/$name.o" | awk '/^[.]s?(data|bss)/ && !/^[.]data[.]rel[.]ro/ && $2 > 0') ]] || fail "$name has global state"
    [[ -z $(wants "out/$name.o" | grep -vxE 'memcpy|memmove|memset') ]] || fail "$name wants $(wants "out/$name.o")"
    pass
}

# The tests of c/tcpcore over out/NAME.o print what they have to; the words are those of the compiler, `run` is what runs them. The
# greatest depth of the stack goes to `stack`.
tests_over() {
    local name=$1 source test
    shift
    for source in $tests; do
        test=${source#*/}
        # A dynamic linker takes stack of its own.
        "$@" -std=c11 -DBOUND=TCPCORE_PORTABLE_STACK -I"$layer" "$layer/$source.c" "out/$name.o" -static -o "out/$test.$name"
        timeout 300 $run "out/$test.$name" >out/found 2>out/errors || fail "$test of $name: $(cat out/found out/errors)"
        sed '/^[0-9]*$/d' out/found | cmp - "$layer/tests/expected/$test" || fail "$test of $name"
        [[ $test != stack ]] || stack=$(cat out/found out/errors | grep -x '[0-9]*')
        pass
    done
}

# Random calls over out/NAME.o print what they do over the native library.
calls_over() {
    local name=$1
    shift
    "$@" -std=c11 -DCOUNT="$calls" -I"$layer" tests/calls.c "out/$name.o" $linked -o "out/calls.$name"
    timeout 900 $run "out/calls.$name" | sed 's/\r$//' | cmp - out/calls.native || fail "$name answers otherwise than the native library"
    pass
}

size_of() { "$1" "out/$2.o" | awk 'NR == 2 { print $1 }'; }

# Whether this machine is to be looked at.
is_wanted() { [[ -z $only || $only == "$1" ]]; }

# Its line of the table: name, tools' prefix for `size`, what was run.
row() { echo "| $1 | $(size_of "$2" "$1") | $(size_of "$2" "$1.unchecked") | $stack | $3 |" >"out/rows/$1"; }

# A machine: its name, the prefix of its tools, what runs its programs, and the words of its compiler.
machine() {
    local name=$1 tools=$2
    run=$3
    is_wanted "$name" || return 0
    shift 3
    object "$name" "$tools-gcc" -Os "$@"
    tests_over "$name" "$tools-gcc" -O1 "$@" $linked
    calls_over "$name" "$tools-gcc" -O2 "$@"
    object "$name.unchecked" "$tools-gcc" -Os -DTCPCORE_UNCHECKED "$@"
    calls_over "$name.unchecked" "$tools-gcc" -O2 "$@"
    row "$name" "$tools-size" all
    echo "portable: $name: the same as the native library, $stack bytes of stack"
}

# One that is compiled alone.
compiled() {
    local name=$1 tools=$2
    is_wanted "$name" || return 0
    shift 2
    object "$name" "$tools-gcc" -Os "$@"
    object "$name.unchecked" "$tools-gcc" -Os -DTCPCORE_UNCHECKED "$@"
    stack='' && row "$name" "$tools-size" compiled
}

# Instructions for a segment of 1,460 bytes and its answer, both ends together. Of copies as long as the user's, glibc makes one
# instruction that is counted for each byte, but not where it is told so.
instructions() {
    gcc -std=c11 -O2 -I"$layer" tests/speed.c "$@" -o out/speed
    GLIBC_TUNABLES=glibc.cpu.x86_rep_movsb_threshold=1000000000 valgrind --tool=callgrind --callgrind-out-file=/dev/null out/speed 4 2>&1 |
        awk '/Collected/ { sum = $4 } /^[0-9]+$/ { count = $1 } END { print int(sum / count) }'
}

# Each test of an access stops what chance has made of an end; without them bytes are touched that aren't the end's, or it crashes.
stops() {
    local words
    for words in "" -DTCPCORE_UNCHECKED; do
        gcc -std=c99 -O2 $words -include tests/stopped.h '-DTCPCORE_STOP()=stopped()' -I"$layer" -c "$file" -o out/stops.o
        gcc -std=gnu11 -Wall -Wextra -Werror -O1 -I"$layer" tests/stops.c out/stops.o -o "out/stops$words"
    done
    out/stops || fail "an access wasn't stopped"
    # Where it crashes, the inner shell says so, into the file: this script's output shows nothing that looks like a failure.
    if bash -c 'ulimit -c 0; out/stops-DTCPCORE_UNCHECKED; exit' >out/found 2>&1; then fail "nothing is found where no access is tested"; fi
    pass
}

# A test of one function of memory.c, and what it is about.
of_memory() {
    gcc -std=c99 -Wall -Wextra -Wno-unused-function -Werror -g -O1 -fsanitize=address,undefined -fno-sanitize-recover=all "tests/$1.c" -o "out/$1"
    "out/$1" || fail "$2"
    pass
}

# What a call takes of the stack at most, as gcc lists the frames. Functions of the same code stay apart, or the list would lack them.
depths() {
    local words bound connection
    bound=$(sed -n 's/^#define TCPCORE_PORTABLE_STACK //p' "$layer/tcpcore.h")
    connection=$(sed -n 's/^#define TCPCORE_PORTABLE_CONNECTION_STACK //p' "$layer/tcpcore.h")
    for words in -O0 -O2 -Os; do
        [[ -z $short || $words == -O2 ]] || continue
        gcc -std=c99 $words -fno-ipa-icf -fcallgraph-info=su -I"$layer" -c "$file" -o "out/depth$words.o"
        python3 tests/depth.py "$bound" "$connection" "out/depth$words.ci" || fail "the stack of $words"
        pass
    done
}

# What copies or sums ahead of a loop does what the loop does, of which no other is taken for one; and a division of 64 bits is one.
ahead() {
    of_memory ahead "a loop that copies does something else where it is done ahead"
    of_memory sums "a loop that sums does something else where it is done ahead"
    python3 tests/sums_test.py out/tcp_c.c || fail "another loop is taken for the checksum's"
    pass
    of_memory quotient "a division isn't one"
}

[[ -e $file ]] || fail "no $file: run c/portable/build.sh"
[[ -e $native ]] || fail "no $native: run 'rt lib' in crates/tcp_c"
run='' linked=''
gcc -std=c11 -O2 -DCOUNT="$calls" -I"$layer" tests/calls.c "$layer/tcpcore.c" "$native" -o out/calls.native.program
out/calls.native.program >out/calls.native
(($(grep -c : out/calls.native) >= 25)) || fail "the random calls met fewer than 25 answers"

here() {
    local compiler words wanted sanitizers
    for compiler in gcc clang; do
        [[ -z $short || $compiler == gcc ]] || continue
        has "$compiler" "$compiler" --version || continue
        for words in -O0 -O2 "-O2 -DTCPCORE_UNCHECKED"; do
            [[ -z $short || $words == -O2 ]] || continue
            object "here.$compiler" $compiler $words
            tests_over "here.$compiler" $compiler -O1
            calls_over "here.$compiler" $compiler -O2
        done
        # Hosts are in machine code alone.
        wanted=$(grep -o '^[a-z].* \**tcpcore_[a-z_]*(' "$layer/tcpcore.h" | grep -o 'tcpcore_[a-z_]*' | grep -v '^tcpcore_host_' | sort)
        [[ $(names "out/here.$compiler.o") == "$wanted" ]] || fail "the names aren't the header's"
        pass
    done
    # With the compiler's own headers alone, as where there is no C library.
    object freestanding gcc -O2 -ffreestanding -nostdinc -isystem "$(gcc -print-file-name=include)"
    sanitizers="-g -O1 -fsanitize=address,undefined -fno-sanitize-recover=all"
    gcc -std=c99 $sanitizers -I"$layer" -c "$file" -o out/sanitized.o
    calls_over sanitized gcc $sanitizers
    stops
    ahead
    depths
    [[ -z $short ]] || return 0
    object x86-64 gcc -Os
    object x86-64.unchecked gcc -Os -DTCPCORE_UNCHECKED
    tests_over x86-64 gcc -O1
    row x86-64 size all
    object fast gcc -O2
    object fast.unchecked gcc -O2 -DTCPCORE_UNCHECKED
    if has valgrind valgrind --version; then
        echo "native $(instructions "$layer/tcpcore.c" "$native"), checked $(instructions out/fast.o)," \
            "unchecked $(instructions out/fast.unchecked.o)" >out/speed.txt
    fi
}
[[ -n $only || -n $short ]] || rm -rf out/rows
mkdir -p out/rows
! is_wanted x86-64 || here

# A machine of Debian's, once its compiler and its C library are there.
of_linux() {
    local name=$1 tools=$2 package=$3 runner=$4
    if has "gcc-$tools" "$tools-gcc" --version && has "$package" test -e "/usr/$tools/include/stdio.h"; then
        machine "$name" "$tools" "$runner"
    fi
}

machines() {
    linked=-static
    has qemu-user-static qemu-s390x-static --version || return 0
    of_linux s390x s390x-linux-gnu libc6-dev-s390x-cross qemu-s390x-static
    of_linux armhf arm-linux-gnueabihf libc6-dev-armhf-cross qemu-arm-static
    [[ -z $short ]] || return 0
    of_linux i686 i686-linux-gnu libc6-dev-i386-cross qemu-i386-static
    of_linux riscv64 riscv64-linux-gnu libc6-dev-riscv64-cross qemu-riscv64-static
}
machines

# Bare metal: qemu's board mps2-an385, 4 MB for code and 16 MB of memory, with picolibc.
bare() {
    has gcc-arm-none-eabi arm-none-eabi-gcc --version || return 0
    has picolibc-arm-none-eabi arm-none-eabi-gcc --specs=picolibc.specs -E -x c /dev/null || return 0
    compiled cortex-m0 arm-none-eabi --specs=picolibc.specs -mcpu=cortex-m0 -mthumb
    compiled cortex-m4 arm-none-eabi --specs=picolibc.specs -mcpu=cortex-m4 -mthumb
    has qemu-system-arm qemu-system-arm --version || return 0
    linked="--crt0=hosted --oslib=semihost -Wl,--defsym=__flash=0 -Wl,--defsym=__flash_size=4M"
    linked+=" -Wl,--defsym=__ram=0x21000000 -Wl,--defsym=__ram_size=16M -Wl,--defsym=__stack_size=64K"
    machine cortex-m3 arm-none-eabi ./tests/board.sh --specs=picolibc.specs -mcpu=cortex-m3 -mthumb
}
[[ -n $short ]] || bare

# A machine's line of the table: of one that wasn't looked at now the line that it had.
line_of() { cat "out/rows/$1" 2>/dev/null || { [[ -n $only ]] && grep "^| $1 |" MACHINES.md; } || true; }

# The table, of the machines that were looked at.
if [[ -z $short ]]; then
    lines=$(for name in x86-64 i686 armhf riscv64 s390x cortex-m0 cortex-m3 cortex-m4; do line_of "$name"; done)
    cat >MACHINES.md <<TABLE
# The portable file by machine

Written by \`c/portable/test.sh\`: bytes of code and constants (gcc, -Os), the deepest call's stack in bytes, painted and
looked at (\`c/tcpcore/tests/stack.c\`), and what was run: *all* are the tests of \`c/tcpcore\`, and random calls ($calls
of them) with every answer, told value and emitted byte as the native library's.

| Machine | checked | unchecked | stack | run |
|---|---|---|---|---|
$lines

An end takes the memory that it takes with the native library (\`TCPCORE_MEMORY\`) and the 24 bytes of its struct; nothing
is static.

Instructions on x86-64 for a segment of 1,460 bytes with its answer, both ends together, at -O2:
$(cat out/speed.txt 2>/dev/null || echo "not measured").
Most are those of the tests of each access, and of records that are carried into the module and back.
TABLE
fi
echo "portable: $passed passed, $left_out left out"
