#!/usr/bin/env bash
# The C library as one file with machine code in it (c/portable/out/tcpcore.c, which c/portable/build.sh makes): what gcc and clang assemble
# for x86-64, x86-64-v2 and aarch64 is the code of LIBRARIES (the last argument, a folder of MACHINE/libtcp_c.a, or c/dist's) to the byte,
# with its relocations and symbols; on each machine it passes the tests of c/tcpcore, aarch64 under qemu, and answers random calls as the
# library itself does; it is taken where it may be, and nowhere else; and a program over it runs however it is compiled and linked: each
# level of optimizing, LTO of each kind, static, shared, other linkers, musl, sanitizers. With --short before it one compiler of each kind.
# It installs what this machine lacks by apt-get; where that fails it fails, or, with LEAVE_OUT=1 in the environment, says what it leaves
# out. Stops at the first failure.
set -euo pipefail
cd "$(dirname "$0")"
test=machine
. ../../checks/lib.sh
. common.sh
short='' calls=1000000 few=20000
[[ ${1-} != --short ]] || { short=1 calls=100000 && shift; }
libraries=$(realpath -m "${1:-../dist/out/prebuilt}")
top=$(cd ../.. && pwd)
layer=$top/c/tcpcore
file=$top/c/portable/out/tcpcore.c
warnings="-Wall -Wextra -Wpedantic -Wcast-qual -Wshadow -Wstrict-prototypes -Werror"
tests=$(sed -n 's/^tests="\(.*\)"$/\1/p' "$layer/test.sh")
passed=0

pass() { passed=$((passed + 1)); }
fail() { echo "machine: FAILED: $*"; exit 1; }

[[ -e $file ]] || fail "no $file: run c/portable/build.sh"
[[ -e $libraries/x86-64/libtcp_c.a ]] || fail "no $libraries/x86-64/libtcp_c.a: run c/dist/prebuilt.sh"
mkdir -p out
roots=$(nm --defined-only "$libraries/x86-64/libtcp_c.a" | awk '$2 == "T" { print $3 }' | sort)

# What a compiler with these words takes: the machine's name, or nothing.
takes() { "$@" -I"$layer" -dM -E "$file" | sed -n 's/^#define MACHINE_CODE "\(.*\) machine code"$/\1/p'; }
has_hosts() { "${@:2}" -I"$layer" -dM -E -x c "$1" | sed -n 's/^#define TCPCORE_HAS_HOSTS //p'; }
chosen() {
    local wanted=$1
    shift
    [[ $(takes "$@") == "$wanted" ]] || fail "'$*' takes '$(takes "$@")' and not '$wanted'"
    # The header, by itself too, says that there are hosts where machine code is taken, and nowhere else.
    [[ $(has_hosts "$file" "$@") == "${wanted:+1}" && $(has_hosts "$layer/tcpcore.h" "$@") == "${wanted:+1}" ]] ||
        fail "'$*' and hosts: '$(has_hosts "$file" "$@")' in the file, '$(has_hosts "$layer/tcpcore.h" "$@")' in the header"
    pass
}

choices() {
    local compiler
    for compiler in gcc clang; do
        [[ $compiler == gcc ]] || has clang clang --version || continue
        chosen x86-64 $compiler
        chosen x86-64-v2 $compiler -march=x86-64-v2
        chosen x86-64-v2 $compiler -march=haswell
        chosen "" $compiler -DTCPCORE_PORTABLE
        chosen "" $compiler -mno-sse
        chosen "" $compiler -mcmodel=large
        chosen "" $compiler -U__linux__
        chosen "" $compiler -U__ELF__
        chosen "" $compiler -m32 -nostdinc -isystem "$(gcc -print-file-name=include)" -ffreestanding
        chosen "" $compiler -mx32 -nostdinc -isystem "$(gcc -print-file-name=include)" -ffreestanding
    done
    if has clang clang --version; then
        chosen "" clang -fsanitize=memory
        bare=(-nostdinc -isystem "$(clang -print-resource-dir)/include" -ffreestanding)
        chosen aarch64 clang -target aarch64-linux-gnu "${bare[@]}"
        chosen "" clang -target aarch64-linux-gnu "${bare[@]}" -fsanitize=shadow-call-stack -ffixed-x18
        chosen "" clang -target aarch64-linux-gnu "${bare[@]}" -mcmodel=large
        chosen "" clang -target aarch64-linux-android "${bare[@]}"
    fi
    if has_aarch64; then
        chosen aarch64 aarch64-linux-gnu-gcc
        chosen "" aarch64-linux-gnu-gcc -mbranch-protection=standard
        chosen "" aarch64-linux-gnu-gcc -mgeneral-regs-only
        chosen "" aarch64-linux-gnu-gcc -mcmodel=large -fno-pic
    fi
}

# The tests of c/tcpcore over an object print what they have to; what runs them is `run`.
tests_over() {
    local object=$1 source name
    shift
    for source in $tests tests/stack; do
        name=${source#*/}
        "$@" -std=c11 -O1 -I"$layer" "$layer/$source.c" "$object" -static -o "out/$name"
        timeout 300 $run "out/$name" >out/found 2>out/errors || fail "$name of $object: $(cat out/found out/errors)"
        cmp out/found "$layer/tests/expected/$name" || fail "$name of $object"
        pass
    done
}

# Of each machine: no warning, nothing is global and variable, the linker is asked for three functions, all tests, and random calls.
machine() {
    local machine=$1 compiler=$2 run=$3 words object wanted
    compiler_for "$machine" "$compiler" || return 0
    object=out/$machine.$compiler.o
    "${words[@]}" -std=c99 -O2 $warnings -I"$layer" -c "$file" -o "$object"
    [[ -z $(size -A "$object" | awk '/^[.]s?(data|bss)/ && !/^[.]data[.]rel[.]ro/ && $2 > 0') ]] || fail "$object has global state"
    wanted=$(nm -u "$object" | awk '{ print $NF }' | grep -vxE 'memcpy|memmove|memset|_GLOBAL_OFFSET_TABLE_') || true
    [[ -z $wanted ]] || fail "$object wants $wanted"
    pass
    [[ $compiler == gcc || $machine != aarch64 ]] || words=(aarch64-linux-gnu-gcc)
    tests_over "$object" "${words[@]}"
    "${words[@]}" -std=c11 -O2 -DCOUNT=$calls -I"$layer" "$top/c/portable/tests/calls.c" "$object" -static -o out/calls
    timeout 900 $run out/calls | cmp - out/calls.native || fail "$object answers otherwise than the library"
    printf '#include "tcpcore.h"\n#include <stdio.h>\nint main(void) { return puts(tcpcore_build()) < 0; }\n' >out/build.c
    "${words[@]}" -I"$layer" out/build.c "$object" -static -o out/build
    [[ $($run out/build) == "$machine machine code" ]] || fail "tcpcore_build says $($run out/build)"
    pass
    echo "machine: $machine by $compiler: the tests, and random calls as the library answers them"
}

# A program of the file and of random calls, by a compiler and its words, prints what it prints over the library; what runs it is `run`.
runs() {
    rm -f out/way
    "$@" -DCOUNT=$few -I"$layer" "$top/c/portable/tests/calls.c" "$file" -o out/way >out/told 2>&1 || { cat out/told; fail "'$*' doesn't build"; }
    # gcc tells how it makes use of processors.
    if grep -v -e 'using serial compilation' -e 'the .-flto. option documentation' out/told; then fail "'$*' warns"; fi
    timeout 300 $run out/way >out/found || fail "'$*' makes a program that fails"
    cmp out/found out/few.native || fail "'$*' makes a program that answers otherwise"
    pass
}

shared() {
    local wanted found
    "$@" -O2 -fPIC -shared -Wl,-z,defs -I"$layer" "$file" -o out/libtcpcore.so
    wanted=$(grep -o '^[a-z].* \**tcpcore_[a-z_]*(' "$layer/tcpcore.h" | grep -o 'tcpcore_[a-z_]*' | sort)
    found=$(nm -D --defined-only out/libtcpcore.so | awk '$2 ~ /[A-TV-Z]/ { print $3 }' | sort)
    [[ $found == "$wanted" ]] || fail "'$*' exports other names"
    "$@" -I"$layer" "$layer/examples/hello.c" -Lout -Wl,-rpath,"$PWD/out" -ltcpcore -o out/way
    out/way | cmp - "$layer/tests/expected/hello" || fail "'$*' over a shared library"
    pass
}

ways() {
    local compiler linker words run=''
    for compiler in gcc clang; do
        [[ $compiler == gcc ]] || has clang clang --version || continue
        runs $compiler -O2 $warnings
        runs $compiler -O2 -flto
        shared $compiler
        [[ -z $short ]] || continue
        for words in -O0 -O1 -O3 -Os -g "-O2 -g -ffunction-sections -fdata-sections -Wl,--gc-sections" "-O2 -fPIE -pie" "-O2 -no-pie" \
            "-O2 -static" "-O2 -static-pie -fPIE" "-O1 -fsanitize=address,undefined" "-O1 -fsanitize=thread" "-O2 -fno-plt -fPIE -pie" \
            "-O2 -march=native" "-std=c99 -pedantic-errors" "-O2 -fvisibility=hidden"; do
            if [[ $words == *sanitize* && $compiler == clang ]]; then
                has libclang-rt-14-dev clang $words -I"$layer" "$layer/examples/hello.c" "$file" -o out/way || continue
            fi
            runs $compiler $words
        done
        shared $compiler -flto
        for linker in lld gold mold; do
            case $linker in
                lld) has lld ld.lld --version || continue ;;
                gold) has binutils ld.gold --version || continue ;;
                mold) has mold mold --version || continue ;;
            esac
            runs $compiler -O2 -fuse-ld=$linker
            runs $compiler -O2 -fuse-ld=$linker -ffunction-sections -Wl,--gc-sections -Wl,--icf=all
            [[ $compiler-$linker == gcc-lld ]] || runs $compiler -O2 -flto -fuse-ld=$linker
        done
    done
    [[ -z $short ]] || return 0
    runs gcc -O2 -masm=intel
    runs gcc -O2 -flto -flto-partition=max
    runs gcc -O2 -flto -flto-partition=none
    runs gcc -O2 -fno-toplevel-reorder
    if has clang clang --version && has lld ld.lld --version; then
        runs clang -O0 -flto -fuse-ld=lld
        runs clang -O2 -flto=thin -fuse-ld=lld
        runs clang -O2 -fno-integrated-as
    fi
}

# Of aarch64 what linkers do to its addresses.
ways_of_aarch64() {
    local words run=qemu-aarch64-static
    has_aarch64 || return 0
    runs aarch64-linux-gnu-gcc -O2 -static
    [[ -z $short ]] || return 0
    for words in "-O2 -static -flto" "-O2 -static -ffunction-sections -Wl,--gc-sections" "-O2 -static-pie -fPIE" \
        "-O2 -static -Wl,--fix-cortex-a53-843419"; do
        runs aarch64-linux-gnu-gcc $words
    done
    if has clang clang --version && has lld ld.lld --version; then
        for words in -O2 "-O2 -flto" "-O2 -Wl,--gc-sections -Wl,--icf=all" "-O2 -flto=thin"; do
            runs clang --target=aarch64-linux-gnu -fuse-ld=lld -static $words
        done
    fi
    run="qemu-aarch64-static -L /usr/aarch64-linux-gnu"
    runs aarch64-linux-gnu-gcc -O2
    runs aarch64-linux-gnu-gcc -O2 -no-pie
}

musl() {
    local words run=''
    has musl-tools musl-gcc --version || return 0
    for words in "-O2 -static" -O2 "-O2 -static -flto"; do
        [[ -n $short && $words != "-O2 -static" ]] || runs musl-gcc $words
    done
}

# A debugger names the functions of the machine code.
named() {
    gcc -O2 -I"$layer" "$layer/examples/hello.c" "$file" -o out/way
    nm -S out/way | grep -E '^[0-9a-f]+ [0-9a-f]+ t tcp_conn::' >out/found || fail "no function of the core has a name"
    [[ -z $short ]] && has gdb gdb --version || return 0
    gdb -batch -ex 'break tcp_wire::encoding::write_unsummed' -ex run -ex 'info symbol $pc' -ex 'backtrace 1' out/way >out/found 2>&1
    grep -q '^tcp_wire::encoding::write_unsummed in section .text' out/found || { cat out/found; fail "gdb names nothing"; }
    pass
}

gcc -std=c11 -O2 -DCOUNT=$calls -I"$layer" "$top/c/portable/tests/calls.c" "$layer/tcpcore.c" "$libraries/x86-64/libtcp_c.a" -o out/native
out/native >out/calls.native
gcc -std=c11 -O2 -DCOUNT=$few -I"$layer" "$top/c/portable/tests/calls.c" "$layer/tcpcore.c" "$libraries/x86-64/libtcp_c.a" -o out/native
out/native >out/few.native
same_code "$file" "$libraries" libtcp_c.a $roots
difference_is_found "$file" "$libraries/x86-64-v2/libtcp_c.a" $roots
choices
machine x86-64 gcc ''
machine x86-64-v2 gcc ''
machine aarch64 gcc qemu-aarch64-static
if [[ -z $short ]]; then
    machine x86-64 clang ''
    machine x86-64-v2 clang ''
    machine aarch64 clang qemu-aarch64-static
fi
ways
ways_of_aarch64
musl
named
echo "machine: $passed passed, $left_out left out"
