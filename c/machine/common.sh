# shellcheck shell=bash
# What the tests of machine code as text share. A script sources this after checks/lib.sh, and has `pass` and `fail`.
code_folder=$(cd "$(dirname "${BASH_SOURCE[0]}")" && pwd)

# The words of a compiler that make a C file take this machine's code; nothing where it can't be had here.
compiler_for() {
    case $2-$1 in
        gcc-aarch64) has_aarch64 && words=(aarch64-linux-gnu-gcc) ;;
        clang-aarch64) has clang clang --version && has_aarch64 && words=(clang --target=aarch64-linux-gnu) ;;
        clang-*) has clang clang --version && words=(clang "-march=$1") ;;
        *) words=(gcc "-march=$1") ;;
    esac
}

# Debian's cross compiler and qemu for aarch64.
has_aarch64() {
    has qemu-user-static qemu-aarch64-static --version && has gcc-aarch64-linux-gnu aarch64-linux-gnu-gcc --version &&
        has libc6-dev-arm64-cross test -e /usr/aarch64-linux-gnu/include/stdio.h
}

# The text in a C file, assembled by each compiler for each machine, is the code of LIBRARIES/MACHINE/NAME: FILE LIBRARIES NAME FUNCTION..
same_code() {
    local file=$1 libraries=$2 name=$3 machine compiler words
    shift 3
    has python3-pyelftools /usr/bin/python3 -c 'import elftools' || return 0
    for machine in x86-64 x86-64-v2 aarch64; do
        for compiler in gcc clang; do
            compiler_for $machine $compiler || continue
            "${words[@]}" -std=c99 -O1 -I"$code_folder/../tcpcore" -c "$file" -o out/compared.o
            /usr/bin/python3 "$code_folder/compare.py" "$libraries/$machine/$name" tcp out/compared.o "$@" ||
                fail "$file by $compiler has other code than $machine/$name"
            pass
        done
    done
}

# Another byte is found, another place of a relocation, and another size of a function: FILE, the library, the functions.
difference_is_found() {
    local file=$1 library=$2 change
    shift 2
    has python3-pyelftools /usr/bin/python3 -c 'import elftools' || return 0
    for change in '0,/[.]octa 0x[1-9a-f]/s//.octa 0x/' '0,/[.]reloc \(.*\)+\([0-9]*\)\\n/s//.reloc \1+1\2\\n/' \
        '0,/[.]size \([^,]*\),/s//.size \1,1/'; do
        sed "/^#if defined(MACHINE_X86_64_V2)/,/^#elif/{$change}" "$file" >out/changed.c
        cmp -s "$file" out/changed.c && fail "nothing was changed by $change"
        gcc -march=x86-64-v2 -std=c99 -O1 -I"$code_folder/../tcpcore" -c out/changed.c -o out/compared.o
        if /usr/bin/python3 "$code_folder/compare.py" "$library" tcp out/compared.o "$@" >out/found 2>&1; then
            fail "other code isn't found: $change"
        fi
        grep -q '^compare.py: out/compared.o: ' out/found || { cat out/found; fail "comparing ends otherwise"; }
        pass
    done
}
