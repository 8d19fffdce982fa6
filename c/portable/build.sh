#!/usr/bin/env bash
# Builds out/tcpcore_portable.c, one C99 file with the library of crates/tcp_c in it, for any machine: 'rt lib' proves the crate and
# builds it for WebAssembly with 64-bit addresses, in a copy, out/build, since the gate has it for this machine. The copy goes at the end,
# because the gate takes no other crates in the tree. wasm-opt (binaryen) makes the addresses 32 bits wide, wasm2c (wabt) writes C, and
# join.py puts that together with the layer of c/tcpcore. It installs both by apt-get where this machine lacks them.
# With --module FILE it begins with that module: crates/tcp_c as 'rt lib' has built it before.
# And it builds out/tcpcore.c, the same with the machine code of LIBRARIES/MACHINE/libtcp_c.a in it, as text, LIBRARIES being the last
# argument, or the folder in which c/dist/prebuilt.sh leaves them: where that is missing, the first file alone.
set -euo pipefail
cd "$(dirname "$0")"
# shellcheck disable=SC2034
test=portable
. ../../checks/lib.sh
top=$(cd ../.. && pwd)
build=$PWD/out/build
module=$build/crates/tcp_c/out/tcp_c.wasm

install_commands <<'LIST'
wasm-opt binaryen
wasm2c wabt
LIST
mkdir -p out
if [[ ${1-} == --module ]]; then
    module=$(realpath "$2")
    shift 2
else
    # tcp_c, and the crates below it.
    lines='^(region_heap|tcp_numbers|tcp_wire|tcp_sendq|tcp_reasm|tcp_halves|tcp_conn|tcp_keep_alive|tcp_timing|tcp_congestion|tcp_pacing|tcp_driver|tcp_end|tcp_flow|tcp_connection|tcp_recovery|tcp_repair|tcp_steady|tcp_table|tcp_host|region_pool|tcp_c)( staticlib)?:'
    mapfile -t folders < <(sed -nE "s/$lines.*/crates\/\1/p" "$top/crates.txt")
    # What an earlier build left, where it was stopped.
    rm -rf "$build"
    mkdir -p "$build"
    trap 'rm -rf "$build"' EXIT
    tar -C "$top" --exclude=out -cf - HANDLES "${folders[@]}" | tar -xf - -C "$build"
    # The libraries that the gate has built are taken as they are, by their stamps, and of tcp_c what its proof for another machine has
    # kept; without them all is proved and built anew.
    for folder in "${folders[@]/%//out/rlib}" crates/tcp_c/out/incremental; do
        if [[ -d $top/$folder ]]; then
            mkdir -p "$build/${folder%/*}"
            cp -R "$top/$folder" "$build/${folder%/*}"
        fi
    done
    grep -E "$lines" "$top/crates.txt" | sed 's/^tcp_c staticlib:/tcp_c wasm64:/' >"$build/crates.txt"
    (cd "$build/crates/tcp_c" && rt lib)
fi
libraries=$(realpath -m "${1:-../dist/out/prebuilt}")
cd out
wasm-opt --enable-memory64 --enable-bulk-memory --enable-mutable-globals -g --memory64-lowering "$module" -o tcp_c.wasm
wasm2c tcp_c.wasm -n tcp_c -o tcp_c.c
rm -f tcpcore.c
if [[ -e $libraries/x86-64/libtcp_c.a ]]; then
    python3 ../join.py tcp_c.c tcpcore_portable.c "$libraries" tcpcore.c
else
    python3 ../join.py tcp_c.c tcpcore_portable.c
    echo "portable: no out/tcpcore.c, since no machine code is in $libraries: run c/dist/prebuilt.sh"
fi
