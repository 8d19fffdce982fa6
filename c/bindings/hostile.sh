#!/usr/bin/env bash
# The long form of the tests by hostile calls: so many connection calls in each language (the first argument, or 1,000,000), drawn from the
# seeds of its test, over release/tcpcore.c's C without its own tests of accesses, which the compilers' sanitizers make in their place: in C
# and C++ those of addresses and of undefined behaviour, in Go, Rust and Python those of addresses. It takes some ten minutes, wants gcc,
# g++, go, cargo and python3, and stops at the first failure.
set -euo pipefail
cd "$(dirname "$0")"
calls=${1:-1000000}
top=$(cd ../.. && pwd)
out=$PWD/out/hostile
mkdir -p "$out"
as_c="-DTCPCORE_PORTABLE -DTCPCORE_UNCHECKED -I$top/release -g -O1"
sanitizers="-fsanitize=address,undefined -fno-sanitize-recover=all"

# shellcheck disable=SC2086
{
    gcc -std=c99 $as_c $sanitizers -c "$top/release/tcpcore.c" -o "$out/tcpcore.o"
    gcc -std=c11 $as_c $sanitizers ../tcpcore/tests/hostile.c "$out/tcpcore.o" -o "$out/hostile_c"
    g++ -std=c++17 $as_c $sanitizers -Icpp cpp/hostile.cpp "$out/tcpcore.o" -o "$out/hostile_cpp"
    gcc -std=c99 $as_c -fsanitize=address -fPIC -shared "$top/release/tcpcore.c" -o "$out/libtcpcore.so"
}
"$out/hostile_c" 1 "$calls"
"$out/hostile_cpp" 1 "$calls"
export TCPCORE_CALLS=$calls
(cd go && GOPROXY=off GOFLAGS=-mod=mod CGO_CFLAGS="-g -O1 -DTCPCORE_PORTABLE -DTCPCORE_UNCHECKED" go test -asan -count=1 -run Hostile .)
# A sanitizer's library comes first in a program that wasn't linked with it.
asan=$(gcc -print-file-name=libasan.so)
CFLAGS="-fsanitize=address -DTCPCORE_PORTABLE" CARGO_TARGET_DIR=$out/target RUSTFLAGS="-Clink-arg=-lasan" \
    CARGO_TARGET_X86_64_UNKNOWN_LINUX_GNU_RUNNER="env LD_PRELOAD=$asan" \
    cargo test --quiet --offline --manifest-path rust/Cargo.toml --features unchecked --test connections any_calls
LD_PRELOAD=$asan ASAN_OPTIONS=detect_leaks=0 LIBTCPCORE=$out/libtcpcore.so python3 ../tcpcore/tests/connections.py
echo "hostile: $calls calls in each of five languages"
