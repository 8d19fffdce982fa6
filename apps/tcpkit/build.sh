#!/usr/bin/env bash
# Builds out/tcpkit.c and out/tcpjudge.c, the two programs as one C99 file each, which want a C compiler alone, and the programs of
# them: crates/tcp_web, the proved replay, listing and judge as a WebAssembly module of 64 bits (the first argument, or what
# apps/web/build.sh has left in apps/web/out), with its addresses made 32 bits wide by wasm-opt (binaryen), translated to C by
# wasm2c (wabt) and put together with memory and program by join.py; and the same as machine code, MACHINE/libtcp_web.a of a folder (the
# second argument, or where c/dist/prebuilt.sh leaves them). It installs what it wants by apt-get where this machine lacks it.
set -euo pipefail
module=$(realpath -m "${1:-$(dirname "$0")/../web/out/tcp_web.64.wasm}")
libraries=$(realpath -m "${2:-$(dirname "$0")/../../c/dist/out/prebuilt}")
cd "$(dirname "$0")"
# shellcheck disable=SC2034
test=tcpkit
. ../../checks/lib.sh
[[ -e $module ]] || { echo "tcpkit: no $module: run apps/web/build.sh"; exit 1; }
[[ -e $libraries/x86-64/libtcp_web.a ]] || { echo "tcpkit: no $libraries/x86-64/libtcp_web.a: run c/dist/prebuilt.sh"; exit 1; }
install_commands <<'LIST'
wasm-opt binaryen
wasm2c wabt
LIST
mkdir -p out
wasm-opt --enable-memory64 --enable-bulk-memory --enable-mutable-globals -g --memory64-lowering "$module" -o out/tcp_web.wasm
wasm2c out/tcp_web.wasm -n tcp_web -o out/tcp_web.c
for program in tcpkit tcpjudge; do
    python3 join.py out/tcp_web.c "$program" "out/$program.c" "$libraries"
    cc -std=c99 -O1 "out/$program.c" -o "out/$program"
done
