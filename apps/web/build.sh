#!/usr/bin/env bash
# Builds out/tcp_web.wasm: crates/tcp_web, proved over the crates below it, for WebAssembly; and out/tcp.html, the page in
# one file, with that module in it. 'rt lib' makes a module for 64-bit memory, and wasm-opt (binaryen, which is installed by
# apt-get where this machine lacks it) makes its addresses 32 bits wide, so that every browser with WebAssembly runs it.
# The gate takes no crate for another machine: crates.txt has it as a library for this one, so that the gate proves it,
# and here it is proved once more and built in a folder of its own with copies of the crates that it stands on,
# apps/web/out/build, which goes at the end, since the gate takes no crates but those of the repository; or here, with --here, where all
# of this is such a copy.
set -euo pipefail
cd "$(dirname "$0")/../.."
# shellcheck disable=SC2034
test=page
. checks/lib.sh
install_commands <<'LIST'
wasm-opt binaryen
LIST
place=apps/web/out/build
# What an earlier build left, where it was stopped.
rm -rf "$place"
mkdir -p "$place/crates" apps/web/out

# No program, and no library for C.
lines='^(tcp_[a-z_]+|kit_[a-z_]+|capture_[a-z_]+|region_heap):'
if [[ ${1-} == --here ]]; then
    [[ ! -e .git ]] || { echo "apps/web/build.sh: with --here it changes crates.txt, and here is no copy"; exit 1; }
    place=.
else
    trap 'rm -rf apps/web/out/build' EXIT
    # Without what a check keeps beside them.
    libraries=$(sed -nE "s/$lines.*/crates\/\1/p" crates.txt)
    tar --exclude=out -cf - HANDLES crates/tcp_web $libraries | tar -xf - -C "$place"
    # The libraries that the gate has built are taken as they are, by their stamps, and of tcp_web what its proof for another machine
    # has kept; without them all is proved and built anew.
    for folder in $(sed 's|$|/out/rlib|' <<<"$libraries") crates/tcp_web/out/incremental; do
        if [[ -d $folder ]]; then
            mkdir -p "$place/${folder%/*}"
            cp -R "$folder" "$place/${folder%/*}"
        fi
    done
fi
# 256 MiB of memory, which is there once it is written to, and 1 MiB of it for the stack.
listed=$(
    grep -E "$lines" crates.txt
    sed -n 's/^tcp_web staticlib:/tcp_web wasm64 memory=268435456 stack=1048576:/p' crates.txt
)
echo "$listed" >"$place/crates.txt"
(cd "$place/crates/tcp_web" && rt lib)
wasm-opt --enable-memory64 --enable-bulk-memory --enable-mutable-globals --memory64-lowering \
    "$place/crates/tcp_web/out/tcp_web.wasm" -o apps/web/out/tcp_web.wasm
# Before its addresses were made narrow: the programs in C are made of it.
cp "$place/crates/tcp_web/out/tcp_web.wasm" apps/web/out/tcp_web.64.wasm
ls -l apps/web/out/tcp_web.wasm
python3 apps/web/pack.py apps/web/out/tcp_web.wasm apps/web/out/tcp.html
