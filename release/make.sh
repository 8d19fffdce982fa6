#!/usr/bin/env bash
# Makes the files of this folder of what is proved: tcpcore.c and its header, the programs tcpkit.c and tcpjudge.c, the page tcp.html,
# and MADE, which says of what and by what they were made, what each proof ended with, and the checksum of each library of machine code
# whose text is in the C files. It proves and builds the crates below them first, in some ten minutes on four processors where nothing is
# kept. It wants the kit, and installs binaryen and wabt by apt-get where this machine lacks them. It is run when the version rises
# (CHANGELOG.md).
set -euo pipefail
cd "$(dirname "$0")/.."
log=$(mktemp -d)
trap 'rm -rf "$log"' EXIT

# A build, with what it prints; its proof's last lines are kept.
built() {
    local name=$1
    shift
    echo "release: $* ..."
    "$@" 2>&1 | tee "$log/$name"
    grep -E '^(axioms |logic=proved .*target=)' "$log/$name" | sed "s/^/$name: /" >>"$log/proofs"
}

# The proof and the checksum of each library of machine code.
machine_code() {
    local machine crate
    for crate in tcp_c:PROOF tcp_web:PROOF.tcp_web; do
        for machine in x86-64 x86-64-v2 aarch64; do
            sed "s/^/${crate%:*} $machine: /" "c/dist/out/prebuilt/$machine/${crate#*:}"
            echo "${crate%:*} $machine: sha256 $(sha256sum <"c/dist/out/prebuilt/$machine/lib${crate%:*}.a" | cut -d ' ' -f 1)"
        done
    done
}

made() {
    echo "version 0.$(sed -n 's/^#define TCPCORE_VERSION //p' c/tcpcore/tcpcore.h)"
    echo "commit $(git rev-parse HEAD)$(git diff --quiet HEAD -- crates crates.txt c apps || echo ', with changes that are not committed')"
    release/sources.sh
    echo "kit $(rt version)"
    wasm-opt --version | sed 's/ version / /'
    echo "wasm2c $(wasm2c --version)"
    cat "$log/proofs"
    machine_code
}

c/dist/prebuilt.sh
built tcp_c c/portable/build.sh
built tcp_web apps/web/build.sh
apps/tcpkit/build.sh
cp c/portable/out/tcpcore.c release/tcpcore.c
cp c/tcpcore/tcpcore.h c/tcpcore/tcpcore_old_names.h apps/tcpkit/out/tcpkit.c apps/tcpkit/out/tcpjudge.c apps/web/out/tcp.html release
made >release/MADE
ls -l release
