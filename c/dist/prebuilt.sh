#!/usr/bin/env bash
# Makes out/prebuilt/MACHINE/libtcp_c.a and libtcp_web.a, crates/tcp_c and crates/tcp_web as machine code, for x86-64 (any), x86-64-v2 and
# aarch64, each with the lines that its proof ended with, in PROOF and in PROOF.tcp_web: 'rt lib' proves the crate, over what was kept of it,
# and then builds it.
set -euo pipefail
cd "$(dirname "$0")"
out=$PWD/out/prebuilt
crates=$(cd ../../crates && pwd)

library() {
    local crate=$1 machine=$2 proof=$3
    shift 3
    mkdir -p "$out/$machine"
    (cd "$crates/$crate" && rt lib "$@") 2>&1 | tee "$out/$machine/log.$crate"
    # What no axiom was reached of, and the verdict.
    grep -E '^(axioms|logic=proved) ' "$out/$machine/log.$crate" >"$out/$machine/$proof"
    cp "$crates/$crate/out/lib$crate.a" "$out/$machine/lib$crate.a"
}

for crate in tcp_c:PROOF tcp_web:PROOF.tcp_web; do
    library "${crate%:*}" aarch64 "${crate#*:}" --target aarch64-unknown-linux-gnu
    library "${crate%:*}" x86-64 "${crate#*:}" --cpu x86-64
    library "${crate%:*}" x86-64-v2 "${crate#*:}"
done
