#!/usr/bin/env bash
# Whether later work keeps what was gained: the workloads of bench/workloads.txt and those of bench/inputs.py, the C library and the C of
# release/, counted in instructions and compared with bench/figures.txt by bench/figures.py.
#     checks/bench.sh [LIBRARY] [--only NAME..] [--write [--because REASON]]
# LIBRARY is the C library (else crates/tcp_c's own). The programs of crates/ are those that 'rt ci' has built, or 'rt run' where a source
# is newer. Figures are kept by what builds: the kit's line, the C compiler's version, both for the C library, each with the version of
# the machine's libc. Under other lines the outputs alone are compared. CONTRIBUTING.md says how a figure is changed. It installs
# valgrind by apt-get where this machine lacks it.
set -euo pipefail
cd "$(dirname "$0")/.."
top=$PWD
# shellcheck disable=SC2034
test=bench
. checks/lib.sh
library=crates/tcp_c/out/libtcp_c.a
if (($# > 0)) && [[ $1 != --* ]]; then
    library=$1
    shift
fi
work=$(mktemp -d)
trap 'rm -rf "$work"' EXIT
install_commands <<'LIST'
gcc gcc
valgrind valgrind
LIST

# A proved program, as 'rt ci' has built it. Where a source is newer it is built anew, by a run with words with which it ends well.
proved() {
    local crate=$1 program=crates/$1/out/$1
    shift
    if [[ ! -x $program || -n $(find crates -path '*/out' -prune -o -name '*.rt' -newer "$program" -print -quit) ]]; then
        (cd "crates/$crate" && rt run -- "$@") >"$work/log" 2>&1 || { tail -n 20 "$work/log"; echo "bench: $crate isn't built"; exit 1; }
    fi
    cp "$program" "$work/"
}

machine="$(getconf GNU_LIBC_VERSION), $(uname -m)"
compiler="gcc $(gcc -dumpfullversion), $machine"
words=(--compiler "$compiler")
if command -v rt >/dev/null; then
    proved bench_jobs many 1 1
    proved tcpkit replay data/first-run.script
    proved tcpjudge --help
    words+=(--kit "$(rt version), $machine")
    if [[ -e $library ]]; then
        gcc -O2 -Ic/tcpcore bench/handed.c c/tcpcore/tcpcore.c "$library" -o "$work/handed"
        words+=(--library "$(rt version), $compiler")
    else
        leave_out "$library, which 'rt lib' in crates/tcp_c builds"
    fi
else
    leave_out "kit: the C of release/ alone is counted"
fi

# The files of release/ as their users compile them: release_NAME; and as C alone, on any machine: portable_NAME.
for kind in release portable; do
    chosen=()
    [[ $kind != portable ]] || chosen=(-DTCPCORE_PORTABLE)
    gcc -O2 "${chosen[@]}" -Irelease bench/handed.c release/tcpcore.c -o "$work/${kind}_handed" &
    gcc -std=c99 -O1 "${chosen[@]}" release/tcpkit.c -o "$work/${kind}_tcpkit" &
    gcc -std=c99 -O1 "${chosen[@]}" release/tcpjudge.c -o "$work/${kind}_tcpjudge"
    wait
done
python3 "$top/bench/figures.py" "$work" "${words[@]}" "$@"
