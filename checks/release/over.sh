#!/usr/bin/env bash
# The tests of c/tcpcore and of c/companions over release/tcpcore.c in place of the proved library, by gcc: some seconds, and no kit. It is
# what quick.sh runs. checks/release/over.sh core|companions. The last line counts what passed.
set -euo pipefail
cd "$(dirname "$0")/../.."
work=$(mktemp -d)
trap 'rm -rf "$work"' EXIT
passed=0
core=$(sed -n 's/^tests="\(.*\)"$/\1/p' c/tcpcore/test.sh)
companions=$(sed -n 's/^tests="\(.*\)"$/\1/p' c/companions/test.sh)

gcc -std=c99 -O1 -fPIC -Irelease -c release/tcpcore.c -o "$work/tcpcore.o"
# Hosts are in machine code alone.
nm "$work/tcpcore.o" | grep ' T tcpcore_host_new$' >/dev/null || core=$(tr ' ' '\n' <<<"$core" | grep -v '^tests/host')
cmp -s c/tcpcore/tcpcore.h release/tcpcore.h || echo "over: c/tcpcore/tcpcore.h is newer than release/: run release/make.sh"

# Each program prints what it has to.
over_core() {
    local source name
    for source in $core; do
        name=${source#*/}
        gcc -std=c11 -O1 -DBOUND=TCPCORE_PORTABLE_STACK -Ic/tcpcore "c/tcpcore/$source.c" "$work/tcpcore.o" -o "$work/$name"
        "$work/$name" | cmp - "c/tcpcore/tests/expected/$name" || { echo "over: $source failed"; exit 1; }
        passed=$((passed + 1))
    done
    gcc -shared -Wl,-z,defs "$work/tcpcore.o" -o "$work/libtcpcore.so"
    for source in examples/two_ends examples/hello tests/fields tests/answers tests/calls tests/connections tests/simulations; do
        name=${source#*/}
        LIBTCPCORE=$work/libtcpcore.so PYTHONPATH=c/tcpcore python3 "c/tcpcore/$source.py" | cmp - "c/tcpcore/tests/expected/$name" ||
            { echo "over: $source.py failed"; exit 1; }
        passed=$((passed + 1))
    done
}

# Each program's last line counts its checks.
over_companions() {
    local name
    (cd "$work" && for file in "$OLDPWD"/c/companions/*.c; do gcc -std=c11 -O1 -I"$OLDPWD/c/tcpcore" -c "$file"; done)
    for name in $companions; do
        gcc -std=c11 -O1 -Ic/tcpcore -Ic/companions "c/companions/tests/$name.c" "$work"/*.o -o "$work/$name"
        "$work/$name" >"$work/found" 2>&1 || { cat "$work/found"; echo "over: $name failed"; exit 1; }
        grep -Eq ': [1-9][0-9]* checks$' "$work/found" || { cat "$work/found"; echo "over: $name checked nothing"; exit 1; }
        passed=$((passed + 1))
    done
}

"over_$1"
echo "over: $1: $passed passed"
