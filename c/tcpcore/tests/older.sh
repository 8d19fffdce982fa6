#!/usr/bin/env bash
# Programs that were built with an older version run with the shared library of today: older.sh LIBRARY. For each folder older/N whose
# version has the library's soname, its program is linked against a library of that version's names alone, and runs with LIBRARY; and
# older.py compares both headers. Stops at the first failure.
set -euo pipefail
library=$(realpath "$1")
cd "$(dirname "$0")"
there=$(mktemp -d)
trap 'rm -rf "$there"' EXIT
passed=0

fail() { echo "older: $*"; exit 1; }
pass() { passed=$((passed + 1)); }

# Of a map: the number of its first node, and the names in it.
soname_of() { sed -n 's/^TCPCORE_\([0-9]*\) {$/libtcpcore.so.\1/p' "$1" | head -n 1; }
names_of() { sed -n 's/^ *\(tcpcore_[a-z_]*\);$/\1/p' "$1" | sort; }

# A library of a version's names, which do nothing.
names_alone() {
    local map=$1 to=$2
    names_of "$map" | sed 's/.*/void &(void);\nvoid &(void) {}/' >"$there/names.c"
    cc -shared -fPIC -Wl,-soname,"$(soname_of "$map")" -Wl,--version-script="$map" "$there/names.c" -o "$to"
}

# That a program of an older version starts and ends well with the library in a folder.
runs_with() { LD_LIBRARY_PATH=$1 "$there/program" >"$there/told" 2>&1; }

soname=$(objdump -p "$library" | awk '$1 == "SONAME" { print $2 }')
[[ $soname == "$(soname_of ../tcpcore.map)" ]] || fail "$library has the soname $soname"
mkdir "$there/today" "$there/names" "$there/wrong"
cp "$library" "$there/today/$soname"
for folder in older/*/; do
    [[ $(soname_of "$folder/tcpcore.map") == "$soname" ]] || continue
    names_alone "$folder/tcpcore.map" "$there/names/$soname"
    cc -std=c11 -Wall -Wextra -Werror -I"$folder" "$folder/program.c" "$there/names/$soname" -o "$there/program"
    # The program makes each call of its version, by its version's node.
    called=$(nm -D --undefined-only "$there/program" | sed -n 's/.* \(tcpcore_[a-z_]*\)@TCPCORE_[0-9]*$/\1/p' | sort)
    [[ $called == "$(names_of "$folder/tcpcore.map")" ]] || fail "$folder: its program makes other calls than the map has"
    runs_with "$there/today" || fail "$folder: $(<"$there/told")"
    python3 older.py "$folder/tcpcore.h" ../tcpcore.h
    pass
    # A node of another name isn't found, nor does a header pass that has another answer.
    sed 's/^TCPCORE_[0-9]* {/TCPCORE_0 {/' "$folder/tcpcore.map" >"$there/wrong.map"
    names_alone "$there/wrong.map" "$there/wrong/$soname"
    if runs_with "$there/wrong"; then fail "$folder: its program runs with a library without its names"; fi
    sed 's/TCPCORE_NOTHING = 51/TCPCORE_NOTHING = 50/' ../tcpcore.h >"$there/wrong.h"
    cp ../tcpcore_old_names.h "$there"
    if python3 older.py "$folder/tcpcore.h" "$there/wrong.h" >/dev/null; then fail "$folder: another answer isn't found"; fi
    pass
done
((passed > 0)) || fail "no program is of the soname $soname"
# What was padding in the configs of older programs isn't a number of runs, and their blocks are large enough.
# A program of today's header, with an older version's calls.
runs_well() {
    cc -std=c11 -Wall -Wextra -Werror -I.. "$@" "$there/today/$soname" -o "$there/program"
    runs_with "$there/today" || fail "$(<"$there/told")"
    pass
}
runs_well older/padding.c
runs_well older/runs.c
runs_well -DOF=14 -DTOOK=720 -DFEWEST=22 older/connections.c
runs_well -DOF=16 -DTOOK=880 -DFEWEST=15 older/connections.c
runs_well -DOF=17 -DTOOK=1088 -DFEWEST=7 older/connections.c
runs_well -DOF=18 -DTOOK=1136 -DFEWEST=5 older/connections.c
echo "older: $passed passed"
