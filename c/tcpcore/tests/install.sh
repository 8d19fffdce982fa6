#!/usr/bin/env bash
# Installs the C library (of the static library that the first argument names, or crates/tcp_c's own) to a new folder, and
# builds an example outside the repository as a user does, by what pkg-config tells alone: linked statically, and
# against the shared library. What they print is compared; and programs of older versions run with it (older.sh). Stops at the first failure.
set -euo pipefail
cd "$(dirname "$0")/.."
library=$(realpath "${1:-../../crates/tcp_c/out/libtcp_c.a}")
there=$(mktemp -d)
trap 'rm -rf "$there"' EXIT
expected=$PWD/tests/expected/two_ends
passed=0

fail() { echo "install: $*"; exit 1; }

same() {
    [[ $2 == "$3" ]] || fail "$1: found '$2', wanted '$3'"
    passed=$((passed + 1))
}

# The command has to print what two_ends prints.
prints() {
    "$@" | cmp -s - "$expected" || fail "'$*' didn't print tests/expected/two_ends"
    passed=$((passed + 1))
}

make --silent install OUT="$there/out" PREFIX="$there/usr" LIBRARY="$library"
soname=libtcpcore.so.$(sed -n 's/^TCPCORE_\([0-9]*\) {$/\1/p' tcpcore.map | head -n 1)
same files "$(cd "$there/usr" && find . -type f -o -type l | sort | tr '\n' ' ')" \
    "./include/tcpcore.h ./include/tcpcore_old_names.h ./lib/libtcpcore.a ./lib/libtcpcore.so ./lib/$soname ./lib/pkgconfig/tcpcore.pc "
cp examples/two_ends.c "$there"
cd "$there"
export PKG_CONFIG_PATH=$there/usr/lib/pkgconfig
shared=$(readlink usr/lib/libtcpcore.so)
same soname "$(objdump -p "usr/lib/$shared" | awk '$1 == "SONAME" { print $2 }')" "$shared"
calls=$(grep -o '^[a-z].* \**tcpcore_[a-z_]*(' usr/include/tcpcore.h | grep -o 'tcpcore_[a-z_]*' | sort)
old=$(sed -n 's/^#define \(tcpcore_[a-z_]*\) tcpcore_[a-z_]*$/\1/p' usr/include/tcpcore_old_names.h)
# Each call of the header is in a node of the map, and by its old name, and nothing else is exported.
same "exported names" "$(nm -D --defined-only "usr/lib/$shared" | sed -n 's/.* \([^ @]*\)@@TCPCORE_[0-9]*$/\1/p' | sort)" \
    "$(sort <<<"$calls"$'\n'"$old")"
same "nodes of the map" "$(nm -D --defined-only "usr/lib/$shared" | awk '$2 == "A" { print $3 }' | sort -V | head -n 1)" \
    "TCPCORE_${soname##*.}"
same "names of the archive" "$(nm --defined-only --extern-only usr/lib/libtcpcore.a | awk 'NF == 3 { print $3 }' | sort)" "$calls"

cc -static two_ends.c $(pkg-config --cflags --libs --static tcpcore) -o static
prints ./static
cc two_ends.c $(pkg-config --cflags --libs tcpcore) -o dynamic
same "what the program needs" "$(objdump -p dynamic | awk '$1 == "NEEDED" { print $2 }' | grep tcpcore)" "$shared"
prints env LD_LIBRARY_PATH="$there/usr/lib" ./dynamic
"$OLDPWD/tests/older.sh" "usr/lib/$shared"
passed=$((passed + 1))
# Built with link-time optimization it has the older versions of its calls, too.
make --silent -C "$OLDPWD" OUT="$there/lto" LIBRARY="$library" CFLAGS="-O2 -flto"
"$OLDPWD/tests/older.sh" "lto/$shared"
passed=$((passed + 1))
# Moved elsewhere it is found by where its .pc file lies.
mv usr moved
cc two_ends.c $(PKG_CONFIG_PATH=$there/moved/lib/pkgconfig pkg-config --define-prefix --cflags --libs tcpcore) -o relocated
prints env LD_LIBRARY_PATH="$there/moved/lib" ./relocated
mv moved usr
make --silent -C "$OLDPWD" uninstall OUT="$there/out" PREFIX="$there/usr" LIBRARY="$library"
same "left behind" "$(find usr -type f -o -type l)" ""
echo "install: $passed passed"
