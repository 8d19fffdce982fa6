#!/usr/bin/env bash
# What is installed, without root: the program under both names, and its manual page, which has each word of --help and no other one; and that
# a copy of the tree without the kit's library builds it: apps/usernet/install_test.sh [LIBRARY].
set -euo pipefail
cd "$(dirname "$0")"
test=install
. ../../checks/lib.sh
library=${1-}
[[ -z $library ]] || library=$(realpath -m "$library")
folder=$(mktemp -d)
trap 'rm -rf "$folder"' EXIT
passed=0

fail() { echo "install: FAILED: $*"; exit 1; }
pass() { passed=$((passed + 1)); }

make -s install DESTDIR="$folder" PREFIX=/usr ${library:+LIBRARY="$library"} SLIRP4NETNS=yes
for name in usernet slirp4netns; do
    [[ $("$folder/usr/bin/$name" --version) == "usernet 0."* ]] || fail "no $name"
    pass
    [[ -s $folder/usr/share/man/man1/$name.1 ]] || fail "no page of $name"
    pass
done

# The long options of --help, of the page, and of those that the program takes.
helped=$("$folder/usr/bin/usernet" --help | grep -Eo -- '(^|[ ,|])--[a-z0-9-]+' | grep -Eo -- '--.*' | sort -u)
documented=$(sed -n 's/^\.It .*Fl -\([a-z0-9-]*\).*/--\1/p' usernet.1 | sort -u)
taken=$(sed -n '/^static const struct option/,/};/p' words.c | grep -Eo '\{"[a-z0-9-]+"' | sed 's/{"\(.*\)"/--\1/' | grep -v '^--test-' | sort -u)
[[ $helped == "$documented" ]] || { diff <(echo "$helped") <(echo "$documented") || true; fail "--help and the page differ"; }
pass
[[ $helped == "$taken" ]] || { diff <(echo "$helped") <(echo "$taken") || true; fail "--help and the program differ"; }
pass
if has mandoc command -v mandoc; then
    # The pages that it refers to needn't be on this machine.
    { mandoc -Tlint -W style usernet.1 2>/dev/null || true; } >"$folder/lint"
    ! grep -v 'referenced manual not found' "$folder/lint" || fail "mandoc -Tlint"
    pass
fi
if has man-db man --version; then
    [[ -z $(man --warnings -l usernet.1 2>&1 >/dev/null) ]] || fail "man --warnings"
    pass
fi

# As in a clone: of the library's C file.
mkdir "$folder/clone"
tar -C ../.. --exclude=out -c c release apps/usernet | tar -C "$folder/clone" -x
make -s -C "$folder/clone/apps/usernet"
[[ $("$folder/clone/apps/usernet/out/usernet" --version) == "usernet 0."* ]] || fail "no program without the kit"
pass

make -s uninstall DESTDIR="$folder" PREFIX=/usr SLIRP4NETNS=yes
[[ -z $(find "$folder/usr" ! -type d) ]] || fail "something was left"
pass
echo "install: $passed passed, $left_out left out"
