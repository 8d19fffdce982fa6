#!/usr/bin/env bash
# What release/ gives to who has no kit: checks/release/test.sh [LIBRARY], LIBRARY being the native library, for random calls.
# - MADE names the version of CHANGELOG.md. Where crates/ and what is around it are as when release/ was made, what this machine has built
#   anew is equal to the byte (by a kit and translators that MADE names; else it says so); where they have changed the last line says so, and
#   by how many commits. Where CHANGELOG.md or the header has a newer version it fails.
# - With the kit and the repository hidden each file is compiled by a C compiler alone, gcc and clang, of 64 bits and of 32, with its machine
#   code and without; the programs write on all stored cases what is stored, and the library answers random calls as the native one does.
# - In a copy of the repository as a clone has it, with the kit hidden: README's first command, a C program, the tests of the Rust crate,
#   Python's package installed and imported, Go's and C++'s tests, each over the machine code.
# It installs what this machine lacks by apt-get; where that fails it fails, or, with LEAVE_OUT=1 in the environment, says what it leaves
# out. Stops at the first failure. checks/release/debian.sh does the last part in a new Debian.
set -euo pipefail
cd "$(dirname "$0")/../.."
test=release
. checks/lib.sh
top=$PWD
native=$(realpath -m "${1:-crates/tcp_c/out/libtcp_c.a}")
there=$(mktemp -d)
trap 'rm -rf "$there"' EXIT
passed=0
kit=$(dirname "$(rt doc)" 2>/dev/null || echo /opt/rattle)

pass() { passed=$((passed + 1)); }
fail() { echo "release: FAILED: $*"; exit 1; }

# Runs words where neither the kit nor this repository is: something else is mounted over both.
hidden() {
    # shellcheck disable=SC2016
    unshare --mount sh -c 'mkdir -p "$1" && mount -t tmpfs none "$1" && mount -t tmpfs none "$2" && shift 2 && exec "$@"' hidden "$kit" "$top" "$@"
}
hide=
if (($(id -u) == 0)) && (cd / && hidden true 2>/dev/null); then hide=hidden; else leave_out "mounts of its own"; fi

# Words without the kit, and with nothing of this shell's.
bare() { (cd "$there/clone" && $hide env -i PATH=/usr/bin:/bin:/usr/sbin:/sbin HOME="$there" "$@") >"$there/told" 2>&1 || { cat "$there/told"; fail "'$*'"; }; pass; }

said() { sed -n "s/^$1 //p" release/MADE; }

# Whether the newest version is the one that release/ was made of.
version() {
    local newest
    newest=$(grep -oE '^## 0\.[0-9]+' CHANGELOG.md | head -n 1 | cut -c 4-)
    [[ $(said version) == "$newest" ]] || fail "CHANGELOG.md names $newest, and release/ is $(said version): run release/make.sh"
    newest=0.$(sed -n 's/^#define TCPCORE_VERSION //p' c/tcpcore/tcpcore.h)
    [[ $(said version) == "$newest" ]] || fail "c/tcpcore/tcpcore.h is of version $newest, and release/ is $(said version): run release/make.sh"
    pass
}

# How many commits have changed the crates or what is around them since release/ was made, where git knows.
commits_since() {
    local made
    made=$(said commit | cut -c 1-40)
    git cat-file -e "$made^{commit}" 2>/dev/null || return 0
    echo " by $(git rev-list --count "$made..HEAD" -- HANDLES crates.txt crates) commits of crates/ and" \
        "$(git rev-list --count "$made..HEAD" -- c/tcpcore c/portable c/machine apps/tcpkit apps/web) around it"
}

# What this machine has built is what lies here.
age=
equal() {
    local name sources
    sources=$(release/sources.sh)
    if [[ $sources != "$(grep -E '^(crates|around) ' release/MADE)" ]]; then
        age="; release/ is of version $(said version), and older than what it is made of$(commits_since)"
        echo "release: crates/ or what is around it has changed since release/ was made of version $(said version)$(commits_since)"
        return
    fi
    if [[ $(rt version) != "$(said kit)" || $(wasm-opt --version | cut -d ' ' -f 3) != "$(said wasm-opt)" || $(wasm2c --version) != "$(said wasm2c)" ]]; then
        echo "release: another kit or translator than MADE's: what is built anew may differ in its bytes"
        return
    fi
    for name in c/portable/out/tcpcore.c:tcpcore.c c/tcpcore/tcpcore.h:tcpcore.h c/tcpcore/tcpcore_old_names.h:tcpcore_old_names.h apps/tcpkit/out/tcpkit.c:tcpkit.c \
        apps/tcpkit/out/tcpjudge.c:tcpjudge.c apps/web/out/tcp.html:tcp.html; do
        [[ -e ${name%:*} ]] || fail "no ${name%:*}: run c/portable/build.sh, apps/web/build.sh and apps/tcpkit/build.sh"
        cmp "${name%:*}" "release/${name#*:}" || fail "release/${name#*:} isn't what ${name%:*} is, of the same sources"
        pass
    done
}

# Each C file, by a compiler and its words.
compiled() {
    local file
    for file in tcpcore tcpkit tcpjudge; do
        bare "$@" -std=c99 -Wall -Wextra -Wpedantic -Werror -c "release/$file.c" -o "$there/$file.o"
    done
}

# A compiler and its words, of which the programs are made that write what is stored.
cases() {
    local program
    compiled "$@"
    for program in tcpkit tcpjudge; do bare "$@" "$there/$program.o" -o "$there/$program"; done
    python3 apps/tcpkit/cases.py "$there/tcpkit"
    python3 apps/tcpkit/judge_cases.py "$there/tcpjudge"
    passed=$((passed + 2))
}

# As many random calls over the one C file as over the native library, with the same answers, reports and bytes.
calls() {
    local count=1000000 words
    [[ -e $native ]] || { leave_out "$native, which 'rt lib' in crates/tcp_c builds"; return; }
    cmp c/tcpcore/tcpcore.h release/tcpcore.h >/dev/null || { echo "release: the native library has another header"; return; }
    gcc -std=c11 -O2 -DCOUNT=$count -Ic/tcpcore c/portable/tests/calls.c c/tcpcore/tcpcore.c "$native" -o "$there/native"
    "$there/native" >"$there/wanted"
    for words in -O2 "-O2 -march=x86-64-v2" "-O2 -DTCPCORE_PORTABLE"; do
        gcc -std=c99 $words -Irelease -c release/tcpcore.c -o "$there/tcpcore.o"
        gcc -std=c11 -O2 -DCOUNT=$count -Irelease c/portable/tests/calls.c "$there/tcpcore.o" -o "$there/one"
        "$there/one" | cmp - "$there/wanted" || fail "release/tcpcore.c with $words answers otherwise than the native library"
        pass
    done
}

# What a program in C says that it has taken.
taken() {
    printf '#include "tcpcore.h"\n#include <stdio.h>\nint main(void) { return puts(tcpcore_build()) < 0; }\n' >"$there/clone/build.c"
    bare cc -Irelease build.c release/tcpcore.c -o build
    bare ./build
    grep -qx "$(uname -m | sed 's/^x86_64$/x86-64/') machine code" "$there/told" || fail "release/tcpcore.c is taken as '$(cat "$there/told")'"
}

# What each kind of user does first, in a clone.
users() {
    bare cc -O1 release/tcpkit.c -o tcpkit
    bare ./tcpkit replay crates/tcpkit/data/first-run.script
    cmp "$there/told" crates/tcpkit/stdout || fail "the first run"
    bare cc -std=c99 -Irelease c/tcpcore/examples/hello.c release/tcpcore.c -o hello
    bare ./hello
    cmp "$there/told" c/tcpcore/tests/expected/hello || fail "the C program"
    taken
    if has cargo /usr/bin/cargo --version; then
        bare sh -c 'cd c/bindings/rust && cargo test --offline'
        (($(awk '/^test result: ok/ { sum += $4 } END { print sum + 0 }' "$there/told") >= 28)) || fail "fewer than 28 tests of the Rust crate ran"
    fi
    if has python3-pip /usr/bin/python3 -m pip --version && has python3-setuptools /usr/bin/python3 -c 'import setuptools' &&
        has python3-wheel /usr/bin/python3 -c 'import wheel'; then
        bare python3 -m pip install --no-index --no-build-isolation --target "$there/site" ./c/bindings/python
        bare env PYTHONPATH="$there/site" python3 -c 'import tcpcore; print(tcpcore.Config.__name__, tcpcore.__file__)'
        grep -qxF "Config $there/site/tcpcore/__init__.py" "$there/told" || fail "the package isn't the installed one"
        # Apart from the repository's own module.
        bare sh -c "mkdir alone && cp c/tcpcore/tests/calls.py alone && PYTHONPATH=$there/site python3 alone/calls.py"
        grep -q '^calls.py: [1-9][0-9]* checks' "$there/told" || fail "Python's calls"
    fi
    if has golang-go /usr/bin/go version; then bare sh -c 'cd c/bindings/go && GOPROXY=off GOFLAGS=-mod=mod go test -count=1 .'; fi
    if has g++ g++ --version; then
        bare cc -std=c99 -Irelease -c release/tcpcore.c -o tcpcore.o
        bare g++ -std=c++17 -Irelease c/bindings/cpp/test.cpp tcpcore.o -o cpp_test
        bare ./cpp_test
    fi
}

version
equal
mkdir "$there/clone"
git ls-files -z | tar --null -T - -cf - | tar -C "$there/clone" -xf -
if (cd / && $hide env -i PATH=/usr/bin:/bin sh -c "command -v rt || ls '$kit'/* '$top'/*" >/dev/null 2>&1); then fail "the kit or the repository can be read"; fi
cases gcc -O2
cases gcc -O1 -DTCPCORE_PORTABLE
if has clang clang --version; then
    cases clang -O1
    compiled clang -O1 -DTCPCORE_PORTABLE
fi
if has gcc-multilib gcc -m32 -include stdint.h -include stdio.h -E -x c /dev/null; then cases gcc -m32 -O1; fi
calls
users
echo "release: $passed passed, $left_out left out$age"
