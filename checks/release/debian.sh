#!/usr/bin/env bash
# What checks/release/test.sh does in a clone, in a Debian of its own, where no kit ever was: debootstrap puts a least system with the
# languages' tools into a folder (the first argument, kept and used again; else a new one, removed at the end). Into it goes what a clone
# has; and without a network: README's first command, a C program, the tests of the Rust crate, Python's package installed and imported,
# Go's and C++'s tests. Each is timed. It wants root, and a gigabyte from Debian's mirror: some four minutes.
set -euo pipefail
cd "$(dirname "$0")/../.."
test=debian
. checks/lib.sh
passed=0
(($(id -u) == 0)) || leave_out_all root
has debootstrap debootstrap --version && has iproute2 ip -V || exit 0
if (($# > 0)); then root=$1; else root=$(mktemp -d) && trap 'rm -rf "$root"' EXIT; fi
wanted=gcc,libc6-dev,g++,cargo,golang-go,python3,python3-pip,python3-setuptools,python3-wheel
[[ -e $root/usr/bin/cargo ]] || debootstrap --variant=minbase --include=$wanted bookworm "$root" >/dev/null

# Words in that system, with its own processes, and of networks its own loopback alone.
inside() {
    # shellcheck disable=SC2016
    unshare --mount --pid --net --fork sh -c 'mount -t proc none "$1/proc" && ip link set lo up && exec chroot "$@"' inside "$root" \
        env -i PATH=/usr/bin:/bin HOME=/root "$@"
}

# Commands at the top of the clone, each a line of the input; a pattern that what they print has to have.
there() {
    local name=$1 pattern=$2 start=$SECONDS
    inside sh -exc "cd /root/clone && $(cat)" >"$root/told" 2>&1 || { cat "$root/told"; echo "debian: $name failed"; exit 1; }
    grep -qE "$pattern" "$root/told" || { cat "$root/told"; echo "debian: $name printed no $pattern"; exit 1; }
    passed=$((passed + 1))
    echo "debian: $name in $((SECONDS - start)) seconds"
}

rm -rf "$root/root/clone" "$root/root/alone" && mkdir -p "$root/root/clone"
git ls-files -z | tar --null -T - -cf - | tar -C "$root/root/clone" -xf -
if inside sh -c 'command -v rt || ls /opt/rattle' >/dev/null 2>&1; then echo "debian: the kit is there"; exit 1; fi
there "the first run" '^15 deliver A 3 processed ESTABLISHED$' <<'END'
cc -O1 release/tcpkit.c -o tcpkit
./tcpkit replay crates/tcpkit/data/first-run.script >found
cat found
cmp found crates/tcpkit/stdout
END
there "a C program" 'hello' <<'END'
cc -std=c99 -Irelease c/tcpcore/examples/hello.c release/tcpcore.c -o hello
./hello >found
cat found
cmp found c/tcpcore/tests/expected/hello
END
there "what that C program has taken" 'machine code$' <<'END'
printf '#include "tcpcore.h"\n#include <stdio.h>\nint main(void) { return puts(tcpcore_build()) < 0; }\n' >build.c
cc -Irelease build.c release/tcpcore.c -o build
./build
END
there "the tests of the Rust crate" '^test result: ok. [1-9]' <<'END'
cd c/bindings/rust
cargo test --offline
END
there "Python's package" '^Config .*dist-packages/tcpcore/__init__.py$' <<'END'
python3 -m pip install --break-system-packages --no-index --no-build-isolation ./c/bindings/python
mkdir /root/alone && cp c/tcpcore/tests/calls.py /root/alone
python3 /root/alone/calls.py
cd /
python3 -c 'import tcpcore; print(tcpcore.Config.__name__, tcpcore.__file__)'
END
there "Go's tests" '^ok ' <<'END'
cd c/bindings/go
GOPROXY=off GOFLAGS=-mod=mod go test -count=1 .
END
there "C++'s test" 'cc' <<'END'
cc -std=c99 -Irelease -c release/tcpcore.c -o tcpcore.o
g++ -std=c++17 -Irelease c/bindings/cpp/test.cpp tcpcore.o -o cpp_test
./cpp_test
END
echo "debian: $passed passed, $left_out left out"
