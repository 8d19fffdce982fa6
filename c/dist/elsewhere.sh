#!/usr/bin/env bash
# The tarball (which make.sh has made) in a Debian of its own, where no kit ever was: debootstrap puts a least system with gcc, make and
# cargo into a folder (the first argument, kept and used again; else a new one, removed at the end). In it, by three commands each: an
# end in a C program; the program's first run; the tests of the Rust crate. Each is timed. It wants root, and half a gigabyte from
# Debian's mirror; checks/behind.sh has the short form of this, in test.sh, where the kit is hidden.
set -euo pipefail
cd "$(dirname "$0")"
test=elsewhere
. ../../checks/lib.sh
passed=0
tarball=$(realpath out/tcpcore-0.*.tar.gz)
place=$(basename "$tarball" .tar.gz)
(($(id -u) == 0)) || leave_out_all root
has debootstrap debootstrap --version || exit 0
if (($# > 0)); then root=$1; else root=$(mktemp -d); trap 'rm -rf "$root"' EXIT; fi
[[ -e $root/usr/bin/cargo ]] || debootstrap --variant=minbase --include=gcc,libc6-dev,make,cargo bookworm "$root" >/dev/null

# Words in that system, with its own processes and without a network.
inside() {
    # shellcheck disable=SC2016
    unshare --mount --pid --net --fork sh -c 'mount -t proc none "$1/proc" && exec chroot "$@"' inside "$root" \
        env -i PATH=/usr/bin:/bin HOME=/root "$@"
}

# Commands in the place, each a line of the input.
there() {
    local name=$1 start=$SECONDS
    inside sh -exc "$(cat)" >"$root/told" 2>&1 || { cat "$root/told"; echo "elsewhere: $name failed"; exit 1; }
    passed=$((passed + 1))
    echo "elsewhere: $name in $((SECONDS - start)) seconds"
}

rm -rf "${root:?}/root/$place" && cp "$tarball" "$root/root"
if inside sh -c 'command -v rt || ls /opt/rattle' >/dev/null 2>&1; then echo "elsewhere: the kit is there"; exit 1; fi
there "an end in a C program" <<END
cd /root && tar -xzf $place.tar.gz && cd $place/examples
cc -I.. two_ends.c ../tcpcore_portable.c -o two_ends
./two_ends | cmp - ../tests/expected/two_ends
END
there "the program's first run" <<END
cd /root/$place
cc -O1 tcpkit/tcpkit.c -o tcpkit/tcpkit
tcpkit/tcpkit replay tcpkit/first-run.script | cmp - tcpkit/first-run.report
END
there "the tests of the Rust crate" <<END
cd /root/$place/rust
cargo test --offline
END
grep -q '^test result: ok. [1-9]' "$root/told"
there "the library of the proved machine code" <<END
cd /root/$place
make check PREBUILT=yes
make install PREBUILT=yes
END
echo "elsewhere: $passed passed, $left_out left out"
