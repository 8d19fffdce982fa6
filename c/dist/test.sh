#!/usr/bin/env bash
# The tarball: made twice it is the same; and in a folder of its own, where the kit and this repository can't be read, it is built, tested
# and installed, of the portable file and of each machine's code; an example is built on what is installed and moved elsewhere; the
# program is built and makes its first run; the bill of materials and the manual pages are read; the Debian packages are built and
# looked at; and the Rust crate and Python's class are tested. It installs what this machine lacks by apt-get; where that fails it
# fails, or, with LEAVE_OUT=1 in the environment, says what it leaves out. Stops at the first failure.
set -euo pipefail
cd "$(dirname "$0")"
test=dist
. ../../checks/lib.sh
passed=0
there=$(mktemp -d)
trap 'rm -rf "$there"' EXIT
top=$(cd ../.. && pwd)
kit=$(dirname "$(rt doc)")

pass() { passed=$((passed + 1)); }
fail() { echo "dist: $*"; exit 1; }

# Runs words where neither the kit nor this repository is: something else is mounted over both.
hidden() {
    # shellcheck disable=SC2016
    unshare --mount sh -c 'mount -t tmpfs none "$1" && mount -t tmpfs none "$2" && shift 2 && exec "$@"' hidden "$kit" "$top" "$@"
}
hide=
if (($(id -u) == 0)) && (cd / && hidden true 2>/dev/null); then hide=hidden; else leave_out "mounts of its own"; fi

# Without the kit, and with nothing of this shell's.
bare() {
    local tools=/usr/bin:/bin:/usr/sbin:/sbin
    $hide env -i PATH=$tools HOME="$there" "$@" >"$there/told" 2>&1 || { cat "$there/told"; fail "'$*' failed"; }
    pass
}

# Made twice it is the same; unpacked it is `place`.
unpack() {
    local file
    ./make.sh
    file=$(ls out/tcpcore-0.*.tar.gz)
    cp "$file" "$there/first"
    ./make.sh >/dev/null
    cmp "$there/first" "$file"
    pass
    tar -C "$there" -xzf "$file"
    place=$(echo "$there"/tcpcore-0.*)
    version=${place##*-}
    python3 bill_test.py "$place"
    echo x >>"$place/README.md"
    if python3 bill_test.py "$place" >/dev/null; then fail "a file that isn't the bill's isn't found"; fi
    tar -C "$there" -xzf "$file"
    pass
}

# Built, tested and installed, with the words of make; the example on what is installed and moved elsewhere.
installed() {
    # Hosts are tested, too, where there are any; pkg-config says whether there are.
    local checks=10 hosts=-DTCPCORE_HAS_HOSTS
    [[ $* != *-DTCPCORE_PORTABLE* ]] || checks=9 hosts=-DTCPCORE_PORTABLE
    cd "$place"
    bare make "$@"
    bare make check "$@"
    [[ $(grep -c passed "$there/told") == "$checks" ]]
    rm -rf "${there:?}/usr" "$there/moved"
    bare make install PREFIX="$there/usr" "$@"
    grep -q "^Cflags: .* $hosts$" "$there/usr/lib/pkgconfig/tcpcore.pc" || fail "tcpcore.pc doesn't say $hosts"
    mv "$there/usr" "$there/moved"
    cp examples/two_ends.c "$there"
    cd "$there"
    bare env PKG_CONFIG_PATH="$there/moved/lib/pkgconfig" sh -c \
        'cc two_ends.c $(pkg-config --define-prefix --cflags --libs tcpcore) -o two_ends && LD_LIBRARY_PATH=moved/lib ./two_ends >found'
    cmp found "$place/tests/expected/two_ends"
    "$place/tests/older.sh" "$(readlink -f moved/lib/libtcpcore.so)"
    pass
}

# Instructions that x86-64 has from level v2 on.
of_v2() {
    local names='popcnt|pshufb|ptest|p(min|max)u[wd]|pmov[sz]x[a-z]*|pinsr[bdq]|pextr[bdq]'
    objdump -d --no-show-raw-insn "$place/prebuilt/$1/libtcp_c.a" | grep -cE "[[:space:]]($names)\b" || true
}

prebuilt() {
    local proof
    for proof in "$place"/prebuilt/*/PROOF; do
        grep -q '^logic=proved functions=[1-9]' "$proof" || fail "$proof tells of no proof"
    done
    installed PREBUILT=x86-64-v2
    installed PREBUILT=yes
    (($(of_v2 x86-64-v2) > 0 && $(of_v2 x86-64) == 0)) || fail "prebuilt/x86-64 wants a processor of level v2"
    pass
    if has gcc-aarch64-linux-gnu aarch64-linux-gnu-gcc --version && has qemu-user-static qemu-aarch64-static --version &&
        has libc6-dev-arm64-cross test -e /usr/aarch64-linux-gnu/include/stdio.h; then
        bare make -C "$place" check PREBUILT=yes CC="aarch64-linux-gnu-gcc -static" OBJCOPY=aarch64-linux-gnu-objcopy RUN=qemu-aarch64-static
        grep -q 'two_ends passed' "$there/told"
    fi
}

# The manual pages have nothing that a reader of such pages complains of, and each call of the header.
manual() {
    has mandoc mandoc -T ascii /dev/null || return 0
    mandoc -T lint -W warning "$place"/man/*.[1-9]
    mandoc -T ascii "$place/man/tcpcore.3" | col -b >"$there/page"
    grep -o '^[a-z].* \**tcpcore_[a-z_]*(' "$place/tcpcore.h" | grep -o 'tcpcore_[a-z_]*' | while read -r call; do
        grep -qE "^ {3}$call$" "$there/page" || fail "tcpcore.3 has no $call"
    done
    pass
}

# Debian's packages, with their source: built twice they are the same, lintian finds no error, and an example is built on what they
# install.
package() {
    local first file lib
    { has debhelper dpkg -s debhelper && has lintian lintian --version && has fakeroot fakeroot --version; } || return 0
    for first in one other; do
        mkdir "$there/$first"
        tar -C "$there/$first" -xzf "$top/c/dist/out/tcpcore-$version.tar.gz"
        cp "$top/c/dist/out/tcpcore-$version.tar.gz" "$there/$first/tcpcore_$version.orig.tar.gz"
        cd "$there/$first/tcpcore-$version"
        bare dpkg-buildpackage -us -uc
        cd "$there"
    done
    for file in one/*.deb; do cmp "$file" "other/${file#one/}"; done
    bare lintian --fail-on error --allow-root one/*.changes
    for file in one/lib*[0-9v]_*.deb; do dpkg-deb -x "$file" root; done
    dpkg-deb -x one/tcpkit_*.deb root
    root/usr/bin/tcpkit replay root/usr/share/doc/tcpkit/examples/first-run.script | cmp - "$place/tcpkit/first-run.report"
    lib=$(dirname root/usr/lib/*/libtcpcore.so)
    cc -I root/usr/include two_ends.c -L "$lib" -ltcpcore -o packaged
    LD_LIBRARY_PATH=$lib ./packaged | cmp - "$place/tests/expected/two_ends"
    pass
}

unpack
cd "$place"
bare sha256sum --check --quiet SHA256SUMS
if $hide env -i PATH=/usr/bin:/bin sh -c "command -v rt || ls $kit/* $top/*" >/dev/null 2>&1; then fail "the kit or the repository can be read"; fi
installed
installed CPPFLAGS=-DTCPCORE_PORTABLE OUT=out/c
bare make -C "$place" check-tcpkit
prebuilt
manual
package
cd "$there"
if has cargo /usr/bin/cargo --version; then
    # Over the machine code around it, that of the C file, and its C.
    for words in "" TCPCORE_PREBUILT= "TCPCORE_PREBUILT= CFLAGS=-DTCPCORE_PORTABLE"; do
        bare sh -c "cd $place/rust && $words cargo test --offline"
        (($(awk '/^test result: ok/ { sum += $4 } END { print sum + 0 }' told) >= 14))
    done
fi
if has python3-pip /usr/bin/python3 -m pip --version && has python3-setuptools /usr/bin/python3 -c 'import setuptools' &&
    has python3-wheel /usr/bin/python3 -c 'import wheel'; then
    mkdir alone
    cp "$place/tests/calls.py" alone
    # A wheel, installed elsewhere; over the machine code of prebuilt/, that of the C file, and its C.
    for words in "" TCPCORE_PREBUILT= "TCPCORE_PREBUILT= CFLAGS=-DTCPCORE_PORTABLE"; do
        rm -rf site "$place/python/build" tcpcore-"$version"-*.whl
        bare sh -c "cd $place/python && $words python3 -m pip wheel --no-index --no-deps --no-build-isolation -w $there ."
        bare python3 -m pip install --no-index --no-deps --target "$there/site" "$(echo tcpcore-"$version"-*.whl)"
        bare env PYTHONPATH="$there/site" python3 alone/calls.py
        grep -q '^calls.py: [1-9][0-9]* checks' told
        # The functions in C have names of their own.
        if nm site/tcpcore/libtcpcore.so | grep w2c_ >/dev/null; then found="portable C"; else found="$(uname -m | sed 's/^x86_64$/x86-64/') machine code"; fi
        bare env PYTHONPATH="$there/site" python3 -c 'import tcpcore; print(tcpcore.build())'
        [[ $words != *PORTABLE || $found == "portable C" ]] && [[ $(<told) == "$found" ]] || fail "the wheel isn't over what was asked for"
        pass
    done
fi
echo "dist: $passed passed, $left_out left out"
