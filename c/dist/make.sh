#!/usr/bin/env bash
# Makes out/tcpcore-0.N.tar.gz of release/: the library as one C file, the programs tcpkit and tcpjudge, and the page; with the machine
# code of out/prebuilt (prebuilt.sh), header, layer, companions, bindings, examples, tests, pages, the reader of captures, manual pages,
# what a Debian package wants, checksums and a bill of materials, and a Makefile that wants a C compiler alone. Made twice from the same
# files it is the same byte for byte.
set -euo pipefail
cd "$(dirname "$0")"
top=$(cd ../.. && pwd)
core=$top/c/tcpcore
file=$top/release/tcpcore.c
cmp "$core/tcpcore.h" "$top/release/tcpcore.h" || { echo "dist: release/ is of another version: run release/make.sh"; exit 1; }
ls out/prebuilt/*/libtcp_c.a >/dev/null || { echo "dist: no machine code: run c/dist/prebuilt.sh"; exit 1; }
version=0.$(sed -n 's/^#define TCPCORE_VERSION //p' "$core/tcpcore.h")
name=tcpcore-$version
place=out/$name
when=$(git -C "$top" log -1 --format=%ct)

library() {
    cp Makefile README.md "$core/"{tcpcore.c,older_ends.c,tcpcore.h,tcpcore_old_names.h,layout.h,tcpcore.map} "$top/release/tcp.html" "$place"
    # Beside the layer of the machine code, which has the name that it has in c/tcpcore.
    cp "$file" "$place/tcpcore_portable.c"
    cp -r "$core/examples" "$core/tests" "$place"
    cp "$top"/c/companions/*.[ch] "$place/companions"
    # All of them, and their pictures: each sends its reader to others.
    cp "$top/docs/"*.{md,svg} "$top/CHANGELOG.md" "$place/docs"
    python3 man.py "$core/tcpcore.h" "$(date -u -d "@$when" +%F)" >"$place/man/tcpcore.3"
    for machine in out/prebuilt/*/; do
        mkdir "$place/prebuilt/$(basename "$machine")"
        cp "$machine"/{libtcp_c.a,PROOF} "$place/prebuilt/$(basename "$machine")"
    done
}

program() {
    local page
    cp "$top/release/"{tcpkit,tcpjudge}.c "$top/crates/tcpkit/data/"{first-run.script,segments.list} "$place/tcpkit"
    cp "$top/crates/tcpjudge/data/faults.log" "$top/apps/capture/"{capture,script_form}.py "$place/tcpkit"
    cp "$top/crates/tcpjudge/stdout" "$place/tcpkit/faults.report"
    cp "$top/crates/tcpkit/stdout" "$place/tcpkit/first-run.report"
    for page in tcpkit.1 tcpjudge.1; do
        sed "s/@DATE@/$(date -u -d "@$when" +%F)/; s/@VERSION@/$version/" "$top/apps/tcpkit/$page" >"$place/man/$page"
    done
}

bindings() {
    (cd "$top/c/bindings/rust" && cp -r Cargo.toml Cargo.lock README.md build.rs rustfmt.toml src tests examples "$top/c/dist/$place/rust")
    for folder in rust python; do
        mkdir "$place/$folder/csrc"
        cp "$file" "$core/"{tcpcore.h,tcpcore_old_names.h} "$place/$folder/csrc"
    done
    cp "$top/c/bindings/python/"{pyproject.toml,setup.py,batch.c} "$place/python"
    cp "$core/tcpcore.py" "$place/python/tcpcore/__init__.py"
    cp "$core/"{_connections,_ends,_library,_records,datagrams,simulator}.py "$place/python/tcpcore"
    touch "$place/python/tcpcore/py.typed"
    cp "$top/c/bindings/cpp/"{tcpcore.hpp,test.cpp} "$place/cpp"
}

# The version, the soname's number and the date in the files of Debian's package, and the symbols by the map's nodes. Hosts are in machine
# code alone, which Debian's words for the compiler let be taken on amd64.
debian() {
    local abi kind
    abi=$(sed -n 's/^TCPCORE_\([0-9]*\) {$/\1/p' "$core/tcpcore.map" | head -n 1)
    cp -r debian "$place"
    for kind in install docs; do mv "$place/debian/libtcpcore@ABI@.$kind" "$place/debian/libtcpcore$abi.$kind"; done
    find "$place/debian" -type f -exec sed -i "s/@VERSION@/$version/g; s/@ABI@/$abi/g; s/@DATE@/$(date -u -R -d "@$when")/" {} +
    {
        echo "libtcpcore.so.$abi libtcpcore$abi #MINVER#"
        awk '/^TCPCORE_[0-9]+ \{$/ { node = $1; print " " node "@" node " 0." substr(node, 9) }
             /^ *tcpcore_[a-z_]*;$/ { sub(";", "", $1); where = $1 ~ /^tcpcore_host_/ ? "(arch=amd64)" : ""
                                     print " " where $1 "@" node " 0." substr(node, 9) }' "$core/tcpcore.map"
        sed -n 's/^__asm__("\.symver [a-z0-9_]*, \(tcpcore_[a-z_]*@TCPCORE_\([0-9]*\)\)");$/ \1 0.\2/p' "$core/older_ends.c"
    } >"$place/debian/libtcpcore$abi.symbols"
}

# The texts that came with the kit's libraries whose code is in the portable file and the machine code.
licenses() {
    local kit library
    kit=$(dirname "$(rt doc)")/rattle
    python3 -c 'import sys, bill; print(*bill.libraries(open(sys.argv[1]).read()), sep="\n")' "$top/crates.txt" |
        while read -r library; do
            for text in "$kit/$library"/LICENSE*; do
                [[ ! -e $text ]] || install -D -m 644 "$text" "$place/licenses/$library/$(basename "$text")"
            done
        done
}

made() {
    echo "commit $(git -C "$top" rev-parse HEAD)$(git -C "$top" diff --quiet HEAD -- apps c crates docs || echo ', with changes that are not committed')"
    echo "kit $(rt version)"
    wasm-opt --version | sed 's/ version / /'
    echo "wasm2c $(wasm2c --version)"
}

# Of an earlier version, too.
rm -rf out/tcpcore-0.*
mkdir -p "$place"/{companions,rust,python/tcpcore,cpp,docs,man,prebuilt,tcpkit}
library
program
bindings
debian
licenses
find "$place" \( -name __pycache__ -o -name depth.py -o -name install.sh \) -prune -exec rm -rf {} +
made >"$place/MADE"
python3 bill.py "$place" "$top/crates.txt" "$when" >out/bill
mv out/bill "$place/tcpcore.spdx"
(cd "$place" && find . -type f ! -name SHA256SUMS -print0 | LC_ALL=C sort -z | xargs -0 sha256sum >SHA256SUMS)
tar -C out --sort=name --owner=0 --group=0 --numeric-owner --mode=u=rwX,go=rX --mtime="@$when" -cf - "$name" | gzip -n9 >"out/$name.tar.gz"
ls -l "out/$name.tar.gz"
