#!/bin/sh
# Times our ends beside lwIP's two builds and beside the moving of bytes alone, in cycles of the processor's clock. What counts is what
# users get: the C library, the portable file, which Rust, Go and Python take where they find no machine code, and each binding over the
# C library; beside them the same ends compiled as one unit with a program in Rattle. A library that is preloaded reads the clock at every
# 100th call of memcpy or memmove, and the first percentile of these windows, of some microseconds each, is taken. The programs run in
# turns, five times (`bench/time.sh TURNS` takes another number), and what counts is the least of all turns, since other work on the
# machine only adds; a ratio has beside it the least and the greatest within a turn.
# `bench/time.sh TURNS --cpu=x86-64-v3` builds the one unit and lwIP's best for that processor.
# - in order, one byte: a segment of 1,460 bytes, or of one, both ends together, with half an acknowledgement.
# - acknowledgement: what a second one adds to two segments in order.
# - connection: two ends made in memory that is handed in, handshake, orderly close (bench/handed.c); lwIP's from its pool.
# - lent: the reader lent its text, and both ends leaving sums to a device; trains: as lent, and 30 segments go out and arrive as one.
# - floor: four copies and two sums of 1,460 bytes; once: one copy (bench/floor.c).
# - bindings (bench/bound): what each takes more than C for the same calls, over the same library; of Go and Python also what the same
#   bursts take by batches (in turns), and bursts of 16 segments with one acknowledgement.
# It wants gcc, g++, cargo, go, python3 with its header, apt-get, the network, the C library (`rt lib` in crates/tcp_c) and the portable file
# (c/portable/build.sh, or else that of release/); the one unit is built anew where it is stale.
set -eu

top=$(cd "$(dirname "$0")/.." && pwd)
out=$top/bench/out
mkdir -p "$out"
. "$top/bench/common.sh"
turns=${1:-5}
[ $# -eq 0 ] || shift
library=$top/crates/tcp_c/out/libtcp_c.a
portable=$top/c/portable/out/tcpcore_portable.c
[ -e "$library" ] || { echo "bench: no $library: run 'rt lib' in crates/tcp_c" >&2; exit 1; }
[ -e "$portable" ] || portable=$top/release/tcpcore.c
build_ours "$@"
build_both_lwips "$@"
core=$top/c/tcpcore
gcc -O2 -shared -fPIC "$top/bench/windows.c" -o "$out/windows.so" -ldl
gcc -O3 -march="$processor" "$top/bench/floor.c" -o "$out/floor"
gcc -O2 -I"$core" "$top/bench/handed.c" "$core/tcpcore.c" "$library" -o "$out/handed"
gcc -O2 -DTCPCORE_PORTABLE -I"$core" "$top/bench/handed.c" "$portable" -o "$out/portable"

# The programs of the bindings, over the C library, in $out/bound.
build_bound() {
    bound=$out/bound
    mkdir -p "$bound/rust/src" "$bound/go"
    make --silent -C "$core" OUT="$bound" LIBRARY="$library"
    g++ -O2 -std=c++17 -I"$core" -I"$top/c/bindings/cpp" "$top/bench/bound/handed.cpp" "$bound/libtcpcore.a" -o "$bound/cpp"
    cp "$top/bench/bound/handed.rs" "$bound/rust/src/main.rs"
    printf '[package]\nname = "handed"\nversion = "0.1.0"\nedition = "2021"\n\n[dependencies]\ntcpcore = { path = "%s", features = ["native"] }\n' \
        "$top/c/bindings/rust" >"$bound/rust/Cargo.toml"
    (cd "$bound/rust" && TCPCORE_LIB_DIR=$bound cargo build --quiet --release --offline)
    cp "$top/bench/bound/handed.go" "$bound/go/main.go"
    printf 'module handed\n\ngo 1.19\n\nrequire tcpcore v0.0.0\n\nreplace tcpcore => %s\n' "$top/c/bindings/go" >"$bound/go/go.mod"
    (cd "$bound/go" && CGO_LDFLAGS=-L$bound GOPROXY=off GOFLAGS=-mod=mod go build -tags tcpcore_native -o "$bound/handed.go" .)
    mkdir -p "$bound/site/tcpcore"
    cp "$core/tcpcore.py" "$bound/site/tcpcore/__init__.py"
    cp "$core"/_*.py "$bound/site/tcpcore"
    gcc -O2 -std=c99 -shared -fPIC -I"$(python3 -c 'import sysconfig; print(sysconfig.get_path("include"))')" -I"$core" \
        "$top/c/bindings/python/batch.c" -o "$bound/site/tcpcore/_batch.abi3.so"
}
build_bound

# How many calls of memcpy and memmove a program makes, and the cycles of a window of 100 of them.
windows() {
    WINDOWS=$out/windows LD_PRELOAD=$out/windows.so "$@" >/dev/null
    cat "$out/windows"
}

# Of a column and a mode, the cycles of one burst of so many; the program's words follow.
burst() {
    column=$1
    mode=$2
    count=$3
    shift 3
    windows "$@" | awk -v what="$column $mode" -v count="$count" '{ print what, $2 * $1 / 100 / count }'
}

# The same of a program that makes calls before its first burst.
bound() {
    column=$1
    mode=$2
    count=$3
    shift 3
    less=$(windows "$@" "$mode" 0 | awk '{ print $1 }')
    windows "$@" "$mode" "$count" | awk -v what="$column $mode" -v count="$count" -v less="$less" '{ print what, $2 * ($1 - less) / 100 / count }'
}

# The same of Python.
python() {
    LIBTCPCORE=$(echo "$bound"/libtcpcore.so.*) PYTHONPATH=$bound/site bound python "$1" "$2" python3 "$top/bench/bound/handed.py"
}

turn() {
    for mode in in_order one_byte each_acknowledged; do
        burst unit $mode 100000 "$ours" $mode 100000 65536
        burst c $mode 100000 "$out/handed" $mode 100000
        burst portable $mode 40000 "$out/portable" $mode 40000
        burst best $mode 100000 "$out/best" $mode 100000
        burst shipped $mode 100000 "$out/shipped" $mode 100000
    done
    burst c connection 40000 "$out/handed" connection 40000
    burst portable connection 10000 "$out/portable" connection 10000
    burst best connection 40000 "$out/best" connection 40000
    burst shipped connection 40000 "$out/shipped" connection 40000
    burst floor floor 100000 "$out/floor" floor 100000
    burst floor once 100000 "$out/floor" once 100000
    burst c lent 40000 "$out/handed" lent 40000
    burst c trains 10000 "$out/handed" trains 10000
    burst portable lent 40000 "$out/portable" lent 40000
    burst portable trains 10000 "$out/portable" trains 10000
    burst c sixteen 10000 "$out/handed" sixteen 10000
    for mode in in_order one_byte; do
        bound cpp $mode 40000 "$bound/cpp"
        bound rust $mode 40000 "$bound/rust/target/release/handed"
    done
    for mode in in_order one_byte sixteen in_turns bytes_in_turns sixteen_in_turns; do
        bound go $mode 10000 "$bound/handed.go"
        python $mode 4000
    done
    for mode in in_order one_byte sixteen; do
        python ctypes_$mode 2000
    done
}

tell_commit
echo "load $(cut -d ' ' -f 1-3 /proc/loadavg)"
for number in $(seq "$turns"); do
    turn | sed "s/^/$number /"
done | awk '
    { of[$2, $3, $1] = $4; last = $1 }
    function least(column, mode,   i, x) {
        x = of[column, mode, 1]
        for (i = 2; i <= last; i++) if (of[column, mode, i] < x) x = of[column, mode, i]
        return x
    }
    # A row of cycles, of a mode, in so many parts, less another mode.
    function row(name, mode, part, but,   i, x) {
        printf "%-28s", name
        for (i = 1; i <= 5; i++) {
            x = least(columns[i], mode)
            if (x == "") printf " %12s", "-"
            else printf " %12.0f", (x - (but ? least(columns[i], but) : 0)) / part
        }
        printf "\n"
    }
    # How often one fits another in a mode.
    function ratio(name, over, under, mode,   i, x, low, high) {
        for (i = 1; i <= last; i++) {
            x = of[over, mode, i] / of[under, mode, i]
            if (i == 1 || x < low) low = x
            if (i == 1 || x > high) high = x
        }
        printf "%-50s %6.2f (%.2f to %.2f)\n", name, least(over, mode) / least(under, mode), low, high
    }
    function ratios(name, over, under) {
        ratio(name ", a segment in order", over, under, "in_order"); ratio(name ", one byte", over, under, "one_byte")
        ratio(name ", a connection", over, under, "connection")
    }
    # What a binding takes more than C for a segment, in order, of one byte, and of sixteen; "-" where that mode has no program.
    function more(name, column, in_order, one_byte, sixteen) {
        printf "%-28s %12s %12s %12s\n", name, beyond(column, in_order, "in_order", 2), beyond(column, one_byte, "one_byte", 2), beyond(column, sixteen, "sixteen", 16)
    }
    function beyond(column, mode, of_c, segments) {
        return least(column, mode) == "" ? "-" : sprintf("%.0f", (least(column, mode) - least("c", of_c)) / segments)
    }
    END {
        split("c portable best shipped unit", columns, " ")
        printf "%-28s %12s %12s %12s %12s %12s\n", "cycles", "C library", "portable", "lwIP, best", "lwIP, ships", "one unit"
        row("a segment in order", "in_order", 2); row("a segment of one byte", "one_byte", 2)
        row("an acknowledgement more", "each_acknowledged", 1, "in_order"); row("a connection", "connection", 1)
        row("lent, sums left to a device", "lent", 2); row("so, in trains of 30", "trains", 30)
        printf "%-28s %12.0f\n%-28s %12.0f\n", "four copies and two sums", least("floor", "floor") / 2, "one copy", least("floor", "once") / 2
        ratios("lwIP, best / C library", "best", "c"); ratios("lwIP, as it ships / portable", "shipped", "portable")
        printf "%-28s %12s %12s %12s\n", "more than C", "in order", "one byte", "of sixteen"
        more("C++", "cpp", "in_order", "one_byte", "sixteen"); more("Rust", "rust", "in_order", "one_byte", "sixteen")
        more("Go", "go", "in_order", "one_byte", "sixteen"); more("Go, in turns", "go", "in_turns", "bytes_in_turns", "sixteen_in_turns")
        more("Python", "python", "in_order", "one_byte", "sixteen")
        more("Python, in turns", "python", "in_turns", "bytes_in_turns", "sixteen_in_turns")
        more("Python, ctypes alone", "python", "ctypes_in_order", "ctypes_one_byte", "ctypes_sixteen")
    }'
