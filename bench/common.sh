# shellcheck shell=sh
# What the benches share. `top` is the repository's folder, and `out` the one for what is made.

# Builds our program where it is stale, and sets `ours`. Words are those of `rt run`.
build_ours() {
    # shellcheck disable=SC2034
    ours=$top/crates/bench_transfer/out/bench_transfer
    (cd "$top/crates/bench_transfer" && rt run "$@" -- in_order 1 65536) >"$out/ours.log" 2>&1 ||
        { tail -20 "$out/ours.log" >&2; echo "bench: our program isn't built" >&2; exit 1; }
}

# lwIP's source, as Debian has it.
fetch_lwip() {
    mkdir -p "$out/lists/partial" "$out/cache/archives/partial"
    echo 'deb-src http://deb.debian.org/debian bookworm main' >"$out/sources.list"
    set -- -qq -o Dir::Etc::sourcelist="$out/sources.list" -o Dir::Etc::sourceparts=/dev/null -o Dir::State::lists="$out/lists" -o Dir::Cache="$out/cache"
    (cd "$out" && apt-get "$@" update && apt-get "$@" source --download-only lwip && tar xf lwip_*.orig.tar.xz) >"$out/log" 2>&1 ||
        { cat "$out/log" >&2; echo "bench: no source of lwIP" >&2; exit 1; }
}

# The program over lwIP's core under this name, by these words for the compiler.
build_lwip() {
    name=$1
    shift
    core=$out/lwip-2.1.3/src/core
    gcc "$@" -I"$top/bench/peer" -I"$out/lwip-2.1.3/src/include" "$top/bench/peer/peer.c" "$core"/*.c "$core"/ipv4/ip4.c "$core"/ipv4/ip4_addr.c "$core"/ipv4/ip4_frag.c \
        "$core"/ipv4/icmp.c -o "$out/$name"
}

# lwIP's two builds: as it ships, and with all that makes it faster, for the processor that our program is built for. Words are those
# of `build_ours`.
build_both_lwips() {
    [ -d "$out/lwip-2.1.3" ] || fetch_lwip
    processor=x86-64-v2
    for word in "$@"; do
        case $word in --cpu=*) processor=${word#--cpu=} ;; esac
    done
    build_lwip shipped -O2
    build_lwip best -O3 -flto -march="$processor" -DBEST
}

# The instructions of a run with these words.
instructions() {
    valgrind --tool=callgrind --callgrind-out-file=/dev/null "$@" 2>&1 >/dev/null | awk '/Collected/ { print $4 }'
}

# What was measured.
tell_commit() {
    changed=$(git -C "$top" status --porcelain -- crates bench | grep -q . && echo ', with changes that are not committed' || true)
    echo "commit $(git -C "$top" rev-parse --short HEAD)$changed"
}
