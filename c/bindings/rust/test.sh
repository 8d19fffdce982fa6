#!/usr/bin/env bash
# The Rust crate with Debian's rustc and cargo, without a network: layout, clippy, documents, tests with release/tcpcore.c, which has machine
# code on this machine, and with the same in C, over the library (the first argument, or crates/tcp_c's own) and with the installed one,
# without std, and the examples over sockets. It installs what this machine lacks by apt-get; where that fails it fails, or, with LEAVE_OUT=1
# in the environment, says what it leaves out. Stops at the first failure.
set -euo pipefail
cd "$(dirname "$0")"
test=rust
. ../../../checks/lib.sh
library=$(realpath -m "${1:-../../../crates/tcp_c/out/libtcp_c.a}")
# Debian's, where others are installed too.
export PATH=/usr/bin:$PATH CARGO_TARGET_DIR=$PWD/out/target
unset RUSTUP_TOOLCHAIN RUSTC
passed=0

# The command passes; the words of its output that are kept are printed.
passes() {
    "$@" >out/found 2>&1 || { cat out/found; echo "rust: '$*' failed"; exit 1; }
    passed=$((passed + 1))
}

# Tests, of which this many at least have to have run.
tests() {
    local least=$1 count
    shift
    passes cargo test --offline "$@"
    count=$(awk '/^test result: ok/ { sum += $4 } END { print sum + 0 }' out/found)
    ((count >= least)) || { echo "rust: only $count tests ran"; exit 1; }
    passed=$((passed + count - 1))
}

mkdir -p out
install_commands <<'LIST'
cargo cargo
rustc rustc
cargo-clippy rust-clippy
rustfmt rustfmt
make make
LIST
[[ -e $library ]] || { echo "rust: no $library: run 'rt lib' in crates/tcp_c"; exit 1; }
passes cargo fmt --check
passes cargo clippy --offline --all-targets -- -D warnings
RUSTDOCFLAGS="-D warnings" passes cargo doc --offline --no-deps
rm -rf out/target/debug/build
tests 47
is_in_c() { nm out/target/debug/build/tcpcore-*/out/tcpcore.o | grep w2c_ >out/names; }
if is_in_c; then echo "rust: the machine code of release/tcpcore.c isn't taken"; exit 1; fi
rm -rf out/target/debug/build
CFLAGS=-DTCPCORE_PORTABLE tests 47 --features unchecked
is_in_c || { echo "rust: the C of release/tcpcore.c isn't taken"; exit 1; }
rm -rf out/target/debug/build
passes cargo build --offline --no-default-features
passes cargo build --offline --no-default-features --features alloc
# A folder as the tarball has them: the layer, and this machine's code, under both names that a target may ask for.
for machine in x86-64 x86-64-v2 aarch64; do
    mkdir -p "out/tarball/prebuilt/$machine"
    cp "$library" "out/tarball/prebuilt/$machine"
done
cp ../../tcpcore/{tcpcore.c,tcpcore.h,tcpcore_old_names.h,layout.h} out/tarball
rm -rf out/target/debug/build
TCPCORE_PREBUILT=$PWD/out/tarball tests 47
cat out/target/debug/build/tcpcore-*/output | grep -q static=tcp_c || { echo "rust: the machine code isn't linked"; exit 1; }
make --silent -C ../../tcpcore OUT="$PWD/out/native" LIBRARY="$library"
export TCPCORE_LIB_DIR=$PWD/out/native
tests 47 --features native
# The scripted world of two connections is what the proved ends themselves do in Rattle.
world=../../../checks/programs/test_connections
passes cargo build --quiet --offline --example world --features native
out/target/debug/examples/world <"$world/stdin" >out/world
diff out/world "$world/stdout" || { echo "rust: another world is printed"; exit 1; }
for example in udp connection; do
    passes timeout 120 cargo run --quiet --offline --example "$example" ../../tcpcore/tcpcore.h
    grep -q ' bytes came as they were sent, in ' out/found
    cat out/found
done
# Debian has no Rust for bare metal: that the crate links there is told where rustc has the target.
if rustc --print sysroot | xargs -I{} test -d {}/lib/rustlib/thumbv7m-none-eabi; then
    CC=arm-none-eabi-gcc AR=arm-none-eabi-ar CFLAGS="-mcpu=cortex-m3 -mthumb -Os" \
        passes cargo build --offline --no-default-features --target thumbv7m-none-eabi
fi
echo "rust: $passed passed, $left_out left out"
