#!/bin/sh
# Moves 20 GiB from one end to another, more than four times round the sequence numbers, over a wire that loses one segment of 61
# each way, and tells whether all was read as it was written, and the seconds that it took. `bench/long.sh BYTES` moves another
# number of bytes. The program is built where it isn't.
set -eu

top=$(cd "$(dirname "$0")/.." && pwd)
program=$top/crates/bench_transfer/out/bench_transfer
if [ ! -x "$program" ]; then
    (cd "$top/crates/bench_transfer" && rt run -- in_order 1 65536 >/dev/null)
fi
start=$(date +%s)
"$program" lossy "${1:-21474836480}" 65536
echo "$(($(date +%s) - start)) s"
