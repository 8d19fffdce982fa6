#!/usr/bin/env bash
# Segments made by hand, over the library alone: checks/peers/segments.sh [LIBRARY]. SYNs of known systems, keep-alives, probes, options
# that today's stacks send, blind resets, SYNs and text, and scanners, each with what is wanted of it. The last line is
# `N cases, M failed`.
set -euo pipefail
cd "$(dirname "$0")"
top=$(realpath ../..)
library=$(realpath -m "${1:-$top/crates/tcp_c/out/libtcp_c.a}")
[[ -e $library ]] || { echo "segments: no $library: run 'rt lib' in crates/tcp_c"; exit 1; }
mkdir -p out
gcc -std=gnu11 -g -O1 -Wall -Wextra -Wpedantic -Werror -I"$top/c/tcpcore" -I"$top/c/companions" segments.c "$top/c/tcpcore/tcpcore.c" \
    "$library" -o out/segments
out/segments
