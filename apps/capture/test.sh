#!/usr/bin/env bash
# capture.py under tshark and the built program (the first argument, or crates/tcpkit's own): see test_capture.py. It wants
# root and network namespaces, and installs tshark and python3-dpkt by apt-get where this machine lacks them; where it can't,
# it fails, or, with LEAVE_OUT=1 in the environment, says so and leaves the run out.
set -euo pipefail
cd "$(dirname "$0")"
test=capture
. ../../checks/lib.sh
program=$(realpath -m "${1:-../../crates/tcpkit/out/tcpkit}")

need_network
install_commands <<'LIST'
ip iproute2
tshark tshark
LIST
/usr/bin/python3 -c 'import dpkt' 2>/dev/null || install_packages python3-dpkt || leave_out_all python3-dpkt
[[ -e $program ]] || { echo "capture: no $program: run 'rt run' in crates/tcpkit"; exit 1; }
exec /usr/bin/python3 test_capture.py "$program"
