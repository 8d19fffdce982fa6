#!/usr/bin/env bash
# The judge on rows from the RFCs (rfc_rows.py), on captures made by hand (captures.py), on captures of stacks on this machine, on planted
# faults, on captures that are cut, on random logs, and on logs that grow (growth.py): checks/judge/test.sh [TCPJUDGE [LIBRARY]]
# [--short]. TCPJUDGE is the built program (else crates/tcpjudge's own), LIBRARY the C library (else crates/tcp_c's own), over which
# checks/peers is built. Each log is judged by the program and by the second one of checks/differential, which have to say the same;
# nothing that is judged breaks a rule but the planted faults, of which so many are found as planting.py has in LEAST; and twice as long a
# log takes at most 2.2 times the instructions. The last line is `N cases, M failed`.
# It wants root, network namespaces and /dev/net/tun, and installs packages by apt-get where this machine lacks them; where one is
# missing it fails, or, with LEAVE_OUT=1 in the environment, says so and leaves out what wants it.
set -euo pipefail
cd "$(dirname "$0")"
# shellcheck disable=SC2034
test=judge
. ../lib.sh
places=() words=()
for word in "$@"; do
    if [[ $word == --* ]]; then words+=("$word"); else places+=("$word"); fi
done
program=$(realpath -m "${places[0]-../../crates/tcpjudge/out/tcpjudge}")
library=$(realpath -m "${places[1]-../../crates/tcp_c/out/libtcp_c.a}")

need_network
need_tun
install_commands <<'LIST'
ip iproute2
tshark tshark
tcptrace tcptrace
slirp4netns slirp4netns
pasta passt
valgrind valgrind
LIST
/usr/bin/python3 -c 'import dpkt' 2>/dev/null || install_packages python3-dpkt || leave_out_all python3-dpkt
[[ -x $program ]] || { echo "judge: no $program: run 'rt run' in crates/tcpjudge"; exit 1; }
mkdir -p out
gvisor=/usr/share/gocode/src/gvisor.dev/gvisor
if [[ -d $gvisor ]] || install_packages golang-go golang-gvisor-gvisor-dev; then
    GO111MODULE=off GOPATH=/usr/share/gocode GOCACHE=$PWD/out/cache go build -o out/netstack netstack.go
    words+=(--netstack "$PWD/out/netstack")
else
    leave_out golang-gvisor-gvisor-dev
fi
if [[ -e $library ]]; then
    ../peers/lwip.sh "$library" --build
    words+=(--peers "$PWD/../peers/out")
else
    leave_out "$library, which 'rt lib' in crates/tcp_c builds"
fi
exec /usr/bin/python3 judging.py "$program" "${words[@]}"
