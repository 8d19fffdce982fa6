#!/usr/bin/env bash
# A connection against this machine's Linux kernel over a TUN device: checks/peers/kernel.sh [LIBRARY]. The cases are those of lwip.sh but
# for the longest; the clock is the machine's, so that they take minutes, and many run side by side, each in a network namespace of its own
# (run as root). The last line is `N cases, M failed`.
set -euo pipefail
cd "$(dirname "$0")"
# shellcheck disable=SC2034
test=peers
. ../lib.sh
. ./common.sh
need_network
need_tun
install_commands <<'LIST'
ip iproute2
LIST
common_objects
program kernel "$top"/checks/peers/{kernel,sockets}.c
parts=${PARTS:-24}
for program in "${programs[@]}"; do
    for ((part = 0; part < parts; part++)); do
        unshare --net sh -c 'ip link set lo up
            ip tuntap add dev peer0 mode tun && ip addr add 10.0.0.2/24 dev peer0 && ip link set peer0 up
            echo 1 >/proc/sys/net/ipv4/tcp_no_metrics_save
            exec "$@"' sh "./$program" --part "$part" "$parts" "${words[@]}" >"$program.$part.log" 2>&1 &
    done
done
wait
for program in "${programs[@]}"; do
    for ((part = 0; part < parts; part++)); do
        grep -v '^Linux[:,]' "$program.$part.log" || true
        count "$program.$part.log"
    done
done
total
