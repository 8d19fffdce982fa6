#!/usr/bin/env bash
# The library against this machine's Linux kernel, and the second program of checks/differential/ in its place. It wants root,
# network namespaces and /dev/net/tun, and installs iproute2 by apt-get; where one is missing it fails, or, with LEAVE_OUT=1
# in the environment, says so and leaves the run out. c/tcpcore/test.sh makes the shared library and the echo server. Words are
# live.py's, which runs alone then.
set -euo pipefail
cd "$(dirname "$0")"
test=live
. ../lib.sh

need_network
need_tun
install_commands <<'LIST'
ip iproute2
tc iproute2
ss iproute2
LIST
if [[ ! -e ${LIBTCPCORE:-../../c/tcpcore/out/libtcpcore.so} ]]; then
    echo "live: no c/tcpcore/out/libtcpcore.so: run c/tcpcore/test.sh first"
    exit 1
fi
echo=../../c/tcpcore/out/host_echo
if [[ ! -e $echo.gcc ]]; then
    echo "live: no c/tcpcore/out/host_echo.gcc: run c/tcpcore/test.sh first"
    exit 1
fi
if (($#)); then
    exec python3 live.py "$@"
fi
python3 live.py
python3 live.py --second --small 100000
python3 echo.py $echo.gcc
if [[ -e $echo.sanitized ]]; then
    python3 echo.py $echo.sanitized
else
    leave_out "echo server with sanitizers"
fi
python3 rate.py $echo.gcc
echo "live: all passed, $left_out left out"
