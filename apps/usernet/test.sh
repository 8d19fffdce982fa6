#!/usr/bin/env bash
# usernet under real clients, in namespaces of its own, and then, built with sanitizers, in a hostile namespace:
# apps/usernet/test.sh [LIBRARY] [WORD ..]. Without a library it takes what build.sh takes. The words behind are test.py's: --short, or --only WORD, which leaves the hostile one out.
# --hostile [PACKETS [SEED]] runs that one alone. It wants root, network namespaces and /dev/net/tun, and installs packages by apt-get
# where this machine lacks them; where one is missing it fails, or, with LEAVE_OUT=1 in the environment, says so and leaves the run out.
set -euo pipefail
cd "$(dirname "$0")"
test=usernet
. ../../checks/lib.sh
own=../../crates/tcp_c/out/libtcp_c.a
[[ -e $own ]] || own=../../release/tcpcore.c
library=$(realpath -m "${1:-$own}")
shift || true

need_network
need_tun
install_commands <<'LIST'
ip iproute2
curl curl
git git
nginx nginx-light
iperf3 iperf3
redis-server redis-server
redis-benchmark redis-tools
psql postgresql
sshd openssh-server
scp openssh-client
nc netcat-openbsd
socat socat
ping iputils-ping
traceroute traceroute
LIST
has libseccomp-dev test -e /usr/include/seccomp.h || export WITHOUT_SECCOMP=1
[[ -e $library ]] || { echo "usernet: no $library"; exit 1; }
./build.sh "$library"
PROGRAM=usernet.sanitized ./build.sh "$library" -O1 -fsanitize=address,undefined -fno-sanitize-recover=all
if [[ ${1-} == --hostile ]]; then
    exec python3 hostile.py "${@:2}"
fi
[[ -n ${WITHOUT_SECCOMP-} ]] || out/sandbox_test
out/pairs_test
./install_test.sh "$library"
python3 test.py "$@"
case " $* " in
*" --only "*) ;;
*" --short "*) python3 hostile.py ;;
*) python3 hostile.py 2000000 ;;
esac
