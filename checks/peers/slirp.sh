#!/usr/bin/env bash
# A connection against libslirp's TCP: checks/peers/slirp.sh [LIBRARY] [--long]. The cases are those of lwip.sh; slirp's clock is the
# driver's, and behind it is a socket of this machine, in a network namespace of its own (run as root). It installs Debian's libslirp-dev
# where this machine lacks it. The last line is `N cases, M failed`; what is slirp's own fault isn't counted as failed, but named, with the
# line of its source.
set -euo pipefail
cd "$(dirname "$0")"
# shellcheck disable=SC2034
test=peers
. ../lib.sh
. ./common.sh
has libslirp-dev test -e /usr/include/slirp/libslirp.h || exit 0
common_objects
program slirp "$top"/checks/peers/{slirp,sockets}.c -lslirp
run_all unshare --net sh -c 'ip link set lo up && exec "$@"' sh
total
