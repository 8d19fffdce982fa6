#!/usr/bin/env bash
# usernet beside slirp4netns and pasta in turns within one run: bytes a second each way, processor time a GiB,
# connections a second, the time to connect and to the first byte, and memory a connection; at an MTU of 1,500 and of
# 65,520; the median of three turns of each, as two tables and, by gnuplot, as docs/usernet.svg. It wants what apps/usernet/test.sh wants, and installs
# slirp4netns, passt and gnuplot-nox by apt-get.
set -euo pipefail
cd "$(dirname "$0")"
library=${1-}
[[ -z $library ]] || library=$(realpath "$library")
# shellcheck disable=SC2034
test=usernet
. ../checks/lib.sh
install_commands <<'LIST'
slirp4netns slirp4netns
passt passt
gnuplot gnuplot-nox
LIST
mkdir -p out
gcc -std=c11 -O2 -ffunction-sections -Wl,--gc-sections -Wall -Wextra -Wpedantic -Werror traffic.c -o out/traffic
../apps/usernet/build.sh ${library:+"$library"}
python3 usernet.py ../docs/usernet.svg
