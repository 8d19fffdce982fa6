#!/usr/bin/env bash
# A connection against gVisor's netstack: checks/peers/gvisor.sh [LIBRARY] [--long]. The cases are those of lwip.sh; netstack runs in the
# same process, on the driver's clock. It installs Debian's golang-gvisor-gvisor-dev and golang-go where this machine lacks them. The last
# line is `N cases, M failed`; what is gVisor's own fault isn't counted as failed, but named, with the line of its source.
set -euo pipefail
cd "$(dirname "$0")"
# shellcheck disable=SC2034
test=peers
. ../lib.sh
. ./common.sh
gocode=/usr/share/gocode
has golang-go go version || exit 0
has golang-gvisor-gvisor-dev test -e "$gocode/src/gvisor.dev/gvisor/pkg/tcpip" || exit 0
export GOPATH=$gocode GO111MODULE=off GOFLAGS='' GOCACHE=$PWD/go
go build -buildmode=c-archive -o netstack.a "$top/checks/peers/gvisor/netstack.go"
common_objects
program gvisor -I. "$top/checks/peers/gvisor.c" netstack.a
run_all env
total
