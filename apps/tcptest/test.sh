#!/usr/bin/env bash
# tcptest's own test: our end's column is that of docs/CONFORMANCE.md, and what isn't met there is named; each row is seen to fail on a
# stack that passes it, once that is broken; rows are written as scripts in packetdrill's form, and these run; the tester is fair and safe
# (fair_test.py); a stack at a TUN device has its table, and so has LWIPv6, which isn't on the page; JSON and XML can be read; and what
# docs/findings says of Linux, and of the others where they are here, is so.
# apps/tcptest/test.sh [--long]: --long writes the columns of all five stacks anew, beside the page, and shows how they differ.
# It wants root, network namespaces and /dev/net/tun, and a C compiler; lwIP's source is fetched by apt-get, as checks/peers/lwip.sh has it.
set -euo pipefail
cd "$(dirname "$0")"
# shellcheck disable=SC2034
test=tcptest
. ../../checks/lib.sh
need_network
need_tun
install_commands <<'LIST'
ip iproute2
cc gcc
LIST
work=$(mktemp -d)
trap 'rm -rf "$work"' EXIT
passed=0

# The last line of what these words print, which have to end with 0.
holds() {
    local name=$1
    shift
    "$@" >"$work/log" 2>&1 || { tail -n 40 "$work/log"; echo "tcptest: $name FAILED"; exit 1; }
    echo "tcptest: $name: $(tail -n 1 "$work/log")"
    passed=$((passed + 1))
}

# Our end at a TUN device, as a stack of somebody else's would be.
at_device() {
    local program
    out/ours --tun tcptest1 "$work/calls" >"$work/ready" &
    program=$!
    until grep -q ready "$work/ready"; do sleep 0.1; done
    ip link set tcptest1 up
    ./tcptest.py --stack tun:tcptest1 --control "$work/calls" --only "MUST-2,MUST-3,half_close,abort_resets,transfer_harmed"
    # It ends with the tester.
    wait "$program"
}

# A stack that isn't in the table, by the adapter that shows how one is added: its first timeout is of some seconds.
at_its_own_device() {
    local program
    stacks/lwipv6.py tcptest2 "$work/lwipv6" >"$work/ready" &
    program=$!
    until grep -q ready "$work/ready"; do sleep 0.1; done
    ./tcptest.py --stack tun:tcptest2 --control "$work/lwipv6" \
        --only "passive_open,active_open,user_told_of_refusal,backs_off,slow_start,out_of_order,fin_taken"
    wait "$program"
}

# JSON and XML have the row, and its verdict.
formats() {
    ./tcptest.py --stack ours --only MUST-2,MUST-10 --json "$work/json" --junit "$work/xml" --pcap "$work/pcap" && return 1
    python3 - "$work" <<'PYTHON'
import json, pathlib, sys, xml.etree.ElementTree
work = pathlib.Path(sys.argv[1])
rows = {row["row"]: row for row in json.loads((work / "json").read_text())["rows"]}
suite = xml.etree.ElementTree.parse(work / "xml").getroot()
assert rows["checksum_sent"]["verdict"] == "met" and rows["simultaneous_open"]["verdict"] == "not met", rows
assert (suite.get("tests"), suite.get("failures")) == ("2", "1") and len(suite.findall("testcase/failure")) == 1
assert (work / "pcap/checksum_sent.pcap").stat().st_size > 24 + 5 * 56
print("JSON, XML and captures are read")
PYTHON
}

# What differs from these scripts on a stack: all of them.
differs() {
    local stack=$1 count
    shift
    ./packetdrill.py --stack "$stack" "$@" && return 1
    count=$(./packetdrill.py --stack "$stack" "$@" | tail -n 1)
    echo "$count"
    [[ $count == "$# scripts, $# differ" ]]
}

findings=../../docs/findings
if [[ ${1-} == --long ]]; then
    holds "the columns of all stacks" ./conformance.py
    diff "$work/log" ../../docs/CONFORMANCE.md || true
fi
holds "our column" ./conformance.py --check
holds "rows that are seen to fail" ./broken_test.py --stacks ours,linux,lwip
holds "scripts on our end" ./packetdrill.py --stack ours pkt/*.pkt
holds "scripts on Linux" ./packetdrill.py --stack linux pkt/*.pkt
holds "rows as scripts" ./export_test.py
holds "formats" formats
holds "fair and safe" ./fair_test.py
export -f at_device at_its_own_device
export work
holds "at a device" unshare --net bash -euc at_device
if has liblwipv6-2 test -e /usr/lib/liblwipv6.so.2; then
    rm "$work/ready"
    holds "LWIPv6" unshare --net bash -euc at_its_own_device
fi
# Of another kernel than the page's nothing is known: there a finding may be mended.
kernel=$(uname -r | cut -d . -f 1-2)
if grep -q "Linux $kernel\." ../../docs/CONFORMANCE.md; then
    holds "findings in Linux" differs linux $findings/linux-*.pkt
else
    echo "tcptest: findings in Linux: $kernel is another kernel than the page's, so they aren't asked of it"
fi
holds "findings in lwIP" differs lwip $findings/lwip-*.pkt
if [[ -e /usr/include/slirp/libslirp.h ]]; then
    holds "findings in libslirp" differs slirp $findings/libslirp-*.pkt
else
    echo "tcptest: findings in libslirp: libslirp-dev isn't here, so they aren't asked of it"
fi
if [[ -e /usr/share/gocode/src/gvisor.dev ]] && command -v go >/dev/null; then
    holds "findings in gVisor" differs gvisor $findings/gvisor-*.pkt
else
    echo "tcptest: findings in gVisor: golang-gvisor-gvisor-dev isn't here, so they aren't asked of it"
fi
holds "what was found elsewhere, on our end" ./packetdrill.py --stack ours $findings/{linux-small,lwip-text,libslirp-}*.pkt
echo "tcptest: $passed passed, $left_out left out"
