#!/usr/bin/env bash
# The examples of examples/ as their users start them: checks/examples/test.sh [FOLDER [TCPJUDGE]]. FOLDER has tcpcore.c, tcpcore.h and
# tcpjudge.c, release/ by default; TCPJUDGE is a judge that is built already.
# - tun_http.c, built as its first lines say and with sanitizers: curl gets a file from it, also where 5 of 100 packets are lost each way,
#   and many at once; and more, one after another, than it has slots.
# - tun_echo.c and udp_file.c, built likewise: clients are sent back what they send, one, many at once, and where packets are lost; and a file
#   comes whole over UDP of which each tenth datagram is lost.
# - judged_transfer.py finds two hosts clean and the byte that it has changed, and fails where the judge finds nothing.
# - device/ under qemu: over its user network curl gets the page; over a TAP device from the next host and from another network, with
#   losses, and an echo is answered. Prints the bytes of flash, RAM and stack. And frames.c, on this machine.
# It wants root, network namespaces and /dev/net/tun, and installs packages by apt-get where this machine lacks them; where one is missing
# it fails, or, with LEAVE_OUT=1 in the environment, says what it leaves out. Stops at the first failure.
set -euo pipefail
cd "$(dirname "$0")/../.."
# shellcheck disable=SC2034
test=examples
. checks/lib.sh
top=$PWD
release=$(realpath -m "${1:-release}")
judge=${2:+$(realpath -m "$2")}
out=$top/checks/examples/out
space=examples-$$
warnings="-std=c11 -Wall -Wextra -Wpedantic -Wconversion -Wshadow -Wcast-qual -Wstrict-prototypes -Werror"
includes="-Iexamples/device -I$release -Ic/companions"
sanitizers="-g -O1 -fsanitize=address,undefined -fno-sanitize-recover=all"
passed=0

pass() { passed=$((passed + 1)); }
fail() { echo "examples: FAILED: $*"; exit 1; }

cleanup() {
    local children
    children=$(jobs -rp)
    [[ -z $children ]] || kill $children
    ip netns delete "$space" 2>/dev/null || true
}
trap cleanup EXIT

inside() { ip netns exec "$space" "$@"; }

# A namespace of the test's own, with nothing in it.
new_space() {
    ip netns delete "$space" 2>/dev/null || true
    ip netns add "$space"
    inside ip link set lo up
}

# Starts a program in it, whose output goes to a file of out/.
start() {
    local name=$1
    shift
    : >"$out/$name.log"
    ip netns exec "$space" "$@" >>"$out/$name.log" 2>&1 &
    child=$!
}

# Stops what was started last. It has to run still, and has to have said nothing of an error.
stop() {
    kill "$child" 2>/dev/null || { cat "$out/$1.log"; fail "$1 has ended"; }
    wait "$child" || true
    ! grep -E 'ERROR|runtime error' "$out/$1.log" || fail "$1"
}

# Waits up to 20 seconds for the words to succeed.
until_done() {
    local turn
    for turn in {1..100}; do
        if "$@" >/dev/null 2>&1; then return; fi
        sleep 0.2
    done
    fail "'$*' didn't succeed"
}

# Of what the namespace's host sends and is sent, 5 of 100 packets are lost from now on.
lose() {
    inside nft -f - <<'RULES'
table ip lossy {
    chain out { type filter hook output priority 0; numgen random mod 100 < 5 counter drop; }
    chain in { type filter hook input priority 0; numgen random mod 100 < 5 counter drop; }
}
RULES
}

# And from now on no more. Some were.
lose_no_more() {
    (($(inside nft list table ip lossy | grep -c 'counter packets [1-9]') == 2)) || fail "nothing was lost"
    inside nft delete table ip lossy
}

# Gets a page, with curl's words behind it; and so many times, some at once.
curl="curl --silent --show-error --fail --max-time 60"
get() { inside $curl "$@"; }
get_many() { seq "$1" | inside xargs -P "$2" -I{} $curl --output "$3" "$4" || fail "of $1 requests one"; }

# A server on a TUN device gives the file that it was given.
serves() {
    local program=$1 turn
    new_space
    start tun_http "$program" tun0 10.9.0.2/24 80 "$out/file"
    until_done grep -qx ready "$out/tun_http.log"
    inside ip address add 10.9.0.1/24 dev tun0
    inside ip link set tun0 up
    get http://10.9.0.2/ | cmp - "$out/file" || fail "another file came"
    lose
    for turn in {1..5}; do get http://10.9.0.2/ | cmp - "$out/file" || fail "another file came in turn $turn with losses"; done
    lose_no_more
    get_many 300 20 "$out/got.{}" http://10.9.0.2/
    for turn in {1..300}; do cmp "$out/got.$turn" "$out/file"; done
    rm "$out"/got.*
    stop tun_http
    pass
}

# Builds an example by the command of its first lines, with the folder that is tested in the place of release/; and with sanitizers beside
# it, where they are here: then the library by itself is under sanitizers in c/portable/test.sh.
builds() {
    local name=$1 words
    words=$(sed -n "s|^// *\(cc .*\) -o $name\$|\1|p" "examples/$name.c")
    words=${words/-Irelease/-I$release}
    words=${words/release\/tcpcore.c/$release/tcpcore.c}
    [[ -n $words ]] || fail "no command in $name.c"
    sh -c "$words -o '$out/$name'"
    pass
    echo 'int main(void) { return 0; }' >"$out/probe.c"
    rm -f "$out/$name.sanitized"
    if has libasan8 gcc -fsanitize=address "$out/probe.c" -o "$out/probe"; then
        cc -O2 -c "$release/tcpcore.c" -o "$out/tcpcore.o"
        sh -c "${words/"$release/tcpcore.c"/$out/tcpcore.o} $sanitizers -o '$out/$name.sanitized'"
    fi
}

tun() {
    head -c 400000 /dev/urandom >"$out/file"
    builds tun_http
    serves "$out/tun_http"
    if [[ -e $out/tun_http.sanitized ]]; then serves "$out/tun_http.sanitized"; fi
    echo "examples: tun_http serves"
}

# An echo server on a TUN device: one client, many at once, and some where packets are lost.
echoes() {
    local program=$1
    new_space
    start tun_echo "$program" tun0 10.9.0.2/24 7
    until_done grep -qx ready "$out/tun_echo.log"
    inside ip address add 10.9.0.1/24 dev tun0
    inside ip link set tun0 up
    inside timeout 60 python3 checks/examples/echo_clients.py 10.9.0.2 7 1 1000 || fail "no echo"
    inside timeout 60 python3 checks/examples/echo_clients.py 10.9.0.2 7 100 200000 || fail "no echo for many"
    lose
    inside timeout 60 python3 checks/examples/echo_clients.py 10.9.0.2 7 20 100000 || fail "no echo where packets are lost"
    lose_no_more
    # At another port nobody listens, which a reset says at once.
    if inside timeout 5 bash -c 'exec 3<>/dev/tcp/10.9.0.2/8' 2>/dev/null; then fail "somebody listens at port 8"; fi
    (($(inside nstat -asz TcpAttemptFails | awk '$1 == "TcpAttemptFails" { print $2 }') == 1)) || fail "no reset answers at port 8"
    stop tun_echo
    pass
}

# A file over UDP that loses each tenth datagram, and an empty one.
over_udp() {
    local program=$1 file
    new_space
    : >"$out/empty"
    for file in "$out/file" "$out/empty"; do
        ip netns exec "$space" timeout 60 "$program" 7777 >"$out/copy" &
        child=$!
        until_done eval "inside ss -lnu | grep -q :7777"
        inside timeout 60 "$program" 127.0.0.1 7777 <"$file" || fail "$file wasn't sent to its end"
        wait "$child" || fail "$file didn't come to its end"
        cmp "$out/copy" "$file" || fail "another file came over UDP"
    done
    pass
}

# What is over connections alone.
connections() {
    local program
    builds tun_echo
    builds udp_file
    for program in "$out"/tun_echo{,.sanitized}; do [[ ! -e $program ]] || echoes "$program"; done
    for program in "$out"/udp_file{,.sanitized}; do [[ ! -e $program ]] || over_udp "$program"; done
    echo "examples: tun_echo echoes, and udp_file carries a file"
}

judged() {
    local python=/usr/bin/python3
    $python -c 'import dpkt' 2>/dev/null || install_packages python3-dpkt || { leave_out python3-dpkt; return; }
    if [[ -z $judge ]]; then
        judge=$out/tcpjudge
        cc -O2 "$release/tcpjudge.c" -o "$judge"
    fi
    examples/judged_transfer.py "$judge" >"$out/judged" 2>"$out/judged.errors" || fail "$(cat "$out/judged" "$out/judged.errors")"
    (($(grep -cE '^(server: |client: |)segments [1-9][0-9]{2,} findings [01]$' "$out/judged") == 3)) || fail "$(cat "$out/judged")"
    pass
    # A judge that finds nothing.
    printf '#!/bin/sh\ncat >/dev/null\necho segments 1 findings 0\n' >"$out/blind"
    chmod +x "$out/blind"
    if examples/judged_transfer.py "$out/blind" >/dev/null 2>&1; then fail "a judge that finds nothing isn't seen"; fi
    pass
    echo "examples: judged_transfer.py judges"
}

# The number of a line of the page.
number() { sed -n "s/^$1: *//p" "$out/page"; }

# Gets the device's page: three numbers, and ten times the same five lines.
page() {
    local rows
    get "$1" >"$out/page" || fail "no page from $1"
    rows=$(tail -n +4 "$out/page" | awk 'NR > 5 && $0 != line[NR % 5] { other++ } { line[NR % 5] = $0 } END { print NR, other + 0 }')
    [[ $rows == "50 0" ]] || fail "another page from $1"
    (($(number "stack used, bytes") > 1000)) || fail "the device's stack isn't measured"
}

# Starts it on a network of qemu's.
start_device() {
    start device qemu-system-arm -M lm3s6965evb -nographic -kernel "$out/device.elf" -nic "$1,model=stellaris" </dev/null
}

user_network() {
    local turn
    new_space
    start_device user,hostfwd=tcp::8080-:80
    until_done get http://localhost:8080/
    for turn in {1..20}; do page http://localhost:8080/; done
    stop device
    pass
}

tap_network() {
    local turn
    new_space
    start_device tap,ifname=tap0,script=no,downscript=no
    until_done inside ip address add 10.0.2.2/24 dev tap0
    inside ip address add 10.9.9.9/32 dev lo
    # Nobody asks the device, which has to ask for its gateway.
    inside ip neighbour add 10.0.2.15 lladdr 02:00:00:00:00:0f dev tap0
    inside ip link set tap0 up
    until_done get --interface 10.9.9.9 http://10.0.2.15/
    inside ip neighbour del 10.0.2.15 dev tap0
    inside ping -c 5 -i 0.2 -W 2 10.0.2.15 >/dev/null || fail "the device answers no echo"
    inside ping -c 5 -i 0.2 -W 2 -s 1472 10.0.2.15 >/dev/null || fail "the device answers no long echo"
    lose
    for turn in {1..10}; do page http://10.0.2.15/; done
    lose_no_more
    # Two at a time: beside each a slot may be taken by the one before, whose last acknowledgement is under way.
    get_many 100 2 /dev/null http://10.0.2.15/
    local device=$child
    idle_clients
    child=$device
    stop device
    pass
}

# Clients that ask nothing take all slots, so that another is refused; the device takes them back after 20 seconds.
idle_clients() {
    local turn
    # One after the other, and behind those of before: a new one takes the place of one whose handshake isn't done.
    for turn in {1..5}; do
        sleep 1
        start idle bash -c 'exec 3<>/dev/tcp/10.0.2.15/80 && sleep 50'
    done
    sleep 1
    if get --max-time 5 http://10.0.2.15/ >/dev/null 2>&1; then fail "there is a slot behind as many clients as slots"; fi
    page http://10.0.2.15/
}

# Its three sizes, of the linked file and of the page that came last.
sizes() {
    local sections used all
    sections=$(arm-none-eabi-size -A "$out/device.elf")
    size_of() { awk -v name="$1" '$1 == name { print $2 }' <<<"$sections"; }
    used=$(number "stack used, bytes") all=$(number "of all stack, bytes")
    ((used <= all * 3 / 4)) || fail "$used bytes of $all of stack are used"
    echo "examples: device: $(($(size_of .text) + $(size_of .data))) of 262144 bytes of flash;" \
        "of 65536 bytes of RAM $(($(size_of .data) + $(size_of .bss))) and a stack of $all, of which $used were used"
}

device() {
    local source
    for source in examples/device/*.c; do
        arm-none-eabi-gcc $warnings -Os -mcpu=cortex-m3 -mthumb -ffreestanding $includes -c "$source" -o "$out/object.o"
    done
    examples/device/build.sh "$out/device.elf" "$release"
    pass
    if has qemu-system-arm qemu-system-arm --version; then
        user_network
        if has iputils-ping ping -V; then tap_network; fi
        sizes
    fi
}

# Its frames on this machine.
frames() {
    gcc $warnings $sanitizers $includes checks/examples/frames.c examples/device/net.c c/companions/ip.c -o "$out/frames"
    "$out/frames" >"$out/found" || { cat "$out/found"; fail frames; }
    grep -Eq '^frames: [1-9][0-9]{3,} checks$' "$out/found" || fail "frames.c checked nothing"
    pass
}

[[ -e $release/tcpcore.c ]] || fail "no $release/tcpcore.c: run release/make.sh"
need_network
need_tun
install_commands <<'LIST'
ip iproute2
nft nftables
curl curl
tcpdump tcpdump
LIST
mkdir -p "$out"
for compiler in gcc clang; do
    if has "$compiler" "$compiler" --version; then
        for source in examples/*.c; do "$compiler" $warnings -I"$release" -Ic/companions -c "$source" -o "$out/object.o"; done
        pass
    fi
done
tun
connections
judged
frames
if has gcc-arm-none-eabi arm-none-eabi-gcc --version; then device; fi
echo "examples: $passed passed, $left_out left out"
