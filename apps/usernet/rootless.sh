#!/usr/bin/env bash
# usernet in slirp4netns's place: a user without rights starts rootlesskit with it as --slirp4netns-binary, and gets a page by name over
# HTTPS, of Debian's mirror, also with its sandbox and filter, and one of this machine's loopback by 10.0.2.2; with
# --disable-host-loopback not that one. By hand:
# apps/usernet/rootless.sh [PROGRAM], as root, who makes a user for it, and lets everybody open /dev/net/tun meanwhile.
set -euo pipefail
cd "$(dirname "$0")"
test=rootless
. ../../checks/lib.sh
program=$(realpath "${1:-out/usernet}")
passed=0
(($(id -u) == 0)) || leave_out_all root
need_tun
install_commands <<'LIST'
rootlesskit rootlesskit
newuidmap uidmap
curl curl
LIST
user=usernet-rootless
folder=$(mktemp -d)
mode=$(stat -c %a /dev/net/tun)

cleanup() {
    kill "$server" 2>/dev/null || true
    chmod "$mode" /dev/net/tun
    # As long as a process of the user's is about to end, it can't go.
    for _ in {1..40}; do
        userdel -r "$user" 2>/dev/null || true
        id "$user" >/dev/null 2>&1 || break
        sleep 1
    done
    sed -i "/^$user:/d" /etc/subuid /etc/subgid
    rm -rf "$folder"
}
server=
trap cleanup EXIT
useradd -m "$user"
for file in /etc/subuid /etc/subgid; do grep -q "^$user:" "$file" || echo "$user:231072:65536" >>"$file"; done
chmod 666 /dev/net/tun
cp "$program" "$folder/usernet"
mkdir "$folder/run" && chown "$user" "$folder/run"
chmod 755 "$folder" "$folder/usernet"
python3 -m http.server 8097 --bind 127.0.0.1 --directory /etc/apt >/dev/null 2>&1 &
server=$!

# A page's status, from inside.
page() {
    local address=$1
    shift
    su "$user" -c "cd / && XDG_RUNTIME_DIR=$folder/run timeout 60 rootlesskit --net=slirp4netns --slirp4netns-binary=$folder/usernet --mtu=65520 \
        --copy-up=/etc $* curl -sS -o /dev/null -w '%{http_code}' --max-time 20 $address" 2>"$folder/log"
}

[[ $(page https://deb.debian.org/debian/) == 200 ]] || { cat "$folder/log"; echo "rootless: FAILED: no page by name"; exit 1; }
passed=$((passed + 1))
[[ $(page https://deb.debian.org/debian/ --slirp4netns-sandbox=true --slirp4netns-seccomp=true) == 200 ]] ||
    { cat "$folder/log"; echo "rootless: FAILED: no page with sandbox and filter"; exit 1; }
passed=$((passed + 1))
[[ $(page http://10.0.2.2:8097/) == 200 ]] || { cat "$folder/log"; echo "rootless: FAILED: no page of the loopback"; exit 1; }
passed=$((passed + 1))
# A port of the host's that rootlesskit publishes by the API's socket leads to a server inside.
su "$user" -c "cd / && XDG_RUNTIME_DIR=$folder/run timeout 30 rootlesskit --net=slirp4netns --slirp4netns-binary=$folder/usernet --port-driver=slirp4netns \
    --publish=127.0.0.1:8098:8097/tcp --copy-up=/etc python3 -m http.server 8097 --directory /etc/apt" >"$folder/log" 2>&1 &
inside=$!
for _ in {1..100}; do
    ! curl -sf -o /dev/null --max-time 5 http://127.0.0.1:8098/ || break
    sleep 0.1
done
curl -sf -o /dev/null --max-time 5 http://127.0.0.1:8098/ || { cat "$folder/log"; echo "rootless: FAILED: no page by a published port"; exit 1; }
kill "$inside"
passed=$((passed + 1))
if page http://10.0.2.2:8097/ --disable-host-loopback >/dev/null; then echo "rootless: FAILED: the loopback is reached"; exit 1; fi
passed=$((passed + 1))
echo "rootless: $passed passed, $left_out left out"
