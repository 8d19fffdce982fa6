# shellcheck shell=bash
# What the test scripts share: how a machine's lacks are told. A script sets `test`, its name, and sources this file.
#
# What this machine can't run fails the script. With LEAVE_OUT=1 in the environment it is told and left out, and counted: the
# script's last line has the count, and where LEFT_OUT_FILE names a file a line is appended to it for each.

left_out=0
# Held by the one script that installs: others run beside it.
installs=${TMPDIR:-/tmp}/tcpcore-installs.lock

# This part of the tests can't run without the words' thing.
leave_out() {
    if [[ ${LEAVE_OUT-} != 1 ]]; then
        echo "$test: FAILED: no $* here (LEAVE_OUT=1 leaves out what this machine can't run)"
        exit 1
    fi
    echo "$test: left out: no $*"
    left_out=$((left_out + 1))
    [[ -z ${LEFT_OUT_FILE-} ]] || echo "$test: no $*" >>"$LEFT_OUT_FILE"
}

# The same of all that is left of the script.
leave_out_all() {
    leave_out "$@"
    echo "$test: nothing ran, $left_out left out"
    exit 0
}

# What LEFT_OUT_FILE counts.
count_left_out() {
    if [[ -e ${LEFT_OUT_FILE-} ]]; then wc -l <"$LEFT_OUT_FILE"; else echo 0; fi
}

# Waits for a script that installs, so that nothing is looked for that is there in part.
installed() { flock --shared "$installs" true 2>/dev/null || true; }

# Installs packages of Debian, at the second or third try where the network fails.
install_packages() {
    local turn words='apt-get update && DEBIAN_FRONTEND=noninteractive apt-get install -y --no-install-recommends "$@"'
    echo "$test: installs $* (apt-get)"
    for turn in 1 2 3; do
        if flock "$installs" sh -c "$words" install "$@" >/dev/null 2>&1; then return; fi
        sleep $((5 * turn))
    done
    return 1
}

# Whether a command works, once the package is installed if need be. Where it doesn't, what wants it is left out.
has() {
    local package=$1
    shift
    installed
    "$@" >/dev/null 2>&1 && return
    install_packages "$package" || true
    "$@" >/dev/null 2>&1 && return
    leave_out "$package"
    return 1
}

# Of lines "COMMAND PACKAGE" on its input, installs the packages of the commands that this machine lacks.
install_commands() {
    local command package packages=()
    installed
    while read -r command package; do
        command -v "$command" >/dev/null || packages+=("$package")
    done
    if ((${#packages[@]})); then
        install_packages "${packages[@]}" || leave_out_all "${packages[*]}"
    fi
}

# What a network of the test's own wants.
need_network() {
    (($(id -u) == 0)) || leave_out_all root
    unshare --net true 2>/dev/null || leave_out_all "network namespaces"
}

need_tun() {
    [[ -c /dev/net/tun && -r /dev/net/tun && -w /dev/net/tun ]] || leave_out_all /dev/net/tun
}
