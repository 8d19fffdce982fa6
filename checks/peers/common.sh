# shellcheck shell=bash
# What the scripts of this folder share: `top` is the repository's folder, the working directory is checks/peers/out, `library` is the
# static library, or release/tcpcore.c, and `words` what the programs are run with, both from the script's own words; `only_builds` is set
# by --build.
top=$(realpath ../..)
library=$top/crates/tcp_c/out/libtcp_c.a
words=() only_builds=''
# shellcheck disable=SC2034
for word in "$@"; do
    case $word in
        --build) only_builds=1 ;;
        --*) words+=("$word") ;;
        *) library=$(realpath "$word") ;;
    esac
done
[[ -e $library ]] || { echo "peers: no $library: run 'rt lib' in crates/tcp_c"; exit 1; }
mkdir -p out
cd out || exit 1
warnings="-std=gnu11 -g -O2 -Wall -Wextra -Wpedantic -Werror"
ours="-I$top/checks/peers -I$top/c/tcpcore -I$top/c/companions"
cases=0 failed=0 programs=()

# The objects of a folder, from these words for the compiler.
objects() {
    local folder=$1
    shift
    mkdir -p "$folder"
    rm -f "$folder"/*.o
    (cd "$folder" && gcc "$@")
}

# What all programs have of ours: the library's layer, which release/tcpcore.c has in it, and the companion for IPv4.
common_objects() {
    objects common $warnings $ours -c "$top"/c/companions/ip.c
    if [[ $library == *.c ]]; then
        objects layer -std=c99 -O2 -c "$library" # it isn't written for our warnings
        library=
    else
        objects layer $warnings $ours -c "$top/c/tcpcore/tcpcore.c"
    fi
}

# A program of ours against the peer that these words make.
program() {
    local name=$1
    shift
    gcc $warnings $ours "$top"/checks/peers/{cases,wire,own_connection}.c common/*.o layer/*.o "$@" ${library:+"$library"} -o "$name"
    programs+=("$name")
}

# Runs all programs, one after another, behind the words that are given.
run_all() {
    local program
    for program in "${programs[@]}"; do
        "$@" "./$program" "${words[@]}" >"$program.log" 2>&1 || true
        cat "$program.log"
        count "$program.log"
    done
}

# Adds up what a program said in its last line.
count() {
    local of_these bad
    read -r of_these bad < <(sed -n 's/.*: \([0-9]*\) cases, \([0-9]*\) failed$/\1 \2/p' <(tail -1 "$1"))
    cases=$((cases + of_these)) failed=$((failed + bad))
}

# The last line of all.
total() {
    echo "$cases cases, $failed failed"
    ((failed == 0 && cases > 0))
}
