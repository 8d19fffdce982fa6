#!/usr/bin/env bash
# The tests without proofs, in less than five minutes on two processors: what release/ has is compiled and run on stored cases, random
# scripts, lists and logs, and under the tests of the C library and its companions; documents, scripts and C are read by linters; and
# where the kit is, each program of crates/ is built by 'rt try', run on its stored input and compared with its stored output (rows,
# vectors, worked runs); those that release/ has, where crates/ has changed since it was made. It proves nothing: 'rt ci' decides. With
# words it runs the programs of these names alone. Each test is told when it begins and when it ends.
set -euo pipefail
cd "$(dirname "$0")/.."
top=$PWD
# shellcheck disable=SC2034
test=quick
. checks/lib.sh
work=$(mktemp -d)
trap 'rm -rf "$work"' EXIT

# Runs the words behind a name, and keeps what they write and whether they passed.
quick() {
    local name=$1 start=$SECONDS
    shift
    echo "quick: $name begins, $((SECONDS / 60))m$((SECONDS % 60))s"
    if "$@" >"$work/$name.log" 2>&1; then
        touch "$work/$name.passed"
        echo "quick: $name passed in $((SECONDS - start)) seconds"
    else
        touch "$work/$name.failed"
        echo "quick: $name FAILED:"
        tail -n 20 "$work/$name.log"
    fi
}

# The same in the background, once a processor is free; one more, since some wait.
queue() {
    while (($(jobs -rp | wc -l) > $(nproc))); do wait -n || true; done
    quick "$@" &
}

# The program of a folder on its stdin and args, with the files of its data. No clock stops it but a quarter of an hour's.
run_stored() {
    local crate=$1 cases data=() told
    cases=$(mktemp -d -p "$work")
    cp "$crate/stdin" "$cases/stored" 2>/dev/null || : >"$cases/stored"
    cp "$crate/stdout" "$cases/stored.stdout"
    [[ ! -e $crate/args ]] || cp "$crate/args" "$cases/stored.args"
    while IFS= read -r file; do
        data+=(--data "${file#"$crate/data/"}=$top/$file")
    done < <(find "$crate/data" -type f 2>/dev/null)
    # The interpreter's run stops early: the compiled one tells.
    told=$(cd "$crate" && timeout 900 rt try --steps 1000 --seconds 900 "${data[@]}" --cases "$cases" 2>&1) || true
    echo "$told"
    grep -q '^case=stored run=ended .* output=expected' <<<"$told"
}

# A program of release/, on what is stored and on what is random.
program() {
    local name=$1 cases=$2
    gcc -std=c99 -O1 "release/$name.c" -o "$work/$name"
    python3 "apps/tcpkit/$cases.py" "$work/$name"
    [[ $name != tcpkit ]] || TCPKIT=$work/tcpkit python3 checks/differential/replay.py 30
    [[ $name != tcpkit ]] || TCPKIT=$work/tcpkit python3 checks/differential/decode.py 10
}

# Captures and scripts, by the program of release/.
captures() {
    gcc -std=c99 -O0 release/tcpkit.c -o "$work/captured"
    apps/capture/test.sh "$work/captured"
}

if (($# == 0)); then
    queue tcpkit program tcpkit cases
    queue tcpjudge program tcpjudge judge_cases
    queue core checks/release/over.sh core
    queue companions checks/release/over.sh companions
    queue documents python3 checks/docs/readme.py
    queue commands python3 checks/docs/paste.py --look
    queue lint checks/lint.sh
    queue lib checks/lib_test.sh
    queue captures captures
    queue conformance python3 apps/tcptest/conformance.py --check
fi
# What release/ has been made of: where the crates are still these, its programs were run above, and aren't built again from crates/.
made=$(grep '^crates ' release/MADE)
now=$(release/sources.sh | grep '^crates ')
if command -v rt >/dev/null; then
    for crate in crates/*; do
        name=${crate#crates/}
        [[ -e $crate/src/main.rt ]] || continue
        (($# == 0)) || [[ " $* " == *" $name "* ]] || continue
        if (($# == 0)) && [[ $made == "$now" && -e release/$name.c ]]; then
            left_out=$((left_out + 1))
            echo "quick: left out: crates/$name, which is release/$name.c still, unless named: 'checks/quick.sh $name'"
        else
            queue "$name" run_stored "$crate"
        fi
    done
    for name in $(sed -nE 's/^(\w+):.*/\1/p' checks/programs/programs.txt); do
        (($# == 0)) || [[ " $* " == *" $name "* ]] || continue
        queue "$name" checks/programs/test.sh "$name"
    done
else
    left_out=$((left_out + 1))
    echo "quick: left out: the programs of crates/: no kit here"
fi
wait
passed=$(find "$work" -name '*.passed' | wc -l)
failed=$(find "$work" -name '*.failed' | wc -l)
echo "$passed passed, $failed failed, $left_out skipped, in $((SECONDS / 60))m$((SECONDS % 60))s"
((failed == 0 && passed > 0))
