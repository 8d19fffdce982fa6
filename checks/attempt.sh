#!/usr/bin/env bash
# checks/attempt.sh [--again] WORDS.. runs one check of behind.mk, within an hour, so that one that waits for ever is seen as such, and
# says how long it took. One that fails is named, with its status; with --again it is run once more. Each that passes is a line of
# the file that PASSED_FILE names.
set -euo pipefail
# What make tells of itself is not for those below it.
unset MAKEFLAGS MFLAGS MAKELEVEL
turns=1
if [[ $1 == --again ]]; then
    turns=2
    shift
fi
for ((turn = 1; turn <= turns; turn++)); do
    start=$SECONDS status=0 told=$(wc -c 2>/dev/null <"${LEFT_OUT_FILE-/dev/null}" || echo 0)
    timeout --kill-after=1m 60m "$@" </dev/null || status=$?
    if ((status == 0)); then
        echo "behind: '$*' passed in $((SECONDS - start)) seconds"
        echo "$*" >>"$PASSED_FILE"
        exit
    fi
    # What it left out counts once.
    [[ ! -e ${LEFT_OUT_FILE-} ]] || truncate --size "$told" "$LEFT_OUT_FILE"
    echo "behind: '$*' FAILED in $((SECONDS - start)) seconds with status $status"
done
exit "$status"
