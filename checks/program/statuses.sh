#!/usr/bin/env bash
# Runs the programs, tcpkit and tcpjudge, on each case of statuses/, of judge_statuses/, whose files are logs, and of capture_statuses/,
# and compares the exit status and the line on standard error with what statuses.txt, judge_statuses.txt and capture_statuses.txt have:
# `NAME STATUS LINE`. A case is a file, and NAME.args the program's words, `{}` for that file. The programs are in out/ of their crates then.
set -euo pipefail
here=$(cd "$(dirname "$0")" && pwd)
passed=0 failed=0

# A program on a folder of cases.
compare() {
    local program=$1 cases=$2 ran found wanted
    cd "$here/../../crates/$program"
    ran=$(rt try --cases "$here/$cases" 2>&1 || true)
    found=$(awk -v own="$program: " 'index($0, own) == 1 { told = " " $0 } /^case=/ { sub("case=", "", $1); sub("status=", "", $3); print $1 " " $3 told; told = "" }' <<<"$ran" | sort)
    while IFS= read -r wanted; do
        if grep -qxF -- "$wanted" <<<"$found"; then
            passed=$((passed + 1))
        else
            failed=$((failed + 1))
            echo "$program: wanted '$wanted', found '$(grep "^${wanted%% *} " <<<"$found" || true)'"
        fi
    done <"$here/$cases.txt"
}

compare tcpkit statuses
compare tcpjudge judge_statuses
compare tcpjudge capture_statuses
echo "$passed passed, $failed failed"
((failed == 0))
