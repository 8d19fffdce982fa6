#!/usr/bin/env bash
# Runs the programs of this folder, or those of these names, on their stdin, and compares what they print with their stdout:
# checks/programs/test.sh [NAME..]. They are tests in Rattle that the gate doesn't prove, since a proof that a test itself runs well takes
# longer than the test: 'rt try' builds each over the crates' sources, with a check at each index, sum and unwrap. Their files end in .rs,
# because the gate takes each .rt file for one of a proved crate. The last line is 'programs: N passed, 0 failed'.
set -euo pipefail
cd "$(dirname "$0")"
top=$(cd ../.. && pwd)
work=$(mktemp -d)
trap 'rm -rf "$work"' EXIT
mapfile -t programs < <(sed -nE 's/^(\w+):.*/\1/p' programs.txt)
names=("$@")
(($# > 0)) || names=("${programs[@]}")

# The libraries, without what is built and what is wrong, and the programs as crates beside them.
mkdir "$work/crates"
cp "$top/HANDLES" "$work"
mapfile -t libraries < <(sed -nE 's/^(\w+):.*/\1/p' "$top/crates.txt")
tar -C "$top/crates" --exclude=out --exclude=must-fail --exclude=wrong -cf - "${libraries[@]}" | tar -C "$work/crates" -xf -
cat "$top/crates.txt" programs.txt | grep -vE '^#|staticlib' >"$work/crates.txt"
for name in "${programs[@]}"; do
    cp -R "$name" "$work/crates/"
    find "$work/crates/$name" -name '*.rs' -exec sh -c 'mv "$1" "${1%.rs}.rt"' rename {} ';'
done

# A program on its stdin. The interpreter's run stops early: the compiled one tells, for at most half an hour.
run() {
    local cases=$work/cases/$1 status=0
    mkdir -p "$cases"
    cp "$work/crates/$1/stdin" "$cases/stored" 2>/dev/null || : >"$cases/stored"
    cp "$work/crates/$1/stdout" "$cases/stored.stdout"
    (cd "$work/crates/$1" && rt try --steps 1000 --seconds 1800 --cases "$cases") >"$work/$1.told" 2>&1 || status=$?
    if grep -q '^case=stored run=ended .* output=expected' "$work/$1.told"; then touch "$work/$1.passed"; fi
    return "$status"
}
for name in "${names[@]}"; do run "$name" & done
wait
failed=0
for name in "${names[@]}"; do
    [[ -e $work/$name.passed ]] && continue
    failed=$((failed + 1))
    echo "programs: $name FAILED:"
    tail -n 20 "$work/$name.told"
done
echo "programs: $((${#names[@]} - failed)) passed, $failed failed"
((failed == 0 && ${#names[@]} > 0))
