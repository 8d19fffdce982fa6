#!/usr/bin/env bash
# What the gate doesn't look at: the wrong bodies of crates/NAME/wrong/, the programs' exit statuses and their lines on standard error, what
# tcpkit does where memory is refused, whether the documents show what is in the repository and their commands can be pasted, scripts and C
# as linters read them, the programs against second ones, the C library under its tests, against lwIP and against this machine's kernel, the
# portable file on two other machines, the machine code that release/ has as text, what stands on it for Rust, C++, Go and Python, the
# programs as one C file each, what release/ gives to who has no kit, here with the kit hidden and in a new Debian, whether they all take as
# many instructions as before, the tarball, real clients over usernet, captures, what our end and Linux do row by row, the judge of
# captures, and the replay as a WebAssembly module. checks/behind.sh FOLDER writes how many of these passed into FOLDER/behind, each wrong
# body counted, and their words into FOLDER/passed. behind.mk has them, and what each waits for: they run side by side, and what one prints
# is shown when it has ended. The first that fails lets those that run come to their end, and no other one begin.
set -euo pipefail
cd "$(dirname "$0")/.."
# shellcheck disable=SC2034
test=behind
. checks/lib.sh
install_commands <<'LIST'
make make
LIST
export PASSED_FILE=$1/passed
: >"$PASSED_FILE"
make --no-print-directory --silent --output-sync=target --jobs="$(nproc)" --file=checks/behind.mk
wc -l <"$PASSED_FILE" >"$1/behind"
