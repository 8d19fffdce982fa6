#!/usr/bin/env bash
# Writes the checksums of what this folder's files are made of: `crates`, of the crates, and `around`, of what translates them and is put
# around them. Two trees with the same checksums, a kit of the same logic and the same translators make the same files.
set -euo pipefail
cd "$(dirname "$0")/.."

# What tests the page and isn't in it.
tests=(':!apps/web/page_*.mjs' ':!apps/web/*_test.mjs' ':!apps/web/cases.mjs' ':!apps/web/chromium.mjs' ':!apps/web/firefox.mjs' ':!apps/web/browser.mjs'
    ':!apps/web/explain.mjs')

# One checksum of all files behind these names, by name and content.
sum_of() { git ls-files -z -- "$@" | LC_ALL=C sort -z | xargs -0 sha256sum | sha256sum | cut -d ' ' -f 1; }

echo "crates $(sum_of HANDLES crates.txt crates)"
echo "around $(sum_of c/tcpcore/tcpcore.c c/tcpcore/tcpcore.h c/tcpcore/layout.h 'c/portable/*.py' 'c/portable/*.c' c/portable/build.sh \
    c/machine/as_text.py c/machine/choice.py c/dist/prebuilt.sh \
    apps/tcpkit/join.py 'apps/tcpkit/*.c' apps/tcpkit/build.sh 'apps/web/*.mjs' 'apps/web/*.css' 'apps/web/*.html' 'apps/web/*.py' apps/web/examples \
    "${tests[@]}")"
