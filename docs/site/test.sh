#!/usr/bin/env bash
# Makes the documents a site, with the page in it where apps/web/build.sh or release/make.sh has made that, and tests it. It installs cmark-gfm,
# graphviz and nodejs by apt-get where this machine lacks them.
set -euo pipefail
cd "$(dirname "$0")/../.."
# shellcheck disable=SC2034
test=site
. checks/lib.sh
install_commands <<'LIST'
cmark-gfm cmark-gfm
dot graphviz
node nodejs
LIST
work=$(mktemp -d)
trap 'rm -rf "$work"' EXIT
rm -rf docs/site/out
python3 docs/site/build.py
python3 docs/site/test.py
# And the other way: without the page, or with an empty one in its place.
[[ -e docs/site/out/tcp.html ]] || echo '<!doctype html><title>in place of the page</title>' >"$work/tcp.html"
python3 docs/site/build.py --page "$work/tcp.html" "$work/other"
python3 docs/site/test.py "$work/other"
