#!/usr/bin/env bash
# Tests the module under node, and the page, with that module in it, in headless Chromium and Firefox: apps/web/test.sh [--draw]
# [[--module] FILE]. Without FILE the module is apps/web/out/tcp_web.wasm, which apps/web/build.sh builds where there is none. It
# installs nodejs, chromium, firefox-esr and python3-dpkt by apt-get where this machine lacks them; where it can't, it fails, or, with
# LEAVE_OUT=1 in the environment, says so and leaves the run out. With --draw the pictures of docs/ are saved anew, the
# ladders and page.png.
set -euo pipefail
cd "$(dirname "$0")/../.."
test=page
. checks/lib.sh
module='' draw=''
while (($#)); do
    case $1 in
        --draw) draw=$1 ;;
        --module) shift; module=$1 ;;
        *) module=$1 ;;
    esac
    shift
done

install_commands <<'LIST'
node nodejs
chromium chromium
firefox-esr firefox-esr
LIST
/usr/bin/python3 -c 'import dpkt' 2>/dev/null || install_packages python3-dpkt || leave_out_all python3-dpkt
if [[ -z $module ]]; then
    module=apps/web/out/tcp_web.wasm
    [[ -e $module ]] || apps/web/build.sh
fi
node apps/web/captures_test.mjs
node apps/web/module_test.mjs "$module"
node apps/web/explain_test.mjs "$module"
work=$(mktemp -d)
trap 'rm -rf "$work"' EXIT
python3 apps/web/pack.py "$module" "$work/tcp.html"
node apps/web/page_test.mjs "$work/tcp.html" chromium $draw
node --experimental-websocket --no-warnings apps/web/page_test.mjs "$work/tcp.html" firefox-esr
