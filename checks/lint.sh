#!/usr/bin/env bash
# Reads all scripts by shellcheck, the C library's layer, its companions, their peers' driver, usernet and tcptest by clang-tidy, and the
# library's class for Python by mypy; and looks whether the checksum stands on lanes. It installs the linters by apt-get where this
# machine lacks them; where that fails it fails, or, with LEAVE_OUT=1 in the environment, says what it leaves out.
set -euo pipefail
cd "$(dirname "$0")/.."
test=lint
. checks/lib.sh
# The C11 functions with bounds that the analyzer asks for aren't in Debian's C library, and the structs of Linux and of a
# feature test have reserved names.
checks='-*,clang-analyzer-*,-clang-analyzer-security.insecureAPI.DeprecatedOrUnsafeBufferHandling'
checks+=',bugprone-*,-bugprone-easily-swappable-parameters,-bugprone-reserved-identifier'
passed=0

if has shellcheck shellcheck --version; then
    mapfile -t scripts < <(find . -name '*.sh' -not -path '*/out/*' -not -name lib.sh -not -name common.sh | sort)
    # Those two are read where they are sourced.
    shellcheck -a -x -P SCRIPTDIR -S warning -e SC2046,SC2120 .ci/run "${scripts[@]}"
    passed=$((passed + 1 + ${#scripts[@]}))
fi
if has clang-tidy clang-tidy --version; then
    # lwip.c, slirp.c and gvisor.c are read with headers of their own, by their compiler.
    for source in c/tcpcore/*.c c/companions/*.c checks/peers/{cases,wire,own_connection,second,segments,sockets,kernel}.c apps/usernet/*.c; do
        clang-tidy --quiet --warnings-as-errors='*' --checks="$checks" "$source" -- -std=c11 -Ic -Ic/tcpcore -Ic/companions 2>/dev/null
        passed=$((passed + 1))
    done
    for source in examples/*.c c/tcpcore/examples/host_echo.c; do
        clang-tidy --quiet --warnings-as-errors='*' --checks="$checks" "$source" -- -std=c11 -Ic/tcpcore -Ic/companions 2>/dev/null
        passed=$((passed + 1))
    done
    # The device's folder has a string.h of its own.
    for source in examples/device/*.c checks/examples/frames.c; do
        clang-tidy --quiet --warnings-as-errors='*' --checks="$checks" "$source" -- -std=c11 -Iexamples/device -Ic/tcpcore -Ic/companions 2>/dev/null
        passed=$((passed + 1))
    done
    # The other stacks' files are read with headers of their own.
    for source in apps/tcptest/stacks/{child,ours,sockets}.c; do
        clang-tidy --quiet --warnings-as-errors='*' --checks="$checks" "$source" -- -std=c11 -Iapps/tcptest/stacks -Ic/tcpcore -Ic/companions 2>/dev/null
        passed=$((passed + 1))
    done
fi
if has mypy mypy --version; then
    # As the package that they are installed as.
    package=$(mktemp -d)
    trap 'rm -rf "$package"' EXIT
    mkdir "$package/tcpcore"
    cp c/tcpcore/tcpcore.py "$package/tcpcore/__init__.py"
    cp c/tcpcore/{_connections,_ends,_library,_records,datagrams,simulator}.py "$package/tcpcore"
    MYPYPATH=$package mypy --strict --no-error-summary --cache-dir=/dev/null -p tcpcore
    mypy --strict --no-error-summary --cache-dir=/dev/null c/tcpcore/layout.py
    passed=$((passed + 1))
fi
# The checksum stands on lanes.
checks/lanes.py
passed=$((passed + 1))
# What repeats the library's records is what the records make.
c/tcpcore/layout.py --check
passed=$((passed + 1))
echo "lint: $passed passed, $left_out left out"
