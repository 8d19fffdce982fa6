#!/usr/bin/env bash
# C++'s header over the portable file, which c/portable/build.sh makes; Go's package over release/tcpcore.c and over the native library
# (the first argument, or crates/tcp_c's own); and Python's package as it is installed, over release/tcpcore.c, which has machine code on
# this machine, the same in C, and the native library: one test each. Each language, and C, runs the scripted world of
# checks/programs/test_connections, too, and prints the same; hostile.sh is the long form of their tests by hostile calls. It installs g++, golang-go
# and Python's own by apt-get where this machine lacks them; where that fails it fails, or, with LEAVE_OUT=1 in the environment, says what it
# leaves out.
set -euo pipefail
cd "$(dirname "$0")"
# shellcheck disable=SC2034
test=bindings
. ../../checks/lib.sh
passed=0
library=$(realpath -m "${1:-../../crates/tcp_c/out/libtcp_c.a}")
[[ -e ../portable/out/tcpcore_portable.c ]] || { echo "bindings: no portable file: run c/portable/build.sh"; exit 1; }
[[ -e $library ]] || { echo "bindings: no $library: run 'rt lib' in crates/tcp_c"; exit 1; }

mkdir -p cpp/out
# A folder as the tarball has them: the layer, and this machine's code.
mkdir -p "out/tarball/prebuilt/$(uname -m | sed 's/^x86_64$/x86-64/')"
cp ../tcpcore/{tcpcore.c,tcpcore.h,tcpcore_old_names.h,layout.h} out/tarball
cp "$library" out/tarball/prebuilt/*/

# A program or a library has the machine code in it, and nothing of the portable file, whose functions are named w2c_.
is_native() {
    nm "$1" >out/names
    if ! grep -q tcp_c_emit out/names || grep -q w2c_ out/names; then echo "bindings: $1 isn't over the machine code"; exit 1; fi
}

# A program that reads the script of one world of two connections prints what the proved ends themselves do in Rattle.
world=$PWD/../../checks/programs/test_connections
in_world() {
    if ! timeout 60 "$@" <"$world/stdin" >out/world || ! diff out/world "$world/stdout" >out/differs; then
        echo "bindings: '$*' prints another world:"
        head out/differs
        exit 1
    fi
    passed=$((passed + 1))
}

sanitizers="-O1 -fsanitize=address,undefined -fno-sanitize-recover=all"
# shellcheck disable=SC2086
gcc -std=c99 $sanitizers -I../tcpcore -c ../portable/out/tcpcore_portable.c -o cpp/out/tcpcore.o
# shellcheck disable=SC2086
gcc -std=c11 -Wall -Wextra -Wpedantic -Wconversion -Wshadow -Werror $sanitizers -I../tcpcore ../tcpcore/tests/world.c cpp/out/tcpcore.o \
    -o out/world_c
in_world out/world_c
gcc -std=c11 -O2 -I../tcpcore ../tcpcore/tests/world.c ../tcpcore/tcpcore.c "$library" -o out/world_native
in_world out/world_native
if has g++ g++ --version; then
    for program in test hostile world; do
        # shellcheck disable=SC2086
        g++ -std=c++17 -Wall -Wextra -Wpedantic -Wshadow -Werror $sanitizers -I../tcpcore -Icpp "cpp/$program.cpp" cpp/out/tcpcore.o \
            -o "cpp/out/$program"
    done
    timeout 60 cpp/out/test
    timeout 60 cpp/out/hostile
    in_world cpp/out/world
    passed=$((passed + 2))
fi
if has golang-go go version; then
    [[ -z $(gofmt -l go) ]] || { echo "bindings: gofmt would change $(gofmt -l go)"; exit 1; }
    (cd go && GOPROXY=off GOFLAGS=-mod=mod go vet ./... && GOPROXY=off GOFLAGS=-mod=mod timeout 300 go test -count=1 .)
    (cd go && GOPROXY=off GOFLAGS=-mod=mod go build -o ../out/world_go ./world)
    in_world out/world_go
    # The same over the native library.
    make --silent -C ../tcpcore OUT="$PWD/out/native" LIBRARY="$library"
    export CGO_LDFLAGS=-L$PWD/out/native
    (cd go && GOPROXY=off GOFLAGS=-mod=mod timeout 300 go test -tags tcpcore_native -count=1 -o ../out/go_test .)
    is_native out/go_test
    passed=$((passed + 2))
fi
python_header() { test -e "$(/usr/bin/python3 -c 'import sysconfig; print(sysconfig.get_path("include"))')/Python.h"; }
# Python's package, installed in a folder of its own, with the library that TCPCORE_PREBUILT and CFLAGS ask for; what it says that is.
python_over() {
    local site=$PWD/out/site.$1 said
    rm -rf "$site" python/build
    TCPCORE_PREBUILT=$2 /usr/bin/python3 -m pip install --quiet --no-index --no-deps --no-build-isolation --root-user-action=ignore \
        --target "$site" ./python
    mkdir -p out/alone/tests out/alone/examples
    cp ../tcpcore/tests/{calls,batches,connections,simulations,streams,world}.py out/alone/tests
    local name
    for name in calls connections simulations streams; do
        PYTHONPATH=$site timeout 300 /usr/bin/python3 "out/alone/tests/$name.py"
    done
    PYTHONPATH=$site timeout 300 /usr/bin/python3 out/alone/tests/batches.py module
    in_world env PYTHONPATH="$site" /usr/bin/python3 out/alone/tests/world.py
    said=$(cd / && PYTHONPATH=$site /usr/bin/python3 -c 'import tcpcore; print(tcpcore.build())')
    [[ $said == "$3" ]] || { echo "bindings: Python's package over $1 says '$said'"; exit 1; }
    # The examples by themselves, as a user has them who has installed the package: they find it, and print what they print in the
    # repository.
    local example
    for example in hello two_ends lossy_link own_link udp_file; do
        cp "../tcpcore/examples/$example.py" out/alone/examples
        (cd out/alone/examples && env -i PATH="$PATH" PYTHONPATH="$site" timeout 300 /usr/bin/python3 "$example.py") >out/printed
        diff out/printed "../tcpcore/tests/expected/$example"
    done
    passed=$((passed + 6))
}
if has python3-pip /usr/bin/python3 -m pip --version && has python3-setuptools /usr/bin/python3 -c 'import setuptools' &&
    has python3-wheel /usr/bin/python3 -c 'import wheel' && has python3-dev python_header; then
    native=$(uname -m | sed 's/^x86_64$/x86-64/')
    python_over file "" "$native machine code"
    is_native out/site.file/tcpcore/libtcpcore.so
    CFLAGS=-DTCPCORE_PORTABLE python_over portable "" "portable C"
    nm out/site.portable/tcpcore/libtcpcore.so | grep w2c_ >out/names
    python_over prebuilt "$PWD/out/tarball" "$native machine code"
    is_native out/site.prebuilt/tcpcore/libtcpcore.so
fi
echo "bindings: $passed passed, $left_out left out"
