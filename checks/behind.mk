# What stands behind the gate, and what each check waits for: checks/behind.sh runs it, as many at once as there are processors.
# A check waits for the builds that it takes, and for those that write into the same folder, or read the whole tree while it writes. What
# runs against the clocks of a kernel and of other programs waits for all that isn't, and runs beside nothing but what is of one thread or
# gives way to it, and once more where it fails.

top := $(CURDIR)
prebuilt := $(top)/c/dist/out/prebuilt
library := $(prebuilt)/x86-64-v2/libtcp_c.a
once := checks/attempt.sh
timed := checks/attempt.sh --again

tcpkit := $(addprefix tcpkit_,machine_code sanitized translated emulated)
wrong := wrong_bodies wrong_bodies_for_c
builds := prebuilt module portable_file program_files
steady := debian portable machine tcpcore companions dist rust bindings bench $(tcpkit) aarch64 lwip segments \
    statuses memory readme paste lint lib_test gate_test programs differential
clocked := examples live usernet capture tcptest
beside := release judge page site

.PHONY: all $(wrong) $(builds) $(steady) $(clocked) $(beside)
all: $(wrong) $(builds) $(steady) $(clocked) $(beside)

# Beside all others, on what they leave of the processors: no check waits for them. Those of the libraries for C go on with what the builds
# have proved of these.
wrong_bodies: ; nice -n 19 python3 checks/gate/wrong_bodies.py --rust
wrong_bodies_for_c: | $(builds) ; nice -n 19 python3 checks/gate/wrong_bodies.py --c

# The libraries and the module are built over what the gate has proved, one after another, since each takes all processors.
prebuilt: ; c/dist/prebuilt.sh
portable_file: prebuilt ; c/portable/build.sh
module: portable_file ; apps/web/build.sh
program_files: module ; apps/tcpkit/build.sh

statuses: ; $(once) checks/program/statuses.sh
memory: ; $(once) checks/program/memory.sh
readme: ; $(once) python3 checks/docs/readme.py
paste: ; $(once) python3 checks/docs/paste.py
lint: ; $(once) checks/lint.sh
lib_test: ; $(once) checks/lib_test.sh
gate_test: ; $(once) python3 checks/gate/bodies_test.py
programs: ; $(once) checks/programs/test.sh
differential: ; $(once) checks/differential/test.sh
debian: ; $(once) checks/release/debian.sh

tcpcore: prebuilt ; $(once) c/tcpcore/test.sh "$(library)"
aarch64: tcpcore ; $(once) c/tcpcore/test.sh --target aarch64 "$(prebuilt)/aarch64/libtcp_c.a"
companions: prebuilt ; $(once) c/companions/test.sh "$(library)"
segments: prebuilt ; $(once) checks/peers/segments.sh "$(library)"
lwip: prebuilt segments ; $(once) checks/peers/lwip.sh "$(library)"
rust: prebuilt ; $(once) c/bindings/rust/test.sh "$(library)"
bench: prebuilt ; $(once) checks/bench.sh "$(library)"

portable: portable_file ; $(once) c/portable/test.sh --short "$(library)"
machine: portable_file ; $(once) c/machine/test.sh --short
bindings: portable_file rust paste ; $(once) c/bindings/test.sh "$(library)"
dist: portable_file ; $(once) c/dist/test.sh
$(tcpkit): program_files ; $(once) apps/tcpkit/test.sh --only $(@:tcpkit_%=%)

$(clocked) $(beside): | $(builds) $(steady)
examples: ; $(timed) checks/examples/test.sh
live: examples ; $(timed) checks/live/run.sh
usernet: live ; $(timed) apps/usernet/test.sh "$(library)" --short
capture: usernet ; $(timed) apps/capture/test.sh
tcptest: capture ; $(timed) apps/tcptest/test.sh

# What it installs for 32 bits takes the compilers for other machines away, which those before it want.
release: ; $(once) checks/release/test.sh "$(library)"
judge: ; $(timed) checks/judge/test.sh "$(top)/crates/tcpjudge/out/tcpjudge" "$(library)" --short
page: ; $(timed) apps/web/test.sh apps/web/out/tcp_web.wasm
site: page ; $(once) docs/site/test.sh
