"""Makes what the tester runs, in the folder out: the proved judge, and the programs around the stacks. It wants a C compiler, and for
the stacks of others what their names say; what lacks is told."""

import os
import pathlib
import subprocess
import sys

HERE = pathlib.Path(__file__).resolve().parent
TOP = HERE.parents[1]
OUT = HERE / "out"
CC = os.environ.get("CC", "cc")
LWIP = TOP / "bench/out/lwip-2.1.3/src"
GO_CODE = pathlib.Path("/usr/share/gocode")
FLAGS = ("-std=gnu11", "-O1", "-w")


class Lacks(Exception):
    """This machine lacks what a stack is made of."""


def run(*words, **how):
    done = subprocess.run([str(word) for word in words], capture_output=True, text=True, check=False, **how)
    if done.returncode:
        raise Lacks(f"{words[0]} failed: {(done.stderr or done.stdout)[-2000:]}")
    return done.stdout


def is_stale(made, sources):
    return not made.exists() or any(source.stat().st_mtime > made.stat().st_mtime for source in sources)


def compiled(name, sources, *words):
    """The object files of these sources, in a folder of this name."""
    folder = OUT / name
    folder.mkdir(parents=True, exist_ok=True)
    made = [folder / f"{source.stem}.o" for source in sources]
    headers = list(HERE.glob("stacks/*.h")) if sources[0].parent == HERE / "stacks" else []
    stale = [source for source, target in zip(sources, made) if is_stale(target, [source, *headers])]
    if stale:
        run(CC, *FLAGS, *words, "-c", *stale, cwd=folder)
    return made


def judge():
    """The proved judge (docs/JUDGE.md)."""
    made, source = OUT / "tcpjudge", TOP / "release/tcpjudge.c"
    OUT.mkdir(exist_ok=True)
    if is_stale(made, [source]):
        run(CC, "-O1", "-w", source, "-o", made)
    return made


def around():
    """The words by which our files are compiled."""
    return f"-I{HERE / 'stacks'}", f"-I{TOP / 'release'}", f"-I{TOP / 'c/companions'}"


def linked(name, objects, *words):
    made = OUT / name
    if is_stale(made, [one for one in objects if isinstance(one, pathlib.Path)]):
        run(CC, *objects, *words, "-o", made)
    return made


def ours():
    """Our stack: a host, of the library of release/, which has hosts where that is machine code."""
    companions = [TOP / f"c/companions/{name}.c" for name in ("ip", "secret")]
    objects = compiled("core", [TOP / "release/tcpcore.c"]) + compiled("companions", companions, *around())
    return linked("ours", compiled("child", [HERE / "stacks/child.c", HERE / "stacks/ours.c"], *around()) + objects)


def lwip():
    """lwIP 2.1.3, of Debian's source, as it ships but with blocks and keep-alives."""
    if not LWIP.exists():
        fetch_lwip()
    core = sorted((LWIP / "core").glob("*.c")) + [LWIP / f"core/ipv4/{name}.c" for name in ("ip4", "ip4_addr", "ip4_frag", "icmp")]
    words = (f"-I{HERE / 'stacks'}", f"-I{TOP / 'bench/peer'}", f"-I{LWIP / 'include'}")
    objects = compiled("lwip-core", core, *words) + compiled("child", [HERE / "stacks/child.c"], *around())
    return linked("lwip", compiled("lwip-stack", [HERE / "stacks/lwip.c"], *words, *around()) + objects)


def fetch_lwip():
    print("tcptest: fetches lwIP's source (apt-get)", file=sys.stderr)
    out = TOP / "bench/out"
    out.mkdir(parents=True, exist_ok=True)
    run("sh", "-c", '. "$top/bench/common.sh"; fetch_lwip', env={**os.environ, "top": str(TOP), "out": str(out)})


def slirp():
    """libslirp, of Debian's package."""
    if not pathlib.Path("/usr/include/slirp/libslirp.h").exists():
        raise Lacks("no libslirp here (Debian's libslirp-dev)")
    objects = compiled("child", [HERE / "stacks/child.c", HERE / "stacks/sockets.c"], *around())
    return linked("slirp", compiled("slirp-stack", [HERE / "stacks/slirp.c"], *around()) + objects, "-lslirp")


def gvisor():
    """gVisor's netstack, of Debian's packages."""
    if not (GO_CODE / "src/gvisor.dev").exists():
        raise Lacks("no gVisor here (Debian's golang-go and golang-gvisor-gvisor-dev)")
    archive, source = OUT / "netstack.a", HERE / "stacks/netstack.go"
    OUT.mkdir(exist_ok=True)
    if is_stale(archive, [source]):
        settings = {"GOPATH": str(GO_CODE), "GO111MODULE": "off", "GOFLAGS": "", "GOCACHE": str(OUT / "go")}
        run("go", "build", "-buildmode=c-archive", "-o", archive, source, env={**os.environ, **settings})
    objects = compiled("child", [HERE / "stacks/child.c"], *around())
    return linked("gvisor", compiled("gvisor-stack", [HERE / "stacks/gvisor.c"], f"-I{OUT}", *around()) + objects + [archive], "-lpthread")
