"""Builds the library into the package, as its libtcpcore.so, with the C compiler (CC, else cc): over the proved machine code where there is
one for what that compiles for, the layer tcpcore.c and prebuilt/MACHINE/libtcp_c.a, as the tarball has them, around this folder or in the
one that TCPCORE_PREBUILT names (empty, it says that there is none); else of the one C file for any machine, which has the machine code in it,
too. That and its header are in csrc beside this, with the package's text; or in release/ of the repository, whose c/tcpcore/tcpcore.py is
the text then.

Beside it the module _batch, of batch.c, where Python's header is there (Debian: python3-dev): without it the package does the same by
ctypes, in more time, and tcpcore.batches() says so."""

import os
import pathlib
import shlex
import shutil
import subprocess
import sys
import sysconfig

from setuptools import Distribution, setup
from setuptools.command.build_py import build_py

HERE = pathlib.Path(__file__).resolve().parent
SOURCE = HERE / "csrc" if (HERE / "csrc").exists() else HERE.parents[2] / "release"


def package():
    """The folder of the package's text; in the repository a copy of it, in out/."""
    if (HERE / "tcpcore").exists():
        return "tcpcore"
    folder = HERE / "out/tcpcore"
    folder.mkdir(parents=True, exist_ok=True)
    core = HERE.parents[1] / "tcpcore"
    shutil.copy(core / "tcpcore.py", folder / "__init__.py")
    for name in ("_connections", "_ends", "_library", "_records", "datagrams", "simulator"):
        shutil.copy(core / f"{name}.py", folder)
    (folder / "py.typed").touch()
    return "out/tcpcore"


def compiler():
    """The compiler's words."""
    return [*shlex.split(os.environ.get("CC", "cc")), "-O2", "-fPIC", *shlex.split(os.environ.get("CFLAGS", ""))]


def machine():
    """The name of the machine code that runs where what is compiled runs, of those that there are; nothing where it is another machine."""
    told = subprocess.run([*compiler(), "-dM", "-E", "-x", "c", os.devnull], check=True, capture_output=True, text=True).stdout
    has = {line.split()[1] for line in told.splitlines()}
    if not {"__linux__", "__LP64__"} <= has:
        return None
    if "__x86_64__" in has:
        return "x86-64-v2" if {"__SSE4_2__", "__POPCNT__"} <= has else "x86-64"
    return "aarch64" if "__aarch64__" in has and "__AARCH64EL__" in has else None


def words():
    """What is compiled, and how."""
    given = os.environ.get("TCPCORE_PREBUILT")
    folder, name = pathlib.Path(given) if given else HERE.parent, machine() if given != "" else None
    code = folder / "prebuilt" / str(name) / "libtcp_c.a"
    if name and code.exists() and (folder / "layout.h").exists():
        return ["-std=c11", f'-DTCPCORE_BUILD="{name} machine code"', f"-I{folder}", folder / "tcpcore.c", code, "-Wl,--exclude-libs,ALL"]
    if given:
        raise SystemExit(f"TCPCORE_PREBUILT: no layer, or no {code}")
    return ["-std=c99", f"-I{SOURCE}", SOURCE / "tcpcore.c"]


def batch(out):
    """Builds the module _batch where Python's header is there."""
    include = pathlib.Path(sysconfig.get_path("include"))
    if not (include / "Python.h").exists():
        print(f"tcpcore: no {include}/Python.h, so that batches are made by single calls", file=sys.stderr)
        return
    undefined = ["-undefined", "dynamic_lookup"] if sys.platform == "darwin" else []
    subprocess.run([*compiler(), "-std=c99", "-shared", *undefined, f"-I{include}", f"-I{SOURCE}", HERE / "batch.c", "-o", out], check=True)


class Build(build_py):
    """The package with its library."""

    def run(self):
        super().run()
        out = pathlib.Path(self.build_lib, "tcpcore")
        subprocess.run([*compiler(), "-shared", *words(), "-o", out / "libtcpcore.so"], check=True)
        batch(out / "_batch.abi3.so")


class Binary(Distribution):
    """A wheel is for one kind of machine, though none of it is Python's own C."""

    def has_ext_modules(self):
        return True


setup(cmdclass={"build_py": Build}, distclass=Binary, package_dir={"tcpcore": package()})
