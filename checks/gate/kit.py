"""The kit's own program 'rt' as a module, for what stands behind its gate: how it reads crates.txt, names a library's stamp, and checks a
crate with other texts in it."""

import importlib.machinery
import importlib.util
import os
import subprocess
import sys
from pathlib import Path

TOP = Path(__file__).resolve().parents[2]


def program():
    """The module, in the folder at the top. It fails by AttributeError or OSError where the kit's rt is another one."""
    os.chdir(TOP)
    page = subprocess.run(["rt", "doc"], capture_output=True, text=True, check=True).stdout.strip()
    sys.dont_write_bytecode = True
    loader = importlib.machinery.SourceFileLoader("rt", str(Path(page).parent / "bin/rt"))
    rt = importlib.util.module_from_spec(importlib.util.spec_from_loader("rt", loader))
    loader.exec_module(rt)
    plain = rt.rtlib.Crate.__init__

    def with_files(self, *given, **named):
        plain(self, *given, **named)
        rt.read_files(self)

    rt.rtlib.Crate.__init__ = with_files
    # Its first call sets a signal's handler, which the main thread alone may.
    rt.rtlib.guarded()
    return rt


def crates(rt):
    """The crates of crates/: a build behind the gate may have copies of them elsewhere in the tree meanwhile."""
    return rt.rtlib.crates_below(str(TOP / "crates"))
