"""libtcpcore.so for Python, over ctypes: a Connection is one end of one TCP connection with its timers, and an End is the same without
them, whose times the caller keeps. tcpcore.h says what each call does.

Beside it are the modules tcpcore.datagrams, a Connection over UDP for asyncio, and tcpcore.simulator, two of them and a link between them.

Addresses are 4 bytes, a text ("10.0.0.1") or an ipaddress.IPv4Address; text and segments are bytes, or anything that has a
buffer of bytes (bytearray, memoryview). A number that doesn't fit its field is a ValueError, before any call.

Times are seconds, as those of time.monotonic() and of asyncio's loop.time().

An end is used by one thread at a time: ctypes lets other threads run during a call, and two calls of one end at once break it. Where
threads share an end, a lock (threading.Lock) is held around each call. Ends have nothing in common.

Text and segments go by the module _batch, in C, where it was built beside the library, and else by ctypes, which takes longer and does the
same. `turn`, `arrive_all` and `emit_all` take many segments in one call.
"""

from __future__ import annotations

import os
from typing import Any

# The modules of the package lie beside this file, where it isn't installed, too.
__path__ = [os.path.dirname(os.path.realpath(__file__))]

from tcpcore import _library  # noqa: E402
from tcpcore._connections import *  # noqa: E402, F403
from tcpcore._ends import *  # noqa: E402, F403
from tcpcore._library import *  # noqa: E402, F403
from tcpcore._records import *  # noqa: E402, F403


def __getattr__(name: str) -> Any:
    """The module _batch, bound to the library's calls, or None where it wasn't built: it is there once the library is loaded."""
    if name == "batch":
        return _library._batch
    raise AttributeError(f"tcpcore has no {name}")
