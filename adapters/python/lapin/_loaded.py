"""The shared object, loaded by ctypes with the types of its calls, and the extension over it."""
from __future__ import annotations

import ctypes
import os
from typing import Any, Optional, Tuple

from ._extension import extension_for
from ._structures import _Fields, _Message

#: The shared object: the one that LAPIN_LIBRARY names, or else that of the package.
PATH = os.environ.get("LAPIN_LIBRARY") or os.path.join(os.path.dirname(os.path.abspath(__file__)), "liblapin.so")


def _load() -> Any:
    library = ctypes.PyDLL(PATH)  # the interpreter's lock is kept: two threads are never behind one handle
    size, text, code, flag, short = ctypes.c_size_t, ctypes.c_char_p, ctypes.c_uint32, ctypes.c_bool, ctypes.c_uint16
    # An address, a size and a number of 64 bits are given as a pointer is, which is as wide on the machines of the library. ctypes takes a whole
    # number for a pointer at once; of the types of numbers and of addresses it first asks whether it was given an object of that type, at two to
    # three times the price. Who gives an address holds the object.
    handle = address = length = number = ctypes.c_void_p
    calls: Tuple[Tuple[str, Any, Any], ...] = (
        ("version", text, []),
        ("open", code, [handle, ctypes.c_uint32]),
        ("close", None, [handle]),
        ("why", code, [handle, address]),
        ("answer_length", size, [handle]),
        ("answer", size, [handle, address, length]),
        ("call", code, [handle, short, text, length, address]),
        ("limit", code, [handle, short, number, address]),
        ("reply", code, [handle, number, address]),
        ("forget_call", code, [handle, number]),
        ("publish", code, [handle, short, text, length, text, length, flag, flag, text, length, text, length, address]),
        ("outcome", code, [handle, number]),
        ("confirmed", code, [handle, number, address]),
        ("unclaimed", code, [handle, short, address]),
        ("return_at", code, [handle, length, address]),
        ("forget", code, [handle, number]),
        ("delivery", code, [handle, number, address]),
        ("ready_consumer", code, [handle, address, length, length, address]),
        ("ready_reply", code, [handle, address, length, length, address]),
        ("ack", code, [handle, number, flag]),
        ("nack", code, [handle, number, flag, flag]),
        ("reject", code, [handle, number, flag]),
        ("send", code, [handle, flag, length]),
        ("leaving_length", size, [handle]),
        ("leaving", size, [handle, address, length]),
        ("receive", code, [handle, text, length]),
        ("lost", code, [handle]),
        ("state", code, [handle, short, address]),
        ("is_blocked", flag, [handle]),
        ("last_close", code, [handle, short, address]),
        ("shake", code, [address, text, length, text, length, text, length, text, length, text, length, address, length, address, address]),
        ("server_properties", code, [text, length, address]),
        ("beat", code, [address, number, address]),
    )
    for name, result, given in calls:
        function: Any = getattr(library, f"lapin_{name}")
        function.restype, function.argtypes = result, given
    return library


def _address(name: str) -> Optional[int]:
    """Where a call of the shared object begins."""
    return ctypes.cast(getattr(_library, f"lapin_{name}"), ctypes.c_void_p).value


_library = _load()
#: The extension module, where it is used.
_extension = extension_for(PATH, _address, (ctypes.sizeof(_Message), ctypes.sizeof(_Fields)))
