"""The extension module, which makes the calls of each message without ctypes: whether it is used, and where it lies.

It is `_lapin.abi3.so`, made of `_lapin.c` by `make_extension.py`, beside the shared object or in the package, and it takes any CPython from 3.10 on
but the builds without an interpreter's lock, which load no extension of the stable ABI. Where it isn't there, ctypes makes all calls; nothing else
differs.
"""
from __future__ import annotations

import os
import sys
from importlib.machinery import EXTENSION_SUFFIXES, ModuleSpec
from importlib.util import module_from_spec, spec_from_file_location
from typing import Any, Callable, Optional, Tuple

NAME = "_lapin.abi3.so"
#: What LAPIN_CORE may say: one of them and no other, or, where it says nothing, the extension where there is one.
CORES = ("extension", "ctypes")


def _found(path: str) -> Any:
    """The module, for a shared object."""
    if sys.version_info < (3, 10) or ".abi3.so" not in EXTENSION_SUFFIXES:
        raise ImportError("this interpreter takes no extension of the stable ABI of 3.10")
    folders = [os.path.dirname(os.path.abspath(path))] if os.sep in path else []  # (the name alone is looked for by the loader, not here)
    for folder in (*folders, os.path.dirname(os.path.abspath(__file__))):
        if os.path.exists(f"{folder}/{NAME}"):
            spec = spec_from_file_location("lapin._lapin", f"{folder}/{NAME}")
            assert isinstance(spec, ModuleSpec) and spec.loader is not None
            module = module_from_spec(spec)
            spec.loader.exec_module(module)
            return module
    raise ImportError(f"no {NAME} lies beside the shared object or in the package")


def extension_for(path: str, address: Callable[[str], Optional[int]], sizes: Tuple[int, ...]) -> Any:
    """The module, over the shared object of this path: it takes the addresses of its calls, and has structures of these sizes. None where ctypes is
    to be used; where LAPIN_CORE asks for the extension, and it can't be used, that is an ImportError."""
    wish = os.environ.get("LAPIN_CORE", "")
    if wish not in ("", *CORES):
        raise ImportError(f"LAPIN_CORE is extension or ctypes, not {wish!r}")
    if wish == "ctypes":
        return None
    try:
        module = _found(path)
        if module.SIZES != sizes:
            raise ImportError(f"{module.__file__} was made of another lapin.h")
        module.bind(*map(address, module.NAMES))
        return module
    except ImportError:
        if wish:
            raise
        return None
