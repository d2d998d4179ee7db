"""Compiles the extension module of the package: make_extension.py [FOLDER], in lapin/ without one. It takes a C compiler and Python's headers.

Nothing is linked to it: it is told the addresses of the shared object's calls as it is loaded. So it is the same octets over each, wherever they lie.
The package goes without it, by ctypes. The status is 1, and nothing is made, where it can't be compiled here; the reason is told.
"""
import os
import shutil
import subprocess
import sys
import sysconfig

HERE = os.path.dirname(os.path.abspath(__file__))
SOURCES = ("lapin/_lapin.c",)
HEADERS = ("lapin/_lapin_values.h",)
NAME = "_lapin.abi3.so"
FLAGS = ("-std=c99", "-O2", "-fPIC", "-shared", "-s", "-Wall", "-Wextra")


def header_folder():
    """Where lapin.h lies: beside this in an sdist, and beside the connection for C in the repository."""
    return HERE if os.path.exists(f"{HERE}/lapin.h") else os.path.join(os.path.dirname(HERE), "c")


def why_not():
    """Why it can't be compiled here; nothing where it can."""
    if sys.implementation.name != "cpython" or sys.version_info < (3, 10) or sysconfig.get_config_var("Py_GIL_DISABLED"):
        return "it is for CPython from 3.10 on with an interpreter's lock"
    if shutil.which(os.environ.get("CC", "cc").split(" ")[0]) is None:
        return "there is no C compiler"
    if not os.path.exists(f"{sysconfig.get_paths()['include']}/Python.h"):
        return "there is no Python.h"
    return ""


def make(out, *more):
    """Compiles it, with these words more. Why it wasn't made; nothing where it was."""
    why = why_not()
    if why:
        return why
    words = [*os.environ.get("CC", "cc").split(" "), *FLAGS, f"-I{sysconfig.get_paths()['include']}", f"-I{header_folder()}", *more]
    done = subprocess.run([*words, "-o", os.path.abspath(out), *SOURCES], cwd=HERE, stdin=subprocess.DEVNULL, stdout=subprocess.PIPE,
                          stderr=subprocess.STDOUT, text=True, errors="replace")
    return "" if done.returncode == 0 else f"it doesn't compile: {done.stdout[-2000:]}"


if __name__ == "__main__":
    if len(sys.argv) > 2:
        sys.exit(__doc__)
    sys.exit(make(os.path.join(sys.argv[1] if len(sys.argv) == 2 else f"{HERE}/lapin", NAME)) or 0)
