#!/usr/bin/env python3
"""Links the shared object from the proved archive: library.py OUT.so

Where OUT.so is that of the package, python/lapin/liblapin.so, the package's extension module is compiled beside it, if there is a compiler.

With `library.py --object OUT.o` it is one object in the place of that, of which the names of lapin.h alone are global: c/Makefile makes a shared
and a static library of it. The archive is made first, and only where `lapin_c` is proved: by `rt lib`, or, where the gate ran in this checkout and left the libraries that
it proved, over those.
"""
import hashlib
import os
import re
import shutil
import subprocess
import sys
import tempfile

TOP = os.path.dirname(os.path.dirname(os.path.abspath(__file__)))
CRATE = f"{TOP}/crates/lapin_c"
ARCHIVE = f"{CRATE}/out/liblapin_c.a"


def kit():
    """The folder of the toolchain."""
    return os.path.dirname(os.path.dirname(os.path.realpath(shutil.which("rt"))))


def crates():
    """What each crate of the repository names."""
    names = {}
    with open(f"{TOP}/crates.txt", encoding="utf-8") as file:
        for line in file:
            name, _, below = line.split("#")[0].strip().partition(":")
            if name:
                names[name.split()[0]] = below.split()
    return names


def below(names, crate="lapin_c"):
    """The crates of the repository below a crate, each once, lowest first."""
    found = {}
    for name in names[crate]:
        if name in names:
            found |= dict.fromkeys([*below(names, name), name])
    return list(found)


def library_of(name):
    return f"{TOP}/crates/{name}/out/rlib/{name}.rlib"


def is_of_the_gate(libraries):
    """Whether each library stands here as the gate leaves it in a clone of its own: proved, and without the stamp by which `rt lib` would take it."""
    return all(os.path.exists(f"{library_of(it)}/format") and not os.path.exists(f"{TOP}/crates/{it}/out/rlib/stamp") for it in libraries)


def over_the_gates(names, libraries):
    """The words by which the kit's compiler proves the crate over the libraries that the gate proved, and builds it."""
    words = [f"{kit()}/bin/rattle", "build", "--crate-name", "lapin_c", "src/lib.rt"]
    for name in ["std", *names["lapin_c"]]:
        words += ["--extern", f"{name}={library_of(name) if name in names else f'{kit()}/rlibs/{name}.rlib'}"]
    for folder in (f"{kit()}/rlibs", *(os.path.dirname(library_of(it)) for it in libraries)):
        words += ["-L", f"dependency={folder}"]
    words += ["--antt-project", f"{kit()}/rattle/logic/antt-project.json", "--logic-built", f"{kit()}/logic_built", "--links", "lapin_c="]
    return [*words, "--crate-type", "staticlib", "--jobs", "2", "--toolchain", f"{kit()}/toolchain", "--backend", "llvm", "-o", ARCHIVE]


def ran(words):
    """What a command says that fails; nothing where it ends well."""
    done = subprocess.run(words, cwd=CRATE, stdin=subprocess.DEVNULL, stdout=subprocess.PIPE, stderr=subprocess.STDOUT, text=True, errors="replace")
    return (done.stdout or "it said nothing") if done.returncode else ""


def text_sum():
    """The sum of the text that is built or proved: sha-256 of crates.txt and of each file below crates/, with their names, but for what is made."""
    found = hashlib.sha256()
    files = [f"{TOP}/crates.txt"]
    for folder, below, names in os.walk(f"{TOP}/crates"):
        below[:] = sorted(it for it in below if it not in ("out", "__pycache__"))
        files += [f"{folder}/{it}" for it in sorted(names) if it != "BUILD.bazel"]
    for file in files:
        with open(file, "rb") as source:
            content = source.read()
        found.update(f"{os.path.relpath(file, TOP)} {len(content)}\n".encode() + content)
    return found.hexdigest()


def version_object(folder, proof):
    """What `lapin_version` answers, compiled into a folder. The proof is `proved` or `unproved`."""
    with open(f"{TOP}/adapters/python/lapin/__init__.py", encoding="utf-8") as file:
        release = re.search(r'__version__ = "(.*)"', file.read())[1]
    words = {"RELEASE": release, "PROOF": proof, "TEXT": text_sum()}
    named = [f'-DLAPIN_{name}="{word}"' for name, word in words.items()]
    built = f"{folder}/version.o"
    subprocess.run([os.environ.get("CC", "cc"), "-O2", "-fPIC", *named, "-c", f"{TOP}/adapters/c/version.c", "-o", built], check=True)
    return built


def archive():
    """Makes the proved archive."""
    names = crates()
    libraries = below(names)
    os.makedirs(f"{CRATE}/out", exist_ok=True)
    if os.path.exists(ARCHIVE):
        os.remove(ARCHIVE)
    said = ran(over_the_gates(names, libraries) if is_of_the_gate(libraries) else ["rt", "lib"])
    if said or not os.path.exists(ARCHIVE):
        sys.exit(f"{said[-4000:]}\nlapin_c did not build")


def make(out):
    archive()
    with tempfile.TemporaryDirectory() as folder:
        script = f"{folder}/exports"
        with open(script, "w", encoding="utf-8") as file:
            file.write("{ global: lapin_*; local: *; };\n")
        subprocess.run([os.environ.get("CC", "cc"), "-shared", "-o", out, version_object(folder, "proved"), "-Wl,--whole-archive", ARCHIVE,
                        "-Wl,--no-whole-archive", f"{kit()}/c/liblibc_c.a", "-Wl,--gc-sections", f"-Wl,--version-script={script}"], check=True)


def extend(out):
    """Compiles the extension module where the shared object is the package's."""
    folder = f"{TOP}/adapters/python"
    if os.path.realpath(os.path.dirname(out)) == os.path.realpath(f"{folder}/lapin"):
        subprocess.run([sys.executable, f"{folder}/make_extension.py"], check=False)


def joined(out, objects):
    """One object of several, of which the names of lapin.h alone are global."""
    subprocess.run(["ld", "-r", "-o", out, *objects], check=True)
    subprocess.run(["objcopy", "-w", "--keep-global-symbol=lapin_*", out], check=True)


def make_object(out):
    archive()
    with tempfile.TemporaryDirectory() as folder:
        joined(out, [version_object(folder, "proved"), "--whole-archive", ARCHIVE, "--no-whole-archive", f"{kit()}/c/liblibc_c.a"])


if __name__ == "__main__":
    if len(sys.argv) == 3 and sys.argv[1] == "--object":
        make_object(os.path.abspath(sys.argv[2]))
    elif len(sys.argv) == 2:
        make(os.path.abspath(sys.argv[1]))
        extend(os.path.abspath(sys.argv[1]))
    else:
        sys.exit(__doc__)
