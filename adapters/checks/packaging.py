"""What is installed: the package by pip from its sources, and in place; the library for C by make."""
import importlib.util
import os
import shutil
import subprocess
import sys
import tarfile

import lapin
import make_extension
from checks.common import ADAPTERS, BIN, rabbit, said, test

#: What is asked of an installed package, with no word of where it lies.
ASK = """
import importlib.metadata as metadata, lapin, lapin.aio
found = metadata.distribution("lapin-channels")
assert found.version.startswith(lapin.__version__) and found.metadata["License"] == "MIT" and any(str(it).endswith("LICENSE") for it in found.files)
print(lapin.__file__)
"""
#: That kombu knows the transport's name, and that nothing of the package is loaded for it.
KNOWN = """
import sys
from kombu import Connection, Producer
Producer
assert "lapin" not in sys.modules and Connection("lapin://").transport_cls == "lapin"
import lapin.kombu
assert Connection("lapin://").transport.__class__ is lapin.kombu.Transport
"""


def folder_of_sources():
    """The package's folder with a shared object, as a user has it."""
    folder = f"{BIN}/packaged/adapters/python"
    shutil.copytree(f"{ADAPTERS}/python", folder, ignore=shutil.ignore_patterns("*.so", "__pycache__", "tutorials", "bench"))
    shutil.copy(os.environ["LAPIN_LIBRARY"], f"{folder}/lapin/liblapin.so")
    shutil.copy(f"{os.path.dirname(ADAPTERS)}/LICENSE", f"{BIN}/packaged/LICENSE")
    os.mkdir(f"{BIN}/packaged/adapters/c")
    shutil.copy(f"{ADAPTERS}/c/lapin.h", f"{BIN}/packaged/adapters/c")
    return folder


def run(*words):
    """What a program says that ends well, without what names the package of this checkout."""
    env = {name: value for name, value in os.environ.items() if name not in ("LAPIN_LIBRARY", "LAPIN_CORE", "PYTHONPATH")}
    done = subprocess.run(words, env=env, cwd=BIN, stdin=subprocess.DEVNULL, stdout=subprocess.PIPE, stderr=subprocess.STDOUT, text=True, timeout=300)
    assert done.returncode == 0, f"{words}: {done.stdout[-800:]}"
    return done.stdout


@test
def pip_installs_the_package_without_network():
    folder, place = folder_of_sources(), f"{BIN}/place"
    run(sys.executable, "-m", "venv", "--without-pip", "--system-site-packages", place)
    python = f"{place}/bin/python"
    pip = [sys.executable, "-m", "pip", "--python", python, "install", "--no-index", "--no-cache-dir", "--no-deps", "--force-reinstall", "--config-settings", "unproved=yes"]
    made = set()
    for _ in range(2):
        name = run(sys.executable, "-c", f"import sys; sys.path.insert(0, {folder!r}); import make_wheel; print(make_wheel.build_sdist({BIN!r}))").strip()
        with open(f"{BIN}/{name}", "rb") as file:
            made.add(file.read())
    assert len(made) == 1, "the same octets each time"
    with tarfile.open(f"{BIN}/{name}") as sdist:
        held = {it.partition("/")[2] for it in sdist.getnames()}
    assert {"PKG-INFO", "LICENSE", "pyproject.toml", "lapin.h", "make_extension.py", "lapin/_lapin.c", "lapin/_lapin_values.h"} <= held
    run(*pip, f"{BIN}/{name}")
    assert run(python, "-c", ASK).startswith(f"{place}/lib")
    told = run(f"{place}/bin/lapin")
    assert told.split("\n")[0].startswith(f"lapin {lapin.__version__}") and place in told and lapin.library_version().split(" ")[2] in told, told
    core = "ctypes" if make_extension.why_not() else "extension"
    assert f"called by {core}" in told and (core == "ctypes" or f"{place}/lib" in told.split("called by")[1]), told
    if importlib.util.find_spec("kombu") is not None:
        run(python, "-c", KNOWN)
    for wish in dict.fromkeys((core, "ctypes")):
        run(*pip, "--config-settings", f"core={wish}", "-e", folder)
        assert run(python, "-c", ASK).strip() == f"{folder}/lapin/__init__.py"
        assert run(python, "-c", "import lapin; print(lapin.library_version())").strip().endswith(f" {wish}")


pip_installs_the_package_without_network.needs_modules = ("pip", "venv")


@rabbit
def rabbitmq_is_tried_by_the_package_itself(url):
    told = said(sys.executable, "-m", "lapin", url)
    assert "connected in" in told and "RabbitMQ" in told and "ack, and it came back whole" in told, told
    done = subprocess.run([sys.executable, "-m", "lapin", url.replace("guest:guest", "guest:s3cret")], stdout=subprocess.PIPE, stderr=subprocess.STDOUT, text=True)
    assert done.returncode == 1 and "403" in done.stdout and "s3cret" not in done.stdout, done.stdout


@test
def make_installs_the_library_for_c():
    folder, place = f"{BIN}/made/adapters/c", f"{BIN}/usr"
    shutil.copytree(f"{ADAPTERS}/c", folder)
    os.makedirs(f"{BIN}/made/adapters/python/lapin")
    shutil.copy(f"{ADAPTERS}/python/lapin/__init__.py", f"{BIN}/made/adapters/python/lapin")
    shutil.copy(f"{os.path.dirname(ADAPTERS)}/LICENSE", f"{BIN}/made")
    for name, text in (("stand_in", 'int printf(const char *, ...); int own(void) { return 7; } const char *lapin_version(void) { return own() == 7 ? "0.1.0 unproved 0" : ""; }'),
                       ("user", '#include <lapin.h>\n#include <stdio.h>\nint own(void) { return 8; }\nint main(void) { return puts(lapin_version()), own() != 8; }')):
        with open(f"{BIN}/{name}.c", "w", encoding="utf-8") as file:
            file.write(text)
    compiler = os.environ.get("CC", "cc")
    said(compiler, "-fPIC", "-c", "-o", f"{BIN}/stand_in.o", f"{BIN}/stand_in.c")
    said("objcopy", "-w", "--keep-global-symbol=lapin_*", f"{BIN}/stand_in.o")
    said("make", "-C", folder, "install", f"OBJECT={BIN}/stand_in.o", f"PREFIX={place}")
    asked = {**os.environ, "PKG_CONFIG_PATH": f"{place}/lib/pkgconfig"}
    flags = subprocess.run(["pkg-config", "--cflags", "--libs", "lapin"], env=asked, stdout=subprocess.PIPE, text=True, check=True).stdout.split()
    said(compiler, "-o", f"{BIN}/shared_user", f"{BIN}/user.c", *flags, f"-Wl,-rpath,{place}/lib")
    said(compiler, "-o", f"{BIN}/static_user", f"{BIN}/user.c", flags[0], f"{place}/lib/liblapin.a")
    assert said(f"{BIN}/shared_user") == said(f"{BIN}/static_user") == "0.1.0 unproved 0\n"
    assert "liblapin.so.0" in said("objdump", "-p", f"{BIN}/shared_user") and "liblapin" not in said("objdump", "-p", f"{BIN}/static_user")
    assert os.path.exists(f"{place}/share/doc/lapin/LICENSE") and os.path.exists(f"{place}/include/lapin/connection.h")
    said("make", "-C", folder, "uninstall", f"PREFIX={place}")
    assert not [name for _, _, names in os.walk(place) for name in names]


make_installs_the_library_for_c.needs = ("make", "pkg-config", "objcopy")
