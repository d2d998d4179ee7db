"""Builds the package for pip (PEP 517 and PEP 660) and by hand, with the standard library alone: python3 make_wheel.py [--unproved] [FOLDER].

The shared object has to lie in lapin/ first: ../library.py lapin/liblapin.so. It says of itself whether it is proved; of one that isn't a wheel is
made only where `--unproved` asks for it (of pip: `pip install --config-settings unproved=yes .`), and the wheel's version says so. The sources for pip
(an sdist) hold the shared object too, since pip can't prove one. Each is the same octets each time, by the same compiler.

The extension module is compiled where that goes, and else left out (`--core=ctypes`, of pip `--config-settings core=ctypes`, leaves it out;
`extension` fails without it). A wheel is for each Python 3 with or without it: an interpreter that the extension isn't for goes by ctypes.
"""
import base64
import ctypes
import gzip
import hashlib
import io
import os
import re
import sys
import sysconfig
import tarfile
import tempfile
import zipfile

HERE = os.path.dirname(os.path.abspath(__file__))
sys.path.insert(0, HERE)
import make_extension  # noqa: E402

with open(f"{HERE}/lapin/__init__.py", encoding="utf-8") as file:
    VERSION = re.search(r'__version__ = "(.*)"', file.read())[1]
OBJECT = f"{HERE}/lapin/liblapin.so"
FILES = ["lapin_kombu_name.py", *sorted(f"lapin/{it}" for it in os.listdir(f"{HERE}/lapin") if it.endswith(".py") or it in ("liblapin.so", "py.typed"))]
#: What the sources for pip have beside these, of which the extension is made.
SOURCES = ["make_extension.py", "lapin.h", *make_extension.SOURCES, *make_extension.HEADERS]
#: The time of each file in an archive: the first one that a zip can say.
MOMENT = (1980, 1, 1, 0, 0, 0)
HEAD = (("Metadata-Version", "2.1"), ("Name", "lapin-channels"), ("Version", "{version}"), ("Requires-Python", ">=3.9"), ("License", "MIT"),
        ("License-File", "LICENSE"), ("Summary", "A client for AMQP 0-9-1 brokers such as RabbitMQ, over a session that is proved"),
        ("Keywords", "amqp,rabbitmq,messaging,kombu,celery"), ("Classifier", "License :: OSI Approved :: MIT License"),
        ("Classifier", "Operating System :: POSIX :: Linux"), ("Classifier", "Programming Language :: Python :: 3"), ("Classifier", "Typing :: Typed"),
        ("Provides-Extra", "kombu"), ("Requires-Dist", 'kombu>=5; extra == "kombu"'), ("Description-Content-Type", "text/markdown"))
#: kombu has no entry points for transports; it loads those for serializers as it is imported, and so lapin:// is known.
POINTS = "[kombu.serializers]\nlapin = lapin_kombu_name:ARGUMENTS\n\n[console_scripts]\nlapin = lapin.__main__:main\n"


def version_of(settings):
    """The version, by what the shared object says of itself."""
    if not os.path.exists(OBJECT):
        raise SystemExit("there is no lapin/liblapin.so: ../library.py lapin/liblapin.so proves and links it, ../unproved_library.py makes one without proofs")
    library = ctypes.CDLL(OBJECT)
    library.lapin_version.restype = ctypes.c_char_p
    release, proof, text = library.lapin_version().decode().split(" ")
    if release != VERSION:
        raise SystemExit(f"the shared object is of release {release}, the package of {VERSION}")
    if proof != "proved" and "unproved" not in (settings or {}):
        raise SystemExit("the shared object isn't proved: make one by ../library.py, or ask for this one by --unproved")
    return VERSION if proof == "proved" else f"{VERSION}+unproved"


def platform(held):
    """The tag of the machine: where libc is all that the shared objects of a wheel need, manylinux by the newest symbol of glibc that they have."""
    found = re.sub(r"[-.]", "_", sysconfig.get_platform())
    objects = [content("lapin/liblapin.so"), *(data for name, data in held.items() if name.endswith(".so"))]
    symbols = [(int(major), int(minor)) for data in objects for major, minor in re.findall(rb"GLIBC_(\d+)\.(\d+)", data)]
    if not found.startswith("linux_") or not symbols or any(needed(data) - {b"libc.so.6"} for data in objects):
        return found
    major, minor = max(*symbols, (2, 17))
    return f"manylinux_{major}_{minor}_{found[6:]}"


def needed(data):
    """The names of the shared objects that are named in one."""
    return set(re.findall(rb"\x00(lib[\w+-]+\.so[.\d]*)(?=\x00)", data)) - {b"liblapin.so", b"liblapin.so.0"}


def metadata(version):
    head = "".join(f"{name}: {text.format(version=version)}\n" for name, text in HEAD)
    return (head + "\n").encode() + content("README.md")


def content(name):
    """The octets of a file of the package. In an sdist all lie beside this; in the repository the licence is at its top, and lapin.h is C's."""
    at = next(it for it in (f"{HERE}/{name}", f"{HERE}/../../{name}", f"{HERE}/../c/{name}") if os.path.exists(it))
    with open(at, "rb") as source:
        return source.read()


def extension(settings, folder):
    """The path of the extension module, compiled into a folder; none where it is left out."""
    wish, out = (settings or {}).get("core", ""), os.path.join(folder, make_extension.NAME)
    if wish not in ("", "ctypes", "extension"):
        raise SystemExit(f"core is ctypes or extension, not {wish}")
    why = "ctypes is asked for" if wish == "ctypes" else make_extension.make(out)
    if why and wish == "extension":
        raise SystemExit(f"no extension: {why}")
    if why:
        print(f"without the extension: {why}", file=sys.stderr)
    return None if why else out


def written(folder, settings, held):
    """A wheel of these files. Its name."""
    version = version_of(settings)
    name, tag = f"lapin_channels-{version}", f"py3-none-{platform(held)}"
    info = f"{name}.dist-info"
    held[f"{info}/LICENSE"], held[f"{info}/METADATA"], held[f"{info}/entry_points.txt"] = content("LICENSE"), metadata(version), POINTS.encode()
    held[f"{info}/WHEEL"] = f"Wheel-Version: 1.0\nGenerator: make_wheel\nRoot-Is-Purelib: false\nTag: {tag}\n".encode()
    record = [f"{file},sha256={base64.urlsafe_b64encode(hashlib.sha256(data).digest()).rstrip(b'=').decode()},{len(data)}" for file, data in held.items()]
    held[f"{info}/RECORD"] = ("\n".join(record) + f"\n{info}/RECORD,,\n").encode()
    with zipfile.ZipFile(os.path.join(folder, f"{name}-{tag}.whl"), "w") as wheel:
        for file, data in held.items():
            entry = zipfile.ZipInfo(file, MOMENT)
            entry.compress_type, entry.external_attr = zipfile.ZIP_DEFLATED, (0o755 if file.endswith(".so") else 0o644) << 16
            wheel.writestr(entry, data)
    return f"{name}-{tag}.whl"


def build_wheel(wheel_directory, config_settings=None, metadata_directory=None):
    """The hook by which pip builds the package."""
    held = {file: content(file) for file in FILES}
    with tempfile.TemporaryDirectory() as folder:
        built = extension(config_settings, folder)
        if built:
            with open(built, "rb") as file:
                held[f"lapin/{make_extension.NAME}"] = file.read()
    return written(wheel_directory, config_settings, held)


def build_editable(wheel_directory, config_settings=None, metadata_directory=None):
    """The hook of `pip install -e`: a path to this folder, in which the extension lies then."""
    if extension(config_settings, f"{HERE}/lapin") is None and os.path.exists(f"{HERE}/lapin/{make_extension.NAME}"):
        os.remove(f"{HERE}/lapin/{make_extension.NAME}")
    return written(wheel_directory, config_settings, {"lapin_channels.pth": f"{HERE}\n".encode()})


def build_sdist(sdist_directory, config_settings=None):
    """The hook by which the sources are put together."""
    version = version_of({"unproved": "yes"})
    name = f"lapin_channels-{version}"
    held = {file: content(file) for file in ("pyproject.toml", "make_wheel.py", "README.md", "LICENSE", *SOURCES, *FILES)}
    held["PKG-INFO"] = metadata(version)
    data = io.BytesIO()
    with gzip.GzipFile(fileobj=data, mode="wb", mtime=0) as packed, tarfile.open(fileobj=packed, mode="w", format=tarfile.PAX_FORMAT) as sdist:
        for file, octets in held.items():
            entry = tarfile.TarInfo(f"{name}/{file}")
            entry.size, entry.mode = len(octets), 0o644
            sdist.addfile(entry, io.BytesIO(octets))
    with open(os.path.join(sdist_directory, f"{name}.tar.gz"), "wb") as target:
        target.write(data.getvalue())
    return f"{name}.tar.gz"


if __name__ == "__main__":
    folders = [it for it in sys.argv[1:] if not it.startswith("--")]
    chosen = {"unproved": "yes"} if "--unproved" in sys.argv[1:] else {}
    chosen.update(("core", it.partition("=")[2]) for it in sys.argv[1:] if it.startswith("--core="))
    print(build_wheel(folders[0] if folders else ".", chosen))
