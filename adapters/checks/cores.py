"""The two cores of the package for Python, the extension and ctypes: which one is used, that they answer alike, want of memory, and what is held."""
import ctypes
import gc
import os
import shutil
import subprocess
import sys

import lapin
import make_extension
import scripted
from checks.common import ADAPTERS, BIN, fails, test
from lapin import _library

try:
    import _testcapi
except ImportError:
    _testcapi = None

CORE = lapin.library_version().split(" ")[3]
OTHER = "ctypes" if CORE == "extension" else "extension"
#: The checks that the other core is tried by: what a core could get wrong.
AGAIN = ("exceptions_at_random_places", "an_exception_while", "a_second_thread", "two_threads", "a_forked_process", "a_use_from_a_signal_handler",
    "values_of_",
         "want_of_memory", "held_twice", "let_go", "hostile_octets", "asyncio_publishes", "properties_that_are_read", "either_core",
         "memory_at_any_place",
         "nothing_grows")


def core_by(library=None, **env):
    """What a process says of its core."""
    words = [sys.executable, "-c", "import lapin; print(lapin.library_version())"]
    env = {**os.environ, **({"LAPIN_LIBRARY": library} if library else {}), **env}
    return subprocess.run(words, env=env, stdout=subprocess.PIPE, stderr=subprocess.STDOUT, text=True, timeout=60)


@test
def the_extension_is_built_without_a_warning_and_used():
    if make_extension.why_not():
        assert CORE == "ctypes" and core_by(LAPIN_CORE="extension").returncode != 0
        return
    for compiler in filter(shutil.which, (os.environ.get("CC", "cc"), "gcc", "clang")):
        before, os.environ["CC"] = os.environ.get("CC"), compiler
        try:
            assert make_extension.make(f"{BIN}/warned.so", "-Werror") == "", compiler
        finally:
            os.environ.pop("CC")
            if before is not None:
                os.environ["CC"] = before
    assert CORE == os.environ.get("LAPIN_CORE", "extension")
    for wish, core in (("", "extension"), ("extension", "extension"), ("ctypes", "ctypes")):
        assert core_by(LAPIN_CORE=wish).stdout.strip().endswith(f" {core}"), wish
    assert "LAPIN_CORE is extension or ctypes" in core_by(LAPIN_CORE="cython").stdout


@test
def an_extension_that_cannot_be_used_is_passed_over():
    """Where none lies beside the shared object, where it is no module, and where another one has the process."""
    folder = f"{BIN}/alone"
    os.mkdir(folder)
    shutil.copy(os.environ["LAPIN_LIBRARY"], f"{folder}/liblapin.so")
    beside = os.path.join(ADAPTERS, "python", "lapin", make_extension.NAME)
    for octets in (None, b"", b"\x7fELF"):
        if octets is not None:
            with open(f"{folder}/{make_extension.NAME}", "wb") as file:
                file.write(octets)
        elif os.path.exists(beside):  # the package's own is used then
            continue
        told = core_by(f"{folder}/liblapin.so", LAPIN_CORE="")
        assert told.stdout.strip().endswith(" ctypes"), told.stdout
        told = core_by(f"{folder}/liblapin.so", LAPIN_CORE="extension")
        assert told.returncode != 0 and "ImportError" in told.stdout, told.stdout
    module = _library._extension
    if module is not None:
        addresses = [at + 1 for at in range(len(module.NAMES))]
        fails(ImportError, lambda: module.bind(*addresses))
        fails(TypeError, lambda: module.bind(1))
        fails(AttributeError, module.Handle().send)  # nobody's: it has no thread


@test
def the_other_core_passes_what_a_core_could_get_wrong():
    if make_extension.why_not() or os.environ.get("LAPIN_CHECKS_OTHER"):
        return
    env = {**os.environ, "LAPIN_CORE": OTHER, "LAPIN_CHECKS_OTHER": "1"}
    done = subprocess.run([sys.executable, f"{ADAPTERS}/check.py", *AGAIN], env=env, stdout=subprocess.PIPE, stderr=subprocess.STDOUT, text=True,
        timeout=900)
    passed = [line.split(" ")[1] for line in done.stdout.split("\n") if line.startswith("passed ")]
    assert done.returncode == 0 and len(passed) >= len(AGAIN), done.stdout[-3000:]
    assert not [word for word in AGAIN if not any(word in name for name in passed)], passed


# A shared object in front of the library's, of which one call answers as it is told.
REFUSING = r"""
#include <dlfcn.h>
#include <stdbool.h>
#include <string.h>
#include "%(header)s"
static const char *refused = "";
static uint32_t answer;
void lapin_refuse(const char *name, uint32_t status) { refused = name, answer = status; }
#define OF(name, given, passed) \
    uint32_t lapin_##name given { \
        static uint32_t (*real) given; \
        void *found = dlsym(dlopen("%(library)s", RTLD_NOW), "lapin_" #name); \
        memcpy(&real, &found, sizeof found); \
        return strcmp(refused, #name) == 0 ? answer : real passed; \
    }
OF(call, (lapin_handle *h, uint16_t c, const void *m, size_t l, uint64_t *t), (h, c, m, l, t))
OF(reply, (lapin_handle *h, uint64_t t, lapin_fields *f), (h, t, f))
OF(publish, (lapin_handle *h, uint16_t c, const char *e, size_t el, const char *k, size_t kl, bool m, bool i, const void *b, size_t bl, const void *p,
             size_t pl, uint64_t *n), (h, c, e, el, k, kl, m, i, b, bl, p, pl, n))
OF(outcome, (lapin_handle *h, uint64_t n), (h, n))
OF(delivery, (lapin_handle *h, uint64_t n, lapin_message *m), (h, n, m))
OF(ack, (lapin_handle *h, uint64_t n, bool m), (h, n, m))
OF(nack, (lapin_handle *h, uint64_t n, bool m, bool r), (h, n, m, r))
OF(reject, (lapin_handle *h, uint64_t n, bool r), (h, n, r))
OF(send, (lapin_handle *h, bool f, size_t e), (h, f, e))
OF(receive, (lapin_handle *h, const void *b, size_t l), (h, b, l))
"""
# What each call of a session says of each status, and of values that aren't of its types.
ASKED = r"""
import sys
from lapin import _library
sys.path.insert(0, sys.argv[1])
from checks import cores
library = _library._library
library.lapin_refuse.argtypes = [_library.ctypes.c_char_p, _library.ctypes.c_uint32]
kept = []
for name, call in cores.calls().items():
    for status in range(1, 12):
        session = cores.opened()
        cores.answer(lambda: session.call(9, cores.GET))  # refused, so that there are words for what is refused
        kept.append(name.encode())
        library.lapin_refuse(kept[-1], status)
        print(name, status, cores.answer(lambda: call(session)))
        library.lapin_refuse(b"", 0)
for name, call in cores.mistakes().items():
    session = cores.opened()
    print(name, cores.answer(lambda: call(session)), cores.answer(lambda: session.send()))
print(*cores.told())
"""
OPEN = b"\x00\x14\x00\x0a\x00"
CONSUME = b"\x00\x3c\x00\x14\x00\x00\x01q\x01t\x00\x00\x00\x00\x00"
GET = b"\x00\x3c\x00\x46\x00\x00\x01q\x00"
DECLARE = b"\x00\x32\x00\x0a\x00\x00\x01q\x00\x00\x00\x00\x00"


def opened():
    """A session with channel 1, confirms on it, and consumer "t"."""
    session = _library.Session(131072)
    for call, answer in ((OPEN, scripted.method(1, 20, 11, scripted.long_text(b""))), (b"\x00\x55\x00\x0a\x00", scripted.method(1, 85, 11)),
                         (CONSUME, scripted.method(1, 60, 21, scripted.short_text("t")))):
        session.consumer = session.call(1, call)
        session.send()
        session.receive(answer)
        reply = session.reply(session.consumer)
    session.consumer = reply.number
    return session


def answer(call):
    """What a call gives or raises."""
    try:
        return repr(call())
    except (TypeError, AttributeError, ctypes.ArgumentError) as error:  # (who made the mistake is told by the name of its argument above)
        return "AttributeError" if isinstance(error, AttributeError) else "TypeError"
    except Exception as error:
        return f"{type(error).__name__} {error}"


def publish(session, body=b"body", to="", key="q", listed=b"\0\0", mandatory=False):
    confirm = _library.Numbered()
    session.publish_as(confirm, 1, to, key, body, listed, mandatory)
    return confirm._number


def calls():
    """Each call of the shared object that a session makes, by its name."""
    return {"call": lambda it: it.call(1, GET), "reply": lambda it: it.reply(1), "publish": publish, "delivery": lambda it: it.delivery(it.consumer),
            "ack": lambda it: it.settle("ack", 1, False), "nack": lambda it: it.settle("nack", 1, False, True),
            "reject": lambda it: it.settle("reject", 1, True),
            "send": lambda it: it.send(), "receive": lambda it: it.receive(b""), "outcome": lambda it: it.outcome(1)}


def mistakes():
    """Uses that are refused, by what is wrong."""
    return {"text as body": lambda it: publish(it, "a text"), "text as list": lambda it: publish(it, listed="x"), "no key": lambda it: publish(it,
        key=None),
            "number as key": lambda it: publish(it, key=5), "long key": lambda it: publish(it, key="k" * 256),
            "half a letter": lambda it: publish(it, key="\ud800"),
            "no list": lambda it: publish(it, listed=b""), "long list": lambda it: publish(it, listed=bytes(1 << 18)),
            "no method": lambda it: it.call(1, b"no"),
            "text as method": lambda it: it.call(1, "no"), "text as octets": lambda it: it.receive("x"), "no frame": lambda it: it.receive(b"x" * 20),
            "no such ticket": lambda it: it.reply(99),
            "no such consumer": lambda it: it.delivery(99), "no such acker": lambda it: it.settle("ack", 99, False),
            "no such call": lambda it: it.settle("eat", 1, False),
            "no mark": lambda it: it.settle("ack", 1), "closed": lambda it: (it.close(), it.close(), it.send()),
            "closed publish": lambda it: (it.close(), publish(it)),
            "too many": lambda it: it.receive(b"", b""), "no frame end": lambda it: it.receive(b"\x01\0\1\0\0\0\4abcdx"),
            "no such publish": lambda it: it.outcome(99)}


def told():
    """What a session tells of messages of each size, of a reply and of outcomes."""
    session, found = opened(), []
    for size in (0, 1, 100, 4000, 4096, 5000, 100_000, (1 << 18) - 10, 1 << 18, 1 << 19):
        for at, (name, listed) in enumerate((("", b"\x00\x00"), ("k" * 255, b"\x10\x00\x02"))):
            session.receive(scripted.deliver(1, "t", size + at, bytes(range(256)) * (size // 256) + b"x" * (size % 256), key=name, properties=listed))
            parts = session.delivery(session.consumer)
            found.append((parts[0], parts[2:6], hash(parts[6]) if sys.flags.hash_randomization == 0 else len(parts[6]), sum(parts[6])))
            assert session.settle("ack", parts[1], False) and not session.settle("ack", parts[1], False)
    ticket = session.call(1, DECLARE)
    session.send()
    found.append(session.reply(ticket))
    session.receive(scripted.method(1, 50, 11, scripted.short_text("ż") + b"\0\0\0\7\0\0\0\2"))
    found.append(tuple(session.reply(ticket)))
    numbers = [publish(session, key=key, to=to) for key, to in (("a", b""), (b"b", "ż"), ("c", ""))]
    session.send()
    session.receive(scripted.ack(1, 1) + scripted.method(1, 60, 120, b"\0\0\0\0\0\0\0\2\0"))
    found.append([session.outcome(it) for it in numbers] + [session.last - numbers[-1], session.last_confirm - session.last])
    return found


@test
def either_core_answers_alike():
    source, shared = f"{BIN}/refusing.c", f"{BIN}/refusing/refusing.so"
    if make_extension.why_not():
        return
    os.mkdir(f"{BIN}/refusing")
    with open(source, "w", encoding="utf-8") as file:
        file.write(REFUSING % {"header": f"{ADAPTERS}/c/lapin.h", "library": os.environ["LAPIN_LIBRARY"]})
    subprocess.run([os.environ.get("CC", "cc"), "-shared", "-fPIC", "-o", shared, source, "-Wl,--no-as-needed", f"-L{BIN}", "-llapin",
        f"-Wl,-rpath,{BIN}", "-ldl"], check=True)
    shutil.copy(f"{BIN}/{make_extension.NAME}", f"{BIN}/refusing")
    said = {}
    for core in ("ctypes", "extension"):
        env = {**os.environ, "LAPIN_CORE": core, "LAPIN_LIBRARY": shared}
        done = subprocess.run([sys.executable, "-uXfaulthandler", "-c", ASKED, ADAPTERS], env=env, stdout=subprocess.PIPE, stderr=subprocess.STDOUT,
            text=True, timeout=120)
        assert done.returncode == 0, done.stdout[-2000:]
        said[core] = done.stdout.split("\n")
    wrong = [pair for pair in zip(said["ctypes"], said["extension"]) if pair[0] != pair[1]]
    assert not wrong and len(said["ctypes"]) == len(said["extension"]) > 130, wrong[:8]
    lines = "\n".join(said["extension"])
    assert "receive 3 MemoryError" in lines and "receive 10 MemoryError" in lines and "publish 7 Refused the connection is closed" in lines


def refused_memory(make, use, check, most=400):
    """Uses what is made with each request for memory of Python refused in turn, until none is: how many were."""
    for at in range(most):
        made = make()
        found = None
        _testcapi.set_nomemory(at, at + 1)
        try:
            found = use(made)
        except (MemoryError, ctypes.ArgumentError):  # (ctypes says so of an argument)
            _testcapi.remove_mem_hooks()
            check(made, None)
            continue
        finally:
            _testcapi.remove_mem_hooks()
        check(made, found)
        return at
    raise AssertionError("it never had memory enough")


def so(fact, words):
    assert fact, words


@test
def memory_at_any_place_is_an_error_and_loses_nothing():
    if _testcapi is None or CORE == "ctypes":  # (whose calls are Python's: CPython of some versions crashes itself where one has no memory)
        return

    def published(made, found):
        session, confirm = made
        left = session.send()
        assert (confirm._number != 0) == (left != b"") == (session.last_confirm == session.last != 0), (confirm._number, left, session.last)
        assert found == "well" or confirm._number == 0, "an error, and a publish was made"

    def publishing():
        return opened(), _library.Numbered()
    refused_memory(publishing, lambda it: it[0].publish_as(it[1], 1, "e" * 20, "k" * 20, b"x" * 100, b"\0\0", False) or "well", published)

    def delivered(size):
        session = opened()
        session.receive(scripted.deliver(1, "t", 1, bytes(size)))
        return session

    def taken(session, parts):
        so(parts is not None or session.is_astray or session.delivery(session.consumer), "the message is gone, and nobody was told")
    for size in (100, 50_000, 300_000):
        assert refused_memory(lambda size=size: delivered(size), lambda it: it.delivery(it.consumer), taken) >= 2
    refused_memory(opened, lambda it: it.call(1, GET), lambda session, ticket: so(ticket or session.is_astray or not session.send(), "a call left"))

    def declared():
        session = opened()
        session.ticket = session.call(1, DECLARE)
        session.send()
        session.receive(scripted.method(1, 50, 11, scripted.short_text("q") + b"\0\0\0\7\0\0\0\2"))
        return session
    refused_memory(declared, lambda it: it.reply(it.ticket), lambda session, reply: so(reply or session.is_astray or session.reply(session.ticket),
        "a reply is gone"))

    def leaving():
        session = opened()
        publish(session)
        return session
    refused_memory(leaving, lambda it: it.send(), lambda session, octets: so(octets or session.send(), "octets are gone"))
    unknown = scripted.method(1, 60, 80, b"\0\0\0\0\0\0\0\1\0")  # a settlement of nothing is refused, by words
    refused_memory(opened, lambda it: it.receive(unknown), lambda session, words: so(words or session.refusal() or session.receive(unknown),
        "a refusal is gone"))


@test
def nothing_grows_by_calls_that_are_well_or_refused():
    session = opened()
    uses = {**{name: lambda call=call: answer(lambda: call(session)) for name, call in calls().items() if name != "call"},
            **{name: lambda call=call: answer(lambda: call(session)) for name,
            call in mistakes().items() if "frame" not in name and "closed" not in name}}

    def rounds():
        session.receive(scripted.deliver(1, "t", 1, bytes(5000)))
        parts = session.delivery(session.consumer)
        session.settle("reject", parts[1], True)
        number = publish(session)
        session.send()
        session.receive(scripted.ack(1, number and rounds.tag))
        assert session.outcome(number) == 1
        rounds.tag += 1
        ticket = session.call(1, DECLARE)
        session.send()
        session.receive(scripted.method(1, 50, 11, scripted.short_text("q") + b"\0\0\0\7\0\0\0\2"))
        assert session.reply(ticket).text == "q"
        made = opened()
        made.close()
    rounds.tag = 1
    uses["rounds"] = rounds
    rounds()
    for name, use in uses.items():
        if name == "publish":  # (what nobody asks for is held by the session)
            continue
        for _ in range(50):
            use()
        gc.collect()
        before = sys.getallocatedblocks(), getattr(sys, "gettotalrefcount", int)()
        for _ in range(300):
            use()
        gc.collect()
        grown = sys.getallocatedblocks() - before[0], getattr(sys, "gettotalrefcount", int)() - before[1]
        assert grown[0] < 200 and grown[1] < 200, f"{name}: {grown[0]} blocks, {grown[1]} references"


