"""What the tests share: their list, a script's beginning, and programs that are compiled and run."""
import contextlib
import os
import signal
import subprocess
import tempfile

ADAPTERS = os.path.dirname(os.path.dirname(os.path.abspath(__file__)))
BIN = tempfile.mkdtemp(prefix="lapin-check-")
TESTS = []


def test(function):
    """A test: it is well where it raises nothing."""
    TESTS.append(function)
    return function


def rabbit(function):
    """A test against a RabbitMQ, by its address."""
    function.needs_rabbitmq = True
    return test(function)


def waiting(why):
    """A test that can't pass before something else is there: it is told, and counted apart."""
    def marked(function):
        function.waits_for = why
        return test(function)
    return marked


class Alarm(Exception):
    """What an interrupted call is ended by, as by Ctrl-C or a timeout of a framework."""


def alarmed(*_):
    raise Alarm


@contextlib.contextmanager
def alarm(seconds):
    """Raises Alarm in what stands in it, once so much time has passed; it goes no further."""
    before = signal.signal(signal.SIGALRM, alarmed)
    try:
        try:
            signal.setitimer(signal.ITIMER_REAL, seconds)
            yield
        finally:
            signal.setitimer(signal.ITIMER_REAL, 0)
    except Alarm:
        pass
    finally:
        signal.signal(signal.SIGALRM, before)


@contextlib.contextmanager
def within(seconds):
    """Fails where what stands in it takes longer."""
    def late(*_):
        raise AssertionError(f"it took more than {seconds} seconds")
    before = signal.signal(signal.SIGALRM, late)
    try:
        signal.setitimer(signal.ITIMER_REAL, seconds)
        yield
    finally:
        signal.setitimer(signal.ITIMER_REAL, 0)
        signal.signal(signal.SIGALRM, before)


def fails(kind, call, **wanted):
    """The error that the call raises, which is of this kind."""
    try:
        call()
    except kind as error:
        for name, value in wanted.items():
            assert getattr(error, name) == value, f"{name} is {getattr(error, name)!r}, not {value!r}"
        return error
    raise AssertionError(f"no {getattr(kind, '__name__', kind)}")


def confirms(peer, **limits):
    """A script's beginning: an opening and channel 1 with confirms."""
    peer.open(**limits)
    peer.channel(1, confirms=True)


def compiled(name, source, *more):
    words = [os.environ.get("CC", "cc"), "-O2", "-Wall", "-Wextra", "-Werror", "-Wno-unused-function", "-Wno-unused-variable", "-Wno-unused-parameter",
             "-o", f"{BIN}/{name}", source, f"-L{BIN}", "-llapin", f"-Wl,-rpath,{BIN}", *more]
    subprocess.run(words, check=True)
    return f"{BIN}/{name}"


def said(*words, timeout=120):
    """What a program prints, which ends well."""
    done = subprocess.run([str(it) for it in words], stdout=subprocess.PIPE, stderr=subprocess.STDOUT, text=True, timeout=timeout)
    assert done.returncode == 0, f"status {done.returncode}: {done.stdout[-500:]}"
    return done.stdout


def address(url):
    host, _, port = url.split("@")[1].rstrip("/").partition(":")
    return host, port


def beside(words, *others):
    """What two programs print, of which the second begins once the first is ready."""
    first = subprocess.Popen([str(it) for it in words], stdout=subprocess.PIPE, stderr=subprocess.STDOUT, text=True)
    try:
        ready = first.stdout.readline()
        told = "".join(said(*other) for other in others)
        rest, _ = first.communicate(timeout=120)
        assert first.returncode == 0, rest
        return ready + rest + told
    finally:
        if first.poll() is None:
            first.kill()
            first.wait()
