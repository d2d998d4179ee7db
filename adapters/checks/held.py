"""What is held: nothing grows with what a program forgets, nor with octets that nobody asked for."""
import ctypes
import gc
import struct
import time

import lapin
import scripted
from checks.common import confirms, fails, test, within
from lapin import _library
from scripted import Broker, HungUp


class Held(ctypes.Structure):
    _fields_ = [(name, ctypes.c_size_t) for name in "arena ordblks smblks hblks hblkhd usmblks fsmblks uordblks fordblks keepcost".split()]


LIBC = ctypes.CDLL("libc.so.6")
LIBC.mallinfo2.restype = Held


def held():
    """The octets that the process has from malloc and hasn't given back; Python's objects of up to 512 octets are not among them."""
    gc.collect()
    found = LIBC.mallinfo2()
    return found.uordblks + found.hblkhd


@test
def outcomes_that_nobody_asks_for_are_let_go():
    got = []

    def script(peer):
        confirms(peer, frame_max=131072)
        peer.acks(1, got, each=50)
    with within(60), Broker(script) as url, lapin.connect(url, heartbeat=0) as connection:
        channel, marks = connection.channel(confirms=True), []
        for turn in range(30):
            given = [channel.publish("", "q", b"x" * 20, mandatory=turn % 2 == 1) for _ in range(500)]
            for confirm in given[:250]:
                confirm.forget()
            assert given[-1].wait(20)
            marks.append(held())
        assert marks[-1] - marks[14] < 300_000, [mark - marks[0] for mark in marks]
        assert len(channel._confirms.open) < 5000 and len(channel._confirms.forgotten) < 5000 and not channel._confirms._alike


@test
def what_is_opened_and_closed_is_let_go():
    rounds = 30

    def script(peer):
        peer.open()
        for turn in range(rounds):
            peer.channel(1)
            peer.consume(1, "t")
            peer.expect(1, 60, 30)
            peer.send(scripted.method(1, 60, 31, scripted.short_text("t")))
            peer.get(1)
            peer.declare(1, "q")
            peer.expect(1, 20, 40)
            peer.send(scripted.method(1, 20, 41))
        peer.close()
    with within(60), Broker(script) as url, lapin.connect(url, heartbeat=0) as connection:
        marks = []
        for _ in range(rounds):
            with connection.channel() as channel:
                channel.consume("q", print).cancel()
                assert channel.get("q") is None and channel.queue_declare("q")
            marks.append(held())
        assert marks[-1] - marks[9] < 50_000 and not connection._consumers and not connection._left and not connection._ending, marks


class Refusing:
    """The sessions, of which these calls have such a status (`checks.cores` has each status of each call of the shared object)."""

    def __init__(self, **answers):
        self.answers, self.real = answers, {}

    def __enter__(self):
        for name, status in self.answers.items():
            self.real[name] = getattr(_library.Session, name)
            setattr(_library.Session, name, lambda session, *_, status=status: session.check(status))

    def __exit__(self, *_):
        for name, call in self.real.items():
            setattr(_library.Session, name, call)


@test
def want_of_memory_is_told():
    def script(peer):
        confirms(peer)
        peer.expect_publish(1)
        time.sleep(0.2)
        try:
            peer.send(scripted.ack(1, 1))
            peer.frame()
        except (HungUp, ConnectionError):
            pass
    for answers in ({"receive": _library.NO_MEMORY}, {"receive": _library.KEPT}, {"receive": _library.NO_MEMORY, "lost": _library.ENDED}):
        with within(20), Broker(script) as url, lapin.connect(url) as connection:
            given = [connection.channel(confirms=True).publish("", "q", b"x")]
            connection.flush()
            with Refusing(**answers):
                fails(lapin.Error, lambda: given[0].wait(5))
                fails(lapin.ConnectionLost, connection.turn)
            fails(lapin.CallFailed, given[0].poll)


def opened():
    session = _library.Session(131072)
    for call, answer in ((b"\x00\x14\x00\x0a\x00", scripted.method(1, 20, 11, scripted.long_text(b""))),
                         (b"\x00\x3c\x00\x14\x00\x00\x01q\x01t\x02\x00\x00\x00\x00", scripted.method(1, 60, 21, scripted.short_text("t")))):
        session.call(1, call)
        session.send()
        session.receive(answer)
    return session


def hostile():
    """Octets that a broker may send and nobody asked for, by name."""
    deliver = scripted.method(1, 60, 60, scripted.short_text("t") + struct.pack(">QB", 1, 0) + scripted.short_text("") + scripted.short_text("q"))

    def header(table):
        return deliver + scripted.frame(2, 1, struct.pack(">HHQH", 60, 0, 0, 0x2000) + scripted.long_text(table))
    keys = b"".join(scripted.short_text(b"%04x" % at) + b"V" for at in range(20_000))
    yield "keys", header(keys)
    yield "array", header(scripted.short_text("k") + b"A" + scripted.long_text(b"V" * 130_000))
    yield "arrays", header(scripted.short_text("k") + b"A" + scripted.long_text(b"A\x00\x00\x00\x00" * 26_000))
    yield "returns", (scripted.returned(1, "k", b"")) * 5000
    yield "flows", (scripted.method(1, 20, 20, b"\x00") + scripted.method(1, 20, 20, b"\x01")) * 10_000
    yield "cancels", scripted.method(1, 60, 30, scripted.short_text("nobody") + b"\x00") * 10_000
    yield "heartbeats", scripted.frame(8, 0, b"") * 20_000
    yield "blocked", (scripted.method(0, 10, 60, scripted.short_text("low")) + scripted.method(0, 10, 61)) * 10_000
    yield "bodies", deliver + scripted.frame(2, 1, struct.pack(">HHQH", 60, 0, 10**6, 0)) + scripted.frame(3, 1, b"x") * 50_000


@test
def hostile_octets_cost_in_proportion():
    for name, octets in hostile():
        session, before, start = opened(), held(), time.process_time()
        for at in range(0, len(octets), 65536):
            piece = octets[at:at + 65536]
            while session.receive(piece) is not None:
                piece = b""
        spent, kept = (time.process_time() - start) / len(octets) * 1e9, (held() - before) / len(octets)
        assert spent < 2000 and kept < 100, f"{name}: {spent:.0f} ns and {kept:.1f} octets held an octet"
        session.close()
        assert held() - before < 100_000, f"{name}: {held() - before} octets stay behind a close"
