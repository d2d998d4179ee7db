"""The socket: octets out and in, the opening of a connection, and heartbeats. What is said and when stands in the library.

What the session gave away is kept until the kernel took it. No call here waits but `Wire.wait` and the opening, each until its time is up.
"""
from __future__ import annotations

import select
import socket
import ssl
import time
from collections import deque
from typing import Deque, Optional, Tuple, Union

from ._library import DONE, NO_MEMORY, PENDING, REFUSED, Clock, Opening
from ._opened import Agreed
from ._sockets import addresses_of, configured, dialled
from ._urls import MECHANISMS, Target
from .errors import ConnectionLost, OpeningFailed

HEADER = b"AMQP\x00\x00\x09\x01"
HEARTBEAT = b"\x08\x00\x00\x00\x00\x00\x00\xce"
CAUSES = {540: "another version of the protocol", 530: "its frames are too small", 503: "an unexpected method", 501: "what came is no frame"}
#: The socket has nothing to read, or no room to write.
NOT_NOW = (BlockingIOError, ssl.SSLWantReadError, ssl.SSLWantWriteError)
SILENT = "the broker was silent for two heartbeats"


def now() -> int:
    """Milliseconds of a clock that only goes on."""
    return time.monotonic_ns() // 1_000_000


class Greeter:
    """An opening that is fed: `outgoing` is to be sent, and what came behind the opening stays in `data`."""

    def __init__(self, target: Target):
        self.opening = Opening(target.user, target.password, target.vhost, target.frame_max, target.channel_max, target.heartbeat, target.mechanism,
                               target.pairs)
        self.outgoing, self.data, self.server_properties = HEADER, b"", b""
        self._check(self.opening.shake(b"")[0])  # what can't be told is refused before anything is sent

    def _check(self, status: int) -> None:
        if status == NO_MEMORY:
            raise MemoryError
        if status not in (DONE, PENDING):
            raise OpeningFailed("the user, the password, the virtual host or client_properties is too long, or client_properties is no table")

    def _cause(self, code: int) -> str:
        """What a code of the library says."""
        if code == 403:
            word = MECHANISMS[self.opening.mechanism]
            return f"{word} isn't one of its mechanisms" if word != "PLAIN" else "neither PLAIN nor AMQPLAIN is one of its mechanisms"
        return CAUSES.get(code, "closed")

    def feed(self, data: bytes) -> bool:
        """Takes bytes of the broker. Whether the connection is open."""
        self.data += data
        if self.data[:4] == b"AMQP":
            raise OpeningFailed("the broker speaks another version")
        while self.data and not self.opening.is_open:
            was_first = self.opening.stage == 0
            status, reply, code = self.opening.shake(self.data)
            self.outgoing += reply
            if status == PENDING:
                return False
            if status == REFUSED:
                text = f": {self.data[14:14 + self.data[13]].decode(errors='replace')}" if self.data[7:11] == b"\x00\x0a\x00\x32" else ""
                raise OpeningFailed(f"refused {code}{text or ': ' + self._cause(code)}")
            self._check(status)
            if was_first:
                self.server_properties = self.server_properties or self.opening.server_properties(self.data)
            self.data = self.data[int.from_bytes(self.data[3:7], "big") + 8:]
        return self.opening.is_open

    @property
    def agreed(self) -> Agreed:
        """What both sides agreed on."""
        return Agreed(*self.opening.limits, MECHANISMS[self.opening.mechanism], self.server_properties)

    def gone(self) -> OpeningFailed:
        told = "this caller isn't known to it" if MECHANISMS[self.opening.mechanism] == "EXTERNAL" else "a wrong user or password"
        words = ("nothing answered", told, "a wrong virtual host")[min(self.opening.stage, 2)]
        return OpeningFailed(f"the broker hung up: {words}")


class _Opener:
    """A socket that is opened within a time."""

    def __init__(self, target: Target, timeout: Optional[float]):
        self.target, self.until = target, None if timeout is None else time.monotonic() + timeout

    def left(self) -> Optional[float]:
        """The time that is left; an error where there is none."""
        if self.until is None:
            return None
        left = self.until - time.monotonic()
        if left <= 0:
            raise OpeningFailed("the opening took too long")
        return left

    def connected(self) -> Union[socket.socket, ssl.SSLSocket]:
        failed: Optional[OSError] = None
        target = self.target
        if target.dial is not None:
            sock = dialled(target.dial(target.host, target.port))
            try:
                return self.prepared(sock)
            except BaseException:
                sock.close()
                raise
        for family, kind, protocol, _, address in socket.getaddrinfo(target.host, target.port, type=socket.SOCK_STREAM):
            sock = socket.socket(family, kind, protocol)
            try:
                sock.settimeout(min((it for it in (self.left(), target.socket_timeout) if it is not None), default=None))
                sock.connect(address)
                return self.prepared(sock)
            except OSError as error:
                sock.close()
                failed = error
            except BaseException:
                sock.close()
                raise
        raise failed or OSError("its host has no address")

    def prepared(self, sock: socket.socket) -> Union[socket.socket, ssl.SSLSocket]:
        """A socket that is connected, as it is used."""
        configured(sock, self.target)
        sock.setblocking(False)
        return sock if self.target.tls is None else self.secured(sock, self.target.tls)

    def secured(self, sock: socket.socket, context: ssl.SSLContext) -> ssl.SSLSocket:
        secure = context.wrap_socket(sock, server_hostname=self.target.server_name or self.target.host, do_handshake_on_connect=False)
        try:
            while True:
                try:
                    secure.do_handshake()
                    return secure
                except ssl.SSLWantReadError:
                    self.wait(secure, select.POLLIN)
                except ssl.SSLWantWriteError:
                    self.wait(secure, select.POLLOUT)
        except BaseException:
            secure.close()
            raise

    def wait(self, sock: socket.socket, events: int) -> None:
        ready, left = select.poll(), self.left()
        ready.register(sock, events)
        ready.poll(None if left is None else left * 1000)
        self.left()

    def greet(self, sock: socket.socket) -> Greeter:
        """The opening's frames, until the connection is open."""
        greeter, is_open = Greeter(self.target), False
        while not is_open:
            self.send(sock, greeter)
            try:
                data = sock.recv(65536)
            except NOT_NOW:
                self.wait(sock, select.POLLIN)
                continue
            if not data:
                raise greeter.gone()
            try:
                is_open = greeter.feed(data)
            except OpeningFailed:  # what is answered to a close
                self.send(sock, greeter)
                raise
            self.left()
        return greeter

    def send(self, sock: socket.socket, greeter: Greeter) -> None:
        while greeter.outgoing:
            try:
                greeter.outgoing = greeter.outgoing[sock.send(greeter.outgoing):]
            except NOT_NOW:
                self.wait(sock, select.POLLOUT | select.POLLIN)


class Wire:
    """A socket of a connection that is open."""

    def __init__(self, target: Target, timeout: Optional[float]):
        opener = _Opener(target, timeout)
        try:
            self.socket: Union[socket.socket, ssl.SSLSocket] = opener.connected()
        except OSError as error:
            raise OpeningFailed(f"no connection: {error}") from error
        try:
            greeter = opener.greet(self.socket)
        except OSError as error:
            self.socket.close()
            raise OpeningFailed(f"the opening broke off: {error}") from error
        except BaseException:
            self.socket.close()
            raise
        self.agreed, self.addresses = greeter.agreed, addresses_of(self.socket)
        # The clock is told when octets were sent and heard last as it is asked; before `_quiet` nothing is due.
        self._clock, self._came = Clock(now(), self.agreed.heartbeat), greeter.data
        self._sent = self._heard = self._quiet = time.monotonic()
        self._queue: Deque[memoryview] = deque()
        #: How many octets wait for the kernel, and whether a heartbeat is to be sent.
        self.size, self.is_due = 0, False
        self._poll: Optional[Tuple[select.poll, int]] = None
        #: A descriptor by which another thread calls the one that waits, and whether it did.
        self.bell: Optional[int] = None
        self.is_called = False

    def send(self, data: bytes) -> None:
        """Hands octets to the kernel, behind those that wait; what it doesn't take now waits."""
        count = 0
        if not self._queue:
            try:
                count = self.socket.send(data)
                self._sent = time.monotonic()
            except NOT_NOW:
                pass
            except OSError as error:
                raise ConnectionLost(str(error)) from error
        if count < len(data):
            self._queue.append(memoryview(data)[count:])
            self.size += len(data) - count

    def push(self) -> None:
        """Hands to the kernel what it takes now of the octets that wait."""
        queue = self._queue
        while queue:
            head = queue[0]
            try:
                count = self.socket.send(head)
            except NOT_NOW:
                return
            except OSError as error:
                raise ConnectionLost(str(error)) from error
            if count == len(head):
                queue.popleft()
            else:
                queue[0] = head[count:]
            self.size -= count
            self._sent = time.monotonic()

    def beat(self) -> None:
        """Sends the heartbeat that is due."""
        self.is_due = False
        self.send(HEARTBEAT)

    def pull(self) -> bytes:
        """What came; b'' where nothing did."""
        if self._came:
            data, self._came = self._came, b""
            return data
        try:
            data = self.socket.recv(1 << 16)
        except NOT_NOW:
            return b""
        except OSError as error:
            raise ConnectionLost(str(error)) from error
        if not data:
            raise ConnectionLost("the broker hung up")
        self._heard = time.monotonic()
        return data

    def wait(self, until: Optional[float]) -> Optional[bool]:
        """Waits until there is something to push or to pull, once at least looks for it, and tells whether there is something to pull. None where
        the time is up. It ends early where a heartbeat is due."""
        if self._came or isinstance(self.socket, ssl.SSLSocket) and self.socket.pending():
            return True
        moment = time.monotonic()
        pause = None if until is None else max(until - moment, 0.0)
        if moment >= self._quiet:
            rest = self._beat(moment)
            pause = rest if pause is None or rest < pause else pause
        elif pause is None or self._quiet - moment < pause:
            pause = self._quiet - moment
        found = self._polled(pause)
        if found:
            return found & ~select.POLLOUT != 0
        return None if until is not None and time.monotonic() >= until else False

    def _beat(self, moment: float) -> float:
        """What is due now: how long nothing is then."""
        clock = self._clock
        clock.sent(int(self._sent * 1000))
        clock.heard(int(self._heard * 1000))
        due, rest = clock.due(int(moment * 1000))
        if due == "silent" and not self._polled(0):
            raise ConnectionLost(SILENT)
        self.is_due = due == "send" and not self._queue
        if due != "wait":  # what waits is a sign of life too, once the kernel takes it
            rest = 3600.0 if due == "never" else 1.0 if self._queue else 0.0
        self._quiet = moment + (rest or 0.0)
        return rest or 0.0

    def _polled(self, pause: float) -> int:
        """What the socket is ready for within the time."""
        mask = select.POLLIN | select.POLLOUT if self._queue else select.POLLIN
        held, self._poll = self._poll, None  # (a signal's handler may wait too)
        if held is None:
            held = select.poll(), 0
            if self.bell is not None:
                held[0].register(self.bell, select.POLLIN)
        poll, known = held
        if known != mask:
            poll.register(self.socket, mask)
        found = poll.poll(pause * 1000 + (pause > 0))
        self._poll = poll, mask
        ready = 0
        for descriptor, events in found:
            if descriptor == self.bell:
                self.is_called = True
            else:
                ready = events
        return ready

    def close(self) -> None:
        self._queue.clear()
        self.size = 0
        self.socket.close()
