"""What a connection of many threads stands on: one lock, those who wait, and the thread that has the socket.

Each call is one step: it holds the lock, and waits for nothing meanwhile. Octets move, and what the session gives once is taken, in the thread of
the socket alone. So an exception that falls in a thread of the user's finds nothing on its way; of a publish that it ended the next step finds out
whether it was made. Who waits has a bell of its own, and holds no lock. In a process that was forked nothing here is touched.
"""
from __future__ import annotations

import contextlib
import os
import socket
import threading
import time
from collections import deque
from functools import partial
from typing import Any, Callable, Deque, Dict, List, Optional, Set, Tuple, TypeVar

from ._callbacks import Callbacks
from ._confirms import ConfirmCore
from ._core import Core
from ._library import _here
from ._waiting import Bell, Bells, Fed, Request, _write, heard, new_bell, ring
from ._wire import Wire
from .errors import ConnectionLost, Refused, Timeout

T = TypeVar("T")
INSIDE = "a connection isn't used within its own call, as by a signal handler"
OWN = "the thread of a connection's socket can't wait for it"
#: So many octets become bytes in one piece.
PIECE = 1 << 17


class Shared(Core):
    """A session of many threads: the steps that they take, and what the thread of the socket does."""
    _confirms_at_once = True
    _consumers: Dict[int, Fed]  # type: ignore[assignment]

    def _share(self, wire: Wire, callbacks: Callbacks, most: int, patience: float) -> None:
        """Begins the thread of the socket."""
        self._wire, self._callbacks, self._most, self._patience = wire, callbacks, most, patience
        self._session._thread, self._lock = 0, threading.RLock()
        # The confirm of the publish that is being made; and how many publishes' octets wait in the session since a method went behind them.
        self._made_now: Optional[ConfirmCore] = None
        self._unordered = 0
        # What threads ask for, what was begun of it and has no answer, and what nobody waits for any more.
        self._asked: Deque[Request[Any]] = deque()
        self._open_requests: List[Request[Any]] = []
        self._flushes: List[Request[Any]] = []
        self._given_up: Deque[Request[Any]] = deque()
        # Who waits for an outcome, for anything, for room, and for the end of a consumer or of all; and who is to be rung behind this step.
        self._listeners: Dict[ConfirmCore, List[Bell]] = {}
        self._turners, self._crowd, self._enders = deque(), deque(), deque()  # type: Bells, Bells, Bells
        self._rung: List[Bell] = []
        self._jobs: List[Tuple[Callable[..., Any], Tuple[Any, ...]]] = []
        # Consumers for which something was seen to come; how often something came; and what was drawn from the session, in octets and all told.
        self._stirred: Dict[Fed, None] = {}
        self._named: List[Tuple[int, bytes]] = []
        self._seen.named = self._named
        self._came, self._drawn_size, self._drawn_all, self._stops, self._stopped = 0, 0, 0, 0, 0
        self._drawn: List[bytes] = []
        # Whether the thread of the socket sleeps, steps within its step are its own, the end is wanted, a thread closes, all is over.
        self._is_asleep, self._nests, self._is_ending, self._is_closing, self._is_over, self._was_fed = False, False, False, False, False, False
        self._called, self._caller = os.pipe()
        os.set_blocking(self._called, False)
        os.set_blocking(self._caller, False)
        wire.bell = self._called
        self._mover = threading.Thread(target=self._work, name="lapin socket", daemon=True)
        try:
            self._mover.start()
        except BaseException:  # nobody gets the connection
            with contextlib.suppress(OSError):
                wire.socket.shutdown(socket.SHUT_RDWR)
            raise

    # ---- steps of any thread

    def _step(self, call: Callable[[], T]) -> T:
        """Does something under the lock."""
        session = self._session
        if session.is_forked:
            raise session.elsewhere()
        if session._thread and not self._make_way():
            return call()
        with self._lock:
            try:
                session._thread = _here()
                return call()
            finally:
                session._thread = 0

    def _make_way(self) -> bool:
        """Lets the thread go on that is within a step. (Who would sleep until the lock is free is given it before the interpreter's: each step of
        each thread would then wait for another one.) False where it is this thread's own step, which takes another one within it."""
        session, me = self._session, _here()
        for _ in range(1000):
            owner = session._thread
            if owner == me:
                if self._nests:
                    return False
                raise RuntimeError(INSIDE)
            if not owner:
                break
            time.sleep(0)
        return True

    def _wake(self) -> None:
        """Calls the thread of the socket, in a step: also where an exception falls behind this, it looks."""
        if self._is_asleep:
            _write(self._caller, b"\0", 1)
            self._is_asleep = False

    def _mend(self) -> None:
        """An exception ended a publish: whether it was made is the session's to say. It may be called again where an exception falls here."""
        confirm, session = self._made_now, self._session
        assert confirm is not None
        confirms, number = confirm._channel._confirms, session.last_confirm
        if confirm._number or number != session.last:
            confirm._number = number
            if confirms.is_on and confirms.open.get(confirms.tag) is not confirm:
                confirms.open[confirms.tag + 1] = confirm
                confirms.tag += 1
            session.last = number
        else:
            confirms._strike(confirm)
        self._unordered = self._unordered or 1
        self._made_now = None

    def _gone(self) -> ConnectionLost:
        return ConnectionLost(self._lost_error(), self._session.last_close(0))

    def _check(self) -> None:
        """Raises an error where the connection is gone; in a step."""
        if self._is_lost or self._is_closed or self._is_over:
            raise self._gone()

    def _wait_on(self, bells: Bells, ready: Callable[[], Optional[T]], until: Optional[float]) -> Optional[T]:
        """What is ready, which is asked in a step each time that one of these bells is rung. None where the time is up."""
        is_over = False
        self._outside()
        while True:
            bell = new_bell()
            try:
                found = self._step(lambda: self._ready_or_listed(bells, bell, ready, is_over))
                if found is not None or is_over:
                    return found
                is_over = not heard(bell, until)
                if is_over:
                    with self._lock:
                        if bell in bells:
                            bells.remove(bell)
            except BaseException:
                with self._lock:
                    if bell in bells:
                        bells.remove(bell)
                    elif bells:  # it may have been rung for what it doesn't take now
                        ring(bells[0])
                        bells.popleft()
                raise

    def _outside(self) -> None:
        """Raises an error where nobody may wait: in the thread of the socket, and in a process that was forked."""
        if self._session.is_forked:
            raise self._session.elsewhere()
        if _here() == self._mover.ident:
            raise RuntimeError(OWN)

    @staticmethod
    def _ready_or_listed(bells: Bells, bell: Bell, ready: Callable[[], Optional[T]], is_over: bool) -> Optional[T]:
        found = ready()
        if found is None and not is_over:
            bells.append(bell)
        return found

    def _requested(self, request: Request[T], until: Optional[float], late: str = "nothing came in time; the call goes on") -> T:
        """What came of a request, once it is done."""
        self._outside()
        try:
            self._step(lambda: self._hand_in(request))
            if not heard(request.bell, until) and not request.is_done:
                raise Timeout(late)
            if request.error is not None:
                raise request.error
            assert request.found is not None
            return request.found[0]
        except BaseException as error:
            if error is not request.error:
                self._given_up.append(request)
                self._step(self._wake)
            raise

    def _hand_in(self, request: Request[Any]) -> None:
        self._check()
        self._wake()
        self._asked.append(request)

    def _do(self, call: Callable[[], T], until: Optional[float]) -> T:
        """Has the thread of the socket call something."""
        return self._requested(Request(lambda: (call(),)), until)

    def _heard_of(self, confirm: ConfirmCore, until: Optional[float]) -> bool:
        """Waits until a publish has its outcome. False where the time is up."""
        self._outside()
        bell = new_bell()
        try:
            if self._step(lambda: self._listens(confirm, bell)):
                return True
            return heard(bell, until)
        finally:
            with self._lock:
                listed = self._listeners.get(confirm, [])
                if bell in listed:
                    listed.remove(bell)
                    if not listed:
                        del self._listeners[confirm]

    def _listens(self, confirm: ConfirmCore, bell: Bell) -> bool:
        """Whether a publish has its outcome; else the bell is rung once it has."""
        if confirm._found is not None or self._is_over:
            return True
        self._listeners.setdefault(confirm, []).append(bell)
        return False

    def _waits(self) -> int:
        """How many octets wait for the socket."""
        return self._waiting + self._drawn_size + self._wire.size

    # ---- the thread of the socket

    def _work(self) -> None:
        why, wire, is_ready = "", self._wire, True
        try:
            while self._turned(wire.pull() if is_ready else b""):
                is_ready = bool(wire.wait(None))
                if wire.is_called:
                    wire.is_called = False
                    os.read(self._called, 64)
        except (ConnectionLost, ValueError, OSError) as error:
            why = error.words if isinstance(error, ConnectionLost) else str(error)
        except MemoryError:
            why = "there was no memory"
        except BaseException as error:
            why = f"{type(error).__name__} {error}"
        finally:
            self._end(why)

    def _stepped(self, call: Callable[[], T]) -> T:
        """A step of this thread; who is to be rung behind it is rung, and what is to be called is called."""
        session = self._session
        if session._thread:
            self._make_way()
        with self._lock:
            try:
                session._thread = _here()
                if self._made_now is not None:
                    self._mend()
                value = call()
            finally:
                session._thread = 0
            rung, self._rung = self._rung, []
            jobs, self._jobs = self._jobs, []
        for bell in rung:
            ring(bell)
        for job, given in jobs:
            self._callbacks.put(job, given)
        return value

    def _turned(self, data: bytes) -> bool:
        """Takes what came, does what is asked for, and sends what may leave. Whether it goes on."""
        wire = self._wire
        if not self._stepped(lambda: self._turn_of(data)):
            return False
        drawn, self._drawn = self._drawn, []
        try:
            for octets in drawn:
                wire.send(octets)
            if wire.size:
                wire.push()
            if wire.is_due:
                wire.beat()
        except ConnectionLost:
            self._last_words()
            raise
        self._drawn_size = 0
        if self._crowd or self._flushes:
            self._stepped(self._have_left)
        return True

    def _turn_of(self, data: bytes) -> bool:
        if data:
            self._hear(data)
        while self._given_up:
            self._undone(self._given_up.popleft())
        while self._asked:
            request = self._asked.popleft()
            if not self._looked(request):
                (self._flushes if request.leaves else self._open_requests).append(request)
        if self._ending:
            self._nested(self._tidy)
        self._draw()
        self._is_asleep = not self._is_ending
        return self._is_asleep

    def _hear(self, data: bytes) -> None:
        """Takes what came; who waits for it is rung."""
        self._receive(data)
        self._came += 1
        if self._has_closed:
            self._all_that_ended()
        if self._open_requests:
            self._open_requests = [it for it in self._open_requests if not self._looked(it)]
        for number, tag in self._named:
            channel = self._channels.get(number)
            consumer = None if channel is None else channel._tags.get(tag.decode(errors="replace"))
            if isinstance(consumer, Fed):
                consumer._owed += 1
                self._stirred[consumer] = None
        del self._named[:]
        for consumer in list(self._stirred):
            self._feed(consumer)
        self._tell_news()
        self._ring(self._turners)

    def _looked(self, request: Request[Any]) -> bool:
        """Looks whether a request is done; who waits for it is rung then."""
        try:
            request.found = request.look()
        except Exception as error:
            request.error = error
        if request.is_done:
            self._rung.append(request.bell)
        return request.is_done

    def _undone(self, request: Request[Any]) -> None:
        """Nobody waits for a request any more."""
        for listed in (self._asked, self._open_requests, self._flushes):
            if request in listed:
                listed.remove(request)
        try:
            self._nested(request.leave)
        except Refused:  # its channel has ended, and all went back
            pass

    def _nested(self, call: Callable[[], T]) -> T:
        """Does something that takes steps of its own within this one."""
        self._nests = True
        try:
            return call()
        finally:
            self._nests = False

    def _tidy(self) -> None:
        was_nesting, self._nests = self._nests, True
        try:
            super()._tidy()
        finally:
            self._nests = was_nesting

    def _all_that_ended(self) -> None:
        """A close came: publishes and consumers of what it closed have their end."""
        numbers: Set[int] = set(self._closes)
        is_all = not numbers or 0 in numbers
        for channel in [it for it in self._channels.values() if is_all or it.number in numbers]:
            channel._confirms.take(list(channel._confirms.open))
        for consumer in list(self._consumers.values()):
            if is_all or consumer.channel.number in numbers:
                self._feed(consumer, everything=True)

    def _feed(self, consumer: Fed, everything: bool = False) -> None:
        """Takes what came for a consumer whole; as much as was seen to come, or all of it and its end."""
        count = 0
        while (everything or consumer._owed > 0) and (message := consumer._take()) is not None:
            consumer._held = None
            consumer._waiting.append(message)
            consumer._owed -= 1
            count += 1
        if consumer._is_done or consumer._owed <= 0:
            self._stirred.pop(consumer, None)
        if consumer.callback is not None:
            self._jobs += [(consumer._hand_on, ())] * count
        if consumer._is_done:
            self._ring(consumer._bells)
            self._ring(self._enders)
        while count and consumer._bells:
            self._rung.append(consumer._bells.popleft())
            count -= 1

    def _ring(self, bells: Bells) -> None:
        self._rung += bells
        bells.clear()

    def _tell_news(self) -> None:
        """Has the notices told that are to be told."""
        if self._closes or self._returning or self._ended or self._is_lost or self.on_blocked is not None:
            self._jobs += [(call, (given,)) for call, given in self._nested(lambda: list(self._news()))]

    def _draw(self) -> None:
        """Draws from the session the octets that may leave."""
        self._waiting = self._unordered = 0
        while data := self._session.send(True, PIECE):
            self._drawn.append(data)
            self._drawn_size += len(data)
            self._drawn_all += len(data)
            if len(data) < PIECE:
                return

    def _pass_on(self) -> None:
        """There is room for one more: the next that waits for it is rung, in a step of a publisher's."""
        if self._waits() <= self._most // 2:
            ring(self._crowd[0])
            self._crowd.popleft()

    def _have_left(self) -> None:
        """Octets have left: who waits for that, or for room, is rung."""
        self._flushes = [it for it in self._flushes if not self._looked(it)]
        if self._crowd and self._waits() <= self._most // 2:
            self._rung.append(self._crowd.popleft())

    def _last_words(self) -> None:
        """Nothing can be sent any more: what the broker still said is heard."""
        try:
            while data := self._wire.pull():
                self._stepped(partial(self._hear, data))
        except (ConnectionLost, ValueError, MemoryError):
            pass

    def _end(self, why: str) -> None:
        """The connection is gone: each wait ends."""
        try:
            self._stepped(lambda: self._ended_by(why))
        finally:
            with self._lock:
                self._is_lost = self._is_over = True
                self._is_asleep = False
                self._wire.close()
                os.close(self._called)
                os.close(self._caller)
                self._ring_all()
            for bell in self._rung:
                ring(bell)
            self._callbacks.end()

    def _ended_by(self, why: str) -> None:
        self._is_closed = self._is_closed or self._is_closing
        if not self._is_lost:
            self._lost("" if self._is_closing else why)
        for consumer in list(self._consumers.values()):
            self._feed(consumer, everything=True)
            if self._is_closing and consumer.callback is not None:
                consumer._waiting.clear()
        for request in [*self._open_requests, *self._flushes, *self._asked]:
            if not self._looked(request):
                request.error = self._gone()
                self._rung.append(request.bell)
        self._open_requests, self._flushes, self._asked = [], [], deque()
        self._tell_news()

    def _ring_all(self) -> None:
        """Rings all that wait, once nothing comes any more. (Where there was no memory, requests are open still.)"""
        for request in [*self._open_requests, *self._flushes, *self._asked]:
            if not request.is_done:
                request.error = ConnectionLost("the connection is lost")
                self._rung.append(request.bell)
        for bells in (self._turners, self._crowd, self._enders, *(it._bells for it in self._consumers.values())):
            self._ring(bells)
        for listed in self._listeners.values():
            self._rung += listed
        self._listeners.clear()
