"""Those who wait for a connection of many threads, and for what: bells, requests, the outcomes of a channel and what came for a consumer."""
from __future__ import annotations

import ctypes
import threading
import time
from collections import deque
from itertools import takewhile
from typing import TYPE_CHECKING, Any, Callable, Deque, Generic, List, Optional, Tuple, TypeVar

from ._asks import Ask
from ._confirms import ConfirmCore, Confirms
from ._consumers import ConsumerCore
from ._core import ChannelCore
from ._values import BY_NUMBER, Message
from .errors import Refused

if TYPE_CHECKING:
    from ._shared import Shared
T = TypeVar("T")
#: Writes to a descriptor without giving the interpreter's lock away, so that no other thread begins to wait for what this one holds.
_write = ctypes.PyDLL(None).write
_write.argtypes = [ctypes.c_int, ctypes.c_char_p, ctypes.c_size_t]
Bell = Any  # a lock that is held, and that is rung by letting go of it
Bells = Deque[Bell]


def new_bell() -> Bell:
    """A bell that nobody has rung."""
    bell = threading.Lock()
    bell.acquire()
    return bell


def ring(bell: Bell) -> None:
    """Rings a bell. Nothing where it was rung: an exception may have fallen before it was taken off its list."""
    if bell.locked():
        bell.release()


def heard(bell: Bell, until: Optional[float]) -> bool:
    """Waits until a bell is rung. False where the time is up."""
    if until is None:
        return bool(bell.acquire())
    return bool(bell.acquire(True, min(max(until - time.monotonic(), 0.0), threading.TIMEOUT_MAX)))


class Request(Generic[T]):
    """What a thread has the thread of the socket do: `look` is called there, in a step, until it gives something. What is given and nobody takes
    goes to `undo`."""

    def __init__(self, look: Callable[[], Optional[Tuple[T]]], undo: Optional[Callable[[T], Any]] = None):
        self.look, self.undo, self.bell, self.leaves = look, undo, new_bell(), False
        self.found: Optional[Tuple[T]] = None
        self.error: Optional[BaseException] = None

    @property
    def is_done(self) -> bool:
        return self.found is not None or self.error is not None

    def leave(self) -> None:
        """Nobody waits for it any more."""
        if self.found is not None and self.undo is not None:
            self.undo(self.found[0])


class Call(Request[T]):
    """A call of the session, behind what was queued before, and its answer."""

    def __init__(self, by: Shared, asked: Ask[T], channel: Optional[ChannelCore]):
        super().__init__(self._look, asked.undo)
        self.by, self.asked, self.channel, self.ticket = by, asked, channel, 0

    def _look(self) -> Optional[Tuple[T]]:
        if not self.ticket:
            if self.channel is not None:
                self.channel._check()
            self.by._draw()
            self.ticket = self.by._ticket(self.asked)
        return self.by._answer(self.asked, self.ticket)

    def leave(self) -> None:
        if self.is_done:
            super().leave()
        elif self.ticket:
            self.by._leave(self.ticket, self.asked)


class Flush(Request[None]):
    """What was queued before it has left."""

    def __init__(self, by: Shared):
        super().__init__(self._look)
        self.by, self.mark, self.leaves = by, -1, True

    def _look(self) -> Optional[Tuple[None]]:
        by = self.by
        if self.mark < 0:
            by._draw()
            self.mark = by._drawn_all
        return (None,) if by._drawn_all - by._drawn_size - by._wire.size >= self.mark else None


class Fed(ConsumerCore):
    """A consumer: what came for it whole is `_waiting`, for whoever takes it."""
    callback: Optional[Callable[[Message], Any]] = None

    def __init__(self, channel: ChannelCore, number: int, tag: str, no_ack: bool):
        super().__init__(channel, number, tag, no_ack)
        self._waiting: Deque[Message] = deque()
        self._bells: Bells = deque()
        # How many deliveries, and cancels, were seen to come for it that weren't taken.
        self._owed = 0

    def _hand_on(self) -> None:
        """Hands a message to the callback, if there is one that wasn't given back."""
        if self.callback is not None and not self._is_ending and not self.channel._is_leaving:
            try:
                message = self._waiting.popleft()
            except IndexError:
                return
            self.callback(message)

    def _give_back(self) -> bool:
        while self._waiting:
            message = self._waiting.popleft()
            if not self._no_ack:
                try:
                    message.reject(requeue=True)
                except Refused:  # its channel closes, and all goes back
                    pass
        return super()._give_back()


class SharedConfirms(Confirms):
    """The publishes of a channel: each has its outcome once its settlement came, and who waits for it is rung."""

    def settle(self, tag: int, is_multiple: bool) -> List[ConfirmCore]:
        """A settlement came. (Without a mandatory publish it is a short way, since this is what a publisher's time is spent in.)"""
        if self.is_used:
            return super().settle(tag, is_multiple)
        outcome, opened, listeners = self._session.outcome, self.open, self._channel.connection._listeners
        covered = list(takewhile(lambda at: at <= tag, opened) if tag else opened) if is_multiple else (tag,)
        for at in covered:
            confirm = opened.get(at)
            if confirm is None:
                continue
            if confirm._found is None:
                code = outcome(confirm._number)
                found: Any = BY_NUMBER.get(code)
                if found is None:
                    found = self._beyond(code, confirm._number)
                    if found is None:
                        continue
                confirm._found = found
            del opened[at]
            if listeners or self.forgotten:
                self._rung(confirm)
        return []

    def take(self, tags: Any) -> List[ConfirmCore]:
        told = super().take(tags)
        for confirm in told:
            self._rung(confirm)
        return told

    def give_up(self) -> None:
        still = [*self.open.values(), *self._held]
        super().give_up()
        for confirm in still:
            self._rung(confirm)

    def _rung(self, confirm: ConfirmCore) -> None:
        self.forgotten.discard(confirm)
        connection = self._channel.connection
        connection._rung += connection._listeners.pop(confirm, ())
