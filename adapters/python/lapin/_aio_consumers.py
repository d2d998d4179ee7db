"""A consumer for asyncio: its messages are awaited, or handed to its callback."""
from __future__ import annotations

import asyncio
from typing import TYPE_CHECKING, Any, AsyncIterator, Awaitable, Callable, Optional

from . import _asks
from ._consumers import ConsumerCore
from ._values import Message
from .connection import PATIENCE
from .errors import CallFailed, ConnectionLost, Refused, Timeout

if TYPE_CHECKING:
    from .aio import Channel


class Consumer(ConsumerCore):
    """A consumer: `async for message in consumer`, or a callback, which may be a coroutine function. What a callback raises, and what ended a
    consumer with a callback, goes to the loop's exception handler."""
    channel: Channel

    def __init__(self, channel: Channel, number: int, tag: str, no_ack: bool, callback: Optional[Callable[[Message], Any]] = None):
        super().__init__(channel, number, tag, no_ack)
        self.callback = callback

    def _ready(self) -> Optional[bool]:
        if self._take() is None and self._is_done and self._error is not None:
            raise self._error
        if self._held is not None or self._is_done:
            return True
        self.channel.connection._watched.add(self.number, self)
        return None

    def _call_back(self) -> None:
        """Hands what it holds to the callback."""
        call, message, connection = self._callback, self._held, self.channel.connection
        if call is None or message is None or self._is_ending:
            return
        self._held = None
        try:
            given = call(message)
        except Exception as error:
            return connection._raised("a consumer's callback raised", error)
        if isinstance(given, Awaitable):
            task = asyncio.ensure_future(given)
            connection._running.add(task)
            task.add_done_callback(connection._ran)

    async def next(self, timeout: Optional[float] = None) -> Optional[Message]:
        """The next message, once it is there; None at the consumer's end. The error that ended its channel is raised. Where it is cancelled or
        its time is up nothing is lost: the message is the next one's."""
        connection = self.channel.connection
        try:
            await connection._until(self._ready, connection._end_of(timeout), self)
            message, self._held = self._held, None
            return message
        finally:
            if self in connection._asking:
                self._pass_on()

    def _pass_on(self) -> None:
        """Who was woken goes: another one that waits is woken where there is more, or the end."""
        try:
            is_ready = self._take() is not None or self._is_done
        except Exception:  # that one meets it
            is_ready = True
        if is_ready:
            self.channel.connection._wake_one(self)
        else:
            self.channel.connection._watched.add(self.number, self)

    async def __aiter__(self) -> AsyncIterator[Message]:
        while (message := await self.next()) is not None:
            yield message

    async def messages(self, inactivity_timeout: float) -> AsyncIterator[Optional[Message]]:
        """Its messages, and None each time that none came for so many seconds."""
        while self.is_active or self._held is not None:
            try:
                if (message := await self.next(inactivity_timeout)) is None:
                    return
                yield message
            except Timeout:
                yield None

    async def cancel(self, timeout: Optional[float] = PATIENCE) -> None:
        """Stops it, and gives back what it had and nobody was given, as the blocking one."""
        connection = self.channel.connection
        until = connection._end_of(timeout)
        connection._session.check_thread()
        if self._is_done:
            return
        self._is_ending = True
        try:
            await connection._ask(_asks.cancel(self.channel.number, self.tag), until)
        except (CallFailed, Refused, ConnectionLost):  # its channel has ended, and the broker has all again
            pass
        except BaseException:
            connection._end_later(self)
            raise
        self._give_back()
        self._end()
        connection._soon()
        connection._tell_soon()
