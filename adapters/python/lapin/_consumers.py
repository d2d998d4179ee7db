"""A consumer, as both connections have it: what it was handed, and its end. No waiting stands here."""
from __future__ import annotations

from heapq import heapify, heappop, heapreplace
from typing import TYPE_CHECKING, Any, Callable, Dict, Iterator, List, Optional, Tuple

from ._values import Message
from .errors import Error, Refused

if TYPE_CHECKING:
    from ._core import ChannelCore, Core


class ConsumerCore:
    """A consumer of a channel."""
    #: Called once with this consumer at its end: it was cancelled, here or by the broker, or its channel has ended.
    on_end: Optional[Callable[[Any], Any]] = None
    _callback: Optional[Callable[[Message], Any]] = None

    def __init__(self, channel: ChannelCore, number: int, tag: str, no_ack: bool):
        self.channel, self.number, self.tag, self._no_ack = channel, number, tag, no_ack
        self._held: Optional[Message] = None
        self._is_done, self._is_ending = False, False
        self._error: Optional[Error] = None
        channel.connection._consumers[number] = channel._tags[tag] = self
        if not no_ack:
            channel._acking.add(number)

    @property
    def is_active(self) -> bool:
        """Whether messages may come still."""
        return not self._is_done

    @property
    def callback(self) -> Optional[Callable[[Message], Any]]:
        """What is handed its messages; it may be another one from now on, or None."""
        return self._callback

    @callback.setter
    def callback(self, call: Optional[Callable[[Message], Any]]) -> None:
        self._callback, connection = call, self.channel.connection
        if call is None or self._is_done:
            connection._calling.discard(self.number)
        else:
            connection._ready[self.number] = self
            connection._calling.add(self.number)
            connection._is_called()

    def _take(self) -> Optional[Message]:
        """What it was handed next, which is held until somebody has it; None where there is nothing yet, or it has ended."""
        if self._held is not None or self._is_done:
            return self._held
        connection = self.channel.connection
        connection._session.check_thread()
        was_torn, connection._is_torn = connection._is_torn, True
        try:
            found = connection._session.delivery(self.number)
        except Refused as error:
            found = "end"
            self._error = self.channel._failed(error.words)
        except MemoryError:
            raise connection._session.spilled(connection._lose)
        if isinstance(found, str):
            self._end()
        elif found is not None:
            self._held = self.channel._noted(Message(self._settled, *found), self._no_ack)
        connection._is_torn = was_torn
        return self._held

    def _settled(self, call: str, acker: int, *marks: bool) -> bool:
        return self.channel._settled(self, call, acker, *marks)

    def _end(self) -> None:
        self._is_done = True
        self.channel._acking.discard(self.number)
        self.channel.connection._let_go(self.number)
        if self.channel._tags.get(self.tag) is self:
            del self.channel._tags[self.tag]
            if self.on_end is not None:
                self.channel.connection._ended.append(self)

    def _give_back(self) -> bool:
        """Gives back what it had, in the order in which that came. Whether it has ended."""
        while (message := self._take()) is not None:
            if not self._no_ack:
                try:
                    message.reject(requeue=True)
                except Refused:  # its channel closes, and all goes back
                    pass
            self._held = None
        return self._is_done

    def _call_back(self) -> None:
        """Hands what it holds still to its callback."""
        raise NotImplementedError

    def _has_more(self) -> Optional[Tuple[int, int, ConsumerCore]]:
        """It behind the tag of the message that its callback is handed next, if one is there."""
        if self._callback is None or self._is_ending or (message := self._take()) is None:
            return None
        return message.delivery_tag, self.number, self


def in_turn(connection: Core) -> Iterator[ConsumerCore]:
    """Consumers, each of which holds a message that is its callback's: of each channel as many messages as consumers have some now, in the order in
    which they came to it, which is that of their tags. Who has nothing more is watched again."""
    channels: Dict[ChannelCore, List[Tuple[int, int, ConsumerCore]]] = {}
    for number, consumer in list(connection._ready.items()):
        if (head := consumer._has_more()) is not None:
            channels.setdefault(consumer.channel, []).append(head)
            continue
        if consumer._is_done:
            connection._has_ended(consumer)
        elif consumer._callback is not None or consumer._is_ending:
            connection._watched.add(number, consumer)
        connection._ready.pop(number, None)
    for heads in channels.values():
        if len(heads) == 1:
            yield heads[0][2]
            continue
        heapify(heads)
        for left in range(len(heads), 0, -1):
            if heads[0][2]._has_more() is not None:
                yield heads[0][2]
            head = heads[0][2]._has_more() if left > 1 else None
            if head is not None:
                heapreplace(heads, head)
            elif left > 1:
                heappop(heads)
