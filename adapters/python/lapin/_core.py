"""What both connections share: a session with its channels and calls, and what comes of the broker's octets. No socket and no waiting stand here."""
from __future__ import annotations

import ctypes
from itertools import takewhile
from typing import TYPE_CHECKING, Any, Callable, Dict, Iterator, List, Optional, Set, Tuple, Type, TypeVar, Union

from . import _asks, _octets
from ._arguments import body_of, flag, octets_of, whole
from ._asks import Ask
from ._confirms import CLOSES, RETURN, UNKNOWN, ConfirmCore, Confirms, Seen, came_back, identity_of
from ._library import Reply, Session
from ._ready import Watch
from ._values import Message, Returned
from .errors import CallFailed, CloseReason, ConnectionLost, Error, Refused

if TYPE_CHECKING:
    from ._consumers import ConsumerCore
T = TypeVar("T")


class Core:
    """A session with its channels. `_confirms_at_once`: whether each settlement is looked for, and not only those of mandatory publishes."""
    _confirms_at_once = False
    #: So many octets of publishes leave without a call that waits.
    _enough = 1 << 16
    #: Called with True where the broker takes no messages any more, and with False where it does again.
    on_blocked: Optional[Callable[[bool], Any]] = None
    #: Called once, with the error that tells why, where the connection is gone and `close` wasn't called.
    on_close: Optional[Callable[[ConnectionLost], Any]] = None

    def __init__(self, frame_max: int, channel_max: int):
        self._session, self._channel_max = Session(frame_max), channel_max
        self._channels: Dict[int, ChannelCore] = {}
        self._consumers: Dict[int, ConsumerCore] = {}
        self._numbers: List[int] = []
        self._next, self._made, self._is_lost, self._is_closed = 0, 0, False, False
        # How many octets wait in the session, about; and whether so much waits for the socket that a publish has to wait.
        self._waiting, self._is_full = 0, False
        # Whether something is on its way between the session and its user or the socket: an exception that falls then loses the connection.
        self._is_torn = False
        # Channels whose opening nobody waits for any more, and calls and consumers that nobody has.
        self._orphans: Set[int] = set()
        self._left: Dict[int, Ask[Any]] = {}
        self._ending: Dict[int, ConsumerCore] = {}
        # Calls and consumers of which an answer or a message is awaited, and those that have one; the numbers of consumers with a callback.
        self._calls: Watch[Ask[Any]] = Watch(self._session, "ready_reply")
        self._watched: Watch[ConsumerCore] = Watch(self._session, "ready_consumer")
        self._answered: Dict[int, Ask[Any]] = {}
        self._ready: Dict[int, ConsumerCore] = {}
        self._calling: Set[int] = set()
        # What came says of publishes; whether a close was seen in what came last; and why the connection is gone.
        self._seen, self._has_closed, self._why = Seen(), False, ""
        # The channels of which a close came since it was looked what became of them, 0 for the connection.
        self._closes: Set[int] = set()
        # How many messages came back to each channel without confirms and were not read yet.
        self._returning: Dict[int, int] = {}
        # Of notices: whether the broker was blocked and the end was told, consumers whose end is to be told, and what came back.
        self._was_blocked, self._is_end_told = False, False
        self._ended: List[ConsumerCore] = []
        self._untold: List[Tuple[Callable[[Returned], Any], Returned]] = []
        # Whether octets were read of which it isn't known what they said, since an exception fell.
        self._is_blind = False

    # ---- what comes

    def _receive(self, data: bytes) -> List[ConfirmCore]:
        """Hands octets to the session. What it refuses closes the channel or the connection, as the protocol says. The publishes that were
        seen to have their outcome now."""
        given, self._has_closed, self._is_blind = data, False, True
        while self._session.receive(given) is not None:
            given, self._has_closed = b"", True
        done: List[ConfirmCore] = []
        for name, number, tag, is_multiple in self._seen.look(data):
            channel = self._channels.get(number)
            if name in CLOSES:
                self._has_closed = True
                self._closes.add(number)
            elif name == RETURN and channel is not None and not channel._confirms.is_on:
                self._returning[number] = self._returning.get(number, 0) + 1
            elif channel is None or not (channel._confirms.is_used or self._confirms_at_once and channel._confirms.is_on):
                continue
            elif name == RETURN:
                channel._confirms.unread += channel._confirms.is_used
            else:
                done += channel._confirms.settle(tag, is_multiple)
        self._is_blind = False
        if self._calls.waiting:
            self._calls.search(self._answered)
        if self._watched.waiting:
            self._watched.search(self._ready)
        if self._left or self._ending:
            self._tidy()
        return done

    def _tidy(self) -> None:
        """Undoes what nobody waits for, once it is there: a message of a get goes back, a consumer is cancelled."""
        for ticket in [it for it in self._answered if it in self._left] if self._left else ():
            asked = self._answered.pop(ticket)
            del self._left[ticket]
            try:
                reply = self._session.reply(ticket)
                if reply is not None and asked.undo is not None:
                    asked.undo(asked.read(reply))
            except (Refused, CallFailed):  # an exception fell as it was read, it brought nothing, or its channel has ended, and all went back
                pass
        for number in [it for it in self._ready if it in self._ending] if self._ending else ():
            consumer = self._ready.pop(number)
            if not consumer._give_back():
                self._watched.add(number, consumer)

    def _end_later(self, consumer: ConsumerCore) -> None:
        """A consumer is ending, and nobody waits for that; what it was handed goes back."""
        self._ready[consumer.number] = self._ending[consumer.number] = consumer

    def _let_go(self, number: int) -> None:
        """A consumer has ended."""
        self._consumers.pop(number, None)
        self._ending.pop(number, None)
        self._ready.pop(number, None)
        self._watched.drop(number)
        self._calling.discard(number)

    def _has_ended(self, consumer: ConsumerCore) -> None:
        """A consumer with a callback was found at its end."""
        raise NotImplementedError

    def _is_called(self) -> None:
        """A consumer has a callback now, and may have messages."""

    def _leave(self, ticket: int, asked: Ask[Any]) -> None:
        """Nobody waits for the answer of a call any more."""
        if asked.undo is not None and not self._is_lost:
            self._left[ticket] = asked
            self._answered.pop(ticket, None)
            self._calls.add(ticket, asked)
            return
        self._calls.drop(ticket)
        self._session.forget_call(ticket)  # (nothing, where its answer was read)

    def _lost(self, why: str) -> None:
        """The connection is gone: each call and each publish that was open has its end."""
        self._is_lost, self._why = True, self._why or why
        self._ready.update(self._watched.waiting)
        try:
            self._session.lost()
        except (Error, ValueError, MemoryError):  # the session has ended for want of memory, and tells nothing further
            for channel in self._channels.values():
                channel._confirms.give_up()
            return
        for channel in self._channels.values():
            if self._is_blind and channel._confirms.is_used:
                channel._confirms.unread = UNKNOWN
            channel._confirms.take(list(channel._confirms.open))

    def _lost_error(self) -> str:
        return f"the connection is {'closed' if self._is_closed else 'lost'}: {self._why}" if self._why else "the connection is closed"

    def _news(self) -> Iterator[Tuple[Callable[[Any], Any], Any]]:
        """The notices that are to be told, each once: what is called, and with what."""
        if self.on_blocked is not None and self.is_blocked != self._was_blocked:
            self._was_blocked = not self._was_blocked
            yield self.on_blocked, self._was_blocked
        while self._ended:
            consumer = self._ended.pop(0)
            if consumer.on_end is not None:
                yield consumer.on_end, consumer
        for number in list(self._returning) if self._returning else ():
            channel, tell = self._channels[number], self._channels[number].on_return
            if tell is None:  # (`wait_for_confirms` gives them)
                del self._returning[number]
            else:
                self._untold += [(tell, returned) for returned in channel._strangers()]
        while self._untold:
            yield self._untold.pop(0)
        while self._closes:
            number = self._closes.pop()
            closed = self._channels.get(number)
            if closed is not None and closed.on_close is not None and not closed._is_leaving and self._session.state(number) == "closed":
                closed._is_leaving = True
                yield closed.on_close, Refused("InvalidChannelState closed", self._session.last_close(number))
        yield from self._end_news()

    def _end_news(self) -> Iterator[Tuple[Callable[[Any], Any], Any]]:
        """The notice that the connection is gone."""
        if self.on_close is not None and not self._is_end_told and not self.is_open:
            self._is_end_told = True
            yield self.on_close, ConnectionLost(self._lost_error(), self._session.last_close(0))

    # ---- calls

    def _hand_over(self) -> None:
        """So much was published that it leaves."""
        raise NotImplementedError

    def _lose(self, why: str) -> None:
        """Gives the connection up."""

    def _make_room(self) -> None:
        """Waits until the broker has read enough of what was published."""
        raise NotImplementedError

    def _ticket(self, asked: Ask[Any]) -> int:
        """Makes a call. What its answer is asked by."""
        try:
            return self._session.call(asked.channel, asked.method) if asked.method else self._session.limit(asked.channel, asked.limit)
        except Refused as error:
            raise Refused(error.words, self._reason(asked.channel, error.words)) from None
        except MemoryError:
            raise self._session.spilled(self._lose)

    def _answer(self, asked: Ask[T], ticket: int) -> Optional[Tuple[T]]:
        """The value of a call's answer, if it is there."""
        try:
            reply = self._session.reply(ticket)
        except CallFailed as error:
            raise self._failed(error.words, asked.channel) from None
        except MemoryError:
            raise self._session.spilled(self._lose)
        return None if reply is None else (asked.read(reply),)

    def _failed(self, words: str, channel: int) -> CallFailed:
        return CallFailed(words, self._reason(channel, words))

    def _reason(self, channel: int, words: str) -> Optional[CloseReason]:
        """What the broker gave as it closed, where that is why a call failed with these words."""
        for number in (channel, 0):
            reason = self._session.last_close(number)
            if reason is not None and (words == f"ProtocolError {reason.code}" or words.startswith("InvalidChannelState") and not words.endswith("closing")):
                return reason
        return None

    def _abandon(self, consumer: ConsumerCore) -> None:
        """Cancels a consumer that nobody has; what it was handed goes back."""
        consumer._is_ending = True
        self._session.forget_call(self._ticket(_asks.cancel(consumer.channel.number, consumer.tag)))
        self._end_later(consumer)

    # ---- channels

    def _number(self) -> int:
        """The number of a channel that is free."""
        for number in list(self._orphans):  # opened for nobody: closed, it is free again
            if self._session.state(number) == "open":
                self._session.forget_call(self._ticket(_asks.channel_close(number)))
            if self._session.state(number) == "closed":
                self._orphans.discard(number)
                self._numbers.append(number)
        if not self._numbers and self._next >= self._channel_max:  # those that the broker closed are free again
            self._numbers = [it for it in range(1, self._next + 1) if it not in self._orphans and self._session.state(it) == "closed"]
        number = self._numbers.pop() if self._numbers else self._next + 1
        if number > self._channel_max:
            raise Refused("NoChannelLeft") if self._session.is_open else Refused("InvalidChannelState down", self._session.last_close(0))
        self._next = max(self._next, number)
        return number

    def _beginning(self, number: int, confirms: bool, prefetch: Optional[int], limit: Optional[int]) -> List[Ask[None]]:
        """The calls that a channel begins with."""
        asked = [_asks.channel_open(number)]
        if flag("confirms", confirms):
            asked.append(_asks.confirm_select(number))
        if limit is not None:
            asked.append(_asks.confirm_limit(number, limit))
        if prefetch is not None:
            asked.append(_asks.qos(number, prefetch))
        return asked

    # ---- what is offered

    @property
    def is_open(self) -> bool:
        """Whether channels can be opened and used."""
        return not self._is_closed and self._session.is_open

    @property
    def is_blocked(self) -> bool:
        """Whether the broker said that it takes no messages just now: confirms stay pending until it does again."""
        return self._session.is_blocked


class ChannelCore:
    """A channel that is open, or was."""
    connection: Core
    _confirm_of: Type[ConfirmCore]
    #: Called once, with an error whose `reason` says why, where the broker closed the channel.
    on_close: Optional[Callable[[Refused], Any]] = None
    #: Called with each message that came back and that no confirm gives, as of a channel without confirms.
    on_return: Optional[Callable[[Returned], Any]] = None

    def __init__(self, connection: Core, by_tag: bool):
        # What was handed on and isn't settled, by its tag, where somebody settles so.
        self._given: Optional[Dict[int, Message]] = {} if flag("by_tag", by_tag) else None
        number = connection._number()
        self.connection, self.number, self._session = connection, number, connection._session
        self._confirms = Confirms(self._session, self)
        self._look = self._confirms.look
        # Those of its consumers whose messages are to be acknowledged, and why it ended, once another one has its number.
        self._acking: Set[int] = set()
        self._is_over, self._ended_by = False, None  # type: bool, Optional[CloseReason]
        # Its consumers by their tags; and whether it is closed here, or its end was told.
        self._tags: Dict[str, ConsumerCore] = {}
        self._is_leaving = False
        before = connection._channels.get(number)
        if before is not None:
            before._end()
        connection._channels[number] = self
        connection._returning.pop(number, None)

    def _end(self) -> None:
        """Another channel takes its number: nothing that is called here goes there."""
        self._confirms.take(list(self._confirms.open))
        for consumer in [it for it in self.connection._consumers.values() if it.channel is self]:
            self.connection._let_go(consumer.number)
        self._ended_by, self._is_over = self._session.last_close(self.number), True

    def _check(self) -> None:
        if self._is_over:
            raise Refused("InvalidChannelState closed", self._ended_by)

    def _failed(self, words: str) -> CallFailed:
        if self._is_over:
            return CallFailed(words, self._ended_by if self._ended_by and words == f"ProtocolError {self._ended_by.code}" else None)
        return self.connection._failed(words, self.number)

    @property
    def is_open(self) -> bool:
        """Whether calls of it are taken."""
        return not self.connection._is_closed and not self._is_over and self._session.state(self.number) == "open"

    def publish(self, exchange: str, routing_key: str, body: Union[bytes, bytearray, memoryview], *, mandatory: bool = False,
                **properties: Any) -> ConfirmCore:
        """Publishes a message, with its properties by their names (`delivery_mode=2`, `headers={..}` ..). Nothing is waited for: its
        confirm is. It leaves with the next call that waits, with `connection.flush()`, or once 64 KiB wait; of `lapin.aio` by itself. While the
        broker reads nothing and more than 1 MiB waits for the socket, it waits 30 seconds at most, and then raises `Timeout`; nothing was
        published then. That of `lapin.aio` never waits: what the broker doesn't take yet is held."""
        # (one body without a second call, since this is what a publisher's time is spent in)
        connection = self.connection
        if connection._is_full:
            connection._make_room()
        if self._is_over:
            self._check()
        octets = body if type(body) is bytes else body_of(body)
        confirm = self._confirm_of(self)
        session, confirms, listed = self._session, self._confirms, _octets.properties_of(properties) if properties else b"\0\0"
        session.check_thread()
        try:
            if mandatory and flag("mandatory", mandatory) and confirms.is_on:
                confirms.expect(confirm, identity_of(octets_of("exchange", exchange), octets_of("routing_key", routing_key), listed, octets))
            tag = confirms.tag + 1
            if confirms.is_on:
                if tag > confirms.next:
                    confirms.prune()
                confirms.open[tag] = confirm
            session.publish_as(confirm, self.number, exchange, routing_key, octets, listed, mandatory)
            confirms.tag = tag
        except BaseException as error:
            self._unmade(confirm, error)
            octets_of("exchange", exchange)
            octets_of("routing_key", routing_key)
            raise
        connection._waiting += len(octets) + 64
        if connection._waiting > connection._enough:
            connection._hand_over()
        return confirm

    def _unmade(self, confirm: ConfirmCore, error: BaseException) -> None:
        """A publish ended by an exception: it was refused, or accepted where its number was given."""
        session, confirms = self._session, self._confirms
        is_refused = isinstance(error, (Error, ValueError, MemoryError, TypeError, RuntimeError, ctypes.ArgumentError))
        if confirm._number or not is_refused and session.last_confirm != session.last:
            confirm._number = session.last = session.last_confirm
            confirms.tag = max(confirms.open, default=confirms.tag)
        elif confirms.is_on:
            confirms.drop(confirm)
        if isinstance(error, Refused):
            raise Refused(error.words, self.connection._reason(self.number, error.words)) from None

    def _settled(self, consumer: Optional[ConsumerCore], call: str, acker: int, *marks: bool) -> bool:
        """Settles a message of a consumer, or of a get."""
        if marks[0] and call != "reject" and len(self._acking) > (consumer is not None and consumer.number in self._acking):
            raise Refused("MultipleRefused: it would settle messages of another consumer of the channel that nobody has seen")
        return self._session.settle(call, acker, *marks)

    def _got(self, reply: Reply, no_ack: bool) -> Optional[Message]:
        """The message of a get."""
        if reply.message is None:
            return None
        return self._noted(Message(lambda *call: self._settled(None, *call), *reply.message, left=reply.messages), no_ack)

    def _noted(self, message: Message, no_ack: bool) -> Message:
        """A message that is handed on; where messages are settled by tags it is held until it is."""
        if self._given is not None and not no_ack:
            settle, tag, given = message._settle, message.delivery_tag, self._given
            given[tag] = message

            def settled(call: str, acker: int, *marks: bool) -> bool:
                is_sent = settle(call, acker, *marks)
                for it in list(takewhile(lambda at: at <= tag, given)) if marks[0] and call != "reject" else (tag,):
                    given.pop(it, None)
                return is_sent
            message._settle = settled
        return message

    def _of_tag(self, tag: int) -> Optional[Message]:
        if self._given is None:
            raise ValueError("a channel settles by tags where it was opened with by_tag=True")
        return self._given.get(whole("delivery_tag", tag, 0, (1 << 64) - 1))

    def ack(self, delivery_tag: int, multiple: bool = False) -> bool:
        """Acknowledges the message of a tag, of a channel with `by_tag`: as its `ack` does. False where it was settled before."""
        message = self._of_tag(delivery_tag)
        return message is not None and message.ack(multiple)

    def nack(self, delivery_tag: int, requeue: bool = True, multiple: bool = False) -> bool:
        """Gives back the message of a tag, as `ack`."""
        message = self._of_tag(delivery_tag)
        return message is not None and message.nack(requeue, multiple)

    def reject(self, delivery_tag: int, requeue: bool = True) -> bool:
        """Gives back the message of a tag, as `ack`."""
        message = self._of_tag(delivery_tag)
        return message is not None and message.reject(requeue)

    def _asked_get(self, queue: str, no_ack: bool) -> Ask[Optional[Message]]:
        asked = _asks.get(self.number, queue, no_ack)
        undo = None if no_ack else lambda message: message is not None and message.reject()
        return Ask(self.number, asked.method, lambda reply: self._got(reply, bool(no_ack)), undo)

    def _consumer(self, number: int, tag: str, no_ack: bool) -> ConsumerCore:
        """A consumer of this channel, of the number that the session gave it."""
        raise NotImplementedError

    def _asked_consume(self, queue: str, tag: str, no_ack: bool, exclusive: bool, arguments: Optional[Dict[str, Any]]) -> Tuple[str, Ask[int]]:
        """The call of a consume and its tag, which is made here where none is given, so that a cancel can name it."""
        connection = self.connection
        connection._made += 1
        tag = tag if tag != "" else f"lapin.{self.number}.{connection._made}"
        asked = _asks.consume(self.number, queue, tag, no_ack, exclusive, arguments)
        asked.undo = lambda number: connection._abandon(self._consumer(number, tag, bool(no_ack)))
        return tag, asked

    def _unconfirmed(self) -> Optional[List[Returned]]:
        """The messages that came back and that no confirm gives, once each publish has its outcome; None before."""
        count = self._session.unclaimed(self.number)
        if count is None:
            return None
        given = [it for place in range(count) if (it := came_back(self._session, place)) is not None]
        found, self._confirms.strangers = self._confirms.strangers, []
        return found + given

    def _strangers(self) -> List[Returned]:
        """The messages that came back and that no confirm gives, as far as they are there whole."""
        owed = self.connection._returning
        if self._confirms.is_on:
            found, self._confirms.strangers = self._confirms.strangers, []
            owed[self.number] = 0
        else:
            found = self._unconfirmed() or []
            owed[self.number] -= len(found)
        if owed[self.number] <= 0:
            del owed[self.number]
        return found

    def _tagged(self, tag: str) -> Any:
        """The consumer of this channel that has a tag."""
        if tag not in self._tags:
            raise ValueError(f"no consumer of this channel has the tag {tag!r}")
        return self._tags[tag]
