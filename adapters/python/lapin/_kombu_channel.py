"""A channel for kombu, by the names of `amqp.Channel`. kombu settles by tags: each is the acker of its own message here, and works once.

Messages are handed on in the order in which they came to their channel, whatever consumer has them: so an ack of several covers what was handed on.
Where the broker closed the channel the next call opens it anew, as py-amqp does; tags go on counting, so that none of before is one of after.
"""
from __future__ import annotations

import datetime
import sys
from collections import namedtuple
from itertools import takewhile
from typing import TYPE_CHECKING, Any, Callable, Dict, List, Optional, Set, TypeVar

from amqp import exceptions as errors  # type: ignore[import]
from kombu.message import Message as _Message  # type: ignore[import]
from kombu.transport import base  # type: ignore[import]

from . import _asks, _octets
from ._asks import Ask
from ._values import Message as Given, Returned, named
from .connection import Channel as Opening, Consumer
from .errors import Error, MalformedProperties

if TYPE_CHECKING:
    from .kombu import Connection
T = TypeVar("T")

queue_declare_ok_t = namedtuple("queue_declare_ok_t", ("queue", "message_count", "consumer_count"))


class Message(_Message):  # type: ignore[misc]
    """A message, as kombu knows it. One whose properties can't be read goes to its consumer's `on_decode_error`."""

    def __init__(self, channel: Channel, octets: bytes, body: Any, delivery_tag: Optional[int], info: Dict[str, Any]):
        properties: Dict[str, Any] = {}
        try:
            properties = named(octets)
        except MalformedProperties:
            self.errors = [sys.exc_info()]
        if "kind" in properties:
            properties["type"] = properties.pop("kind")
        encoding, headers = properties.get("content_encoding"), properties.pop("headers", {})
        if headers:
            properties["application_headers"] = headers
        if encoding:
            try:
                body = body.decode(encoding)
            except Exception:  # it stays as it came, as of py-amqp
                pass
        super().__init__(body, channel=channel, delivery_tag=delivery_tag, content_type=properties.get("content_type"), content_encoding=encoding,
                         delivery_info=info, properties=properties, headers=headers)


#: (Within a channel `Message` is its attribute.)
Coming = Message


class Outgoing:
    """What is to be published."""
    __slots__ = ("body", "properties")

    def __init__(self, body: bytes, properties: Dict[str, Any]):
        self.body, self.properties = body, properties


def _in_utc(value: Any) -> Any:
    """A value whose datetimes have a time zone: those without one are of UTC, as for py-amqp."""
    if isinstance(value, datetime.datetime):
        return value if value.tzinfo else value.replace(tzinfo=datetime.timezone.utc)
    if isinstance(value, dict):
        return {key: _in_utc(it) for key, it in value.items()}
    return [_in_utc(it) for it in value] if isinstance(value, (list, tuple)) else value


class Consuming:
    """A consumer of a channel, with what kombu calls for its messages and at its end."""
    __slots__ = ("channel", "tag", "call", "no_ack", "on_cancel", "given", "is_over")

    def __init__(self, channel: Channel, tag: str, call: Callable[[Message], Any], no_ack: bool, on_cancel: Optional[Callable[[str], Any]]):
        self.channel, self.tag, self.call, self.no_ack, self.on_cancel = channel, tag, call, no_ack, on_cancel
        self.given: Optional[Consumer] = None
        #: Whether nothing is handed on any more: it was cancelled, or its channel closed or opened anew.
        self.is_over = False

    def hand_on(self) -> bool:
        """Hands on the message that came next, or tells the end. False where it isn't there whole yet."""
        consumer = self.given
        if consumer is None:
            return False
        taken = consumer._take()
        if taken is not None:
            consumer._held = None
            self.call(self.channel.taken(taken, {"consumer_tag": self.tag}, self.no_ack))
            return True
        if consumer._is_done:
            self.channel.ended(self)
            if consumer._error is None and self.on_cancel is not None:
                self.on_cancel(self.tag)
            elif consumer._error is None:
                raise errors.ConsumerCancelled(self.tag, (60, 30))
        return bool(consumer._is_done)


class Channel(base.StdChannel):  # type: ignore[misc]
    """A channel, by the names of `amqp.Channel`."""
    Message = Message

    def __init__(self, connection: Connection, opening: Opening):
        self.connection: Optional[Connection] = connection
        self._by, self._opening, self.channel_id = connection, opening, opening.number
        # The ackers of what was handed on and isn't settled, by their tags, of consumers and of gets; and the greatest tag of the openings before.
        self._handed: Dict[int, Given] = {}
        self._got: Dict[int, Given] = {}
        self._before, self._last, self._made = 0, 0, 0
        self._consuming: Dict[str, Consuming] = {}
        self.no_ack_consumers: Set[str] = set()
        self.events: Dict[str, Set[Callable[..., Any]]] = {"basic_return": set(), "basic_ack": set(), "basic_nack": set()}

    @property
    def is_open(self) -> bool:
        return self.connection is not None and self._by.is_up and not self._opening._is_over

    def _ask(self, make: Callable[..., Ask[T]], *given: Any, **named: Any) -> T:
        """Makes a call of `_asks`, on this channel."""
        with self._used("call"):
            return self._by.asked(make(self.channel_id, *given, **named))

    def _used(self, what: str) -> Any:
        """A call of this channel begins."""
        if self.connection is None:
            raise errors.RecoverableConnectionError(f"{what}: connection closed")
        self._opened()
        return self._by.use

    def _opened(self) -> None:
        """Where the broker closed it, why is told once, and then it is opened anew."""
        if self.channel_id in self._by.closed:
            error, self._by.closed[self.channel_id] = self._by.closed[self.channel_id], None
            if error is not None:
                raise error
            self.revive()

    def revive(self) -> None:
        """Opens it anew. What was handed on before can't be settled any more, and its consumers are gone."""
        with self._by.use:
            self.forget()
            self._opening = self._by.opened(self.channel_id)
            self._by.closed.pop(self.channel_id, None)
            self._before = self._last

    def forget(self) -> None:
        """Its messages and consumers are no more."""
        self._handed, self._got = {}, {}
        for consuming in list(self._consuming.values()):
            self.ended(consuming)

    def ended(self, consuming: Consuming) -> None:
        """Nothing of this consumer is handed on any more."""
        consuming.is_over = True
        self._consuming.pop(consuming.tag, None)
        self.no_ack_consumers.discard(consuming.tag)
        self._by.consuming.pop((self.channel_id, consuming.tag.encode()), None)

    # ---- topology

    def exchange_declare(self, exchange: str, type: str = "direct", passive: bool = False, durable: bool = False, auto_delete: bool = True,
                         nowait: bool = False, arguments: Any = None, **_: Any) -> None:
        self._ask(_asks.exchange_declare, exchange, type, passive=passive, durable=durable, auto_delete=auto_delete, arguments=_in_utc(arguments))

    def exchange_delete(self, exchange: str, if_unused: bool = False, nowait: bool = False, **_: Any) -> None:
        self._ask(_asks.exchange_delete, exchange, if_unused=if_unused)

    def exchange_bind(self, destination: str, source: str = "", routing_key: str = "", nowait: bool = False, arguments: Any = None, **_: Any) -> None:
        self._ask(_asks.exchange_bind, destination, source, routing_key, arguments=_in_utc(arguments))

    def exchange_unbind(self, destination: str, source: str = "", routing_key: str = "", nowait: bool = False, arguments: Any = None, **_: Any) -> None:
        self._ask(_asks.exchange_unbind, destination, source, routing_key, arguments=_in_utc(arguments))

    def queue_declare(self, queue: str = "", passive: bool = False, durable: bool = False, exclusive: bool = False, auto_delete: bool = True,
                      nowait: bool = False, arguments: Any = None, **_: Any) -> queue_declare_ok_t:
        found = self._ask(_asks.queue_declare, queue, passive=passive, durable=durable, exclusive=exclusive, auto_delete=auto_delete,
                          arguments=_in_utc(arguments))
        return queue_declare_ok_t(*found)

    def queue_bind(self, queue: str, exchange: str = "", routing_key: str = "", nowait: bool = False, arguments: Any = None, **_: Any) -> None:
        self._ask(_asks.queue_bind, queue, exchange, routing_key, arguments=_in_utc(arguments))

    def queue_unbind(self, queue: str, exchange: str, routing_key: str = "", nowait: bool = False, arguments: Any = None, **_: Any) -> None:
        self._ask(_asks.queue_unbind, queue, exchange, routing_key, arguments=_in_utc(arguments))

    def queue_purge(self, queue: str = "", nowait: bool = False, **_: Any) -> int:
        return self._ask(_asks.queue_purge, queue)

    def queue_delete(self, queue: str = "", if_unused: bool = False, if_empty: bool = False, nowait: bool = False, **_: Any) -> int:
        return self._ask(_asks.queue_delete, queue, if_unused=if_unused, if_empty=if_empty)

    def basic_qos(self, prefetch_size: int, prefetch_count: int, a_global: bool = False, **_: Any) -> None:
        self._ask(_asks.qos, prefetch_count, whole=bool(a_global))

    def basic_recover(self, requeue: bool = False) -> None:
        self._ask(_asks.recover, requeue=requeue)

    def flow(self, active: bool) -> bool:
        return self._ask(_asks.flow, active)

    def tx_select(self) -> None:
        self._ask(_asks.tx_select)

    def tx_commit(self) -> None:
        self._ask(_asks.tx_commit)

    def tx_rollback(self) -> None:
        self._ask(_asks.tx_rollback)

    def confirm_select(self, nowait: bool = False) -> None:
        """Every further publish of the connection's channels waits for its confirm from now on here."""
        with self._used("confirm_select"):
            if not self._opening._confirms.is_on:
                self._by.asked(_asks.confirm_select(self.channel_id))
                self._opening._confirms.is_on = True

    # ---- messages out

    def prepare_message(self, body: Any, priority: Optional[int] = None, content_type: Optional[str] = None, content_encoding: Optional[str] = None,
                        headers: Optional[Dict[str, Any]] = None, properties: Optional[Dict[str, Any]] = None) -> Outgoing:
        given = {name: value for name, value in (properties or {}).items() if name in _octets.PLACES}
        if isinstance(body, str):
            content_encoding = content_encoding or "utf-8"
            body = body.encode(content_encoding)
        given.update(priority=priority, content_type=content_type, content_encoding=content_encoding, headers=headers or None)
        return Outgoing(body, given)

    def prepare_queue_arguments(self, arguments: Any, **options: Any) -> Any:
        return base.to_rabbitmq_queue_arguments(arguments, **options)

    def basic_publish(self, message: Outgoing, exchange: str = "", routing_key: str = "", mandatory: bool = False, immediate: bool = False,
                      timeout: Optional[float] = None, confirm_timeout: Optional[float] = None, **_: Any) -> None:
        """Publishes. With confirms it waits for the broker's answer; without them, until the kernel has it."""
        by = self._by
        with self._used("publish"):
            by.glance()  # a close that came is known before anything is published
            self._opened()
            opening, properties = self._opening, message.properties
            try:
                confirm = opening.publish(exchange, routing_key, message.body, mandatory=mandatory, **properties)
            except TypeError:  # a datetime without a time zone, where it is one
                confirm = opening.publish(exchange, routing_key, message.body, mandatory=mandatory, **_in_utc(properties))
            if not opening._confirms.is_on:
                confirm.forget()
                return by.left(timeout)
            try:
                outcome = confirm.wait(confirm_timeout or timeout or by.patience)
            except Error:
                by.told(self.channel_id)
                raise
        if outcome.kind == "nack":
            raise errors.MessageNacked()
        if outcome.returned is not None:
            self.came_back(outcome.returned)

    def came_back(self, returned: Returned) -> None:
        """Tells those that listen of a message that came back; it is an error where nobody does."""
        error = errors.error_for_code(returned.reply_code, returned.reply_text, (60, 50), errors.ChannelError)
        if not self.events["basic_return"]:
            raise error
        message = Message(self, returned.properties_octets, returned.body, None, {"exchange": returned.exchange, "routing_key": returned.routing_key})
        for call in list(self.events["basic_return"]):
            call(error, returned.exchange, returned.routing_key, message)

    # ---- messages in

    def message_to_python(self, message: Any) -> Any:
        return message

    def taken(self, given: Given, info: Dict[str, Any], no_ack: bool, is_got: bool = False) -> Coming:
        """A message that is handed on, which is settled by its tag."""
        tag = self._before + given.delivery_tag
        self._last = max(self._last, tag)
        if not no_ack:
            (self._got if is_got else self._handed)[tag] = given
        info.update(delivery_tag=tag, redelivered=given.redelivered, exchange=given.exchange, routing_key=given.routing_key)
        return Message(self, given.properties_octets, given.body, tag, info)

    def basic_get(self, queue: str = "", no_ack: bool = False, **_: Any) -> Optional[Coming]:
        with self._used("basic_get"):
            given = self._by.asked(self._opening._asked_get(queue, bool(no_ack)))
        return None if given is None else self.taken(given, {"message_count": given.left}, bool(no_ack), is_got=True)

    def basic_consume(self, queue: str = "", consumer_tag: str = "", no_local: bool = False, no_ack: bool = False, exclusive: bool = False,
                      nowait: bool = False, callback: Any = None, arguments: Any = None, on_cancel: Any = None, **_: Any) -> str:
        with self._used("basic_consume"):
            by = self._by
            tag, asked = self._opening._asked_consume(queue, consumer_tag, bool(no_ack), bool(exclusive), _in_utc(arguments))
            consuming = Consuming(self, tag, callback, bool(no_ack), on_cancel)
            at = self.channel_id, tag.encode()
            if at in by.consuming:
                raise errors.NotAllowed(f"attempt to reuse consumer tag '{tag}'", (60, 20))
            by.consuming[at], self._consuming[tag] = consuming, consuming  # its first messages may come with the answer
            try:
                consuming.given = Consumer(self._opening, by.asked(asked), tag, bool(no_ack))
            except BaseException:
                self.ended(consuming)
                raise
            if no_ack:
                self.no_ack_consumers.add(tag)
        return tag

    def basic_cancel(self, consumer_tag: str, nowait: bool = False, **_: Any) -> None:
        """Cancels a consumer: what came for it and wasn't handed on goes back. What was handed on is to be settled still."""
        consuming = self._consuming.get(consumer_tag)
        if consuming is None or not self.is_open or self.channel_id in self._by.closed:
            return
        with self._used("basic_cancel"):
            self.ended(consuming)
            if consuming.given is not None:
                consuming.given.cancel(self._by.patience)
            self._by.left(None)

    def basic_ack(self, delivery_tag: int, multiple: bool = False, **_: Any) -> None:
        self._settle("ack", delivery_tag, multiple, [])

    def basic_reject(self, delivery_tag: int, requeue: bool = True, **_: Any) -> None:
        self._settle("reject", delivery_tag, False, [bool(requeue)])

    def basic_nack(self, delivery_tag: int, multiple: bool = False, requeue: bool = True, **_: Any) -> None:
        self._settle("nack", delivery_tag, multiple, [bool(requeue)])

    def _settle(self, call: str, tag: int, multiple: bool, more: List[bool]) -> None:
        """Settles a message by its tag, with `multiple` each one that was handed on up to it: by one frame where it came to a consumer, since no
        message that nobody was handed has a lower tag then; one by one where it came by a get."""
        with self._used(f"basic_{call}"):
            if tag not in self._handed and tag not in self._got:
                raise errors.PreconditionFailed(f"unknown delivery tag {tag}", (60, 80), reply_code=406)
            is_one = multiple and tag in self._handed
            tags = [tag]
            if multiple:
                tags = sorted(it for line in (self._handed, self._got) for it in takewhile(lambda at: at <= tag, line))
            given = [(self._handed if it in self._handed else self._got).pop(it) for it in tags]
            marks = more if call == "reject" else [is_one, *more]
            settle = self._opening._session.settle
            is_settled = [settle(call, it._acker, *marks) for it in (given[-1:] if is_one else given)]
            self._by.left(None)
            if not is_settled[-1]:
                raise errors.RecoverableChannelError(f"basic_{call}: the channel has ended", (60, 80))

    def close(self, *_: Any) -> None:
        """Closes it. What was handed on and isn't settled goes back."""
        by, is_open = self._by, self.is_open
        self.connection = None
        by.channels.pop(self.channel_id, None)
        is_closed = by.closed.pop(self.channel_id, 0) != 0
        self.forget()
        if is_open and not is_closed:
            with by.use:
                by.asked(_asks.channel_close(self.channel_id))
                by.freed(self.channel_id)
