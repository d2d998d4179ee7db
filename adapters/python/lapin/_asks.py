"""The calls of a channel that wait for an answer of the broker, each once: the octets of its method, and its answer's value. Both connections make
methods of them; the waiting stands in `connection.py` and `aio.py`."""
from __future__ import annotations

import inspect
from dataclasses import dataclass
from typing import Any, Callable, Dict, Generic, Optional, TypeVar

from ._arguments import flag, octets_of, whole
from ._library import Reply
from ._octets import table_of
from ._values import Queue

T = TypeVar("T")


@dataclass
class Ask(Generic[T]):
    """A call: its method's octets (none where it is a limit), its answer's value, and what is done with an answer for which nobody waits any more."""
    channel: int
    method: bytes
    read: Callable[[Reply], T]
    undo: Optional[Callable[[T], Any]] = None
    limit: int = 0


def shown(make: Callable[..., Ask[Any]], call: Callable[..., Any]) -> None:
    """Gives a method of a channel the name, the words and the arguments of the call that it makes."""
    call.__name__, call.__qualname__, call.__doc__ = make.__name__, f"Channel.{make.__name__}", make.__doc__
    given = inspect.signature(make)
    first, *rest = given.parameters.values()
    answer = str(given.return_annotation).removeprefix("Ask[").removesuffix("]")
    call.__signature__ = given.replace(parameters=[first.replace(name="self", annotation=first.empty), *rest], return_annotation=answer)  # type: ignore[attr-defined]


def nothing(reply: Reply) -> None:
    """The value of an answer that says no more than that it was done."""


def count(reply: Reply) -> int:
    return reply.number


def short(name: str, value: Any) -> bytes:
    """A short text behind its length."""
    data = octets_of(name, value)
    return bytes((len(data),)) + data


def bits(**given: bool) -> bytes:
    """Up to eight marks in an octet, the first one lowest."""
    return bytes((sum(flag(name, value) << place for place, (name, value) in enumerate(given.items())),))


def ask(channel: int, klass: int, method: int, *arguments: bytes, read: Callable[[Reply], T]) -> Ask[T]:
    return Ask(channel, b"".join((bytes((0, klass, 0, method)), *arguments)), read)


#: The first argument of many methods, of which RabbitMQ knows nothing.
_TICKET = b"\0\0"
#: Why this side closes: the code 200, its text, and no method that failed.
_BYE = b"\0\xc8\x03bye\0\0\0\0"


def queue_declare(channel: int, queue: str = "", *, durable: bool = False, exclusive: bool = False, auto_delete: bool = False,
                  passive: bool = False, arguments: Optional[Dict[str, Any]] = None) -> Ask[Queue]:
    """Declares a queue; with an empty name the broker makes one up. Its name, its messages and its consumers."""
    marks = bits(passive=passive, durable=durable, exclusive=exclusive, auto_delete=auto_delete)
    return ask(channel, 50, 10, _TICKET, short("queue", queue), marks, table_of("arguments", arguments),
               read=lambda reply: Queue(reply.text, reply.messages, reply.consumers))


def queue_delete(channel: int, queue: str, *, if_unused: bool = False, if_empty: bool = False) -> Ask[int]:
    """Deletes a queue. How many messages it had."""
    return ask(channel, 50, 40, _TICKET, short("queue", queue), bits(if_unused=if_unused, if_empty=if_empty), read=count)


def queue_purge(channel: int, queue: str) -> Ask[int]:
    """Drops the messages that wait in a queue. How many."""
    return ask(channel, 50, 30, _TICKET, short("queue", queue), b"\0", read=count)


def queue_bind(channel: int, queue: str, exchange: str, routing_key: str = "", *, arguments: Optional[Dict[str, Any]] = None) -> Ask[None]:
    """Binds a queue to an exchange."""
    names = short("queue", queue), short("exchange", exchange), short("routing_key", routing_key)
    return ask(channel, 50, 20, _TICKET, *names, b"\0", table_of("arguments", arguments), read=nothing)


def queue_unbind(channel: int, queue: str, exchange: str, routing_key: str = "", *, arguments: Optional[Dict[str, Any]] = None) -> Ask[None]:
    """Takes a binding away."""
    names = short("queue", queue), short("exchange", exchange), short("routing_key", routing_key)
    return ask(channel, 50, 50, _TICKET, *names, table_of("arguments", arguments), read=nothing)


def exchange_declare(channel: int, exchange: str, kind: str = "direct", *, durable: bool = False, auto_delete: bool = False,
                     internal: bool = False, passive: bool = False, arguments: Optional[Dict[str, Any]] = None) -> Ask[None]:
    """Declares an exchange: `direct`, `fanout`, `topic`, `headers`, or a kind of the broker's own."""
    marks = bits(passive=passive, durable=durable, auto_delete=auto_delete, internal=internal)
    return ask(channel, 40, 10, _TICKET, short("exchange", exchange), short("kind", kind), marks, table_of("arguments", arguments), read=nothing)


def exchange_delete(channel: int, exchange: str, *, if_unused: bool = False) -> Ask[None]:
    """Deletes an exchange."""
    return ask(channel, 40, 20, _TICKET, short("exchange", exchange), bits(if_unused=if_unused), read=nothing)


def exchange_bind(channel: int, destination: str, source: str, routing_key: str = "", *, arguments: Optional[Dict[str, Any]] = None) -> Ask[None]:
    """Binds an exchange to another one."""
    names = short("destination", destination), short("source", source), short("routing_key", routing_key)
    return ask(channel, 40, 30, _TICKET, *names, b"\0", table_of("arguments", arguments), read=nothing)


def exchange_unbind(channel: int, destination: str, source: str, routing_key: str = "", *, arguments: Optional[Dict[str, Any]] = None) -> Ask[None]:
    """Takes a binding of two exchanges away."""
    names = short("destination", destination), short("source", source), short("routing_key", routing_key)
    return ask(channel, 40, 40, _TICKET, *names, b"\0", table_of("arguments", arguments), read=nothing)


def qos(channel: int, prefetch: int, *, whole: bool = False) -> Ask[None]:
    """How many messages may be unsettled, 0 to 65535, where 0 is no limit: of each consumer, or with `whole` of the channel."""
    return ask(channel, 60, 10, b"\0\0\0\0", _two("prefetch", prefetch), bits(whole=whole), read=nothing)


def _two(name: str, value: int) -> bytes:
    return whole(name, value, 0, 0xffff).to_bytes(2, "big")


def recover(channel: int, *, requeue: bool = True) -> Ask[None]:
    """Has all unsettled messages delivered again: to anybody, or without `requeue` to whom they went first, at which
    RabbitMQ ends the connection."""
    return ask(channel, 60, 110, bits(requeue=requeue), read=nothing)


def flow(channel: int, active: bool) -> Ask[bool]:
    """Asks the broker to stop its messages to this channel, or to go on. Whether it goes on. At a stop RabbitMQ ends the connection."""
    return ask(channel, 20, 20, bits(active=active), read=lambda reply: reply.number == 1)


def tx_select(channel: int) -> Ask[None]:
    """Puts the channel into transactions."""
    return ask(channel, 90, 10, read=nothing)


def tx_commit(channel: int) -> Ask[None]:
    """Commits."""
    return ask(channel, 90, 20, read=nothing)


def tx_rollback(channel: int) -> Ask[None]:
    """Rolls back."""
    return ask(channel, 90, 30, read=nothing)


def channel_open(channel: int) -> Ask[None]:
    return ask(channel, 20, 10, b"\0", read=nothing)


def channel_close(channel: int) -> Ask[None]:
    return ask(channel, 20, 40, _BYE, read=nothing)


def connection_close() -> Ask[None]:
    return ask(0, 10, 50, _BYE, read=nothing)


def confirm_select(channel: int) -> Ask[None]:
    return ask(channel, 85, 10, b"\0", read=nothing)


def confirm_limit(channel: int, limit: int) -> Ask[None]:
    return Ask(channel, b"", nothing, limit=whole("limit", limit, 0, (1 << 32) - 1))


def get(channel: int, queue: str, no_ack: bool) -> Ask[Reply]:
    return ask(channel, 60, 70, _TICKET, short("queue", queue), bits(no_ack=no_ack), read=lambda reply: reply)


def consume(channel: int, queue: str, tag: str, no_ack: bool, exclusive: bool, arguments: Optional[Dict[str, Any]]) -> Ask[int]:
    marks = bits(no_local=False, no_ack=no_ack, exclusive=exclusive)
    return ask(channel, 60, 20, _TICKET, short("queue", queue), short("tag", tag), marks, table_of("arguments", arguments), read=count)


def cancel(channel: int, tag: str) -> Ask[None]:
    return ask(channel, 60, 30, short("tag", tag), b"\0", read=nothing)
