"""What calls answer: queues, outcomes, messages that came back, and messages that a consumer or a get was given."""
from __future__ import annotations

from dataclasses import dataclass
from functools import cached_property
from typing import Any, Callable, Dict, NamedTuple, Optional

from ._arguments import flag
from ._octets import Malformed, read_properties
from .errors import MalformedProperties


class Queue(NamedTuple):
    """A declared queue: its name, how many messages it has, and how many consumers."""
    name: str
    messages: int
    consumers: int

    def __str__(self) -> str:
        return self.name


def named(octets: bytes) -> Dict[str, Any]:
    """Properties by their names, of their octets."""
    try:
        return read_properties(octets)
    except Malformed as error:
        raise MalformedProperties(f"MalformedProperties: {error}") from error


@dataclass(frozen=True)
class Returned:
    """A message that came back, since no queue wanted it."""
    reply_code: int
    reply_text: str
    exchange: str
    routing_key: str
    properties_octets: bytes
    body: bytes

    @cached_property
    def properties(self) -> Dict[str, Any]:
        """Its properties, as of a `Message`."""
        return named(self.properties_octets)


@dataclass(frozen=True, eq=False)
class Outcome:
    """What became of a publish: `ack`, `nack`, or `notrequested` where its channel asked for no confirms; and the message, where it came
    back. It is true where the broker answers for the message and a queue has it, and equal to its text: `ack` where nothing came back."""
    kind: str
    returned: Optional[Returned] = None

    def __bool__(self) -> bool:
        return self.kind == "ack" and self.returned is None

    def __str__(self) -> str:
        return self.kind if self.returned is None else f"{self.kind}, returned: {self.returned.reply_text}"

    def __eq__(self, other: object) -> bool:
        if isinstance(other, str):
            return str(self) == other
        return isinstance(other, Outcome) and (self.kind, self.returned) == (other.kind, other.returned)

    def __hash__(self) -> int:
        return hash(str(self))


class Message:
    """A message that a consumer or a get was given. One of `ack`, `nack` and `reject` settles it, once."""
    __slots__ = ("_settle", "_acker", "_properties", "properties_octets", "delivery_tag", "redelivered", "exchange", "routing_key", "body", "left")

    def __init__(self, settle: Callable[..., bool], delivery_tag: int, acker: int, redelivered: bool, exchange: str, routing_key: str,
                 properties_octets: bytes, body: bytes, left: Optional[int] = None):
        self._settle, self._acker = settle, acker
        self._properties: Optional[Dict[str, Any]] = None
        #: Its list of properties as it came: flags, and what they say is there.
        self.properties_octets = properties_octets
        self.delivery_tag, self.redelivered, self.exchange, self.routing_key, self.body = delivery_tag, redelivered, exchange, routing_key, body
        #: Of a message of `get`: how many the queue still has.
        self.left = left

    def __repr__(self) -> str:
        return f"<Message {self.delivery_tag} of {self.exchange!r}, {self.routing_key!r}: {len(self.body)} octets>"

    @property
    def properties(self) -> Dict[str, Any]:
        """Its properties, by their names: `headers`, `reply_to`, `correlation_id` .. A text that is no UTF-8 comes as bytes. Octets that are no list
        of properties are a `MalformedProperties`, which names the fault: `properties_octets` has them, and the message can be settled as any."""
        if self._properties is None:
            self._properties = named(self.properties_octets)
        return self._properties

    def ack(self, multiple: bool = False) -> bool:
        """Acknowledges it, with `multiple` all of its channel up to it too. Whether that is sent: not where it was settled before, or its
        channel has ended; then the broker delivers it again. `multiple` is refused while another consumer of the channel has messages to
        acknowledge, and of a message of `get` while any has: it would settle messages that nobody has seen."""
        return self._settle("ack", self._acker, flag("multiple", multiple))

    def nack(self, requeue: bool = True, multiple: bool = False) -> bool:
        """Gives it back, with `multiple` all of its channel up to it too. Whether that is sent, and when `multiple` is refused, as of `ack`."""
        return self._settle("nack", self._acker, flag("multiple", multiple), flag("requeue", requeue))

    def reject(self, requeue: bool = True) -> bool:
        """Gives it back. Whether that is sent, as of `ack`."""
        return self._settle("reject", self._acker, flag("requeue", requeue))


#: The outcomes of publishes that didn't come back, by the number that the session gives.
BY_NUMBER = dict(enumerate(map(Outcome, ("ack", "nack", "notrequested")), 1))
