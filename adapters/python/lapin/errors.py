"""What can go wrong, and what is known then."""
from __future__ import annotations

from typing import NamedTuple, Optional


class CloseReason(NamedTuple):
    """Why the broker closed a channel or the connection: its code, the class and the method at which it did, and its words."""
    code: int
    class_id: int
    method_id: int
    text: str

    def __str__(self) -> str:
        at = f" at {METHODS.get((self.class_id, self.method_id), f'{self.class_id}.{self.method_id}')}" if self.class_id else ""
        return f"{self.code}{at}: {self.text}"


#: The methods at which a broker closes, by the standard's numbers.
METHODS = {(10, 40): "connection.open", (20, 10): "channel.open", (20, 20): "channel.flow", (40, 10): "exchange.declare", (40, 20): "exchange.delete", (40, 30): "exchange.bind",
           (40, 40): "exchange.unbind", (50, 10): "queue.declare", (50, 20): "queue.bind", (50, 30): "queue.purge", (50, 40): "queue.delete", (50, 50): "queue.unbind",
           (60, 10): "basic.qos", (60, 20): "basic.consume", (60, 30): "basic.cancel", (60, 40): "basic.publish", (60, 70): "basic.get",
           (60, 80): "basic.ack", (60, 90): "basic.reject", (60, 110): "basic.recover", (60, 120): "basic.nack", (85, 10): "confirm.select",
           (90, 10): "tx.select", (90, 20): "tx.commit", (90, 30): "tx.rollback"}


class Error(Exception):
    """An error of this package. `cause` is its first word, as `ProtocolError`, `code` the number behind it, if there is one, and `reason` what the
    broker gave as it closed the channel or the connection, if that is why."""

    def __init__(self, words: str = "", reason: Optional[CloseReason] = None):
        super().__init__(words, reason)
        parts = words.split(" ")
        self.words, self.reason = words, reason
        self.cause = parts[0].rstrip(":")
        self.code = int(parts[1]) if len(parts) > 1 and parts[1].isdecimal() else None

    def __str__(self) -> str:
        if self.reason is None:
            return self.words
        words = self.words.removesuffix(f" {self.reason.code}")
        return f"{words} {self.reason}" if words != self.words else f"{words}, since the broker closed it: {self.reason}"


class Refused(Error):
    """A call was refused at once, as `InvalidChannelState closed`: nothing was sent, and nothing changed."""


class CallFailed(Error):
    """The answer of a call is an error: `ProtocolError 404` closed its channel, `ConnectionLost` ..; what the broker did is unknown."""


class ConnectionLost(Error):
    """The TCP connection is gone: hung up, silent for two heartbeats, or what came was no frame. Calls that were open have failed."""


class MalformedProperties(Error, ValueError):
    """The octets of a message's properties are no list of properties. `properties_octets` of the message has them; it can be settled as any."""


class OpeningFailed(Error):
    """The connection was not opened: no such host, a wrong user or virtual host, another version."""


class Timeout(Error, TimeoutError):
    """Nothing came in time. The call goes on."""
