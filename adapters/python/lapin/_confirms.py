"""The publishes of a channel that have no outcome yet, and whose a message is that came back.

The session gives a message that came back to the publish that is settled next (docs/RULES.md, "Settlements and returned messages"). RabbitMQ
settles routed publishes by one ack behind the return of later ones, so that may be another one's. Here it goes to the mandatory publish that it
equals in exchange, routing key, properties and body: the oldest of those that are open; equal ones are interchangeable. What equals none is
nobody's. Each settlement that is seen in the octets of the broker has the session asked for the outcomes that it covers, and for no other one.
"""
from __future__ import annotations

import struct
from hashlib import blake2b
from itertools import takewhile
from typing import Any, Dict, Iterable, List, Optional, Set, Tuple, Union

from ._library import Numbered, Session
from ._octets import is_within
from ._values import BY_NUMBER, Outcome, Returned
from .errors import CallFailed, Error, Refused

HEAD = struct.Struct(">BHI")
#: The methods that are looked for in the octets of the broker.
ACK, NACK, RETURN = b"\x00\x3c\x00\x50", b"\x00\x3c\x00\x78", b"\x00\x3c\x00\x32"
CLOSES = frozenset((b"\x00\x14\x00\x28", b"\x00\x14\x00\x29", b"\x00\x0a\x00\x32", b"\x00\x0a\x00\x33"))
LOOKED_FOR = CLOSES | {ACK, NACK, RETURN}
#: The methods that name a consumer: a delivery, and the broker's cancel.
NAMING = frozenset((b"\x00\x3c\x00\x3c", b"\x00\x3c\x00\x1e"))
#: The octets of a frame within which such a method says all that is looked for.
TOLD = 21
#: That it isn't known how many messages came back.
UNKNOWN = 1 << 60
#: So many publishes of which nobody asks the outcome are held at least before they are asked for here.
LEAST = 1024

Found = Union[None, Outcome, Error]
#: What a publish is told whose outcome was lost, since an exception fell as it was read.
UNTOLD = CallFailed("Untold: an exception fell as outcomes were read")
#: What a mandatory publish is told while a message that came back can't be read.
UNSORTED = CallFailed("Unsorted: a message came back, and it isn't known whose")


#: What a message says: exchange, routing key, and its body by its length and octets or digest; and the octets of its properties.
Identity = Tuple[Tuple[bytes, bytes, int, bytes], bytes]


def identity_of(exchange: bytes, routing_key: bytes, properties: bytes, body: bytes) -> Identity:
    """A body above 64 octets stands as its length and its BLAKE2b digest of 32: nobody can make two that are equal there and not in their octets."""
    size = len(body)
    return (exchange, routing_key, size, body if size <= 64 else blake2b(body, digest_size=32).digest()), properties


def came_back(session: Session, place: int) -> Optional[Returned]:
    """A message that came back, by its place among those that the session told of last."""
    found = session.return_at(place)
    if found is None:
        return None
    code, text, (_, _, _, exchange, routing_key, properties, body) = found
    return Returned(code, text, exchange, routing_key, properties, body)


class ConfirmCore(Numbered):
    """The outcome of a publish, once the broker has told it. It is about this publish and no other."""
    __slots__ = ("_channel", "_found")

    def __init__(self, channel: Any):
        self._channel, self._number = channel, 0
        self._found: Found = None

    def poll(self) -> Optional[Outcome]:
        """The outcome; None where there is none yet. An error is raised: nothing is known of the message then, and a consumer has to be
        ready for a second copy of it if it is published again."""
        found = self._found
        if found is None:
            found = self._channel._look(self)
        if found is None or type(found) is Outcome:
            return found
        assert isinstance(found, Error)
        raise type(found)(found.words, found.reason)

    def forget(self) -> None:
        """The outcome will not be asked for any more: its memory is let go. Where the message comes back, `wait_for_confirms` gives it."""
        self._channel._session.check_thread()
        if self._channel._confirms.is_on:
            self._channel._confirms.forgotten.add(self)
        else:
            self._channel._session.forget(self._number)


class Confirms:
    """The publishes of one opening of a channel. Where confirms are on, which is before the first of them, tags count them from 1."""

    def __init__(self, session: Session, channel: Any):
        self._session, self._channel = session, channel
        self.is_on = False
        #: Whether a publish was mandatory, so that messages may come back.
        self.is_used = False
        # Whether an outcome with a message is being read: an exception that fell then may have lost that message.
        self._is_reading = False
        # The publishes whose outcomes are read just now: UNTOLD ones that aren't among them were left so by an exception.
        self._now: Set[ConfirmCore] = set()
        #: The tag of the last publish, and that at which it is looked what may be let go.
        self.tag, self.next = 0, LEAST
        #: The publishes that may have no outcome yet, by their tags, and those of which nobody asks it.
        self.open: Dict[int, ConfirmCore] = {}
        self.forgotten: Set[ConfirmCore] = set()
        # The mandatory ones that nothing came back for: what each says, and who says it, in their order. And what came back for others.
        self._says: Dict[ConfirmCore, Identity] = {}
        self._alike: Dict[Any, Dict[bytes, Dict[ConfirmCore, None]]] = {}
        self._came: Dict[ConfirmCore, Returned] = {}
        #: How many messages came back that the session has given to no publish yet, and mandatory ones that wait for these to be sorted.
        self.unread = 0
        self._held: Dict[ConfirmCore, Outcome] = {}
        #: Messages that came back and that no confirm gives.
        self.strangers: List[Returned] = []

    # ---- publishes come

    def expect(self, confirm: ConfirmCore, identity: Identity) -> None:
        """A mandatory publish that is about to be made."""
        if not self.is_used:
            self.is_used, self._is_reading = True, False
        self._says[confirm] = identity
        rest, properties = identity
        alike = self._alike.get(rest)
        if alike is None:
            self._alike[rest] = {properties: {confirm: None}}
        else:
            alike.setdefault(properties, {})[confirm] = None

    def prune(self) -> None:
        """Lets those go that have their outcome, so that none is held of which nobody asks it."""
        self.open = {tag: confirm for tag, confirm in self.open.items() if confirm._found is None}
        if len(self.open) > LEAST:
            self.take(list(self.open))
        self.forgotten.intersection_update(self.open.values())
        for confirm in [it for it in self._says if it._found is not None]:  # exceptions fell as they were told
            self._strike(confirm)
        self.next = self.tag + len(self.open) + LEAST

    def drop(self, confirm: ConfirmCore) -> None:
        """A publish that was about to be made was refused."""
        if self.open.get(self.tag + 1) is confirm:
            del self.open[self.tag + 1]
        self._strike(confirm)

    # ---- outcomes come

    def _ask(self, confirm: ConfirmCore) -> Found:
        """Takes the outcome of a publish from the session, which gives it once. Until it is stored that publish is told UNTOLD."""
        if confirm._found is not None or confirm._number == 0 or self._held and confirm in self._held:
            return confirm._found
        confirm._found = UNTOLD
        self._now.add(confirm)
        code = self._session.outcome(confirm._number)
        found: Found = BY_NUMBER.get(code)
        if found is None and (code or self.unread):  # without a message that came back there is none yet
            found = self._beyond(code, confirm._number)
        if found is None:
            confirm._found = None
        return found

    def _beyond(self, code: int, number: int) -> Found:
        """What the session's number tells not all of: an error, a message that came back, or nothing yet."""
        if code:
            return self.failed(self._session.refusal())
        self._is_reading = True  # an exception that falls now may lose a message that came back
        try:
            code = self._session.confirmed(number)
            returned = came_back(self._session, 0) if code in BY_NUMBER else None
        except Refused as error:  # it was given or forgotten
            self._is_reading = False
            return self.failed(error.words)
        except MemoryError:  # what came back isn't read, so that it isn't known whose it is
            return self.failed("NoMemory")
        except ValueError:  # the session takes nothing further
            self._is_reading = False
            return self.failed("NoMemory")
        if returned is not None:
            self._give(returned)
        self._is_reading = False
        if code == 0:
            return None
        return BY_NUMBER[code] if code in BY_NUMBER else self.failed(self._session.refusal())

    def failed(self, words: str) -> CallFailed:
        failed: CallFailed = self._channel._failed(words)
        return failed

    def _give(self, returned: Returned) -> None:
        """Gives what came back to its own publish: the oldest that it equals, or, of a broker that adds properties, that it equals but for these."""
        self.unread -= self.unread > 0
        came = returned.properties_octets
        rest, _ = identity_of(returned.exchange.encode(), returned.routing_key.encode(), came, returned.body)
        alike = self._alike.get(rest, {})
        waiting: Iterable[ConfirmCore] = alike.get(came, ())
        if not waiting:
            waiting = next((it for sent, it in alike.items() if is_within(sent, came)), ())
        for confirm in waiting:
            if confirm._found is not UNTOLD or confirm in self._now:
                self._came[confirm] = returned
                self._strike(confirm)
                return
        self._strange(returned)

    def _strange(self, returned: Returned) -> None:
        """A message came back that no confirm gives."""
        self.strangers.append(returned)
        self._channel.connection._returning.setdefault(self._channel.number, 1)

    def _strike(self, confirm: ConfirmCore) -> None:
        """No message is given to this publish any more."""
        identity = self._says.pop(confirm, None)
        if identity is not None:
            rest, properties = identity
            alike = self._alike.get(rest, {})  # (an exception may have fallen as it was added)
            waiting = alike.get(properties, {})
            waiting.pop(confirm, None)
            if not waiting:
                alike.pop(properties, None)
                if not alike:
                    self._alike.pop(rest, None)

    def take(self, tags: Iterable[int]) -> List[ConfirmCore]:
        """Takes the outcomes of these publishes that are there: these publishes."""
        self._begin()
        return self._sort([(tag, it, self._ask(it)) for tag in tags if (it := self.open.get(tag)) is not None])

    def _begin(self) -> None:
        self._session.check_thread()
        self._now = set()
        if self._is_reading:
            self._give_up()

    def _sort(self, found: List[Tuple[int, ConfirmCore, Found]]) -> List[ConfirmCore]:
        """Tells publishes their outcomes, each with its own message, now that all that came back were given."""
        told = []
        for tag, confirm, it in found:
            if it is None:
                continue
            del self.open[tag]
            if self.unread and confirm in self._says and isinstance(it, Outcome):
                self._held[confirm] = it  # its message may be one that the session gives next
                confirm._found = None
            else:
                self._tell(confirm, it)
                told.append(confirm)
        if self._held and not (self.unread and self.open):
            held, self._held = self._held, {}
            for confirm, outcome in held.items():
                self._tell(confirm, UNSORTED if self.unread and confirm not in self._came else outcome)
            told += held
        return told

    def _tell(self, confirm: ConfirmCore, found: Union[Outcome, Error]) -> None:
        if self._says:
            self._strike(confirm)
        returned = self._came.pop(confirm, None) if self._came else None
        if returned is not None and isinstance(found, Outcome):
            found = Outcome(found.kind, returned)
            if confirm in self.forgotten:
                self._strange(returned)
        confirm._found = found

    def _give_up(self) -> None:
        """An exception fell as outcomes were read, and a message that came back may be lost: each mandatory publish that it may be is UNTOLD."""
        for confirm in list(self._says):
            confirm._found = UNTOLD
            self._strike(confirm)
        self._held, self._is_reading = {}, False

    def give_up(self) -> None:
        """The session tells no outcome any more: nothing is known of those that are open."""
        for confirm in [*self.open.values(), *self._held]:
            if confirm._found is None:
                confirm._found = CallFailed("NoMemory")
        self.open, self._held, self._says, self._alike = {}, {}, {}, {}

    def settle(self, tag: int, is_multiple: bool) -> List[ConfirmCore]:
        """A settlement came: the publishes that it covers and that have their outcome now."""
        if not is_multiple:
            return self.take([tag])
        return self.take(list(self.open) if tag == 0 else list(takewhile(lambda it: it <= tag, self.open)))

    def look(self, confirm: ConfirmCore) -> Found:
        """The outcome of a publish, if it is there."""
        session = self._session
        session.check_thread()
        if self.is_used:
            return self._look_around(confirm)
        confirm._found = UNTOLD
        code = session.outcome(confirm._number)
        confirm._found = found = BY_NUMBER[code] if code in BY_NUMBER else self._beyond(code, confirm._number)
        return found

    def _look_around(self, confirm: ConfirmCore) -> Found:
        """The outcome of a publish of a channel to which messages may come back: where its settlement wasn't seen as it came, all are asked."""
        self._begin()
        found = self._ask(confirm)
        if found is not None:
            self._sort([(tag, it, found if it is confirm else self._ask(it)) for tag, it in self.open.items()])
            if confirm._found is UNTOLD and confirm not in self.open.values():  # it was let go of before
                self._tell(confirm, found)
        return confirm._found


class Seen:
    """What the octets of the broker say of publishes, frame by frame. The session reads them; here it is looked for whom they are about."""

    def __init__(self) -> None:
        # How many octets of a frame are to come yet, and the head of one that isn't there whole.
        self._skip, self._rest = 0, b""
        #: Where somebody asks for it: channel and tag of each delivery and of each cancel, in the order in which they came.
        self.named: Optional[List[Tuple[int, bytes]]] = None

    def look(self, data: bytes) -> List[Tuple[bytes, int, int, bool]]:
        """The methods that are looked for: class and method, channel, and of a settlement its tag and whether it covers those below."""
        if self._rest:
            data, self._rest = self._rest + data, b""
        at, end, found, unpack = self._skip, len(data), [], HEAD.unpack_from
        while at + 7 <= end:
            kind, channel, size = unpack(data, at)
            if kind == 1:
                if end - at < TOLD and end - at < size + 8:
                    break
                name = data[at + 7:at + 11]
                if name in LOOKED_FOR:
                    found.append((name, channel, int.from_bytes(data[at + 11:at + 19], "big"), data[at + 19:at + 20] != b"\x00"))
                elif self.named is not None and name in NAMING:
                    if end - at < 267 and end - at < size + 8:  # the tag may have 255 octets
                        break
                    self.named.append((channel, data[at + 12:at + 12 + data[at + 11]]))
            at += size + 8
        self._skip = max(at - end, 0)
        if at < end:
            self._rest = data[at:]
        return found
