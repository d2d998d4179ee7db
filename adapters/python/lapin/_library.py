"""The shared library: the opening of a connection, its heartbeats, and the session behind a handle. No socket lives here.

Calls and properties are AMQP's octets; what the session answers are numbers, and octets that are copied out. ctypes makes each call here; where the
extension is, it makes those of each message in their place.
"""
from __future__ import annotations

import ctypes
import os
import threading
import weakref
from io import BytesIO
from typing import TYPE_CHECKING, Any, Callable, NamedTuple, NoReturn, Optional, Tuple, Union

from ._loaded import _extension, _library
from ._structures import _Clock, _Fields, _Handle, _Message, _Opening, _Place, _Reason, _Refusal, _Return, _States
from .errors import CallFailed, CloseReason, Refused

DONE, REFUSED, NOT_IN_GRAMMAR, NO_MEMORY, ENDED, MALFORMED, TOO_LONG, CLOSED, PENDING, GONE, KEPT = range(11)
#: What a reply says, by its kind.
CHANNEL, CONSUMER, MESSAGE, EMPTY, QUEUE = 1, 3, 4, 5, 6
#: The states of a channel, by their numbers; OPEN of a connection is 0.
STATES = ("closed", "opening", "open", "closing", "crossed", "base", "down")
CONNECTION_OPEN = 0
#: The words of a refusal by its kind, with the fields that it has.
REFUSALS = ("", "NoMemory", "NumbersUsedUp", "InvalidChannelState {0}", "ProtocolError {1.code}", "ConnectionLost",
            "UnexpectedFrame {1.class_id} {1.method_id}", "PreconditionFailed {1.tag} {1.current}", "AlreadyTaken", "UnknownTicket",
            "ConfirmsOutstanding {1.limit}")
ALREADY_TAKEN, UNKNOWN_TICKET = 8, 9


def library_version() -> str:
    """What the shared object is: its release, `proved` or `unproved`, and the sha-256 of the text that it was made of; and who calls it, `extension`
    or `ctypes`."""
    words: bytes = _library.lapin_version()
    return f"{words.decode()} {'ctypes' if _extension is None else 'extension'}"


#: How want of memory is told: of an argument ctypes has its own error.
WANT = (MemoryError, ctypes.ArgumentError)
#: So many octets of an answer are copied once, and smaller ones as they are cut.
LARGE = 1 << 18
_here = threading.get_ident


class Opening:
    """The first frames of a connection. Bytes of the broker go in, bytes for it come out."""

    def __init__(self, user: bytes, password: bytes, vhost: bytes, frame_max: int, channel_max: int, heartbeat: int, mechanism: int = 0,
                 pairs: bytes = b""):
        self._who = (user, len(user), password, len(password), vhost, len(vhost), pairs, len(pairs))
        self._state = _Opening(0, frame_max, channel_max, heartbeat, mechanism)
        self._room = ctypes.create_string_buffer(1024 + 2 * (len(user) + len(password) + len(vhost)) + len(pairs))
        self._written, self._code = ctypes.c_size_t(), ctypes.c_uint16()

    @property
    def is_open(self) -> bool:
        return self.stage == 3

    @property
    def stage(self) -> int:
        stage: int = self._state.stage
        return stage

    @property
    def limits(self) -> Tuple[int, int, int]:
        """The greatest frame, the greatest channel and the seconds between heartbeats, on which both sides agreed."""
        return self._state.frame_max, self._state.channel_max, self._state.heartbeat

    @property
    def mechanism(self) -> int:
        """The mechanism that is wanted, and once one was said, that one."""
        mechanism: int = self._state.mechanism
        return mechanism

    @staticmethod
    def server_properties(data: bytes) -> bytes:
        """The octets of the broker's properties, where the frame at the head of the bytes tells them; else none."""
        place = _Place()
        if _library.lapin_server_properties(data, len(data), ctypes.byref(place)) != DONE:
            return b""
        return data[place.at:place.at + place.count]

    def shake(self, data: bytes) -> Tuple[int, bytes, int]:
        """What became of the frame at the head of the bytes, what is answered, and the code of a refusal."""
        status = _library.lapin_shake(ctypes.byref(self._state), data, len(data), *self._who, self._room, len(self._room),
                                      ctypes.byref(self._written), ctypes.byref(self._code))
        return status, ctypes.string_at(self._room, self._written.value), self._code.value


class Clock:
    """Heartbeats, by times in milliseconds."""

    def __init__(self, now: int, seconds: int):
        self._clock, self._wait = _Clock(now, now, seconds), ctypes.c_uint64()

    def sent(self, now: int) -> None:
        self._clock.sent = now

    def heard(self, now: int) -> None:
        self._clock.heard = now

    def due(self, now: int) -> Tuple[str, Optional[float]]:
        """`wait` with the seconds until something is due, `send`, `silent`, or `never`."""
        found = _library.lapin_beat(ctypes.byref(self._clock), now, ctypes.byref(self._wait))
        return ("wait", "send", "silent", "never")[found], self._wait.value / 1000 if found == 0 else None


#: The sessions of this process, which a child that is forked doesn't use.
_sessions: weakref.WeakSet[Session] = weakref.WeakSet()


def _forked() -> None:
    for session in _sessions:
        session.is_forked, session._thread = True, 0


os.register_at_fork(after_in_child=_forked)


#: A message: its delivery tag, its acker, whether it was redelivered, its exchange, its routing key, its list of properties and its body.
Parts = Tuple[int, int, bool, str, str, bytes, bytes]


class Reply(NamedTuple):
    """What the reply of a call says; what a kind has not is 0, empty or None."""
    kind: int
    number: int
    messages: int
    consumers: int
    text: str
    message: Optional[Parts]


class NumberedByCtypes:
    """A publish by the number of its confirm, 0 until it was accepted."""
    __slots__ = ("_number",)

    def __init__(self) -> None:
        self._number = 0


class SessionByCtypes:
    """One connection's session. Used by the thread that made it, and by no other one."""
    #: Whether something that the session gave once couldn't be told, for want of memory: the connection is to be given up.
    is_astray = False

    def __init__(self, frame_max: int):
        if not hasattr(self, "_by"):  # (the extension has a handle of its own)
            self._handle = _Handle(None, False)
            self._by = ctypes.addressof(self._handle)
        self._room = ctypes.create_string_buffer(1 << 16)
        self._size = len(self._room)
        self._confirm, self._message, self._reason = ctypes.c_uint64(), _Message(), _Reason()
        self._ticket, self._fields, self._refusal, self._states = ctypes.c_uint64(), _Fields(), _Refusal(), _States()
        self._number, self._return = ctypes.c_uint64(), _Return()
        self._number_at, self._return_at = ctypes.addressof(self._number), ctypes.addressof(self._return)
        self._confirm_at, self._message_at, self._reason_at = (ctypes.addressof(it) for it in (self._confirm, self._message, self._reason))
        self._ticket_at, self._fields_at = ctypes.addressof(self._ticket), ctypes.addressof(self._fields)
        self._refusal_at, self._states_at = ctypes.addressof(self._refusal), ctypes.addressof(self._states)
        self._thread, self.is_forked = _here(), False
        #: The number of the last publish that its caller was told, and by `last_confirm` of the last that was accepted.
        self.last = 0
        _sessions.add(self)
        self.check(_library.lapin_open(self._by, frame_max))

    def close(self) -> None:
        _library.lapin_close(self._by)

    def __del__(self, close: Any = _library.lapin_close) -> None:
        if hasattr(self, "_by"):
            close(self._by)

    def elsewhere(self) -> RuntimeError:
        """What a use from another thread or process is told."""
        if self.is_forked:
            return RuntimeError("a connection isn't used by a process that was forked from its own: connect in the child")
        return RuntimeError("a connection is used by the thread that made it: connect with threads=True, give each thread its own, or call "
                            "connection.move_here()")

    def move_here(self) -> None:
        if self.is_forked:
            raise self.elsewhere()
        self._thread = _here()

    def check_thread(self) -> None:
        """Raises an error where another thread or process is at work."""
        if _here() != self._thread:
            raise self.elsewhere()

    def check(self, status: int) -> None:
        """Raises the error that a status is."""
        if status == REFUSED:
            raise Refused(self.refusal())
        if status in (NO_MEMORY, KEPT):
            raise MemoryError
        if status == TOO_LONG:
            raise ValueError("longer than a frame may be")
        if status == CLOSED:
            raise Refused("the connection is closed")
        if status != DONE:
            raise ValueError("not in the grammar" if status == NOT_IN_GRAMMAR else f"status {status} of the session")

    def astray(self) -> MemoryError:
        """What is raised where something that the session gave once can't be told."""
        self.is_astray = True
        return MemoryError()

    def spilled(self, lose: Callable[[str], None]) -> MemoryError:
        """What is raised where there was no memory. Where something that the session gave couldn't be told, the connection is lost."""
        if self.is_astray:
            lose("there was no memory for what the session gave")
        return MemoryError()

    def _take(self, length: int, function: Any) -> bytes:
        if length > self._size:
            self._room = ctypes.create_string_buffer(2 * length)
            self._size = len(self._room)
        return ctypes.string_at(self._room, function(self._by, self._room, self._size))

    def _answer(self) -> bytes:
        return self._take(_library.lapin_answer_length(self._by), _library.lapin_answer)

    def _parts(self, found: Any, behind: int = 0) -> Parts:
        """The message that is the answer, with so many octets behind its body."""
        exchange, key, listed = found.exchange, found.routing_key, found.properties
        names = exchange + key
        head = names + listed
        if head + found.body > LARGE:
            data, body = self._split(head, found.body + behind)
        else:
            data = self._answer()
            body = data[head:]
        return (found.delivery_tag, found.acker, found.redelivered, data[:exchange].decode(errors="replace"),
                data[exchange:names].decode(errors="replace"), data[names:head], body)

    def _split(self, head: int, body: int) -> Tuple[bytes, bytes]:
        """The answer as its first octets and its others, which are copied once: they move to the front of what was copied, and are that."""
        room = BytesIO()
        room.seek(head + body - 1)
        room.write(b"\0")
        with room.getbuffer() as view:
            held = (ctypes.c_char * (head + body)).from_buffer(view)
            at = ctypes.addressof(held)
            _library.lapin_answer(self._by, at, head + body)
            first = ctypes.string_at(at, head)
            ctypes.memmove(at, at + head, body)
            del held
        room.truncate(body)
        return first, room.getvalue()

    def call(self, channel: int, method: bytes) -> int:
        """Makes the call of a method, its class, its number and its arguments. What its reply is asked by."""
        if _here() != self._thread:
            raise self.elsewhere()
        self.check(_library.lapin_call(self._by, channel, method, len(method), self._ticket_at))
        try:
            return self._ticket.value
        except WANT:
            raise self.astray() from None

    def limit(self, channel: int, limit: int) -> int:
        """So many publishes of a channel may be outstanding. What the reply is asked by."""
        self.check_thread()
        self.check(_library.lapin_limit(self._by, channel, limit, self._ticket_at))
        return self._ticket.value

    def reply(self, ticket: int) -> Optional[Reply]:
        """The reply of a call, given once; None where there is none yet. A call that failed is raised, and one whose reply was given is refused."""
        if _here() != self._thread:
            raise self.elsewhere()
        status = _library.lapin_reply(self._by, ticket, self._fields_at)
        if status == PENDING:
            return None
        if status == REFUSED:
            self.refuse_reply()
        self.check(status)
        found = self._fields
        try:
            kind: int = found.kind
            text = self._answer().decode(errors="replace") if kind in (QUEUE, CONSUMER) else ""
            return Reply(kind, found.number, found.messages, found.consumers, text, self._parts(found.message) if kind == MESSAGE else None)
        except WANT:
            raise self.astray() from None

    def refuse_reply(self) -> NoReturn:
        """Raises what a reply is that is refused."""
        words = self.refusal()
        raise Refused(words) if self._refusal.kind in (ALREADY_TAKEN, UNKNOWN_TICKET) else CallFailed(words)

    def forget_call(self, ticket: int) -> bool:
        """The reply of a call will not be asked for any more. Whether it was owed."""
        self.check_thread()
        status = _library.lapin_forget_call(self._by, ticket)
        if status == GONE:
            return False
        self.check(status)
        return True

    def lost(self) -> None:
        """The connection is gone: all that is open fails."""
        self.check_thread()
        self.check(_library.lapin_lost(self._by))

    def state(self, channel: int) -> str:
        """The state of a channel."""
        if _here() != self._thread:
            raise self.elsewhere()
        self.check(_library.lapin_state(self._by, channel, self._states_at))
        return STATES[self._states.channel]

    @property
    def is_open(self) -> bool:
        """Whether the connection is open."""
        self.state(0)
        return bool(self._states.connection == CONNECTION_OPEN)

    def publish_as(self, confirm: Numbered, channel: int, exchange: Union[str, bytes], routing_key: Union[str, bytes], body: bytes, properties: bytes,
                   mandatory: bool) -> None:
        """Publishes, and stores the number of the confirm there: 0 stays where nothing was published."""
        if _here() != self._thread:
            raise self.elsewhere()
        to = exchange if isinstance(exchange, bytes) else str.encode(exchange)
        key = routing_key if isinstance(routing_key, bytes) else str.encode(routing_key)
        status = _library.lapin_publish(self._by, channel, to, len(to), key, len(key), mandatory, False, body, len(body), properties, len(properties),
                                        self._confirm_at)
        if status:
            self.check(status)
        confirm._number = self.last = self._confirm.value

    def publish(self, channel: int, exchange: bytes, routing_key: bytes, body: bytes, properties: bytes = b"\0\0", mandatory: bool = False) -> int:
        """The number of the confirm of a publish."""
        confirm = Numbered()
        self.publish_as(confirm, channel, exchange, routing_key, body, properties, mandatory)
        return confirm._number

    @property
    def last_confirm(self) -> int:
        number: int = self._confirm.value
        return number

    def outcome(self, confirm: int) -> int:
        """Of a confirm, and given once: 1 an ack, 2 a nack, 3 none was asked for, 4 an error, whose words `refusal` has; 0 where there is none yet,
        or where a message came back, so that `confirmed` tells more."""
        if _here() != self._thread:
            raise self.elsewhere()
        found: int = _library.lapin_outcome(self._by, confirm)
        return found

    def confirmed(self, confirm: int) -> int:
        """The same of each confirm. 0 where there is none yet; one that was given, or never will be, is refused. `return_at` has what came back."""
        if _here() != self._thread:
            raise self.elsewhere()
        status = _library.lapin_confirmed(self._by, confirm, self._number_at)
        if status == PENDING:
            return 0
        self.check(status)
        return self._number.value

    def unclaimed(self, channel: int) -> Optional[int]:
        """How many messages came back that no outcome has, which `return_at` has then; None while a publish of the channel has no outcome."""
        self.check_thread()
        status = _library.lapin_unclaimed(self._by, channel, self._number_at)
        if status == PENDING:
            return None
        self.check(status)
        return self._number.value

    def return_at(self, place: int) -> Optional[Tuple[int, str, Parts]]:
        """A message that came back, by its place among those that were told of last: why, by number and words, and the message. None where none
        is there."""
        self.check_thread()
        status = _library.lapin_return_at(self._by, place, self._return_at)
        if status == PENDING:
            return None
        self.check(status)
        found, body = self._return, self._return.message.body
        parts = self._parts(found.message, found.text)
        return found.code, parts[6][body:].decode(errors="replace"), parts[:6] + (parts[6][:body],)

    def refusal(self) -> str:
        """The words of the last error or refusal."""
        if _library.lapin_why(self._by, self._refusal_at) != DONE:
            return ""
        state = self._refusal.state
        return REFUSALS[self._refusal.kind].format(STATES[state] if state < len(STATES) else state, self._refusal)

    def forget(self, confirm: int) -> None:
        """The confirm will not be asked for any more."""
        self.check_thread()
        _library.lapin_forget(self._by, confirm)

    def delivery(self, consumer: int) -> Union[None, str, Parts]:
        """What a consumer was handed next. None where there is nothing yet, and `end` at its end; an error that ended its channel is raised."""
        if _here() != self._thread:
            raise self.elsewhere()
        status = _library.lapin_delivery(self._by, consumer, self._message_at)
        if status == PENDING:
            return None
        if status == GONE:
            return "end"
        if status:
            self.check(status)
        try:
            return self._parts(self._message)
        except WANT:
            raise self.astray() from None

    def first_ready(self, kind: str, numbers: int, count: int, place: int) -> int:
        """The first place from this one on at which one of so many consumers, or calls (`kind` is `ready_consumer` or `ready_reply`), whose numbers
        lie at this address, has something to be told; `count` where there is none."""
        status = getattr(_library, "lapin_" + kind)(self._by, numbers, count, place, self._number_at)
        return self._number.value if status == DONE else count

    def settle(self, call: str, acker: int, *marks: bool) -> bool:
        """Calls an acker. Whether the call is sent: not where it was used before, or its channel has ended."""
        if _here() != self._thread:
            raise self.elsewhere()
        status = getattr(_library, "lapin_" + call)(self._by, acker, *marks)
        if status == GONE:
            return False
        self.check(status)
        return True

    def send(self, flow: bool = True, enough: int = 1 << 17) -> bytes:
        """The bytes of the frames that may leave."""
        if _here() != self._thread:
            raise self.elsewhere()
        status = _library.lapin_send(self._by, flow, enough)
        if status:
            self.check(status)
        length = _library.lapin_leaving_length(self._by)
        return self._take(length, _library.lapin_leaving) if length else b""

    def receive(self, data: bytes) -> Optional[str]:
        """Bytes of the broker. The words of a refusal, None where all was received; bytes that are no frame are a ValueError."""
        if _here() != self._thread:
            raise self.elsewhere()
        status = _library.lapin_receive(self._by, data, len(data))
        if status == DONE:
            return None
        if status == REFUSED:
            return self.refusal()
        if status == MALFORMED:
            raise ValueError("what came is no frame")
        self.check(status)
        return None

    @property
    def is_blocked(self) -> bool:
        self.check_thread()
        return bool(_library.lapin_is_blocked(self._by))

    def last_close(self, channel: int) -> Optional[CloseReason]:
        """Why the broker closed a channel last, or the connection, which is channel 0."""
        self.check_thread()
        if _library.lapin_last_close(self._by, channel, self._reason_at) != DONE:
            return None
        return CloseReason(self._reason.code, self._reason.class_id, self._reason.method_id, self._answer().decode(errors="replace"))


if TYPE_CHECKING or _extension is None:
    Numbered = NumberedByCtypes
    Session = SessionByCtypes
else:
    Numbered = _extension.Numbered

    class Session(_extension.Handle, SessionByCtypes):
        """One connection's session, whose calls of each message the extension makes."""

        def reply(self, ticket: int) -> Optional[Reply]:
            found = self.fields(ticket)
            try:
                return None if found is None else Reply(*found)
            except MemoryError:
                raise self.astray() from None
