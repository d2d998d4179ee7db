"""AMQP's octets (section 4.2.5), both ways: the values of tables and arrays, and a content header's list of properties.

A value is written as pika and py-amqp do: a whole number by 32 bits where it fits (`I`), else by 64 (`l`), a text by `S`, bytes by `x`, a float by
the 64 bits that it has (`d`), a Decimal with the places that it has (`D`), a datetime, which has a time zone, by its seconds (`T`). What is read is
what each letter of RabbitMQ says; a text that is no UTF-8 comes as bytes, a time as a datetime in UTC, or as its number behind the year 9999.
Tables and arrays lie in each other as deep as a frame holds them: nothing here calls itself.
"""
from __future__ import annotations

import datetime
import decimal
import struct
from typing import Any, Callable, Dict, Iterator, List, Mapping, Optional, Set, Tuple, Union

from ._arguments import whole

PROPERTIES = ("content_type", "content_encoding", "headers", "delivery_mode", "priority", "correlation_id", "reply_to", "expiration",
              "message_id", "timestamp", "kind", "user_id", "app_id", "cluster_id")
#: Their places among the flags; the standard's name of the property `kind` is a word of Python.
PLACES = {**{name: place for place, name in enumerate(PROPERTIES)}, "type": PROPERTIES.index("kind")}
#: The list of no property.
NONE = b"\0\0"
EPOCH, SECOND = datetime.datetime(1970, 1, 1, tzinfo=datetime.timezone.utc), datetime.timedelta(seconds=1)
#: The seconds of the last year that a datetime has.
LATEST = (datetime.datetime(9999, 12, 31, 23, 59, 59, tzinfo=datetime.timezone.utc) - EPOCH) // SECOND


class Malformed(ValueError):
    """Octets that are no value, no table or no list of properties."""


def text_or_bytes(data: bytes) -> Union[str, bytes]:
    """The text that octets are, and the octets where they are no UTF-8."""
    try:
        return data.decode()
    except UnicodeDecodeError:
        return data


# ---- written

_word, _wide, _float, _decimal, _count = (struct.Struct(form).pack for form in (">ci", ">cq", ">cd", ">cBi", ">I"))


def counted(data: bytes) -> bytes:
    """Octets behind how many they are."""
    return _count(len(data)) + data


#: Each octet.
_OCTETS_OF = [bytes((octet,)) for octet in range(256)]


class _Where:
    """A value's place, as an error names it: `headers['a']['b']`. It is put together where there is one."""
    __slots__ = ("name", "around", "key")

    def __init__(self, name: str):
        self.name, self.key = name, b""
        self.around: List[bytes] = []

    def __str__(self) -> str:
        return self.name + "".join(f"[{text_or_bytes(key[1:])!r}]" for key in (*self.around, self.key) if key)


def key_of(name: Union[str, _Where], key: Any, what: str = "") -> bytes:
    """A short text behind its length. Bytes stand as they are: they needn't be UTF-8."""
    if isinstance(key, str):
        try:
            data = key.encode()
        except UnicodeEncodeError:
            raise ValueError(f"{what}{name} has letters that UTF-8 has not") from None
    elif isinstance(key, (bytes, bytearray)):
        data = bytes(key)
    else:
        raise TypeError(f"{what}{name} is a text, not {type(key).__name__}")
    if len(data) > 255:
        raise ValueError(f"{what}{name} is longer than 255 octets")
    return _OCTETS_OF[len(data)] + data


def _flat_array(values: List[Any]) -> Optional[bytes]:
    """The values of an array of texts, small numbers and nothing, as `_flat`."""
    octets = b""
    for value in values:
        kind = type(value)
        if value is None:
            octets += b"V"
        elif kind is str:
            text = value.encode()
            octets += b"S" + _count(len(text)) + text
        elif kind is int and -0x80000000 <= value < 0x80000000:
            octets += _word(b"I", value)
        else:
            return None
    return octets


def _flat(values: Mapping[Any, Any]) -> Optional[bytes]:
    """The pairs of a table as most are, of texts, small numbers, nothing, and arrays of these; None of others, and where one is refused, as `pairs_of`
    says."""
    octets = b""
    try:
        for key, value in values.items():
            data, kind = key.encode(), type(value)
            head = _OCTETS_OF[len(data)] + data
            if kind is str:
                text = value.encode()
                octets += head + b"S" + _count(len(text)) + text
            elif kind is int and -0x80000000 <= value < 0x80000000:
                octets += head + _word(b"I", value)
            elif value is None:
                octets += head + b"V"
            elif kind is bool:
                octets += head + (b"t\x01" if value else b"t\x00")
            elif kind is list and (array := _flat_array(value)) is not None:
                octets += head + b"A" + _count(len(array)) + array
            else:
                return None
    except (AttributeError, IndexError, TypeError, UnicodeEncodeError):
        return None
    return octets


def _pairs(where: _Where, values: Mapping[Any, Any]) -> Iterator[Tuple[bytes, Any]]:
    """The pairs of a table, their keys as octets."""
    keys = [key_of(where, key, "a key of ") for key in values]
    if len(set(keys)) < len(keys):
        raise ValueError(f"{where} has a key twice")
    return zip(keys, list(values.values()))


def seconds_of(name: Union[str, _Where], value: datetime.datetime) -> int:
    """The whole seconds of a time since 1970."""
    if value.utcoffset() is None:
        raise TypeError(f"{name} is a datetime without a time zone")
    found = (value - EPOCH) // SECOND
    if found < 0:
        raise ValueError(f"{name} is a time before 1970")
    return found


def _decimal_of(name: _Where, value: decimal.Decimal) -> bytes:
    sign, digits, exponent = value.as_tuple()
    if not isinstance(exponent, int):
        raise ValueError(f"{name} is a Decimal that is no finite number")
    places = max(0, -exponent)
    number = int("".join(map(str, digits[:20]))) * 10 ** min(max(0, exponent), 20) * (-1 if sign else 1)
    if places > 255 or len(digits) > 20 or not -(1 << 31) <= number < 1 << 31:
        raise ValueError(f"{name} is a Decimal of more than 32 bits or 255 places")
    return _decimal(b"D", places, number)


def _plain(name: _Where, value: Any) -> bytes:
    """A value that is no table and no array, behind the letter of its type."""
    if isinstance(value, str):
        try:
            return b"S" + counted(value.encode())
        except UnicodeEncodeError:
            raise ValueError(f"{name} has letters that UTF-8 has not") from None
    if isinstance(value, bool):
        return b"t\x01" if value else b"t\x00"
    if isinstance(value, int):
        if not -(1 << 63) <= value < 1 << 63:
            raise ValueError(f"{name} is a number beyond 64 bits")
        return _word(b"I", value) if -(1 << 31) <= value < 1 << 31 else _wide(b"l", value)
    if isinstance(value, float):
        if value - value != 0:
            raise ValueError(f"{name} is a float that is no finite number")
        return _float(b"d", value)
    if value is None:
        return b"V"
    if isinstance(value, (bytes, bytearray)):
        return b"x" + counted(bytes(value))
    if isinstance(value, datetime.datetime):
        return b"T" + seconds_of(name, value).to_bytes(8, "big")
    if isinstance(value, decimal.Decimal):
        return _decimal_of(name, value)
    raise TypeError(f"{name} is of the type {type(value).__name__}, which no table has")


def pairs_of(name: str, values: Mapping[Any, Any]) -> bytes:
    """The octets of a table, without how many they are: its pairs in the order in which they are given."""
    if not isinstance(values, Mapping):
        raise TypeError(f"{name} is a dictionary, not {type(values).__name__}")
    flat = _flat(values)
    if flat is not None:
        return flat
    pieces: List[bytes] = []
    # What is left of each table and array around this one, the place of its head among the pieces, and how many octets stood up to there.
    around: List[Tuple[Iterator[Tuple[bytes, Any]], int, int, int]] = []
    open_ones: Set[int] = set()
    where = _Where(name)
    size, rest = 0, _pairs(where, values)
    while True:
        for key, value in rest:
            where.key = key
            is_table = isinstance(value, Mapping)
            leaf = _flat(value) if is_table else None
            if leaf is not None:
                pieces.append(key + b"F" + counted(leaf))
            elif is_table or isinstance(value, (list, tuple)):
                if id(value) in open_ones:
                    raise ValueError(f"{where} has a value that lies in itself")
                open_ones.add(id(value))
                pieces.append(key + (b"F" if is_table else b"A"))
                size += len(key) + 1
                around.append((rest, len(pieces) - 1, size, id(value)))
                rest = _pairs(where, value) if is_table else iter([(b"", it) for it in value])
                where.around.append(key)
                break
            else:
                pieces.append(key + _plain(where, value))
            size += len(pieces[-1])
        else:
            if not around:
                return b"".join(pieces)
            rest, head, before, which = around.pop()
            where.around.pop()
            pieces[head] += _count(size - before)
            size += 4
            open_ones.discard(which)


def table_of(name: str, values: Optional[Mapping[Any, Any]]) -> bytes:
    """The octets of a table; an empty one for None."""
    return counted(pairs_of(name, values)) if values is not None else b"\0\0\0\0"


def _octet_of(name: str, value: Any) -> bytes:
    return _OCTETS_OF[value if type(value) is int and 0 <= value < 256 else whole(name, value, 0, 0xff)]


def _timestamp_of(name: str, value: Any) -> bytes:
    number = seconds_of(name, value) if isinstance(value, datetime.datetime) else value
    return whole(name, number, 0, (1 << 64) - 1).to_bytes(8, "big")


_OTHERS: Dict[str, Callable[[str, Any], bytes]] = {"headers": table_of, "delivery_mode": _octet_of, "priority": _octet_of, "timestamp": _timestamp_of}
_WRITERS = [_OTHERS.get(name, key_of) for name in PROPERTIES]


def properties_of(given: Mapping[str, Any]) -> bytes:
    """The list of properties by their names, of which None is none."""
    found: List[Tuple[int, bytes]] = []
    for name, value in given.items():
        place = PLACES.get(name)
        if place is None:
            raise TypeError(f"no property {name}")
        if value is not None:
            found.append((place, _WRITERS[place](name, value)))
    if len(found) > 1:
        found.sort()
    flags, octets = 0, b""
    for place, piece in found:
        if flags & 0x8000 >> place:
            raise TypeError(f"the property {PROPERTIES[place]} is given twice")
        flags |= 0x8000 >> place
        octets += piece
    return _OCTETS_OF[flags >> 8] + _OCTETS_OF[flags & 0xff] + octets


# ---- read

def _read_decimal(places: int, digits: int) -> decimal.Decimal:
    return decimal.Decimal((int(digits < 0), tuple(map(int, str(abs(digits)))), -places))


def _read_time(number: int) -> Union[datetime.datetime, int]:
    return EPOCH + datetime.timedelta(seconds=number) if number <= LATEST else number


def _same(value: Any) -> Any:
    return value


#: The types of a fixed length by their letters: their octets, and what they say.
_FORMS: List[Tuple[str, str, Callable[..., Any]]] = [
    ("t", ">B", bool), ("b", ">b", _same), ("B", ">B", _same), ("s", ">h", _same), ("U", ">h", _same), ("u", ">H", _same), ("I", ">i", _same),
    ("i", ">I", _same), ("l", ">q", _same), ("L", ">q", _same), ("f", ">f", _same), ("d", ">d", _same), ("T", ">Q", _read_time),
    ("D", ">Bi", _read_decimal), ("V", ">", lambda: None)]
_FIXED = {ord(letter): (struct.Struct(form), read) for letter, form, read in _FORMS}
_TABLE, _ARRAY, _TEXT, _OCTETS = b"FASx"


def _end_of_short(octets: bytes, at: int, end: int) -> int:
    """Where a short text ends."""
    stop = at + 1 + octets[at] if at < end else end + 1
    if stop > end:
        raise Malformed("a short text ends behind the end")
    return stop


def _end_of_long(octets: bytes, at: int, end: int) -> int:
    """Where ends what stands behind how many octets it is."""
    stop = at + 4 + int.from_bytes(octets[at:at + 4], "big") if at + 4 <= end else end + 1
    if stop > end:
        raise Malformed("a value ends behind the end of what it lies in")
    return stop


def _end_of_value(octets: bytes, at: int, end: int) -> int:
    """Where a value ends, whose letter stands here."""
    if at >= end:
        raise Malformed("a key without a value")
    letter = octets[at]
    fixed = _FIXED.get(letter)
    if fixed is None and letter not in (_TABLE, _ARRAY, _TEXT, _OCTETS):
        raise Malformed(f"no value has the type {bytes((letter,))!r}")
    stop = at + 1 + fixed[0].size if fixed is not None else _end_of_long(octets, at + 1, end)
    if stop > end:
        raise Malformed("a value ends behind the end of what it lies in")
    return stop


def read_pairs(octets: bytes) -> Dict[Any, Any]:
    """The values of a table by their keys, of its octets without how many they are."""
    found: Dict[Any, Any] = {}
    around: List[Tuple[Any, int]] = []
    into: Any = found
    at, end = 0, len(octets)
    while True:
        while at == end:
            if not around:
                return found
            into, end = around.pop()
        key: Any = None
        if type(into) is dict:
            stop = _end_of_short(octets, at, end)
            key, at = text_or_bytes(octets[at + 1:stop]), stop
        stop, letter = _end_of_value(octets, at, end), octets[at]
        fixed, is_around = _FIXED.get(letter), letter in (_TABLE, _ARRAY)
        value: Any
        if fixed is not None:
            value = fixed[1](*fixed[0].unpack_from(octets, at + 1))
        elif is_around:
            value = {} if letter == _TABLE else []
        else:
            value = text_or_bytes(octets[at + 5:stop]) if letter == _TEXT else octets[at + 5:stop]
        if type(into) is dict:
            into[key] = value
        else:
            into.append(value)
        if is_around:
            around.append((into, end))
            into, at, end = value, at + 5, stop
        else:
            at = stop


def split_pairs(octets: bytes) -> Dict[bytes, bytes]:
    """The values of a table as their octets, by the octets of their keys."""
    found: Dict[bytes, bytes] = {}
    at, end = 0, len(octets)
    while at < end:
        middle = _end_of_short(octets, at, end)
        stop = _end_of_value(octets, middle, end)
        found[octets[at:middle]] = octets[middle:stop]
        at = stop
    return found


_SIZES = {PLACES["delivery_mode"]: 1, PLACES["priority"]: 1, PLACES["timestamp"]: 8}
_HEADERS = PLACES["headers"]


def split_properties(octets: bytes) -> Dict[int, bytes]:
    """The octets of each property of a list, by its place."""
    flags, at, end = 0, 0, len(octets)
    while True:
        if at + 2 > end:
            raise Malformed("the flags end early")
        word = int.from_bytes(octets[at:at + 2], "big")
        if word & (2 if at == 0 else 0xfffe):
            raise Malformed("a flag of a property that isn't known")
        flags, at = flags | word, at + 2
        if not word & 1:
            break
    found: Dict[int, bytes] = {}
    for place, name in enumerate(PROPERTIES):
        if flags & 0x8000 >> place:
            try:
                stop = at + _SIZES[place] if place in _SIZES else (_end_of_long if place == _HEADERS else _end_of_short)(octets, at, end)
            except Malformed as error:
                raise Malformed(f"{name}: {error}") from None
            if stop > end:
                raise Malformed(f"{name} ends behind the end")
            found[place], at = octets[at:stop], stop
    if at < end:
        raise Malformed(f"{end - at} octets stand behind the last property")
    return found


def read_properties(octets: bytes) -> Dict[str, Any]:
    """Properties by their names, of their list."""
    if octets == NONE:
        return {}
    found: Dict[str, Any] = {}
    for place, piece in split_properties(octets).items():
        if place in _SIZES:
            found[PROPERTIES[place]] = int.from_bytes(piece, "big")
        elif place != _HEADERS:
            found[PROPERTIES[place]] = text_or_bytes(piece[1:])
        else:
            try:
                found["headers"] = read_pairs(piece[4:])
            except Malformed as error:
                raise Malformed(f"headers: {error}") from None
    return found


def is_within(sent: bytes, came: bytes) -> bool:
    """Whether a list has all the properties of another one, and of headers all entries. A list that can't be read has none."""
    try:
        given, found = split_properties(sent), split_properties(came)
        headers = split_pairs(given.pop(_HEADERS, b"\0\0\0\0")[4:]).items()
        return given.items() <= found.items() and headers <= split_pairs(found.get(_HEADERS, b"\0\0\0\0")[4:]).items()
    except Malformed:
        return False
