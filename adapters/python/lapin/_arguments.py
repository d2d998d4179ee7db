"""Arguments: what isn't of its argument's type or range is refused by that one's name, before anything is done."""
from __future__ import annotations

from typing import Any, Optional, Union


def octets_of(name: str, value: Union[str, bytes]) -> bytes:
    """The octets of a short text: at most 255, of UTF-8."""
    if isinstance(value, str):
        try:
            data = value.encode()
        except UnicodeEncodeError:
            raise ValueError(f"{name} has letters that UTF-8 has not") from None
    elif isinstance(value, bytes):
        data = value
        try:
            data.decode()
        except UnicodeDecodeError:
            raise ValueError(f"{name} is no UTF-8") from None
    else:
        raise TypeError(f"{name} is a text, not {type(value).__name__}")
    if len(data) > 255:
        raise ValueError(f"{name} is longer than 255 octets")
    return data


def flag(name: str, value: bool) -> bool:
    """True or False."""
    if value is True or value is False or (isinstance(value, int) and value in (0, 1)):
        return bool(value)
    raise TypeError(f"{name} is True or False, not {value!r}")


def whole(name: str, value: int, least: int, most: int) -> int:
    """A whole number of a range."""
    if isinstance(value, bool) or not isinstance(value, int):
        raise TypeError(f"{name} is a whole number, not {type(value).__name__}")
    if not least <= value <= most:
        raise ValueError(f"{name} is {least} to {most}, not {value}")
    return int(value)


def seconds(timeout: Optional[float]) -> Optional[float]:
    """A time to wait at most; None for ever."""
    if timeout is not None and (isinstance(timeout, bool) or not isinstance(timeout, (int, float))):
        raise TypeError(f"timeout is a number of seconds or None, not {type(timeout).__name__}")
    if timeout is not None and timeout != timeout:
        raise ValueError("timeout is no number")
    return timeout


def body_of(body: Any) -> bytes:
    """The octets of a body that isn't `bytes`."""
    try:
        return bytes(memoryview(body))
    except TypeError:
        raise TypeError(f"body is bytes, not {type(body).__name__}") from None
