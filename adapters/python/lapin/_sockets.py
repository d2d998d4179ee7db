"""Where a socket comes from: hosts that are tried one behind the other, a caller's own function, the socket's options and addresses."""
from __future__ import annotations

import asyncio
import contextlib
import socket
import time
from typing import Any, Awaitable, List, Optional, Tuple

from ._urls import Target


def dialled(given: Any) -> socket.socket:
    """The socket that a caller's function gave."""
    if not isinstance(given, socket.socket):
        raise TypeError(f"dial gives a socket that is connected, not {type(given).__name__}")
    return given


def configured(sock: Any, target: Target) -> None:
    """Sets a socket's options; one that isn't of TCP has none."""
    with contextlib.suppress(OSError):
        sock.setsockopt(socket.IPPROTO_TCP, socket.TCP_NODELAY, 1)
    if target.tcp:
        sock.setsockopt(socket.SOL_SOCKET, socket.SO_KEEPALIVE, 1)
    for option, value in target.tcp:
        sock.setsockopt(socket.IPPROTO_TCP, option, value)


def addresses_of(sock: Any) -> Tuple[Any, Any]:
    """The addresses of both ends of a socket."""
    found: List[Any] = [None, None]
    for place, ask in enumerate((sock.getsockname, sock.getpeername)):
        with contextlib.suppress(OSError):  # the other side hung up already
            found[place] = ask()
    return found[0], found[1]


class Tries:
    """The targets of an opening, one behind the other, each within its share of the time that is left."""

    def __init__(self, targets: List[Target], timeout: Optional[float]):
        self.targets, self.each = targets, len(targets) // targets[0].attempts
        timeout = targets[0].stack_timeout or timeout
        self.until = None if timeout is None else time.monotonic() + timeout

    def share(self, at: int) -> Optional[float]:
        """The time that a try has."""
        return None if self.until is None else max(self.until - time.monotonic(), 0.0) / (len(self.targets) - at)

    def pause(self, at: int) -> float:
        """How long is waited behind a try that failed: where each host was tried."""
        if (at + 1) % self.each or at + 1 == len(self.targets):
            return 0.0
        left = self.targets[0].retry_delay
        return left if self.until is None else max(0.0, min(left, self.until - time.monotonic()))


async def streams_of(target: Target) -> Tuple[asyncio.StreamReader, asyncio.StreamWriter]:
    """What reads and writes the socket of a target, for asyncio."""
    name = None if target.tls is None else target.server_name or target.host
    if target.dial is None:
        opening = asyncio.open_connection(target.host, target.port, ssl=target.tls, server_hostname=name)
        return await asyncio.wait_for(opening, target.socket_timeout)
    given = target.dial(target.host, target.port)
    return await asyncio.open_connection(sock=dialled(await given if isinstance(given, Awaitable) else given), ssl=target.tls, server_hostname=name)
