"""What both sides agreed on as a connection was opened, and what the broker told of itself."""
from __future__ import annotations

from typing import Any, Dict, NamedTuple, Tuple

from ._octets import read_pairs


class Agreed(NamedTuple):
    """The limits of both sides, the mechanism that was said, and the octets of the broker's properties."""
    frame_max: int
    channel_max: int
    heartbeat: int
    auth_mechanism: str
    server_properties: bytes


class Opened:
    """A connection that was opened."""
    _agreed: Agreed
    _addresses: Tuple[Any, Any]

    @property
    def local_address(self) -> Any:
        """The address of this side, as `socket.getsockname` has it."""
        return self._addresses[0]

    @property
    def remote_address(self) -> Any:
        """The address of the broker."""
        return self._addresses[1]

    @property
    def frame_max(self) -> int:
        """How many octets a frame has at most."""
        return self._agreed.frame_max

    @property
    def channel_max(self) -> int:
        """The greatest number of a channel; 0 where there is no limit."""
        return self._agreed.channel_max

    @property
    def heartbeat(self) -> int:
        """The seconds between heartbeats; 0 where there are none."""
        return self._agreed.heartbeat

    @property
    def auth_mechanism(self) -> str:
        """The mechanism by which the broker was told who this is."""
        return self._agreed.auth_mechanism

    @property
    def server_properties(self) -> Dict[str, Any]:
        """What the broker told of itself, as `product`, `version`, `cluster_name` and `capabilities`."""
        return read_pairs(self._agreed.server_properties)
