"""python -m lapin [URL]: which release this is, over which library and through what it is called, whether that was proved and of which text; and
whether a broker answers there."""
from __future__ import annotations

import os
import sys
import time

from . import __version__
from ._library import library_version
from ._loaded import PATH, _extension
from .connection import connect
from .errors import Error


def told() -> None:
    """Says what is installed."""
    _, proof, text, core = library_version().split(" ")
    print(f"lapin {__version__}, Python {sys.version.split()[0]}")
    print(f"library {PATH}, {os.path.getsize(PATH)} octets")
    print(f"called by {core}{f' {_extension.__file__}' if _extension else ''}")
    print(f"{proof}, of the text {text}")


def tried(url: str) -> int:
    """Opens a connection, and has a message go there and back. The status."""
    began = time.monotonic()
    try:
        with connect(url, timeout=5, connection_name="python -m lapin") as connection:
            broker = connection.server_properties
            print(f"connected in {time.monotonic() - began:.3f} s to {broker.get('product')} {broker.get('version')} by {connection.auth_mechanism}: "
                  f"frame_max {connection.frame_max}, channel_max {connection.channel_max}, heartbeat {connection.heartbeat}")
            channel = connection.channel(confirms=True)
            queue = channel.queue_declare(exclusive=True).name
            outcome = channel.publish("", queue, b"lapin").wait(5)
            message = channel.get(queue, no_ack=True)
            print(f"a message to {queue}: {outcome}, {'and it came back whole' if message and message.body == b'lapin' else 'and it did not come'}")
    except (Error, ValueError) as error:
        print(f"no: {error}", file=sys.stderr)
        return 1
    return 0


def main() -> int:
    told()
    if len(sys.argv) > 2:
        print(__doc__, file=sys.stderr)
        return 2
    return tried(sys.argv[1]) if len(sys.argv) == 2 else 0


if __name__ == "__main__":
    sys.exit(main())
