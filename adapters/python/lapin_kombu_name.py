"""What makes `lapin://` known to kombu, which has entry points for serializers and none for transports: as it is imported it loads this module by that
of a serializer, which serializes nothing. It stands outside of the package, so that this loads nothing of that."""
from __future__ import annotations

from typing import Any

from kombu.transport import TRANSPORT_ALIASES  # type: ignore[import]

TRANSPORT_ALIASES.setdefault("lapin", "lapin.kombu:Transport")


def _none(value: Any) -> Any:
    raise TypeError("lapin is a transport, and no serializer")


ARGUMENTS = (_none, _none, "application/x-lapin-none", "utf-8")
