"""Who of many that wait has something to be told. The library is asked once for all, and it alone decides; no rule of the protocol stands here."""
from __future__ import annotations

import ctypes
from typing import Any, Dict, Generic, List, Set, TypeVar

from ._library import Session

T = TypeVar("T")


class Watch(Generic[T]):
    """Those that wait for something, by the numbers of their consumers or the tickets of their calls (`kind` is `ready_consumer` or `ready_reply`).

    `waiting` is who waits. The numbers that lie before the library are those and others; they change in `search` alone, which runs as octets are
    received, so that an exception that falls within it loses the connection."""

    def __init__(self, session: Session, kind: str):
        self._session, self._kind = session, kind
        self.waiting: Dict[int, T] = {}
        # Numbers that came since the last search; those that lie in the room, in any order, and how many they are.
        self._fresh: List[int] = []
        self._listed: Set[int] = set()
        self._room: Any = (ctypes.c_uint64 * 64)()
        self._at, self._count = ctypes.addressof(self._room), 0

    def add(self, number: int, whose: T) -> None:
        """One waits from now on. It looked for itself before, or has something that the next search finds."""
        if number not in self.waiting:
            self._fresh.append(number)
            self.waiting[number] = whose

    def drop(self, number: int) -> None:
        """One waits no more. (Its number lies there until it has something; the library holds that of each consumer too.)"""
        if number in self.waiting:
            del self.waiting[number]

    def search(self, ready: Dict[int, T]) -> None:
        """Moves those that have something now to `ready`, with those of which the library knows nothing: a call for each of them, and one more."""
        fresh, self._fresh = self._fresh, []
        for number in fresh:
            if number in self.waiting and number not in self._listed:
                self._list(number)
        place = 0
        while place < self._count:
            place = self._session.first_ready(self._kind, self._at, self._count, place)
            if place < self._count:
                number = self._room[place]
                if number in self.waiting:
                    ready[number] = self.waiting[number]
                    del self.waiting[number]
                self._listed.discard(number)
                self._count -= 1
                self._room[place] = self._room[self._count]  # the last number takes this place

    def _list(self, number: int) -> None:
        if self._count == len(self._room):
            room = (ctypes.c_uint64 * (2 * self._count))()
            room[:self._count] = self._room[:]
            self._room, self._at = room, ctypes.addressof(room)
        self._room[self._count] = number
        self._listed.add(number)
        self._count += 1
