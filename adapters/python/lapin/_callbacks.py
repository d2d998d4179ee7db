"""Where the callbacks of a connection of many threads run: one behind the other in a thread of its own, or by an executor of the caller's."""
from __future__ import annotations

import queue
import sys
import threading
from concurrent.futures import Executor
from typing import Any, Callable, Optional, Tuple


def called(call: Callable[..., Any], given: Tuple[Any, ...]) -> None:
    """Calls a callback; what it raises goes to `threading.excepthook`."""
    try:
        call(*given)
    except BaseException:
        threading.excepthook(threading.ExceptHookArgs((*sys.exc_info(), threading.current_thread())))


class Callbacks:
    """What is to be called, in its order. The thread begins with the first one, and ends with the connection."""

    def __init__(self, executor: Optional[Executor] = None):
        self._executor, self._thread = executor, None  # type: Optional[Executor], Optional[threading.Thread]
        self._queue: queue.SimpleQueue[Optional[Tuple[Callable[..., Any], Tuple[Any, ...]]]] = queue.SimpleQueue()

    def put(self, call: Callable[..., Any], given: Tuple[Any, ...]) -> None:
        """Has something called. An executor that takes nothing more is told as what a callback raises is."""
        if self._executor is not None:
            return called(self._executor.submit, (called, call, given))
        self._queue.put((call, given))
        if self._thread is None:
            self._thread = threading.Thread(target=self._work, name="lapin callbacks", daemon=True)
            self._thread.start()

    def end(self) -> None:
        """Nothing more is to be called behind what was put."""
        self._queue.put(None)

    def _work(self) -> None:
        while (job := self._queue.get()) is not None:
            called(*job)
            del job
