"""Calls of the library that can be stopped, and that are held to a limit of memory.

A call runs without Python's lock, so nothing of Python's happens in its thread before it ends: no KeyboardInterrupt,
either. So the main thread hands a call that may be long to a worker, and waits for it in a way that can be interrupted.
"""

from __future__ import annotations

import _thread
import ctypes
import operator
import os
import threading
from typing import Any, Callable, Optional

from ._library import library

# Of points and edges. What has fewer takes less than a tenth of a second, though all of its edges cross.
_MANY = 256
# A call that goes once over its points takes some nanoseconds for each: as many of them count as one.
ONCE = 4096


class _Worker:
    """A thread that makes calls, one after the other.

    It owns what a call reads and writes until the call ends, also where nobody waits for it any more.
    """

    def __init__(self) -> None:
        self._stop = ctypes.c_int(0)
        self._job: Optional[Callable[[], int]] = None
        self._status = 0
        self._fault: Optional[BaseException] = None
        self._asked, self._told = _thread.allocate_lock(), _thread.allocate_lock()
        self._asked.acquire()
        self._told.acquire()
        # Such a thread doesn't keep the interpreter from its end.
        _thread.start_new_thread(self._run, ())

    def call(self, job: Callable[[], int]) -> int:
        """The status of a job. What a signal's handler raises meanwhile stops it, and is raised at once."""
        try:
            self._job = job
            self._asked.release()
            self._told.acquire()
        except BaseException:
            self._leave()
            raise
        if self._fault is not None:
            self._leave()
            raise self._fault
        return self._status

    def _leave(self) -> None:
        """Stops the job, and ends the thread once it has ended."""
        self._stop.value = 1
        self._job = None
        if self._asked.locked():
            self._asked.release()

    def _run(self) -> None:
        library.itree_stop_flag(ctypes.addressof(self._stop))
        while True:
            self._asked.acquire()
            job = self._job
            if job is None or self._stop.value:
                return
            try:
                self._status = job()
            except BaseException as fault:
                self._fault = fault
            # Nothing that the caller gave stays here.
            self._job = job = None
            self._told.release()


_idle: Optional[_Worker] = None


def _forget() -> None:
    """In the child of a fork the worker isn't there."""
    global _idle
    _idle = None


os.register_at_fork(after_in_child=_forget)


def limit_of(memory_limit: Optional[int]) -> int:
    """The limit in bytes, or 0 where there is none. Raises TypeError or ValueError where it is none."""
    if memory_limit is None:
        return 0
    try:
        limit = operator.index(memory_limit)
    except TypeError:
        said = type(memory_limit).__name__
        raise TypeError(f"memory_limit: {said}; a whole number of bytes, or None, is wanted") from None
    if not 0 < limit < 2**63:
        raise ValueError(f"memory_limit: {limit}; a number of bytes from 1 on is wanted")
    return limit


def made(call: Callable[..., int], *arguments: Any, size: int, limit: int = 0, kept: Any = None) -> int:
    """The status of a call.

    size: how many points and edges it is given.
    limit: how many bytes it may hold at once; 0: as many as there are.
    kept: what owns the memory that the call reads and writes. It is kept until the call ends.

    Where the call may be long, and this is the main thread, KeyboardInterrupt is raised at once; then the call is stopped,
    which goes on for a while in another thread.
    """
    if size < _MANY or _thread.get_ident() != threading.main_thread().ident:
        return _held(call, arguments, limit, kept)
    return _by_worker(lambda: _held(call, arguments, limit, kept))


def _held(call: Callable[..., int], arguments: Any, limit: int, _kept: Any) -> int:
    """The status of a call that is held to a limit of memory, in this thread."""
    if not limit:
        return call(*arguments)
    library.itree_limit_memory(limit)
    try:
        return call(*arguments)
    finally:
        library.itree_limit_memory(0)


def _by_worker(job: Callable[[], int]) -> int:
    global _idle
    # It is taken away, for the handler of a signal may make a call, too.
    worker, _idle = _idle, None
    if worker is None:
        try:
            worker = _Worker()
        except RuntimeError:
            # No thread begins any more, as at the interpreter's end.
            return job()
    status = worker.call(job)
    _idle = worker
    return status
