"""Connections that threads share."""

from __future__ import annotations

import threading
from collections.abc import Iterator, Sequence
from contextlib import contextmanager
from types import TracebackType

from ._client import Client
from ._connection import TIMEOUT, Connection
from ._errors import WormError
from ._requests import Answer, Request


class Pool(Client):
    """Up to `size` connections, which any threads may use at once. Each call takes a free one, or opens another, or waits
    until one is free: a TimeoutError where that takes longer than `timeout`.

    A connection in the pool holds a worker of the server, so a size above the server's `--workers` doesn't help."""

    def __init__(
        self, host: str, port: int, size: int = 4, timeout: float | None = TIMEOUT, wait: float = 0.0
    ) -> None:
        if size < 1:
            raise ValueError(f"a pool has 1 connection or more, and this one has {size}")
        self._place = (host, port)
        self._size = size
        self._timeout = timeout
        self._wait = wait
        self._idle: list[Connection] = []
        self._taken = 0
        self._is_closed = False
        self._changed = threading.Condition()

    def __enter__(self) -> Pool:
        return self

    def __exit__(
        self, kind: type[BaseException] | None, error: BaseException | None, trace: TracebackType | None
    ) -> None:
        self.close()

    @contextmanager
    def connection(self) -> Iterator[Connection]:
        """A connection for this thread alone, until the block ends."""
        taken = self._take()
        try:
            yield taken
        finally:
            self._give_back(taken)

    def close(self) -> None:
        """Ends all connections that are free, and the others when they come back. Later calls raise ConnectionError."""
        with self._changed:
            self._is_closed = True
            idle, self._idle = self._idle, []
            self._changed.notify_all()
        for connection in idle:
            connection.close()

    def _exchange(self, requests: Sequence[Request]) -> list[Answer | WormError]:
        with self.connection() as taken:
            return taken._exchange(requests)

    def _take(self) -> Connection:
        with self._changed:
            if not self._changed.wait_for(self._may_take, self._timeout):
                raise TimeoutError(f"all {self._size} connections of the pool are in use")
            if self._is_closed:
                raise ConnectionError("the pool is closed")
            self._taken += 1
            if self._idle:
                return self._idle.pop()
        try:
            return Connection(*self._place, self._timeout, self._wait)
        except BaseException:
            self._free_place()
            raise

    def _may_take(self) -> bool:
        return self._is_closed or bool(self._idle) or self._taken < self._size

    def _give_back(self, connection: Connection) -> None:
        with self._changed:
            is_kept = connection.is_open and not self._is_closed
            if is_kept:
                self._idle.append(connection)
        if not is_kept:
            connection.close()
        self._free_place()

    def _free_place(self) -> None:
        with self._changed:
            self._taken -= 1
            self._changed.notify()
