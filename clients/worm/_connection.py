"""One connection to a server."""

from __future__ import annotations

import selectors
import socket
import time
from collections.abc import Sequence
from types import TracebackType

from ._client import Client
from ._errors import UnknownReplyError, WormError, error_of
from ._requests import Answer, Delete, Get, Pair, Put, Request, Scan, unescape

TIMEOUT = 10.0
"""How many seconds a wait for the server may last where nothing else is asked for."""

PIECE = 65_536
PAUSE = 0.05


class Connection(Client):
    """A connection to a server. It isn't for several threads at once: they share a `Pool`.

    `timeout` is how many seconds each wait for the server may last, without end where it is None. `wait` is how many
    seconds it is tried to connect again where nobody listens yet.

    From the first exception between a request and the end of its reply on, as a timeout or an interrupt, the connection is
    closed and every later call raises ConnectionError. Whether the server did what was asked isn't known then."""

    def __init__(self, host: str, port: int, timeout: float | None = TIMEOUT, wait: float = 0.0) -> None:
        self._timeout = timeout
        self._socket = connected(host, port, timeout, wait)
        self._socket.setsockopt(socket.IPPROTO_TCP, socket.TCP_NODELAY, 1)
        self._replies = Replies(self._socket)
        # Whether all that was sent is answered, and nothing else has come.
        self._is_whole = True

    def __enter__(self) -> Connection:
        return self

    def __exit__(
        self, kind: type[BaseException] | None, error: BaseException | None, trace: TracebackType | None
    ) -> None:
        if kind is None:
            self.close()
        else:
            # Whoever sees an error shouldn't wait for a server that may be gone.
            self._break()

    @property
    def is_open(self) -> bool:
        """Whether requests can be made."""
        return self._is_whole

    def close(self) -> None:
        """Ends the session by QUIT, waits for the server's BYE, and closes the connection. One that is broken is closed
        without an error."""
        try:
            if self._is_whole:
                self._is_whole = False
                self._socket.sendall(b"QUIT\n")
                self._replies.line()
        except OSError:
            pass
        finally:
            self._break()

    def _break(self) -> None:
        self._is_whole = False
        self._socket.close()

    def _exchange(self, requests: Sequence[Request]) -> list[Answer | WormError]:
        if not self._is_whole:
            self._break()
            raise ConnectionError("the connection is closed, or a request of it wasn't answered to the end")
        unsent = b"".join(request.line() for request in requests)
        # What leaves in between, by whatever exception, leaves it so.
        self._is_whole = False
        try:
            self._send(unsent)
            results = [self._result(request) for request in requests]
        except BaseException:
            self._break()
            raise
        self._is_whole = True
        return results

    def _send(self, unsent: bytes) -> None:
        """Sends all, and takes what comes meanwhile: a server whose replies nobody takes reads no further."""
        left = memoryview(unsent)
        if len(left) <= PIECE // 8:
            self._socket.sendall(left)
            return
        self._socket.setblocking(False)
        with selectors.DefaultSelector() as selector:
            selector.register(self._socket, selectors.EVENT_READ | selectors.EVENT_WRITE)
            while left:
                ready = selector.select(self._timeout)
                if not ready:
                    raise TimeoutError("timed out")
                if ready[0][1] & selectors.EVENT_READ:
                    self._replies.receive()
                if ready[0][1] & selectors.EVENT_WRITE:
                    left = left[self._socket.send(left[:PIECE]) :]
        self._socket.settimeout(self._timeout)

    def _result(self, request: Request) -> Answer | WormError:
        """What the next reply answers to this request, or the refusal that it tells."""
        line = self._replies.line()
        if isinstance(request, Get) and line.startswith(b"VALUE "):
            return unescape(line[6:])
        if isinstance(request, Get) and line == b"NONE":
            return None
        if isinstance(request, Put) and line in (b"NEW", b"SET"):
            return line == b"NEW"
        if isinstance(request, Delete) and line in (b"GONE", b"NONE"):
            return line == b"GONE"
        if isinstance(request, Scan):
            return self._pairs(line)
        return refusal(line)

    def _pairs(self, line: bytes) -> list[Pair] | WormError:
        pairs: list[Pair] = []
        while line.startswith(b"PAIR "):
            key, found, value = line[5:].partition(b" ")
            if not found:
                raise UnknownReplyError(line.decode("ascii", "replace"))
            pairs.append((unescape(key), unescape(value)))
            line = self._replies.line()
        return pairs if line == b"END %d" % len(pairs) else refusal(line)


class Replies:
    """The reply lines that come by a socket."""

    def __init__(self, source: socket.socket) -> None:
        self._source = source
        self._received = bytearray()
        self._seen = 0

    def receive(self) -> None:
        piece = self._source.recv(PIECE)
        if not piece:
            raise ConnectionError("the server ended the connection")
        self._received += piece

    def line(self) -> bytes:
        """The next line, without its end."""
        looked = self._seen
        while (end := self._received.find(b"\n", looked)) < 0:
            # Lines that were read are dropped once for many.
            del self._received[: self._seen]
            self._seen = 0
            looked = len(self._received)
            self.receive()
        line = bytes(self._received[self._seen : end])
        self._seen = end + 1
        return line


def refusal(line: bytes) -> WormError:
    """The refusal that the line tells. Behind any other line it isn't known which reply is whose."""
    error = error_of(line)
    if isinstance(error, UnknownReplyError):
        raise error
    return error


def connected(host: str, port: int, timeout: float | None, wait: float) -> socket.socket:
    until = time.monotonic() + wait
    while True:
        try:
            return socket.create_connection((host, port), timeout)
        except ConnectionRefusedError:
            if time.monotonic() >= until:
                raise
            time.sleep(PAUSE)
