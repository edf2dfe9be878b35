#!/usr/bin/env python3
"""Drives the Python client beside servers that answer late, wrongly or not at all, in threads of this program.

    python3 tests/client.py

It needs no built program. It ends with unittest's line `OK`, or tells what failed, with status 1."""

from __future__ import annotations

import os
import socket
import sys
import threading
import time
import unittest
from collections.abc import Callable, Iterator
from contextlib import contextmanager

TOP = os.path.dirname(os.path.dirname(os.path.abspath(__file__)))
sys.path.insert(0, os.path.join(TOP, "clients"))

import worm  # noqa: E402
from worm import Connection, Delete, Get, Pool, Put, Scan  # noqa: E402

HOST = "127.0.0.1"
# What a server may do with a line: bytes that it answers, or None to end the connection.
Answers = Callable[[bytes], "bytes | None"]


class FakeServer:
    """Serves each connection by a thread, and answers its lines by a function."""

    def __init__(self, answers: Answers, port: int = 0) -> None:
        self._answers = answers
        self._listener = socket.create_server((HOST, port))
        self.port = self._listener.getsockname()[1]
        self.lines: list[bytes] = []
        self.accepted = 0
        threading.Thread(target=self._accept, daemon=True).start()

    def close(self) -> None:
        # Unlike a close alone this wakes the thread that accepts.
        self._listener.shutdown(socket.SHUT_RDWR)
        self._listener.close()

    def _accept(self) -> None:
        while True:
            try:
                peer, _ = self._listener.accept()
            except OSError:
                return
            self.accepted += 1
            threading.Thread(target=self._serve, args=(peer,), daemon=True).start()

    def _serve(self, peer: socket.socket) -> None:
        with peer, peer.makefile("rb") as lines:
            for line in lines:
                self.lines.append(line)
                answer = b"BYE\n" if line == b"QUIT\n" else self._answers(line)
                if answer is None or line == b"QUIT\n":
                    peer.sendall(answer or b"")
                    return
                try:
                    peer.sendall(answer)
                except OSError:
                    return


@contextmanager
def fake(answers: Answers) -> Iterator[FakeServer]:
    server = FakeServer(answers)
    try:
        yield server
    finally:
        server.close()


def echo(line: bytes) -> bytes:
    """Answers a get by its key."""
    return b"VALUE " + line.split()[1] + b"\n"


class Breaks(unittest.TestCase):
    """No reply is taken for another request's."""

    def is_broken(self, client: Connection) -> None:
        for call in (lambda: client.get(b"b"), lambda: client.put(b"b", b""), lambda: list(client.scan())):
            self.assertRaises(ConnectionError, call)
        self.assertFalse(client.is_open)

    def test_a_late_reply(self) -> None:
        def late(line: bytes) -> bytes:
            time.sleep(0.4 if line == b"GET a\n" else 0)
            return echo(line)

        with fake(late) as server, Connection(HOST, server.port, timeout=0.1) as client:
            self.assertRaises(TimeoutError, client.get, b"a")
            time.sleep(0.5)
            self.is_broken(client)

    def test_half_a_reply(self) -> None:
        with fake(lambda line: b"PAIR a 1\nPAIR") as server, Connection(HOST, server.port, timeout=0.1) as client:
            self.assertRaises(TimeoutError, lambda: list(client.scan()))
            self.is_broken(client)

    def test_an_end_in_a_reply(self) -> None:
        with fake(lambda line: None) as server, Connection(HOST, server.port) as client:
            self.assertRaises(ConnectionError, client.get, b"a")
            self.is_broken(client)

    def test_an_unknown_reply(self) -> None:
        for reply in (b"HTTP/1.1 400 Bad Request\n", b"NEW\n", b"PAIR a\n", b"\n", b"\xff\n"):
            for request in (Get(b"a"), Scan()):
                with fake(lambda line: reply) as server, Connection(HOST, server.port) as client:
                    self.assertRaises(worm.UnknownReplyError, client.pipeline, [request])
                    self.is_broken(client)

    def test_a_wrong_count(self) -> None:
        with fake(lambda line: b"PAIR a 1\nEND 2\n") as server, Connection(HOST, server.port) as client:
            self.assertRaises(worm.UnknownReplyError, lambda: list(client.scan()))
            self.is_broken(client)

    def test_an_exception_inside_of_the_call(self) -> None:
        with fake(echo) as server, Connection(HOST, server.port) as client:
            client._replies.line = interrupted  # type: ignore[method-assign]
            self.assertRaises(KeyboardInterrupt, client.get, b"a")
            del client._replies.line
            self.is_broken(client)

    def test_a_pipeline_that_is_cut_off(self) -> None:
        with fake(lambda line: None if line == b"GET c\n" else echo(line)) as server:
            client = Connection(HOST, server.port, timeout=1.0)
            self.assertRaises(OSError, client.pipeline, [Get(key) for key in (b"a", b"b", b"c", b"d")])
            self.is_broken(client)

    def test_closed(self) -> None:
        with fake(echo) as server:
            client = Connection(HOST, server.port)
            client.close()
            client.close()
            self.is_broken(client)
            with self.assertRaises(RuntimeError), Connection(HOST, server.port) as left:
                raise RuntimeError
            self.is_broken(left)


def interrupted() -> bytes:
    raise KeyboardInterrupt


class Refusals(unittest.TestCase):
    """A refusal is raised, and the connection goes on."""

    def test_each(self) -> None:
        kinds = {
            b"AGAIN locked 1 2\n": worm.AgainError,
            b"FULL crowded 3 3\n": worm.FullError,
            b"NOMEM\n": worm.NoMemoryError,
            b"ERR 3 key\n": worm.RequestError,
        }
        for reply, kind in kinds.items():
            replies = iter([reply, b"NEW\n", reply, b"SET\n"])
            with fake(lambda line: next(replies)) as server, Connection(HOST, server.port) as client:
                with self.assertRaises(kind) as raised:
                    client.put(b"a", b"1")
                self.assertEqual(str(raised.exception), reply.decode().strip())
                self.assertTrue(client.put(b"a", b"1"))
                results = client.pipeline([Put(b"a", b"2"), Put(b"a", b"3")])
                self.assertIsInstance(results[0], kind)
                self.assertIs(results[1], False)

    def test_names(self) -> None:
        raised = [thing for thing in vars(worm).values() if isinstance(thing, type) and issubclass(thing, Exception)]
        self.assertEqual(len(raised), 6)
        for kind in raised:
            self.assertTrue(kind.__name__.endswith("Error") and kind.__name__ in worm.__all__)


class Checks(unittest.TestCase):
    """What is no request is refused before anything is sent."""

    def test_nothing_is_sent(self) -> None:
        with fake(echo) as server, Connection(HOST, server.port) as client:
            wrong = [
                (TypeError, "a key must be bytes, and this is str", lambda: client.get("a")),
                (TypeError, "a value must be bytes, and this is int", lambda: client.put(b"a", 1)),
                (ValueError, "a key has 1 to 255 bytes, and this one has 0", lambda: client.get(b"")),
                (ValueError, "a key has 1 to 255 bytes, and this one has 256", lambda: client.delete(b"a" * 256)),
                (ValueError, "a value has 0 to 1,024 bytes, and this one has 1,025", lambda: client.put(b"a", b"b" * 1_025)),
                (TypeError, "a key must be bytes, and this is str", lambda: client.scan("a")),
                (TypeError, "a limit must be an int, and this is float", lambda: client.scan(limit=1.5)),
                (ValueError, "a limit is 0 or more, and this one is -1", lambda: client.scan(limit=-1)),
                (ValueError, "a limit is at most 1,000,000, and this one is 1,000,001", lambda: Scan(limit=1_000_001)),
                (ValueError, "a scan has a prefix or bounds, and not both", lambda: client.scan(b"a", prefix=b"a")),
                (TypeError, "a prefix must be bytes, and this is str", lambda: client.scan(prefix="a")),
                (TypeError, "a request is a Get, Put, Delete or Scan, and this is bytes", lambda: client.pipeline([b"GET a"])),
            ]
            for kind, text, call in wrong:
                with self.assertRaises(kind) as raised:
                    call()
                self.assertEqual(str(raised.exception), text)
            self.assertEqual((client.get(b"a"), server.lines), (b"a", [b"GET a\n"]))

    def test_lines(self) -> None:
        lines = {
            Get(b"a b"): b"GET a%20b\n",
            Put(b"%", b""): b"PUT %25 \n",
            Delete(b"\xff"): b"DEL %FF\n",
            Scan(b"*", None, 3): b"SCAN %2A * 3\n",
        }
        for request, line in lines.items():
            self.assertEqual(request.line(), line)
        every = bytes(range(256))
        self.assertEqual(worm.unescape(worm.escape(every)), every)

    def test_prefixes(self) -> None:
        ranges = {
            b"Jo": b"SCAN Jo Jp 1000\n",
            b"J\xff": b"SCAN J%FF K 1000\n",
            b"\xff": b"SCAN %FF * 1000\n",
            b"": b"SCAN * * 1000\n",
        }
        with fake(lambda line: b"END 0\n") as server, Connection(HOST, server.port) as client:
            for prefix in ranges:
                self.assertEqual(list(client.scan(prefix=prefix)), [])
            self.assertEqual(server.lines, list(ranges.values()))


class Waits(unittest.TestCase):
    def test_for_a_server_that_comes(self) -> None:
        with socket.create_server((HOST, 0)) as probe:
            port = probe.getsockname()[1]
        self.assertRaises(ConnectionRefusedError, Connection, HOST, port)
        self.assertRaises(ConnectionRefusedError, Connection, HOST, port, wait=0.2)
        made: list[FakeServer] = []
        timer = threading.Timer(0.3, lambda: made.append(FakeServer(echo, port)))
        timer.start()
        try:
            with Connection(HOST, port, wait=20) as client:
                self.assertEqual(client.get(b"a"), b"a")
        finally:
            timer.join()
            made[0].close()


class Pools(unittest.TestCase):
    def test_threads_share_connections(self) -> None:
        def work(number: int) -> None:
            keys = [b"%d-%d" % (number, place) for place in range(50)]
            found.extend(pool.get(key) == key for key in keys)
            found.append(pool.pipeline([Get(key) for key in keys]) == keys)

        found: list[bool] = []
        with fake(echo) as server, Pool(HOST, server.port, 3) as pool:
            threads = [threading.Thread(target=work, args=(number,)) for number in range(12)]
            for thread in threads:
                thread.start()
            for thread in threads:
                thread.join()
            self.assertEqual((found, server.accepted <= 3), ([True] * 12 * 51, True))

    def test_no_more_than_its_size(self) -> None:
        with fake(echo) as server, Pool(HOST, server.port, 1, timeout=0.2) as pool:
            with pool.connection() as one:
                self.assertEqual(one.get(b"a"), b"a")
                self.assertRaises(TimeoutError, pool.get, b"b")
            self.assertEqual((pool.get(b"b"), server.accepted), (b"b", 1))

    def test_a_broken_one_is_replaced(self) -> None:
        with fake(lambda line: None if line == b"GET end\n" else echo(line)) as server, Pool(HOST, server.port, 1) as pool:
            self.assertRaises(ConnectionError, pool.get, b"end")
            self.assertEqual((pool.get(b"b"), server.accepted), (b"b", 2))

    def test_a_scan_that_is_left_holds_none(self) -> None:
        page = b"".join(b"PAIR %04d 1\n" % number for number in range(1_000)) + b"END 1000\n"
        with fake(lambda line: page) as server, Pool(HOST, server.port, 1, timeout=0.2) as pool:
            left = pool.scan()
            self.assertEqual(next(left), (b"0000", b"1"))
            self.assertEqual(next(pool.scan()), (b"0000", b"1"))

    def test_closed(self) -> None:
        with fake(echo) as server:
            pool = Pool(HOST, server.port)
            with pool.connection() as taken:
                pool.close()
                self.assertEqual(taken.get(b"a"), b"a")
            self.assertFalse(taken.is_open)
            self.assertRaises(ConnectionError, pool.get, b"a")
        self.assertRaises(ValueError, Pool, HOST, 1, 0)
        with socket.create_server((HOST, 0)) as probe:
            port = probe.getsockname()[1]
        gone = Pool(HOST, port, 1, timeout=0.2)
        for _ in range(2):
            self.assertRaises(ConnectionRefusedError, gone.get, b"a")


if __name__ == "__main__":
    unittest.main()
