#!/usr/bin/env python3
"""Drives the built server by real clients on the loopback, well-behaved ones and others.

    python3 tests/server.py PATH_TO_WORM [CASE ...]

Each case starts a server of its own on a free port, and has one line of result. It ends with the line
`server: N of N cases passed`, or with the names of those that failed and status 1. It takes about half a minute."""

from __future__ import annotations

import os
import random
import resource
import select
import signal
import socket
import struct
import subprocess
import sys
import threading
import time
from collections.abc import Callable, Iterator
from contextlib import contextmanager

TOP = os.path.dirname(os.path.dirname(os.path.abspath(__file__)))
sys.path.insert(0, os.path.join(TOP, "clients"))

from worm import Connection, Delete, FullError, Get, Pool, Put, Scan, WormError, escape  # noqa: E402

HOST = "127.0.0.1"
# A build with checks takes seconds to start, and more on a busy machine.
PATIENCE = 60.0
# The tables of the default shape take longer to make.
SMALL = ["--leaves=512", "--items=16384", "--heads=4096"]
CASES: list[Callable[[str], str]] = []


class Failed(Exception):
    """What a case found otherwise than it should be."""


def case(function: Callable[[str], str]) -> Callable[[str], str]:
    """A case answers what it saw, in a few words, or raises `Failed`."""
    CASES.append(function)
    return function


def same(found: object, want: object, what: str) -> None:
    if found != want:
        raise Failed(f"{what}: found {short(found)}, wanted {short(want)}")


def short(thing: object) -> str:
    text = repr(thing)
    return text if len(text) <= 200 else f"{text[:90]} .. {text[-90:]} ({len(text)} characters)"


class Server:
    """A server on a free port. It is there once it was connected to, which is its first session."""

    def __init__(self, worm: str, *options: str, small: list[str] = SMALL) -> None:
        for _ in range(5):
            self.port = free_port()
            self.process = started(worm, f"{HOST}:{self.port}", *small, *options)
            if self._is_up():
                return
            # Another program may have taken the port.
            error = self.process.communicate()[1]
        raise Failed(f"no server: status {self.process.returncode}, told {error!r}")

    def _is_up(self) -> bool:
        until = time.monotonic() + PATIENCE
        while time.monotonic() < until and self.process.poll() is None:
            try:
                socket.create_connection((HOST, self.port), PATIENCE).close()
                return True
            except ConnectionRefusedError:
                time.sleep(0.01)
        return False

    def client(self) -> Connection:
        return Connection(HOST, self.port, PATIENCE)

    def raw(self) -> socket.socket:
        raw = socket.create_connection((HOST, self.port), PATIENCE)
        # Small pieces leave at once, so that the server sees the cuts.
        raw.setsockopt(socket.IPPROTO_TCP, socket.TCP_NODELAY, 1)
        return raw

    def is_silent(self, status: int) -> None:
        """Whether the server has ended with this status, and has written nothing."""
        written, told = self.process.communicate(timeout=PATIENCE)
        same(self.process.returncode, status, "status")
        same(told, b"", "standard error")
        same(written, b"", "standard output")


def started(worm: str, *words: str) -> subprocess.Popen[bytes]:
    return subprocess.Popen(
        [worm, "serve", *words], stdin=subprocess.DEVNULL, stdout=subprocess.PIPE, stderr=subprocess.PIPE
    )


def free_port() -> int:
    with socket.socket() as probe:
        probe.bind((HOST, 0))
        return probe.getsockname()[1]


@contextmanager
def server(worm: str, *options: str, small: list[str] = SMALL) -> Iterator[Server]:
    """A server that must still be there at the end, and have written nothing to standard output and error."""
    running = Server(worm, *options, small=small)
    try:
        yield running
        same(running.process.poll(), None, "the server's status while it should serve")
        running.process.terminate()
        running.is_silent(-signal.SIGTERM)
    finally:
        running.process.kill()
        running.process.communicate()


def read_all(client: socket.socket) -> bytes:
    """What comes up to the end."""
    got = b""
    while piece := client.recv(65_536):
        got += piece
    return got


def read_lines(client: socket.socket, lines: int) -> bytes:
    got = b""
    while got.count(b"\n") < lines:
        piece = client.recv(65_536)
        if not piece:
            break
        got += piece
    return got


def reset(client: socket.socket) -> None:
    """Closes the connection so that the server sees a reset."""
    client.setsockopt(socket.SOL_SOCKET, socket.SO_LINGER, struct.pack("ii", 1, 0))
    client.close()


def is_served(running: Server, clients: int = 1) -> None:
    """Whether so many more clients are served at the same time."""
    together = [running.client() for _ in range(clients)]
    for number, client in enumerate(together):
        key = b"served-%d" % number
        client.delete(key)
        same(client.put(key, b"1"), True, "a put of another client")
        same(client.get(key), b"1", "a get of another client")
    for client in together:
        client.close()


def at_once(count: int, work: Callable[[int], None]) -> None:
    """Does the work with each number on a thread of its own. What one of them raises is raised."""
    raised: list[BaseException] = []

    def guarded(number: int) -> None:
        try:
            work(number)
        except BaseException as error:
            raised.append(error)

    threads = [threading.Thread(target=guarded, args=(number,), daemon=True) for number in range(count)]
    for thread in threads:
        thread.start()
    for thread in threads:
        thread.join(4 * PATIENCE)
    if raised:
        raise raised[0]
    if any(thread.is_alive() for thread in threads):
        raise Failed("a client wasn't served to its end")


class Model:
    """What one connection alone is answered."""

    def __init__(self) -> None:
        self.map: dict[bytes, bytes] = {}

    def replies(self, request: Get | Put | Delete | Scan) -> list[bytes]:
        match request:
            case Put(key, value):
                is_new = key not in self.map
                self.map[key] = value
                return [b"NEW" if is_new else b"SET"]
            case Get(key):
                return [b"VALUE " + escape(self.map[key])] if key in self.map else [b"NONE"]
            case Delete(key):
                return [b"NONE" if self.map.pop(key, None) is None else b"GONE"]
            case Scan(start, end, limit):
                keys = sorted(key for key in self.map if (start or b"") <= key and (end is None or key < end))
                pairs = [b"PAIR %s %s" % (escape(key), escape(self.map[key])) for key in keys[:limit]]
                return [*pairs, b"END %d" % len(pairs)]


def some_key(draw: random.Random) -> bytes:
    kind = draw.randrange(10)
    if kind < 7:
        return b"key-%03d" % draw.randrange(150)
    if kind < 9:
        return b"k" * draw.choice([1, 40, 254, 255])
    return bytes(draw.choices(range(256), k=draw.randrange(1, 4)))


def some_value(draw: random.Random) -> bytes:
    kind = draw.randrange(10)
    if kind < 8:
        return b"%d" % draw.randrange(10**9)
    return draw.randbytes(draw.choice([0, 1, 300, 1_024]))


def some_request(draw: random.Random) -> Get | Put | Delete | Scan:
    kind = draw.randrange(20)
    if kind < 8:
        return Put(some_key(draw), some_value(draw))
    if kind < 14:
        return Get(some_key(draw))
    if kind < 17:
        return Delete(some_key(draw))
    ends = [None if draw.randrange(3) == 0 else some_key(draw) for _ in range(2)]
    return Scan(*ends, draw.choice([0, 1, 5, 50, 1_000]))


@case
def connections_one_after_another(worm: str) -> str:
    with server(worm) as running:
        for number in range(200):
            with running.client() as client:
                same(client.put(b"last", b"%d" % number), number == 0, f"put of connection {number}")
                same(client.put(b"k%d" % number, b""), True, f"put of connection {number}")
                same(client.get(b"last"), b"%d" % number, f"get of connection {number}")
        with running.client() as client:
            same(sum(1 for _ in client.scan()), 201, "number of keys")
    return "200 connections, each sees what those before it put"


@case
def connections_at_once(worm: str) -> str:
    with server(worm, "--workers", "16") as running:
        everyone = threading.Barrier(16, timeout=PATIENCE)

        def work(number: int) -> None:
            with running.client() as client:
                client.put(b"here-%02d" % number, b"1")
                # Nobody goes before all were answered.
                everyone.wait()
                same(sum(1 for _ in client.scan(b"here-", b"here.")), 16, "clients that are here")
                use_own_keys(client, number, 500)

        at_once(16, work)
    return "16 clients are served by 16 workers at the same time, each right about its own keys"


@case
def more_connections_than_workers(worm: str) -> str:
    with server(worm, "--workers", "3") as running:

        def work(number: int) -> None:
            with running.client() as client:
                use_own_keys(client, number, 200)

        at_once(16, work)
    return "16 clients take turns at 3 workers, each right about its own keys"


def use_own_keys(client: Connection, number: int, requests: int) -> None:
    """Random requests on keys that no other client has."""
    draw = random.Random(number)
    own: dict[bytes, bytes] = {}
    for _ in range(requests):
        key = b"own-%02d-%02d" % (number, draw.randrange(20))
        kind = draw.randrange(10)
        if kind < 4:
            same(client.put(key, value := some_value(draw)), key not in own, "a put of an own key")
            own[key] = value
        elif kind < 7:
            same(client.get(key), own.get(key), "a get of an own key")
        elif kind < 9:
            same(client.delete(key), own.pop(key, None) is not None, "a delete of an own key")
        else:
            pairs = list(client.scan(b"own-%02d-" % number, b"own-%02d." % number))
            same(pairs, sorted(own.items()), "a scan of own keys")


@case
def pipelines_cut_anywhere(worm: str) -> str:
    requests = 3_000
    with server(worm, "--soft", "8", "--hard", "64", "--merge-sum", "4") as running:
        for depth in (1, 16, 256):
            with running.client() as client:
                for key, _ in list(client.scan()):
                    client.delete(key)
            with running.raw() as raw:
                pipeline(raw, random.Random(depth), depth, requests)
    return f"{requests} requests at each of the depths 1, 16 and 256, each reply as a map has it"


def pipeline(raw: socket.socket, draw: random.Random, depth: int, count: int) -> None:
    """Keeps up to `depth` requests under way, sends them in pieces that are cut anywhere, and looks at each reply."""
    model = Model()
    unsent, wanted, got = b"", [], b""
    made = answered = 0
    ends: list[int] = []
    while answered < count:
        while made < count and made - answered < depth:
            request = some_request(draw)
            unsent += request.line()
            wanted += model.replies(request)
            ends.append(len(wanted))
            made += 1
        while unsent:
            length = draw.choice([1, 3, 17, 100, 1_000, 5_000])
            raw.sendall(unsent[:length])
            unsent = unsent[length:]
        # At least one request more is to be answered, and perhaps all that are under way.
        least = draw.randrange(answered, made)
        seen = ends[answered - 1] if answered else 0
        while got.count(b"\n") < ends[least] - seen:
            piece = raw.recv(65_536)
            if not piece:
                raise Failed(f"the server ended the connection behind {answered} requests")
            got += piece
        while answered < made and got.count(b"\n") >= ends[answered] - seen:
            lines = got.split(b"\n", ends[answered] - seen)
            same(lines[:-1], wanted[seen : ends[answered]], f"replies to request {answered}")
            got = lines[-1]
            seen = ends[answered]
            answered += 1
    same(got, b"", "bytes behind the last reply")


@case
def a_stop_in_the_middle_of_a_line(worm: str) -> str:
    with server(worm, "--workers", "2") as running:
        with running.raw() as stopped:
            stopped.sendall(b"PUT a 1\nGET ")
            same(read_lines(stopped, 1), b"NEW\n", "the reply before the stop")
            for _ in range(20):
                is_served(running)
            stopped.sendall(b"a\n")
            same(read_lines(stopped, 1), b"VALUE 1\n", "the reply behind the stop")
            stopped.sendall(b"GET a")
            stopped.shutdown(socket.SHUT_WR)
            same(read_all(stopped), b"VALUE 1\n", "the reply to a last line without its end")
        for _ in range(20):
            with running.raw() as gone:
                gone.sendall(b"PUT half ")
        is_served(running, 2)
    return "others are served meanwhile, and it goes on where it stopped; 20 that go away there hold nothing up"


@case
def resets(worm: str) -> str:
    with server(worm, "--workers", "2") as running:
        for number in range(100):
            raw = running.raw()
            raw.sendall(b"PUT a 1\n" * (number % 50) + b"SCAN * * 1000\nPUT hal"[: number % 22])
            if number % 2:
                # Some are waiting for more, or are writing.
                time.sleep(0.002)
            reset(raw)
        is_served(running, 2)
    return "100 connections that were reset at any place leave all workers free"


@case
def a_client_that_never_reads(worm: str) -> str:
    with server(worm, "--workers", "2") as running:
        with running.client() as client:
            client.put(b"long", b"v" * 1_024)
        deaf = running.raw()
        # The server can't write, so it reads no more.
        sent = send_until_stuck(deaf, b"GET long\n" * 1_000)
        for _ in range(50):
            is_served(running)
        deaf.close()
        is_served(running, 2)
    return f"it could send {sent / 1e6:.1f} MB; its worker alone waits, and is free when it is gone"


def send_until_stuck(client: socket.socket, bytes: bytes) -> int:
    sent = 0
    while select.select([], [client], [], 0.5)[1]:
        client.setblocking(False)
        try:
            sent += client.send(bytes)
        except BlockingIOError:
            pass
        if sent > 1e9:
            raise Failed("a client that never reads could send 1 GB")
    return sent


@case
def a_line_without_end(worm: str) -> str:
    with server(worm) as running:
        for behind, want in [(b"\nGET a\n", b"ERR 6 line\nNONE\n"), (b"", b"ERR 6 line\n")]:
            with running.raw() as raw:
                for _ in range(160):
                    raw.sendall(b"x" * 65_536)
                raw.sendall(behind)
                raw.shutdown(socket.SHUT_WR)
                same(read_all(raw), want, "replies to a line of 10 MB")
    return "10 MB without a line end are one fault, with and without an end behind them"


@case
def quit_with_much_behind(worm: str) -> str:
    with server(worm) as running:
        for number in range(200):
            with running.raw() as raw:
                raw.sendall(b"PUT a 1\nQUIT\n" + b"GET a\n" * (16_667 if number % 2 else 100_000))
                same(read_all(raw), b"NEW\nBYE\n" if number == 0 else b"SET\nBYE\n", f"replies to client {number}")
    return "200 of 200 clients with 100 or 600 kB behind QUIT read BYE and the end"


@case
def quit_beside_a_worker_that_waits(worm: str) -> str:
    with server(worm, "--workers", "2") as running, running.raw() as raw:
        # The other worker has the door meanwhile, since no second client comes.
        sender = threading.Thread(target=send_until_gone, args=(raw, b"QUIT\n" + b"x" * 20_000_000), daemon=True)
        start = time.monotonic()
        sender.start()
        same(read_all(raw), b"BYE\n", "replies to QUIT with 20 MB behind it")
        if time.monotonic() - start > PATIENCE / 2:
            raise Failed("the end came late")
    return "20 MB behind QUIT, while the other worker waits for a client: BYE and the end"


def send_until_gone(raw: socket.socket, data: bytes) -> None:
    try:
        raw.sendall(data)
    except OSError:
        pass


@case
def descriptors_go_with_their_clients(worm: str) -> str:
    with server(worm, "--workers", "64", "--lanes", "64") as running:
        before = descriptors(running)
        clients = [running.client() for _ in range(40)]
        for number, client in enumerate(clients):
            client.put(b"client %d" % number, b"1")
        most = descriptors(running)
        for client in clients:
            client.close()
        until = time.monotonic() + 2
        while descriptors(running) > before and time.monotonic() < until:
            time.sleep(0.01)
        same(descriptors(running), before, "open descriptors two seconds after the last client")
        same(most - before, len(clients), "descriptors of the clients at once")
    return "40 clients at once have a descriptor each, and none when they are gone"


def descriptors(running: Server) -> int:
    return len(os.listdir(f"/proc/{running.process.pid}/fd"))


@case
def fewer_descriptors_than_clients(worm: str) -> str:
    with server(worm, "--workers", "8", "--lanes", "64") as running:
        few = descriptors(running) + 4
        resource.prlimit(running.process.pid, resource.RLIMIT_NOFILE, (few, few))
        at_once(12, lambda number: is_served_late(running, number))
        for number in range(30):
            is_served_late(running, number)
    return "12 clients of 8 workers with 4 descriptors, and 30 after them, are all answered"


def is_served_late(running: Server, number: int) -> None:
    """A client waits in the system's queue until a descriptor is free."""
    with running.client() as client:
        client.put(b"late %d" % number, b"%d" % number)
        same(client.get(b"late %d" % number), b"%d" % number, f"the value of client {number}")


@case
def gone_before_accepted(worm: str) -> str:
    with server(worm, "--workers", "1") as running:
        with running.client() as client:
            client.put(b"a", b"1")
            for number in range(40):
                # The one worker is held up, so they wait in the system's queue.
                waiting = running.raw()
                if number % 3:
                    waiting.sendall(b"PUT queued 1\n")
                if number % 2:
                    reset(waiting)
                else:
                    waiting.close()
            same(client.get(b"a"), b"1", "a get meanwhile")
        is_served(running)
    return "40 clients that were gone while they waited, half of them by a reset, and the next one is served"


@case
def clients_that_say_nothing(worm: str) -> str:
    with server(worm, "--workers", "2") as running:
        for _ in range(50):
            running.raw().close()
        with running.raw() as silent:
            is_served(running)
            silent.shutdown(socket.SHUT_WR)
            same(read_all(silent), b"", "replies to nothing")
        with running.raw() as empty:
            empty.sendall(b"\n\r\n\n")
            empty.shutdown(socket.SHUT_WR)
            same(read_all(empty), b"", "replies to empty lines")
    return "they get nothing but the end"


@case
def replies_come_before_more_is_asked(worm: str) -> str:
    with server(worm) as running:
        with running.client() as client:
            start = time.monotonic()
            for number in range(2_000):
                client.put(b"turn", b"%d" % number)
            seconds = time.monotonic() - start
        # A reply that waits for an acknowledgement takes 40 ms, and one for a second request never comes.
        if seconds > 40:
            raise Failed(f"2,000 turns took {seconds:.1f} s")
    return "2,000 turns of one request and its reply"


@case
def asked_sessions_end(worm: str) -> str:
    for workers, sessions in ((1, 5), (4, 5), (4, 40)):
        running = Server(worm, "--workers", str(workers), "--sessions", str(sessions))
        try:
            for _ in range(sessions - 1):
                same(running.process.poll(), None, "the server's status before the last session")
                with running.client() as client:
                    client.put(b"a", b"1")
            running.is_silent(0)
            refused = False
            try:
                running.raw().close()
            except ConnectionRefusedError:
                refused = True
            same(refused, True, "whether the port is closed")
        finally:
            running.process.kill()
            running.process.communicate()
    return "behind the last of 5 and of 40 sessions the status is 0, with 1 and with 4 workers"


@case
def an_address_of_version_6(worm: str) -> str:
    try:
        with socket.socket(socket.AF_INET6) as probe:
            probe.bind(("::1", 0))
            port = probe.getsockname()[1]
    except OSError:
        return "not tried: this machine has no such address"
    process = started(worm, f"[::1]:{port}", "--sessions=1", *SMALL)
    try:
        until = time.monotonic() + PATIENCE
        while True:
            try:
                with Connection("::1", port, PATIENCE) as client:
                    same(client.put(b"a", b"1"), True, "a put")
                break
            except ConnectionRefusedError:
                if time.monotonic() > until:
                    raise
                time.sleep(0.01)
        same(process.wait(PATIENCE), 0, "status")
    finally:
        process.kill()
        process.communicate()
    return "a client at ::1 is served"


@case
def a_port_in_use(worm: str) -> str:
    with server(worm) as running:
        for address in (f"{HOST}:{running.port}", "256.0.0.1:7", "nowhere", f"{HOST}:99999"):
            second = started(worm, address)
            written, told = second.communicate(timeout=PATIENCE)
            same((second.returncode, written, told), (6, b"", b"worm: door fault\n"), f"what {address} gives")
        is_served(running)
    return "status 6 and `worm: door fault`, as for three addresses that are none"


@case
def faulty_words(worm: str) -> str:
    for words in ([], ["x", "y"], ["x", "--workers", "0"], ["x", "--workers", "17"], ["x", "--sessions", "-1"], ["-x"]):
        process = started(worm, *words)
        written, told = process.communicate(timeout=PATIENCE)
        same((process.returncode, written, told), (2, b"", b"worm: words\n"), f"what the words {words} give")
    return "status 2 and `worm: words`"


@case
def the_client_of_the_repository(worm: str) -> str:
    with server(worm) as running, running.client() as client:
        every = [bytes([byte]) for byte in range(256)]
        for key in every:
            same(client.put(key, key * 4), True, f"put of {key!r}")
        same(list(client.scan()), [(key, key * 4) for key in every], "a scan of keys of every byte")
        for key in every:
            same((client.get(key), client.delete(key), client.get(key)), (key * 4, True, None), f"{key!r}")
        many = [b"%04d" % number for number in range(2_900)]
        same(client.pipeline([Put(key, b"v" + key) for key in many]), [True] * len(many), "a pipeline of puts")
        same(client.pipeline([Get(key) for key in many]), [b"v" + key for key in many], "a pipeline of gets")
        same([key for key, _ in client.scan(b"0100", b"2500")], many[100:2_500], "a scan over pages")
        same([key for key, _ in client.scan(b"0100", limit=1_001)], many[100:1_101], "a scan with a limit")
        longest = [b"\xff" * 254 + bytes([last]) for last in (0xFE, 0xFF)]
        client.pipeline([Put(key, b"") for key in longest])
        same([key for key, _ in client.scan(longest[0])], longest, "a scan of the last keys")
        same([key for key, _ in client.scan(prefix=b"01")], many[100:200], "a scan by a prefix")
        same([key for key, _ in client.scan(prefix=b"\xff")], [b"\xff" * 254 + b"\xfe", b"\xff" * 255], "the last prefix")
        mixed = client.pipeline([Scan(b"0000", b"0002"), Delete(b"0000"), Get(b"0000"), Get(b"0001")])
        same(mixed[0], [(key, b"v" + key) for key in many[:2]], "a scan in a pipeline")
        same(mixed[1:], [True, None, b"v0001"], "answers behind a scan")
    return "keys and values of every byte, pipelines, scans over pages and by a prefix"


@case
def a_late_server_breaks_the_connection(worm: str) -> str:
    with server(worm) as running, Connection(HOST, running.port, timeout=0.3) as client:
        client.pipeline([Put(key, key * 2) for key in (b"a", b"b", b"c")])
        with stopped(running):
            is_raised(TimeoutError, lambda: client.get(b"a"))
        time.sleep(0.2)
        for key in (b"b", b"c"):
            is_raised(ConnectionError, lambda: client.get(key))
        is_raised(ConnectionError, lambda: list(client.scan()))
        is_served(running)
    return "a get that timed out is never answered later, nor is another one by its reply"


@case
def an_interrupt_breaks_the_connection(worm: str) -> str:
    with server(worm) as running, running.client() as client:
        client.pipeline([Put(key, key * 2) for key in (b"a", b"b")])
        before = signal.signal(signal.SIGALRM, interrupt)
        try:
            with stopped(running):
                signal.setitimer(signal.ITIMER_REAL, 0.3)
                is_raised(KeyboardInterrupt, lambda: client.get(b"a"))
        finally:
            signal.signal(signal.SIGALRM, before)
        time.sleep(0.2)
        is_raised(ConnectionError, lambda: client.get(b"b"))
        is_served(running)
    return "a get that was interrupted leaves no reply to the next one"


def interrupt(number: int, frame: object) -> None:
    raise KeyboardInterrupt


@case
def a_broken_pipeline_breaks_the_connection(worm: str) -> str:
    with server(worm) as running:
        with Connection(HOST, running.port, timeout=0.3) as client:
            client.put(b"a", b"1" * 1_024)
            is_raised(TypeError, lambda: client.pipeline([Get(b"a"), b"GET a"]))
            same(client.get(b"a"), b"1" * 1_024, "a get behind a pipeline that was never sent")
            with stopped(running):
                # More than the system takes for a server that reads nothing.
                is_raised(TimeoutError, lambda: client.pipeline([Put(b"a", b"2" * 1_024)] * 50_000))
            is_raised(ConnectionError, lambda: client.get(b"a"))
        is_served(running)
    return "a pipeline that was cut off in the middle leaves no reply to the next request"


@contextmanager
def stopped(running: Server) -> Iterator[None]:
    """The server does nothing inside."""
    running.process.send_signal(signal.SIGSTOP)
    try:
        yield
    finally:
        running.process.send_signal(signal.SIGCONT)


@case
def a_client_without_a_worker_times_out(worm: str) -> str:
    with server(worm, "--workers", "1") as running, running.client() as first:
        first.put(b"a", b"1")
        with Connection(HOST, running.port, timeout=0.3) as second:
            is_raised(TimeoutError, lambda: second.get(b"a"))
        first.close()
        is_served(running)
    return "where the one worker is taken a second client is accepted and not answered, until it gives up"


@case
def threads_share_a_pool(worm: str) -> str:
    with server(worm, "--workers", "4") as running, Pool(HOST, running.port, 4, PATIENCE) as pool:

        def work(number: int) -> None:
            for key in (b"%02d-%03d" % (number, place) for place in range(100)):
                same((pool.put(key, key * 2), pool.get(key)), (True, key * 2), "a put and a get")
            same(len(list(pool.scan(prefix=b"%02d-" % number))), 100, "a scan of own keys")

        at_once(16, work)
        same(sum(1 for _ in pool.scan()), 1_600, "number of keys")
    return "16 threads share 4 connections, each right about its own keys"


@case
def a_full_leaf_is_told(worm: str) -> str:
    options = ["--leaves=1", "--items=64", "--heads=64", "--soft=2", "--hard=3", "--merge-sum=1"]
    with server(worm, *options, small=[]) as running, running.client() as client:
        client.pipeline([Put(key, b"1") for key in (b"a", b"b", b"c")])
        error = is_raised(FullError, lambda: client.put(b"d", b"1"))
        same(str(error), "FULL crowded 3 3", "the refusal")
        same((client.put(b"a", b"9"), client.delete(b"a"), client.put(b"d", b"1")), (False, True, True), "what follows")
    return "a fourth key where there is room for three is refused, and taken once another is gone"


def is_raised(kind: type[BaseException], call: Callable[[], object]) -> BaseException:
    try:
        call()
    except kind as error:
        return error
    raise Failed(f"{kind.__name__} wasn't raised")


def main() -> None:
    if len(sys.argv) < 2:
        sys.exit(__doc__)
    worm, names = sys.argv[1], sys.argv[2:]
    cases = [function for function in CASES if not names or function.__name__ in names]
    failed = []
    for function in cases:
        start = time.monotonic()
        try:
            line = f"passed {function.__name__}: {function(worm)}"
        except (Failed, OSError, WormError, threading.BrokenBarrierError, subprocess.TimeoutExpired) as error:
            failed.append(function.__name__)
            line = f"FAILED {function.__name__}: {' '.join(str(error).split()) or repr(error)}"
        print(f"{line} ({time.monotonic() - start:.1f} s)", flush=True)
    tail = f"; failed: {', '.join(failed)}" if failed else ""
    print(f"server: {len(cases) - len(failed)} of {len(cases)} cases passed{tail}")
    sys.exit(1 if failed or not cases else 0)


if __name__ == "__main__":
    main()
