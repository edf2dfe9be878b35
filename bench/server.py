"""The tables of the server: `worm serve` beside the peer's threads, both driven by the peer's client.

A connection sends as many requests as its depth says in one piece, and the next piece when they are answered."""

from __future__ import annotations

import os
import re
import shutil
import signal
import socket
import subprocess
import time
from collections.abc import Iterator
from contextlib import contextmanager

from measure import BUILD, TICKS, Numbers, Plan, Rounds, Table, end, line, load, machine, percent
from scripts import KEYS, WIDE

HOST = "127.0.0.1"
CONNECTIONS = 4
PATIENCE = 30

COLUMNS = [
    "requests",
    "depth",
    "worm, k/s",
    "spread",
    "peer, k/s",
    "spread",
    "worm / peer, time",
    "worm, us each",
    "peer, us each",
    "worm, late turn us",
    "peer, late turn us",
]

KINDS = {"gets": "gets", "half": "gets 50, puts 50"}

CALLS = ["read", "recvfrom", "readv", "recvmsg", "write", "sendto", "writev", "sendmsg", "futex", "poll", "epoll_wait"]
CALLS_COUNT = 100_000
CALLS_DEPTH = 16


class Server:
    """A server with all keys put."""

    def __init__(self, name: str, program: str, peer: str) -> None:
        with socket.socket() as probe:
            probe.bind((HOST, 0))
            port = probe.getsockname()[1]
        self.name = name
        self.peer = peer
        self.address = f"{HOST}:{port}"
        options = ["--workers", str(CONNECTIONS), *WIDE] if name == "worm" else []
        self.process = subprocess.Popen([program, "serve", self.address, *options], stdin=subprocess.DEVNULL)
        self.wait(port)
        self.drive(16, "fill", KEYS)

    def wait(self, port: int) -> None:
        until = time.monotonic() + PATIENCE
        while time.monotonic() < until and self.process.poll() is None:
            try:
                socket.create_connection((HOST, port)).close()
                return
            except ConnectionRefusedError:
                time.sleep(0.01)
        end(f"{self.name} doesn't serve")

    def drive(self, depth: int, kind: str, count: int) -> Numbers:
        """What the client tells of so many requests, by names."""
        words = [self.peer, "client", self.address, str(CONNECTIONS), str(depth), kind, str(count)]
        client = subprocess.run(words, stdout=subprocess.PIPE, text=True)
        if client.returncode != 0:
            end(f"the client of {self.name} ended with status {client.returncode}")
        told = client.stdout.split()
        numbers = dict(zip(told[::2], map(float, told[1::2])))
        answered = sum(numbers[reply] for reply in ("new", "set", "value"))
        if answered != count or numbers["none"] or numbers["other"]:
            end(f"{self.name} answered {client.stdout}")
        return numbers

    def processor(self) -> float:
        """The seconds of processor time that it has taken."""
        with open(f"/proc/{self.process.pid}/stat") as file:
            fields = file.read().rsplit(")", 1)[1].split()
        return (int(fields[11]) + int(fields[12])) / TICKS


@contextmanager
def both(worm: str, peer: str) -> Iterator[dict[str, Server]]:
    servers = {"worm": Server("worm", worm, peer), "peer": Server("peer", peer, peer)}
    try:
        yield servers
    finally:
        for server in servers.values():
            server.process.kill()
            server.process.wait()


def server_table(worm: str, peer: str, plan: Plan) -> list[dict[str, float | str]]:
    """Answers its rows for the picture, too."""
    table = Table(f"Server, {CONNECTIONS} connections, {KEYS:,} keys of 44 bytes", COLUMNS)
    rows: list[dict[str, float | str]] = []
    with both(worm, peer) as servers:
        for kind, name in KINDS.items():
            for depth in (1, 16):
                count = (20_000 if depth == 1 else 200_000) * (1 if plan.is_quick else 5)

                def once() -> Numbers:
                    return {
                        key: number
                        for server in servers.values()
                        for key, number in driven(server, depth, kind, count).items()
                    }

                made = plan.rounds_of(once, lambda: sum(server.processor() for server in servers.values()))
                table.row(cells(name, depth, count, made), made)
                rows.append(
                    {"requests": name, "depth": depth}
                    | {server: count / made.median(server) / 1e3 for server in servers}
                )
    table.close()
    return rows


def driven(server: Server, depth: int, kind: str, count: int) -> Numbers:
    before = server.processor()
    told = server.drive(depth, kind, count)
    return {
        server.name: told["seconds"],
        server.name + " processor": (server.processor() - before) / count,
        server.name + " late": told["late_us"],
    }


def cells(name: str, depth: int, count: int, rounds: Rounds) -> list[str]:
    programs = ("worm", "peer")
    speeds = [(f"{count / rounds.median(program) / 1e3:.0f}", percent(rounds.spread(program))) for program in programs]
    each = [f"{1e6 * rounds.median(program + ' processor'):.2f}" for program in programs]
    late = [f"{rounds.median(program + ' late'):.0f}" for program in programs]
    return [name, str(depth), *speeds[0], *speeds[1], f"{rounds.ratio('worm', 'peer'):.2f}", *each, *late]


def calls_table(worm: str, peer: str) -> None:
    """Counts the system calls of a server that runs already, by `strace -f -c -p`, while a client drives it."""
    print(f"\n### System calls of the server for {CALLS_COUNT:,} gets at depth {CALLS_DEPTH}\n")
    if shutil.which("strace") is None:
        print("Not counted: there is no strace here.")
        return
    start = load()
    with both(worm, peer) as servers:
        counts = {name: calls_of(server) for name, server in servers.items()}
    names = [name for name in CALLS if any(name in count for count in counts.values())]
    print(line(["program", *names, "all others"]))
    print(line(["---"] * (len(names) + 2)))
    for program, count in counts.items():
        others = sum(count.values()) - sum(count.get(name, 0) for name in names)
        print(line([program, *(f"{count.get(name, 0):,}" for name in names), f"{others:,}"]))
    print(
        f"\n{CALLS_COUNT // CALLS_DEPTH:,} pieces of {CALLS_DEPTH} requests were sent by {CONNECTIONS} connections. {machine()};"
        f" load {start} at the start, {load()} at the end; one round, as counts don't hang on the load.",
        flush=True,
    )


def calls_of(server: Server) -> dict[str, int]:
    path = os.path.join(BUILD, f"calls_{server.name}.txt")
    tracer = subprocess.Popen(
        ["strace", "-f", "-c", "-p", str(server.process.pid), "-o", path], stderr=subprocess.PIPE, text=True
    )
    # It tells on standard error that it has attached.
    assert tracer.stderr is not None
    if "attached" not in tracer.stderr.readline():
        end("strace can't attach to a program here")
    server.drive(CALLS_DEPTH, "gets", CALLS_COUNT)
    tracer.send_signal(signal.SIGINT)
    tracer.wait(PATIENCE)
    tracer.stderr.close()
    with open(path) as file:
        rows = [row.split() for row in file]
    # Of seconds and microseconds too; where there were errors a column more.
    counts = {row[-1]: int(row[3]) for row in rows if len(row) in (5, 6) and re.fullmatch(r"\d+", row[3])}
    counts.pop("total", None)
    return counts
