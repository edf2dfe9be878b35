"""What all tables of the bench are made with: runs that are timed, rounds, and what is said of the machine."""

from __future__ import annotations

import os
import platform
import statistics
import subprocess
import sys
import time
from collections.abc import Callable
from dataclasses import dataclass, replace
from typing import IO, NoReturn

HERE = os.path.dirname(os.path.abspath(__file__))
BUILD = os.path.join(HERE, "build")
TICKS = os.sysconf("SC_CLK_TCK")

MOST_FOREIGN = 0.10
"""A round is dropped where other programs took more than this part of the processors while it ran."""

TUNABLES = ("GLIBC_TUNABLES", "glibc.malloc.hugetlb=1")
"""What `./worm` sets where it isn't set, and the bench for all programs."""

Numbers = dict[str, float]


def end(text: str) -> NoReturn:
    print(f"bench: {text}")
    sys.exit(1)


def finished(process: subprocess.Popen[bytes], words: list[str]) -> float:
    """Waits for the program, and answers the seconds of processor time that it took."""
    _, status, usage = os.wait4(process.pid, 0)
    process.returncode = os.waitstatus_to_exitcode(status)
    if process.returncode != 0:
        end(f"{' '.join(words)} ended with status {process.returncode}")
    return usage.ru_utime + usage.ru_stime


def on_files(words: list[str], source: str | IO[bytes], output: str) -> tuple[float, float]:
    """Runs the program from a file to a file: the seconds by the clock, and those of the processor."""
    script = open(source, "rb") if isinstance(source, str) else source
    with script, open(output, "wb") as sink:
        start = time.perf_counter()
        process = subprocess.Popen(words, stdin=script, stdout=sink, stderr=subprocess.DEVNULL)
        processor = finished(process, words)
        return time.perf_counter() - start, processor


def busy_seconds() -> float:
    """The processor time that all programs have taken so far, and what other machines took from this one's."""
    with open("/proc/stat") as file:
        user, nice, system, _idle, _wait, irq, softirq, steal, *_ = map(int, file.readline().split()[1:])
    return (user + nice + system + irq + softirq + steal) / TICKS


def own_seconds() -> float:
    """The processor time of this program and of those that it has waited for."""
    times = os.times()
    return times.user + times.system + times.children_user + times.children_system


@dataclass
class Rounds:
    """What the rounds found, by names, and what was dropped: the part of the processors that others took."""

    kept: list[Numbers]
    dropped: list[float]
    is_busy: bool
    unusable: int = 0

    def above_zero(self, names: list[str]) -> Rounds:
        """Without the rounds in which one of these isn't above 0, as a difference of times that stray may be."""
        usable = [numbers for numbers in self.kept if all(numbers[name] > 0 for name in names)]
        return replace(self, kept=usable, unusable=len(self.kept) - len(usable))

    def of(self, name: str) -> list[float]:
        return [numbers[name] for numbers in self.kept]

    def median(self, name: str) -> float:
        return statistics.median(self.of(name))

    def spread(self, name: str) -> float:
        """From the least to the greatest, in parts of the median."""
        return spread(self.of(name))

    def ratio(self, name: str, other: str) -> float:
        """The median of the ratios in each round, whose runs stand beside each other in time."""
        return statistics.median(ours / theirs for ours, theirs in zip(self.of(name), self.of(other)))


def spread(numbers: list[float]) -> float:
    return (max(numbers) - min(numbers)) / statistics.median(numbers)


@dataclass(frozen=True)
class Plan:
    """How often is measured. So many times the rounds that are wanted are made at most; then all count, as on a machine
    that is never calm."""

    rounds: int
    tries: int
    is_quick: bool

    def rounds_of(
        self, once: Callable[[], Numbers], others: Callable[[], float] = lambda: 0.0, times: int = 1
    ) -> Rounds:
        """Makes rounds until there are enough of those in which the machine was calm. `others` tells the processor time
        of programs of the bench that aren't waited for, as a server."""
        wanted = times * self.rounds
        kept: list[Numbers] = []
        stray: list[tuple[float, Numbers]] = []
        while len(kept) < wanted and len(kept) + len(stray) < self.tries * wanted:
            start, busy, own = time.perf_counter(), busy_seconds(), own_seconds() + others()
            numbers = once()
            room = (time.perf_counter() - start) * (os.cpu_count() or 1)
            foreign = (busy_seconds() - busy - (own_seconds() + others() - own)) / room
            if foreign <= MOST_FOREIGN:
                kept.append(numbers)
            else:
                stray.append((foreign, numbers))
        if len(kept) >= wanted:
            return Rounds(kept, [foreign for foreign, _ in stray], False)
        return Rounds(kept + [numbers for _, numbers in stray], [], True)


class Table:
    """A table in Markdown, which tells the machine, its load and its strays."""

    def __init__(self, title: str, columns: list[str]) -> None:
        self.columns = columns
        self.start = load()
        self.rounds: list[Rounds] = []
        print(f"\n### {title}\n\n{line(columns)}\n{line(['---'] * len(columns))}", flush=True)

    def row(self, cells: list[str], rounds: Rounds) -> None:
        self.rounds.append(rounds)
        print(line(cells), flush=True)

    def close(self) -> None:
        dropped = [foreign for rounds in self.rounds for foreign in rounds.dropped]
        busy = sum(rounds.is_busy for rounds in self.rounds)
        kept = sum(len(rounds.kept) for rounds in self.rounds)
        loads = f"load {self.start} at the start, {load()} at the end"
        print(f"\n{machine()}; {tunables()}; {loads}; {kept} rounds in {len(self.rounds)} rows.")
        unusable = sum(rounds.unusable for rounds in self.rounds)
        if unusable:
            print(f"Not used: {unusable} rounds, in which serving took no longer than what is taken off.")
        if dropped:
            print(f"Dropped: {len(dropped)} rounds, in which others took {least_and_most(dropped)} of the processors.")
        if busy:
            print(
                f"In {busy} rows too few rounds were calm, so all were kept: others took more than"
                f" {100 * MOST_FOREIGN:.0f} % of the processors."
            )
        if not dropped and not busy:
            print(f"No round was dropped: others never took more than {100 * MOST_FOREIGN:.0f} % of the processors.")
        sys.stdout.flush()


def least_and_most(parts: list[float]) -> str:
    return f"{100 * min(parts):.0f} to {100 * max(parts):.0f} %"


def line(cells: list[str]) -> str:
    return "| " + " | ".join(cells) + " |"


def percent(part: float) -> str:
    return f"{100 * part:.0f} %"


def tunables() -> str:
    name = TUNABLES[0]
    return f"{name}={os.environ.get(name, '')}"


def load() -> str:
    return f"{os.getloadavg()[0]:.1f}"


def machine() -> str:
    processor = platform.processor() or platform.machine()
    try:
        with open("/proc/cpuinfo") as file:
            names = [line.split(":", 1)[1].strip() for line in file if line.startswith("model name")]
        processor = names[0] if names else processor
    except OSError:
        pass
    return f"{os.cpu_count()} processors ({processor}), {platform.system()} {platform.release()}"
