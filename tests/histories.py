#!/usr/bin/env python3
"""Runs random scripts by `worm lanes`, and looks for one history of each run: an order of all calls, each lane's as
they stand in its script, in which every reply is what one map answers there.

    python3 tests/histories.py PATH_TO_WORM [--runs 300] [--big 4] [--seed 1]

The runs have 2 to 4 lanes, 8 keys that all of them use, and tables so small that splits, merges and refusals are common.
Each lane also has keys of its own between these, whose replies are known; lanes begin with some calls on them, so that
all threads are there before the shared keys are used. A lane's script is over in a millisecond, so most are long: what
counts are the runs in which lanes met, so that no order of whole lanes is legal. Their share is told, and is above a half. A scan is taken for a read of each key by itself, in ascending order,
since its parts come at moments of their own; what is legal so may still not be by leaves. A refusal is no call.

The big runs have 64 lanes of 1,000 lines. No order is searched for there: replies on a lane's own keys are compared, down to
a scan of them all at its end, and of keys that all lanes use the counts of NEW and GONE, and that nobody sees what one lane
put in another order.

It ends with status 1 at the first run that isn't legal, and keeps that run's script and output. It takes some minutes."""

from __future__ import annotations

import argparse
import itertools
import os
import random
import re
import subprocess
import sys
import tempfile
import time
from collections import Counter
from collections.abc import Iterator
from dataclasses import dataclass, field

TOP = os.path.dirname(os.path.dirname(os.path.abspath(__file__)))
sys.path.insert(0, os.path.join(TOP, "clients"))

from legal_orders import Call, Read, Search, Verdict, Write, is_lane_after_lane  # noqa: E402
from worm import Delete, Get, Pair, Put, Request, Scan, unescape  # noqa: E402

# No run takes so long that a lane doesn't wait in vain.
PATIENCE = 400
KEYS = 8
# How many calls a lane makes on keys that all use. Threads meet in long scripts.
CALLS = [30, 1_500, 3_000, 3_000]
# How many calls on its own keys a lane makes at most before them, for each lane that begins behind it.
FIRST_CALLS = 1_000
MOST_PLACES = 200_000
PROGRESS = 50
AGAIN = re.compile(
    rb"AGAIN (locked \d+ \d+|changed \d+ \d+ \d+|stale \d+ \d+ \d+|moved \d+ \d+|turn \d+|pinned \d+ \d+|bin \d+"
    rb"|filled \d+ \d+ \d+)"
)
FULL = re.compile(rb"FULL (values \d+ \d+|crowded \d+ \d+)")


class Illegal(Exception):
    """What isn't as one map would have it."""


@dataclass
class Shape:
    leaves: int
    values: int
    hard: int
    merge_sum: int
    tries: int | None

    def options(self) -> list[str]:
        sizes = {"leaves": self.leaves, "items": 16 * self.leaves + 64, "heads": 64, "values": self.values}
        rules = {"soft": 2, "hard": self.hard, "merge-sum": self.merge_sum}
        words = [f"--{name}={number}" for name, number in (sizes | rules).items()]
        return words + ([] if self.tries is None else [f"--tries={self.tries}"])


@dataclass
class Answered:
    """A request and what became of it: the reply's words, pairs of a scan, and whether it was refused."""

    request: Request
    reply: bytes
    pairs: list[Pair] = field(default_factory=list)

    @property
    def is_refused(self) -> bool:
        return self.reply.startswith((b"AGAIN", b"FULL"))


@dataclass
class Run:
    """Scripts of lanes, as one input, and the keys that all of them use or one of them alone."""

    shape: Shape
    scripts: list[list[Request]]
    shared: list[bytes]
    own: list[list[bytes]]
    input: bytes
    faults: int
    output: bytes = b""
    status: int = 0
    told: bytes = b""

    def words(self, worm: str) -> list[str]:
        return [worm, "lanes", str(len(self.scripts)), f"--lanes={max(len(self.scripts), 4)}", *self.shape.options()]

    def make(self, worm: str) -> None:
        try:
            made = subprocess.run(self.words(worm), input=self.input, capture_output=True, timeout=PATIENCE)
        except subprocess.TimeoutExpired:
            raise Illegal(f"it hadn't ended after {PATIENCE} s") from None
        self.output, self.status, self.told = made.stdout, made.returncode, made.stderr


def key_names(draw: random.Random) -> list[bytes]:
    """Keys that share fronts, and stand in each other."""
    names: set[bytes] = set()
    while len(names) < KEYS:
        names.add(bytes(draw.choices(b"ab", k=draw.randrange(1, 6))))
    return sorted(names)


def shape_of(draw: random.Random) -> Shape:
    return Shape(
        leaves=draw.choice([2, 4, 16, 64]),
        values=draw.choice([6, 12, 200, 200]),
        hard=draw.randrange(3, 9),
        merge_sum=draw.choice([0, 1, 1, 1]),
        tries=draw.choice([None, 1, 1, 2, 3]),
    )


def shared_request(draw: random.Random, keys: list[bytes], value: bytes) -> Request:
    kind = draw.randrange(16)
    key = draw.choice(keys)
    if kind < 6:
        return Put(key, value)
    if kind < 11:
        return Get(key)
    if kind < 14:
        return Delete(key)
    ends = [draw.choice([None, key, draw.choice(keys)]) for _ in range(2)]
    return Scan(*ends, draw.choice([1, 2, 3, 1_000, 1_000]))


def own_request(draw: random.Random, keys: list[bytes], value: bytes) -> Request:
    kind = draw.randrange(8)
    key = draw.choice(keys)
    if kind < 4:
        return Put(key, value)
    return Delete(key) if kind < 7 else Get(key)


def script_of(draw: random.Random, lane: int, lanes: int, shared: list[bytes], own: list[bytes]) -> list[Request]:
    """Some calls on keys of its own, the more the earlier its thread begins, and then calls on either."""
    values = (b"%d.%d" % (lane, number) for number in itertools.count())
    first = draw.randrange(1 + FIRST_CALLS * (lanes - lane))
    script = [own_request(draw, own, next(values)) for _ in range(first)]
    for _ in range(draw.choice(CALLS)):
        script += [own_request(draw, own, next(values)) for _ in range(draw.choice([0, 0, 0, 1, 2]))]
        script.append(shared_request(draw, shared, next(values)))
    return script


def run_of(draw: random.Random) -> Run:
    lanes = draw.randrange(2, 5)
    shared = key_names(draw)
    own = [sorted({draw.choice(shared) + b"~%d" % lane for _ in range(3)}) for lane in range(lanes)]
    scripts = [script_of(draw, lane, lanes, shared, own[lane]) for lane in range(lanes)]
    return Run(shape_of(draw), scripts, shared, own, *dealt(draw, scripts))


def dealt(draw: random.Random, scripts: list[list[Request]]) -> tuple[bytes, int]:
    """The lines of all lanes in one input, in any order, and some that are of no lane, with their number."""
    order = [lane for lane, script in enumerate(scripts) for _ in script]
    faults = draw.choice([0, 0, 3])
    order += [len(scripts)] * faults
    draw.shuffle(order)
    left = [iter(script) for script in scripts]
    lines = [b"%d %s" % (lane, next(left[lane]).line()) if lane < len(left) else b"64 GET a\n" for lane in order]
    return b"".join(lines), faults


def answers_of(run: Run) -> list[list[Answered]]:
    """Reads the output: faults, and then each lane's replies."""
    if (run.status, run.told) != (0, b""):
        raise Illegal(f"status {run.status}, told {run.told!r}")
    lines = iter(run.output.split(b"\n"))
    for _ in range(run.faults):
        expect(next(lines, b""), b"ERR 7 lane")
    answers = []
    for lane, script in enumerate(run.scripts):
        expect(next(lines, b""), b"LANE %d" % lane)
        answers.append([answer_of(run.shape, request, lines) for request in script])
    expect(b"\n".join(lines), b"")
    return answers


def expect(found: bytes, want: bytes) -> None:
    if found != want:
        raise Illegal(f"found {found[:100]!r} where {want!r} should stand")


def answer_of(shape: Shape, request: Request, lines: Iterator[bytes]) -> Answered:
    line = next(lines, b"")
    answered = Answered(request, line)
    if isinstance(request, Scan):
        while line.startswith(b"PAIR "):
            key, value = line[5:].split(b" ")
            answered.pairs.append((unescape(key), unescape(value)))
            line = next(lines, b"")
        answered.reply = line
    if not is_reply(shape, answered):
        raise Illegal(f"{line[:100]!r} is no reply to {request}")
    return answered


def is_reply(shape: Shape, answered: Answered) -> bool:
    line = answered.reply
    if line.startswith(b"AGAIN "):
        return shape.tries is not None and AGAIN.fullmatch(line) is not None
    match answered.request:
        case Put():
            if line.startswith(b"FULL crowded"):
                return line == b"FULL crowded %d %d" % (shape.hard, shape.hard)
            return line in (b"NEW", b"SET") or (FULL.fullmatch(line) and line.endswith(b" %d" % shape.values))
        case Get():
            return line == b"NONE" or line.startswith(b"VALUE ")
        case Delete():
            return line in (b"NONE", b"GONE")
        case Scan():
            return line == b"END %d" % len(answered.pairs) and are_in_range(answered.request, answered.pairs)


def are_in_range(scan: Scan, pairs: list[Pair]) -> bool:
    keys = [key for key, _ in pairs]
    ascend = all(one < other for one, other in itertools.pairwise(keys))
    return ascend and len(keys) <= scan.limit and all(is_asked(scan, key) for key in keys)


def is_asked(scan: Scan, key: bytes) -> bool:
    return (scan.start is None or scan.start <= key) and (scan.end is None or key < scan.end)


def was_seen(answered: Answered, key: bytes) -> bool:
    """Whether the scan tells of this key: that it is there, or that it isn't. Behind its last pair a scan that reached
    its limit, or that was refused, tells of none."""
    scan = answered.request
    assert isinstance(scan, Scan)
    is_whole = not answered.is_refused and len(answered.pairs) < scan.limit
    return is_asked(scan, key) and (is_whole or (answered.pairs != [] and key <= answered.pairs[-1][0]))


def check_own(own: list[bytes], answers: list[Answered]) -> dict[bytes, bytes]:
    """Compares replies on keys that the lane alone uses with those of a map, and answers this map at the end."""
    known: dict[bytes, bytes] = {}
    for answered in answers:
        request, reply = answered.request, answered.reply
        if isinstance(request, Scan):
            pairs = dict(answered.pairs)
            for key in own:
                if was_seen(answered, key) and pairs.get(key) != known.get(key):
                    raise Illegal(f"{request} has {pairs.get(key)!r} for {key!r}, put by this lane was {known.get(key)!r}")
        elif request.key in own and not answered.is_refused:
            want = own_reply(known, request)
            if reply != want:
                raise Illegal(f"{request} of a lane's own key gave {reply!r}, wanted {want!r}")
    return known


def own_reply(known: dict[bytes, bytes], request: Get | Put | Delete) -> bytes:
    is_there = request.key in known
    match request:
        case Put(key, value):
            known[key] = value
            return b"SET" if is_there else b"NEW"
        case Delete(key):
            known.pop(key, None)
            return b"GONE" if is_there else b"NONE"
        case Get(key):
            return b"VALUE " + known[key] if is_there else b"NONE"


def calls_of(shared: list[bytes], answers: list[Answered]) -> list[Call]:
    """The lane's calls on shared keys."""
    number = {key: at for at, key in enumerate(shared)}
    calls: list[Call] = []
    for answered in answers:
        request, reply = answered.request, answered.reply
        if isinstance(request, Scan):
            pairs = dict(answered.pairs)
            calls += [Read(number[key], pairs.get(key)) for key in shared if was_seen(answered, key)]
        elif request.key in number and not answered.is_refused:
            calls.append(call_of(number[request.key], request, reply))
    return calls


def call_of(key: int, request: Get | Put | Delete, reply: bytes) -> Call:
    match request:
        case Put():
            return Write(key, reply == b"SET", request.value)
        case Delete():
            return Write(key, True, None) if reply == b"GONE" else Read(key, None)
        case Get():
            return Read(key, None if reply == b"NONE" else unescape(reply[6:]))


def check_values(run: Run, answers: list[list[Answered]]) -> None:
    """Each pair and value is one that was put to this key by a put that wasn't refused."""
    puts = {
        (answered.request.key, answered.request.value)
        for lane in answers
        for answered in lane
        if isinstance(answered.request, Put) and not answered.is_refused
    }
    for pair in (pair for lane in answers for answered in lane for pair in pairs_seen(answered)):
        if pair not in puts:
            raise Illegal(f"{pair} was never put")


def pairs_seen(answered: Answered) -> list[Pair]:
    if isinstance(answered.request, Get) and answered.reply != b"NONE" and not answered.is_refused:
        return [(answered.request.key, unescape(answered.reply[6:]))]
    return answered.pairs


def check_order_of_puts(answers: list[list[Answered]]) -> None:
    """Nobody sees a value that a lane put to a key once it has seen a later one of this lane, or put or taken it there
    by itself. Each value is the putter's number and that of the put."""
    for lane in answers:
        latest: dict[tuple[bytes, bytes], int] = {}
        for answered in lane:
            is_put = isinstance(answered.request, Put) and not answered.is_refused
            seen = [(answered.request.key, answered.request.value)] if is_put else pairs_seen(answered)
            for key, value in seen:
                putter, number = value.split(b".")
                if latest.get((key, putter), -1) > int(number):
                    raise Illegal(f"{value!r} of {key!r} was seen behind a later value of lane {putter.decode()}")
                latest[key, putter] = int(number)


def check_counts(shared: list[bytes], answers: list[list[Answered]]) -> int:
    """Of each key the count of NEW is that of GONE, or one more: then it is there at the end. Answers how many are."""
    there: Counter[bytes] = Counter()
    for answered in itertools.chain(*answers):
        if answered.reply in (b"NEW", b"GONE"):
            assert not isinstance(answered.request, Scan)
            there[answered.request.key] += 1 if answered.reply == b"NEW" else -1
    for key, count in there.items():
        if count not in (0, 1):
            raise Illegal(f"{key!r} was new {count} times more than it was gone")
    return sum(there[key] for key in shared)


@dataclass
class Tally:
    """What the runs met."""

    words: Counter[str] = field(default_factory=Counter)
    verdicts: Counter[Verdict] = field(default_factory=Counter)
    mixed: int = 0

    def count(self, answers: list[list[Answered]]) -> None:
        for answered in itertools.chain(*answers):
            self.words[answered.reply.split(b" ")[0].decode()] += 1
            self.words["PAIR"] += len(answered.pairs)

    def text(self) -> str:
        return ", ".join(f"{name} {count}" for name, count in sorted(self.words.items()))


def check_small(run: Run, tally: Tally) -> None:
    answers = answers_of(run)
    tally.count(answers)
    for own, lane in zip(run.own, answers):
        check_own(own, lane)
    check_values(run, answers)
    lanes = [calls_of(run.shared, lane) for lane in answers]
    orders = itertools.permutations(range(len(lanes)))
    if any(is_lane_after_lane(lanes, KEYS, order) for order in orders):
        tally.verdicts[Verdict.LEGAL] += 1
        return
    tally.mixed += 1
    verdict = Search(lanes, KEYS, MOST_PLACES).verdict()
    tally.verdicts[verdict] += 1
    if verdict is Verdict.ILLEGAL:
        raise Illegal("no order of the calls is legal")


def big_run(draw: random.Random, lanes: int, lines: int, tries: int | None) -> Run:
    """Lanes with 50 keys each of its own, and 50 that all use; each ends with a scan of its own keys."""
    shared = [b"shared-%02d" % number for number in range(50)]
    own = [[b"lane-%02d-%02d" % (lane, number) for number in range(50)] for lane in range(lanes)]
    scripts = []
    for lane in range(lanes):
        values = (b"%d.%d" % (lane, number) for number in itertools.count())
        script = []
        for _ in range(lines - 1):
            request = shared_request if draw.randrange(4) == 0 else own_request
            script.append(request(draw, shared if request is shared_request else own[lane], next(values)))
        # A scan of all that is there by then, once in a lane.
        script[draw.randrange(lines - 1)] = Scan(None, None, 1_000_000)
        scripts.append([*script, Scan(own[lane][0], b"lane-%02d." % lane, 1_000_000)])
    shape = Shape(leaves=8_192, values=16_384, hard=8, merge_sum=1, tries=tries)
    return Run(shape, scripts, shared, own, *dealt(draw, scripts))


def check_big(run: Run, tally: Tally) -> str:
    answers = answers_of(run)
    tally.count(answers)
    known = [check_own(own, lane) for own, lane in zip(run.own, answers)]
    check_values(run, answers)
    check_order_of_puts(answers)
    there = check_counts(run.shared, answers)
    own = check_counts(list(itertools.chain(*run.own)), answers)
    if own != sum(map(len, known)):
        raise Illegal(f"NEW less GONE is {own} over the lanes' own keys, of which {sum(map(len, known))} are there")
    return f"{len(answers)} lanes of {len(answers[0])} lines, {own} own keys and {there} shared ones at the end"


def keep(run: Run, worm: str, seed: int, what: str) -> None:
    """Puts what is needed to look into the run where it can be found."""
    folder = tempfile.mkdtemp(prefix="worm-histories-")
    for name, content in (("script.txt", run.input), ("output.txt", run.output)):
        with open(os.path.join(folder, name), "wb") as file:
            file.write(content)
    print(f"histories: run {seed} isn't legal: {what}")
    print(f"  {' '.join(run.words(worm))} <{folder}/script.txt >{folder}/output.txt")
    for lane, script in enumerate(run.scripts if len(run.scripts) <= 4 else []):
        print(f"  lane {lane}: {' / '.join(request.line().decode().strip() for request in script)[-2_000:]}")
    sys.exit(1)


def main() -> None:
    parser = argparse.ArgumentParser(description=__doc__, formatter_class=argparse.RawDescriptionHelpFormatter)
    parser.add_argument("worm")
    parser.add_argument("--runs", type=int, default=300)
    parser.add_argument("--big", type=int, default=4)
    parser.add_argument("--seed", type=int, default=1)
    asked = parser.parse_args()
    start, tally = time.monotonic(), Tally()
    for seed in range(asked.seed, asked.seed + asked.runs):
        run = run_of(random.Random(seed))
        try:
            run.make(asked.worm)
            check_small(run, tally)
        except Illegal as error:
            keep(run, asked.worm, seed, str(error))
        if (seed + 1 - asked.seed) % PROGRESS == 0:
            print(f"{seed + 1 - asked.seed} runs, {time.monotonic() - start:.0f} s", flush=True)
    print(
        f"{asked.runs} runs: {tally.verdicts[Verdict.LEGAL]} legal, {tally.verdicts[Verdict.UNDECIDED]} not decided; in"
        f" {tally.mixed} ({tally.mixed / max(asked.runs, 1):.0%}) lanes met; {time.monotonic() - start:.0f} s\n  {tally.text()}"
    )
    for seed in range(asked.seed, asked.seed + asked.big):
        start, tally = time.monotonic(), Tally()
        run = big_run(random.Random(seed), 64, 1_000, None if seed % 2 else 1)
        try:
            run.make(asked.worm)
            print(f"big run {seed}: {check_big(run, tally)}; {time.monotonic() - start:.0f} s\n  {tally.text()}")
        except Illegal as error:
            keep(run, asked.worm, seed, str(error))
    print(f"histories: all runs are legal, from seed {asked.seed}")


if __name__ == "__main__":
    main()
