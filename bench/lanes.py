"""The table of lanes: `worm lanes` beside the peer's threads over one map in an `RwLock`.

What is timed is serving alone. The input is read whole and dealt out to the lanes first, and the index is made and
filled. A second run has all this to do too, but a QUIT in front of the requests of each lane, and its time is taken off.
A third run has the QUIT in front of all lines: it tells what reading and dealing take, and making an empty index."""

from __future__ import annotations

import os
from collections.abc import Iterator
from dataclasses import dataclass

from measure import BUILD, Numbers, Plan, Rounds, Table, end, on_files, percent
from scripts import KEYS, START, WIDE, address, numbers

HOT = 16
LANES = [1, 2, 4]
COLUMNS = [
    "requests",
    "lanes",
    "worm, M/s",
    "spread",
    "peer, M/s",
    "spread",
    "worm / peer, time",
    "worm / peer, processor",
    "worm rest, s",
    "of it reading, s",
    "peer rest, s",
    "of it reading, s",
]

# What must be above 0 in a round.
SERVING = ["worm", "peer", "worm processor", "peer processor"]


@dataclass(frozen=True)
class Mix:
    """Of a hundred requests so many are gets and puts, and the others scan 20 pairs; over so many keys."""

    name: str
    gets: int
    puts: int
    keys: int


MIXES = [
    Mix("gets 100", 100, 0, KEYS),
    Mix("gets 95, puts 5", 95, 5, KEYS),
    Mix("gets 50, puts 50", 50, 50, KEYS),
    Mix("gets 90, puts 5, scans 5", 90, 5, KEYS),
    Mix("gets 100, 16 keys", 100, 0, HOT),
    Mix("gets 95, puts 5, 16 keys", 95, 5, HOT),
]


def filling(lanes: int) -> Iterator[str]:
    for i in range(KEYS):
        yield f"{i % lanes} PUT {address(i * 40_507 % KEYS)} value-{i:010}\n"


def requests(mix: Mix, lanes: int, count: int) -> Iterator[str]:
    draw = numbers(START)
    for i in range(count):
        kind = next(draw) * 100 >> 32
        key = address(next(draw) % mix.keys * (KEYS // mix.keys))
        if kind < mix.gets:
            yield f"{i % lanes} GET {key}\n"
        elif kind < mix.gets + mix.puts:
            yield f"{i % lanes} PUT {key} value-{i:010}\n"
        else:
            yield f"{i % lanes} SCAN {key} * 20\n"


def write_inputs(mix: Mix, lanes: int, count: int) -> dict[str, str]:
    """The input with all requests, the one whose lanes end in front of them, and the one whose lanes end at once."""
    first = "".join(filling(lanes))
    last = "".join(requests(mix, lanes, count))
    ends = "".join(f"{lane} QUIT\n" for lane in range(lanes))
    paths = {}
    for name, text in (("all", first + last), ("rest", first + ends + last), ("reading", ends + first + last)):
        paths[name] = os.path.join(BUILD, f"lanes_{name}.txt")
        with open(paths[name], "w", newline="\n") as file:
            file.write(text)
    return paths


def lanes_table(worm: str, peer: str, plan: Plan) -> list[dict[str, float | str]]:
    """Answers its rows for the picture, too."""
    count = 200_000 if plan.is_quick else 800_000
    table = Table(f"Lanes, {count:,} requests over {KEYS:,} keys of 44 bytes", COLUMNS)
    rows: list[dict[str, float | str]] = []
    for mix in MIXES:
        for lanes in LANES:
            inputs = write_inputs(mix, lanes, count)
            words = {"worm": [worm, "lanes", str(lanes), *WIDE], "peer": [peer, "lanes", str(lanes)]}
            check(words, inputs["all"], lanes, mix, count)
            made = plan.rounds_of(lambda: served(words, inputs)).above_zero(SERVING)
            if made.kept:
                table.row(cells(mix, lanes, count, made), made)
                speeds = {program: count / made.median(program) / 1e6 for program in words}
                rows.append({"mix": mix.name, "lanes": lanes} | speeds)
            else:
                table.row([mix.name, str(lanes), "not measured"], made)
            for path in inputs.values():
                os.remove(path)
    table.close()
    return rows


def served(words: dict[str, list[str]], inputs: dict[str, str]) -> Numbers:
    """The seconds that serving took of either program, and those of the rest."""
    found: Numbers = {}
    times = {
        (program, name): on_files(words[program], inputs[name], os.devnull) for name in inputs for program in words
    }
    for program in words:
        (clock, processor), (rest, rest_processor) = times[program, "all"], times[program, "rest"]
        found[program] = clock - rest
        found[program + " processor"] = processor - rest_processor
        found[program + " rest"] = rest
        found[program + " reading"] = times[program, "reading"][0]
    return found


def check(words: dict[str, list[str]], script: str, lanes: int, mix: Mix, count: int) -> None:
    """Runs both once and looks at what they write: of one lane the same, and of more as many replies, all answers."""
    outputs = {}
    for program in words:
        path = os.path.join(BUILD, f"lanes_{program}.out")
        on_files(words[program], script, path)
        with open(path, "rb") as file:
            outputs[program] = file.read()
        os.remove(path)
        refusals = [word for word in (b"\nERR", b"\nAGAIN", b"\nFULL", b"\nNOMEM") if word in outputs[program]]
        replies = outputs[program].count(b"\n") - outputs[program].count(b"\nPAIR ")
        if refusals or replies != KEYS + count + lanes:
            end(f"{program} gave {replies} replies, {refusals} among them, in {lanes} lanes of {mix.name}")
    if lanes == 1 and outputs["worm"] != outputs["peer"]:
        end(f"the outputs of one lane of {mix.name} differ")


def cells(mix: Mix, lanes: int, count: int, rounds: Rounds) -> list[str]:
    speeds = [
        (f"{count / rounds.median(program) / 1e6:.2f}", percent(rounds.spread(program))) for program in ("worm", "peer")
    ]
    ratios = [f"{rounds.ratio('worm' + kind, 'peer' + kind):.2f}" for kind in ("", " processor")]
    rests = [f"{rounds.median(program + part):.3f}" for program in ("worm", "peer") for part in (" rest", " reading")]
    return [mix.name, str(lanes), *speeds[0], *speeds[1], *ratios, *rests]
