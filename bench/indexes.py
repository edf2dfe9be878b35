"""The table of the calls of both indexes: `solo_index` on one thread beside a lane of the shared one, without protocol.

The program `crates/call_times` makes the same calls of both in one run, and tells whether both found the same."""

from __future__ import annotations

import os
import subprocess

from measure import HERE, Numbers, Plan, Table, end, percent

TOP = os.path.dirname(HERE)
PUTS = 65_536
CALLS = 20_000

COLUMNS = ["call", "solo, ns", "spread", "lane, ns", "spread", "lane / solo"]

# What the program calls them, and how many of each it makes.
KINDS = {
    "get": ("a get", CALLS),
    "over": ("a put over an old value", CALLS),
    "new": ("a put of a new key, with splits and growth", PUTS),
    "search": ("a search for a key's leaf, with a pin", CALLS),
}


def find_program() -> str:
    """The program that the environment's CALL_TIMES names, or else that of this checkout, which `rt` builds where it's
    missing."""
    named = os.environ.get("CALL_TIMES")
    if named:
        return named
    folder = os.path.join(TOP, "crates", "call_times")
    program = os.path.join(folder, "out", "call_times")
    if not os.path.exists(program):
        subprocess.run(["rt", "run"], cwd=folder, stdout=subprocess.DEVNULL)
    if not os.path.exists(program):
        end("rt didn't build call_times")
    return program


def one_run(program: str) -> Numbers:
    """The nanoseconds of a call, by kind and index."""
    words = [program, "1", str(PUTS), str(CALLS)]
    output = subprocess.run(words, capture_output=True, text=True)
    if output.returncode != 0:
        end(f"{' '.join(words)} ended with status {output.returncode}")
    numbers: Numbers = {}
    for line in output.stdout.splitlines():
        kind, solo, lane, same = line.split()
        if same != "same":
            end(f"{kind}: the indexes found other leaves, keys or values")
        numbers[f"solo {kind}"] = int(solo) / KINDS[kind][1]
        numbers[f"lane {kind}"] = int(lane) / KINDS[kind][1]
    return numbers


def indexes_table(plan: Plan) -> None:
    program = find_program()
    table = Table(f"Both indexes, one call, {PUTS:,} keys of 44 bytes", COLUMNS)
    rounds = plan.rounds_of(lambda: one_run(program), times=2)
    for kind, (name, _) in KINDS.items():
        solo, lane = f"solo {kind}", f"lane {kind}"
        cells = [name, f"{rounds.median(solo):.0f}", percent(rounds.spread(solo))]
        cells += [f"{rounds.median(lane):.0f}", percent(rounds.spread(lane)), f"{rounds.ratio(lane, solo):.2f}"]
        table.row(cells, rounds)
    table.close()
