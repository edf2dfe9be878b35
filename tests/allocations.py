#!/usr/bin/env python3
"""Runs the built program with one allocation refused, the first, then the second, and so on, and looks at what it says.

    python3 tests/allocations.py PATH_TO_WORM [--most 200]

A small library that is loaded in front of the C library refuses the allocation of one number; `gcc` makes it in a folder
that goes away. Each run must end by itself with status 0 or 5. With status 5 it wrote a beginning of what it writes where
memory is ample, mostly nothing, or of an output with `NOMEM` in it. With status 0 each reply is the one of an ample run, or
`NOMEM`, or what follows from a request that got that. It ends with `allocations: all runs are well`, or with the first run
that isn't and status 1. It takes less than a minute."""

from __future__ import annotations

import argparse
import os
import subprocess
import sys
import tempfile
from dataclasses import dataclass

PATIENCE = 60
SHAPE = ["--leaves=16", "--items=256", "--heads=64", "--soft=2", "--hard=4", "--merge-sum=1", "--lanes=4"]
REFUSING = r"""
#define _GNU_SOURCE
#include <dlfcn.h>
#include <stdatomic.h>
#include <stdlib.h>

static atomic_long made;

static int is_refused(void) {
    static long number = -1;
    if (number < 0) {
        const char *text = getenv("REFUSED_ALLOCATION");
        number = text ? atol(text) : 0;
    }
    return atomic_fetch_add(&made, 1) + 1 == number;
}

void *malloc(size_t size) {
    static void *(*next)(size_t);
    if (!next) next = dlsym(RTLD_NEXT, "malloc");
    return is_refused() ? NULL : next(size);
}

void *realloc(void *old, size_t size) {
    static void *(*next)(void *, size_t);
    if (!next) next = dlsym(RTLD_NEXT, "realloc");
    return is_refused() ? NULL : next(old, size);
}
"""


@dataclass
class Case:
    """A command and its input."""

    name: str
    words: list[str]
    input: bytes


CASES = [
    Case("run", ["run"], b"".join(b"PUT k%d %s\n" % (i, b"v" * 60) for i in range(12)) + b"GET k3\nDEL k3\nSCAN * * 20\n"),
    Case(
        "lanes 2",
        ["lanes", "2"],
        b"0 PUT a 1\n1 PUT b 2\n0 GET a\n1 GET b\n2 GET a\n"
        + b"".join(b"0 PUT k%d 1\n1 PUT m%d 2\n" % (i, i) for i in range(8)),
    ),
    Case("fill", ["fill", "7", "200"], b""),
]


class Wrong(Exception):
    """What a run shouldn't have said."""


@dataclass
class Run:
    status: int
    output: bytes
    told: bytes


def run(worm: str, case: Case, library: str | None, number: int) -> Run:
    environment = dict(os.environ)
    if library is not None:
        environment |= {"LD_PRELOAD": library, "REFUSED_ALLOCATION": str(number)}
    try:
        made = subprocess.run(
            [worm, *case.words, *SHAPE], input=case.input, capture_output=True, timeout=PATIENCE, env=environment
        )
    except subprocess.TimeoutExpired:
        raise Wrong(f"it hadn't ended after {PATIENCE} s") from None
    return Run(made.returncode, made.stdout, made.stderr)


def compare(case: Case, found: Run, ample: Run) -> str:
    """A word for how the run ended."""
    if found.status == 0:
        if found.output == ample.output:
            return "as ever"
        if b"NOMEM" not in found.output:
            raise Wrong(f"status 0, and other lines with no NOMEM: {found.output[:200]!r}")
        if case.name != "fill" and found.output.count(b"\n") > ample.output.count(b"\n"):
            raise Wrong(f"more lines than there are answers: {found.output[:200]!r}")
        return "NOMEM"
    if found.status != 5:
        raise Wrong(f"status {found.status}, told {found.told!r}")
    if found.told != b"worm: no memory\n":
        raise Wrong(f"status 5, told {found.told!r}")
    if b"NOMEM" not in found.output and not ample.output.startswith(found.output):
        raise Wrong(f"status 5, and other lines: {found.output[:200]!r}")
    return "status 5 with output" if found.output else "status 5"


def try_case(worm: str, case: Case, library: str, most: int) -> None:
    ample = run(worm, case, None, 0)
    if ample.status != 0:
        raise Wrong(f"{case.name} with ample memory: status {ample.status}, told {ample.told!r}")
    counts: dict[str, int] = {}
    for number in range(1, most + 1):
        try:
            end = compare(case, run(worm, case, library, number), ample)
        except Wrong as wrong:
            raise Wrong(f"{case.name}, allocation {number} refused: {wrong}") from None
        counts[end] = counts.get(end, 0) + 1
    print(f"{case.name}: " + ", ".join(f"{count} {end}" for end, count in sorted(counts.items())), flush=True)


def main() -> None:
    parser = argparse.ArgumentParser(description=__doc__, formatter_class=argparse.RawDescriptionHelpFormatter)
    parser.add_argument("worm")
    parser.add_argument("--most", type=int, default=200)
    arguments = parser.parse_args()
    with tempfile.TemporaryDirectory() as folder:
        source, library = os.path.join(folder, "refusing.c"), os.path.join(folder, "refusing.so")
        with open(source, "w") as file:
            file.write(REFUSING)
        subprocess.run(["gcc", "-shared", "-fPIC", "-O1", "-o", library, source, "-ldl"], check=True)
        try:
            for case in CASES:
                try_case(arguments.worm, case, library, arguments.most)
        except Wrong as wrong:
            sys.exit(f"allocations: {wrong}")
    print("allocations: all runs are well")


if __name__ == "__main__":
    main()
