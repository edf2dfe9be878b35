#!/usr/bin/env python3
"""Looks through the sources of all crates for `unsafe`, which none has: only with it could a crate let go a value whose
type doesn't allow it, as an end of a connection. Comments and texts don't count, nor do edits that the gate must refuse.

    python3 tests/sources.py

It ends with `sources: none of N has it`, or with the places and status 1."""

from __future__ import annotations

import pathlib
import re
import sys

ROOT = pathlib.Path(__file__).resolve().parent.parent

# A text, a character or a comment.
SKIPPED = re.compile(r'"(?:\\.|[^"\\])*"|\'(?:\\.|[^\'\\])\'|//[^\n]*', re.DOTALL)


def blank(match):
    """The same lines, with nothing on them."""
    return "\n" * match.group().count("\n")


def unsafe_lines(source):
    """The numbers of the lines of a source that have the word, from 1."""
    code = SKIPPED.sub(blank, source)
    return [number for number, line in enumerate(code.split("\n"), 1) if re.search(r"\bunsafe\b", line)]


def main():
    """Prints each place; the status is 1 where there is one."""
    sources = sorted(ROOT.glob("crates/*/src/**/*.rt"))
    places = [(path.relative_to(ROOT), number) for path in sources for number in unsafe_lines(path.read_text())]
    for path, number in places:
        print(f"{path}:{number}: unsafe")
    if places or not sources:
        return 1
    print(f"sources: none of {len(sources)} has it")
    return 0


if __name__ == "__main__":
    sys.exit(main())
