#!/usr/bin/env python3
"""Looks whether what the documents quote stands in crates/uses, and whether the folders that docs/EMBEDDING.md names are
enough for a program.

    python3 tests/embedding.py [--quotes]

Each block of Rust in README.md and docs/EMBEDDING.md must stand in one file of crates/uses/src as it is printed. Then the
folders of the page's first list are copied into a new workspace, beside crates/uses, and `rt try --test` runs its programs
there, which takes some minutes and proves nothing. `--quotes` leaves that out. It ends with `embedding: all is as printed`,
or tells what isn't, with status 1."""

from __future__ import annotations

import os
import re
import shutil
import subprocess
import sys
import tempfile

TOP = os.path.dirname(os.path.dirname(os.path.abspath(__file__)))
PAGES = ("README.md", "docs/EMBEDDING.md")
PATIENCE = 1_800


def read(path: str) -> str:
    with open(os.path.join(TOP, path), encoding="utf-8") as file:
        return file.read()


def blocks(text: str, language: str) -> list[str]:
    """The fenced blocks of a language."""
    return re.findall(rf"^```{language}\n(.*?)^```$", text, re.M | re.S)


def misquoted() -> list[str]:
    """What is wrong with the quotes."""
    folder = os.path.join("crates", "uses", "src")
    sources = [read(os.path.join(folder, name)) for name in sorted(os.listdir(os.path.join(TOP, folder)))]
    wrong = []
    for page in PAGES:
        quotes = blocks(read(page), "rust")
        if not quotes:
            wrong.append(f"{page} quotes nothing")
        for quote in quotes:
            if not any(quote in source for source in sources):
                first = quote.strip().split("\n")[0]
                wrong.append(f"{page}: a block stands in no file of {folder}: {first}")
    return wrong


def lines_of(names: list[str]) -> list[str]:
    """The lines of crates.txt for these crates."""
    lines = {line.split(":")[0]: line for line in read("crates.txt").split("\n") if ":" in line and not line.startswith("#")}
    return [lines[name] for name in names]


def embedded() -> list[str]:
    """What is wrong with a workspace of the page's folders."""
    folders = blocks(read("docs/EMBEDDING.md"), "folders")[0].split() + ["uses"]
    workspace = tempfile.mkdtemp(prefix="embedding-")
    try:
        for name in folders:
            shutil.copytree(
                os.path.join(TOP, "crates", name),
                os.path.join(workspace, "crates", name),
                ignore=shutil.ignore_patterns("out", "must-fail"),
            )
        with open(os.path.join(workspace, "crates.txt"), "w", encoding="utf-8") as file:
            file.write("\n".join(lines_of(folders)) + "\n")
        with open(os.path.join(workspace, "HANDLES"), "w", encoding="utf-8") as file:
            file.write("Handles allowed: Threads, Wait.\n")
        tried = subprocess.run(
            ["rt", "try", "--test"],
            cwd=os.path.join(workspace, "crates", "uses"),
            stdout=subprocess.PIPE,
            stderr=subprocess.STDOUT,
            text=True,
            timeout=PATIENCE,
        )
        if tried.returncode != 0 or "test result: ok" not in tried.stdout:
            return ["a workspace of the page's folders doesn't run the programs:", tried.stdout[-2_000:]]
        return []
    finally:
        shutil.rmtree(workspace)


def main() -> int:
    wrong = misquoted()
    if not wrong and "--quotes" not in sys.argv[1:]:
        wrong = embedded()
    for line in wrong:
        print(f"embedding: {line}")
    if wrong:
        return 1
    print("embedding: all is as printed")
    return 0


if __name__ == "__main__":
    sys.exit(main())
