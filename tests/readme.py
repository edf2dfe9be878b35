#!/usr/bin/env python3
"""Runs the commands of README.md as they are printed, in a fresh clone, and looks at its links and its length.

    python3 tests/readme.py [--worm PATH_TO_WORM] [--list]

A fresh clone has no program yet, so the first `./try` compiles one, in a minute, and the first `./worm` proves and builds
one, in an hour; `--worm` puts a built one where either looks for it. `--list` shows the blocks and runs none. It ends with `readme: all is as printed`, or tells what isn't, with status 1.

How README.md marks its commands:

- ```console: lines that begin with `$ ` are commands, those that begin with `> ` go on with the one before, and the others are
  what it writes, on standard output or error, but for what `./try` and `./worm` tell of their build. A line `...` stands for
  any lines. The commands of a block run in one shell, in the clone's folder, one right behind the other, as they are pasted;
  what is left running in the background ends with the block.
- ```session: the first line is a command, as above. Of the others those that begin with a request's word are typed into it, each
  when all that stands before it has come, and the others are its replies.
- A comment `<!-- skip: REASON -->` on the line before a block has it listed with the reason, and not run.
- A block of another language, or of none, may have no line that begins with `$ `. No block is marked by spaces alone.

Links of README.md and of all other documents, and the paths between backticks that begin with a folder of the repository, must
be there in the clone; those to other places aren't followed."""

from __future__ import annotations

import argparse
import os
import re
import select
import shutil
import signal
import subprocess
import sys
import tempfile
import time
from dataclasses import dataclass, field

TOP = os.path.dirname(os.path.dirname(os.path.abspath(__file__)))
MOST_WORDS = 1_500
# Where the program has to be proved first, a command takes so long.
PATIENCE = 3_600
REPLY_PATIENCE = 30
REQUESTS = ("PUT ", "GET ", "DEL ", "SCAN ", "QUIT")
SKIP = re.compile(r"<!-- skip: (.+) -->")
FENCE = re.compile(r"```(\w*)$")
OF_BUILD = re.compile(r"try: (compiling|this build)|worm: (proving|\d+ of \d+ crates)")
LINK = re.compile(r"\]\(([^()\s]+)\)")
PATH = re.compile(r"`((?:bench|clients|crates|docs|tests|tools)/[\w./-]*)`")


class Wrong(Exception):
    """What isn't as it is printed."""


@dataclass
class Block:
    """A block of commands, with the line of README.md that it begins at."""

    number: int
    kind: str
    lines: list[str]
    skip: str | None = None

    def title(self) -> str:
        return f"line {self.number}, {self.lines[0] if self.lines else 'empty'}"


@dataclass
class Command:
    text: str
    output: list[str] = field(default_factory=list)


def blocks_of(text: str) -> list[Block]:
    """The blocks of the page. A block whose commands no mark shows is wrong."""
    blocks: list[Block] = []
    fenced: Block | None = None
    before = ""
    for number, line in enumerate(text.split("\n"), 1):
        if fenced is not None:
            if line == "```":
                blocks.append(fenced)
                fenced = None
            else:
                fenced.lines.append(line)
        elif fence := FENCE.match(line):
            skip = SKIP.fullmatch(before)
            fenced = Block(number, fence[1], [], skip[1] if skip else None)
        elif line.startswith("    ") and not before.lstrip().startswith(("-", "*", "1")):
            raise Wrong(f"README.md:{number}: a block marked by spaces: is it a command? Mark it by ```console")
        before = line
    if fenced is not None:
        raise Wrong(f"README.md:{fenced.number}: a block without an end")
    for block in blocks:
        if block.kind not in ("console", "session") and any(line.startswith("$ ") for line in block.lines):
            raise Wrong(f"README.md:{block.number}: a block with commands must be ```console or ```session")
    return [block for block in blocks if block.kind in ("console", "session")]


def commands_of(block: Block) -> list[Command]:
    commands: list[Command] = []
    for line in block.lines:
        if line.startswith("$ "):
            commands.append(Command(line[2:]))
        elif not commands:
            raise Wrong(f"README.md:{block.number}: the block doesn't begin with a command")
        elif line.startswith("> ") and not commands[-1].output:
            commands[-1].text += "\n" + line[2:]
        else:
            commands[-1].output.append(line)
    return commands


def fits(found: list[str], want: list[str]) -> bool:
    """Whether the lines are these, where `...` stands for any lines."""
    if not want:
        return not found
    if want[0] == "...":
        return any(fits(found[start:], want[1:]) for start in range(len(found) + 1))
    return bool(found) and found[0] == want[0] and fits(found[1:], want[1:])


class Shell:
    """One shell for the commands of a block."""

    MARK = "end of a command"

    def __init__(self, folder: str) -> None:
        self.process = subprocess.Popen(
            ["bash", "--noprofile", "--norc"],
            cwd=folder,
            stdin=subprocess.PIPE,
            stdout=subprocess.PIPE,
            stderr=subprocess.STDOUT,
            start_new_session=True,
        )
        assert self.process.stdout is not None
        self.reader = Reader(self.process.stdout.fileno())

    def run(self, command: str) -> list[str]:
        """The lines that the command writes, without waiting for one in the background."""
        assert self.process.stdin is not None
        # The shell's own input has the commands to come, which a program that reads mustn't take.
        self.process.stdin.write(f"{{ {command}\n}} </dev/null\necho; echo '{self.MARK}'\n".encode())
        self.process.stdin.flush()
        return split(self.reader.until(f"\n{self.MARK}\n".encode(), PATIENCE))

    def close(self) -> None:
        try:
            os.killpg(self.process.pid, signal.SIGKILL)
        except ProcessLookupError:
            pass
        self.process.communicate()


def split(text: bytes) -> list[str]:
    return text.decode("utf-8", "replace").removesuffix("\n").split("\n") if text else []


class Reader:
    """What a program writes. Nothing is lost that came with what was waited for."""

    def __init__(self, fd: int) -> None:
        self.fd = fd
        self.got = b""

    def until(self, end: bytes, patience: float) -> bytes:
        """What comes before `end`, which is taken too."""
        last = time.monotonic() + patience
        while end not in self.got:
            if time.monotonic() > last:
                raise Wrong(f"it still runs; it wrote {self.got[-300:]!r}")
            if select.select([self.fd], [], [], 1)[0]:
                piece = os.read(self.fd, 65_536)
                if not piece:
                    raise Wrong(f"it ended; it wrote {self.got[-300:]!r}")
                self.got += piece
        found, self.got = self.got.split(end, 1)
        return found


def run_console(block: Block, folder: str) -> None:
    shell = Shell(folder)
    try:
        for command in commands_of(block):
            found = shell.run(command.text)
            found = [line for line in found if not OF_BUILD.match(line)]
            if not fits(found, command.output):
                raise Wrong(f"`{command.text}` wrote {found}, printed is {command.output}")
    finally:
        shell.close()


def run_session(block: Block, folder: str) -> None:
    """Types each request when all lines before it have come."""
    if not block.lines[0].startswith("$ "):
        raise Wrong(f"README.md:{block.number}: a session begins with a command")
    process = subprocess.Popen(
        ["bash", "-c", block.lines[0][2:]],
        cwd=folder,
        stdin=subprocess.PIPE,
        stdout=subprocess.PIPE,
        start_new_session=True,
    )
    assert process.stdin is not None and process.stdout is not None
    reader, patience = Reader(process.stdout.fileno()), float(PATIENCE)
    try:
        for line in block.lines[1:]:
            if line.startswith(REQUESTS):
                process.stdin.write(line.encode() + b"\n")
                process.stdin.flush()
                continue
            found = reader.until(b"\n", patience).decode("utf-8", "replace")
            # It is built by now.
            patience = REPLY_PATIENCE
            if found != line:
                raise Wrong(f"{found!r} came where {line!r} is printed")
        process.stdin.close()
        rest = reader.got + process.stdout.read()
        if rest or process.wait(PATIENCE) != 0:
            raise Wrong(f"it ended with status {process.returncode} and wrote {rest!r} more")
    finally:
        if process.poll() is None:
            os.killpg(process.pid, signal.SIGKILL)
        process.stdout.close()
        process.wait()


def clone(folder: str, worm: str | None) -> str:
    """A fresh clone of what is committed, and where it is named the built program."""
    there = os.path.join(folder, "clone")
    subprocess.run(["git", "clone", "--quiet", "--no-hardlinks", TOP, there], check=True)
    if worm:
        for place in (".try", os.path.join("crates", "worm", "out")):
            os.makedirs(os.path.join(there, place))
            shutil.copy(worm, os.path.join(there, place, "worm"))
            os.utime(os.path.join(there, place, "worm"))
    return there


def documents(top: str) -> list[str]:
    listed = subprocess.run(["git", "ls-files", "*.md"], cwd=top, stdout=subprocess.PIPE, text=True, check=True)
    return listed.stdout.split()


def anchors_of(text: str) -> set[str]:
    """The anchors of a page's headings, as they are made of their words."""
    headings = re.findall(r"^#+ (.+)$", text, re.MULTILINE)
    return {re.sub(r"[^\w\- ]", "", heading.lower()).replace(" ", "-") for heading in headings}


def dead_links(top: str) -> list[str]:
    dead = []
    for page in documents(top):
        text = read(os.path.join(top, page))
        for target in LINK.findall(text):
            if not re.match(r"\w+:", target) and not leads_somewhere(top, page, target):
                dead.append(f"{page}: {target}")
        dead += [f"{page}: `{path}`" for path in PATH.findall(text) if not is_kept(top, path)]
    return dead


def leads_somewhere(top: str, page: str, target: str) -> bool:
    path, _, anchor = target.partition("#")
    there = os.path.join(top, os.path.dirname(page), path) if path else os.path.join(top, page)
    if not os.path.exists(there):
        return False
    return not anchor or (there.endswith(".md") and anchor in anchors_of(read(there)))


def is_kept(top: str, path: str) -> bool:
    """Whether the path is there, or is one that programs make and the repository ignores."""
    ignored = subprocess.run(["git", "check-ignore", "--quiet", path], cwd=top).returncode == 0
    return ignored or os.path.exists(os.path.join(top, path))


def read(path: str) -> str:
    with open(path, encoding="utf-8") as file:
        return file.read()


def run_blocks(blocks: list[Block], there: str) -> list[str]:
    wrong = []
    for block in blocks:
        start = time.monotonic()
        if block.skip:
            print(f"skipped {block.title()}: {block.skip}", flush=True)
            continue
        try:
            (run_session if block.kind == "session" else run_console)(block, there)
            print(f"passed {block.title()} ({time.monotonic() - start:.1f} s)", flush=True)
        except (Wrong, OSError) as error:
            wrong.append(f"README.md:{block.number}")
            print(f"FAILED {block.title()}: {error}", flush=True)
    return wrong


def main() -> None:
    parser = argparse.ArgumentParser(description=__doc__, formatter_class=argparse.RawDescriptionHelpFormatter)
    parser.add_argument("--worm")
    parser.add_argument("--list", action="store_true")
    asked = parser.parse_args()
    wrong: list[str] = []
    with tempfile.TemporaryDirectory(prefix="worm-readme-") as folder:
        there = clone(folder, asked.worm)
        text = read(os.path.join(there, "README.md"))
        words = len(text.split())
        print(f"{words} words; fewer than {MOST_WORDS} are wanted")
        wrong += ["its length"] if words >= MOST_WORDS else []
        for dead in dead_links(there):
            print(f"FAILED dead link in {dead}")
            wrong.append(dead)
        try:
            blocks = blocks_of(text)
        except Wrong as error:
            sys.exit(f"readme: {error}")
        if asked.list:
            for block in blocks:
                print(f"{block.title()}{f' (skipped: {block.skip})' if block.skip else ''}")
        else:
            wrong += run_blocks(blocks, there)
    if wrong:
        sys.exit(f"readme: wrong are {', '.join(wrong)}")
    print(f"readme: all is as printed, {len(blocks)} blocks")


if __name__ == "__main__":
    main()
