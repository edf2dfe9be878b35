"""Requests, as values that can be made only where the server can read them, and the words that they are written by."""

from __future__ import annotations

import re
from dataclasses import dataclass
from typing import Union

LONGEST_KEY = 255
LONGEST_VALUE = 1_024
GREATEST_LIMIT = 1_000_000

PAGE = 1_000
"""How many pairs a scan asks for at once."""


@dataclass(frozen=True)
class Get:
    """Answered by the key's value, or None."""

    key: bytes

    def __post_init__(self) -> None:
        check_key(self.key)

    def line(self) -> bytes:
        return b"GET %s\n" % escape(self.key)


@dataclass(frozen=True)
class Put:
    """Answered by whether the key is new."""

    key: bytes
    value: bytes

    def __post_init__(self) -> None:
        check_key(self.key)
        check_bytes(self.value, "a value", 0, LONGEST_VALUE)

    def line(self) -> bytes:
        return b"PUT %s %s\n" % (escape(self.key), escape(self.value))


@dataclass(frozen=True)
class Delete:
    """Answered by whether the key was there."""

    key: bytes

    def __post_init__(self) -> None:
        check_key(self.key)

    def line(self) -> bytes:
        return b"DEL %s\n" % escape(self.key)


@dataclass(frozen=True)
class Scan:
    """Answered by a list of at most `limit` pairs, by ascending keys, from `start`, included, to `end`, excluded. None
    is an open end. The limit is at most 1,000,000."""

    start: bytes | None = None
    end: bytes | None = None
    limit: int = PAGE

    def __post_init__(self) -> None:
        for bound in (self.start, self.end):
            if bound is not None:
                check_key(bound)
        check_limit(self.limit)
        if self.limit > GREATEST_LIMIT:
            raise ValueError(f"a limit is at most {GREATEST_LIMIT:,}, and this one is {self.limit:,}")

    def line(self) -> bytes:
        ends = [b"*" if bound is None else escape(bound) for bound in (self.start, self.end)]
        return b"SCAN %s %s %d\n" % (*ends, self.limit)


Pair = tuple[bytes, bytes]
Request = Union[Get, Put, Delete, Scan]
Answer = Union[bool, bytes, list[Pair], None]


def check_key(key: object) -> None:
    check_bytes(key, "a key", 1, LONGEST_KEY)


def check_bytes(thing: object, name: str, least: int, most: int) -> None:
    if not isinstance(thing, bytes):
        raise TypeError(f"{name} must be bytes, and this is {type(thing).__name__}")
    if not least <= len(thing) <= most:
        raise ValueError(f"{name} has {least} to {most:,} bytes, and this one has {len(thing):,}")


def check_limit(limit: object) -> None:
    if not isinstance(limit, int) or isinstance(limit, bool):
        raise TypeError(f"a limit must be an int, and this is {type(limit).__name__}")
    if limit < 0:
        raise ValueError(f"a limit is 0 or more, and this one is {limit:,}")


def escape(text: bytes) -> bytes:
    """The bytes as a request has them: all but visible ASCII, and `%` and `*`, as `%` and two hexadecimal digits."""
    if re.fullmatch(rb"[!-$&-)+-~]*", text):
        return text
    return b"".join(ESCAPED[byte] for byte in text)


def unescape(word: bytes) -> bytes:
    """The bytes that a word stands for. A `%` without two hexadecimal digits behind it stands for itself."""
    return re.sub(rb"%([0-9A-Fa-f]{2})", lambda found: bytes([int(found[1], 16)]), word)


def next_key(key: bytes) -> bytes | None:
    """The least key above this one, if there is any."""
    return key + b"\0" if len(key) < LONGEST_KEY else end_of_prefix(key)


def end_of_prefix(prefix: bytes) -> bytes | None:
    """The least key above all that begin with the prefix, if there is any."""
    front = prefix.rstrip(b"\xff")
    return front[:-1] + bytes([front[-1] + 1]) if front else None


ESCAPED = [
    bytes([byte]) if 0x21 <= byte <= 0x7E and byte not in b"%*" else b"%%%02X" % byte for byte in range(256)
]
