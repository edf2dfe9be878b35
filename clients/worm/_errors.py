"""Replies that are no answers."""

from __future__ import annotations

import re


class WormError(Exception):
    """A reply other than an answer. The request did nothing."""


class AgainError(WormError):
    """Another lane hindered the request, which may be made again."""


class FullError(WormError):
    """The index has no place for the key."""


class NoMemoryError(WormError):
    """The server had no memory for the request."""


class RequestError(WormError):
    """The server couldn't read the request. `number` is the fault's."""

    def __init__(self, text: str, number: int) -> None:
        super().__init__(text, number)
        self.number = number

    def __str__(self) -> str:
        return str(self.args[0])


class UnknownReplyError(WormError):
    """The server doesn't speak this protocol, and what became of the request isn't known. The connection is closed."""


def error_of(line: bytes) -> WormError:
    """What a reply line that is no answer tells."""
    text = line.decode("ascii", "replace")
    if fault := re.fullmatch(r"ERR (\d) \w+", text):
        return RequestError(text, int(fault[1]))
    if text.startswith("AGAIN "):
        return AgainError(text)
    if text.startswith("FULL "):
        return FullError(text)
    return NoMemoryError(text) if text == "NOMEM" else UnknownReplyError(text)
