"""The calls that a connection and a pool of them have in common."""

from __future__ import annotations

from abc import ABC, abstractmethod
from collections.abc import Iterable, Iterator, Sequence

from ._errors import WormError
from ._requests import (
    LONGEST_KEY,
    PAGE,
    Answer,
    Delete,
    Get,
    Pair,
    Put,
    Request,
    Scan,
    check_bytes,
    check_limit,
    end_of_prefix,
    next_key,
)


class Client(ABC):
    """Whoever can make requests in a row."""

    def get(self, key: bytes) -> bytes | None:
        """The value of the key, or None where it isn't there."""
        answer = self._ask(Get(key))
        assert answer is None or isinstance(answer, bytes)
        return answer

    def put(self, key: bytes, value: bytes) -> bool:
        """Gives the key this value. True where the key wasn't there."""
        return self._ask(Put(key, value)) is True

    def delete(self, key: bytes) -> bool:
        """Takes the key out. True where it was there."""
        return self._ask(Delete(key)) is True

    def scan(
        self,
        start: bytes | None = None,
        end: bytes | None = None,
        limit: int | None = None,
        *,
        prefix: bytes | None = None,
    ) -> Iterator[Pair]:
        """Pairs by ascending keys, from `start`, included, to `end`, excluded, where None is an open end; or those whose
        keys begin with `prefix`. At most `limit` of them, or all.

        It asks for a page at a time, and only when the one before it has been used, so other requests may be made
        meanwhile. What other connections change during a scan may be seen or not."""
        if limit is not None:
            check_limit(limit)
        if prefix is not None:
            if start is not None or end is not None:
                raise ValueError("a scan has a prefix or bounds, and not both")
            check_bytes(prefix, "a prefix", 0, LONGEST_KEY)
            start, end = prefix or None, end_of_prefix(prefix)
        # What is no bound is refused here, and not when the first pair is taken.
        Scan(start, end)
        return self._pages(start, end, limit)

    def pipeline(self, requests: Iterable[Request]) -> list[Answer | WormError]:
        """Makes all requests at once, and gives what became of each, in order: its answer, or the exception that the
        request alone would have raised. Later requests are served in either case."""
        asked = list(requests)
        for request in asked:
            if not isinstance(request, (Get, Put, Delete, Scan)):
                raise TypeError(f"a request is a Get, Put, Delete or Scan, and this is {type(request).__name__}")
        return self._exchange(asked)

    @abstractmethod
    def _exchange(self, requests: Sequence[Request]) -> list[Answer | WormError]:
        """Sends all, and takes a reply to each."""

    def _ask(self, request: Request) -> Answer:
        [answer] = self._exchange([request])
        if isinstance(answer, WormError):
            raise answer
        return answer

    def _pages(self, start: bytes | None, end: bytes | None, limit: int | None) -> Iterator[Pair]:
        while limit is None or limit > 0:
            asked = PAGE if limit is None else min(limit, PAGE)
            pairs = self._ask(Scan(start, end, asked))
            assert isinstance(pairs, list)
            yield from pairs
            start = next_key(pairs[-1][0]) if len(pairs) == asked else None
            if start is None:
                return
            if limit is not None:
                limit -= asked
