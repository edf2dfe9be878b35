"""The search for a legal order: whether the calls of some lanes, each lane's in their order, can stand in one order in
which each reply is what one map answers there.

A call is a read, of a key's value or of its absence, or a write, which wants its key there or not there and leaves a
value or none. No value is written twice. The search is over how far each lane has come and what the map is then, each
such place once. Two things keep it small:

- A read that fits comes at once: it changes nothing, so it may stand before all that is left of the other lanes.
- No write takes a value away that is still to be read."""

from __future__ import annotations

from dataclasses import dataclass
from enum import Enum

Key = int
Value = bytes | None


@dataclass(frozen=True)
class Read:
    key: Key
    value: Value


@dataclass(frozen=True)
class Write:
    key: Key
    wants_key: bool
    value: Value


Call = Read | Write


class Verdict(Enum):
    LEGAL = "legal"
    ILLEGAL = "illegal"
    UNDECIDED = "undecided"


@dataclass(frozen=True)
class Place:
    """How far each lane has come, and the map then, by the numbers of keys."""

    reached: tuple[int, ...]
    map: tuple[Value, ...]


class Search:
    """`most` is how many places are looked at before the search gives up."""

    def __init__(self, lanes: list[list[Call]], keys: int, most: int) -> None:
        self.lanes = lanes
        self.keys = keys
        self.most = most
        # For each lane where each value is read for the last time.
        self.last_readings = [last_readings(calls) for calls in lanes]

    def verdict(self) -> Verdict:
        start = self.with_reads(Place((0,) * len(self.lanes), (None,) * self.keys))
        open_places, seen = [start], {start}
        while open_places:
            place = open_places.pop()
            if all(at == len(calls) for at, calls in zip(place.reached, self.lanes)):
                return Verdict.LEGAL
            if len(seen) > self.most:
                return Verdict.UNDECIDED
            for lane in range(len(self.lanes)):
                after = self.with_write(place, lane)
                if after is not None and after not in seen:
                    seen.add(after)
                    open_places.append(after)
        return Verdict.ILLEGAL

    def with_reads(self, place: Place) -> Place:
        """The place behind all reads that fit."""
        reached = list(place.reached)
        for lane, calls in enumerate(self.lanes):
            at = reached[lane]
            while at < len(calls) and is_read_of(calls[at], place.map):
                at += 1
            reached[lane] = at
        return Place(tuple(reached), place.map)

    def with_write(self, place: Place, lane: int) -> Place | None:
        """The place behind the lane's next call, a write, and the reads that fit then; None where it can't come next."""
        at = place.reached[lane]
        calls = self.lanes[lane]
        if at == len(calls):
            return None
        call = calls[at]
        if isinstance(call, Read):
            return None
        before = place.map[call.key]
        if (before is not None) != call.wants_key or self.is_to_be_read(place, before):
            return None
        reached = place.reached[:lane] + (at + 1,) + place.reached[lane + 1 :]
        return self.with_reads(Place(reached, place.map[: call.key] + (call.value,) + place.map[call.key + 1 :]))

    def is_to_be_read(self, place: Place, value: Value) -> bool:
        if value is None:
            return False
        return any(last.get(value, -1) >= at for last, at in zip(self.last_readings, place.reached))


def is_read_of(call: Call, map: tuple[Value, ...]) -> bool:
    return isinstance(call, Read) and map[call.key] == call.value


def last_readings(calls: list[Call]) -> dict[bytes, int]:
    return {call.value: at for at, call in enumerate(calls) if isinstance(call, Read) and call.value is not None}


def is_lane_after_lane(lanes: list[list[Call]], keys: int, order: tuple[int, ...]) -> bool:
    """Whether the calls are legal with each lane whole behind the one before it."""
    map: list[Value] = [None] * keys
    for lane in order:
        for call in lanes[lane]:
            if isinstance(call, Read):
                if map[call.key] != call.value:
                    return False
            elif (map[call.key] is not None) != call.wants_key:
                return False
            else:
                map[call.key] = call.value
    return True
