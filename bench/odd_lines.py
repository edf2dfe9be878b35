#!/usr/bin/env python3
"""Gives the program and the peer the same random lines, odd ones among them, in pieces that are cut anywhere, and
compares what they write. `odd_lines.py [ROUNDS [SEED]] [--lanes]`; it ends with `odd lines: all outputs are equal`, or
keeps the input of which they differ and ends with status 1. The environment's WORM and PEER name other binaries.

With `--lanes` the lines go to three lanes, or to none. Lane 0 has all that use the map, so that there is one answer."""

import os
import random
import subprocess
import sys

from measure import BUILD, end
from run import build_peer, find_worm
from scripts import NARROW

# Keys and values as lines have them: short and long, at each limit, with escapes whole and torn, and other bytes.
BYTES = [b"a", b"b", b"0", b"~", b"%", b"*", b"%2A", b"%2a", b"%4", b"%zz", b"%00", b"%0D", b"%20", b"\x00", b"\x7f", b"\xff", b"\r"]
LENGTHS = [0, 1, 1, 2, 3, 7, 8, 9, 16, 29, 30, 47, 48, 49, 50, 64, 254, 255, 256]
LIMITS = [b"0", b"1", b"2", b"20", b"999999", b"1000000", b"1000001", b"0000001", b"00000001", b"", b"x", b"+1", b"-1"]


def word(draw, lengths):
    return b"".join(draw.choices(BYTES, weights=[40, 20, 10] + [1] * (len(BYTES) - 3), k=draw.choice(lengths)))


def key(draw):
    """Mostly one of few, so that they meet."""
    kind = draw.randrange(20)
    if kind < 12:
        return b"key-%d" % draw.randrange(40)
    if kind < 17:
        # They differ behind what a node of the map may have of them.
        return b"k" * draw.choice([46, 47, 48, 49, 200]) + b"%%%02X" % draw.randrange(3) * draw.randrange(3)
    return word(draw, LENGTHS)


def value(draw):
    kind = draw.randrange(8)
    return b"%d" % draw.randrange(10**9) if kind < 5 else word(draw, LENGTHS + [1_023, 1_024, 1_025])


def scan_end(draw):
    return b"*" if draw.randrange(4) == 0 else key(draw)


def line(draw):
    kind = draw.randrange(100)
    if kind < 35:
        words = [b"PUT", key(draw), value(draw)]
    elif kind < 55:
        words = [b"GET", key(draw)]
    elif kind < 65:
        words = [b"DEL", key(draw)]
    elif kind < 80:
        words = [b"SCAN", scan_end(draw), scan_end(draw), draw.choice(LIMITS)]
    elif kind < 90:
        command = draw.choice([b"PUT", b"GET", b"DEL", b"SCAN", b"QUIT", b"put", b"GE", b"", b"GETS", b"QUIT\r"])
        words = [command] + [draw.choice([b"a", b"", b"*", b"1"]) for _ in range(draw.randrange(5))]
        if words == [b"QUIT"]:
            words.append(b"")
    elif kind < 92:
        most = draw.choice([4_095, 4_096, 4_097, 4_098, 20_000])
        words = [b"GET", b"a" * (most - 4)]
    elif kind < 93:
        words = [b"PUT", b"a", b"%61" * draw.choice([1_023, 1_024, 1_025, 1_361, 1_362])]
    else:
        words = []
    return b" ".join(words) + draw.choice([b"", b"", b"", b"\r", b"\r\r"])


# What lines of lanes begin with: lane 0, as it may be written, and no lane.
LANE_0 = [b"0 "] * 12 + [b"00 ", b"000 "]
NO_LANE = [b"3 ", b"0000 ", b"", b" ", b"x ", b"-0 ", b"+0 ", b"0x ", b"0\t", b"64 ", b"999 ", b"1000 ", b"%30 ", b"\xff "]
# What the other lanes have: faults and nothing, which use no map.
OTHERS = [b"1", b"1 ", b"2 GET", b"1 \r", b"2\r", b"2 get a", b"1 PUT a", b"02 SCAN a b x", b"1  ", b"002 SCAN b a 1"]


def lane_line(draw):
    kind = draw.randrange(20)
    if kind < 14:
        return draw.choice(LANE_0) + line(draw)
    return draw.choice(OTHERS) if kind < 17 else draw.choice(NO_LANE) + line(draw)


def lanes_script(draw):
    lines = [lane_line(draw) for _ in range(draw.choice([1, 10, 300, 3_000]))]
    if draw.randrange(3) == 0:
        lines.insert(draw.randrange(len(lines) + 1), draw.choice([b"0 QUIT", b"1 QUIT\r"]))
    return b"\n".join(lines) + draw.choice([b"", b"\n"])


def script(draw):
    lines = [line(draw) for _ in range(draw.choice([1, 10, 300, 3_000]))]
    if draw.randrange(3) == 0:
        lines.insert(draw.randrange(len(lines) + 1), draw.choice([b"QUIT", b"QUIT\r"]))
    return b"\n".join(lines) + draw.choice([b"", b"\n"])


def answer(program, pieces):
    with open(os.path.join(BUILD, "odd.out"), "wb") as output:
        process = subprocess.Popen(program, stdin=subprocess.PIPE, stdout=output, stderr=subprocess.DEVNULL)
    try:
        for piece in pieces:
            process.stdin.write(piece)
            process.stdin.flush()
        process.stdin.close()
    except BrokenPipeError:
        # It ended at a QUIT.
        pass
    if process.wait() != 0:
        end(f"{program[0]} ended with status {process.returncode}")
    with open(os.path.join(BUILD, "odd.out"), "rb") as file:
        return file.read()


def cut(draw, bytes):
    pieces = []
    while bytes:
        length = draw.choice([1, 5, 100, 4_096, 10_000, 300_000])
        pieces.append(bytes[:length])
        bytes = bytes[length:]
    return pieces


def main():
    words = [word for word in sys.argv[1:] if word != "--lanes"]
    rounds = int(words[0]) if words else 300
    seed = int(words[1]) if len(words) > 1 else 1
    os.makedirs(BUILD, exist_ok=True)
    peer, worm, make = build_peer(), find_worm(), script
    if "--lanes" in sys.argv:
        peer, worm, make = [peer[0], "lanes", "3"], [worm[0], "lanes", "3", *NARROW], lanes_script
    for at in range(seed, seed + rounds):
        draw = random.Random(at)
        bytes = make(draw)
        if answer(worm, cut(draw, bytes)) != answer(peer, cut(draw, bytes)):
            kept = os.path.join(BUILD, f"odd_{at}.txt")
            with open(kept, "wb") as file:
                file.write(bytes)
            end(f"the outputs of odd lines {at} differ: {kept}")
    print(f"odd lines: all outputs are equal, {rounds} rounds from seed {seed}")


if __name__ == "__main__":
    main()
