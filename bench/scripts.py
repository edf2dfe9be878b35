#!/usr/bin/env python3
"""Writes the request scripts of the bench into a folder. Each is the same in every run, since the numbers that
choose its keys begin with a fixed one and go on by a linear congruential generator (Knuth's MMIX numbers)."""

import os
import sys

START = 1
KEYS = 65_536
# One less than the most values of an index: while it holds as many as that it takes no put.
MANY_KEYS = 262_143
LINES = 1_000_000
SCANS = 2_000

# The items of `worm fill`, and ten times as many.
ITEMS = 10_000
MANY_ITEMS = 100_000

# Shapes with room for all keys of a script. The words of the narrow one take 1.3 MB, those of the standard one 18 MB.
NARROW = ["--leaves", "512", "--items", "16384", "--heads", "8192"]
WIDE = ["--values", "131072"]
WIDER = ["--values", "131072", "--leaves", "8192", "--items", "524288"]
WIDEST = ["--values", "262144", "--leaves", "16384", "--items", "1048576"]


def wide_numbers(start):
    """The generator's numbers of 64 bits."""
    x = start
    while True:
        x = (x * 6364136223846793005 + 1442695040888963407) % 2**64
        yield x


def numbers(start):
    """Numbers below 2^32, from the upper halves of the generator's 64 bits."""
    for x in wide_numbers(start):
        yield x >> 32


def address(i):
    """A web address of 44 bytes."""
    return f"http://host{i % 50:02}.example/path/{i:06}/index.html"


def web_addresses():
    """5,000 puts, 4,990 gets and 10 scans over web addresses, 10,000 lines."""
    for i in range(5_000):
        yield f"PUT {address(i)} {i}"
    for i in range(4_990):
        yield f"GET {address(i)}"
    for host in range(10):
        yield f"SCAN http://host{host:02} http://host{host + 1:02} 200"


def item(number):
    """One of 65,536 keys of 16 bytes."""
    return f"item-{number % KEYS:05}-value"


def puts_and_gets():
    """A million lines, of which about half put a value of 24 bytes and half get one, over 65,536 keys."""
    draw = numbers(START)
    for i in range(LINES):
        number = next(draw)
        if number >> 31:
            yield f"PUT {item(number)} value-{i:018}"
        else:
            yield f"GET {item(number)}"


def scans():
    """65,536 puts, and then 2,000 scans of 1 to 1,000 pairs from any key."""
    draw = numbers(START)
    for i in range(KEYS):
        # 40,503 is odd, so each key comes once, out of order.
        yield f"PUT {item(i * 40_503)} value-{i:018}"
    for _ in range(SCANS):
        number = next(draw)
        yield f"SCAN {item(number)} * {1 + (number >> 16) % 1_000}"


def gets(keys):
    """Each of so many web addresses is put once, out of order, and then a million are got."""
    draw = numbers(START)
    for i in range(keys):
        # 40,507 has no divisor in common with either number of keys, so each comes once.
        yield f"PUT {address(i * 40_507 % keys)} value-{i:018}"
    for _ in range(LINES):
        yield f"GET {address(next(draw) % keys)}"


def puts(keys):
    """A million lines, of which nine in ten put a value of 24 bytes and the others get one, over so many web addresses."""
    draw = numbers(START)
    for i in range(LINES):
        number = next(draw)
        if number >> 16 & 1_023 < 922:
            yield f"PUT {address(number % keys)} value-{i:018}"
        else:
            yield f"GET {address(number % keys)}"


def fill_key(i):
    """The key of an item of `worm fill`, 33 bytes."""
    return f"http://host{i % 50:02}.example/item/{i:06}"


def mixed(items, key):
    """The lines that `worm fill 1 1000000` serves, over so many items: of sixteen eight put, five get, two delete, and
    one scans 20 pairs."""
    draw = wide_numbers(START)
    for i in range(LINES):
        x = next(draw)
        kind, name = x >> 60, key((x >> 32) % items)
        if kind < 8:
            yield f"PUT {name} {i}"
        elif kind < 13:
            yield f"GET {name}"
        elif kind < 15:
            yield f"DEL {name}"
        else:
            yield f"SCAN {name} * 20"


def churn():
    """65,536 of 131,072 web addresses are put, and then a million lines put or delete one of all, either as often, so
    that about as many stay."""
    draw = numbers(START)
    for i in range(KEYS):
        yield f"PUT {address(2 * (i * 40_507 % KEYS))} value-{i:018}"
    for i in range(LINES):
        number = next(draw)
        name = address((number >> 8) % (2 * KEYS))
        yield f"PUT {name} value-{i:018}" if number >> 31 else f"DEL {name}"


# What makes the lines of each script, and the options of `worm run` for it.
SCRIPTS = {
    "web_addresses": (web_addresses, []),
    "web_addresses_narrow": (web_addresses, NARROW),
    "puts_and_gets": (puts_and_gets, WIDE),
    "scans": (scans, WIDE),
    "gets": (lambda: gets(KEYS), WIDE),
    "puts": (lambda: puts(KEYS), WIDE),
    "many_gets": (lambda: gets(MANY_KEYS), WIDEST),
    "many_puts": (lambda: puts(MANY_KEYS), WIDEST),
    "mixed": (lambda: mixed(ITEMS, fill_key), []),
    "mixed_many": (lambda: mixed(MANY_ITEMS, address), WIDER),
    "churn": (churn, WIDE),
}


def write_scripts(folder, names=tuple(SCRIPTS)):
    """Writes each of these scripts that isn't there yet, and answers their paths by name."""
    os.makedirs(folder, exist_ok=True)
    paths = {}
    for name in names:
        lines, _ = SCRIPTS[name]
        path = os.path.join(folder, name + ".txt")
        if not os.path.exists(path):
            with open(path + ".part", "w", newline="\n") as file:
                file.writelines(line + "\n" for line in lines())
            os.replace(path + ".part", path)
        paths[name] = path
    return paths


if __name__ == "__main__":
    for name, path in write_scripts(sys.argv[1] if len(sys.argv) > 1 else "build").items():
        print(f"{name}: {path}")
