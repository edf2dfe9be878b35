#!/usr/bin/env python3
"""Times `worm` beside a peer in Rust's std, in alternation, and compares what they write.

    python3 bench/run.py [ROUNDS] [--quick] [--only sessions,lanes,server,calls,indexes]

It prints the tables of sessions, lanes, the server and its system calls, and both indexes, and draws `bench/picture.svg`
where both lanes and the server were measured. There are at least 5 rounds, and ten times as many of a script that is over in a moment; with
`--quick` there are 3, fewer scripts and fewer requests, in less than 4 minutes.

The program runs as `./worm` runs it, with `GLIBC_TUNABLES=glibc.malloc.hugetlb=1` where GLIBC_TUNABLES isn't set, and the
peer runs with the same. Each table's last lines say which.

The peer is built by `rustc` with what it has to make it fast. The environment's WORM names another binary of the
program than the one that `./worm` builds, and PEER another one of the peer, as one that was built of an older source."""

from __future__ import annotations

import argparse
import os
import shutil
import subprocess

from indexes import indexes_table
from lanes import lanes_table
from measure import BUILD, HERE, TUNABLES, Plan, end
from picture import draw
from server import calls_table, server_table
from sessions import sessions_table

TOP = os.path.dirname(HERE)
LEAST_ROUNDS = 5
QUICK_ROUNDS = 3
TABLES = ["sessions", "lanes", "server", "calls", "indexes"]

# The most that the compiler does for a program of one crate.
FAST = ["-C", "opt-level=3", "-C", "lto=fat", "-C", "codegen-units=1", "-C", "panic=abort"]


def build_peer() -> list[str]:
    named = os.environ.get("PEER")
    if named:
        return [named]
    if shutil.which("rustc") is None:
        end("there is no rustc here, so there is no peer to be measured beside")
    peer = os.path.join(BUILD, "peer")
    source = os.path.join(HERE, "peer.rs")
    if subprocess.run(["rustc", "--edition", "2024", *FAST, "-o", peer, source]).returncode != 0:
        end("rustc didn't build the peer")
    return [peer]


def find_worm() -> list[str]:
    named = os.environ.get("WORM")
    if named:
        return [named, "run"]
    if subprocess.run([os.path.join(TOP, "worm"), "run"], stdin=subprocess.DEVNULL).returncode != 0:
        end("./worm didn't build the program")
    return [os.path.join(TOP, "crates", "worm", "out", "worm"), "run"]


def asked() -> argparse.Namespace:
    parser = argparse.ArgumentParser(description=__doc__, formatter_class=argparse.RawDescriptionHelpFormatter)
    parser.add_argument("rounds", nargs="?", type=int, default=0)
    parser.add_argument("--quick", action="store_true")
    parser.add_argument("--only", default=",".join(TABLES))
    return parser.parse_args()


def main() -> None:
    words = asked()
    os.environ.setdefault(*TUNABLES)
    rounds = max(QUICK_ROUNDS if words.quick else LEAST_ROUNDS, words.rounds)
    plan = Plan(rounds, 1 if words.quick else 2, words.quick)
    os.makedirs(BUILD, exist_ok=True)
    [peer] = build_peer()
    worm = find_worm()[0]
    tables = words.only.split(",")
    if "sessions" in tables:
        sessions_table(worm, peer, plan)
    of_lanes = lanes_table(worm, peer, plan) if "lanes" in tables else []
    of_server = server_table(worm, peer, plan) if "server" in tables else []
    if "calls" in tables:
        calls_table(worm, peer)
    if "indexes" in tables:
        indexes_table(plan)
    if of_lanes and of_server:
        print(f"\nbench: drawn as {os.path.relpath(draw(of_lanes, of_server))}")
    print("\nbench: all outputs are equal" if {"sessions", "lanes"} & set(tables) else "\nbench: all replies were counted")


if __name__ == "__main__":
    main()
