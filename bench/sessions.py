"""The table of sessions: `worm run` beside the peer, on files and through pipes."""

from __future__ import annotations

import filecmp
import os
import subprocess
import time

from measure import BUILD, Numbers, Plan, Rounds, Table, end, finished, on_files, percent
from scripts import SCRIPTS, write_scripts

COLUMNS = ["script", "on", "worm, s", "spread", "peer, s", "spread", "worm / peer, clock", "worm / peer, processor"]

# A run of less than so many seconds strays more, and is made so many times as often.
SHORT = 0.05
SHORT_ROUNDS = 10

# What is measured where it has to be quick.
QUICK = ["web_addresses", "puts_and_gets", "scans", "gets", "mixed"]


def on_pipes(words: list[str], script: str, output: str) -> tuple[float, float]:
    """Runs the program between two `cat`, which feed it and take what it writes."""
    with open(output, "wb") as sink:
        start = time.perf_counter()
        feeder = subprocess.Popen(["cat", script], stdout=subprocess.PIPE)
        process = subprocess.Popen(words, stdin=feeder.stdout, stdout=subprocess.PIPE)
        taker = subprocess.Popen(["cat"], stdin=process.stdout, stdout=sink)
        for pipe in (feeder.stdout, process.stdout):
            assert pipe is not None
            pipe.close()
        processor = finished(process, words)
        taker.wait()
        feeder.wait()
        return time.perf_counter() - start, processor


def sessions_table(worm: str, peer: str, plan: Plan) -> None:
    table = Table("One session", COLUMNS)
    outputs = {program: os.path.join(BUILD, program + ".out") for program in ("worm", "peer")}
    for name, script in write_scripts(BUILD, QUICK if plan.is_quick else list(SCRIPTS)).items():
        words = {"worm": [worm, "run", *SCRIPTS[name][1]], "peer": [peer]}
        for way, timed in (("files", on_files), ("pipes", on_pipes)):
            if plan.is_quick and way == "pipes":
                continue

            def once() -> Numbers:
                numbers = {}
                for program in ("worm", "peer"):
                    clock, processor = timed(words[program], script, outputs[program])
                    numbers |= {program: clock, program + " processor": processor}
                if not filecmp.cmp(outputs["worm"], outputs["peer"], shallow=False):
                    end(f"the outputs of {name} on {way} differ: {outputs['worm']}, {outputs['peer']}")
                return numbers

            is_short = once()["peer"] < SHORT
            made = plan.rounds_of(once, times=SHORT_ROUNDS if is_short else 1)
            table.row(cells(name, way, made), made)
    table.close()


def cells(name: str, way: str, rounds: Rounds) -> list[str]:
    times = [(f"{rounds.median(program):.3f}", percent(rounds.spread(program))) for program in ("worm", "peer")]
    # On a machine that changes its speed now and then the two runs of a round have the same speed in most rounds.
    ratios = [f"{rounds.ratio('worm' + kind, 'peer' + kind):.2f}" for kind in ("", " processor")]
    return [name, way, *times[0], *times[1], *ratios]
