#!/usr/bin/env python3
"""Drives the built program as users do: at a terminal, behind pipes, and with ends that fail. It ends with the line
`pipes: N of N cases passed`, or with the names of those that failed and status 1.

The program is the one that `./worm` builds; the environment's WORM names another binary."""

import os
import pty
import select
import subprocess
import sys
import tempfile
import termios
import time

TOP = os.path.dirname(os.path.dirname(os.path.abspath(__file__)))
PATIENCE = 20
CASES = []


def case(function):
    CASES.append(function)
    return function


def find_worm():
    named = os.environ.get("WORM")
    if named:
        return named
    built = subprocess.run([os.path.join(TOP, "worm"), "run"], stdin=subprocess.DEVNULL)
    if built.returncode != 0:
        print("pipes: ./worm didn't build the program")
        sys.exit(1)
    return os.path.join(TOP, "crates", "worm", "out", "worm")


WORM = find_worm()


def start(command=("run",), **ends):
    return subprocess.Popen([WORM, *command], stderr=subprocess.PIPE, **ends)


def read_until(fd, want):
    """The bytes that come until `want` does, or until patience ends."""
    got = b""
    until = time.monotonic() + PATIENCE
    while want not in got and time.monotonic() < until:
        ready, _, _ = select.select([fd], [], [], 0.1)
        if ready:
            piece = os.read(fd, 65_536)
            if not piece:
                break
            got += piece
    return got


def is_end(process, status, told):
    """Whether the program ends with this status, and tells this on standard error."""
    error = process.stderr.read()
    found = process.wait(PATIENCE)
    if (found, error) != (status, told):
        print(f"  status {found}, told {error!r}; wanted {status}, {told!r}")
        return False
    return True


def is_same(found, want):
    if found != want:
        print(f"  found {found!r}; wanted {want!r}")
    return found == want


@case
def a_terminal_is_answered_line_by_line():
    ours, theirs = pty.openpty()
    modes = termios.tcgetattr(theirs)
    modes[3] &= ~termios.ECHO
    termios.tcsetattr(theirs, termios.TCSANOW, modes)
    process = start(stdin=theirs, stdout=theirs)
    os.close(theirs)
    good = True
    for line, reply in [
        (b"PUT a 1\n", b"NEW\r\n"),
        (b"GET a\n", b"VALUE 1\r\n"),
        (b"SCAN * * 5\n", b"PAIR a 1\r\nEND 1\r\n"),
    ]:
        os.write(ours, line)
        good = is_same(read_until(ours, reply), reply) and good
    # Control and D, the end of input at a terminal.
    os.write(ours, b"\x04")
    return is_end(process, 0, b"") and good


@case
def who_waits_for_a_reply_gets_it():
    process = start(stdin=subprocess.PIPE, stdout=subprocess.PIPE)
    good = True
    for number in range(100):
        for line, reply in [
            (b"PUT k%d %d\n" % (number, number), b"NEW\n"),
            (b"GET k%d\n" % number, b"VALUE %d\n" % number),
        ]:
            os.write(process.stdin.fileno(), line)
            good = is_same(read_until(process.stdout.fileno(), b"\n"), reply) and good
    process.stdin.close()
    return is_end(process, 0, b"") and good


@case
def a_last_line_without_its_end_counts():
    process = start(stdin=subprocess.PIPE, stdout=subprocess.PIPE)
    process.stdin.write(b"PUT a 1\nGET a")
    process.stdin.close()
    return is_same(process.stdout.read(), b"NEW\nVALUE 1\n") and is_end(process, 0, b"")


@case
def quit_ends_before_the_input_does():
    process = start(stdin=subprocess.PIPE, stdout=subprocess.PIPE)
    process.stdin.write(b"QUIT\nGET a\n")
    process.stdin.flush()
    return is_same(process.stdout.read(), b"BYE\n") and is_end(process, 0, b"")


@case
def a_closed_output_is_a_write_fault():
    shell = ["sh", "-c", f"printf 'PUT a 1\\n' | {{ '{WORM}' run >&-; }}"]
    process = subprocess.Popen(shell, stderr=subprocess.PIPE)
    return is_end(process, 4, b"worm: write fault\n")


@case
def a_full_output_is_a_write_fault():
    with open("/dev/full", "wb") as full:
        process = start(stdin=subprocess.PIPE, stdout=full)
    process.stdin.write(b"PUT a 1\nGET a\n")
    process.stdin.close()
    return is_end(process, 4, b"worm: write fault\n")


@case
def an_output_that_stays_empty_may_be_full():
    with open("/dev/full", "wb") as full:
        process = start(stdin=subprocess.DEVNULL, stdout=full)
    return is_end(process, 0, b"")


@case
def a_reader_that_goes_away_is_a_write_fault():
    process = start(stdin=subprocess.PIPE, stdout=subprocess.PIPE)
    process.stdout.close()
    try:
        for _ in range(1_000):
            process.stdin.write(b"GET a\n" * 1_000)
        process.stdin.close()
    except BrokenPipeError:
        # The program ended before its input did, as it should.
        pass
    good = is_end(process, 4, b"worm: write fault\n")
    try:
        process.stdin.close()
    except BrokenPipeError:
        pass
    return good


@case
def a_slow_reader_gets_every_byte():
    puts = b"".join(b"PUT %04d %s\n" % (number, b"v" * 1_000) for number in range(200))
    pairs = b"".join(b"PAIR %04d %s\n" % (number, b"v" * 1_000) for number in range(200))
    script = os.path.join(os.environ.get("TMPDIR", "/tmp"), f"worm-pipes-{os.getpid()}")
    with open(script, "wb") as file:
        file.write(puts + b"SCAN * * 1000\n" * 3)
    with open(script, "rb") as file:
        process = start(stdin=file, stdout=subprocess.PIPE)
    os.unlink(script)
    got = b""
    while True:
        piece = os.read(process.stdout.fileno(), 5_003)
        if not piece:
            break
        got += piece
        time.sleep(0.005)
    good = got == b"NEW\n" * 200 + (pairs + b"END 200\n") * 3
    if not good:
        print(f"  {len(got)} bytes, which aren't those that were wanted")
    return is_end(process, 0, b"") and good


@case
def a_folder_as_input_is_a_read_fault():
    folder = os.open("/tmp", os.O_RDONLY)
    process = start(stdin=folder, stdout=subprocess.PIPE)
    os.close(folder)
    return is_same(process.stdout.read(), b"") and is_end(process, 3, b"worm: read fault\n")


@case
def lanes_to_a_full_output_are_a_write_fault():
    with open("/dev/full", "wb") as full:
        process = start(("lanes", "2"), stdin=subprocess.PIPE, stdout=full)
    process.stdin.write(b"0 PUT a 1\n1 GET a\n")
    process.stdin.close()
    return is_end(process, 4, b"worm: write fault\n")


@case
def lanes_of_a_folder_are_a_read_fault():
    folder = os.open("/tmp", os.O_RDONLY)
    process = start(("lanes", "2"), stdin=folder, stdout=subprocess.PIPE)
    os.close(folder)
    return is_same(process.stdout.read(), b"") and is_end(process, 3, b"worm: read fault\n")


def lanes_of(length):
    """Two lanes, whose input are so many bytes of lines that name no lane."""
    with tempfile.TemporaryFile() as script:
        script.write((b"x" * 4_095 + b"\n") * (length // 4_096) + b"x" * (length % 4_096))
        script.seek(0)
        return start(("lanes", "2"), stdin=script, stdout=subprocess.PIPE)


@case
def lanes_take_almost_64_mib():
    process = lanes_of(67_108_863)
    want = b"ERR 7 lane\n" * 16_384 + b"LANE 0\nLANE 1\n"
    return is_same(process.stdout.read() == want, True) and is_end(process, 0, b"")


@case
def lanes_take_no_more():
    process = lanes_of(67_108_864)
    return is_same(process.stdout.read(), b"") and is_end(process, 7, b"worm: input too long\n")


@case
def other_words_are_told():
    process = subprocess.Popen(
        [WORM, "walk"],
        stdin=subprocess.DEVNULL,
        stdout=subprocess.PIPE,
        stderr=subprocess.PIPE,
    )
    return is_same(process.stdout.read(), b"") and is_end(process, 2, b"worm: words\n")


def main():
    failed = []
    for function in CASES:
        good = function()
        print(f"{'passed' if good else 'FAILED'} {function.__name__}", flush=True)
        if not good:
            failed.append(function.__name__)
    passed = len(CASES) - len(failed)
    if failed:
        print(f"pipes: {passed} of {len(CASES)} cases passed; failed: {', '.join(failed)}")
        sys.exit(1)
    print(f"pipes: {passed} of {len(CASES)} cases passed")


if __name__ == "__main__":
    main()
