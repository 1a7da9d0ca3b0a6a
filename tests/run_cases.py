"""Runs the built programs on their further inputs, tests/cases/PROGRAM/NAME.in, and compares what they write: on standard output
NAME.out, on standard error NAME.err (no such file: nothing). A case that differs is shown at its first difference, and fails the run.

NAME.given says how the input comes; where there is none it comes whole. Its first line is one of
    slowly       In pieces. Each further line has two numbers: how many bytes of the input have been given, and how many of the output
                 have then come, no fewer and no more, while the input stays open; `ended` after them: and the program has ended.
    broken off   After the last byte the next read fails.
    unwritable   It comes whole, and each write to standard output fails; so there is no NAME.out.
"""

import fcntl
import os
import subprocess
import sys
import termios
import time
from pathlib import Path

ROOT_FOLDER = Path(__file__).resolve().parent.parent
PATIENCE = 60  # seconds, with a program that should have answered or ended
PAUSE = 0.05  # seconds, in which what is not due could come


def start(program, given, out):
    return subprocess.Popen(["bash", ROOT_FOLDER / "run", program], stdin=given, stdout=out, stderr=subprocess.PIPE, bufsize=0)


def written(process):
    """What it writes from here on, its input closed, until it ends."""
    try:
        out, err = process.communicate(timeout=PATIENCE)
    finally:
        process.kill()
    if process.returncode != 0:
        raise AssertionError(f"it ended with status {process.returncode}")
    return out or b"", err


def whole(program, case):
    with open(case, "rb") as given:
        return written(start(program, given, subprocess.PIPE))


def unwritable(program, case):
    with open(case, "rb") as given, open("/dev/full", "wb") as full:
        return written(start(program, given, full))


def broken_off(program, case):
    """An input that does not wait: once it is empty, and still open, a read fails."""
    taken, given = os.pipe()
    os.write(given, case.read_bytes())
    os.set_blocking(taken, False)
    try:
        return written(start(program, taken, subprocess.PIPE))
    finally:
        os.close(taken)
        os.close(given)


def give(pipe, piece):
    """A program that has ended takes no more."""
    try:
        while piece:
            piece = piece[pipe.write(piece) :]
    except BrokenPipeError:
        pass


def all_taken(pipe):
    return not any(fcntl.ioctl(pipe, termios.FIONREAD, bytes(4)))


def step(process, piece, come, due, must_end):
    """Gives a piece, waits until it is taken and what is due has come, and adds to what has come. Says what is wrong, if anything."""

    def settled():
        come.extend(process.stdout.read() or b"")
        ended = process.poll() is not None
        return ended or (not must_end and all_taken(process.stdin) and len(come) >= due)

    give(process.stdin, piece)
    limit = time.monotonic() + PATIENCE
    while not settled() and time.monotonic() < limit:
        time.sleep(PAUSE / 10)
    time.sleep(PAUSE)
    settled()
    if len(come) != due:
        return f"{len(come)} bytes of output have come and {due} are due"
    if must_end and process.poll() is None:
        return "the program has not ended"
    return None


def slowly(program, case, rows):
    given, at, come = case.read_bytes(), 0, bytearray()
    process = start(program, subprocess.PIPE, subprocess.PIPE)
    os.set_blocking(process.stdout.fileno(), False)
    try:
        for size, due, *ended in map(str.split, rows):
            wrong = step(process, given[at : int(size)], come, int(due), bool(ended))
            if wrong:
                raise AssertionError(f"after {size} bytes of input, which stays open, {wrong}")
            at = int(size)
        out, err = written(process)
        return bytes(come) + out, err
    finally:
        process.kill()


def run(case):
    """What the program writes on standard output and on standard error."""
    program, companion = case.parent.name, case.with_suffix(".given")
    how, *rows = companion.read_text().splitlines() if companion.exists() else ["whole"]
    if how == "slowly":
        return slowly(program, case, rows)
    return {"whole": whole, "broken off": broken_off, "unwritable": unwritable}[how](program, case)


def compare(where, found, file):
    expected = file.read_bytes() if file.exists() else b""
    if found != expected:
        at = len(os.path.commonprefix([found, expected]))
        line = expected[:at].count(b"\n") + 1
        raise AssertionError(f"{where} differs at byte {at}, line {line}: {found[at:at + 40]!r} for {expected[at:at + 40]!r}")


def main():
    failed = False
    for case in sorted(ROOT_FOLDER.glob("tests/cases/*/*.in")):
        name = case.relative_to(ROOT_FOLDER).with_suffix("")
        try:
            out, err = run(case)
            compare("standard output", out, case.with_suffix(".out"))
            compare("standard error", err, case.with_suffix(".err"))
            print(f"case {name}: as expected", flush=True)
        except (AssertionError, subprocess.TimeoutExpired) as difference:
            print(f"case {name}: DIFFERS: {difference}", flush=True)
            failed = True
    sys.exit(1 if failed else 0)


if __name__ == "__main__":
    main()
