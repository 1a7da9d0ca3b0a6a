"""The further inputs of the programs, tests/cases: what is written for each, and how it comes. expected.py writes the files, and
run_cases.py runs them and says what each file is. Shares nothing with the Rattle sources but the words for what went wrong.
"""

import re

from expected import DOCUMENT_LINES, Refused, answers_to, many_lines
from term_book import book_asked, first_year_asked
from wall_ring import picture


def solstice_answers(given):
    return answers_to(given), b""


def termbook_answers(given):
    return book_asked(given), b""


def ring_answers(given):
    """A refusal goes to standard error: on standard output is nothing but a picture."""
    try:
        return picture(first_year_asked(given)), b""
    except Refused as refusal:
        return b"", f"refused {refusal.args[0]}\n".encode()


# What each program answers, on standard output and on standard error; and what it tells of a failed read and of a failed write.
PROGRAMS = {
    "solstice": (solstice_answers, b"the input could not be read\n", b"the answers could not be written\n"),
    "termbook": (termbook_answers, b"the line could not be read\n", b"the answer could not be written\n"),
    "ring": (ring_answers, b"the line could not be read\n", b"the picture could not be written\n"),
}

FIRST_LINE_CASES = [("newline_first", b"\n0\n"), ("nothing", b""), ("refused", b"2001")]
WHOLE = {
    "solstice": [("many_lines", many_lines()), ("newline", b"\n"), ("newline_first", b"\n0\n"), ("nothing", b"")],
    # a term whose minute rounds to 1,440, here and below
    "termbook": FIRST_LINE_CASES + [("carried", b"-255\n")],
    # the limits of N, both sides of the year 1, and the two mansions whose order was once the other way round
    "ring": FIRST_LINE_CASES
    + [("first_year", b"-2000\n"), ("last_year", b"2000\n"), ("before_year_1", b"-1684\n"), ("year_1", b"-1683\n")]
    + [("mansion_19", b"326\n"), ("mansion_20", b"327\n"), ("carried", b"-255\n")],
}

# Each input with the places where it pauses.
EACH_BYTE = range(1, 100)
ENDLESS = b"12345" + b"6" * 10_000  # no year from its fifth byte on
FIRST_LINE_SLOW = [
    ("line_in_two_reads", b"-676\nnot read\n", [2, 5, 10]),
    ("byte_by_byte", b"-1999\n", EACH_BYTE),
    ("last_line_open", b"-1", [1, 2]),
    ("minus_alone", b"-\n0\n", [1, 2, 4]),
    ("endless_line", ENDLESS, [4, 5, len(ENDLESS)]),
]
SLOW = {
    "solstice": [
        ("line_in_two_reads", b"0\n-676\n2001\nx\n", [2, 4, 7, 9, 14]),
        ("byte_by_byte", b"\n" + b"\n".join(DOCUMENT_LINES), EACH_BYTE),
        ("line_longer_than_a_read", b"1" * 5_000 + b"\n0\n", [3_000, 4_999, 5_001, 5_003]),
        ("last_line_open", b"1\n-1", [2, 3, 4]),
    ],
    "termbook": FIRST_LINE_SLOW,
    "ring": FIRST_LINE_SLOW,
}

# Inputs whose next read fails, with what is answered before it: the finished lines, and no half-read one.
BROKEN_OFF = {
    "solstice": [("read_fails", b"0\n-6", b"0\n"), ("read_fails_at_once", b"", b"")],
    "termbook": [("read_fails", b"-67", None), ("read_fails_at_once", b"", None)],
    "ring": [("read_fails", b"-67", None), ("read_fails_at_once", b"", None)],
}

UNWRITABLE = {
    "solstice": [("write_fails", b"0\n"), ("write_of_the_last_line_fails", b"0")],
    "termbook": [("write_fails", b"0\n"), ("write_of_a_refusal_fails", b"x\n")],
    "ring": [("write_fails", b"0\n")],
}


def files(program, name, given, out, err, how=b""):
    """A case's files: no .out where nothing can be written, no .err where nothing is told, no .given where the input comes whole."""
    parts = [("in", given), ("out", out), ("err", err or None), ("given", how or None)]
    return [(f"tests/cases/{program}/{name}.{kind}", held) for kind, held in parts if held is not None]


def solstice_step(prefix, answers):
    """Each finished line is answered at once."""
    finished = prefix[: prefix.rfind(b"\n") + 1]
    return f"{len(prefix)} {len(answers(finished)[0])}\n"


def first_line_step(prefix, answers):
    """A line that has ended, or that can no longer be a year, is answered at once, and the program ends."""
    if b"\n" not in prefix and re.fullmatch(rb"-?[0-9]{0,4}", prefix):
        return f"{len(prefix)} 0\n"
    return f"{len(prefix)} {len(answers(prefix)[0])} ended\n"


def steps(program, given, pauses):
    step = solstice_step if program == "solstice" else first_line_step
    rows = [step(given[:size], PROGRAMS[program][0]) for size in pauses if size <= len(given)]
    return "".join(["slowly\n", *rows]).encode()


def expected_files():
    for program, (answers, unread, unwritten) in PROGRAMS.items():
        for name, given in WHOLE[program]:
            yield from files(program, name, given, *answers(given))
        for name, given, pauses in SLOW[program]:
            yield from files(program, name, given, *answers(given), steps(program, given, pauses))
        for name, given, finished in BROKEN_OFF[program]:
            out = b"" if finished is None else answers(finished)[0]
            yield from files(program, name, given, out, unread, b"broken off\n")
        for name, given in UNWRITABLE[program]:
            yield from files(program, name, given, None, unwritten, b"unwritable\n")
