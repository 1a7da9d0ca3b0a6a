"""What the page must show, from the independent program (tests/expected.py and beside it) and Python's own calendar. Nothing here is
taken from the page's source.
"""

import re
import subprocess
import sys
import xml.etree.ElementTree as xml
from datetime import date
from pathlib import Path

ROOT_FOLDER = Path(__file__).resolve().parent.parent.parent
sys.path.insert(0, str(ROOT_FOLDER / "tests"))

import term_book  # noqa: E402
from expected import DAY, PLACES_002, Refused, day_name, local, mansion, sixties, solstice, term_values  # noqa: E402
from wall_ring import MANSIONS, TERMS, clock, middle_lines, picture, sixty, year_words  # noqa: E402

WORDS = {
    1: "an N outside -2,000 to 2,000",
    4: "a longitude beyond 648,000″ either way",
    7: "the book ends inside a record",
    8: "a kind that is neither 01 nor 02",
    9: "a field out of its range",
    10: "a record out of turn, or the book ends inside a year",
    12: "a year absent from a sound book",
}

PLACES = [("capital", 0), *((name, side * sixties(arc)) for name, side, arc, _ in PLACES_002)]
MONTHS = "January February March April May June July August September October November December".split()


def year_said(n):
    return "".join(year_words(n))


def gregorian(julian_day_number):
    """Python's calendar begins with the year 1, and the Gregorian one repeats after 400 years, which have 146,097 days."""
    found = date.fromordinal(julian_day_number - 1721425 + 3 * 146_097)
    return f"{found.day} {MONTHS[found.month - 1]} {year_said(found.year - 3 * 400 - 1684)}"


def at_place(moments, longitude):
    return [tuple(map(int, re.findall(r"-?\d+", local(day, minute, longitude)))) for day, minute in moments]


def times(n, longitude=0):
    """Day and minute of each term at a place."""
    return at_place([term_values(n, k)[:2] for k in range(24)], longitude)


def rows_of(n, moments):
    """The table's rows, a tab between cells."""
    found = []
    for k, (day, minute) in enumerate(moments):
        number = 2_336_111 + solstice(n) // DAY + 1 + day
        cells = [TERMS[k], sixty(day_name(n) + 1 + day), day, clock(minute), number, gregorian(number)]
        found.append("\t".join(map(str, cells)))
    return found


def rows(n, longitude=0):
    return rows_of(n, times(n, longitude))


def block_texts(table_rows):
    """What the wall has of the table: three lines for each term."""
    found = []
    for row in table_rows:
        name, day_named, day, time, *_ = row.split("\t")
        found += [name, f"{day_named} {day}", time]
    return found


def expected_year(n):
    """A year's rows, its wall's texts and its part of a book."""
    moments = times(n)
    table = rows_of(n, moments)
    middle = [re.sub("<[^>]*>", "", line) for line in middle_lines(n)]
    return table, block_texts(table) + middle, term_book.bytes_of(n, day_name(n), mansion(n), moments)


# The picture, from the program itself where it is built; tests/run holds it to the independent one.

PROGRAM = ROOT_FOLDER / "crates/ring/out/ring"


def ring(n):
    """The picture's texts with their places, and all numbers of its paths and blocks."""
    if PROGRAM.exists():
        drawn = subprocess.run(["bash", ROOT_FOLDER / "run", "ring"], input=f"{n}\n".encode(), capture_output=True, check=True).stdout
    else:
        drawn = picture(n)
    svg = "{http://www.w3.org/2000/svg}"
    elements = list(xml.fromstring(drawn).iter())
    texts = ["".join(element.itertext()) for element in elements if element.tag in (svg + "title", svg + "desc", svg + "text")]
    places = [[element.get("x"), element.get("y")] for element in elements if element.tag == svg + "text"]
    drawn_at = [element.get("d") or element.get("transform") for element in elements if element.get("d") or element.get("transform")]
    return texts, places, drawn_at


# Books.


def fault_said(book, byte):
    """The years before the one at fault are sound, and 149 bytes each."""
    start = byte // 149 * 149
    if start == byte:
        before = term_book.number_at(book, start - 148) - 2000 if start else None
        return "in a head, the first" if before is None else f"in a head, after the year {year_said(before)}"
    return f"in the year {year_said(term_book.number_at(book, start + 1) - 2000)}, term {TERMS[(byte - start) // 6]}"


def book_said(book, our_year):
    """What the page says of a book, if these are the bytes of our years."""
    try:
        years = term_book.years_of(book)
    except Refused as refusal:
        number, byte = refusal.args
        return f"Refused {number} at byte {byte:,}: {WORDS[number]}. It lies {fault_said(book, byte)}."
    if not years:
        return "Sound: a book of no years."
    count = "one year" if len(years) == 1 else f"{len(years):,} years"
    differing = sum(book[start:end] != our_year(n) for n, start, end in years)
    return (
        f"Sound: {count}, from {year_said(years[0][0])} to {year_said(years[-1][0])}. "
        f"Years that differ from ours: {differing if differing else 'none'}."
    )
