"""The term book by document 01's rules alone: years written, books read, and the damaged books that the
program book_cases is run on; and by document 02's a sheet of corrections beside a book, and a partner's book.
Shares nothing with the Rattle sources; expected.py writes its files.
"""

import random
from functools import lru_cache

from expected import Refused, crossing_values, day_name, lines_of, mansion, require_year, run_files, term_values, year_asked

YEAR_KIND, TERM_KIND = 1, 2
BODY = {YEAR_KIND: 4, TERM_KIND: 5}


def two_bytes(number):
    return bytes([number // 256, number % 256])


def number_at(book, at):
    return 256 * book[at] + book[at + 1]


# Writing.


def bytes_of(n, name, house, moments):
    head = bytes([YEAR_KIND]) + two_bytes(n + 2000) + bytes([name, house])
    terms = (bytes([TERM_KIND, k]) + two_bytes(day + 4) + two_bytes(minute) for k, (day, minute) in enumerate(moments))
    return head + b"".join(terms)


def year_bytes(n):
    return bytes_of(n, day_name(n), mansion(n), [term_values(n, k)[:2] for k in range(24)])


def into(buffer, room, year):
    """The buffer after a year is written into its first `room` bytes."""
    if room < 149:
        raise Refused(6)
    return year + buffer[149:]


def write_year(n, buffer, room):
    day_name(n)  # refuses 1
    into(buffer, room, bytes(149))  # refuses 6
    return into(buffer, room, year_bytes(n))


def write_values(n, name, house, day, minute, buffer, room):
    """From equal terms."""
    day_name(n)  # refuses 1
    into(buffer, room, bytes(149))  # refuses 6
    if name > 59 or house > 27 or not -4 <= day <= 370 or minute > 1439:
        raise Refused(9)
    return into(buffer, room, bytes_of(n, name, house, [(day, minute)] * 24))


def written_lines():
    buffer = bytes([238] * 152)
    years = [(-2001, 152), (-2000, 149), (-676, 150), (-1, 152), (0, 149), (0, 148), (0, 0), (1, 152), (2000, 152), (2001, 148)]
    values = [(-2000, 0, 0, -4, 0, 149), (2000, 59, 27, 370, 1439, 152), (2001, 60, 28, 371, 1440, 148)]
    values += [(2000, 60, 28, 371, 1440, 148), (2000, 60, 27, 370, 1439, 149), (2000, 59, 28, 370, 1439, 149)]
    values += [(2000, 59, 27, 371, 1439, 149), (2000, 59, 27, -5, 1439, 149), (2000, 59, 27, 370, 1440, 149)]
    calls = [(f"year {n} in {room}", write_year, (n, buffer, room)) for n, room in years]
    calls += [("values {} {} {} {} {} in {}".format(*v), write_values, (*v[:5], buffer, v[5])) for v in values]
    for name, call, given in calls:
        try:
            yield f"{name}: done {call(*given).hex()}"
        except Refused as refusal:
            yield f"{name}: refused {refusal.args[0]} {buffer.hex()}"


# Reading. A book's refusal has its number and the byte where the record at fault starts.


def next_record(book, at, due, last):
    """Where the next record starts, after the tests in their order: 8, 7, 10, 9. `due` is "year", or a term's k."""
    kind = book[at]
    if kind not in BODY:
        raise Refused(8, at)
    end = at + 1 + BODY[kind]
    if end > len(book):
        raise Refused(7, at)
    if kind == YEAR_KIND:
        in_turn = due == "year" and number_at(book, at + 1) > last
        in_range = number_at(book, at + 1) <= 4000 and book[at + 3] <= 59 and book[at + 4] <= 27
    else:
        in_turn = book[at + 1] == due
        in_range = number_at(book, at + 2) <= 374 and number_at(book, at + 4) <= 1439
    if not in_turn:
        raise Refused(10, at)
    if not in_range:
        raise Refused(9, at)
    return end


def year_end(book, at, last):
    """Where the year that starts at a byte ends."""
    for due in ["year", *range(24)]:
        if at == len(book):
            raise Refused(10, at)
        at = next_record(book, at, due, last)
    return at


def years_of(book):
    """N, start and end of each year."""
    at, last, years = 0, -1, []
    while at < len(book):
        end = year_end(book, at, last)
        last = number_at(book, at + 1)
        years.append((last - 2000, at, end))
        at = end
    return years


def said(call, *given):
    try:
        return call(*given)
    except Refused as refusal:
        return "refused " + " at ".join(str(part) for part in refusal.args)


def checked(book):
    years_of(book)
    return "sound"


def sought(book, n):
    for year, start, end in years_of(book):
        if year == n:
            return f"{start} to {end}"
    raise Refused(12)


def read_year(book):
    """N, day name, mansion and the 24 terms of the first year, each with a count of 0."""
    year_end(book, 0, -1)
    moments = [(number_at(book, 6 * k + 7) - 4, number_at(book, 6 * k + 9), 0) for k in range(24)]
    return (number_at(book, 1) - 2000, book[3], book[4]), moments


def read_line(book):
    """What reading says, the head and three terms; all 0 on a refusal."""
    try:
        head, moments = read_year(book)
        answer = "read"
    except Refused as refusal:
        head, moments = (0, 0, 0), [(0, 0, 0)] * 24
        answer = "refused {} at {}".format(*refusal.args)
    return " ".join([answer, *map(str, head), *("{}:{}:{}".format(*moments[k]) for k in (0, 11, 23))])


def handed_out(book):
    """What a reader hands out at each of five calls: the part's length, and its year, the end or a refusal."""
    at, last = 0, -1
    for _ in range(5):
        try:
            end = year_end(book, at, last) if at < len(book) else at
            if end > at:
                last = number_at(book, at + 1)
            yield f" {end - at}:{last if end > at else 'end'}"
            at = end
        except Refused as refusal:
            yield " 0:refused {} at {}".format(*refusal.args)


# A sheet of corrections beside the main book. A book's refusal has its number, its byte and which book.

CORRECTIONS, MAIN = "corrections", "main"


def years_in(which, book):
    try:
        return years_of(book)
    except Refused as refusal:
        raise Refused(*refusal.args, which) from None


def corrected(corrections, main, n):
    """Which book the year is handed out from, and where its part of that book starts and ends."""
    require_year(n)
    books = [(which, years_in(which, book)) for which, book in ((CORRECTIONS, corrections), (MAIN, main))]
    for which, years in books:
        for year, start, end in years:
            if year == n:
                return which, start, end
    raise Refused(12)


def corrected_line(corrections, main, n):
    """The part's length, N + 2,000 and last minute, 0 where it is empty; which book and where, or the refusal."""
    part, answer = b"", ""
    try:
        which, start, end = corrected(corrections, main, n)
        part = {CORRECTIONS: corrections, MAIN: main}[which][start:end]
        answer = f"{which} {start} to {end}"
    except Refused as refusal:
        number, *place = refusal.args
        answer = f"{place[1]} refused {number} at {place[0]}" if place else f"refused {number}"
    name, last = (number_at(part, 1), number_at(part, 147)) if part else (0, 0)
    return f"{len(part)}:{name}:{last} {answer}"


def corrected_lines(book):
    """Of a book in two: from its third year on as the corrections, what is before as the main book; from its second year on, the whole."""
    second, third = (149, 298) if len(book) >= 298 else (len(book), len(book))
    sheet, main = book[third:], book[:third]
    return [corrected_line(sheet, main, 321), corrected_line(sheet, main, 0), corrected_line(book[second:], book, 0)]


# A partner's book.


@lru_cache(maxsize=None)
def our_term(n, k):
    return term_values(n, k)[:2]


def first_not_ours(book):
    """The byte of the first record that isn't ours, or None. The book's refusals come before any comparison."""
    for n, start, _ in years_of(book):
        if (book[start + 3], book[start + 4]) != (day_name(n), mansion(n)):
            return start
        for k in range(24):
            at = start + 5 + 6 * k
            if (number_at(book, at + 2) - 4, number_at(book, at + 4)) != our_term(n, k):
                return at
    return None


def verified(book):
    byte = first_not_ours(book)
    return "ours" if byte is None else f"not ours at {byte}"


# Damage.

BASE = b"".join(year_bytes(n) for n in (-676, 0, 321))
ROOM = 600  # the base is followed by zeros up to here, so that a longer book is a change of it too


def fields(record):
    """Offset and size of each field of a record, with its least, last good and first bad values."""
    if record[0] == YEAR_KIND:
        return [(1, 2, (0, 4000, 4001)), (3, 1, (0, 59, 60)), (4, 1, (0, 27, 28))]
    return [(1, 1, (0, 23, 24)), (2, 2, (0, 374, 375)), (4, 2, (0, 1439, 1440))]


def records_of(book):
    """The start of each record of a sound book, and its bytes."""
    starts = [0]
    while starts[-1] < len(book):
        starts.append(starts[-1] + 1 + BODY[book[starts[-1]]])
    return starts, [book[start:end] for start, end in zip(starts, starts[1:])]


def partners_books():
    """Each value one more or less than ours, and each year's minutes cut off, from its first term on or its last alone."""
    starts, records = records_of(BASE)
    for at, record in zip(starts, records):
        for offset, size, _ in fields(record):
            value = int.from_bytes(record[offset : offset + size], "big")
            for other in (value - 1, value + 1):
                if 0 <= other < 256**size:
                    yield BASE[: at + offset] + other.to_bytes(size, "big") + BASE[at + offset + size :]
    for n, start, end in years_of(BASE):
        year = bytes_of(n, day_name(n), mansion(n), [crossing_values(n, k) for k in range(24)])
        yield BASE[:start] + year + BASE[end:]
        yield BASE[: end - 6] + year[-6:] + BASE[end:]


def damaged_books():
    for length in range(len(BASE) + 1):
        yield BASE[:length]
    starts, records = records_of(BASE)
    for i, record in enumerate(records):
        at = starts[i]
        for kind in (0, 1, 2, 3, 4, 127, 128, 255):
            yield BASE[:at] + bytes([kind]) + BASE[at + 1 :]
        yield b"".join(records[:i] + records[i + 1 :])  # dropped
        yield b"".join(records[: i + 1] + records[i:])  # doubled
        yield b"".join(records[:i] + records[i + 1 : i + 2] + [record] + records[i + 2 :])  # swapped with the next
        for offset, size, values in fields(record):
            for value in values:
                field = two_bytes(value) if size == 2 else bytes([value])
                yield BASE[: at + offset] + field + BASE[at + offset + size :]
    for first, second in [(0, 0), (1, 0), (0, 1), (-2000, 2000), (2000, -2000)]:
        yield year_bytes(first) + year_bytes(second)
    yield from partners_books()
    chance = random.Random(1684)
    for _ in range(4000):
        book = bytearray(BASE)
        for _ in range(chance.randint(1, 4)):
            # often a byte that some kind or field could have, so that the damage is not seen at once
            likely = [0, 1, 2, 3, 5, 23, 24, 27, 28, 59, 60, chance.randrange(256)]
            book[chance.randrange(len(book))] = chance.choice(likely)
        if chance.randrange(4) == 0:
            del book[chance.randrange(len(book)) :]
        yield bytes(book)


def change(book):
    """How a book comes from BASE and the zeros after it: its length, how many bytes change, each place and byte."""
    before = BASE + bytes(ROOM - len(BASE))
    changes = [(i, byte) for i, byte in enumerate(book) if byte != before[i]]
    return two_bytes(len(book)) + two_bytes(len(changes)) + b"".join(two_bytes(i) + bytes([byte]) for i, byte in changes)


def case_input():
    return b"".join(change(book) for book in damaged_books())


def case_lines():
    for book in damaged_books():
        answers = said(checked, book), said(sought, book, 0), read_line(book), "".join(handed_out(book))
        yield " | ".join([*answers, *corrected_lines(book), said(verified, book)])


# The program that writes the book of the year asked by its input's first line.


def first_year_asked(given):
    lines = lines_of(given)
    if not lines:
        raise Refused(11)
    return year_asked(lines[0])


def book_asked(given):
    try:
        return year_bytes(first_year_asked(given))
    except Refused as refusal:
        return f"refused {refusal.args[0]}\n".encode()


def expected_files():
    lines = [*written_lines(), *case_lines()]
    return [
        ("crates/book_cases/stdin", case_input()),
        ("crates/book_cases/stdout", "".join(line + "\n" for line in lines).encode()),
        *run_files("termbook", b"-676\nnot read\n", book_asked),
    ]
