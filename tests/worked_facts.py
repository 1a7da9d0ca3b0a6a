"""The facts worked out in the Worked*.antt of law/proofs, tables/proofs, corrections/proofs and verify/proofs, as rows of those files, by the
rules of documents 01 and 02 alone: the calls are chosen here, and what each answers is reckoned by expected.py and term_book.py. Shares nothing with
the Rattle sources.

    python3 tests/worked_facts.py   prints the rows, file by file

expected.py --check holds each file to its rows.
"""

import expected
from expected import CIRCLE, DEGREE, HALF, MINUTE, QUARTER, SINE_STEP, Refused
from term_book import CORRECTIONS, MAIN, bytes_of, corrected, first_not_ours, first_year_asked, number_at, read_year, two_bytes, write_values, write_year, year_bytes, year_end, years_of

# How the definitions write a value.


def natural(number):
    return f"{number:_}"


def signed(number):
    return f"pos {number:_}" if number >= 0 else f"neg_ℤ (pos {-number:_})"


def given(number):
    return f"({signed(number)})"


def listed(numbers):
    return " ∷ ".join([*map(natural, numbers), "[]"])


def year_text(values):
    return "(the_year {:_} {:_} {:_} {:_})".format(*values)


def term_text(values):
    return "(the_term {} {:_} {:_})".format(given(values[0]), *values[1:])


def local_text(values):
    return "(there {} {:_})".format(given(values[0]), values[1])


# The calls of the reckoning, each as a fact: what the definition is given, and the answer that is reckoned here. `e` is the
# difference of the epicycles: the document's, or a wide one for which refusal 5 comes.

OWN, WIDE = "epicycles", "1_000_000"


def reckoned(e, call, *arguments):
    own = expected.EPICYCLE_DIFFERENCE
    expected.EPICYCLE_DIFFERENCE = own if e == OWN else int(e)
    try:
        return call(*arguments)
    finally:
        expected.EPICYCLE_DIFFERENCE = own


def answered(write, call, *arguments):
    try:
        return f"value {write(call(*arguments))}"
    except Refused as refusal:
        return f"refused {refusal.args[0]}"


def number_of(call, *arguments):
    """The refusal's number, and 0 where there is none."""
    try:
        call(*arguments)
        return 0
    except Refused as refusal:
        return refusal.args[0]


def year_values(n):
    return expected.day_name(n), expected.fraction(n), expected.mansion(n), expected.root(n)


def local_values(*arguments):
    _, day, _, minute = expected.local(*arguments).split()
    return int(day), int(minute)


def fill(n, room):
    said, _ = expected.year_call(n, room)
    if said != "all":
        raise Refused(int(said.split()[1]))


def year(n):
    return f"year_answer {given(n)} ≡ {answered(year_text, year_values, n)}"


def mean(n, day):
    return f"mean_answer {given(n)} {given(day)} ≡ {answered(natural, expected.mean_place, n, day)}"


def true(n, day, e=OWN):
    return f"true_answer {e} {given(n)} {given(day)} ≡ {answered(natural, reckoned, e, expected.true_place, n, day)}"


def run_on(n, day, e=OWN):
    return f"run_on_answer {e} {given(n)} {given(day)} ≡ {answered(given, reckoned, e, expected.run_on, n, day)}"


def equation(anomaly, e=OWN):
    return f"equation_answer {e} {given(anomaly)} ≡ {answered(given, reckoned, e, expected.equation, anomaly)}"


def term(n, k, e=OWN):
    return f"term_answer {e} {given(n)} {k} ≡ {answered(term_text, reckoned, e, expected.term_values, n, k)}"


def crossing_text(values):
    return "(the_crossing {} {:_})".format(given(values[0]), values[1])


def crossing(n, k, e=OWN):
    return f"crossing_answer {e} {given(n)} {k} ≡ {answered(crossing_text, reckoned, e, expected.crossing_values, n, k)}"


def minutes(gone, step):
    """Of a mark so many units past a midnight that has so many to the next: cut off, and rounded."""
    return f"Minutes {gone:_} {step:_} {expected.cut_minute(gone, step):_} {expected.rounded_minute(gone, step):_}"


def carried(day, minute):
    to_day, to_minute = expected.carried(day, minute)
    return f"Carried {given(day)} {minute:_} {given(to_day)} {to_minute:_}"


def fill_refused(n, room, e=OWN):
    return f"refusal_in (fill_answer {e} {given(n)} {room}) ≡ {number_of(reckoned, e, fill, n, room)}"


def first_off(n, e):
    """Whether refusal 5 comes among the terms below 1."""
    off = number_of(reckoned, e, expected.term_values, n, 0) == 5
    return f"off_below {e} {given(n)} 1 ≡ {str(off).lower()}"


def local(day, minute, longitude):
    found = answered(local_text, local_values, day, minute, longitude)
    return f"local_answer {given(day)} {minute:_} {given(longitude)} ≡ {found}"


# The calls of the book. A book is given as the definitions write it and as its bytes. All are of the year 1684, or of its bytes
# with others in their place.

YEAR = year_bytes(0)


def changed(at, *others):
    """The year's bytes with other ones from a seat on."""
    return f"(with {at} ({listed(others)}))", YEAR[:at] + bytes(others) + YEAR[at + len(others) :]


def cut(at, *others):
    """The year's bytes up to a seat, and then these alone."""
    return f"(take {at} year ++ ({listed(others)}))", YEAR[:at] + bytes(others)


def plain(*these):
    return f"({listed(these)})", bytes(these)


def joined(*books):
    return "(" + " ++ ".join(text for text, _ in books) + ")", b"".join(book for _, book in books)


def first(count):
    return f"(take {count} year)", YEAR[:count]


NAMED = {}  # the books that the proofs give a name, and what stands for them there


def named(name, book):
    NAMED[name] = book[0][1:-1]
    return name, book[1]


WHOLE, NOTHING = ("year", YEAR), ("[]", b"")
NEXT = named("next", changed(2, YEAR[2] + 1))  # the same with the number of the year after, and of the one after that
LAST = named("last", changed(2, YEAR[2] + 2))
THREE = named("three", joined(WHOLE, joined(NEXT, LAST)))
TWICE = named("twice", joined(WHOLE, WHOLE))
BROKEN = named("broken", joined(WHOLE, ("take 8 next", NEXT[1][:8])))
PARTS = {YEAR: "year", NEXT[1]: "next", LAST[1]: "last", b"": "[]"}


def checked(book):
    try:
        return f"sound {years_of(book)[-1][2] if book else 0}"
    except Refused as refusal:
        return "faulty {} {}".format(*refusal.args)


def check(book):
    return f"book_of {book[0]} ≡ {checked(book[1])}"


def sought(book, n):
    """What seeking a year says, and where its part starts and ends."""
    try:
        expected.require_year(n)
        places = [(start, end) for year, start, end in years_of(book) if year == n]
    except Refused as refusal:
        return ("no_year {}" if len(refusal.args) == 1 else "unsound {} {}").format(*refusal.args), 0, 0
    return ("found {} {}".format(*places[0]), *places[0]) if places else ("no_year 12", 0, 0)


def seek(book, n):
    return f"seek_of {book[0]} {given(n)} ≡ {sought(book[1], n)[0]}"


def seeking(book, n):
    """The answer, the part and where it starts."""
    found, start, end = sought(book[1], n)
    return f"Seeking {book[0]} {given(n)} ({found}) {PARTS[book[1][start:end]]} {start}"


def require_list(records):
    if records < 24:
        raise Refused(6)


def read(book, room):
    try:
        require_list(room)
        read_year(book[1])
        found = "value (sound 149)"
    except Refused as refusal:
        found = f"refused {refusal.args[0]}" if len(refusal.args) == 1 else "value (faulty {} {})".format(*refusal.args)
    return f"read_answer {book[0]} {room} ≡ {found}"


def write_listed(n, name, mansion, day, minute, count, room):
    """From a list of so many equal terms."""
    expected.require_year(n)
    require_list(count)
    return write_values(n, name, mansion, day, minute, bytes(room), room)


def write_refused(n, name, mansion, day, minute, count, room):
    number = number_of(write_listed, n, name, mansion, day, minute, count, room)
    values = f"values {given(n)} {name} {mansion} {given(day)} {minute:_} {count}"
    return f"refusal_in (write_answer ({values}) (replicate {room} 0)) ≡ {number}"


def write_last_refused(day, minute):
    """Of 24 terms of which only the last is of that day and minute: one term is refused as 24 of them are."""
    number = number_of(write_values, 0, 0, 0, day, minute, bytes(149), 149)
    return f"refusal_in (write_answer (last_alone {given(day)} {minute:_}) (replicate 149 0)) ≡ {number}"


def worked_refused(n, room, e=OWN):
    number = number_of(reckoned, e, write_year, n, bytes(room), room)
    return f"refusal_in (worked_answer {e} {given(n)} (replicate {room} 0)) ≡ {number}"


def step(book, at, least):
    """What a reader finds at a byte with the least N + 2,000 that may stand there; the part's end, and the least number then."""
    if at >= len(book):
        return "book_end", at, least
    try:
        end = year_end(book, at, least - 1)
    except Refused as refusal:
        return "(stop {} {})".format(*refusal.args), at, least
    after = number_at(book, at + 1) + 1
    return f"(next_year {end} {after:_})", end, after


def call(book, at, least):
    """Its call there: what is found, the part and where it starts, and where the reader then stands."""
    found, end, after = step(book[1], at, least)
    start = at if end > at else 0
    return f"Call {book[0]} {at} {least:_} {found} {PARTS[book[1][at:end]]} {start} {end} {after:_}"


def parts(book):
    at, found = 0, []
    _, end, least = step(book[1], 0, 0)
    while end > at:
        found.append(PARTS[book[1][at:end]])
        at = end
        _, end, least = step(book[1], at, least)
    return f"parts_of {book[0]} ≡ " + " ∷ ".join([*found, "[]"])


# A sheet of corrections beside the book: the year after 1684 corrected, its day name another.

CORRECTED = changed(2, YEAR[2] + 1, YEAR[3] + 1)
SHEET = "sheet", CORRECTED[1]
LEAST, MOST = changed(1, *two_bytes(0)), changed(1, *two_bytes(4000))
PARTS |= {book: text for text, book in (SHEET, LEAST, MOST)}
WHICH = {CORRECTIONS: "the_corrections", MAIN: "the_main"}


def correcting(corrections, main, n):
    """The answer, the part, the book that it is put in and where it starts: an empty one at the start of the corrections."""
    which, start, end = CORRECTIONS, 0, 0
    try:
        which, start, end = corrected(corrections[1], main[1], n)
        found = f"found_in {WHICH[which]} {start} {end}"
    except Refused as refusal:
        number, *place = refusal.args
        found = f"unsound_in {WHICH[place[1]]} {number} {place[0]}" if place else f"in_neither {number}"
    part = {CORRECTIONS: corrections, MAIN: main}[which][1][start:end]
    return f"Correcting {corrections[0]} {main[0]} {given(n)} ({found}) {PARTS[part]} {WHICH[which]} {start}"


# A partner's book: ours of 1684 with other values in their place, alone or before ours of the year after.

AFTER = "after", year_bytes(1)


def verifying(book):
    try:
        byte = first_not_ours(book[1])
        found = "ours" if byte is None else f"not_ours {byte}"
    except Refused as refusal:
        found = "refused_at {} {}".format(*refusal.args)
    return f"verdict_of epicycles {book[0]} ≡ {found}"


def off(seat, by):
    """The year with the two bytes from a seat on so much more."""
    return changed(seat, *two_bytes(number_at(YEAR, seat) + by))


def before(book, other):
    """A book with another after it."""
    return f"({book[0][1:-1]} ++ {other[0]})", book[1] + other[1]


# A request line.


REFUSED_TEXTS = {b"refused 11\n": "refused_11"}


def text_of(written):
    return REFUSED_TEXTS.get(written) or listed(written)


def given_line(line):
    return f"({listed(line)})" if line else "[]"


def output(lines):
    return f"output {given_line(lines)} ≡ {text_of(expected.answers_to(lines))}"


def in_range(asked, line):
    n = asked(line)
    expected.require_year(n)
    return n


def asks(line):
    return f"line_asks {given_line(line)} ≡ {answered(given, in_range, expected.year_asked, line)}"


def first_asks(lines):
    return f"first_asks {given_line(lines)} ≡ {answered(given, in_range, first_year_asked, lines)}"


def clock(name, part, fraction):
    """Hour or minute of a fraction of a day, from its seconds."""
    seconds = fraction * 86_400 // expected.DAY
    return f"{name} {fraction:_} ≡ {(seconds // 3600, seconds // 60 % 60)[part]}"


# The rows: a fact with its name, or a name for bytes or values that facts use.


def terms():
    named = {"first": (0, 0), "least": (-2000, 0), "most": (2000, 23), "backward": (-676, 5), "longest": (-1900, 16)}
    for name, (n, k) in {**named, **expected.ROUNDED_TERMS}.items():
        start = (15 * k * DEGREE - expected.root(n)) // expected.DAILY_MOTION - 3
        printed_day, printed_minute, count = expected.term_values(n, k)
        day, cut = expected.crossing_values(n, k)
        yield name, f"Worked {given(n)} {k} {given(start)} {count} {given(day)} {cut:_} {given(printed_day)} {printed_minute:_}"
    # a day of 2,880 units has two in a minute, so that every odd one is half a minute
    yield "at_midnight", minutes(0, 2880)
    yield "at_half", minutes(1, 2880)
    yield "under_half", minutes(1, 2881)
    yield "past_half", minutes(1, 2879)
    yield "under_one", minutes(1, 1441)
    yield "at_one_and_a_half", minutes(3, 2880)
    yield "at_the_last", minutes(2878, 2880)
    yield "at_half_past_the_last", minutes(2879, 2880)
    yield "stays", carried(5, 1439)
    yield "carries", carried(5, 1440)
    yield "carries_to_day_0", carried(-1, 1440)
    yield "carries_to_day_370", carried(369, 1440)
    yield "stays_at_0", carried(5, 0)


def orders():
    yield "mean_1_2", mean(2001, 371)
    yield "true_1_2", true(-2001, -5)
    yield "run_on_1_2", run_on(2001, -5)
    yield "term_1_3", term(-2001, 24)
    yield "fill_1_6", fill_refused(2001, 23)
    yield "local_2_4_day", local(371, 0, 648_001)
    yield "local_2_4_minute", local(0, 1440, -648_001)
    yield "worked_1_6", worked_refused(-2001, 148)
    yield "true_1_5", true(2001, -4, WIDE)
    yield "true_2_5", true(0, -5, WIDE)
    yield "true_5", true(0, -4, WIDE)
    yield "run_on_1_5", run_on(-2001, -4, WIDE)
    yield "run_on_2_5", run_on(0, -5, WIDE)
    yield "run_on_5", run_on(0, -4, WIDE)
    yield "term_1_5", term(2001, 6, WIDE)
    yield "term_3_5", term(0, 24, WIDE)
    yield "term_5", term(0, 6, WIDE)
    yield "term_5_at_the_last_midnight", term(-1900, 16, "189_400")
    yield "crossing_1_3", crossing(2001, 24)
    yield "crossing_1_5", crossing(-2001, 6, WIDE)
    yield "crossing_3_5", crossing(0, 24, WIDE)
    yield "crossing_5", crossing(0, 6, WIDE)
    yield "crossing_5_at_the_last_midnight", crossing(-1900, 16, "189_400")
    yield "fill_1_5", fill_refused(2001, 24, WIDE)
    yield "fill_6_5", fill_refused(0, 23, WIDE)
    yield "fill_5", fill_refused(0, 24, WIDE)
    yield "fill_5_at_the_first", first_off(0, WIDE)
    yield "worked_1_5", worked_refused(2001, 149, WIDE)
    yield "worked_6_5", worked_refused(0, 148, WIDE)
    yield "worked_5", worked_refused(0, 149, WIDE)
    yield "record_8_7", check(plain(3))
    yield "record_8_10", check(changed(5, 3))
    yield "record_7_10_term_for_head", check(plain(2))
    yield "record_7_10_head_for_term", check(cut(5, 1))
    yield "record_7_10_number", check(joined(WHOLE, plain(1, 0, 0)))
    yield "record_7_10_k", check(cut(5, 2, 9))
    yield "record_7_9_head", check(plain(1, 255, 255, 255))
    yield "record_7_9_term", check(cut(5, 2, 0, 255, 255))
    yield "record_10_9_number", check(("(year ++ with 3 (60 ∷ []))", YEAR + changed(3, 60)[1]))
    yield "record_10_9_k", check(changed(6, 1, 255, 255))
    yield "record_10_9_head_for_term", check(cut(5, 1, 255, 255, 60, 28, 0))
    yield "record_10_9_term_for_head", check(plain(2, 0, 255, 255, 255, 255))
    yield "record_10_head_for_term", check(cut(5, 1, 0, 0, 0, 0, 0))
    yield "record_10_term_for_head", check(plain(2, 1, 0, 0, 0, 0))
    yield "seek_1_book", seek(plain(3), 2001)
    yield "seek_1_12", seek(NOTHING, -2001)
    yield "seek_book_12", seek(TWICE, 1)
    yield "seek_book_found", seek(TWICE, 0)
    yield "read_6_8", read(plain(3), 23)
    yield "read_6_7", read(plain(1), 23)
    yield "read_6_10", read(NOTHING, 23)
    yield "read_6_9", read(changed(3, 60), 23)
    yield "write_1_6_list", write_refused(2001, 0, 0, 0, 0, 23, 149)
    yield "write_1_6_buffer", write_refused(-2001, 0, 0, 0, 0, 24, 148)
    yield "write_1_9", write_refused(2001, 60, 0, 0, 0, 24, 149)
    yield "write_6_9_list", write_refused(0, 60, 0, 0, 0, 23, 149)
    yield "write_6_9_buffer", write_refused(0, 0, 28, 0, 0, 24, 148)


def limits():
    yield "year_below", year(-2001)
    yield "year_least", year(-2000)
    yield "year_most", year(2000)
    yield "year_above", year(2001)
    for name, place in (("mean", mean), ("true", true), ("run_on", run_on)):
        yield f"{name}_below", place(0, -5)
        yield f"{name}_least", place(0, -4)
        yield f"{name}_most", place(0, 370)
        yield f"{name}_above", place(0, 371)
    yield "term_most", term(0, 23)
    yield "term_above", term(0, 24)
    yield "crossing_most", crossing(0, 23)
    yield "crossing_above", crossing(0, 24)
    yield "local_day_below", local(-5, 0, 0)
    yield "local_day_least", local(-4, 0, 0)
    yield "local_day_most", local(370, 0, 0)
    yield "local_day_above", local(371, 0, 0)
    yield "local_minute_most", local(0, 1439, 0)
    yield "local_minute_above", local(0, 1440, 0)
    yield "local_west_most", local(0, 0, -648_000)
    yield "local_west_beyond", local(0, 0, -648_001)
    yield "local_east_most", local(0, 0, 648_000)
    yield "local_east_beyond", local(0, 0, 648_001)
    yield "list_23", fill_refused(0, 23)
    yield "list_24", fill_refused(0, 24)
    yield "buffer_148", worked_refused(0, 148)
    yield "buffer_149", worked_refused(0, 149)
    yield "number_0", check(changed(1, *two_bytes(0)))
    yield "number_4000", check(changed(1, *two_bytes(4000)))
    yield "number_4001", check(changed(1, *two_bytes(4001)))
    yield "name_59", check(changed(3, 59))
    yield "name_60", check(changed(3, 60))
    yield "mansion_27", check(changed(4, 27))
    yield "mansion_28", check(changed(4, 28))
    yield "day_374", check(changed(7, *two_bytes(374)))
    yield "day_375", check(changed(7, *two_bytes(375)))
    yield "minute_1439", check(changed(9, *two_bytes(1439)))
    yield "minute_1440", check(changed(9, *two_bytes(1440)))
    yield "last_k_24", check(changed(144, 24))
    yield "read_list_23", read(WHOLE, 23)
    yield "read_list_24", read(WHOLE, 24)
    yield "read_number_0", read(changed(1, *two_bytes(0)), 24)
    yield "read_no_bytes", read(NOTHING, 24)
    yield "write_least", write_refused(-2000, 0, 0, -4, 0, 24, 149)
    yield "write_most", write_refused(2000, 59, 27, 370, 1439, 24, 149)
    yield "write_list_23", write_refused(2000, 59, 27, 370, 1439, 23, 149)
    yield "write_buffer_148", write_refused(2000, 59, 27, 370, 1439, 24, 148)
    yield "write_name_60", write_refused(2000, 60, 27, 370, 1439, 24, 149)
    yield "write_mansion_28", write_refused(2000, 59, 28, 370, 1439, 24, 149)
    yield "write_day_below", write_refused(2000, 59, 27, -5, 1439, 24, 149)
    yield "write_day_above", write_refused(2000, 59, 27, 371, 1439, 24, 149)
    yield "write_minute_1440", write_refused(2000, 59, 27, 370, 1440, 24, 149)
    yield "write_last_most", write_last_refused(370, 1439)
    yield "write_last_day_above", write_last_refused(371, 1439)
    yield "write_last_minute_1440", write_last_refused(370, 1440)


def edges():
    for name, arc in (("0", 0), ("before_10", SINE_STEP - 1), ("10", SINE_STEP), ("before_90", QUARTER - 1), ("90", QUARTER)):
        yield f"sine_{name}", f"sine {arc:_} ≡ {expected.sine(arc):_}"
    for tangent in (0, 1, 2908, 2909, 378_334, 378_335):
        yield f"angle_{tangent}", f"angle {tangent:_} ≡ {expected.angle(tangent):_}"
    for name, arc in (("0", 0), ("90", QUARTER), ("180", HALF), ("270", 3 * QUARTER)):
        yield f"before_{name}", equation(arc - MINUTE)
        yield f"after_{name}", equation(arc + MINUTE)
    yield "at_360", equation(CIRCLE)
    yield "at_390", equation(CIRCLE + 30 * DEGREE)
    yield "at_30_below_0", equation(-30 * DEGREE)
    yield "last_entry", equation(89 * DEGREE, "189_134")
    yield "past_the_last_entry", equation(QUARTER, "189_168")
    for longitude in (7, 8, 22, 23):
        for side in (1, -1):
            name = f"clock_{'east' if side > 0 else 'west'}_{longitude}"
            yield name, f"clock_of_arc {given(side * longitude)} ≡ {signed(expected.clock_seconds(side * longitude))}"
    yield "local_day_before", local(-4, 0, -648_000)
    yield "local_day_after", local(370, 1439, 648_000)
    yield "local_second_before", local(0, 0, -8)
    yield "local_second_after", local(0, 1439, 15 * 60 - 8)
    yield "local_minute_after", local(0, 1439, 15 * 60 - 7)


def steps_of(table):
    return [after - before for before, after in zip(table, table[1:])]


def seat(k):
    """The entry at a seat and the step from it: past the last entry nothing."""
    entries = expected.SINES[k : k + 2]
    steps = steps_of(entries)
    return f"seat {entries[0] if entries else 0:_} {steps[0] if steps else 0:_}"


def steps():
    for table in ([], [5], [5, 7], expected.SINES[:3]):
        yield f"steps_of_{len(table)}", f"steps_of ({listed(table)}) ≡ {listed(steps_of(table))}"
    for k in (0, 1, 539, 540, 541):
        yield f"seat_{k}", f"entry_and_step {k} ≡ {seat(k)}"
    for k, j in ((1, 2), (540, 1)):
        yield f"seats_{k}_{j}", f"two_entries {k} {j} ≡ both ({seat(k)}) ({seat(j)})"


def lines():
    for written, name in REFUSED_TEXTS.items():
        yield f"{name} = {listed(written)}"
    yield "six", output(b"\n".join(expected.DOCUMENT_LINES))
    yield "five_digits", output(b"12345\n")
    yield "minus_and_five_digits", output(b"-12345\n")
    yield "minus_zero", output(b"-0\n")
    yield "leading_zeros", output(b"0001\n")
    yield "minus_and_leading_zeros", output(b"-0001\n")
    yield "minus_alone", output(b"-\n")
    yield "two_minuses", output(b"--1\n")
    yield "minus_after", output(b"1-\n")
    yield "before_the_digits", output(b"/\n")
    yield "after_the_digits", output(b":\n")
    yield "eight_and_nine", output(b"89\n")
    yield "least", output(b"-2000\n")
    yield "most", output(b"2000\n")
    yield "empty", output(b"\n")
    yield "two_empty", output(b"\n\n")
    yield "no_input", output(b"")
    yield "last_without_newline", output(b"1\n-1")
    yield "midnight", output(b"-44\n")
    yield "hour_21_minute_0", output(b"-28\n")
    yield "hour_9_minute_0", output(b"36\n")
    yield "name_59", output(b"-13\n")
    yield "name_9", output(b"69\n")
    yield "mansion_27", output(b"-6\n")
    yield "asks_least", asks(b"-2000")
    yield "asks_below", asks(b"-2001")
    yield "asks_most", asks(b"2000")
    yield "asks_above", asks(b"2001")
    yield "asks_nothing", asks(b"")
    yield "first_of_none", first_asks(b"")
    yield "first_empty", first_asks(b"\n0\n")
    yield "first_of_two", first_asks(b"-676\nx")
    yield "first_without_newline", first_asks(b"0")
    for name, part, whole in (("hour", 0, 24), ("minute", 1, 1440)):
        second, last = -(-expected.DAY // whole), -(-expected.DAY * (whole - 1) // whole)
        yield f"{name}_0", clock(f"{name}_of", part, second - 1)
        yield f"{name}_1", clock(f"{name}_of", part, second)
        yield f"{name}_last_but_one", clock(f"{name}_of", part, last - 1)
        yield f"{name}_last", clock(f"{name}_of", part, last)
        yield f"{name}_before_midnight", clock(f"{name}_of", part, expected.DAY - 1)
    yield "minute_60", clock("minute_of", 1, -(-expected.DAY // 24))
    # no fraction's minutes, and of the hours no other's than hour_last_but_one's, come nearer to whole ones from below
    yield "minute_nearest", clock("minute_of", 1, 4_861_111)


def books():
    values = [expected.term_values(0, k) for k in range(24)]
    head = f"the_head {given(0)} {expected.day_name(0)} {expected.mansion(0)}"
    assert read_year(YEAR) == ((0, expected.day_name(0), expected.mansion(0)), [(*value[:2], 0) for value in values])
    yield f"year = {listed(YEAR)}"
    yield "terms = " + " ∷ ".join([*(term_text(value)[1:-1] for value in values), "[]"])
    yield "worked_terms", "fill_answer epicycles (pos 0) 24 ≡ value terms"
    yield "worked_year_lem", "worked_answer epicycles (pos 0) (replicate 149 0 ++ (7 ∷ 8 ∷ [])) ≡ value (year ++ (7 ∷ 8 ∷ []))"
    # a year whose first term is carried, in the list and in the book
    n, _ = expected.ROUNDED_TERMS["carried_first"]
    yield "carried_terms", f"part (take 1) (fill_answer epicycles {given(n)} 24) ≡ value ({term_text(expected.term_values(n, 0))[1:-1]} ∷ [])"
    yield "carried_year", f"part (take 11) (worked_answer epicycles {given(n)} (replicate 149 0)) ≡ value ({listed(year_bytes(n)[:11])})"
    yield "written", f"write_answer (book_year ({head}) terms) (replicate 149 0 ++ (7 ∷ 8 ∷ [])) ≡ value (year ++ (7 ∷ 8 ∷ []))"
    yield "head_read_lem", f"head_read (read_answer year 24) year ≡ {head}"
    yield "terms_read_lem", "terms_read (read_answer year 24) year ≡ value (map uncounted terms)"
    yield "whole", check(WHOLE)
    yield "none", check(NOTHING)
    yield "no_kind", check(changed(0, 3))
    yield "cut_inside_a_record", check(first(8))
    yield "head_twice", check(("(take 5 year ++ year)", YEAR[:5] + YEAR))
    yield "wrong_k", check(changed(6, 1))
    yield "year_twice", check(joined(WHOLE, WHOLE))
    yield "cut_between_records", check(first(11))
    yield "day_name_60", check(changed(3, 60))
    yield "minute_1440", check(changed(9, *two_bytes(1440)))


def handed():
    for name, book in NAMED.items():
        yield f"{name} = {book}"
    yield "first", call(THREE, 0, 0)
    yield "second", call(THREE, 149, 2001)
    yield "third", call(THREE, 298, 2002)
    yield "end", call(THREE, 447, 2003)
    yield "past_the_end", call(THREE, 448, 2003)
    yield "out_of_turn_lem", call(TWICE, 149, 2001)
    yield "cut", call(BROKEN, 149, 2001)
    yield "of_nothing", call(NOTHING, 0, 0)
    yield "three_sound", check(THREE)
    yield "broken_at", check(BROKEN)
    yield "parts_of_three", parts(THREE)
    yield "parts_of_twice", parts(TWICE)
    yield "parts_together", "together (parts_of three) ≡ three"
    yield "seek_first", seeking(THREE, 0)
    yield "seek_second", seeking(THREE, 1)
    yield "seek_absent", seeking(THREE, 3)
    yield "seek_in_twice", seeking(TWICE, 0)
    yield "seek_in_nothing", seeking(NOTHING, 0)


def corrections():
    yield f"sheet = {CORRECTED[0][1:-1]}"
    yield "corrected", correcting(SHEET, THREE, 1)
    yield "not_corrected", correcting(SHEET, THREE, 2)
    yield "in_the_corrections_alone", correcting(SHEET, WHOLE, 1)
    yield "in_neither_lem", correcting(SHEET, THREE, 3)
    yield "equal_books", correcting(THREE, THREE, 1)
    yield "empty_sheet", correcting(NOTHING, THREE, 1)
    yield "empty_sheet_12", correcting(NOTHING, THREE, 3)
    yield "empty_main", correcting(SHEET, NOTHING, 1)
    yield "empty_main_12", correcting(SHEET, NOTHING, 0)
    yield "both_empty", correcting(NOTHING, NOTHING, 0)
    # each of a book's refusals, in either
    at_fault = {7: first(8), 8: changed(0, 3), 9: changed(9, *two_bytes(1440)), 10: changed(6, 1)}
    for number, book in at_fault.items():
        yield f"corrections_{number}", correcting(book, THREE, 1)
        yield f"main_{number}", correcting(SHEET, book, 1)
    yield "least", correcting(LEAST, THREE, -2000)
    yield "most", correcting(SHEET, MOST, 2000)
    # two refusals that meet: 1 for the year, the corrections', the main book's, 12
    yield "year_corrections", correcting(BROKEN, THREE, 2001)
    yield "year_main", correcting(SHEET, BROKEN, -2001)
    yield "year_both", correcting(BROKEN, TWICE, 2001)
    yield "year_12", correcting(NOTHING, NOTHING, -2001)
    yield "corrections_main", correcting(BROKEN, TWICE, 0)
    yield "corrections_main_changed_over", correcting(TWICE, BROKEN, 0)
    yield "corrections_12", correcting(BROKEN, THREE, 3)
    yield "main_12", correcting(SHEET, BROKEN, 3)
    # a book at fault that has the year, or beside one that has it
    yield "corrections_found", correcting(BROKEN, NEXT, 0)
    yield "corrections_found_in_main", correcting(BROKEN, THREE, 2)
    yield "main_found", correcting(SHEET, TWICE, 0)
    yield "main_found_in_the_corrections", correcting(SHEET, BROKEN, 1)


def partners():
    carried, _ = expected.ROUNDED_TERMS["carried_first"]
    at_crossings = bytes_of(carried, *read_year(year_bytes(carried))[0][1:], [expected.crossing_values(carried, k) for k in range(24)])
    yield f"{AFTER[0]} = {listed(AFTER[1])}"
    yield f"at_crossings = {listed(at_crossings)}"
    for name, n in (("ours_0", 0), ("ours_1", 1)):
        terms = " ∷ ".join([*(term_text(expected.term_values(n, k))[1:-1] for k in range(24)), "[]"])
        yield name, f"worked_year epicycles {given(n)} ≡ reckoned {given(n)} {expected.day_name(n)} {expected.mansion(n)} ({terms})"
    yield "whole", verifying(WHOLE)
    yield "none", verifying(NOTHING)
    yield "two", verifying(joined(WHOLE, AFTER))
    # each value, to both sides of ours
    for side, by in (("less", -1), ("more", 1)):
        yield f"name_{side}", verifying(changed(3, YEAR[3] + by))
        yield f"mansion_{side}", verifying(changed(4, YEAR[4] + by))
        yield f"first_day_{side}", verifying(off(7, by))
        yield f"first_minute_{side}", verifying(off(9, by))
        yield f"last_day_{side}", verifying(off(145, by))
        yield f"last_minute_{side}", verifying(off(147, by))
    yield "day_high_byte", verifying(off(7, 256))
    yield "minute_high_byte", verifying(off(9, -256))
    yield "day_and_minute", verifying(changed(7, *two_bytes(number_at(YEAR, 7) + 1), *two_bytes(number_at(YEAR, 9) - 1)))
    yield "between_first_and_last", verifying(off(5 + 6 * 11 + 4, 1))
    # the first term whose minute rounding moves, cut off; and one whose day it moves
    k = next(k for k in range(24) if expected.crossing_values(0, k)[1] != expected.term_values(0, k)[1])
    yield "cut_off_lem", verifying(changed(5 + 6 * k + 4, *two_bytes(expected.crossing_values(0, k)[1])))
    yield "not_carried", verifying(("at_crossings", at_crossings))
    # the values of 1684 under another N
    yield "next_number", verifying(NEXT)
    yield "least_number", verifying(LEAST)
    yield "most_number", verifying(MOST)
    # the second year, and the first of two that differ
    yield "second_head", verifying(joined(WHOLE, NEXT))
    last_minute = AFTER[1][148] + 1
    yield "second_last", verifying((f"(year ++ (take 148 after ++ ({listed([last_minute])})))", YEAR + AFTER[1][:148] + bytes([last_minute])))
    yield "first_of_two", verifying(before(off(147, 1), NEXT))
    yield "head_before_term", verifying(changed(3, YEAR[3] + 1, YEAR[4], 2, 0, 0, 0))
    # the book's refusals, each after a record that is not ours
    other = changed(3, YEAR[3] + 1)
    name_60 = changed(2, YEAR[2] + 1, 60)
    faults = {7: ("take 8 next", NEXT[1][:8]), 8: plain(3), 9: (name_60[0][1:-1], name_60[1]), 10: WHOLE}
    for number, fault in faults.items():
        yield f"refused_{number}", verifying(before(other, fault))
    yield "cut_between_records", verifying((f"(take 143 {other[0]})", other[1][:143]))
    # what is not ours is accepted by the check, sought and read
    yield "checked", check(other)
    yield "found", seek(other, 0)
    yield "read", read(other, 24)


WORKED_FILES = {
    "law/proofs/WorkedTerms": terms,
    "law/proofs/WorkedBooks": books,
    "law/proofs/WorkedParts": handed,
    "law/proofs/WorkedLines": lines,
    "law/proofs/WorkedOrders": orders,
    "law/proofs/WorkedLimits": limits,
    "law/proofs/WorkedEdges": edges,
    "tables/proofs/WorkedSteps": steps,
    "corrections/proofs/WorkedCorrections": corrections,
    "verify/proofs/WorkedVerify": partners,
}


def rows(file):
    for row in WORKED_FILES[file]():
        yield row if isinstance(row, str) else f"pub {row[0]} : {row[1]}"


def missing_rows():
    """The rows that are no line of their file."""
    for file in WORKED_FILES:
        path = f"crates/{file}.antt"
        stored = [line.strip() for line in (expected.ROOT_FOLDER / path).read_text().split("\n")]
        yield from (f"{path}: {row}" for row in rows(file) if row not in stored)


if __name__ == "__main__":
    for file in WORKED_FILES:
        print(f"-- {file}")
        for row in rows(file):
            print(f"  {row}")
