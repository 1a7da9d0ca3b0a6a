"""Reckons the expected outputs of the test programs from the rules of documents 01 and 02 alone.

It shares nothing with the Rattle sources: no code, no table. The sines and tangents are worked out here
from their series, the numbers are Python's unbounded ones, and each rule is the document's own formula.

    python3 tests/expected.py           writes every expected file
    python3 tests/expected.py --check   writes nothing; names the files that differ, and the rows of the proofs' Worked*.antt
                                        that are not as worked_facts.py has them, and exits 1 if there are any
"""

import re
import sys
from bisect import bisect_right
from decimal import ROUND_HALF_UP, Decimal, getcontext
from fractions import Fraction
from pathlib import Path

ROOT_FOLDER = Path(__file__).resolve().parent.parent

# Angles are in units, days in thousand-millionths.
SECOND = 60_000_000
MINUTE = 60 * SECOND
DEGREE = 60 * MINUTE
QUARTER = 90 * DEGREE
HALF = 180 * DEGREE
CIRCLE = 360 * DEGREE
THIRD = SECOND // 60
DAY = 1_000_000_000

YEAR = 365_242_187_500
DAILY_MOTION = 212_899_831_014
PERIGEE_YEARLY = 3_669_999_600
PERIGEE_DAILY = 10_048_140
PERIGEE_AT_EPOCH = 1_548_670_000_000
DAY_EPOCH = 7_656_374_926
MANSION_EPOCH = 5_656_374_926
RADIUS = 10_000_000
EPICYCLE_DIFFERENCE = 268_812 - 89_604

LEAST, GREATEST = -(2**63), 2**63 - 1


class Refused(Exception):
    """A refusal; its one argument is the refusal number."""


def answer(call, *given):
    """The answer of a call, or `refused` and the number."""
    try:
        return str(call(*given))
    except Refused as refusal:
        return f"refused {refusal.args[0]}"


def half_up(dividend, divisor):
    return (2 * dividend + divisor) // (2 * divisor)


# The tables.

getcontext().prec = 60
NEGLIGIBLE = Decimal(10) ** -55


def arctangent_of_inverse(number):
    total, power, odd = Decimal(0), Decimal(1) / number, 1
    while abs(power) > NEGLIGIBLE:
        total += power / odd
        power /= -number * number
        odd += 2
    return total


PI = 16 * arctangent_of_inverse(5) - 4 * arctangent_of_inverse(239)


def series(term, order, square):
    """The sum of an alternating series x^n/n!, from the term of the given order on by twos."""
    total = Decimal(0)
    while abs(term) > NEGLIGIBLE:
        total += term
        term *= -square / ((order + 1) * (order + 2))
        order += 2
    return total


def exact_sine(minutes):
    arc = PI * minutes / 10_800
    return series(arc, 1, arc * arc)


def exact_cosine(minutes):
    arc = PI * minutes / 10_800
    return series(Decimal(1), 0, arc * arc)


def nearest(value):
    # Far from a half, the nearest whole number is sure at this precision.
    assert abs(value % 1 - Decimal("0.5")) > Decimal("1e-9")
    return int(value.to_integral_value(ROUND_HALF_UP))


SINES = [nearest(RADIUS * exact_sine(10 * k)) for k in range(541)]
TANGENTS = [nearest(RADIUS * exact_sine(m) / exact_cosine(m)) for m in range(131)]
SINE_STEP = 10 * MINUTE


# Year and day.


def require_year(n):
    if not -2000 <= n <= 2000:
        raise Refused(1)


def require_day(day, minute=0):
    if not (-4 <= day <= 370 and 0 <= minute <= 1439):
        raise Refused(2)


def solstice(n):
    require_year(n)
    return DAY_EPOCH + n * YEAR


def day_name(n):
    return solstice(n) // DAY % 60


def fraction(n):
    return solstice(n) % DAY


def mansion(n):
    return ((MANSION_EPOCH + n * YEAR) // DAY + 1) % 28


def root(n):
    return half_up((DAY - fraction(n)) * DAILY_MOTION, DAY)


def clock_of_solstice(n):
    """Hour, minute and second of the mean solstice, cut off."""
    seconds = fraction(n) * 86_400 // DAY
    return seconds // 3600, seconds // 60 % 60, seconds % 60


# The equation of centre.


def sine(arc):
    k, rest = divmod(arc, SINE_STEP)
    if rest == 0:  # the last entry has no step after it
        return SINES[k]
    return SINES[k] + (SINES[k + 1] - SINES[k]) * rest // SINE_STEP


def height_base_tangent(anomaly):
    from_perigee = anomaly if anomaly <= HALF else CIRCLE - anomaly
    arc = from_perigee if from_perigee <= QUARTER else HALF - from_perigee
    height = half_up(EPICYCLE_DIFFERENCE * sine(arc), RADIUS)
    base = half_up(EPICYCLE_DIFFERENCE * sine(QUARTER - arc), RADIUS)
    long_side = RADIUS - base if from_perigee <= QUARTER else RADIUS + base
    return height, base, half_up(2 * height * RADIUS, long_side)


def angle(tangent):
    if tangent > TANGENTS[-1]:
        raise Refused(5)
    minute = bisect_right(TANGENTS, tangent) - 1  # the last entry not above it
    rest = tangent - TANGENTS[minute]
    if rest == 0:  # the last entry has no step after it
        return minute * MINUTE
    return minute * MINUTE + rest * MINUTE // (TANGENTS[minute + 1] - TANGENTS[minute])


def equation(anomaly):
    anomaly %= CIRCLE
    size = angle(height_base_tangent(anomaly)[2])
    return size if anomaly < HALF else -size


# Places of the sun.


def mean_run_on(n, day):
    require_year(n)
    require_day(day)
    return root(n) + day * DAILY_MOTION


def run_on(n, day):
    mean = mean_run_on(n, day)
    perigee = PERIGEE_AT_EPOCH + n * PERIGEE_YEARLY + day * PERIGEE_DAILY
    return mean + equation(mean - perigee)


def mean_place(n, day):
    return mean_run_on(n, day) % CIRCLE


def true_place(n, day):
    return run_on(n, day) % CIRCLE


# Terms and local times.


def way_to(n, k):
    """Demand 3's day, the units from its midnight's place to the mark, those to the next midnight's place, and the count."""
    require_year(n)
    if k > 23:
        raise Refused(3)
    mark = 15 * k * DEGREE
    start = (mark - root(n)) // DAILY_MOTION - 3
    places = [run_on(n, start)]
    while places[-1] <= mark:
        places.append(run_on(n, start + len(places)))
    assert 2 <= len(places) <= 8, (n, k)
    place, next_place = places[-2:]
    return start + len(places) - 2, mark - place, next_place - place, len(places)


def rounded_minute(gone, step):
    """Document 02, K2: half or more rounds up. It may be 1,440."""
    return half_up(1440 * gone, step)


def carried(day, minute):
    """Minute 1,440 is minute 0 of the next day."""
    return (day + 1, 0) if minute == 1440 else (day, minute)


def term_values(n, k):
    """The printed day and minute, and the count."""
    day, gone, step, count = way_to(n, k)
    return *carried(day, rounded_minute(gone, step)), count


def cut_minute(gone, step):
    """Document 01's minute, cut off."""
    return 1440 * gone // step


def crossing_values(n, k):
    """Demand 3's day, and the minute cut off."""
    day, gone, step, _ = way_to(n, k)
    return day, cut_minute(gone, step)


def term(n, k):
    return "day {} minute {} count {}".format(*term_values(n, k))


def crossing(n, k):
    return "day {} minute {}".format(*crossing_values(n, k))


def clock_seconds(longitude):
    size = half_up(abs(longitude), 15)
    return size if longitude >= 0 else -size


def local(day, minute, longitude):
    require_day(day, minute)
    if abs(longitude) > 648_000:
        raise Refused(4)
    minutes = (60 * minute + clock_seconds(longitude)) // 60
    return f"day {day + minutes // 1440} minute {minutes % 1440}"


# Figures quoted from the sources.

# Years, and days, hour, minute and second of source 003.
SOLSTICES_003 = [(-600, (42, 8, 15, 1)), (-633, (49, 8, 26, 16)), (-585, (0, 23, 26, 16))]

# Degrees of anomaly, and the equation of source 004 in degrees, minutes, seconds and thirds.
EQUATIONS_004 = [(30, (1, 2, 34, 18)), (90, (2, 3, 9, 40)), (140, (1, 18, 6, 53))]

# Source 002's places: east (1) or west (-1), degrees, minutes and seconds of arc, minutes and seconds of clock.
# The scan tore the last row, 朝鲜: its 三十 stands in the next line, its 分则加四十二分 before the first row.
PLACES_002 = [
    ("盛京", 1, (7, 15, 0), (29, 0)),
    ("浙江", 1, (3, 41, 24), (14, 46)),
    ("福建", 1, (2, 59, 0), (11, 56)),
    ("江南", 1, (2, 18, 0), (9, 12)),
    ("山东", 1, (2, 15, 0), (9, 0)),
    ("江西", -1, (0, 37, 0), (2, 28)),
    ("河南", -1, (1, 56, 0), (7, 44)),
    ("湖广", -1, (2, 17, 0), (9, 8)),
    ("广东", -1, (3, 33, 15), (14, 13)),
    ("山西", -1, (3, 57, 42), (15, 51)),
    ("广西", -1, (6, 14, 40), (24, 59)),
    ("陜西", -1, (7, 33, 40), (30, 15)),
    ("贵州", -1, (9, 52, 40), (39, 31)),
    ("四川", -1, (12, 16, 0), (49, 4)),
    ("云南", -1, (13, 37, 0), (54, 28)),
    ("朝鲜", 1, (10, 30, 0), (42, 0)),
]

MARKED_LOCAL_TIMES = [((10, 1435, 13_284), "day 11 minute 9"), ((10, 0, -12_795), "day 9 minute 1425")]


def sixties(parts):
    total = 0
    for part in parts:
        total = 60 * total + part
    return total


# What the document states of its tables and answers.


def assert_table_rules():
    steps = [after - before for before, after in zip(SINES, SINES[1:])]
    assert all(42 <= step <= 29_089 for step in steps)
    assert all(-86 <= after - before <= 1 for before, after in zip(steps, steps[1:]))
    assert all(abs(SINES[k] ** 2 + SINES[540 - k] ** 2 - RADIUS**2) <= 14_142_136 for k in range(541))
    tangent_steps = [after - before for before, after in zip(TANGENTS, TANGENTS[1:])]
    assert all(2_908 <= step <= 2_914 for step in tangent_steps)


def assert_marked_table():
    assert (fraction(0), root(0)) == (656_374_926, 73_157_720_187)
    assert (day_name(-1), fraction(-1), day_name(-676)) == (2, 414_187_426, 3)
    assert equation(0) == equation(HALF) == 0
    assert height_base_tangent(30 * DEGREE) == (89_604, 155_199, 182_033)
    assert equation(30 * DEGREE) == -equation(330 * DEGREE) == 225_257_319_587
    assert height_base_tangent(90 * DEGREE)[2] == 358_416
    assert equation(90 * DEGREE) == -equation(270 * DEGREE) == 443_382_080_329
    assert height_base_tangent(140 * DEGREE)[2] == 227_266
    assert equation(140 * DEGREE) == 281_213_195_876
    for given, found in MARKED_LOCAL_TIMES:
        assert local(*given) == found


def assert_compared_figures():
    for n, printed in SOLSTICES_003:
        ours = (day_name(n), *clock_of_solstice(n))
        assert ours[:3] == printed[:3] and ours[3] != printed[3]  # days and minutes agree, seconds do not
    for degrees, printed in EQUATIONS_004:
        assert abs(equation(degrees * DEGREE) - sixties(printed) * THIRD) < 3 * THIRD
    for _, side, arc, clock in PLACES_002:
        assert clock_seconds(side * sixties(arc)) == side * sixties(clock)
    # The solstice program's sample: day name, hour, minute, mansion.
    for n, sample in [(-676, (3, 22, 30, 6)), (-1, (2, 9, 56, 5)), (0, (7, 15, 45, 6)), (1, (12, 21, 33, 7))]:
        assert (day_name(n), *clock_of_solstice(n)[:2], mansion(n)) == sample


def assert_rounded_terms():
    """All 96,024 terms: how many rounding moves and carries, and which of them ROUNDED_TERMS are."""
    moved, carries, halves = 0, [], []
    for n in range(-2000, 2001):
        for k in range(24):
            _, gone, step, _ = way_to(n, k)
            cut, rounded = cut_minute(gone, step), rounded_minute(gone, step)
            assert 0 <= cut <= 1439 and rounded - cut in (0, 1), (n, k)
            moved += rounded - cut
            if rounded == 1440:
                carries.append((n, k))
            halves.append((Fraction(1440 * gone, step) - cut - Fraction(1, 2), (n, k)))
    assert (moved, len(carries)) == (47_904, 26)
    by_term = sorted(carries, key=lambda term: term[1])
    past, under = min(half for half in halves if half[0] >= 0), max(half for half in halves if half[0] < 0)
    assert past[0] > 0
    assert list(ROUNDED_TERMS.values()) == [by_term[0], by_term[-1], past[1], under[1]]


# The parts of the expected files, line by line.


def tables_lines():
    for k, entry in enumerate(SINES):
        yield f"sine {k} {entry}"
    for m, entry in enumerate(TANGENTS):
        yield f"tangent {m} {entry}"


EVERY_TWENTIETH_YEAR = range(-2000, 2001, 20)


def year_values(n):
    return f"day name {day_name(n)} fraction {fraction(n)} mansion {mansion(n)} root {root(n)}"


def year_lines():
    years = [LEAST, -2002, -2001, *EVERY_TWENTIETH_YEAR, 2001, 2002, GREATEST]
    years += [-1999, -676, -633, -600, -585, -2, -1, 1, 2, 1999]
    for n in years:
        yield f"year {n}: {answer(year_values, n)}"
    for n, printed in SOLSTICES_003:
        ours = "{} {}:{:02}:{:02}".format(day_name(n), *clock_of_solstice(n))
        yield f"003 {n}: days {ours} printed {'{} {}:{:02}:{:02}'.format(*printed)}"


def equation_lines():
    for degrees, printed in EQUATIONS_004:
        ours, thirds = equation(degrees * DEGREE), sixties(printed)
        yield f"004 at {degrees}: {ours} units printed {thirds} thirds apart {abs(ours - thirds * THIRD)} units"
    anomalies = [q * QUARTER + o for q in range(-5, 6) for o in (-1, 0, 1)]
    anomalies += [LEAST, LEAST + 1, GREATEST - 1, GREATEST]
    anomalies += [k * SINE_STEP for k in range(541)]
    anomalies += [i * 77_777_777_777 - 40_000_000_000_000 for i in range(2000)]
    for anomaly in anomalies:
        yield f"equation {anomaly}: {answer(equation, anomaly)}"


def place_lines():
    years = [-2001, -2000, -1999, -1000, -676, -1, 0, 1, 321, 1000, 1999, 2000, 2001]
    days = [LEAST, -5, -4, -3, -1, 0, 1, *range(7, 360, 11), 369, 370, 371, GREATEST]
    cases = [(n, day) for n in years for day in days]
    cases += [(LEAST, 0), (GREATEST, 0), (GREATEST, 371)]
    for n, day in cases:
        mean, true, on = (answer(call, n, day) for call in (mean_place, true_place, run_on))
        yield f"place {n} {day}: mean {mean} true {true} run-on {on}"


# Where rounding shows, year and term; assert_rounded_terms holds each to its name.
ROUNDED_TERMS = {
    "carried_first": (-255, 0),  # the least and the greatest k of those whose minute rounds to 1,440
    "carried_last": (-1556, 22),
    "nearest_past_half": (-104, 5),  # no term is exactly at half a minute
    "nearest_under_half": (527, 23),
}


def term_lines():
    twentieth = [(n, k) for n in EVERY_TWENTIETH_YEAR for k in range(24)]
    for n, k in [*twentieth, *ROUNDED_TERMS.values()]:  # a refusal here would be an error, and stops the program
        yield f"term {n} {k}: {term(n, k)}"
        yield f"crossing {n} {k}: {crossing(n, k)}"
    refusals = [(-2001, 0), (2001, 23), (-2001, 24), (2001, 24), (0, 24), (0, 2**64 - 1), (-2000, 24), (2000, 24)]
    for n, k in [*refusals, (LEAST, 0), (GREATEST, 24)]:
        yield f"term {n} {k}: {answer(term, n, k)}"
        yield f"crossing {n} {k}: {answer(crossing, n, k)}"


def year_call(n, room):
    """What the year call says, and the records that a list of so many then begins with."""
    if not -2000 <= n <= 2000:
        return "refused 1", []
    if room < 24:
        return "refused 6", []
    return "all", [term(n, k) for k in range(24)]


def list_lines():
    for n, room in ((-2001, 24), (-2000, 24), (-1337, 26), (-1, 25), (0, 24), (0, 23), (0, 0), (2000, 26), (2001, 23)):
        said, records = year_call(n, room)
        yield f"list {n} in {room}: {said}"
        yield from records + ["day 7 minute 7 count 7"] * (26 - len(records))


def local_line(day, minute, longitude):
    return f"local {day} {minute} {longitude}: {answer(local, day, minute, longitude)}"


def local_lines():
    for number, (_, side, arc, clock) in enumerate(PLACES_002, 1):
        longitude, printed = side * sixties(arc), side * sixties(clock)
        yield f"002 {number}: longitude {longitude} clock {clock_seconds(longitude)} printed {printed}"
        yield local_line(10, 0, longitude)
        yield local_line(10, 1439, longitude)
    longitudes = [0, 1, -1, 7, -7, 8, -8, 14, -14, 15, -15, 22, -22, 23, -23, 13_284, -12_795]
    longitudes += [647_999, -647_999, 648_000, -648_000, 648_001, -648_001, LEAST, GREATEST]
    for day in (-5, -4, 0, 369, 370, 371):
        for minute in (0, 1, 719, 1439, 1440):
            for longitude in longitudes:
                yield local_line(day, minute, longitude)
    for given, _ in MARKED_LOCAL_TIMES:
        yield local_line(*given)


# The solstice program: a request line, what is written for it, the lines of an input; all in bytes.

DOCUMENT_LINES = [b"-676", b"-1", b"0", b"1", b"2001", b"x"]
READ_SIZE = 2048  # what the program reads at a time; only the choice of cases depends on it


def year_asked(line):
    """The N of a request line: an optional minus and one to four digits, or refused 11."""
    if not re.fullmatch(rb"-?[0-9]{1,4}", line):
        raise Refused(11)
    return int(line)


def solstice_line(line):
    n = year_asked(line)
    hour, minute, _ = clock_of_solstice(n)
    return f"{n} {day_name(n)} {hour:02}:{minute:02} {mansion(n)}"


def lines_of(given):
    """Each line ends at a newline; a last line without its newline counts if it has bytes."""
    *lines, rest = given.split(b"\n")
    return [*lines, rest] if rest else lines


def document_input():
    return b"".join(line + b"\n" for line in DOCUMENT_LINES)


def many_lines():
    """No line, no year, the limits, a line longer than any buffer, and lines across every place of a read."""
    odd = [b"", b"", b"", b"\0", b"1\0", b"\r", b"1\r", b"+1", b" 1", b"1 ", b"--1", b"-", b"-0", b"0000", b"-0000", b"00001"]
    odd += [b"12345", b"2000", b"-2000", b"2001", b"-2001", b"9999", b"-9999", b"1-", b"0x1", b"/", b":", b"\xff", b"1\t", b"1e3"]
    long = [b"1" * 70_000, b"0" * 70_000, b"-" + b"7" * (READ_SIZE - 1), b"5" * READ_SIZE]
    # 29 bytes with their newlines, an odd number: over 29 reads each of them comes to stand at a read's end.
    across = [b"", b"7", b"-9", b"123", b"-676", b"-2000", b"1234567"] * (30 * READ_SIZE // 29)
    years = [str(n).encode() for n in range(-2005, 2006)]
    last_without_newline = b"-1"
    return b"".join(line + b"\n" for line in [*odd, *long, *across, *years]) + last_without_newline


def answers_to(given):
    return "".join(answer(solstice_line, line) + "\n" for line in lines_of(given)).encode()


# Each program's expected output, and the parts that it prints in order.
EXPECTED_FILES = [
    ("crates/reckoning_cases/stdout", [tables_lines, year_lines, equation_lines, place_lines, term_lines, list_lines, local_lines]),
]


def run_files(program, given, answers):
    """The input and output that the crate of a program that reads is run on."""
    return [(f"crates/{program}/stdin", given), (f"crates/{program}/stdout", answers(given))]


def expected_files():
    """Every expected file's path and bytes."""
    import case_files  # here, since they take their values from this file
    import term_book
    import wall_ring

    for path, parts in EXPECTED_FILES:
        yield path, "".join(line + "\n" for part in parts for line in part()).encode()
    yield from run_files("solstice", document_input(), answers_to)
    yield from term_book.expected_files()
    yield from wall_ring.expected_files()
    yield from case_files.expected_files()


def stray_cases(expected):
    """Files of tests/cases that nothing here makes."""
    found = (str(file.relative_to(ROOT_FOLDER)) for file in ROOT_FOLDER.glob("tests/cases/*/*"))
    return sorted(set(found) - {path for path, _ in expected})


def main(arguments):
    if arguments not in ([], ["--check"]):
        sys.exit(__doc__)
    assert_table_rules()
    assert_marked_table()
    assert_compared_figures()
    assert_rounded_terms()
    files = list(expected_files())
    differing = stray_cases(files) if arguments else []
    for path, expected in files:
        file = ROOT_FOLDER / path
        if not arguments:
            file.parent.mkdir(parents=True, exist_ok=True)
            file.write_bytes(expected)
        elif not file.is_file() or file.read_bytes() != expected:
            differing.append(path)
    if arguments:
        import worked_facts

        differing += worked_facts.missing_rows()
    for path in differing:
        print(f"differs: {path}")
    sys.exit(1 if differing else 0)


if __name__ == "__main__":
    main(sys.argv[1:])
