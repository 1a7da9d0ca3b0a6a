"""The years: every one, the walls beside the picture, places, and what is refused."""

import re

from expected_page import PLACES, WORDS, block_texts, ring, rows
from on_page import equal, open_page, run

YEARS = range(-2000, 2001)
WALL_YEARS = [-2000, -1684, -1683, 0, 321, 2000]


def check_every_year(browser, expected):
    """By number and by the slider in turn: the table, and the wall's texts."""
    open_page(browser)
    for first in range(YEARS[0], YEARS[-1] + 1, 250):
        part = [n for n in range(first, first + 250) if n in YEARS]
        found = run(
            browser,
            """
            const [control, first, last] = arguments, found = [];
            for (let year = first; year <= last; year++) {
                set(control, year);
                found.push([rows(), texts('#our-wall text')]);
            }
            return found;
            """,
            "slider" if first % 500 else "year",
            1684 + part[0],
            1684 + part[-1],
        )
        for n, (table, wall) in zip(part, found):
            equal(f"the table of N = {n}", table, expected[n][0])
            equal(f"the wall of N = {n}", wall, expected[n][1])


def check_walls(browser):
    """The texts of the picture, all of them and in its order, at its places; lines within a tenth, which is the picture's rounding."""
    open_page(browser)
    for n in WALL_YEARS:
        texts, places, drawn = run(
            browser,
            """
            set('year', arguments[0]);
            const wall = Array.from(document.querySelectorAll('#our-wall svg *'));
            const drawn = wall.map((part) => part.getAttribute('d') || part.getAttribute('transform')).filter(Boolean);
            const places = wall.filter((part) => part.tagName === 'text').map((part) => [part.getAttribute('x'), part.getAttribute('y')]);
            return [texts('#our-wall title, #our-wall desc, #our-wall text'), places, drawn];
            """,
            1684 + n,
        )
        ring_texts, ring_places, ring_drawn = ring(n)
        equal(f"the wall's texts of N = {n}", texts, ring_texts)
        equal(f"the texts' places of N = {n}", places, ring_places)
        ours, theirs = ([float(number) for number in re.findall(r"-?\d+\.?\d*", " ".join(lines))] for lines in (drawn, ring_drawn))
        equal(f"the number of coordinates of N = {n}", len(ours), len(theirs))
        equal(f"coordinates of N = {n} more than a tenth off", [pair for pair in zip(ours, theirs) if abs(pair[0] - pair[1]) > 0.1001], [])


def check_places(browser):
    """Each place of source 002, at its longitude in words; and longitudes of one's own."""
    open_page(browser)
    offered = run(browser, "return texts('#place option')")
    equal("the number of places", len(offered), len(PLACES) + 1)
    for i, (_, longitude) in enumerate(PLACES):
        size = abs(longitude)
        words = f"{size // 3600}°{size // 60 % 60:02}′{size % 60:02}″ {'west' if longitude < 0 else 'east'}" if size else "the capital"
        equal(f"place {i}", offered[i].split(", ")[1], words)
        for n in (-1337, 0):
            table, wall = run(
                browser,
                "set('year', arguments[0]); element('place').selectedIndex = arguments[1]; set('place', element('place').value);"
                "return [rows(), texts('#our-wall g text')];",
                1684 + n,
                i,
            )
            equal(f"the table at place {i}, N = {n}", table, rows(n, longitude))
            equal(f"the wall at place {i}, N = {n}", wall, block_texts(rows(n, longitude)))
    for side, degrees, minutes, seconds in [(1, 0, 0, 7), (1, 0, 0, 8), (-1, 0, 0, 8), (1, 180, 0, 0), (-1, 180, 0, 0), (-1, 3, 33, 15)]:
        table = run(
            browser,
            "element('place').selectedIndex = element('place').length - 1;"
            "['degrees', 'minutes', 'seconds', 'side'].forEach((id, i) => set(id, arguments[i])); return rows();",
            *(degrees, minutes, seconds, side),
        )
        equal(f"the table {side} {degrees} {minutes} {seconds}", table, rows(0, side * (3600 * degrees + 60 * minutes + seconds)))


def check_inside_the_ring(browser):
    """No words inside the ring reach the ticks, not the longest: a year before the year 1 at a longitude of one's own."""
    open_page(browser, "#year=-316&place=-647999")
    furthest = run(
        browser,
        """
        return Array.from(document.querySelectorAll('#our-wall svg > text'), (text) => {
            const {x, y, width, height} = text.getBBox();
            const corners = [[x, y], [x + width, y], [x, y + height], [x + width, y + height]];
            return [text.textContent, Math.max(...corners.map(([across, down]) => Math.hypot(across - 500, down - 500)))];
        });
        """,
    )
    equal("words in the ring", len(furthest), 7)
    equal("words that reach the ticks", [text for text, distance in furthest if distance > 298], [])


def check_refused(browser):
    """No year and no place that is refused, or is no number, leaves a wall or a table of another."""
    open_page(browser)
    own = "element('place').selectedIndex = element('place').length - 1; set('year', 1684); set('degrees', 180);"
    not_a_year, not_a_place = "A year is a whole number, -316 to 3684.", "A longitude is whole degrees, minutes and seconds."
    cases = [
        ("set('year', 3685);", f"Refused 1: {WORDS[1]}. The year 3685 has N = 2,001."),
        ("set('year', -317);", f"Refused 1: {WORDS[1]}. The year 318 before the common era has N = -2,001."),
        ("set('year', '36893488147419103232');", f"Refused 1: {WORDS[1]}. "),  # 2^65, which in 64 bits is 0
        ("set('year', '');", not_a_year),
        ("set('year', 1684.5);", not_a_year),
        (own + "set('seconds', 1);", f"Refused 4: {WORDS[4]}. This one has 648,001″."),
        (own + "set('seconds', 1); set('side', -1);", f"Refused 4: {WORDS[4]}. This one has -648,001″."),
        (own + "set('seconds', '');", not_a_place),
        ("set('year', 2001);" + own + "set('seconds', 1); set('year', 4000);", f"Refused 1: {WORDS[1]}. The year 4000 has N = 2,316."),
    ]
    for script, words in cases:
        said, wall, table = run(browser, script + "return [element('said').textContent, shown('ours'), shown('table')];")
        equal(f"after {script}", said[: len(words)], words)
        equal(f"a wall or a table after {script}", [wall, table], [False, False])
    said = run(browser, "element('place').selectedIndex = 0; set('year', 1684); return [element('said').textContent, shown('ours'), rows()];")
    equal("a good year again", said, ["", True, rows(0)])
