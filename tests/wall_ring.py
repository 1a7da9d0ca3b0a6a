"""The picture that the program ring draws: a year's 24 terms and its sun as a ring, in SVG. Written from document 01
and the look of the wall; shares nothing with the Rattle sources. expected.py writes its files.
"""

from expected import CIRCLE, DEGREE, HALF, QUARTER, RADIUS
from expected import clock_of_solstice, day_name, half_up, mansion, run_files, sine, term_values, true_place

STEMS = "甲乙丙丁戊己庚辛壬癸"
BRANCHES = "子丑寅卯辰巳午未申酉戌亥"
MANSIONS = "角亢氐房心尾箕斗牛女虛危室壁奎婁胃昴畢參觜井鬼柳星張翼軫"  # 參 before 觜, as in the bureau's table of 1684
TERMS = "冬至 小寒 大寒 立春 雨水 驚蟄 春分 清明 穀雨 立夏 小滿 芒種 夏至 小暑 大暑 立秋 處暑 白露 秋分 寒露 霜降 立冬 小雪 大雪".split()

PAPER, INK, PALE, RED = "#faf6ee", "#26211c", "#6d6358", "#9c2a1f"
FONTS = "Noto Serif CJK TC,Noto Serif TC,Source Han Serif TC,Songti TC,PMingLiU,Noto Serif CJK SC,Noto Serif SC,SimSun,serif"

EXPLAINED = (
    "Each term stands at its mark, 15 degrees apart, the winter solstice at the top: its name; the name of its day and the day's number, "
    "where day 0 is the day after the mean solstice's day; its time. The inner ticks are the bureau's true sun at 365 midnights, from day -1 on."
)


def sixty(number):
    return STEMS[number % 10] + BRANCHES[number % 12]


def sized(arc, tenths):
    """That many tenths times the sine of an arc up to the quarter, half or more up."""
    return half_up(tenths * sine(arc), RADIUS)


def signed_sized(arc, tenths):
    """The same all round the circle; the size is rounded, so that left and right, above and below are alike."""
    arc %= CIRCLE
    if arc >= HALF:
        return -signed_sized(arc - HALF, tenths)
    return sized(min(arc, HALF - arc), tenths)


def decimal(tenths):
    whole, tenth = divmod(tenths, 10)
    return f"{whole}.{tenth}" if tenth else f"{whole}"


def point(arc, across, down):
    """The point at an arc clockwise from the top, so far from the middle to the side and downwards."""
    return f"{decimal(5000 + signed_sized(arc, 10 * across))} {decimal(5000 - signed_sized(arc + QUARTER, 10 * down))}"


def radial(arc, inner, outer):
    return f"M{point(arc, inner, inner)}L{point(arc, outer, outer)}"


def year_words(n):
    """The year's number, and what is said after it."""
    year = 1684 + n
    return (f"{year}", "") if year > 0 else (f"{1 - year}", " before the common era")


def clock(minute):
    return f"{minute // 60:02}:{minute % 60:02}"


def term_lines(n, k):
    day, minute, _ = term_values(n, k)
    arc, quarter = 15 * k * DEGREE, k % 6 == 0
    yield f"<path d='{radial(arc, 300 if quarter else 316, 346)}' stroke='{RED}' stroke-width='{3 if quarter else 2}'/>"
    yield f"<g transform='translate({point(arc, 420, 408)})'>"
    red = f" fill='{RED}'" if quarter else ""
    yield f"<text y='-11' font-size='27' font-weight='600'{red}>{TERMS[k]}</text>"
    yield f"<text y='13'>{sixty(day_name(n) + 1 + day)} <tspan font-size='16' fill='{PALE}'>{day}</tspan></text>"
    yield f"<text y='36'>{clock(minute)}</text></g>"


def middle_lines(n):
    number, words = year_words(n)
    hour, minute, _ = clock_of_solstice(n)
    yield f"<text x='500' y='452' font-size='92' font-weight='600'>{sixty(n)}</text>"
    smaller = f"<tspan font-size='26'>{words}</tspan>" if words else ""
    yield f"<text x='500' y='520' font-size='44'>{number}{smaller}</text>"
    yield f"<g font-size='22'><text x='500' y='572'>mean solstice {sixty(day_name(n))} {clock(60 * hour + minute)}</text>"
    yield f"<text x='500' y='604'>day 0 {sixty(day_name(n) + 1)}, duty mansion {MANSIONS[mansion(n)]}</text></g>"
    yield f"<g lang='en' font-size='16' fill='{PALE}'><text x='500' y='660'>each term: name · its day · day number · time</text>"
    yield "<text x='500' y='684'>inner ticks: the sun at each midnight</text></g>"


def ring(n):
    number, words = year_words(n)
    yield f"<svg xmlns='http://www.w3.org/2000/svg' viewBox='0 0 1000 1000' lang='zh-Hant' font-family='{FONTS}' font-size='19' text-anchor='middle' fill='{INK}'>"
    yield f"<title lang='en'>The 24 solar terms of the year {number}{words}</title>"
    yield f"<desc lang='en'>{EXPLAINED}</desc>"
    yield f"<rect width='1000' height='1000' fill='{PAPER}'/>"
    yield f"<g fill='none' stroke='{INK}'><circle cx='500' cy='500' r='336' stroke-width='2.5'/><circle cx='500' cy='500' r='300'/></g>"
    midnights = "".join(radial(true_place(n, day), 301, 311) for day in range(-1, 364))
    yield f"<path d='{midnights}' stroke='{PALE}'/>"
    for k in range(24):
        yield from term_lines(n, k)
    yield from middle_lines(n)
    yield "</svg>"


def picture(n):
    return "".join(line + "\n" for line in ring(n)).encode()


def expected_files():
    """The program's stored input and output, and the README's picture, which is that output."""
    yield from run_files("ring", b"0\n", lambda given: picture(0))
    yield "docs/ring.svg", picture(0)
