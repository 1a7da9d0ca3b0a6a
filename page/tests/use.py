"""The page in use: its link, keys, width, print and times; what it says where it cannot run, and that nothing leaves it."""

import base64
import re

from books import changed
from expected_page import PLACES, rows, sixty, term_book, year_said
from on_page import PAGE, Differs, equal, open_page, run, run_async

MOST_BYTES, MOST_YEAR_MS, MOST_BOOK_MS = 100_000, 50, 200

ENTER, SPACE, TAB, LEFT, UP, DOWN = "\ue007", " ", "\ue004", "\ue012", "\ue013", "\ue015"


def check_link(browser):
    open_page(browser, "#year=-316&place=zhejiang")
    equal("the link's year and place", run(browser, "return rows()"), rows(-2000, 13_284))
    run(browser, "location.hash = '#year=1685&place=-12795'")
    browser.wait_for("return document.getElementById('caption').textContent.includes('1685')")
    equal("another link", run(browser, "return rows()"), rows(1, -12_795))
    equal("its fields", run(browser, "return ['degrees', 'minutes', 'seconds', 'side'].map((id) => element(id).value)"), ["3", "33", "15", "-1"])
    run(browser, "set('year', 2000)")
    browser.wait_for("return location.hash.includes('2000')")
    equal("the link written", run(browser, "return location.hash"), "#year=2000&place=-12795")
    run(browser, "element('place').selectedIndex = 3; set('slider', 0)")
    browser.wait_for("return location.hash.includes('=0')")
    equal("the link of a place", run(browser, "return location.hash"), "#year=0&place=fujian")
    captions = [f"The terms of the year {year_said(-1684)}, by the time of 福建", f"{year_said(-1684)} · {sixty(-1684)} · N = -1,684"]
    equal("a year before the year 1", run(browser, "return ['caption', 'year-words'].map((id) => element(id).textContent)"), captions)
    open_page(browser, "#year=9999&place=nowhere")
    equal("a link to nowhere", run(browser, "return [shown('ours'), element('said').textContent.length > 0]"), [False, True])


def check_keyboard(browser):
    """All by keys: each control is reached in order, shows that it is, and does its work."""
    open_page(browser)
    browser.protocol("Browser.grantPermissions", permissions=["clipboardReadWrite", "clipboardSanitizedWrite"])
    browser.protocol("Page.setInterceptFileChooserDialog", enabled=True)
    focused = "const focus = getComputedStyle(document.activeElement); return [document.activeElement.id, parseFloat(focus.outlineWidth) > 1];"
    for name in ("year", "slider", "place", "print", "choose", "copy"):
        browser.press(TAB)
        equal("the focus", browser.run(focused), [name, True])
        if name == "year":
            browser.press(UP, UP)
            equal("the year by keys", run(browser, "return rows()"), rows(2))
        if name == "slider":
            browser.press(LEFT)
            equal("the slider by keys", run(browser, "return rows()"), rows(1))
            equal("the slider in words", run(browser, "return element('slider').getAttribute('aria-valuetext')"), "1685")
        if name == "place":
            browser.press(DOWN)
            equal("the place by keys", run(browser, "return rows()"), rows(1, PLACES[1][1]))
        if name == "print":
            run(browser, "window.print = () => { document.body.dataset.printed = 'yes'; }")
            browser.press(ENTER)
            equal("printed by keys", run(browser, "return document.body.dataset.printed"), "yes")
        if name == "choose":
            run(browser, "element('file').addEventListener('click', () => { document.body.dataset.asked = 'yes'; })")
            browser.press(ENTER)
            equal("a file asked for", run(browser, "return document.body.dataset.asked"), "yes")
        if name == "copy":
            browser.press(SPACE)
            browser.wait_for("return document.getElementById('copied').textContent")
            copied = run_async(browser, "return navigator.clipboard.readText()")
            header = "Term\tDay's name\tDay\tTime\tJulian Day Number\tDate (Gregorian)"
            equal("the copied table", copied.split("\n"), [header, *rows(1, PLACES[1][1])])
            run(browser, "Object.defineProperty(navigator, 'clipboard', {value: undefined})")
            browser.press(SPACE)
            selected = run(browser, "return [element('copied').textContent, getSelection().toString().includes(element('rows').rows[23].cells[4].textContent)]")
            equal("selected, where it cannot be copied", selected, ["The table is selected: copy it with Ctrl+C.", True])


def check_text_alternatives(browser):
    open_page(browser)
    unnamed = run(
        browser,
        """
        const named = (control) => control.labels?.length || control.getAttribute('aria-label') || control.textContent.trim();
        return Array.from(document.querySelectorAll('input, select, button'), (control) => named(control) ? '' : control.id).filter(Boolean);
        """,
    )
    equal("controls without a name", unnamed, [])
    spoken = run(
        browser,
        "return [texts('svg[role=img] > title').length, texts('svg > desc').length, element('table').tHead.rows[0].cells.length,"
        "texts('#rows th[scope=row]').length, ['said', 'copied'].map((id) => element(id).getAttribute('role'))]",
    )
    equal("what is there to be read out", spoken, [1, 1, 6, 24, ["status", "status"]])


def check_widths(browser, folder):
    """Nothing reaches past the window's side, in the widest states too: long words, a longitude of one's own, two walls."""
    long_name = folder / ("a-name-without-a-blank-" * 6)
    long_name.write_bytes(changed(term_book.year_bytes(-2000), (5 + 5, 0)))
    for width in (400, 1200, 1600):
        browser.size(width, 900)
        for scheme in ("light", "dark"):
            browser.colours(scheme)
            open_page(browser, "#year=-316&place=-648000")
            past_the_side = "const root = document.documentElement; return [root.scrollWidth - root.clientWidth, shown('our-wall')]"
            equal(f"past the side at {width}, {scheme}", run(browser, past_the_side), [0, True])
            browser.drop(long_name, "#drop")
            browser.wait_for("return document.getElementById('differences').textContent")
            equal(f"past the side at {width} with a book", run(browser, past_the_side), [0, True])
        ink, paper = run(browser, "const body = getComputedStyle(document.body); return [body.color, body.backgroundColor]")
        brightness = [sum(map(int, re.findall(r"\d+", colour)[:3])) for colour in (ink, paper)]
        equal("ink brighter than paper in the dark", brightness[0] > brightness[1] + 300, True)
    browser.colours("light")
    browser.size(1600, 1000)


def check_print(browser, folder):
    """One sheet: the wall and the table, and of the page's controls nothing. Upright on Letter, lying on A4: the lower one of the two."""
    letter, a4 = {"paperWidth": 8.5, "paperHeight": 11}, {"paperWidth": 8.27, "paperHeight": 11.69, "landscape": True}
    for state in ("#year=1684", "#year=-316&place=-648000", "two walls"):
        open_page(browser, state if state.startswith("#") else "")
        if state == "two walls":
            file = folder / "to be printed"
            file.write_bytes(term_book.BASE)
            browser.drop(file, "#drop")
            browser.wait_for("return document.querySelector('#their-wall svg')")
        for sheet in (letter, a4):
            found = re.findall(rb"/Type\s*/Page\b(?!s)", browser.pdf(**sheet))
            equal(f"the number of sheets of {state} on {sheet}", len(found), 1)
        browser.protocol("Emulation.setEmulatedMedia", media="print")
        printed = run(browser, "return ['our-wall', 'table', 'asked', 'book', 'copy'].map(shown)")
        browser.protocol("Emulation.setEmulatedMedia", media="")
        equal("what is printed", printed, [True, True, False, False, False])


def check_told_where_it_cannot_run(browser):
    """Without scripts, WebAssembly or BigInt one sentence stands there, and nothing else."""
    for missing in ("scripts", "WebAssembly", "BigInt"):
        browser.open("about:blank")
        if missing == "scripts":
            browser.protocol("Emulation.setScriptExecutionDisabled", value=True)
        else:
            script = browser.protocol("Page.addScriptToEvaluateOnNewDocument", source=f"delete globalThis.{missing}")["identifier"]
        browser.open(PAGE.as_uri())
        text = browser.ask("GET", f"/element/{browser.element('body')}/text")
        if missing == "scripts":
            browser.protocol("Emulation.setScriptExecutionDisabled", value=False)
        else:
            browser.protocol("Page.removeScriptToEvaluateOnNewDocument", identifier=script)
        sentence = "This page cannot run here: it needs JavaScript and a browser of the last five years, with WebAssembly and BigInt."
        equal(f"without {missing}", text, sentence)


def check_nothing_leaves(browser, folder):
    """After a book was dropped nothing has been fetched, and nothing can be."""
    open_page(browser)
    file = folder / "stays here"
    file.write_bytes(term_book.BASE)
    browser.drop(file, "#drop")
    browser.wait_for("return document.getElementById('book-said').textContent")
    fetched = run_async(
        browser,
        """
        const refused = new Promise((resolve) => {
            document.addEventListener('securitypolicyviolation', (event) => resolve(event.violatedDirective));
            setTimeout(resolve, 2000, 'nothing');
        });
        fetch('http://127.0.0.1:9/').catch(() => {});
        return [performance.getEntriesByType('resource').length, await refused];
        """,
    )
    equal("what was fetched, and what forbids it", fetched, [0, "connect-src"])


def check_times(browser, whole):
    """The least of several, from the event to the page laid out anew: what else the machine does is not the page's. A book that takes
    too long is tried more often, for that reason."""
    open_page(browser)
    years = run(
        browser,
        """
        return Array.from({length: 61}, (_, i) => {
            const start = performance.now();
            set('year', 1684 + (i % 2 ? 30 * i : -30 * i));
            document.body.getBoundingClientRect();
            return performance.now() - start;
        });
        """,
    )
    books = run_async(
        browser,
        """
        const bytes = bytesOf(given[0]), found = [];
        for (let i = 0; i < 5 || (i < 25 && Math.min(...found) >= given[1]); i++) {
            const start = performance.now();
            drop(bytes, `all ${i}`);
            await answered(`all ${i}`);
            document.body.getBoundingClientRect();
            found.push(performance.now() - start);
        }
        return found;
        """,
        base64.b64encode(whole).decode(),
        MOST_BOOK_MS,
    )
    year_ms, book_ms = min(years), min(books)
    if year_ms >= MOST_YEAR_MS or book_ms >= MOST_BOOK_MS:
        raise Differs(f"too slow: a year takes {year_ms:.0f} ms, a book of 4,001 years {book_ms:.0f} ms")
    return f"a year in {year_ms:.1f} ms, the book of 4,001 years in {book_ms:.0f} ms"


def check_size():
    size = PAGE.stat().st_size
    if size >= MOST_BYTES:
        raise Differs(f"the page has {size} bytes")
    return f"{size} bytes"
