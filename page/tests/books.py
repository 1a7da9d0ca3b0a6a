"""Term books: sound and refused, dropped and chosen, and laid beside our years."""

import base64
import random

from expected_page import MANSIONS, TERMS, WORDS, at_place, block_texts, book_said, clock, day_name, rows_of, sixty, term_book, times
from on_page import equal, open_page, run, run_async


def changed(book, *changes):
    book = bytearray(book)
    for at, byte in changes:
        book[at] = byte
    return bytes(book)


def named_books(whole):
    """Sound ones, each refusal in a head and in a term, at a book's ends and inside, and what is no book at all."""
    three, one = term_book.BASE, term_book.year_bytes(0)
    early = term_book.year_bytes(-2000) + term_book.year_bytes(-1684)
    noise = random.Random(1684).randbytes(1 << 20)
    return {
        "empty": b"",
        "one year": one,
        "three years": three,
        "before the year 1": early,
        "all years": whole,
        "a changed minute": changed(three, (149 + 5 + 6 * 3 + 5, 0)),
        "7 in the first head": one[:3],
        "7 in a later head": three[:150],
        "7 in a term": three[: 149 + 5 + 6 * 3 + 4],
        "8 in the first byte": changed(three, (0, 3)),
        "8 in a term": changed(three, (149 + 5 + 6 * 23, 0)),
        "8 after the last year": three + b"\0",
        "8 at the end of all years": whole[:-6] + b"\xff" + whole[-5:],
        "9 in a head": changed(three, (298 + 3, 60)),
        "9 in a term": changed(early, (149 + 5 + 4, 255)),
        "10 a year twice": three + one,
        "10 a head twice": one[:5] + one,
        "10 a term not due": changed(three, (149 + 5 + 6 * 7 + 1, 8)),
        "10 ends inside a year": three[: 149 + 5 + 6 * 12],
        "10 a term first": one[5:],
        "a megabyte of noise": noise,
        "a megabyte of noise after a year": one + noise,
    }


def check_books(browser, books, our_year, folder):
    """Each through a drag from outside and through the choice of a file."""
    open_page(browser)
    for way in ("dropped", "chosen"):
        for name, book in books.items():
            file = folder / f"{name}, {way}"
            file.write_bytes(book)
            if way == "dropped":
                browser.drop(file, "#drop")
            else:
                browser.type_into("#file", str(file))
            said = browser.wait_for(
                "const said = document.getElementById('book-said').textContent; return said.startsWith(arguments[0]) && said", file.name
            )
            equal(file.name, said, f"{file.name}: {book_said(book, our_year)}")
            equal(f"{file.name} in red", run(browser, "return element('book-said').className"), "refused" if "Refused" in said else "")


def check_damaged_books(browser, our_year):
    """A part of the books that the program book_cases is run on."""
    books = list(term_book.damaged_books())[::30]
    said = run_async(
        browser,
        """
        const found = [];
        for (const [i, book] of given[0].entries()) {
            drop(bytesOf(book), `damaged ${i}`);
            found.push(await answered(`damaged ${i}:`));
        }
        return found;
        """,
        [base64.b64encode(book).decode() for book in books],
    )
    equal("damaged books", said, [f"damaged {i}: {book_said(book, our_year)}" for i, book in enumerate(books)])
    return len(books)


def check_beside_ours(browser, folder):
    """A sound book's year beside ours; what differs is marked on both walls and said; absent years are refused 12."""
    open_page(browser, "#year=2000")
    head, term_3, term_9, term_12 = 149, 149 + 5 + 6 * 3, 149 + 5 + 6 * 9, 149 + 5 + 6 * 12
    base = term_book.BASE
    book = changed(base, (head + 4, 7), (term_3 + 5, base[term_3 + 5] + 1), (term_9 + 3, base[term_9 + 3] - 1), (298 + 3, 0))
    book = changed(book, (term_12 + 3, base[term_12 + 3] + 2), (term_12 + 5, base[term_12 + 5] + 9))
    file = folder / "another's <book> & more"
    file.write_bytes(book)
    browser.drop(file, "#walls")  # it may fall anywhere

    def shown_year():
        return browser.wait_for("return document.getElementById('book-year').textContent"), run(
            browser,
            "return [element('year').value, texts('#our-wall .differs'), texts('#their-wall .differs'), texts('#differences li'), shown('theirs')]",
        )

    # The year that was shown is not in the book, so its first one is opened; it does not differ.
    said, found = shown_year()
    equal("what is said of the book", run(browser, "return element('book-said').textContent"), f"{file.name}: {book_said(book, term_book.year_bytes)}")
    equal("the book's first year", [said, found], ["The year 1008 in the book: as ours.", ["1008", [], [], [], True]])

    browser.click("#next-differing")
    said, found = shown_year()
    ours, mansion_ours = times(0), MANSIONS[6]
    theirs = [(day, minute) for day, minute, _ in term_book.read_year(book[149:])[1]]
    equal("differing terms", [k for k in range(24) if ours[k] != theirs[k]], [3, 9, 12])

    def day_texts(days, k):
        return [sixty(7 + 1 + days[k][0]), str(days[k][0])]

    def marks(days, mansion):
        return [clock(days[3][1]), *day_texts(days, 9), *day_texts(days, 12), clock(days[12][1]), mansion]

    lines = [
        f"duty mansion {MANSIONS[7]}, ours {mansion_ours}",
        f"{TERMS[3]}: time {clock(theirs[3][1])}, ours {clock(ours[3][1])}",
        f"{TERMS[9]}: day {theirs[9][0]}, ours {ours[9][0]}",
        f"{TERMS[12]}: day {theirs[12][0]}, ours {ours[12][0]}; time {clock(theirs[12][1])}, ours {clock(ours[12][1])}",
    ]
    equal("the differing year", said, "The year 1684 in the book: what differs is marked.")
    equal("what differs", found, ["1684", marks(ours, mansion_ours), marks(theirs, MANSIONS[7]), lines, True])
    for place, longitude in [(2, 13_284), (0, 0)]:
        wall = run(browser, "element('place').selectedIndex = arguments[0]; set('place', element('place').value); return texts('#their-wall g text')", place)
        equal(f"the book's wall at place {place}", wall, block_texts(rows_of(0, at_place(theirs, longitude))))

    # In the last year the day name differs: each term's day has another name.
    browser.click("#next-differing")
    said, found = shown_year()
    equal("the last year", [found[0], len(found[1]), len(found[2])], ["2005", 26, 26])
    equal("the day name", found[3], [f"day name {sixty(0)}, ours {sixty(day_name(321))}"])

    browser.click("#next-differing")
    equal("after the last comes the first", shown_year()[1][0], "1684")
    run(browser, "set('year', 1685)")
    said, found = shown_year()
    equal("an absent year", said, f"Refused 12: {WORDS[12]}. The book does not have the year 1685.")
    equal("its wall", found, ["1685", [], [], [], False])
    browser.click("#first")
    equal("the first year again", shown_year()[1][0], "1008")
    browser.click("#put-away")
    equal("put away", run(browser, "return [shown('theirs'), shown('book-buttons'), element('book').textContent.includes('Sound')]"), [False] * 3)
