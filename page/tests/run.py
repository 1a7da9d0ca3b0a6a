"""Tests target/wall.html in a real browser, against the independent program. Says in one line what was done, or shows the first
difference and exits 1.

    python3 page/tests/run.py
"""

import sys
import tempfile
from concurrent.futures import ProcessPoolExecutor
from pathlib import Path

from books import check_beside_ours, check_books, check_damaged_books, named_books
from browser import Browser
from expected_page import PLACES, PROGRAM, expected_year
from on_page import Differs
from use import check_keyboard, check_link, check_nothing_leaves, check_print, check_size, check_text_alternatives, check_times
from use import check_told_where_it_cannot_run, check_widths
from years import WALL_YEARS, YEARS, check_every_year, check_inside_the_ring, check_places, check_refused, check_walls


def checked(browser, pool, folder):
    size = check_size()
    found = pool.map(expected_year, YEARS, chunksize=20)  # beside the browser
    check_text_alternatives(browser)
    check_walls(browser)
    check_places(browser)
    check_inside_the_ring(browser)
    check_refused(browser)
    check_beside_ours(browser, folder)
    check_link(browser)
    check_keyboard(browser)
    check_widths(browser, folder)
    check_print(browser, folder)
    check_told_where_it_cannot_run(browser)
    check_nothing_leaves(browser, folder)
    years = dict(zip(YEARS, found))
    check_every_year(browser, years)

    def our_year(n):
        return years[n][2]

    whole = b"".join(map(our_year, YEARS))
    books = named_books(whole)
    check_books(browser, books, our_year, folder)
    damaged = check_damaged_books(browser, our_year)
    taken = check_times(browser, whole)
    picture = "ring" if PROGRAM.exists() else "the independent picture, as ring is not built"
    return (
        f"page: {size}; {len(YEARS):,} years' terms, {len(WALL_YEARS)} walls against {picture}, {len(PLACES)} places, "
        f"{len(books)} books twice and {damaged} damaged ones agree in a browser; {taken}"
    )


def main():
    pool = ProcessPoolExecutor(1)
    try:
        with Browser() as browser, tempfile.TemporaryDirectory(prefix="page-books-") as folder:
            print(checked(browser, pool, Path(folder)))
    except Differs as difference:
        sys.exit(f"page: {difference}")
    finally:
        pool.shutdown(cancel_futures=True)


if __name__ == "__main__":
    main()
