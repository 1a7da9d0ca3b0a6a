"""What the checks share: how the page is opened, asked and read, and how a difference is shown."""

from expected_page import ROOT_FOLDER

PAGE = ROOT_FOLDER / "target/wall.html"

# For scripts in the page: a control is set as by hand, what is shown is read, and a book is dropped.
SCRIPTS = """
    const element = (id) => document.getElementById(id);
    const set = (id, value) => { element(id).value = value; element(id).dispatchEvent(new Event('input')); };
    const rows = () => Array.from(element('rows').rows, (row) => Array.from(row.cells, (cell) => cell.textContent).join('\\t'));
    const texts = (selector) => Array.from(document.querySelectorAll(selector), (found) => found.textContent);
    const shown = (id) => element(id).getClientRects().length > 0;
    const drop = (bytes, name) => {
        const data = new DataTransfer();
        data.items.add(new File([bytes], name));
        element('drop').dispatchEvent(new DragEvent('drop', {dataTransfer: data, bubbles: true, cancelable: true}));
    };
    const answered = async (name) => {
        while (!element('book-said').textContent.startsWith(name)) await new Promise((resolve) => setTimeout(resolve));
        return element('book-said').textContent;
    };
    const bytesOf = (base64) => Uint8Array.from(atob(base64), (character) => character.charCodeAt(0));
"""


class Differs(Exception):
    """What the page has is not what is expected."""


def equal(what, found, expected):
    """Of lists, the first item that differs is shown, or what the longer one has more."""
    if found == expected:
        return
    if isinstance(found, list) and isinstance(expected, list):
        for i, (one, other) in enumerate(zip(found, expected)):
            equal(f"{what}, item {i}", one, other)
        both = min(len(found), len(expected))
        what, found, expected = f"{what}, after {both} items", found[both:], expected[both:]
    raise Differs(f"{what}:\n  the page   {found!r}\n  expected   {expected!r}")


def run(browser, script, *given):
    return browser.run(SCRIPTS + script, *given)


def run_async(browser, script, *given):
    """What an async script in the page returns."""
    whole = SCRIPTS + "const given = Array.from(arguments), done = given.pop(); (async () => {" + script + "})().then(done, (e) => done(String(e)));"
    return browser.ask("POST", "/execute/async", {"script": whole, "args": given})


def open_page(browser, link=""):
    """Anew, also where only the link is another."""
    browser.open("about:blank")
    browser.open(PAGE.as_uri() + link)
    if not browser.wait_for("return !document.getElementById('page').hidden"):
        raise Differs("the page did not start: " + run(browser, "return document.body.innerText"))
