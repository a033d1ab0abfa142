"""The marker's field."""

import legs
from page import Page

OUTSIDE, MARGIN = "12: the line or column is outside the printed sheet", "13: the place is in the sheet's margin"

# What a marker may type: spaces, commas and tabs; blank lines and comments are left out.
SHEET = "5 40\n\n7,  10\n# the second page\n0,0\n99 1\n  3\t12 # twice\nfive\n5 40 1\n5;40\n5 40"


def wrong_places(check, browser):
    """Each wrong place by itself, and the others answered."""
    page, example = Page(browser, "key.legs"), legs.Example("key.legs")
    page.type("#places", SHEET)
    text = dict(map(tuple, page.outline()))
    good = lambda line, column: [f"{line} {column}", str(example.owner(line, column)), "{1} {2}".format(*example.answers[line, column]), text[example.owner(line, column)]]
    expected = [good(5, 40), good(7, 10), ["0 0", MARGIN], ["99 1", OUTSIDE], good(3, 12), ["five", "no line and column"], ["5 40 1", "no line and column"], ["5;40", "no line and column"], good(5, 40)]
    check.equal("answers", page.answers(), expected)
    check.equal("count", page.text("#marked"), ["9 places, 5 wrong"])
    nodes = {example.owner(5, 40), example.owner(7, 10), example.owner(3, 12)}
    check.equal("marked cells are lit", sorted(page.areas(".marked")), sorted(example.area(it) for it in nodes))
    page.click("#answers button", at=1)
    check.equal("a place leads to the sheet", page.cursor(), [7, 10])
    page.click("#answers button", at=2)
    check.equal("a wrong one says why", page.status(), ["0 0", MARGIN])
    page.click("#clear")
    check.equal("clear", (page.answers(), page.areas(".marked"), page.run("document.getElementById('places').value")), ([], [], ""))
    page.close(check)


def adding(check, browser):
    """Enter, a double click and the button put places behind the others."""
    page = Page(browser, "flight.list")
    page.type("#places", "1 1")
    page.point_at(12, 31, clicks=1)
    page.press("Enter", "ArrowRight", "Enter")
    page.point_at(20, 3, clicks=2)
    page.click("#add")
    check.equal("places", page.run("document.getElementById('places').value"), "1 1\n12 31\n12 32\n20 3\n20 3\n")
    check.equal("answers", [row[0] for row in page.answers()], ["1 1", "12 31", "12 32", "20 3", "20 3"])
    page.close(check)


def long_lists(check, browser):
    """However many, each is answered."""
    page = Page(browser, "flight.list")
    page.paste("#places", "1 1\n" * 600)
    check.equal("600 are answered", [row[:3] for row in page.answers()], [["1 1", "2", "1 1"]] * 600)
    page.close(check)


def copying(check, browser):
    """The clipboard has a line for each place, separated by tabs; where it may not be used, the text is shown."""
    page, example = Page(browser, "flight.list"), legs.Example("flight.list")
    page.type("#places", "6 45\n99 1\nfive")
    head = "line\tcolumn\tnode\tblock_line\tblock_column\ttext\trefused\n"
    first = "6\t45\t{}\t{}\t{}\ttake off\\nhold 10 s\t\n".format(*example.answers[6, 45])
    text = f"{head}{first}99\t1\t\t\t\t\t12\nfive\t\t\t\t\t\tno line and column\n"
    browser.call("Browser.grantPermissions", permissions=["clipboardReadWrite", "clipboardSanitizedWrite"])
    page.click("#copy")
    check.equal("clipboard", page.run("navigator.clipboard.readText()"), text)
    check.equal("said", page.text("#marked"), ["copied"])
    check.equal("nothing more is shown", page.text("#copied"), [])
    page.run("navigator.clipboard.writeText = () => Promise.reject(new Error())")
    page.click("#copy")
    check.equal("shown", page.run("document.getElementById('copied').value"), text)
    check.equal("and selected", page.active(), "copied")
    page.close(check)


CASES = [wrong_places, adding, long_lists, copying]
