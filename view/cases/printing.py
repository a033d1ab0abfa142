"""On paper: one page of A4 with the sheet alone, its rulers by choice."""

import re

import legs
from page import Page

# The largest sheets, both ways.
WIDE = "x" * 396
HIGH = "'" + "\\n".join("x" * 158)
A4 = sorted([594.96, 841.92])


def pages(pdf):
    """The width and height in points of each page."""
    boxes = re.findall(rb"/MediaBox \[0 0 ([\d.]+) ([\d.]+)\]", pdf)
    count = len(re.findall(rb"/Type /Page\b", pdf))
    return [(float(width), float(height)) for width, height in boxes] if len(boxes) == count else count


def one_page(check, browser):
    sheets = [("flight.list", ""), ("key.legs", ""), ("list.list", ""), ("-", WIDE), ("-", HIGH), ("-", largest())]
    for name, given in sheets:
        title = name if name != "-" else given[:8]
        page = Page(browser, name, given=given)
        for rulers in (False, True):
            page.run(f"document.getElementById('paper-rulers').checked = {str(rulers).lower()}")
            check_page(check, page, f"{title}, rulers {rulers}", rulers)
        page.close(check)


def check_page(check, page, title, has_rulers):
    sizes = pages(page.printed())
    check.holds(f"{title}: one page", len(sizes) == 1 and all(abs(one - two) < 1 for one, two in zip(sorted(sizes[0]), A4)), f": {sizes}")
    page.media("print")
    rulers = page.text(".ruler")
    check.equal(f"{title}: rulers", len(rulers), 2 * has_rulers)
    seen = page.run("document.body.innerText")
    check.equal(f"{title}: the sheet alone", seen.strip("\n"), "\n".join([*rulers, *page.sheet]).strip("\n"))
    width, height = page.run("(() => { const it = document.querySelector('.frame').getBoundingClientRect(); return [it.width, it.height] })()")
    across, down = (it * 96 / 72 - 2 * 12 / 25.4 * 96 for it in sizes[0])
    check.holds(f"{title}: fits", width <= across and height <= down, f": {width} {height} on {across} {down}")
    check.holds(f"{title}: fills the paper, or has letters of 11 points", width > 0.9 * across or height > 0.9 * down or page.run("getComputedStyle(document.querySelector('.frame')).fontSize") == "14.6667px", f": {width} {height} on {across} {down}")
    page.media()


def largest():
    """A sheet of 400 by 160 with 512 nodes: sixteen rows of nine lines, the first of eight."""
    rows = ["  row\n" + "".join(f"    {cell(row, column)}\n" for column in range(31 if row else 30)) for row in range(16)]
    return "column\n" + "".join(rows)


def cell(row, column):
    """Of as many letters that a row of 31 is 400 wide; of as many lines that all rows are 160 high."""
    width = 10 if column < 27 else 9
    lines = 9 if row else 8
    return f"{row}.{column}".ljust(width, "x") + "\\n" * (lines - 1)


def folds_and_lights(check, browser):
    """What is lit or folded on the screen is not on paper."""
    page = Page(browser, "flight.list")
    page.run("document.getElementById('field').focus()")
    page.press("n", "Enter", "f")
    page.media("print")
    shown = page.run("[...document.querySelectorAll('#lights *, #covers *')].filter((it) => it.checkVisibility()).length")
    check.equal("lights and covers", shown, 0)
    check.equal("outlines", page.run("[...document.querySelectorAll('*')].filter((it) => it.checkVisibility() && getComputedStyle(it).outlineStyle !== 'none').length"), 0)
    page.media("print", "dark")
    check.equal("black on white", page.run("[getComputedStyle(document.body).color, getComputedStyle(document.body).backgroundColor]"), ["rgb(0, 0, 0)", "rgb(255, 255, 255)"])
    page.media()
    page.run("window.print = () => (window.isPrinted = true)")
    page.click("#print")
    check.equal("the button prints", page.run("window.isPrinted"), True)
    page.close(check)


CASES = [one_page, folds_and_lights]
