"""Looking at places: by keyboard and by mouse, against `legs`."""

import legs
from page import Page

FILES = ("flight.list", "key.legs")


def first_line(example, place):
    """What the page says first of a place."""
    answer = example.answers[place]
    line, column = place
    return f"line {line}, column {column}: line {answer[1]}, column {answer[2]} of its block"


def every_place(check, browser):
    """The marker's answers for every place of two examples, and those just outside, against `legs mark`."""
    for file in FILES:
        page, example = Page(browser, file), legs.Example(file)
        given = []
        for at in range(0, len(example.places), legs.LOT):
            page.paste("#places", "\n".join(f"{line} {column}" for line, column in example.places[at : at + legs.LOT]))
            given += page.answers()
        found = [tuple(map(int, (row[1], *row[2].split()))) if len(row) == 4 else int(row[1].split(":")[0]) for row in given]
        check.equal(f"{file}: places", [row[0] for row in given], [f"{line} {column}" for line, column in example.places])
        check.equal(f"{file}: answers", found, [example.answers[place] for place in example.places])
        check.holds(f"{file}: some are refused, and most are not", {12} <= set(example.answers.values()) and len(set(example.answers.values())) > 500)
        page.close(check)


def every_leaf(check, browser):
    """From cell to cell by keyboard: what is said and lit of each, against `legs leaf`, and the leaves above crossings."""
    for file in FILES:
        page, example = Page(browser, file), legs.Example(file)
        page.type("#place", "{} {}".format(*example.area(example.leaves()[0])[:2]))
        page.press("Enter")
        for at, node in enumerate(example.leaves()):
            page.press(*["n"] * (at > 0))
            area = example.area(node)
            said, (size, flags, cut) = page.status(), example.leaf(node)
            check.equal(f"{file} {node}: place", said[0], first_line(example, tuple(area[:2])))
            check.holds(f"{file} {node}: node", said[1].startswith(f"node {node}: "), f": {said}")
            check.holds(f"{file} {node}: size, flags and cut", said[2].startswith(f"{size}; ") and said[2].endswith(f"; {flags}; {cut}".replace("  ", " ")), f": {said}")
            check.equal(f"{file} {node}: lit", page.areas("#lights .hit"), [area])
            check.equal(f"{file} {node}: above", page.areas("#lights .above"), [example.area(it) for it in example.above(node)])
            check.equal(f"{file} {node}: said of those above", [int(line.split("node ")[1].split(":")[0]) for line in said[3:]], example.above(node))
            check.equal(f"{file} {node}: outline", page.run("document.querySelector('#outline [aria-selected=true] .number').textContent"), str(node))
        page.press("n")
        check.equal(f"{file}: the last stays", page.cursor(), example.area(example.leaves()[-1])[:2])
        page.press("p")
        check.equal(f"{file}: back", page.cursor(), example.area(example.leaves()[-2])[:2])
        page.close(check)


def keys(check, browser):
    page, example = Page(browser, "key.legs"), legs.Example("key.legs")
    last = [example.lines - 1, example.columns - 1]
    page.run("document.getElementById('print').focus()")
    page.press("Tab")
    check.equal("Tab leads to the sheet", page.active(), "field")
    check.equal("and to its first place inside the margin", page.cursor(), [0, 4])
    steps = [("ArrowDown", [1, 4]), ("ArrowRight", [1, 5]), ("ArrowRight", [1, 6]), ("ArrowLeft", [1, 5]), ("ArrowUp", [0, 5]), ("ArrowUp", [0, 5]), ("End", [0, last[1]])]
    steps += [("ArrowRight", [0, last[1]]), ("PageDown", [10, last[1]]), ("PageDown", last), ("PageUp", [last[0] - 10, last[1]]), ("Home", [last[0] - 10, 0])]
    for key, place in steps:
        page.press(key)
        check.equal(f"{key}", page.cursor(), place)
    check.equal("the margin is said", page.status()[1:], ["13: the place is in the sheet's margin"])
    check.equal("and nothing lit", page.areas("#lights > *"), [])
    page.press("End", ctrl=True)
    check.equal("Ctrl+End", page.cursor(), last)
    page.press("Home", ctrl=True)
    check.equal("Ctrl+Home", page.cursor(), [0, 0])
    page.press("n")
    check.equal("n from the margin", page.cursor(), [0, 4])
    page.press("Home", "f", "u", "Enter")
    check.equal("nothing to fold in the margin", page.areas(".fold"), [])
    check.equal("a place in the margin is marked as wrong", page.answers(), [["0 0", "13: the place is in the sheet's margin"]])
    page.press("r")
    check.equal("r hides the rulers", page.text(".ruler"), [])
    page.press("r")
    check.equal("and shows them", len(page.text(".ruler")), 2)
    page.press("g")
    check.equal("g leads to the field for a place", page.active(), "place")
    page.run("document.getElementById('field').focus()")
    page.press("m")
    check.equal("m leads to the marker's field", page.active(), "places")
    page.press("Tab", shift=True)
    check.equal("Shift+Tab leads back to the sheet", page.active(), "field")
    page.press("Tab", shift=True)
    check.equal("and out of it", page.active(), "print")
    page.close(check)


def crossing(check, browser):
    """u leads to the leaf above a crossing."""
    page, example = Page(browser, "flight.list"), legs.Example("flight.list")
    for node in [it for it in example.leaves() if example.above(it)]:
        page.run("document.getElementById('field').focus()")
        page.type("#place", "{} {}".format(*example.area(node)[:2]))
        page.press("Enter")
        page.press("u")
        check.equal(f"u from {node}", page.cursor(), example.area(example.above(node)[0])[:2])
    page.close(check)


def mouse(check, browser):
    page, example = Page(browser, "flight.list"), legs.Example("flight.list")
    hint = page.status()
    places = [(0, 0), (12, 31), (4, 54), (22, 73), (8, 40), (0, 73), (22, 0)]
    for place in places:
        page.point_at(*place)
        check.equal(f"hover over {place}", page.status()[0], first_line(example, place))
        check.equal(f"lit at {place}", page.areas("#lights .hit"), [example.area(example.owner(*place))])
    check.equal("no cursor", page.cursor(), None)
    page.point(5, 5)
    check.equal("nothing is said any more", page.status(), hint)
    check.equal("nothing is lit any more", page.areas("#lights > *"), [])
    for place in places:
        page.point_at(*place, clicks=1)
        check.equal(f"click at {place}", page.cursor(), list(place))
    page.point_at(12, 31)
    check.equal("hover leaves the cursor", page.cursor(), list(places[-1]))
    page.point(5, 5)
    check.equal("and goes back to it", page.status()[0], first_line(example, places[-1]))
    check.equal("no place was marked", page.answers(), [])
    page.point_at(12, 31, clicks=2)
    check.equal("a double click marks", [row[:2] for row in page.answers()], [["12 31", str(example.owner(12, 31))]])
    page.close(check)


def go_to(check, browser):
    page, example = Page(browser, "binder.legs"), legs.Example("binder.legs")
    for typed, place in [("12 31", (12, 31)), ("1,8", (1, 8)), (" 3 , 20 ", (3, 20)), ("5\t9", (5, 9))]:
        page.type("#place", typed)
        page.press("Enter")
        check.equal(f"go to {typed!r}", page.cursor(), list(place))
        check.equal(f"said of {typed!r}", page.status()[0], first_line(example, place))
        check.equal("the sheet has the focus", page.active(), "field")
    outside, margin = "12: the line or column is outside the printed sheet", "13: the place is in the sheet's margin"
    for typed, said in [("24 8", outside), ("1 82", outside), ("99999999999999999999 0", outside), ("0 0", margin), ("1", "no line and column"), ("a b", "no line and column"), ("-1 2", "no line and column")]:
        page.type("#place", typed)
        page.click("#go button")
        check.equal(f"go to {typed!r}", page.status(), [typed, said])
        check.equal("the cursor stays", page.cursor(), [5, 9])
    page.close(check)


CASES = [every_place, every_leaf, keys, crossing, mouse, go_to]
