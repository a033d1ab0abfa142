"""Folding branches, in the sheet and in the outline."""

import legs
from page import Page


def visible(example, folded):
    """The nodes whose lines are in sight."""
    hidden = {node for branch in folded for node in range(branch + 1, branch + example.below[branch] + 1)}
    return [node for node in range(len(example.below)) if node not in hidden]


def parents(page):
    return page.run("JSON.parse(document.getElementById('data').textContent).nodes.map((it) => it.parent)")


def folded(check, page, example, title, branches):
    """These branches are folded, in both, and no other."""
    outer = [it for it in branches if not any(other < it <= other + example.below[other] for other in branches)]
    check.equal(f"{title}: covered", sorted(page.areas(".fold")), sorted(example.area(it) for it in outer))
    check.equal(f"{title}: outline", [number for number, _ in page.outline()], visible(example, branches))
    shut = page.run("[...document.querySelectorAll('#outline [aria-expanded=false] > .number')].map((it) => +it.textContent)")
    check.equal(f"{title}: expanded", shut, sorted(branches))
    check.equal(f"{title}: the sheet's text stays", page.text("#sheet"), ["\n".join(page.sheet)])


def by_keyboard(check, browser):
    """f folds the branch around the cell, then the one around that; Esc unfolds all."""
    page, example = Page(browser, "flight.list"), legs.Example("flight.list")
    page.run("document.getElementById('field').focus()")
    page.point_at(12, 31, clicks=1)
    node, branches = example.owner(12, 31), []
    up = parents(page)
    while up[node] is not None:
        node = up[node]
        branches.append(node)
        page.press("f")
        folded(check, page, example, f"f to {node}", branches)
        check.equal(f"f to {node}: said", page.status(), [f"folded: node {node}: {dict(page.outline())[node]}"])
    page.press("f")
    folded(check, page, example, "f at the root", branches)
    page.press("Escape")
    folded(check, page, example, "Esc", [])
    page.press("f", "Tab")
    check.equal("Tab leads to the cover", page.run("document.activeElement.className"), "fold")
    page.press("Enter")
    folded(check, page, example, "Enter at the cover", [])
    check.equal("and back to the sheet", (page.active(), page.status()), ("field", ["unfolded: node 41: row, 2 below"]))
    page.close(check)


def by_mouse(check, browser):
    """The mark in front of a line folds; the cover unfolds; so does the mark."""
    page, example = Page(browser, "flight.list"), legs.Example("flight.list")
    page.click("#outline .twist", at=9)
    folded(check, page, example, "click at 9", [9])
    page.click("#outline .twist", at=15)
    folded(check, page, example, "a line that is hidden", [9])
    page.click("#outline .twist", at=24)
    folded(check, page, example, "click at 24", [9, 24])
    page.click("#outline .twist", at=8)
    folded(check, page, example, "click at 8", [8, 9, 24])
    page.click(".fold")
    folded(check, page, example, "click at the cover of 8", [9, 24])
    page.click("#outline .twist", at=9)
    folded(check, page, example, "click at 9 again", [24])
    page.click(".fold")
    folded(check, page, example, "click at the cover of 24", [])
    page.close(check)


def outline(check, browser):
    """The outline's lines; its keys; a branch that is chosen is lit as a whole."""
    page, example = Page(browser, "flight.list"), legs.Example("flight.list")
    texts = [label for _, label in page.outline()]
    check.equal("labels", [texts[at] for at in (0, 2, 21, 65)], ["column, 65 below", "Survey 17, reservoir north bank", "take off / hold 10 s", "Checked by: ______________________"])
    page.run("document.getElementById('clear').focus()")
    page.press("Tab")
    check.equal("Tab leads to the first line", page.active(), "0")
    steps = [("ArrowDown", 1), ("ArrowDown", 2), ("ArrowUp", 1), ("ArrowRight", 2), ("ArrowRight", 2), ("ArrowLeft", 1), ("End", 65), ("ArrowDown", 65), ("Home", 0), ("ArrowUp", 0), ("ArrowRight", 1)]
    for key, node in steps:
        page.press(key)
        check.equal(f"{key} in the outline", page.active(), str(node))
        check.equal(f"{node} is lit", page.areas("#lights .hit"), [example.area(node)])
    sizes = legs.output("sizes", "flight.list").splitlines()[2].split()
    size = "{3} wide, {4} high; needs {1} by {2}".format(*sizes)
    check.equal("said of a branch", page.status(), ["node 1: row, 5 below", size])
    page.press("ArrowLeft")
    folded(check, page, example, "left", [1])
    page.press("ArrowDown")
    check.equal("down jumps over the branch", page.active(), "7")
    page.press("ArrowUp", "ArrowRight")
    folded(check, page, example, "right", [])
    page.click("#outline .label", at=6)
    page.press("Enter")
    check.equal("Enter leads to the sheet", page.active(), "field")
    check.equal("and to the cell", page.cursor(), example.area(6)[:2])
    page.press("f")
    page.run("document.getElementById('clear').focus()")
    page.press("Tab")
    check.equal("Tab leads to a line in sight", page.active(), "1")
    page.close(check)


CASES = [by_keyboard, by_mouse, outline]
