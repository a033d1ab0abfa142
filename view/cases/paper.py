"""A key and its question paper."""

import legs
from page import Page


def switching(check, browser):
    """The same places, other texts."""
    page = Page(browser, "key.legs", "--paper", "paper.legs")
    sheets = {name: "\n".join(legs.printed(name)) for name in ("key.legs", "paper.legs")}
    check.equal("names", [name.strip() for name in page.text("#sheets label")], list(sheets))
    line, column, *_ = legs.Example("key.legs").area(7)
    page.type("#places", f"{line} {column}\n")
    answer = page.answers()[0]
    page.type("#place", f"{line} {column}")
    page.press("Enter")
    said, lit = page.status(), page.areas("#lights .hit")
    check.holds("the key's text", answer[3] == "54 kt" and "54 kt" in said[1], f": {answer} {said}")
    for at, name in ((1, "paper.legs"), (0, "key.legs")):
        page.click("#sheets input", at=at)
        check.equal(f"{name}: sheet", page.text("#sheet"), [sheets[name]])
        check.equal(f"{name}: title", page.run("document.title"), f"{name}: leg sheet")
        check.equal(f"{name}: heading", page.text("h1"), [name])
        text = ["54 kt", "....."][at]
        check.equal(f"{name}: answers", page.answers(), [[*answer[:3], text]])
        check.equal(f"{name}: status", page.status(), [words.replace("54 kt", text) for words in said])
        check.equal(f"{name}: outline", page.outline()[7], [7, text])
        check.equal(f"{name}: lit", page.areas("#lights .hit"), lit)
        check.equal(f"{name}: cursor", page.cursor(), [line, column])
    page.run("document.getElementById('field').focus()")
    page.press("k")
    check.equal("k", page.text("#sheet"), [sheets["paper.legs"]])
    check.equal("which is read out", page.text("#said"), ["paper.legs"])
    check.equal("the choice", page.run("[...document.querySelectorAll('#sheets input')].map((it) => it.checked)"), [False, True])
    page.press("k")
    check.equal("k again", page.text("#sheet"), [sheets["key.legs"]])
    page.close(check)


def alone(check, browser):
    page = Page(browser, "key.legs")
    check.equal("a key alone has no choice", page.text("#sheets"), [])
    page.close(check)


CASES = [switching, alone]
