"""Texts that look like HTML; what the policy refuses; pages without script."""

import glob
import os

import legs
from page import Page

TEXTS = ["</script><script>document.title='broken'</script>", "<!--", "&amp; &lt;", "</pre><b>x</b>", "<img src=x onerror=\"document.title='broken'\">", "-->\\n</title>", "{data}"]

# What someone might put into a page, each refused by the policy.
ATTEMPTS = """new Promise((done) => {
  const seen = new Set();
  document.addEventListener("securitypolicyviolation", (event) => seen.add(event.effectiveDirective));
  const add = (name, set) => document.body.append(Object.assign(document.createElement(name), set));
  add("script", { textContent: "window.isBroken = true" });
  add("style", { textContent: "body { display: none }" });
  add("img", { src: "http://127.0.0.1:9/a.png" });
  add("iframe", { src: "http://127.0.0.1:9/" });
  fetch("http://127.0.0.1:9/").catch(() => {});
  setTimeout(() => done([[...seen].sort(), window.isBroken ?? false, getComputedStyle(document.body).display === "none"]), 500);
})"""


def hostile_texts(check, browser):
    """They are shown as they are, and make no element."""
    given = "column\n" + "".join(f"  '{text}\n" for text in TEXTS)
    page = Page(browser, "-", given=given)
    texts = [text.replace("\\n", " / ") for text in TEXTS]
    check.equal("sheet", page.text("#sheet"), ["\n".join(page.sheet)])
    check.equal("outline", [label for _, label in page.outline()][1:], texts)
    page.type("#places", "".join(f"{line} 3\n" for line in range(len(page.sheet))))
    check.equal("answers", sorted({row[3] for row in page.answers()}), sorted(texts))
    page.point_at(1, 5, clicks=1)
    check.equal("status", page.status()[1], f"node 1: {texts[0]}")
    page.press("f")
    check.equal("elements", page.run("['script', 'style', 'img', 'title', 'pre'].map((it) => document.getElementsByTagName(it).length)"), [2, 1, 0, 1, 3])
    check.equal("title", page.run("document.title"), "standard input: leg sheet")
    page.close(check)


def policy(check, browser):
    page = Page(browser, "flight.list")
    seen, is_run, is_hidden = page.run(ATTEMPTS)
    check.equal("refused", seen, ["connect-src", "frame-src", "img-src", "script-src-elem", "style-src-elem"])
    check.equal("nothing was run or hidden", (is_run, is_hidden), (False, False))
    check.holds("and the browser tells", len(page.faults()) >= len(seen))
    page.close()


def every_example(check, browser):
    """Each is shown as it is printed, with script and without; without it there is nothing that would not work."""
    names = sorted(map(os.path.basename, glob.glob(os.path.join(legs.EXAMPLES, "*.l[ei][gs][st]*"))))
    names = [name for name in names if name not in ("mistake.list", "refused.list", "refused.legs")]
    check.holds("examples", len(names) > 15, f": {names}")
    for name in names:
        page = Page(browser, name)
        check.equal(f"{name}: sheet", page.text("#sheet"), ["\n".join(page.sheet)])
        page.call("Emulation.setScriptExecutionDisabled", value=True)
        page.open(page.path)
        check.equal(f"{name}: without script", page.text("#sheet"), ["\n".join(page.sheet)])
        check.equal(f"{name}: what needs script", page.text(".scripted"), [])
        page.close(check)


def odd_sheets(check, browser):
    """A sheet of one empty cell, of an empty row, of no columns at all."""
    bare = b"\x10\x00\x1c" + bytes(15) + bytes(4) + b"    " + b"\0\0\0\1\2"
    for title, tree in [("an empty cell", b"\1\0\0"), ("feeds", b"\1\0\2\n\n"), ("empty cells", b"\2\0\6\1\0\0\1\0\0")]:
        page = Page(browser, "-", given=(bare + tree).decode("latin-1"))
        check.equal(f"{title}: sheet", page.text("#sheet"), ["\n".join(page.sheet)])
        page.run("document.getElementById('field').focus()")
        page.press("ArrowDown", "n", "u", "f", "Enter", "End")
        page.click("#clear")
        page.press("Tab", "End", "Enter")
        check.holds(f"{title}: said", "; has no place in the sheet; flags: " in page.status()[1], f": {page.status()}")
        page.close(check)
    for given, labels in [("'", ["(empty cell)"]), ("row", ["(empty row)"]), ("column\n  row\n  column\n", ["column, 2 below", "(empty row)", "(empty column)"])]:
        page = Page(browser, "-", given=given)
        check.equal(f"{given!r}: outline", [label for _, label in page.outline()], labels)
        page.run("document.getElementById('field').focus()")
        page.press("n", "p", "u", "f", "Enter", "End")
        page.close(check)


CASES = [hostile_texts, policy, every_example, odd_sheets]
