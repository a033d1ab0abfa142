"""How a page looks, opens and is read out."""

from cases.printing import largest
import legs
from page import Page

# The contrast of letters with what is behind them, as WCAG 2 defines it.
CONTRASTS = """(() => {
  const rgb = (colour) => colour.match(/[\\d.]+/g).map(Number);
  const part = (it) => (it /= 255) <= 0.04045 ? it / 12.92 : ((it + 0.055) / 1.055) ** 2.4;
  const light = ([red, green, blue]) => 0.2126 * part(red) + 0.7152 * part(green) + 0.0722 * part(blue);
  const behind = (it) => { for (; it; it = it.parentElement) { const colour = rgb(getComputedStyle(it).backgroundColor); if (colour[3] !== 0) return colour; } return [255, 255, 255]; };
  const contrast = (one, two) => { const [a, b] = [light(one), light(two)].sort((x, y) => y - x); return (a + 0.05) / (b + 0.05); };
  const letters = (it) => rgb(getComputedStyle(it).color);
  const list = [...document.querySelectorAll("h1, h2, p, label, button, .ruler, #sheet, #outline li, #outline li span, td, th, summary, #status div")];
  const own = list.filter((it) => it.checkVisibility() && it.textContent).map((it) => [it.id || it.className || it.tagName, contrast(letters(it), behind(it))]);
  const sheet = letters(document.getElementById("sheet"));
  const lit = [...document.querySelectorAll("#lights > *")].map((it) => [it.className, contrast(sheet, behind(it))]);
  return [...own, ...lit];
})()"""


def colours(check, browser):
    """Light and dark, every text is readable, on what is lit, too."""
    page = Page(browser, "flight.list")
    page.type("#places", "1 1\n99 1\n")
    page.point_at(12, 31, clicks=1)
    papers = set()
    for scheme in ("light", "dark"):
        page.media(scheme=scheme)
        contrasts = page.run(CONTRASTS)
        check.equal(f"{scheme}: contrast under 4.5", [it for it in contrasts if it[1] < 4.5], [])
        check.holds(f"{scheme}: all were looked at", {"hit", "above", "marked", "over", "sheet"} <= {name for name, _ in contrasts}, f": {contrasts}")
        papers.add(page.run("getComputedStyle(document.body).backgroundColor"))
    check.equal("two schemes", len(papers), 2)
    page.close(check)


def narrow(check, browser):
    """At 320 pixels nothing but the sheet's own field is wider than the window, and letters stay as large."""
    page = Page(browser, "key.legs", "--paper", "paper.legs", width=320, height=640)
    page.type("#places", "5 40\n99 1\n")
    page.point_at(1, 6, clicks=1)
    check.equal("width", page.run("document.scrollingElement.scrollWidth"), 320)
    wide = "[...document.querySelectorAll('body *')].filter((it) => it.checkVisibility() && !it.closest('main') && it.getBoundingClientRect().right > 320).map((it) => it.id || it.tagName)"
    check.equal("elements that are cut", page.run(wide), [])
    check.holds("letters", page.run("parseFloat(getComputedStyle(document.getElementById('sheet')).fontSize)") >= 14)
    check.holds("what is said is in sight", page.run("document.getElementById('status').getBoundingClientRect().bottom <= 640"))
    page.run("document.getElementById('field').focus()")
    page.press("End", ctrl=True)
    box = page.run("(() => { const it = document.getElementById('cursor').getBoundingClientRect(); return [it.left >= 0, it.right <= 320, it.top >= 0, it.bottom <= document.getElementById('status').getBoundingClientRect().top] })()")
    check.equal("the cursor is in sight", box, [True] * 4)
    page.close(check)


def read_out(check, browser):
    """Roles and names, as a screen reader gets them."""
    page = Page(browser, "key.legs", "--paper", "paper.legs")
    page.type("#places", "5 40\n")
    nodes = [node for node in page.call("Accessibility.getFullAXTree")["nodes"] if not node["ignored"]]
    value = lambda node, name: node.get(name, {}).get("value", "")
    roles = {value(node, "role") for node in nodes}
    check.holds("roles", {"application", "tree", "treeitem", "status", "table", "main", "complementary", "banner", "heading", "radio", "checkbox", "textbox"} <= roles, f": {roles}")
    state = lambda node: {it["name"]: it["value"].get("value") for it in node.get("properties", [])}
    focusable = [node for node in nodes if state(node).get("focusable") and value(node, "role") != "RootWebArea"]
    check.equal("controls without a name", [value(node, "role") for node in focusable if not value(node, "name")], [])
    check.holds("controls", len(focusable) > 20)
    items = [node for node in nodes if value(node, "role") == "treeitem"]
    check.equal("lines", len(items), len(legs.output("sizes", "key.legs").splitlines()) - 1)
    check.equal("levels", [state(node).get("level") for node in items][:9], [1, 2, 3, 3, 2, 3, 3, 3, 2])
    check.holds("expanded", state(items[0]).get("expanded") is True and "expanded" not in state(items[2]), f": {state(items[0])}")
    live = [state(node).get("live") for node in nodes if value(node, "role") == "status"]
    check.equal("what is said and what is marked is read out", live, ["polite"] * 2)
    page.point_at(5, 40)
    check.equal("but not what a pointer passes", page.text("#said"), [""])
    page.point_at(5, 40, clicks=1)
    check.equal("a click is", page.text("#said"), [". ".join(page.status())])
    page.close(check)


def opens(check, browser):
    """The largest sheet opens within a second, from the request to the end of the script; the best of three, since others may use the machine."""
    given = largest()
    sheet = legs.printed("-", given=given)
    check.equal("the largest sheet", (len(sheet[0]), len(sheet), len(legs.output("sizes", "-", given=given).splitlines()) - 1), (400, 160, 512))
    page, times = Page(browser, "-", given=given, is_opened=False), []
    for _ in range(3):
        page.open(page.path)
        times.append(page.run("performance.getEntriesByType('navigation')[0].loadEventEnd"))
    check.holds("opens within a second", 0 < min(times) < 1000, f": {times}")
    check.equal("all lines of the outline", len(page.outline()), 512)
    page.run("document.getElementById('field').focus()")
    page.press("End", ctrl=True)
    check.equal("its last place", page.cursor(), [159, 399])
    check.holds("is said", page.status()[1].startswith("node 511: "), f": {page.status()}")
    page.close(check)


CASES = [colours, narrow, read_out, opens]
