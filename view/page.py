"""A page of `legs view` as people handle it: what they see, click and press."""

import json
import os
import tempfile

import legs
from browser import Tab

# A key's name, and its code where the browser needs that to do something by itself.
CODES = {"Tab": 9, "Enter": 13, "Escape": 27, " ": 32, "PageUp": 33, "PageDown": 34, "End": 35, "Home": 36, "ArrowLeft": 37, "ArrowUp": 38, "ArrowRight": 39, "ArrowDown": 40}

# What the page's elements over the sheet cover, as lines and columns: first line and column, lines, columns.
AREAS = """(() => {
  const sheet = document.getElementById("sheet").getBoundingClientRect();
  const [lines, columns] = [%d, %d];
  const of = (it) => it.getBoundingClientRect();
  const line = (y) => Math.round((y / sheet.height) * lines * 100) / 100;
  const column = (x) => Math.round((x / sheet.width) * columns * 100) / 100;
  return [...document.querySelectorAll("%s")].map(of).map((it) =>
    [line(it.top - sheet.top), column(it.left - sheet.left), line(it.height), column(it.width)]);
})()"""


class Page(Tab):
    def __init__(self, browser, *words, given="", is_opened=True, **size):
        super().__init__(browser, **size)
        self.name = " ".join(words)
        self.sheet = legs.printed(words[0], given=given)
        handle, self.path = tempfile.mkstemp(suffix=".html")
        with os.fdopen(handle, "w") as file:
            file.write(legs.output("view", *words, given=given))
        if is_opened:
            self.open(self.path)

    def close(self, check=None):
        """Tells the check, where it is to know, what the browser found wrong."""
        if check:
            check.equal(f"faults of {self.name}", self.faults(), [])
        super().close()
        os.remove(self.path)

    def text(self, selector):
        """The text of each element that is shown."""
        return self.run(f"[...document.querySelectorAll('{selector}')].filter((it) => it.checkVisibility()).map((it) => it.textContent)")

    def status(self):
        return self.text("#status > *")

    def areas(self, selector):
        return self.run(AREAS % (len(self.sheet), len(self.sheet[0]), selector))

    def cursor(self):
        areas = self.areas("#cursor")
        return areas[0][:2] if areas else None

    def press(self, *keys, ctrl=False, shift=False):
        for key in keys:
            event = {"key": key, "windowsVirtualKeyCode": CODES.get(key, 0), "modifiers": 2 * ctrl + 8 * shift}
            text = {"text": "\r" if key == "Enter" else key} if key == "Enter" or len(key) == 1 and not ctrl else {}
            self.call("Input.dispatchKeyEvent", type="keyDown", **event, **text)
            self.call("Input.dispatchKeyEvent", type="keyUp", **event)

    def point(self, x, y, clicks=0):
        """Moves the pointer there, and clicks so often."""
        self.call("Input.dispatchMouseEvent", type="mouseMoved", x=x, y=y)
        for count in range(1, clicks + 1):
            for kind in ["mousePressed", "mouseReleased"]:
                self.call("Input.dispatchMouseEvent", type=kind, x=x, y=y, button="left", clickCount=count)

    def point_at(self, line, column, clicks=0):
        """The same at the middle of a place of the sheet."""
        left, top, width, height = self.run("(() => { const it = document.getElementById('sheet').getBoundingClientRect(); return [it.left, it.top, it.width, it.height] })()")
        self.point(left + width * (column + 0.5) / len(self.sheet[0]), top + height * (line + 0.5) / len(self.sheet), clicks)

    def click(self, selector, at=0):
        """The middle of an element."""
        script = f"(() => {{ const it = document.querySelectorAll('{selector}')[{at}]; it.scrollIntoView({{ block: 'nearest' }}); const box = it.getBoundingClientRect(); return [box.left + box.width / 2, box.top + box.height / 2] }})()"
        self.point(*self.run(script), clicks=1)

    def type(self, selector, text):
        """Replaces what a field has by a text."""
        self.run(f"document.querySelector('{selector}').select()")
        self.click(selector)
        self.run(f"document.querySelector('{selector}').select()")
        self.call("Input.insertText", text=text)

    def paste(self, selector, text):
        """The same at once: typed, every line would be an event."""
        self.run(f"(() => {{ const it = document.querySelector('{selector}'); it.value = {json.dumps(text)}; it.dispatchEvent(new InputEvent('input', {{ inputType: 'insertFromPaste' }})) }})()")

    def answers(self):
        """The rows of the marker's table."""
        return self.run("[...document.querySelectorAll('#answers tbody tr')].map((row) => [...row.cells].map((cell) => cell.textContent))")

    def outline(self):
        """The lines in sight: number and label."""
        return self.run("[...document.querySelectorAll('#outline li:not([hidden])')].map((it) => [+it.querySelector('.number').textContent, it.querySelector('.label').textContent])")

    def active(self):
        """The element that has the focus, and its text in a line of the outline."""
        return self.run("document.activeElement.id || document.activeElement.querySelector('.number')?.textContent || document.activeElement.tagName")
