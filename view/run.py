"""Runs every case in one browser: run.py CHROMIUM [--shot]."""

import os
import sys
import traceback

import cases
import legs
from browser import Browser
from page import Page


class Check:
    """Counts what holds, and prints what does not."""

    def __init__(self):
        self.passed = self.failed = 0

    def holds(self, title, is_so, more=""):
        self.passed += is_so
        self.failed += not is_so
        if not is_so:
            print(f"view/check: {title}{more}")

    def equal(self, title, found, expected):
        self.holds(title, found == expected, f": {found!r}, and not {expected!r}")


def check(browser):
    counted = Check()
    for case in cases.ALL:
        try:
            case(counted, browser)
        except Exception:
            counted.holds(case.__name__, False, "\n" + traceback.format_exc())
    print(f"{counted.passed} passed, {counted.failed} failed")
    return counted.failed == 0


def shot(browser):
    """README's picture."""
    page = Page(browser, "flight.list", width=1160, height=680)
    page.type("#places", "1 40\n17 10\n5 63\n30 4\n")
    page.click("#outline .twist", at=9)
    page.point_at(12, 31, clicks=1)
    page.run("document.getElementById('panels').scrollTop = 0")
    page.picture(os.path.join(legs.ROOT, "docs", "view.png"))
    return True


def main():
    program, *options = sys.argv[1:]
    if options not in ([], ["--shot"]):
        sys.exit("view/check [--shot]")
    browser = Browser(program)
    try:
        is_good = shot(browser) if options else check(browser)
    finally:
        browser.close()
    sys.exit(not is_good)


main()
