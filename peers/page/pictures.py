"""Makes the pictures of docs/page.md in docs/images: each state of the desk's page in light and in dark, with the
stand-in behind it. Needs Debian's chromium and pngquant."""

import subprocess
import sys
import time
from pathlib import Path

import checks
import mock
from browser import Browser, Page

FOLDER = Path(__file__).resolve().parents[2] / "docs" / "images"
MOST_BYTES = 100_000


def take(page, name):
    """A picture in light and one in dark, each of 256 colours."""
    for scheme in ("light", "dark"):
        page.scheme(scheme)
        time.sleep(0.3)
        path = FOLDER / f"page_{name}_{scheme}.png"
        page.picture(path)
        subprocess.run(["pngquant", "--force", "--strip", "--output", path, "192", path], check=True)
        if path.stat().st_size > MOST_BYTES:
            sys.exit(f"{path} has more than {MOST_BYTES} bytes")
    page.scheme("light")


def wait(page, script, what):
    page.until(script, what)
    time.sleep(0.2)


def opened(browser, day, **size):
    page = Page(browser, f"{mock.Server(day).base}/", **size)
    wait(page, "typeof following === 'boolean' && following && unread().length === 0", "it follows")
    return page


def take_all(browser):
    take_a_day(browser)
    take_trouble(browser)


def take_trouble(browser):
    """Sixteen venues with trouble of each kind, on a desk's screen and on a phone's, and what is left without the desk."""
    day = mock.many()
    page = opened(browser, day)
    take(page, "troubles")
    phone = opened(browser, day, width=390, height=844)
    take(phone, "narrow")
    phone.close()
    day.answers = day.takes_streams = False
    day.cut_streams()
    wait(page, "document.body.classList.contains('stale')", "it is stale")
    take(page, "stale")
    page.close()


def take_a_day(browser):
    """A day from its morning to its close."""
    day = mock.morning()
    page = opened(browser, day)
    take(page, "morning")
    mock.troubles(day)
    checks.fill_leg(page, 0, "ARCA", "buy", 100, "IBM", "187.5")
    checks.press(page, "#add")
    checks.fill_leg(page, 1, "NYSE", "buy", 2500, "BRK.B", "412.25")
    checks.press(page, "#send")
    wait(page, "document.querySelector('#ask').open", "it is asked back")
    take(page, "asked_back")
    checks.press(page, "#ask-yes")
    checks.says(page, "#answer", "Refused", "it is refused")
    page.run("turn(2)")
    wait(page, "document.querySelectorAll('tr.leg').length === 4", "its legs")
    take(page, "refused")
    day.takes_streams = False
    day.cut_streams()
    checks.says(page, "#banner", "Events were lost", "the loss")
    take(page, "events_lost")
    day.takes_streams = True
    wait(page, "following", "it follows again")
    day.close()
    checks.says(page, "#standing", "Day closed", "the end")
    take(page, "closed")


def main():
    FOLDER.mkdir(exist_ok=True)
    browser = Browser()
    try:
        take_all(browser)
    finally:
        browser.close()


if __name__ == "__main__":
    main()
