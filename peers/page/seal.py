"""Writes the sums of the page's style and script into its policy, by which a browser runs no others. With --check it
says whether they are right."""

import base64
import hashlib
import re
import sys
from pathlib import Path

PAGE = Path(__file__).resolve().parents[2] / "pages" / "desk.html"


def sealed(page):
    """The page with the right sums."""
    for kind in ("script", "style"):
        [text] = re.findall(rf"<{kind}>(.*?)</{kind}>", page, re.S)
        sum_of = base64.b64encode(hashlib.sha256(text.encode()).digest()).decode()
        page = re.sub(rf"{kind}-src 'sha256-[^']*'", lambda _: f"{kind}-src 'sha256-{sum_of}'", page)
    return page


def main():
    page = PAGE.read_text()
    if sys.argv[1:] == ["--check"]:
        sys.exit(sealed(page) != page and "pages/desk.html isn't sealed: python3 peers/page/seal.py")
    PAGE.write_text(sealed(page))


if __name__ == "__main__":
    main()
