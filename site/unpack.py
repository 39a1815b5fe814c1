#!/usr/bin/env python3
"""unpack.py PAGE.html OUT.wasm: the module of a page. unpack.py PAGE.html --sources, or --tools: what it says of its making."""
import base64
import html
import pathlib
import re
import sys


def module(page):
    """The module of a page."""
    found = re.search(r'<script id="module"[^>]*>([^<]*)<', pathlib.Path(page).read_text())
    if not found:
        sys.exit("unpack.py: the page has no module")
    return base64.b64decode(found[1])


def said(page, name):
    """What a page says of its making: the sum of its sources, or its tools."""
    found = re.search(rf'<meta name="{name}" content="([^"]*)">', pathlib.Path(page).read_text())
    return html.unescape(found[1]) if found else ""


def main():
    page, what = sys.argv[1:3]
    if what.startswith("--"):
        print(said(page, what[2:]))
    else:
        pathlib.Path(what).write_bytes(module(page))


if __name__ == "__main__":
    main()
