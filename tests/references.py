#!/usr/bin/env python3
# reads: packages Makefile scripts
"""Builds the references of the calls in each language. Every link to a file must lead to one, and every package of a
language must have a page with its first call."""

import re
from urllib.parse import unquote

from cases import TOP, compare, finish, needs, shell, tell

ROOM = TOP / "build" / "docs"
CALLS = {"rust/rapidhash/v3/index.html": "rapidhash_v3",
         "java/example.yervound.rapidhash/example/yervound/rapidhash/Rapidhash.html": "toDecimal",
         "python.html": "each_key", "go.html": "Sum64String", "javascript.html": "v3Key", "rapidhash.html": "hasher",
         "rapidhash_c.3.html": "rapidhash_v3", "rapidhash.1.html": "--protected", "rapidsum.1.html": "--check"}


def broken(page):
    """Yields the links of a page that lead to no file, without those that a script completes."""
    for link in re.findall(r'(?:href|src)="([^"#?$]+)(?=["#?])', page.read_text(errors="replace")):
        if not re.match(r"\w+:", link) and not (page.parent / unquote(link)).exists():
            yield f"{page.relative_to(ROOM)}: no {link}"


needs("cargo", "javadoc", "go", "mandoc")
compare("make docs", shell("make -s docs"), (0, ""))
pages = [page for page in ROOM.rglob("*.html") if page.name not in ("help.html", "settings.html")]  # rustdoc's own
tell("links", *[fault for page in pages for fault in broken(page)][:20])
tell("calls", *[f"{page}: no {call}" for page, call in CALLS.items() if call not in (ROOM / page).read_text()])
linked = re.findall(r'href="([^"]*)"', (ROOM / "index.html").read_text())
compare("the list of references", len(linked), 10)
finish()
