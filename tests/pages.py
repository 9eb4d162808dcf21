#!/usr/bin/env python3
# reads: .
"""Compares the pages with the repository. Links and paths must exist, names must occur in the code, and quoted clauses
in the sources. Pages and lines must keep their limits, and texts generated from the sources must be current."""

import functools
import os
import re
from pathlib import Path

from cases import TOP, blocks, finish, shell, tell

PAGES = sorted([*TOP.glob("*.md"), *TOP.glob("docs/*.md"), *TOP.glob("*/NOTES.md"),
                *TOP.glob("packages/*/README.md"), *TOP.glob("packages/rust/*/README.md")])
# Directories that builds create, and paths that exist only in an archive or in an installed copy.
BUILT = ("build/", "crates/first")
PATH = re.compile(r"`((?:crates|docs|tests|bench|bin|packages|scripts|\.ci)/[^` ]*)`")
NAME = re.compile(r"`([A-Za-z]\w*(?:(?:::|\.)\w+)*)(?:[(<][^`]*)?`")
# Names of other libraries, on pages that compare them.
OTHERS = re.compile(r"XXH\w+|rapidhash(Micro|Nano|_withSeed)|fnv\.\w+|rapid_(file|stream_hasher|const|hasher)|"
                    r"rapidhash\.h|sha256sum")


def prose(pages):
    """Yields the lines of pages outside code blocks: the page, the place, and the text of each."""
    for page in pages:
        is_code = False
        for number, line in enumerate(page.read_text().splitlines(), 1):
            if line.startswith("```"):
                is_code = not is_code
            elif not is_code:
                yield page, f"{page.relative_to(TOP)}:{number}", line


@functools.lru_cache
def anchors(page):
    """Returns the anchors of a page's headings."""
    return {re.sub(r"[^\w-]", "", heading.lower().replace(" ", "-")) for heading in
            re.findall("^#+ (.*)", page.read_text(), re.M)}


def links():
    for page, place, line in prose(PAGES):
        targets = [(page.parent / target if target else page, anchor) for target, anchor in
                   re.findall(r"\]\(([^)#]*)#?([^)]*)\)", line) if "://" not in target]
        targets += [(TOP / target, "") for target in re.findall(r"\bdocs/[\w/]+\.md\b", line)]
        yield from (f"{place}: no {target} {anchor}" for target, anchor in targets
                    if not target.exists() or anchor and anchor not in anchors(target))


def ways_back():
    """Checks that the first line of each page below the top is the way back to README.md, but not on docs.rs."""
    for page in PAGES:
        way, _, title, *_ = page.read_text().splitlines()
        wanted = f"[Yervound]({os.path.relpath(TOP / 'README.md', page.parent)}) › {title[2:].replace('`', '')}"
        if page.parent != TOP and page.parent.name not in ("archive", "rust") and way != wanted:
            yield f"{page.relative_to(TOP)}: the first line must be {wanted}"


def paths():
    for _, place, line in prose(page for page in PAGES if page.parent.name != "archive" and page.parent.name != "rust"):
        for path in PATH.findall(line):
            if not re.search("/out/|NAME", path) and not path.startswith(BUILT) and not any(TOP.glob(path.rstrip("/"))):
                yield f"{place}: no {path}"


def variables():
    """Compares the names in capitals, such as variables of the environment, with those in all other files."""
    _, known = shell("git grep -ohE '\\bRAPIDHASH_[A-Z0-9_]+' -- ':!*.md'")
    for _, place, line in prose(PAGES):
        names_of_line = set(re.findall(r"\bRAPIDHASH_[A-Z0-9_]+", line))
        yield from (f"{place}: no {name}" for name in names_of_line - set(known.split()))


def limits():
    for page in PAGES:
        lines = len(page.read_text().splitlines())
        if lines > (120 if page == TOP / "README.md" else 200):
            yield f"{page.relative_to(TOP)} has {lines} lines"
    for _, place, line in prose(PAGES):
        if len(line) > 120 and not line.startswith("|"):
            yield f"{place} has {len(line)} columns"
    for page in PAGES:  # A row behind an empty line has no head.
        yield from (f"{page.name}: a row without a head: {row[:40]}" for row in
                    re.findall(r"\n\n(\|.*)\n(?!\|[-:| ]+\|\n)", page.read_text()))


def names():
    """Checks that each name on a page is that of a file, or in the code: not only in tests, benches, edits or compat.
    On pages that name what the tests have, or what programs call, it may be in any file. Names of other libraries are
    in none."""
    code, everywhere = set(), set()
    for name in shell("git ls-files")[1].splitlines():
        if not name.endswith((".md", ".tsv")):
            text = re.findall(r"\w+", f"{name} {(TOP / name).read_text(errors='replace')}")
            is_code = not re.search(r"(^|/)(tests|must-fail|compat|bench|crates/(test|bench)_\w+)/", name)
            code.update(text if is_code else re.findall(r"\w+", name))
            everywhere.update(text)
    pages = dict.fromkeys(("PROVED", "ARCHITECTURE", "C", "CPP", "DECISIONS", "PERFORMANCE"), code) | dict.fromkeys(
        ("BINDINGS", "CHOOSING", "COMMANDS", "COMPATIBILITY", "EXAMPLES", "MIGRATING", "RATTLE", "TABLES"), everywhere)
    for page, place, line in prose(TOP / "docs" / f"{name}.md" for name in pages):
        for name in NAME.findall(line):
            yield from (f"{place}: no {part} of {name} in the code" for part in re.split(r"::|\.", name)
                        if part not in pages[page.stem] and not OTHERS.fullmatch(name))


def layers():
    """Checks that the layers in docs/ARCHITECTURE.md are crates or modules."""
    table = (TOP / "docs/ARCHITECTURE.md").read_text().partition("## Layer contracts")[2]
    found = {path.stem for path in TOP.glob("crates/*/src/**/*.rt")} | {path.name for path in TOP.glob("crates/*")}
    named = re.findall(r"`(\w+)`", "".join(re.findall(r"^\|([^|]*)", table, re.M)))
    yield from (f"docs/ARCHITECTURE.md: no module {name}" for name in named if name not in found)
    if len(named) < 8:
        yield f"docs/ARCHITECTURE.md names {len(named)} modules"


def edits():
    """Checks that the function in the first line of each must-fail edit is in the sources of its crate. If it has a
    stored answer, which fits a single text, the edit has a twin or a failing test in tests/release. In the gate, rt ci
    must have refused each edit, and those without either at the goal in their first lines."""
    release = TOP / "tests" / "release"
    shown = set(re.findall(r"^([^\t]+)", (release / "failing_tests.tsv").read_text(), re.M))
    proofs = Path(os.environ.get("PROOFS", os.devnull)).read_text()
    refused = dict(re.findall(r"^rt: must-fail (\S+)\.edit: refused, as it must be(.*)", proofs, re.M))
    for edit in TOP.glob("crates/*/must-fail/*.edit"):
        crate, head = edit.parent.parent, re.match(r"# refused: (?:([^ ]*)::)?(\w+), (\S+)", edit.read_text())
        is_shown = f"{crate.name}/{edit.stem}" in shown or "\n# twin: " in edit.read_text()
        sources = "".join(file.read_text() for file in (crate / "src").rglob("*.rt"))
        place, name = edit.relative_to(TOP), f"{crate.name}/{edit.stem}"
        if not head or not re.search(rf"\b{head[2]}\b", sources):
            yield f"{place}: no such function"
        elif not is_shown and (
                crate / "proofs" / (head[1] or "").replace("::", "/") / head[2] / "Answers.antt").exists():
            yield f"{place}: no twin and no failing test"
        elif proofs and (name not in refused or not is_shown and f"`{head[3]}`" not in refused[name]):
            yield f"{place}: rt ci did not refuse it at {head[3]}, but said{refused.get(name, ': nothing')}"


def cases():
    """Checks that the page beside the files of cases has each of them."""
    data = TOP / "crates" / "test_replay" / "data"
    named = set(re.findall(r"`(\w+\.tsv)`", (data / "README.md").read_text()))
    differing = named ^ {file.name for file in data.glob("*.tsv")}
    yield from (f"{name} is in the folder or on the page alone" for name in differing)


def statements():
    """Checks that the definitions, contracts, and clauses that these pages quote are those of the sources."""
    files = [*TOP.glob("crates/*/specs/*.antt"), *TOP.glob("crates/*/src/**/*.rt"),
             *TOP.glob("crates/example_*/proofs/**/Answers.antt")]
    sources = "".join(file.read_text() for file in files)
    plain = " ".join(sources.split())
    text = (TOP / "docs" / "PROVED.md").read_text()
    for clause in re.findall(r"`([^`\n]+)`", text):
        if " " in clause and re.search("[≡→↔λ«]|\\[]|Absorbs|Appends|Answers|Flags", clause) and clause not in plain:
            yield f"docs/PROVED.md quotes a clause that no source has: {clause}"
    for page, languages, count in (("docs/PROVED.md", "antt|rust", 2), ("docs/RATTLE.md", "antt", 1),
                                   ("docs/EXAMPLES.md", "text", 5)):
        shown = blocks(page, languages)
        for part in (part for block in shown for part in block.split("\n\n")):
            if " ".join(part.split()) not in plain:
                yield f"{page} shows what no source has: {part.splitlines()[0]}"
        if len(shown) != count:
            yield f"{page} shows {len(shown)} blocks"


def made_by(script):
    """Returns the output of a script that generates a page from the sources, if the page is not current."""
    status, said = shell(f"{script} --check")
    return said.splitlines() or [f"{script} ended with status {status}"] if status else []


for check in (links, ways_back, paths, variables, limits, names, layers, edits, cases, statements):
    tell(check.__name__, *check())
for made, maker in (("public", "scripts/public"), ("version", "scripts/version"), ("figures", "bench/figures")):
    tell(made, *made_by(maker))
finish()
