#!/usr/bin/env python3
"""Applies edits of crates/CRATE/must-fail/ to a copy, and tests that a test fails with each edit and none without. So
an edit is wrong by its values, also if its goal has a stored answer, which fits a single text. Each such edit has a
twin, or a row in failing_tests.tsv (tests/pages.py): the edit, where its test runs, and a test that fails. It runs in
packages/rust, after scripts/rust_crate, or unproved in a crate of tests or a program, whose `stdout` differs. The
arguments are words of edits; without any, it tries all. With the variable VERBOSE, also prints the tests that fail."""

import os
import re
import shutil
import sys
from pathlib import Path

sys.path.append(str(Path(__file__).parents[1]))
from cases import ROOM, TOP, finish, shell, tell  # noqa: E402
from edits import apply, crate_of  # noqa: E402

HERE = Path(__file__).parent
COPY = ROOM / "copy"


def copy_tree():
    """Copies what the tests read."""
    for name in ("crates", "scripts", "packages/rust"):
        shutil.copytree(TOP / name, COPY / name, ignore=shutil.ignore_patterns("out", "target"))
    for name in ("crates.txt", "HANDLES"):
        shutil.copy(TOP / name, COPY)


def failing(place, test=""):
    """Returns the failing tests of packages/rust, or of a crate: all, or those of a name. Raises an error if none
    runs."""
    folder = COPY / "crates" / place
    if (folder / "stdout").exists():
        data = " ".join(f"--data {file.name}=data/{file.name}" for file in sorted(folder.glob("data/*")))
        said = shell(f"touch stdin args; rt try --seconds 250 {data} -- $(cat args) <stdin 2>'{ROOM}/err' || :",
                     folder)[1]
        if "run=ended" not in (ROOM / "err").read_text():
            raise ValueError((ROOM / "err").read_text())
        return ["stdout"] * (said != (folder / "stdout").read_text())
    if place == "rust":
        # Newer compilers than Debian's make functions constant, so that not every edit could be compiled.
        said = shell("scripts/rust_crate --write && cd packages/rust && "
                     "timeout 300 /usr/bin/cargo test --no-fail-fast --tests || :", COPY,
                     CARGO_TARGET_DIR=str(ROOM / "target"), CARGO_NET_OFFLINE="true", RUSTC="/usr/bin/rustc")[1]
    else:
        said = shell(f"timeout 300 rt try --test -- {test} || :", folder)[1]
    if not re.search(r"^test \S+.* \.\.\. (ok|FAILED)$", said, re.M):
        raise ValueError(said)
    return re.findall(r"^test (\S+).* \.\.\. FAILED$", said, re.M)


def finding(edit, place, test):
    """Returns why an edit is not seen by its test, or an empty string."""
    *_, before = apply(edit, COPY / "crates")
    try:
        found = failing(place, test)
    except ValueError as error:
        return f"no test runs: {error}"
    finally:
        for file, text in before.items():
            file.write_text(text)
    if "VERBOSE" in os.environ:
        print(f"{edit.stem}: {' '.join(found)}", file=sys.stderr)
    return "" if test in found else f"{test} does not fail in {place}, but {found}"


rows = [line.split("\t") for line in (HERE / "failing_tests.tsv").read_text().splitlines()[1:]]
edits = {f"{crate_of(edit)}/{edit.stem}": edit for edit in sorted(TOP.glob("crates/*/must-fail/*.edit"))}
rows = [row for row in rows if not sys.argv[1:] or any(word in row[0] for word in sys.argv[1:])]
copy_tree()
for place in dict.fromkeys(place for _, place, _ in rows):
    tell(f"without an edit no test fails in {place}", *failing(place))
for name, place, test in rows:
    found = finding(edits[name], place, test)
    tell(name, *[found] * bool(found))
finish()
