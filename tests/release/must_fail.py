#!/usr/bin/env python3
"""Applies each edit of crates/CRATE/must-fail/ to a copy, and tests that the checker refuses the edited function at the
goal that the edit names. The arguments are crates, or CRATE/EDIT; without any, it
tries all. `rt ci` tries each edit too, but only
looks whether it is refused. With the variable VERBOSE, also prints the checker's messages.

The first line of an edit is `# refused: FUNCTION, GOAL`, a comment for `rt`. The next may be `# twin: TEXT`, another
text in place of the first old one, which means the same. The checker must prove it: so the edit is refused for its
meaning, and not because a stored answer fits a single text. `# twin of: TEXT` is another old text, and
`# proved: FUNCTION` another function that the twin must keep proved."""

import os
import re
import shutil
import sys
from concurrent.futures import ThreadPoolExecutor
from pathlib import Path

sys.path.append(str(Path(__file__).parents[1]))
from cases import ROOM, TOP, finish, shell, tell  # noqa: E402
from edits import apply, crate_of, has_twin  # noqa: E402


def link(source, target):
    """Links a build file, or copies it to another file system. A check replaces such files but never modifies them."""
    try:
        os.link(source, target)
    except OSError:
        shutil.copy2(source, target)


def applied(edit, is_twin):
    """Copies the crates, applies an edit or its twin, and returns the directory of its crate, its function, and its
    goal."""
    crate = crate_of(edit)
    copy = ROOM / crate / edit.name
    shutil.copytree(TOP / "crates", copy / "crates", ignore=shutil.ignore_patterns("out", "data"))
    for out in TOP.glob("crates/*/out"):
        shutil.copytree(out, copy / out.relative_to(TOP), copy_function=link)
    for name in ("crates.txt", "HANDLES"):
        shutil.copy(TOP / name, copy)
    function, *goal, _ = apply(edit, copy / "crates", is_twin)
    return copy / "crates" / crate, function, *goal


def said_of(function, output):
    """Returns the messages about a function: its verdict, the errors in its proof files, and the notes before it."""
    said, notes = "", ""
    for line in output.splitlines():
        if verdict := re.match(r"fn \w+::(\S+): (.*)", line):
            if verdict[1] == function:
                return verdict[2] + said + notes
            notes = ""
        elif line.startswith(f"./proofs/{function.replace('::', '/')}/"):
            said += line
        else:
            notes += line
    return ""


def verdict_of(edit, is_twin=False):
    """Applies an edit or its twin. Returns its function, its goal if it has one, and what the checker says of the
    function."""
    folder, function, *goal = applied(edit, is_twin)
    said = said_of(function, shell(f"rt check --jobs 1 --only '{function}'", folder)[1])
    shutil.rmtree(folder.parent.parent)
    if "VERBOSE" in os.environ:
        print(f"{folder.name}/{edit.name}: {said}", file=sys.stderr)
    return function, "".join(goal), said


def finding(edit):
    """Returns how the function's verdict differs from the expected refusal, or an empty string."""
    if has_twin(edit):
        function, _, said = verdict_of(edit, is_twin=True)
        if not said.startswith("proved"):
            return f"the twin is not proved at {function}: {said or 'the check says nothing of it'}"
    function, goal, said = verdict_of(edit)
    if not said.startswith(("no proof", "not proved")):
        return f"{function} is not refused: {said or 'the check says nothing of it'}"
    return "" if f"`{goal}`" in said else f"{function} is refused, but not at {goal}: {said}"


edits = []
for crate, _, edit in (argument.partition("/") for argument in sys.argv[1:] or ["*"]):
    edits += sorted(TOP.glob(f"crates/{crate}/must-fail/{edit or '*'}.edit"))
with ThreadPoolExecutor(os.cpu_count()) as pool:
    for edit, found in zip(edits, pool.map(finding, edits)):
        tell(f"{edit.parent.parent.name}/{edit.stem}", *[found] * bool(found))
finish()
