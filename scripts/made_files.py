"""The common part of the scripts that generate files: prints the files, writes them, or checks that they are
current."""

import difflib
import sys
from pathlib import Path

TOP = Path(__file__).resolve().parent.parent


def run(script, usage, files):
    """Runs a script according to its argument: none, --write, or --check. FILES maps each file to its text."""
    arguments = sys.argv[1:]
    if arguments not in ([], ["--write"], ["--check"]):
        print(usage, file=sys.stderr)
        return 2
    stale = []
    for name, text in files.items():
        file = TOP / name
        if arguments == ["--write"]:
            file.parent.mkdir(parents=True, exist_ok=True)
            file.write_text(text)
        elif arguments == ["--check"]:
            old = file.read_text().splitlines() if file.exists() else []
            stale += difflib.unified_diff(old, text.splitlines(), name, "what it should be", n=0, lineterm="")
        else:
            print(text, end="")
    if stale:
        print(*stale, f"Run {script} --write.", sep="\n")
    return 1 if stale else 0
