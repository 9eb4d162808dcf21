"""Has the table of docs/MACHINE.md: each file that a release publishes, and which of its code is checked."""

import csv
import re

import faults
from cases import ROOM, TOP, shell
from elf import Elf

PAGE, FILES = TOP / "docs/MACHINE.md", TOP / "packages/archive/RELEASE.md"
TABLE = re.compile(r"(?<=<!-- shipped -->\n).*?(?=<!-- end -->)", re.S)


def rows():
    yield from csv.DictReader(open(TOP / "tests/machine/shipped.tsv"), delimiter="\t", quoting=csv.QUOTE_NONE)


def table():
    """Returns the table of the page. The parts are arguments of machine.py."""
    lines = [f"| {row['file']} | {row['built']} | {row['checked'] or '-'} | {row['not checked']} |" for row in rows()]
    return "\n".join(["| published | built by | checked | not checked |", "|---|---|---|---|", *lines, ""])


def write():
    PAGE.write_text(TABLE.sub(lambda _: table(), PAGE.read_text()))


def disagreements(parts):
    """Yields what the page, the parts of the check, the faults, and the files of a release do not agree on."""
    for what, ending in ("header", ".h"), ("Go's package", ".go"), ("the tool", ".py"):
        count = len([*faults.rows(ending)])
        yield from [f"{count} faults in {what}"] * (f" {what} | {count} | {count} | 0 |" not in PAGE.read_text())
    if TABLE.findall(PAGE.read_text()) != [table()]:
        yield "docs/MACHINE.md has another table: tests/machine/machine.py write"
    yield from (f"no part {part}" for row in rows() for part in row["parts"].split(", ") if part and part not in parts)
    yield from (f"a row with checks and without a part: {row['file']}" for row in rows()
                if bool(row["checked"]) != bool(row["parts"]))
    listed = "".join(row["file"] for row in rows())
    for line in re.findall(r"^\| (`.*?) \|", FILES.read_text(), re.M):
        yield from (f"no row for {file}" for file in re.findall(r"`(?:yervound-\*)?(.*?)`", line) if file not in listed)


def differs_when_stripped(path):
    """Yields the sections that a stripped copy, which a Debian package has, does not have alike."""
    copy = ROOM / "stripped.so"
    status, said = shell(f"strip --strip-unneeded -R .comment -R .note -o {copy} {path}")
    assert status == 0, said
    before, after = ({label.split()[-1]: one for label, one in Elf(file).sections.items()} for file in (path, copy))
    yield from (label for label in before if after.get(label) != before[label])
