#!/usr/bin/env python3
# reads: README.md docs packages Makefile
"""Runs the program and each command of the shell blocks of README.md, the commands of docs/COMMANDS.md, and the program
of docs/RATTLE.md in a new repository with a copy of the library. The numbers in docs/PROVED.md are those that the
checker prints. The values are those of the Rust crate. Without the kit, it runs the first program, and the commands
with cargo's programs. With the arguments --repository FOLDER, it only writes that repository, for tests/vendor.sh."""

import os
import re
import shutil
import sys
from pathlib import Path

from cases import ROOM, TOP, blocks, compare, finish, has, lacks, shell, skip, tell

# Commands that other tests run: the gate itself, and packages/tools/tests/install.sh.
ELSEWHERE = ('make && make install PREFIX="$HOME/.local"', 'make uninstall PREFIX="$HOME/.local"', "make check",
             "make check-source")

# Calls of the functions in docs/RATTLE.md, for the end of its first function, and the output of the program with them.
CALLS = """    println!(rt; "{} {}", in_pieces(), of_reader(b"hello".as_slice())?)?;
    println!(rt; "{} {}", with_secrets(0x1234_5678), count(&rt, [1, 2], "a b a")?)?;
"""
TUTORIAL = "3327445792987248966\n3327445792987248966 3327445792987248966\n14860858794976638546 2\n"


def faults_of(line, folder, **variables):
    """Runs a command and returns its output if it fails or prints another value than its comment says, if that says
    one."""
    command, _, comment = line.partition(" #")
    said = re.search(r"prints (\d+)", comment)
    status, printed = shell(command, folder, **variables)
    return [printed[-600:]] * (status != 0 or said is not None and printed.strip() != said[1])


def run_shell_blocks():
    """Runs each command in its directory and compares its output with the value on the page."""
    compare("commands that must be refused", [faults_of(line, ROOM) != [] for line in (
        "echo 1 # prints 2", "echo 1; false # prints 1", "false", "echo 1 # prints 1")], [True, True, True, False])
    (ROOM / "files").mkdir()
    for name in ("Makefile", "README.md", "a.tar", "b.tar", "first.iso", "old.db"):
        shutil.copy(TOP / ("README.md" if name == "README.md" else "Makefile"), ROOM / "files" / name)
    programs = ROOM / "bin"
    programs.mkdir()
    shell("make -s tool sums")
    for path in shell("make -s --eval='show: ; @echo $(tools)' show")[1].split():
        os.symlink(TOP / path, programs / Path(path).name.removesuffix("_cli"))
    for line in "".join(blocks("README.md", "sh") + blocks("docs/COMMANDS.md", "sh")).splitlines():
        command = line.partition(" #")[0].strip()
        if command not in ELSEWHERE:
            is_program = re.search(r"(?<![/\w])rapid(hash|sum)\b", command) is not None
            tell(command, *faults_of(line, ROOM / "files" if is_program else TOP,
                                     PATH=f"{programs}:" * is_program + os.environ["PATH"]))
    (ROOM / "none").mkdir()
    finds = re.findall(r"^find .*", "".join(blocks("docs/COMMANDS.md", "sh")), re.M)
    compare("lists of no files", [shell(f"{line.partition(' #')[0]}; cat ../sums", ROOM / "none",
                                        PATH=f"{programs}:{os.environ['PATH']}") for line in finds], [(0, "")] * 2)


def run_first_program():
    """Builds and runs the program of README.md, which prints what its comment states, with the line of
    docs/MIGRATING.md."""
    (ROOM / "src").mkdir()
    manifest = '[package]\nname = "first"\nversion = "0.0.0"\nedition = "2021"\n'
    manifest += blocks("docs/MIGRATING.md", "toml")[0]
    (ROOM / "Cargo.toml").write_text(manifest.replace("/path/to/yervound", str(TOP)))
    [program], name = blocks("README.md", "rust"), "the first program"
    (ROOM / "src/main.rs").write_text(program)
    if reason := lacks("cargo"):
        skip(name, reason)
    else:
        compare(name, shell("cargo run --quiet --offline", ROOM)[1], re.search(r"// prints (.*)", program)[1] + "\n")


def check_statements():
    """Compares what docs/PROVED.md states of a single proof, the axioms, the kit, and the definition's size."""
    page = (TOP / "docs/PROVED.md").read_text()
    command, _, wanted = blocks("docs/PROVED.md", "sh")[0].strip().partition("  # ")
    compare(command, shell(f"{{ {command}; }} 2>/dev/null")[1].strip(), wanted)
    # What rt ci printed for each crate in this run, which is nothing of a proof that an earlier run has kept.
    proofs = re.split(r"^== (\w+)$", Path(os.environ.get("PROOFS", os.devnull)).read_text(), flags=re.M)
    of_crate = dict(zip(proofs[1::2], proofs[2::2]))
    rows = re.findall(r"^\| `(\w+)`: [^|]* \| (none|\d+) \|$", page, re.M)
    said = [of_crate.get(crate) or shell("rt check", TOP / "crates" / crate)[1] for crate, _ in rows]
    found = [re.findall(r"^logic=proved functions=\d+ (?:axioms=(\d+) )?target=", text, re.M) for text in said]
    compare("axioms", [count[-1:] for count in found], [["" if count == "none" else count] for _, count in rows])
    kit, *_ = shell("rt version")[1].split()
    tell("the kit", *[f"the page does not name {kit}"] * (f"`{kit}`" not in page))
    files = re.findall(r"`(\w+)`", re.search(r"The whole definition is in seven .*? lines: (.*?);", page, re.S)[1])
    lines = [(TOP / "crates/rapidhash_portable/specs" / f"{name}.antt").read_text().count("\n") for name in files]
    compare("the lines of the definition", f"{sum(lines)} lines", re.search(r"seven .*?(\d+ lines)", page, re.S)[1])


def write_repository(place):
    """Writes a user's repository, with the program of docs/RATTLE.md and the library from make vendor."""
    crate = place / "crates" / "first"
    (crate / "src").mkdir(parents=True)
    first, *others = blocks("docs/RATTLE.md", "rust")
    program = "\n".join([first.replace("    Ok(())\n", f"{CALLS}    Ok(())\n"), *others])
    (crate / "src" / "main.rt").write_text(program)
    (crate / "stdout").write_text(TUTORIAL)
    status, printed = shell(f"make -s vendor INTO='{place}'")
    tell("make vendor", *[printed[-600:]] * (status != 0))
    rows = re.findall(r"^\w+:.*\n", printed.replace("YOUR_CRATE: rapidhash", "first: rapidhash anyhow"), re.M)
    (place / "crates.txt").write_text("".join(rows))
    (place / "HANDLES").write_text("Handles allowed: none.\n")
    shell("git init -q", place)
    shell("rt fmt", crate)
    return crate


def run_program():
    """Proves and runs the program as a user does."""
    crate = write_repository(ROOM / "repository")
    shell("rt run -- 2>/dev/null", crate)
    compare("the program of docs/RATTLE.md", shell("out/first", crate)[1], TUTORIAL)


if sys.argv[1:2] == ["--repository"]:
    write_repository(Path(sys.argv[2]))
else:
    run_first_program()
    if reason := lacks("rt" if has("rt") else "cargo"):
        skip("commands", reason)
    else:
        run_shell_blocks()
    if reason := lacks("rt"):
        skip("statements of a proof", reason)
        skip("the program of docs/RATTLE.md", reason)
    else:
        check_statements()
        run_program()
finish()
