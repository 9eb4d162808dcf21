#!/usr/bin/python3
# reads: packages/tools packages/rust crates scripts/install
"""Presses the tab key in bash, zsh, and fish after lines that begin with rapidhash and rapidsum, and compares the
completed line or the offers. A shell that is not installed has no cases."""

import os
import re
import shutil
import sys
from pathlib import Path

sys.path.append(str(Path(__file__).parents[3] / "tests"))
from cases import ROOM, TOP, compare, finish, has, needs, shell, tell  # noqa: E402

needs("rt" if has("rt") else "cargo", "/usr/lib/python3/dist-packages/pexpect")
import pexpect  # noqa: E402

SHARE = TOP / "packages" / "tools"
# The programs, which the completions ask for their help: the kit's, or without rt cargo's.
os.environ["PATH"] = f"{ROOM}/bin:{os.environ['PATH']}"
status, output = shell("""export MAKEFLAGS= && mkdir $ROOM/bin && make -s $KIT tool sums
    read -r tool sums < <(make -s $KIT --eval='show: ; @echo $(tools)' show)
    ln -s $PWD/$tool $ROOM/bin/rapidhash && ln -s $PWD/$sums $ROOM/bin/rapidsum""",
                       KIT="" if has("rt") else "kit=")
if status:
    tell("programs", output)
    finish()
HELP = {name: shell(f"{name} --help")[1] for name in ("rapidhash", "rapidsum")}
OPTIONS = {name: set(re.findall(r"^ .{0,5} (--[\w.-]+)", text, re.M)) for name, text in HELP.items()}
VERSIONS = set(re.search(r"values: (.*)\]", HELP["rapidsum"])[1].split(", "))

# A line before and after the tab key, in a directory with the files `only` and `-dash`. Bars separate the printed words
# of a line.
LINES = [
    ("a file", "rapidhash o", "rapidhash|only"),
    ("a file after an option", "rapidhash --v1 o", "rapidhash|--v1|only"),
    ("an option", "rapidhash --v3-m", "rapidhash|--v3-micro"),
    ("an option after a file", "rapidhash only --prot", "rapidhash|only|--protected"),
    ("a variable", "rapidhash $FOLD", f"rapidhash|{ROOM}"),
    ("a file whose name begins with a hyphen", "rapidhash -d", "rapidhash|-d"),
    ("such a file by a path", "rapidhash ./-d", "rapidhash|./-dash"),
    ("a file after the help", "rapidhash --help o", "rapidhash|--help|o"),
    ("an option after the help", "rapidhash --help --prot", "rapidhash|--help|--prot"),
    ("a second file for sums", "rapidsum only o", "rapidsum|only|only"),
    ("an option for sums", "rapidsum -c --ig", "rapidsum|-c|--ignore-missing"),
    ("a version for sums", "rapidsum -a v3-m", "rapidsum|-a|v3-micro"),
    ("a version after an equals sign", "rapidsum --algorithm=v3-m", "rapidsum|--algorithm=v3-micro"),
    ("a list of names for sums", "rapidsum --files0-from=o", "rapidsum|--files0-from=only"),
    ("a hyphen before two hyphens", "rapidsum -d", "rapidsum|-d"),
    ("a hyphen after two hyphens", "rapidsum -- -d", "rapidsum|--|-dash"),
    ("a file after the version", "rapidsum --version o", "rapidsum|--version|o"),
]

# The offers of each shell for a line, whose last word is a prefix of each.
OFFERS = [
    ("options", "rapidhash --", OPTIONS["rapidhash"] | {"--help"}),
    ("options for sums", "rapidsum --", OPTIONS["rapidsum"]),
    ("versions for sums", "rapidsum --algorithm v", VERSIONS),
]

# The arguments of each shell, the commands that it runs first, also with a user's own IFS, alias and option, and the
# function that shows the words of its line.
SHELLS = {
    "bash": (["--norc", "--noprofile", "-i"],
             ["alias grep='grep --color=always'", f". '{SHARE}/rapidhash.bash'", f". '{SHARE}/rapidsum.bash'",
              "bind 'set bell-style none'", r"IFS=$'\n'"]),
    "zsh": (["-f", "-i"],
            ["bindkey -e", "setopt no_beep no_list_beep no_auto_menu", "fpath=($FOLDER/functions $fpath)",
             "autoload -Uz compinit", "compinit -u -D", "setopt bash_rematch"]),
}
SHOW = "show() { printf '<<'; printf '%s|' \"$@\"; printf '>>\\n'; }"


def press_tabs(shell, words, lines):
    """Shows the words of each line after the tab key, with a command that Ctrl-A inserts before the line. Then compares
    the offers, which the tab key lists if there are several."""
    environment = dict(os.environ, FOLDER=str(ROOM), TERM="dumb", PS1="$ ", HOME=str(ROOM))
    environment.pop("FOLD", None)
    terminal = pexpect.spawn(shell, words, cwd=ROOM, env=environment, dimensions=(24, 200), encoding="utf-8",
                             timeout=20)
    for line in [*lines, SHOW, "show ready"]:
        terminal.send(f"{line}\r")
    terminal.expect_exact("<<ready|>>\r\n")
    for name, line, wanted in LINES:
        terminal.send(f"{line}\t\x01show \x05\r")
        terminal.expect([r"<<([^\r]*)\|>>\r\n", pexpect.TIMEOUT])
        found = terminal.match[1].rstrip("/") if terminal.match_index == 0 else terminal.before
        compare(f"{shell}: {name}", found, wanted)
    for name, line, wanted in OFFERS:
        terminal.send(f"{line}\t\t\x15show offered\r")
        terminal.expect_exact("<<offered|>>\r\n")
        offers = re.findall(rf"(?<!\S){line.split()[-1]}[\w.-]+", terminal.before)
        compare(f"{shell}: {name}", set(offers), wanted)
    terminal.close(force=True)


def ask_fish():
    """Compares fish's offers. Omits a variable, which fish describes, and an option after --help, which it offers."""
    sources = "".join(f"source '{SHARE}/{name}.fish'; " for name in ("rapidhash", "rapidsum"))
    single = [(name, line, [] if line.replace(" ", "|") == words else [words.rpartition("|")[2]])
              for name, line, words in LINES if "$" not in line and "--help --" not in line]
    for name, line, wanted in single + OFFERS + [("a second version", "rapidhash --v1 --v", [])]:
        _, printed = shell('fish --no-config -c "$COMMANDS"', ROOM, COMMANDS=f"{sources} complete -C '{line}'")
        compare(f"fish: {name}", {row.partition("\t")[0] for row in printed.splitlines()}, set(wanted))


found = re.findall(r"\bv\d[\w.-]*\b", (SHARE / "rapidsum.1").read_text().replace("\\-", "-"))
compare("versions of the manual", set(found), VERSIONS)
for made in ("only", "-dash"):
    (ROOM / made).touch()
(ROOM / "functions").mkdir()
for program in ("rapidhash", "rapidsum"):
    shutil.copy(SHARE / f"{program}.zsh", ROOM / "functions" / f"_{program}")
for program, how in SHELLS.items():
    if shutil.which(program):
        press_tabs(program, *how)
# In a shell that ends when a command fails, a program that is not on the PATH does not end it.
for program in HELP:
    run = f"{program}() {{ false; }}; . '{SHARE}/{program}.bash'; COMP_WORDS=(./{program} ''); COMP_CWORD=1; _{program}"
    compare(f"bash: no {program}", shell('bash -euo pipefail -c "$RUN"', RUN=run), (0, ""))
if shutil.which("fish"):
    ask_fish()
finish()
