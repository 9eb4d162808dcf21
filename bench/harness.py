"""Builds programs that do the same work, links each in several orders, runs them alternately, and prints the times in
the format of bench/*.tsv. Where the linker puts a function decides up to a half of its time at short lengths, on
processors on which a jump that touches a multiple of 32 bytes costs extra. So a time is the mean of all layouts, of
each of which the least of all turns counts."""

import argparse
import datetime
import itertools
import os
import re
import shlex
import subprocess
import sys
from pathlib import Path
from statistics import fmean, geometric_mean

TOP = Path(__file__).resolve().parent.parent
ROOM = TOP / "build" / "bench"
# This library, its Rust crate, the crate rapidhash if RAPIDHASH_CRATE names its directory, xxHash, SHA-256.
LIBRARIES = "ours rust crate xxh3 sha256".split()
CRATES = {"rust": TOP / "packages" / "rust"}
if "RAPIDHASH_CRATE" in os.environ:
    CRATES["crate"] = Path(os.environ["RAPIDHASH_CRATE"]).resolve()
# The lengths of the rows in C and Rust: all messages have this one, or one in this range.
LENGTHS = "0 3 4 8 12 16 17 24 32 48 64 100 112 113 160 256 512 1024 4096 16384 65536 1-16 8-16 1-32 1-64 1-300".split()
# The commands that print the version of a compiler or rival.
VERSIONS = {"gcc": ["gcc", "-dumpfullversion"], "clang": ["clang", "-dumpversion"],
            "xxHash": ["pkg-config", "--modversion", "libxxhash"]}
LAYOUTS = 16
# How a profile differs from cargo's default release profile.
PROFILES = {"release": [], "lto": ["--config=profile.release.lto='fat'", "--config=profile.release.codegen-units=1"]}
MANIFEST = """[package]
name = "program"
version = "0.0.0"
edition = "2024"

[[bin]]
name = "program"
path = "{source}"

[dependencies]
{dependencies}

[workspace]
"""


def run(*words, folder=ROOM, **settings):
    """Runs a build command and exits if it fails."""
    ROOM.mkdir(parents=True, exist_ok=True)
    done = subprocess.run(words, cwd=folder, stdin=subprocess.DEVNULL, capture_output=True, text=True, **settings)
    if done.returncode != 0:
        sys.exit((done.stdout + done.stderr)[-4000:])
    return done.stdout.strip()


def with_versions(*names):
    """Returns the names of compilers and rivals with their versions."""
    return "with " + ", ".join(f"{name} {run(*VERSIONS[name])}" for name in names)


def depend(name, crate):
    """Returns the line of a manifest that gives a crate a name."""
    package = re.search(r'^name = "(.*)"', (CRATES[crate] / "Cargo.toml").read_text(), re.MULTILINE)[1]
    return f'{name} = {{ package = "{package}", path = "{CRATES[crate]}" }}'


def in_layouts(link, program):
    """Links a program in each layout by the words of a command of lld, without the output, and returns the programs."""
    programs = [program.with_name(f"{program.name}_{layout}") for layout in range(1, LAYOUTS + 1)]
    for layout, linked in enumerate(programs, 1):
        run(*link, "-fuse-ld=lld", f"-Wl,--shuffle-sections=.text*={layout}", "-o", linked)
    return programs


def build_program(room, source, dependencies, profile):
    """Builds a Rust program in a directory of its own. Returns it, and the words of the command that linked it."""
    room = ROOM / room
    room.mkdir(parents=True, exist_ok=True)
    (room / "Cargo.toml").write_text(MANIFEST.format(source=TOP / "bench" / source, dependencies=dependencies))
    words = ["--release", *PROFILES[profile], "--offline", "--quiet"]
    run("cargo", "clean", "--release", "--package", "program", "--offline", "--quiet", folder=room)
    link = shlex.split(run("cargo", "rustc", *words, "--", "--print=link-args", "-Csave-temps", folder=room))
    at = link.index("-o")
    return room / "target" / "release" / "program", link[link.index("cc"):at] + link[at + 2:]


def build_rust(name, source):
    """Builds the program from a source with the crate of this name, in the default release profile."""
    return build_program(f"{Path(source).stem}_{name}", source, depend("rapidhash", name), "release")[0]


def build_rows(profile):
    """Builds the program that runs the rows of this crate and of the crate rapidhash in turn, in each layout."""
    if "crate" not in CRATES:
        sys.exit("bench: RAPIDHASH_CRATE must name the directory of the crate rapidhash")
    dependencies = "\n".join([depend("rapidhash", "rust"), depend("upstream", "crate")])
    program, link = build_program(f"rows_{profile}", "rust.rs", dependencies, profile)
    return in_layouts(link, program)


def wheel(name):
    """Unpacks a wheel that `make wheel` built, and returns its directory."""
    file = next((TOP / "build" / "wheels").glob(f"*{name}*.whl"))
    run("/usr/bin/python3", "-m", "zipfile", "-e", str(file), name)
    return ROOM / name


def random_file(name, megabytes):
    """Writes a file of random bytes, and returns its path."""
    run("dd", "if=/dev/urandom", f"of={name}", "bs=1M", "iflag=fullblock", f"count={megabytes}")
    return ROOM / name


def parse_arguments(usage, known, turns):
    """Returns the known words of the command line, or none if it requests everything, and the number of turns."""
    parser = argparse.ArgumentParser(description=usage, formatter_class=argparse.RawDescriptionHelpFormatter)
    parser.add_argument("words", nargs="*", metavar="WORD", help=f"any of: {' '.join(known)}")
    parser.add_argument("--turns", type=int, default=turns, help="how many turns, of which the least counts")
    parsed = parser.parse_args()
    for word in parsed.words:
        if word not in known:
            parser.error(f"{word} is no word of this bench")
    return parsed.words, parsed.turns


def print_heading(title):
    """Prints a title and the commit, then the processor with its speed, described for a comparison with others, and the
    date."""
    fields = dict(re.findall(r"^(.+?)\s*: (.+)", Path("/proc/cpuinfo").read_text(), re.M))
    speed = f" @ {float(fields['cpu MHz']) / 1000:.2f}GHz" if "GHz" not in fields["model name"] else ""
    where = f"family {fields['cpu family']}, model {fields['model']}, stepping {fields['stepping']}"
    print(f"# {title}, at commit {run('git', 'rev-parse', '--short', 'HEAD', folder=TOP)}.")
    print(f"# {fields['model name']}{speed} ({where}), {os.cpu_count()} cores, {datetime.date.today()}")


def keep_least(best, times):
    """Keeps the least time per library."""
    best.update({name: min(time, best.get(name, time)) for name, time in times.items()})


def measure(title, unit, rows, work, turns):
    """Prints the minimum times of all turns. For each of the ROWS, in each turn, WORK returns a name and the times per
    library. So a slow moment of the machine affects a row in few of its turns."""
    best = {}
    for _ in range(turns):
        for row in rows:
            what, times = work(*row)
            keep_least(best.setdefault(what, {}), times)
    print_heading(f"{title}, the least of {turns} turns")
    names = [name for name in LIBRARIES if any(name in times for times in best.values())]
    rows = [(what.rpartition(" ")[0], what, times) for what, times in best.items()]
    print_table(unit, names, rows, [("crate", "ours")], 2)


def mean_ratio(rows, ours="ours", other="crate"):
    """Returns the geometric mean of the other library's ratios."""
    return geometric_mean(times[other] / times[ours] for times in rows)


def print_table(unit, names, rows, ratios, needed):
    """Prints the ROWS of a file of figures, each a group, a name and its times. Prints the mean of each of the RATIOS
    of two libraries for each group that has the needed number of rows."""
    print("what", "unit", *names, sep="\t")
    groups = {}
    for group, what, times in rows:
        print(what, unit, *(f"{times[name]:.2f}" if name in times else "" for name in names), sep="\t")
        groups.setdefault(group, []).append(times)
    for group, of_group in groups.items():
        for other, ours in ratios:
            if group and len(of_group) >= needed and all(other in times and ours in times for times in of_group):
                print(f"# {group}: mean of {other}/{ours} {mean_ratio(of_group, ours, other):.3f}")


def alternate(commands, words, turns, lengths=("",)):
    """Runs commands that print rows (group, name, nanoseconds) alternately. Returns the least time of each layout,
    keyed by the build and the group, by the row, and by the library. The commands, one for each layout, are keyed by
    build and library, which a row may state before its nanoseconds. With lengths, a command has one of them as its last
    word, and all turns of a length follow one another."""
    best, layouts = {}, max(map(len, commands.values()))
    for length, layout, _ in itertools.product(lengths, range(layouts), range(turns)):
        for (build, library), programs in commands.items():
            command = [*programs[layout % len(programs)], *words, *[length] * (length != "")]
            for line in subprocess.check_output(command, text=True).splitlines():
                group, name, *of, nanos = line.split("\t")
                of_row = best.setdefault((build, group), {}).setdefault(name, {})
                keep_least(of_row.setdefault((*of, library)[0], {}), {layout: float(nanos)})
    return best


def over_layouts(times, ours, other):
    """Returns the mean time of each library over the layouts, and the lowest and the highest ratio of a layout, if
    there are several."""
    means = {library: fmean(of_layouts.values()) for library, of_layouts in times.items()}
    if len(times[ours]) > 1 and other in times:
        ratios = [times[other][layout] / times[ours][layout] for layout in times[ours]]
        means |= {"lowest": min(ratios), "highest": max(ratios)}
    return means


def print_rows(title, best, ours, others):
    """Prints the rows of alternate: for each length the mean over its loops, then each loop, and per group the mean of
    the ratios."""
    rows, each = [], []
    for (build, group), of_group in best.items():
        loops = {}
        for name, times in of_group.items():
            length, _, loop = re.fullmatch("(.*?)( (sum|chain|call))?", name).groups()
            loops.setdefault(length, []).append(over_layouts(times, ours, others[0]))
            each += [("", f"{group} {name}, {build}", loops[length][-1])] * (loop is not None)
        for length, of_loops in loops.items():
            means = {it: geometric_mean(times[it] for times in of_loops) for it in of_loops[0]}
            rows.append((f"{group}, {build}", f"{group} {length}, {build}", means))
    print_heading(title)
    extremes = ["lowest", "highest"] * any("lowest" in times for *_, times in rows)
    print_table("ns", [ours, *others, *extremes], rows + each, [(other, ours) for other in others], 1)


def count(program, *words):
    """Returns the instructions and the taken jumps of the function `counted` of a program, by callgrind."""
    found = ROOM / "callgrind.out"
    run("valgrind", "--tool=callgrind", "--toggle-collect=counted", "--collect-jumps=yes", "--dump-instr=yes",
        f"--callgrind-out-file={found}", program, *words)
    text = found.read_text()
    jumps = re.findall(r"^(?:jump=(\d+)|jcnd=(\d+)/)", text, re.M)
    return int(re.search(r"^totals: (\d+)", text, re.M)[1]), sum(int(one or other) for one, other in jumps)


def read_figures(name):
    """Returns the comments in a file of figures, and its times per row and library."""
    lines = (TOP / "bench" / f"{name}.tsv").read_text().splitlines()
    told = [line.removeprefix("# ") for line in lines if line.startswith("#")]
    head, *rows = (line.split("\t") for line in lines if not line.startswith("#"))
    return told, {row[0]: {key: float(time) for key, time in zip(head[2:], row[2:]) if time} for row in rows}
