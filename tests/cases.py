"""The common start of the Python test scripts: `ROOM`, a temporary directory that is removed when the script ends, and
functions that print cases in the Test Anything Protocol (TAP), run commands, and find code blocks. `TOP` is the
repository."""

import atexit
import glob
import os
import re
import shutil
import subprocess
import sys
import tempfile
from pathlib import Path

sys.dont_write_bytecode = True
TOP = Path(__file__).resolve().parent.parent
_room = tempfile.TemporaryDirectory(ignore_cleanup_errors=True)
atexit.register(_room.cleanup)
ROOM = Path(_room.name)
results = []


def tell(name, *findings):
    """Prints a case, which fails if there are findings."""
    results.append(not findings)
    reasons = [f"# {line}" for finding in findings[:20] for line in str(finding).splitlines()]
    print("not " * bool(findings) + f"ok - {' '.join(name.split())}".replace("#", ""), *reasons, sep="\n", flush=True)


def skip(name, reason):
    """Prints a case that cannot run on this machine."""
    results.append(True)
    print(f"ok - {name} # SKIP {reason}", flush=True)


def has(tool):
    """Returns whether a program is on the PATH, or a file has a name that matches a pattern."""
    return bool(glob.glob(tool) if tool[0] == "/" else shutil.which(tool))


def lacks(*tools):
    """Returns the first of these tools that is missing, with its package in .ci/packages, or nothing."""
    rows = [line.split() for line in (TOP / ".ci/packages").read_text().splitlines() if line[:1] not in ("", "#")]
    packages = {tool: package for package, *found in rows for tool in found}
    missing = [tool for tool in tools if not has(tool)]
    return f"no {missing[0]} ({packages[missing[0]]})" if missing else None


def compare(name, found, wanted):
    """Prints a case, which passes if both values are equal."""
    tell(name, *[f"{found!r} is not {wanted!r}"] * (found != wanted))


def shell(command, folder=TOP, **variables):
    """Runs a command and returns its exit status and output."""
    environment = dict(os.environ, YERVOUND=str(TOP), ROOM=str(ROOM), **variables)
    done = subprocess.run(["bash", "-ec", command], cwd=folder, env=environment, stdin=subprocess.DEVNULL,
                          stdout=subprocess.PIPE, stderr=subprocess.STDOUT, text=True)
    return done.returncode, done.stdout


def blocks(page, language):
    """Returns the code blocks of a page in a language, or in any of several languages separated by bars."""
    return re.findall(rf"^```(?:{language})\n(.*?)^```$", (TOP / page).read_text(), re.M | re.S)


def finish():
    """Prints the number of cases and exits with status 1 if one failed."""
    print(f"1..{len(results)}")
    sys.exit(not all(results))


def skip_all(reason):
    """Ends a script that cannot run on this machine."""
    print(f"1..0 # SKIP {reason}")
    sys.exit()


def needs(*tools):
    """Ends a script that cannot run without these tools."""
    if reason := lacks(*tools):
        skip_all(reason)
