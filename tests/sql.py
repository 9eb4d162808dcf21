"""The common part of the tests of both SQL databases: known values, the vectors, and the examples on their pages."""

import os
import re
import runpy
import shutil
import subprocess
from pathlib import Path

from cases import ROOM, TOP, blocks, compare, shell, tell
from model import hash_of, secrets_of

HELLO = 3327445792987248966
NOTHING = 232177599295442350
TEXT, TEXT_HASH = "héllo €😀", 7424989580978448810
# All versions, and those that SQL also has as aggregates.
HEADER = (TOP / "packages/c/include/rapidhash_c.h").read_text()
VERSIONS = re.findall(r"X\((\w+),", re.search(r"define RAPIDHASH_C_VERSIONS\(X\)((?:.*\\\n)*.*)", HEADER)[1])
STREAMS = re.findall(r"X\((\w+)", re.search(r"define RAPIDHASH_C_STREAMS\(X\) (.*)", HEADER)[1])
# The digits of a hash as an SQL integer: those of HELLO, and of words with leading zeros and with the highest bit.
DIGITS = {HELLO: "2e2d7651b45f7946", 0: "0" * 16, 2**32: "0000000100000000", -1: "f" * 16, -2**62: "c" + "0" * 15}
# The tools of a copy of the PostgreSQL server, the directory of its databases, which also contains its socket, and the
# start of its commands, which root may not run.
SERVER = "pg_config psql setpriv /usr/lib/postgresql/*/bin/initdb /usr/include/postgresql/*/server/postgres.h".split()
DATA = ROOM / "data"
NOBODY = "setpriv --reuid=65534 --regid=65534 --clear-groups " if os.geteuid() == 0 else ""
# The encoding of a value of a type, as hexadecimal digits or `refused`, by the rule for all languages.
ENCODING = runpy.run_path(str(TOP / "scripts/fields.py"))["encoding"]


def unpack(folder, binding):
    """Lays out the header in a directory with the source of a binding, as in the archive. Returns the command that the
    archive's page has for it."""
    shell(f"mkdir -p '{folder}' && cp -r --parents packages/c/include packages/{binding} '{folder}'")
    page = (TOP / "packages/archive/README.md").read_text()
    return re.search(rf"^\| `packages/{binding}` .*`((?:cc|make) .*)`", page, re.M)[1]


def signed(number):
    """Returns the SQL integer with the 64 bits of a hash."""
    return number - (number >> 63 << 64)


def key_of(encoding):
    """Returns the key with an encoding by the model, as SQL has it, or `refused`."""
    seed, *secrets = secrets_of("default", "", False)
    return encoding if encoding == "refused" else signed(hash_of("v3", bytes.fromhex(encoding), seed, secrets))


def values_of_types():
    """Returns the types, values and encodings of fields that every language has."""
    lines = (TOP / "tests/fields.tsv").read_text().splitlines()
    return [line.split("\t") for line in lines if not line.startswith("#")][1:]


def pieces(message):
    """Yields a message in pieces of 1, 2, 3 bytes, and so on."""
    at, size = 0, 1
    while at < len(message):
        yield message[at:at + size]
        at, size = at + size, size + 1


def rows():
    """Yields the cases that every language has, but those of kinds for which SQL has no calls: secrets and streams. It
    has no calls with secrets of one's own, no count above 2^63 - 1, and no statement with a message of a megabyte."""
    for line in (TOP / "crates/test_replay/data/cases.tsv").read_text().splitlines():
        kind, _, rest = line.partition("\t")
        if kind == "kind" or line.startswith("#"):
            continue
        version, rule, argument, value = rest.split("\t")
        is_left_out = rule.startswith("own:") or argument.startswith("zeros:")
        is_left_out |= argument in ("ramp:100003", "ramp:1000001")
        is_left_out |= version == "-" and kind != "fingerprint" and int(argument.split()[1]) >= 2**63
        if kind not in ("secrets", "stream") and not is_left_out:
            yield kind, version, rule, argument, value


def hash_queries(literal, integer, version, rule, argument, value):
    """Yields queries for a hash. A message is an argument as bytes, and if it has 8 of them also as an integer. If the
    version has an aggregate, a further query hashes the message in pieces."""
    name = f"rapidhash_{version}" + "_with_secrets" * rule.startswith("make:")
    seed = "".join(f", {signed(int(word))}" for word in rule.split(":")[1:])
    is_ramp = argument.startswith("ramp:")
    message = bytes(at % 251 for at in range(int(argument[5:]))) if is_ramp else bytes.fromhex(argument.strip("-"))
    calls = [f"{name}({literal(message)}{seed}) AS hash"]
    if len(message) == 8:
        calls.append(f"{name}({integer(int.from_bytes(message, 'little', signed=True))}{seed}) AS hash")
    if name[10:] in STREAMS and message:
        values = ", ".join(f"({literal(piece)})" for piece in pieces(message))
        calls.append(f"{name}_agg(column1{seed}) AS hash FROM (VALUES {values}) AS pieces")
    wanted = signed(int(value))
    for call in calls:
        yield (f"SELECT (hash, rapidhash_hex(hash)) = ({wanted}, '{wanted % 2**64:016x}') "
               f"FROM (SELECT {call}) AS found;")


def key_query(literal, integer, rule, argument, value):
    """Returns a query for a key."""
    fields = ["NULL" if text == "-" else literal(bytes.fromhex(text[1:])) if text[0] == "x" else integer(int(text))
              for text in argument.split()]
    name, _, word = rule.partition(":")
    name = {"default": "", "word": "_with_seed", "make": "_with_secrets"}[name]
    words = [integer(signed(int(word)))] if word else []
    return f"SELECT rapidhash_v3_key{name}({', '.join(words + fields)}) = {signed(int(value))};"


def decision(integer, kind, argument):
    """Returns a call for a shard, the first hash of one, or a bucket."""
    first, count = map(int, argument.split())
    return f"rapidhash_{kind}({integer(signed(first) if kind != 'first_hash' else first)}, {integer(count)})"


def case_queries(literal, integer):
    """Yields a query for each case that SQL has a call for, whose result must be true."""
    count, versions = 0, set()
    for kind, version, rule, argument, value in rows():
        count += 1
        if kind == "hash":
            versions.add(version)
            yield from hash_queries(literal, integer, version, rule, argument, value)
        elif kind == "fingerprint":
            values = ", ".join(f"({integer(signed(int(hash)))})" for hash in ["0", *argument.strip("-").split()])
            yield f"SELECT rapidhash_fingerprint(column1) = {signed(int(value))} FROM (VALUES {values}) AS hashes;"
        elif kind == "key" and argument != "()":
            yield key_query(literal, integer, rule, argument, value)
        elif kind in ("shard", "bucket", "first_hash") and value != "refused":
            yield f"SELECT {decision(integer, kind, argument)} = {signed(int(value))};"
        elif kind != "key" and value != "refused":
            raise ValueError(kind)
    compare("versions_with_cases", versions, set(VERSIONS))
    tell("count_of_cases", *[count] * (count < 3700))


def refused_calls(integer):
    """Returns the calls of the cases that are refused."""
    return [decision(integer, kind, argument) for kind, _, _, argument, value in rows() if value == "refused"]


def lines_with_results(page):
    """Returns the queries of a page that state their results, with these results."""
    return re.findall(r"^(SELECT .*?); *-- (-?\w+)$", "".join(blocks(page, "sql")), re.M)


def start_server():
    """Starts a copy of the machine's PostgreSQL server and returns the command that stops it."""
    binaries, shared = (Path(shell(f"pg_config --{name}")[1].strip()) for name in ("bindir", "sharedir"))
    ROOM.chmod(0o755)
    for folder in (binaries.parent, shared):
        shutil.copytree(folder, ROOM / folder.relative_to("/"))
    DATA.mkdir()
    if NOBODY:
        shutil.chown(DATA, 65534, 65534)
    run = f"{NOBODY}env -i LC_ALL=C.UTF-8 {ROOM / binaries.relative_to('/')}"
    options = f"-c listen_addresses= -c unix_socket_directories={DATA} -c fsync=off"
    status, printed = shell(f"{run}/initdb -D {DATA} --no-sync --auth=trust -E UTF8 -U test && "
                            f"{run}/pg_ctl -D {DATA} -w -l {DATA}/log -o '{options}' start", "/")
    tell("server", *printed.splitlines()[-5:] * (status != 0))
    return f"{run}/pg_ctl -D {DATA} -m fast stop"


def ask(query):
    """Returns the resulting lines of a query to it, or its error."""
    words = ["psql", "-XAtq", "-h", DATA, "-U", "test", "-d", "postgres", "-v", "ON_ERROR_STOP=1", "-f", "-"]
    done = subprocess.run(words, input=query, stdout=subprocess.PIPE, stderr=subprocess.STDOUT, text=True)
    return done.stdout.splitlines()
