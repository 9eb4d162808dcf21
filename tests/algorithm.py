#!/usr/bin/env python3
# reads: docs scripts/fields.py tests/fields.tsv tests/model.py crates/test_replay/data packages/c/include
"""Compares the hashes of model.py with the values of the upstream crate in the files of cases and on docs/ALGORITHM.md,
and with the C header's hashes of messages above 100,000 bytes."""

import ctypes
import re
import sys

from cases import ROOM, TOP, compare, finish, lacks, shell, skip, tell
from model import (PAGE, S, bucket, drawn, drawn_by_time, field_bytes, fingerprint, first_hash, hash_of, hashed_items,
                   made_secrets, message, saved, secrets_of, seed_source, shard)

sys.path.append(str(TOP / "scripts"))
from fields import made  # noqa: E402


# Upstream's hashes of 2^32 + 205 bytes of 0, and of the key that has them. Without the upper bits of the length the
# hash would be that of 205 bytes: more than a stream takes into its buffer.
LONG = {("hash", "v1"): 11246987188218965133, ("hash", "v2_0"): 5529583638319163554,
        ("hash", "v2_1"): 5529583638319163554, ("hash", "v2_2"): 5529583638319163554,
        ("hash", "v3"): 15840509470265968530, ("hash", "v3_micro"): 15985150752381399984,
        ("hash", "v3_nano"): 10837033937540029418, ("hash", "v3_protected"): 7473375221130942755,
        ("key", "v3"): 16330010940139620822}
HEADER = (TOP / "packages" / "c" / "include" / "rapidhash_c.h").read_text()


def decided(kind, number, count):
    """Computes a shard, the first hash of one, or a bucket."""
    if count == 0 or kind == "bucket" and count >= 2**32 or kind == "first_hash" and number >= count:
        return "refused"
    return {"shard": shard, "first_hash": first_hash, "bucket": bucket}[kind](number, count)


def played(version, operations, seed, secrets):
    """Computes the hashes and the saved bytes of a stream's operations. Yields also what is refused but saved."""
    content, source, last = b"", b"", (b"", b"")
    for operation in operations.split():
        kind, digits = operation[0], operation[1:]
        if kind == "w":
            content += bytes.fromhex(digits)
        elif ":" in operation and kind in "sr":
            source = message(operation)
        elif operation.isdigit():
            content, source = content + source[: int(operation)], source[int(operation) :]
        elif kind == "r":
            content = b""
        elif kind == "f":
            yield hash_of(version, content, seed, secrets)
        elif kind == "s":
            last = content, saved(version, content, seed, secrets)
            yield last[1].hex()
        elif kind == "=":
            content = last[0] if bytes.fromhex(digits) == last[1] else None
        elif kind == "!" and bytes.fromhex(digits) == last[1] or kind not in "!~^+":
            yield operation


DRAWN = {"made": made_secrets, "source": seed_source, "time": drawn_by_time,
         "draws": lambda seed, count: drawn(seed, count) + drawn(seed, count, False)[:-1],
         "steps": lambda first, second: [(second - first) * pow(S[0], -1, 2**64) % 2**64]}


def computed(kind, version, rule, argument):
    """Computes the values of a line, or upstream's of a message above 4 GiB."""
    if argument.startswith("zeros:"):
        return [LONG.get((kind, version))]
    if kind == "fingerprint":
        return [fingerprint(map(int, argument.strip("-").split()))]
    if version == "-":
        numbers = [*map(int, argument.split())]
        return DRAWN[kind](*numbers) if kind in DRAWN else [decided(kind, *numbers)]
    call, _, number = rule.partition(":")
    seed, *secrets = secrets_of(call, number, version[:2] == "v1")
    if kind == "secrets":
        return [seed, *secrets]
    if kind == "stream":
        return played(version, argument, seed, secrets)
    if kind == "items":
        return [hashed_items(version, argument.strip("-").split(), seed, secrets)]
    is_key = kind == "key"
    content = b"".join(map(field_bytes, argument.strip("()").split())) if is_key else message(argument)
    return [hash_of(version, content, seed, secrets)]


def differences(path):
    """Yields the cases of a file whose values differ."""
    _, *rows = [line.split("\t") for line in path.read_text().splitlines() if not line.startswith("#")]
    for *case, value in rows:
        if (found := " ".join(map(str, computed(*case)))) != value:
            yield f"{case}: {found}, and not {value}"
        compared.append(case)


IN_C = r"""
#define RAPIDHASH_IMPLEMENTATION
#include "rapidhash_c.h"
uint64_t in_pieces(const uint8_t *bytes, size_t len, const struct rapidhash_secrets *own, size_t lanes)
{
    struct rapidhash_stream stream;
    size_t piece;
    rapidhash_stream_start_(&stream, lanes, own);
    for (piece = 1; piece < len; bytes += piece, len -= piece, piece = 3 * piece + 1)
        rapidhash_stream_write(&stream, bytes, piece);
    rapidhash_stream_write(&stream, bytes, len);
    return rapidhash_stream_finish(&stream);
}
"""


def differences_in_c(length):
    """Yields the hashes of the C header that differ for a message of a length, whole and in growing pieces."""
    content = message(f"random:{length}")
    lanes = dict(re.findall(r" X\((\w+), (\d)\)", HEADER))
    names = re.findall(r" X\((\w+), rapidhash", HEADER)
    if (len(names), len(lanes)) != (8, 3):
        yield f"the header has the versions {names} and the streams {lanes}"
    for name in names:
        numbers = secrets_of("make", length, name == "v1")
        arguments = content, ctypes.c_size_t(length), (ctypes.c_uint64 * 8)(*numbers)
        wanted = hash_of(name, content, numbers[0], numbers[1:])
        calls = [(f"rapidhash_{name}_with_secrets", *arguments)]
        calls += [("in_pieces", *arguments, ctypes.c_size_t(int(lanes[name])))] if name in lanes else []
        for call_name, *arguments in calls:
            call = ctypes.CDLL(ROOM / "header.so")[call_name]
            call.restype = ctypes.c_uint64
            if (found := call(*arguments)) != wanted:
                yield f"{call_name} of {length} bytes, {name}: {found}, and not {wanted}"


DATA = TOP / "crates" / "test_replay" / "data"
compared = []
for path in sorted(DATA.glob("*.tsv")):
    tell(path.stem, *differences(path))
listed = [len(re.findall("^[^#]", path.read_text(), re.M)) - 1 for path in DATA.glob("*.tsv")]
compare("cases_of_all_files", len(compared), sum(listed))
NAMED = {"micro": "v3_micro", "nano": "v3_nano", "V1": "v1", "V3": "v3"} | {f"V2.{k}": f"v2_{k}" for k in range(3)}
rows = re.findall(r"^\| (\S+) \| ([^|\d]*)(?:(\d+) bytes)? \| (\d{15,}) \|$", PAGE, re.M)
for version, rule, size, value in rows:
    text = b"something\n" if "something" in rule else message(f"square:{size or 0}")
    seed, *secrets = secrets_of("default", "", version == "V1")
    compare(f"{version} of {rule}{size}", hash_of(NAMED[version], text, seed, secrets), int(value))
compare("values_on_the_page", len(rows), 5)
saved_rows = re.findall(r"^\| (\d+) \| (\d+) \| ", (TOP / "docs" / "BINDINGS.md").read_text(), re.M)
ends = [int(offset) + int(size) for offset, size in saved_rows]
compare("offsets of a saved stream on its page", [*map(int, dict(saved_rows)), 208], [0, *ends])
compare("values_of_types", (TOP / "tests/fields.tsv").read_text().splitlines(), [*made()])
if lacks("cc"):
    skip("long messages in C", lacks("cc"))
else:
    status, said = shell(f"cc -O2 -shared -fPIC -Ipackages/c/include -x c - -o '{ROOM}/header.so' <<'C'\n{IN_C}\nC")
    tell("long messages in C", *[said] * status,
         *(found for length in (100_003, 262_160, 1_000_001) for found in differences_in_c(length)))
finish()
