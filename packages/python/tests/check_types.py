"""Lines that mypy must accept, except those with a comment that names an error, which it must refuse. An unneeded
comment is an error too. packages/python/tests/python.sh runs mypy; nothing runs this file."""

from __future__ import annotations

import mmap
from array import array

import rapidhash
from rapidhash import Secrets, SecretsV1, V3, V3Micro

made: Secrets = rapidhash.make_secrets(1)
made_v1: SecretsV1 = rapidhash.make_secrets(1, version=1)
words: tuple[int, ...] = (made.seed, *made_v1.secrets)

total: int = rapidhash.v3(b"") + rapidhash.v3(bytearray(), 7) + rapidhash.v3(memoryview(b""), secrets=made)
total += rapidhash.v1(array("Q", words), secrets=made_v1) + rapidhash.v3_protected(b"", secrets=made)
rapidhash.v3(7)  # type: ignore[arg-type]
rapidhash.v3(b"", seed=1.5)  # type: ignore[arg-type]
rapidhash.v1(b"", secrets=made)  # type: ignore[arg-type]
rapidhash.make_secrets(1, 99)  # type: ignore[call-overload]
made.seed = 1  # type: ignore[misc]

hasher: V3Micro = V3Micro(b"", seed=1).update(b"").copy()
column: array[int] = rapidhash.each(["text", b""], "v1", seed=7)
column = rapidhash.each_row(b"", 8, out=column)
room: bytearray = rapidhash.each_slice(b"", array("i"), secrets=made, out=bytearray())
column = rapidhash.each(["text", None], missing=0)
room = rapidhash.each([""], "v1", None, made_v1, room, 0)
room = rapidhash.each_row(b"", 8, "v3", 7, None, room)
room = rapidhash.each_slice(b"", array("i"), "v3", None, None, room, b"", 0)
column = rapidhash.each_slice(b"", array("i"), validity=b"", missing=0)


class Lent:
    def __arrow_c_array__(self, requested_schema: object | None = None) -> tuple[object, object]:
        raise NotImplementedError


column = rapidhash.each(Lent(), missing=0)
column = rapidhash.each_key(Lent(), [1])
column = rapidhash.shard([1, 2], 16)
column = rapidhash.first_hash(rapidhash.bucket(column, 7, out=column), 7)
total += rapidhash.shard(7, 16) + rapidhash.first_hash(3, 7) + rapidhash.fingerprint([7])


class Typed:
    dtype = "uint64"

    def __len__(self) -> int:
        return 0

    def __eq__(self, other: object) -> Typed:  # type: ignore[override]
        return self


mask: Typed = rapidhash.shard(rapidhash.each_key(Typed(), [1]), 100) == 0
rapidhash.shard("7", 10)  # type: ignore[arg-type]
rapidhash.each([7])  # type: ignore[list-item]
rapidhash.v3_key(1.5)  # type: ignore[arg-type]
rapidhash.each([], "v99")  # type: ignore[call-overload]
digits: str = rapidhash.v3_hexdigest("text", seed=1) + rapidhash.v1_hexdigest(b"", secrets=made_v1)

text: str = hasher.hexdigest() + hasher.name + rapidhash.__version__
size: int = hasher.intdigest() + hasher.block_size + V3.digest_size
restored: V3Micro = V3Micro.restore(bytearray(hasher.save()), secrets=made)
restored.__setstate__((hasher.save(), None, made, {}, {}))
V3.restore("text")  # type: ignore[arg-type]
V3(secrets=made_v1)  # type: ignore[arg-type]

with open("file", "rb") as file:
    by_default: V3 = rapidhash.file_digest(file)
    micro: V3Micro = rapidhash.file_digest(file, lambda: V3Micro(seed=7))
    total += rapidhash.v2_2(mmap.mmap(file.fileno(), 0))
with open("file") as lines:
    rapidhash.file_digest(lines)  # type: ignore[call-overload]
