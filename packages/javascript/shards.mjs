// What a hash decides: a shard, a bucket, and the fingerprint of a table. No call needs the module.
import { whatIs, word } from "./arguments.mjs";

/** Returns a count of a call, from 1 to 2^bits - 1, as a BigInt. */
function countOf(call, count, bits) {
  const known = word(`${call}: count`, count);
  if (known < 1n || known >> BigInt(bits) > 0n)
    throw new RangeError(`${call}: count must be from 1 to 2 ** ${bits} - 1, not ${count}`);
  return known;
}

/** Returns the shard of a hash, below `count`, as a value of the type of `count`. */
export function shard(hash, count) {
  const product = word("shard: hash", hash) * countOf("shard", count, 64);
  return typeof count === "bigint" ? product >> 64n : Number(product >> 64n);
}

/** Returns the first hash of a shard, as a BigInt. */
export function firstHash(shard, count) {
  const [own, all] = [word("firstHash: shard", shard), countOf("firstHash", count, 64)];
  if (own >= all) throw new RangeError(`firstHash: shard must be below count, ${count}, not ${shard}`);
  return ((own << 64n) + all - 1n) / all;
}

/** Returns the bucket of a hash, below `count`: among more buckets it keeps its bucket, or has a new one. */
export function bucket(hash, count) {
  const all = Number(countOf("bucket", count, 32));
  let state = word("bucket: hash", hash);
  for (let at = 0, next = 0; ; at = next) {
    state = BigInt.asUintN(64, state * 2862933555777941757n + 1n);
    next = Number((BigInt(at + 1) << 31n) / ((state >> 33n) + 1n));
    if (next >= all) return at;
  }
}

/** Returns the fingerprint of hashes: their sum modulo 2^64, in any order. */
export function fingerprint(hashes) {
  if (typeof hashes?.[Symbol.iterator] !== "function" || typeof hashes === "string")
    throw new TypeError(`fingerprint: hashes must be an iterable of BigInts, not ${whatIs(hashes)}`);
  let sum = 0n;
  for (const hash of hashes) sum = BigInt.asUintN(64, sum + word("fingerprint: a hash", hash));
  return sum;
}
