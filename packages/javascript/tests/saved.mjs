// Tests why saved hashers are refused, in Node and in browsers. The file of cases has the bytes that are.
import assert from "node:assert/strict";
import { test } from "node:test";

import { loadSync } from "yervound-rapidhash";

const library = loadSync();
const other = Uint8Array.from({ length: 300 }, (_, at) => at);
const format = "expected a saved hasher, and of this version of the format";
const changed = "the saved hasher was changed, or has another seed or other secrets";

/** Checks that a hasher refuses bytes for a reason and keeps its message. */
function refuse(hasher, saved, message) {
  const hash = hasher.digest();
  assert.throws(() => hasher.load(saved), { name: "TypeError", message });
  assert.equal(hasher.digest(), hash);
}

test("reasons", () => {
  const hasher = new library.V3().update(other);
  const saved = hasher.save();
  for (const [at, reason] of [[0, format], [7, format], [10, changed], [199, changed], [207, changed]]) {
    saved[at] ^= 1;
    refuse(hasher, saved, reason);
    saved[at] ^= 1;
  }
  for (const options of [{ seed: 1 }, { secrets: library.makeSecrets(1n) }])
    refuse(new library.V3(options), saved, changed);
});

test("other bytes", () => {
  const hasher = new library.V3Micro().update("hello");
  const saved = hasher.save();
  const sizes = [[new Uint8Array(0), 0], [saved.subarray(1), 207], ["text", 4], [new Uint8Array(1e6), 1e6]];
  for (const [given, length] of sizes)
    refuse(hasher, given, `a saved hasher has 208 bytes, not ${length}`);
  refuse(hasher, new Uint8Array(208), format);
  refuse(new library.V3(), saved, "the hasher was saved with 5 lanes and options 1, not 7 and 1");
  saved[9] = 3;
  refuse(hasher, saved, "the hasher was saved with 5 lanes and options 3, not 5 and 1");
  assert.throws(() => hasher.load(7), { name: "TypeError", message: /^load: data must be a string, an ArrayBuffer/ });
});
