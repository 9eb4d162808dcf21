// Tests keys of several fields: kinds of fields, and what is no field. The file of cases has values.
import assert from "node:assert/strict";
import { test } from "node:test";

import { loadSync } from "yervound-rapidhash";

const library = loadSync();
const { v3, v3Key, v3KeyWith } = library;
const user = 14742763072502883419n;

test("kinds of fields", () => {
  const bytes = new TextEncoder().encode("user");
  for (const text of ["user", bytes, bytes.buffer, new DataView(bytes.buffer)])
    assert.equal(v3Key(text, 4711, null), user);
  assert.equal(v3Key("user", 4711n, null), user);
  for (const text of ["中文", "\u{1f600}"]) assert.equal(v3Key(text), v3Key(new TextEncoder().encode(text)));
  assert.equal(v3Key(-0), v3Key(0));
  assert.equal(v3Key(), v3(""));
  const long = "x".repeat(300000);
  assert.equal(v3Key(long), v3Key(new TextEncoder().encode(long)));
  assert.notEqual(v3Key("ab", "c"), v3Key("a", "bc"));
});

/** Returns the encoding of an integer, a text or null, by the rule of docs/ALGORITHM.md. */
function encoded(field) {
  if (field === null) return Buffer.from([0]);
  const bytes = typeof field === "string" ? Buffer.from(field) : Buffer.alloc(0);
  const head = Buffer.from([typeof field === "string" ? 2 : 1, 0, 0, 0, 0, 0, 0, 0, 0]);
  head.writeBigInt64LE(typeof field === "string" ? BigInt(bytes.length) : BigInt(field), 1);
  return Buffer.concat([head, bytes]);
}

test("each integer and letter", () => {
  const check = (...fields) => {
    const wanted = v3(Buffer.concat(fields.map(encoded)));
    assert.equal(v3Key(...fields), wanted, `${fields.map(String)}`.slice(0, 99));
    assert.equal(library.v3Key("a", ...fields), v3(Buffer.concat([encoded("a"), ...fields.map(encoded)])));
  };
  for (let bit = 0; bit < 64; bit++)
    for (const step of [-1n, 0n, 1n])
      for (const number of [(1n << BigInt(bit)) + step, -(1n << BigInt(bit)) + step]) {
        if (BigInt.asIntN(64, number) !== number) continue;
        check(number, null);
        if (Number.isSafeInteger(Number(number))) check(Number(number), null);
      }
  const letters = [0, 0x7f, 0x80, 0x7ff, 0x800, 0xd7ff, 0xe000, 0xffff, 0x10000, 0x103ff, 0x10400, 0x1f600, 0xfffff,
    0x100000, 0x10ffff];
  for (const letter of letters.map((point) => String.fromCodePoint(point)))
    for (const count of [1, 2, 29, 30, 31, 59, 60, 61, 62])
      check(letter.repeat(count), `x${letter}y${"z".repeat(count)}`, 1);
});

test("long keys", () => {
  // A short key is written to the module's memory, which has room for 131072 bytes.
  for (const size of [43600, 43681, 43687, 43690, 43691, 131053, 131063, 131064, 131072, 400000])
    for (const text of ["a", "\u{1f600}"].map((letter) => letter.repeat(size / letter.length))) {
      const wanted = Buffer.concat([encoded(7), encoded(text), encoded(text), encoded(null)]);
      assert.equal(v3Key(7, text, Buffer.from(text), null), v3(wanted), size);
      assert.equal(v3KeyWith({ seed: 7 }, 7, text, text, null), v3(wanted, { seed: 7 }), size);
    }
  const many = Array.from({ length: 20000 }, (_, at) => at);
  assert.equal(v3Key(...many), v3(Buffer.concat(many.map(encoded))));
});

test("a list whose items hash when they are read", () => {
  const list = [4711, null];
  const large = "x".repeat(1e6);
  for (const nested of [() => v3Key("other", 1), () => v3(large), () => library.v2_2(large)]) {
    let reads = 0;
    const computed = new Proxy(list, { get: (target, name) => reads++ < 99 && nested() ? target[name] : undefined });
    assert.equal(v3Key("user", computed), v3Key("user", list));
    assert.equal(v3Key("x".repeat(200000), computed), v3Key("x".repeat(200000), list));
    assert.equal(reads, 6); // each of two keys reads the length and the items once
    const date = Object.defineProperty(new Date(5), Symbol.toStringTag, { get: () => `${nested()}` });
    assert.equal(v3Key("user", date, [date]), v3Key("user", 5000, [5000]));
  }
});

test("a key that is almost as long as an array can be", () => {
  const Whole = Uint8Array;
  const most = 200_100;
  globalThis.Uint8Array = class extends Whole {
    constructor(size, ...others) {
      if (size > most) throw new RangeError(`Invalid typed array length: ${size}`);
      super(size, ...others);
    }
  };
  try {
    const text = "a".repeat(most - 9);
    assert.equal(v3Key(Buffer.from(text)), v3(encoded(text)));
    assert.throws(() => v3Key(Buffer.from(`${text}a`)), /^RangeError: v3Key: a key of 200101 bytes is longer than an/);
  } finally {
    globalThis.Uint8Array = Whole;
  }
});

test("what is no field", () => {
  const range = "fields[1] must be from -(2n ** 63n) to 2n ** 64n - 1n";
  for (const field of [1n << 64n, -(1n << 63n) - 1n])
    assert.throws(() => v3Key(1, field), { name: "RangeError", message: range });
  for (const field of [1.5, NaN, Infinity, 2 ** 53]) {
    const message = `fields[0] must be a safe integer, or a BigInt, not ${field}; floatBits makes a BigInt of a ${
      ""}number with a fraction`;
    assert.throws(() => v3Key(field), { name: "RangeError", message });
  }
  const refused = [[undefined, "undefined"], [{}, "Object"], [[1, , 2], "undefined"], // eslint-disable-line
    [Array(2 ** 32 - 1), "undefined"], [Symbol("a"), "symbol"], [() => 0, "function"],
    [new Float64Array(1), "Float64Array"], [new BigInt64Array(1), "BigInt64Array"]];
  for (const [field, kind] of refused) {
    const message = `fields[2]: a field must be null, a boolean, an integer, a string, a Uint8Array, a Date or an ${
      ""}array of these, not ${kind}`;
    assert.throws(() => v3Key(1, 2, field), { name: "TypeError", message });
  }
  assert.throws(() => v3Key(1, [1, [2]]), /^TypeError: fields\[1\]: a list in a key must not contain a list$/);
  assert.throws(() => v3Key(new Date(NaN)), /^RangeError: fields\[0\] is an invalid Date$/);
  for (const half of ["a\ud800", "\udc00", "\ud800a", "\ud800\ud800", "\udc00\udc00", `${"a".repeat(99)}\ud800`])
    assert.throws(() => v3Key(half), { name: "TypeError", message: "fields[0] has half of a surrogate pair" });
  const view = new Uint8Array(8);
  structuredClone(view.buffer, { transfer: [view.buffer] });
  for (const field of [view, view.buffer])
    assert.throws(() => v3KeyWith({}, 1, field),
      { name: "TypeError", message: "fields[1]: the buffer is detached, or too short for its view" });
  assert.throws(() => v3KeyWith({ sed: 1 }, 1),
    { message: "v3KeyWith: unknown option 'sed': expected seed or secrets" });
});
