// Compares the package with known values of the Rust crate rapidhash 4.5.1, in Node and in browsers.
// packages/javascript/tests/javascript.sh runs it in a directory in which the package is installed.
import assert from "node:assert/strict";
import { test } from "node:test";

import { hex, load, loadSync } from "yervound-rapidhash";

const library = loadSync();
const { v1, v2_2, v3, v3Nano, V3, V3Nano } = library;
const versions = Object.keys(library).filter((name) => `${name}Hex` in library);
// The classes of hashers, each with the call of the same version.
const streams = Object.keys(library).filter((name) => name.startsWith("V"))
  .map((name) => [library[name], library[name.replace("V", "v")]]);
const data = Uint8Array.from({ length: 120 }, (_, at) => at);
const short = data.subarray(0, 60);
const own = BigUint64Array.of(1n, 2n, 3n, 5n, 7n, 11n, 13n, 17n);
// V3 and its relatives hash a longer message in pieces of this size.
const piece = 131072;
const encoder = new TextEncoder();

test("default secrets", () => {
  assert.equal(v1("something\n"), 15965596575264898037n);
  assert.equal(v3(data), 7088138960297660729n);
  assert.equal(v3(data.buffer), 7088138960297660729n);
  assert.equal(v3(new Uint8Array(0)), 232177599295442350n);
});

test("long messages", () => {
  const message = Uint8Array.from({ length: 1000000 }, (_, at) => at % 251);
  assert.equal(v3(message), 3141031059669918984n);
  const zeros = new Uint8Array(140000000);
  assert.equal(v1(zeros), 15042570400923500380n);
  assert.equal(v2_2(zeros), 1949155381881807616n);
  assert.equal(v1(short), 13504714392771582078n);
  assert.equal(new V3().update(message).digest(), 3141031059669918984n);
});

// Byte by byte, through another array or in a stream, the same values would take longer.
test("bytes are copied at once", () => {
  const typed = Object.getPrototypeOf(Uint8Array.prototype);
  const { set } = typed;
  const copied = [];
  typed.set = function (bytes, ...rest) {
    copied.push(bytes.length);
    set.call(this, bytes, ...rest);
  };
  v3(data.subarray(0, 9));
  v3(data, { seed: 1 });
  v3("a".repeat(43690), { seed: 1 });
  typed.set = set;
  assert.deepEqual(copied, [9, 120]);
});

test("hashers do not disturb each other", () => {
  const [left, right] = [new V3({ seed: 1n }), new V3({ secrets: own })];
  for (let at = 0; at < 120; at += 10)
    for (const hasher of [left, right]) hasher.update(data.subarray(at, at + 10));
  assert.equal(left.digest(), 8806718467852582029n);
  assert.equal(right.digest(), 13105958653737073913n);
});

test("many hashers in turn, of which some end", () => {
  const texts = Array.from({ length: 300 }, (_, at) => `text ${at}`);
  const hashers = texts.map((text, at) => {
    assert.equal(new V3Nano({ seed: at }).update(text).digest(), v3Nano(text, { seed: at }));
    return new V3({ seed: at }).update(text);
  });
  for (let round = 2; round < 5; round++)
    hashers.forEach((hasher, at) => {
      assert.equal(hasher.update(texts[at]).digest(), v3(texts[at].repeat(round), { seed: at }));
      assert.equal(hasher.clone().update("!").digest(), v3(`${texts[at].repeat(round)}!`, { seed: at }));
    });
});

test("calls of a hasher after those of another", () => {
  const saved = new V3().update("hello").save();
  const calls = [(hasher) => hasher.update("lo"), (hasher) => hasher.clone().update("lo"),
    (hasher) => hasher.reset().update("hello"), (hasher) => hasher.load(saved),
    (hasher) => new V3().load(hasher.save()).update("lo")];
  for (const call of calls) {
    const hasher = new V3().update("hel");
    const other = new V3({ seed: 1n }).update(data);
    assert.equal(call(hasher).digest(), 3327445792987248966n);
    assert.equal(other.digest(), 8806718467852582029n);
  }
});

test("a hasher keeps its secrets when the caller's change", () => {
  const secrets = own.slice();
  const hasher = new V3({ secrets }).update(data);
  secrets.fill(0n);
  assert.equal(hasher.digest(), 13105958653737073913n);
});

test("hashers of all classes in turn", () => {
  const hashers = streams.map(([Stream, whole]) => [new Stream(), whole]);
  for (let at = 0; at < 120; at += 10) for (const [hasher] of hashers) hasher.update(data.subarray(at, at + 10));
  for (const [hasher, whole] of hashers) assert.equal(hasher.digest(), whole(data));
  for (const [Stream] of streams) assert.equal(library[Stream.name], Stream);
});

test("a clone goes on alone", () => {
  for (const [Stream] of streams) {
    const first = new Stream({ seed: 9 }).update("left ");
    const second = first.clone().update("lift");
    first.update("left");
    assert.ok(second instanceof Stream);
    assert.equal(first.digest(), new Stream({ seed: 9 }).update("left left").digest());
    assert.equal(second.digest(), new Stream({ seed: 9 }).update("left lift").digest());
    assert.notEqual(first.digest(), second.digest());
  }
});

test("a clone whose constructor hashes", () => {
  class Named extends V3 {
    constructor(options) {
      super(options);
      this.name = new V3Nano().update("name");
    }
  }
  const named = new Named().update("hello");
  const clone = named.clone();
  for (const it of [named, clone]) {
    assert.equal(it.name.digest(), v3Nano("name"));
    assert.equal(it.digest(), 3327445792987248966n);
  }
});

test("options whose getter hashes", () => {
  const hasher = new V3().update("hel");
  const other = new V3({ get seed() { return Number(hasher.update("lo").digest() % 1n); } });
  assert.deepEqual([hasher.digest(), other.update("hello").digest()], [3327445792987248966n, 3327445792987248966n]);
});

test("views of all kinds", () => {
  const { buffer } = Uint8Array.from({ length: 400 }, (_, at) => at);
  const views = [buffer, new Uint32Array(buffer), new Float64Array(buffer, 8, 20)];
  for (const view of [...views, new DataView(buffer, 3, 50), new Uint8Array(buffer, 5, 7)]) {
    const bytes = new Uint8Array(buffer, view.byteOffset ?? 0, view.byteLength);
    assert.equal(v3(view), v3(bytes.slice()));
    assert.equal(new V3().update(view).digest(), v3(bytes.slice()));
  }
});

test("strings are their UTF-8", () => {
  const texts = ["", "a", "na\u00efve", "\x7f\x80", "\u00e9\u00e9ab", "ab\u00e9\u00e9", "a".repeat(32), "a".repeat(33),
    "\u03bb \u2192 \u{1d6cc}", "\u2192".repeat(43690), "\u2192".repeat(43691), "\u2192".repeat(100000),
    "\u2192".repeat(piece), "\u{1d6cc}".repeat(100000), "a".repeat(1000000)];
  // The memory of these calls has not grown yet.
  const fresh = loadSync();
  const { v3, V3 } = fresh;
  assert.equal(v3("hello"), 3327445792987248966n);
  for (const text of texts) {
    const bytes = encoder.encode(text);
    assert.equal(v3(text, { seed: 3n }), v3(bytes, { seed: 3n }));
    for (const version of versions) assert.equal(fresh[version](text), fresh[version](bytes));
    assert.equal(new V3({ seed: 3n }).update(text).digest(), v3(bytes, { seed: 3n }));
  }
  assert.equal(v3("\ud800"), v3("\ufffd"));
  for (let length = 1; length < 30; length++)
    for (let at = 0; at < length; at++) {
      const text = `${"a".repeat(at)}\u00e9${"b".repeat(length - at - 1)}`;
      assert.equal(v3(text), v3(encoder.encode(text)));
    }
});

test("a text above a piece, in a memory that has not grown", () => {
  const text = "\u2192".repeat(65536);
  const hash = v3(encoder.encode(text), { seed: 3n });
  assert.equal(loadSync().v3(text, { seed: 3n }), hash);
  assert.equal(loadSync().v3Hex(text, { seed: 3n }), hex(hash));
  assert.equal(new (loadSync().V3)({ seed: 3n }).update(text).digest(), hash);
});

test("texts that are cut inside a surrogate pair", () => {
  const [text, high, low] = ["a\u{1f600}", "\ud83d", "\ude00"];
  const hasher = new V3().update(`a${high}`);
  assert.equal(hasher.digest(), v3(`a${high}`));
  assert.equal(hasher.digest("hex"), hex(v3("a\ufffd")));
  assert.throws(() => hasher.digest("base64"), TypeError);
  const saved = new V3().update("b").save();
  assert.throws(() => hasher.save(),
    { name: "TypeError", message: "save: the message ends in half of a surrogate pair" });
  assert.throws(() => hasher.update(7), TypeError);
  const clone = hasher.clone();
  assert.equal(hasher.clone().load(saved).update(low).digest(), v3(`b${low}`));
  assert.equal(hasher.update("").update(new ArrayBuffer(0)).update(low).digest(), v3(text));
  assert.equal(new V3().load(hasher.save()).digest(), v3(text));
  assert.equal(clone.update(encoder.encode("b")).update(low).digest(), v3(`a\ufffdb${low}`));
  assert.equal(hasher.update(high).reset().update(low).digest(), v3(low));
  assert.equal(hasher.reset().update(high).update(high).update(low).digest(), v3(high + high + low));
  const long = "\u{1f600}".repeat(150000);
  for (const size of [1, 65535, 131073]) {
    const pieces = new V3Nano();
    for (let at = 0; at < long.length; at += size) pieces.update(long.slice(at, at + size));
    assert.equal(pieces.digest(), v3Nano(long));
  }
});

test("hexadecimal digits", () => {
  assert.equal(hex(0xabcn), "0000000000000abc");
  assert.equal(hex(2n ** 64n - 1n), "ffffffffffffffff");
  assert.equal(hex(v3("hello")), "2e2d7651b45f7946");
  for (const [hash, name] of [[-1n, "RangeError"], [2n ** 64n, "RangeError"], ["1", "TypeError"]])
    assert.throws(() => hex(hash), { name, message: /^hex: hash must be/ });
});

test("a hash as digits, without a BigInt", () => {
  assert.equal(library.v3Hex("hello"), "2e2d7651b45f7946");
  assert.equal(library.v3Hex(""), "0338dc4be2cecdae");
  const long = new Uint8Array(piece + 1).fill(7);
  for (const version of versions)
    for (const message of [data, "text", long])
      assert.equal(library[`${version}Hex`](message, { seed: 1n }), hex(library[version](message, { seed: 1n })));
  for (const [Stream] of streams) {
    const hasher = new Stream({ seed: 7 }).update(long);
    assert.equal(hasher.digest("hex"), hex(hasher.digest()));
  }
});

test("streams of the web", async () => {
  const parts = () => new ReadableStream({
    start(controller) {
      for (let at = 0; at < 120; at += 7) controller.enqueue(data.subarray(at, at + 7));
      controller.close();
    },
  });
  for (const [Stream, whole] of streams) {
    const value = whole(data, { secrets: own });
    const hasher = new Stream({ secrets: own });
    assert.equal((await hasher.updateFrom(parts())).digest(), value);
    // As in an engine in which streams have no iterator.
    const { getReader } = ReadableStream.prototype;
    const stream = parts();
    await hasher.reset().updateFrom({ getReader: () => getReader.call(stream) });
    assert.equal(hasher.digest(), value);
    for (const source of [new Blob([data]).stream(), new Blob([data]), new Response(data), new Response(parts())])
      assert.equal((await hasher.reset().updateFrom(source)).digest(), value);
    const empty = whole(new Uint8Array(0), { secrets: own });
    for (const source of [new Blob([]), new Response(null)])
      assert.equal((await hasher.reset().updateFrom(source)).digest(), empty);
  }
});

test("many pieces, and empty ones", async () => {
  async function* pieces() {
    for (let at = 0; at < 140000; at++) yield at % 2 ? "x" : "";
  }
  const rest = pieces();
  const reader = { read: () => rest.next(), cancel: () => rest.return() };
  for (const source of [pieces(), { getReader: () => reader }])
    assert.equal((await new V3().updateFrom(source)).digest(), v3("x".repeat(70000)));
});

test("both starts, alone and side by side", async () => {
  const other = await load();
  assert.deepEqual(Object.keys(other), Object.keys(library));
  assert.equal(other.v3("hello"), 3327445792987248966n);
  const [left, right] = [new V3().update("hel"), new other.V3().update("hel")];
  assert.equal(left.update("lo").digest(), right.update("lo").digest());
  await assert.rejects(load(new Uint8Array(8)), { name: "CompileError", message: /./ });
  assert.throws(() => loadSync(new Uint8Array(8)), { name: "CompileError", message: /./ });
});
