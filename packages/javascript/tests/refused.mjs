// Tests the refusals of the package, in Node and in browsers: the class and the text of each error.
import assert from "node:assert/strict";
import { test } from "node:test";

import { bucket, fingerprint, firstHash, hex, load, loadSync, shard } from "yervound-rapidhash";

const library = loadSync();
const { v1, v2_2, v3, v3Protected, V3 } = library;
const hashes = Object.keys(library).filter((name) => `${name}Hex` in library);
const data = Uint8Array.from({ length: 120 }, (_, at) => at);
const own = BigUint64Array.of(1n, 2n, 3n, 5n, 7n, 11n, 13n, 17n);

const options = "options must be an object: { seed } or { secrets }, not";
const kind = "seed must be a BigInt or a Number, not";
const words = "secrets must be a BigUint64Array, the seed first, not";
const rounded = "must be an integer, and a BigInt from 2n ** 53n on";
const range = "must be from 0 to 2n ** 64n - 1n";

// Without a refusal, these values would be ignored or rounded silently.
test("refused options", () => {
  const refused = [
    [7n, `${options} bigint`], ["7", `${options} string`], [null, `${options} null`],
    [own, `${options} BigUint64Array`], [new Map([["seed", 7n]]), `${options} Map`],
    [Object.create({ __proto__: null, seed: 7n }), `${options} Object`],
    [{ sed: 7n }, "unknown option 'sed': expected seed or secrets"],
    [{ seed: 1n, secret: own }, "unknown option 'secret': expected seed or secrets"],
    [{ seed: null }, `${kind} null`], [{ seed: "7" }, `${kind} string`], [{ seed: true }, `${kind} boolean`],
    [{ secrets: null }, `${words} null`], [{ secrets: [1n, 2n, 3n, 4n] }, `${words} Array`],
    [{ seed: 1n, secrets: own }, "pass either seed or secrets, not both"],
    [{ seed: 0, secrets: own }, "pass either seed or secrets, not both"],
  ];
  for (const [given, message] of refused)
    for (const [name, call] of Object.entries({ v3, v2_2, v3Micro: library.v3Micro, v1Hex: library.v1Hex,
      V3: (_, options) => new V3(options), V3Nano: (_, options) => new library.V3Nano(options) }))
      assert.throws(() => call(data, given), { name: "TypeError", message: `${name}: ${message}` });
  assert.equal(v3(data, {}), v3(data));
  assert.equal(v3(data, { seed: undefined, secrets: undefined }), v3(data));
  assert.equal(v3(data, Object.assign(Object.create(null), { seed: 1 })), 8806718467852582029n);
});

test("refused words", () => {
  const refused = [[2 ** 60 + 1, rounded], [2 ** 53, rounded], [1.5, rounded], [NaN, rounded],
    [-1, range], [-1n, range], [1n << 64n, range]];
  const { makeSecrets, makeSecretsV1, seedSecrets, seedSecretsV1 } = library;
  for (const [number, text] of refused) {
    assert.throws(() => v3(data, { seed: number }), { name: "RangeError", message: `v3: seed ${text}, not ${number}` });
    assert.throws(() => new V3({ seed: number }), { name: "RangeError", message: `V3: seed ${text}, not ${number}` });
    for (const [name, call] of Object.entries({ makeSecrets, makeSecretsV1, seedSecrets, seedSecretsV1 }))
      assert.throws(() => call(number), { name: "RangeError", message: `${name}: number ${text}, not ${number}` });
    assert.throws(() => hex(number), { name: "RangeError", message: `hex: hash ${text}, not ${number}` });
  }
});

test("refused counts", () => {
  const wanted = (call, count) => ({ name: "TypeError",
    message: `${call}: secrets must have ${count} words for this version, the seed first, not ${12 - count}` });
  const secrets = own.slice(0, 4);
  for (const name of hashes.filter((name) => name !== "v1"))
    assert.throws(() => library[name](data, { secrets }), wanted(name, 8));
  const hasher = new V3().update("hello");
  assert.throws(() => new V3({ secrets }), wanted("V3", 8));
  assert.throws(() => library.v3KeyWith({ secrets }), wanted("v3KeyWith", 8));
  assert.equal(hasher.digest(), 3327445792987248966n);
  assert.throws(() => library.v1Hex(data, { secrets: own }), wanted("v1Hex", 4));
});

test("options are read once", () => {
  let count = 0;
  const options = { get seed() { return count += 1; } };
  const long = new Uint8Array(300000);
  for (const call of [v3, library.v3NanoHex, (message, given) => new V3(given).update(message)]) {
    call(long, options);
    call(data, options);
  }
  assert.equal(count, 6);
});

// Runs a call while each plain object inherits a seed and secrets.
function withInherited(call) {
  Object.prototype.seed = 7;
  Object.prototype.secrets = own;
  try {
    return call();
  } finally {
    delete Object.prototype.seed;
    delete Object.prototype.secrets;
  }
}

test("inherited options are none", () => {
  const [hash, ofText] = [v3(data), v3("text")];
  for (const options of [undefined, {}, { seed: undefined }]) {
    assert.equal(withInherited(() => v3(data, options)), hash);
    assert.equal(withInherited(() => v3("text", options)), ofText);
    assert.equal(withInherited(() => new V3(options).update(data).digest()), hash);
  }
  const hidden = Object.defineProperty({}, "seed", { value: 1, enumerable: false });
  assert.equal(v3(data, hidden), 8806718467852582029n);
  assert.throws(() => v3(data, { [Symbol("seed")]: 1 }),
    { name: "TypeError", message: /^v3: unknown option 'Symbol\(seed\)'/ });
});

// A view whose properties and prototype say something else than its bytes.
function disguised(array) {
  for (const name of ["length", "byteLength", "byteOffset", "buffer", "subarray", "slice", Symbol.toStringTag])
    Object.defineProperty(array, name, { value: 3 });
  return Object.setPrototypeOf(array, null);
}

test("properties and prototypes make no difference", () => {
  const long = Uint8Array.from({ length: 300000 }, (_, at) => at % 251);
  for (const bytes of [data, long, new Uint8Array(0), data.subarray(3, 8)])
    for (const call of [v1, v3, v3Protected, (message) => new V3().update(message).digest()]) {
      assert.equal(call(disguised(bytes.slice())), call(bytes));
      assert.equal(call(disguised(new DataView(bytes.slice().buffer))), call(bytes));
      assert.equal(call(disguised(bytes.slice().buffer)), call(bytes));
    }
  assert.equal(v3(disguised(Float64Array.of(1, 2, 3))), v3(Float64Array.of(1, 2, 3)));
  assert.equal(v3(data, { secrets: disguised(own.slice()) }), v3(data, { secrets: own }));
  const fakes = [{ __proto__: Uint8Array.prototype }, { __proto__: DataView.prototype },
    { [Symbol.toStringTag]: "Uint8Array" }];
  for (const fake of fakes)
    assert.throws(() => v3(fake), { name: "TypeError", message: /^v3: data must be a string/ });
});

test("detached and resized buffers", () => {
  const refused = { name: "TypeError",
    message: /^(v1|v3|v3Hex|update): the buffer is detached, or too short for its view$/ };
  const views = (buffer) => [buffer, new Uint8Array(buffer), new Float64Array(buffer, 8), new DataView(buffer)];
  const calls = [v1, v3, library.v3Hex, (message) => new V3().update(message)];
  const kept = views(new ArrayBuffer(64));
  structuredClone(kept[0], { transfer: [kept[0]] });
  for (const view of kept) for (const call of calls) assert.throws(() => call(view), refused);
  const secrets = own.slice();
  structuredClone(secrets.buffer, { transfer: [secrets.buffer] });
  assert.throws(() => v3(data, { secrets }), { name: "TypeError", message: /^v3: secrets must have 8 words/ });
  if (!("resize" in ArrayBuffer.prototype)) return;
  const buffer = new ArrayBuffer(64, { maxByteLength: 128 });
  const fixed = [new Uint8Array(buffer, 8, 40), new Uint16Array(buffer, 8, 20), new DataView(buffer, 8, 40)];
  const tracking = new Uint8Array(buffer);
  buffer.resize(100);
  for (const call of [v1, v3]) assert.equal(call(tracking), call(new Uint8Array(100)));
  buffer.resize(16);
  for (const view of fixed) for (const call of calls) assert.throws(() => call(view), refused);
  for (const call of [v1, v3]) assert.equal(call(tracking), call(new Uint8Array(16)));
  buffer.resize(0);
  assert.equal(v3(tracking), 232177599295442350n);
});

test("refused encodings and modules", async () => {
  for (const encoding of ["hexadecimal", "base64", 16, null, true])
    assert.throws(() => new V3().digest(encoding),
      { name: "TypeError", message: /^digest: the encoding must be 'hex'/ });
  // Modules without a section, and with an import.
  const others = [[], [1, 4, 1, 0x60, 0, 0, 2, 7, 1, 1, 0x61, 1, 0x62, 0, 0]];
  for (const sections of others) {
    const bytes = Uint8Array.of(0, 0x61, 0x73, 0x6d, 1, 0, 0, 0, ...sections);
    const wanted = { name: "TypeError", message: "the module is not that of this version of yervound-rapidhash" };
    for (const source of [bytes, new WebAssembly.Module(bytes)]) {
      assert.throws(() => loadSync(source), wanted);
      await assert.rejects(load(source), wanted);
    }
  }
  for (const [source, what] of [["rapidhash.wasm", "string"], [5, "number"], [null, "null"], [new Blob([]), "Blob"]]) {
    const wanted = { name: "TypeError",
      message: `load: source must be the bytes of a module, or a WebAssembly.Module, not ${what}` };
    assert.throws(() => loadSync(source), wanted);
    await assert.rejects(load(source), wanted);
  }
});

test("refused messages", () => {
  const refused = [[7, "number"], [7n, "bigint"], [null, "null"], [undefined, "undefined"], [true, "boolean"],
    [[1, 2], "Array"], [{ length: 3 }, "Object"], [new Blob(["a"]), "Blob"]];
  const { v3MicroHex } = library;
  for (const [message, what] of refused) {
    const update = (data) => new V3().update(data);
    for (const [name, call] of Object.entries({ v1, v2_2, v3, v3Protected, v3MicroHex, update }))
      assert.throws(() => call(message), { name: "TypeError",
        message: `${name}: data must be a string, an ArrayBuffer or a view of one, not ${what}` });
    for (const name of hashes) assert.throws(() => library[name](message), TypeError);
  }
});

test("a second argument of update", () => {
  const hasher = new V3().update("a");
  for (const other of ["utf8", undefined, { seed: 1 }])
    assert.throws(() => hasher.update("b", other), { name: "TypeError", message: /^update takes one piece/ });
  assert.equal(hasher.digest(), v3("a"));
});

test("a stream that fails, and what is none", async () => {
  const broken = () => new ReadableStream({
    pull(controller) {
      controller.error(new Error("broken"));
    },
  });
  await assert.rejects(new V3().updateFrom(broken()), { name: "Error", message: "broken" });
  const reader = { getReader: () => broken().getReader() };
  await assert.rejects(new V3().updateFrom(reader), { name: "Error", message: "broken" });
  const refused = [[data, "Uint8Array"], ["text", "string"], [[data], "Array"], [7, "number"], [null, "null"]];
  for (const [source, what] of refused)
    await assert.rejects(new V3().updateFrom(source), { name: "TypeError",
      message: `updateFrom: source must be a stream, a Blob, a Response, or another async iterable, not ${what}` });
  let [cancelled, pulled] = [0, 0];
  const numbers = () => new ReadableStream({
    pull(controller) {
      controller.enqueue(7);
      if (++pulled === 1000) controller.error(new Error("read too far"));
    },
    cancel() {
      cancelled += 1;
    },
  });
  for (const source of [numbers(), { getReader: () => numbers().getReader() }])
    await assert.rejects(new V3().updateFrom(source), { name: "TypeError", message: /^update: data must be a string/ });
  assert.equal(cancelled, 2);
});

/** Checks that `updateFrom` refuses a source: its bytes are gone. */
async function isRefused(source) {
  await assert.rejects(new V3().updateFrom(source), { name: "TypeError",
    message: "updateFrom: the source was read before" });
}

const streamOf = (...pieces) => new ReadableStream({
  start(controller) {
    for (const piece of pieces) controller.enqueue(piece);
    controller.close();
  },
});

test("sources that were read before", async () => {
  const response = new Response("hello");
  const streams = [new Blob(["hello"]).stream(), new Response("hello").body, streamOf("hello"), response.body,
    ...streamOf("hello").tee(), streamOf("hello").pipeThrough(new TransformStream())];
  for (const stream of streams) {
    assert.equal((await new V3().updateFrom(stream)).digest(), 3327445792987248966n);
    await isRefused(stream);
  }
  await isRefused(response);
  const inside = ["hello"];
  const foreign = { // as a stream of an iframe, which is no instance of ReadableStream here
    getReader() {},
    async *[Symbol.asyncIterator]() {
      yield* inside.splice(0);
    },
  };
  assert.equal((await new V3().updateFrom(foreign)).digest(), 3327445792987248966n);
  await isRefused(foreign);
  const [cancelled, piped, locked] = [streamOf("hello"), streamOf("hello"), streamOf("hello")];
  await cancelled.cancel();
  await piped.pipeTo(new WritableStream());
  const reader = locked.getReader();
  for (const stream of [cancelled, piped, locked]) await isRefused(stream);
  reader.releaseLock();
  assert.equal((await new V3().updateFrom(locked)).digest(), 3327445792987248966n);
  const request = new Request("http://localhost/", { method: "POST", body: "hello" });
  if (request.body === undefined) return; // as in Firefox
  assert.equal((await new V3().updateFrom(request)).digest(), 3327445792987248966n);
  await isRefused(request);
});

test("used streams inside objects and of another window", async () => {
  const used = streamOf("hello");
  await used.cancel();
  for (const holder of [{ stream: () => used }, { body: used, arrayBuffer() {} }]) await isRefused(holder);
  if (typeof document === "undefined") return;
  const { contentWindow } = document.body.appendChild(document.createElement("iframe"));
  const [fresh, cancelled] = [1, 2].map(() => new contentWindow.Blob(["hello"]).stream());
  assert.equal((await new V3().updateFrom(fresh)).digest(), 3327445792987248966n);
  await cancelled.cancel();
  for (const stream of [fresh, cancelled]) await isRefused(stream);
});

test("a cursor that is rewound, and one that fails", async () => {
  const cursor = { next() {}, async *[Symbol.asyncIterator]() { yield* this.left.splice(0); } };
  for (let round = 0; round < 2; round++) {
    cursor.left = ["hel", "lo"];
    assert.equal((await new V3().updateFrom(cursor)).digest(), 3327445792987248966n);
    await isRefused(cursor);
  }
  cursor[Symbol.asyncIterator] = () => ({ next: () => Promise.reject(Error("broken")) });
  await assert.rejects(new V3().updateFrom(cursor), { message: "broken" });
  await isRefused(cursor); // whose first pieces may be gone
});

test("an iterator for two calls, and a hasher in two calls", async () => {
  const pieces = async function* () {
    yield* ["hel", "lo"];
  };
  const [source, hasher] = [pieces(), new V3()];
  const first = hasher.updateFrom(source);
  await isRefused(source);
  await assert.rejects(hasher.updateFrom(pieces()), { name: "TypeError",
    message: "updateFrom: the hasher still reads another source" });
  assert.equal((await first).digest(), 3327445792987248966n);
  await isRefused(source);
  assert.equal((await hasher.updateFrom(pieces())).digest(), v3("hellohello"));
});

test("the rest of a stream, and streams without a piece", async () => {
  const stream = streamOf("header", "hel", "lo");
  const reader = stream.getReader();
  await reader.read();
  reader.releaseLock();
  assert.equal((await new V3().updateFrom(stream)).digest(), 3327445792987248966n);
  for (const source of [streamOf(), new Blob([]), new Response(null), new Response(null, { status: 204 })])
    assert.equal((await new V3().updateFrom(source)).digest(), v3(""));
});

test("responses that hide their body", async () => {
  await assert.rejects(new V3().updateFrom(Response.error()), { name: "TypeError",
    message: "updateFrom: a Response of the type 'error' shows no body" });
  for (const type of ["opaque", "opaqueredirect"]) {
    const response = Object.defineProperty(new Response(null), "type", { value: type });
    await assert.rejects(new V3().updateFrom(response), { name: "TypeError",
      message: `updateFrom: a Response of the type '${type}' shows no body` });
  }
});

test("no shards", () => {
  for (const [call, message] of [
    [() => shard(7n, 0), "shard: count must be from 1 to 2 ** 64 - 1, not 0"],
    [() => firstHash(0, 0n), "firstHash: count must be from 1 to 2 ** 64 - 1, not 0"],
    [() => firstHash(10, 10), "firstHash: shard must be below count, 10, not 10"],
    [() => bucket(7n, 0), "bucket: count must be from 1 to 2 ** 32 - 1, not 0"],
    [() => bucket(7n, 2 ** 32), "bucket: count must be from 1 to 2 ** 32 - 1, not 4294967296"],
    [() => shard(-1n, 3), "shard: hash must be from 0 to 2n ** 64n - 1n, not -1"],
  ]) assert.throws(call, { name: "RangeError", message });
  for (const [call, message] of [
    [() => shard("7", 3), "shard: hash must be a BigInt or a Number, not string"],
    [() => fingerprint(7n), "fingerprint: hashes must be an iterable of BigInts, not bigint"],
    [() => fingerprint("7"), "fingerprint: hashes must be an iterable of BigInts, not string"],
    [() => fingerprint([null]), "fingerprint: a hash must be a BigInt or a Number, not null"],
  ]) assert.throws(call, { name: "TypeError", message });
});
