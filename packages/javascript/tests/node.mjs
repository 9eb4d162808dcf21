// Tests the package with features of Node only: its streams, other realms, `require`, and a message that is
// too large for the memory. The file `large` in this directory is the output of
// `seq 1 20000000 | head -c 100000000`, and its hashes are those of the Rust crate.
import assert from "node:assert/strict";
import { constants } from "node:buffer";
import { once } from "node:events";
import { createReadStream } from "node:fs";
import { open, readFile } from "node:fs/promises";
import { createRequire } from "node:module";
import { PassThrough, Readable } from "node:stream";
import { test } from "node:test";
import { setTimeout } from "node:timers/promises";
import { setFlagsFromString } from "node:v8";
import { createContext, runInContext, runInNewContext } from "node:vm";

import { load, loadSync } from "yervound-rapidhash";

const library = loadSync();
const { V3 } = library;
const versions = Object.keys(library).filter((name) => `${name}Hex` in library);
const large = new URL("large", import.meta.url);
const known = 17274253787457370873n; // of the file

/** Makes a call so many frames before the end of the stack. Returns whether it was made. */
function isMade(call, frames) {
  let [left, isDone] = [frames, false];
  const descend = () => {
    try {
      descend();
    } catch (error) {
      if (left-- > 0) throw error;
      try {
        call();
        isDone = true;
      } catch {}
    }
  };
  descend();
  return isDone;
}

// The first test: compiled calls need less of the stack.
test("calls at the end of the stack, which may stop halfway", () => {
  const [long, face] = [new Uint8Array(200000), "\u{1f600}"];
  let [fresh, hasher] = [loadSync(), new V3()];
  const grow = () => fresh.v1(long);
  const complete = () => hasher.update(face[1]);
  for (const call of [grow, complete]) call();
  for (let frames = 0; frames < 60; frames++) {
    fresh = loadSync();
    hasher = new fresh.V3().update(face[0]);
    isMade(grow, frames);
    for (const text of ["", "abc", "hello"]) assert.equal(fresh.v3(text), library.v3(text), `${frames} frames`);
    if (!isMade(complete, frames)) complete();
    assert.equal(hasher.digest(), library.v3(face), `${frames} frames`);
  }
});

// An emulated machine would need minutes.
test("half of a surrogate pair before the longest string", { skip: process.arch !== "x64" }, () => {
  const longest = "a".repeat(constants.MAX_STRING_LENGTH);
  const [half, whole] = ["\ud83d", "\ufffd"].map((start) => new V3().update(start).update(longest).digest());
  assert.equal(half, whole);
});

test("saving at the end of the stack, which may leave frames on that of the module", () => {
  const fresh = loadSync();
  const hasher = new fresh.V3().update("hello");
  const saved = hasher.save();
  for (const call of [() => hasher.save(), () => hasher.load(saved)]) {
    call();
    for (let round = 0; round < 1000; round++) isMade(call, round % 20);
    assert.equal(fresh.v3("hello", { seed: 1 }), library.v3("hello", { seed: 1 }));
    assert.deepEqual(hasher.load(saved).save(), saved);
  }
});

test("streams of Node", async () => {
  for (const encoding of [undefined, "latin1"])
    assert.equal((await new V3().updateFrom(createReadStream(large, encoding))).digest(), known);
  const used = Readable.from(["text"]);
  await new V3().updateFrom(used);
  const destroyed = Readable.from(["text"]).destroy();
  const drained = Readable.from(["text"], { objectMode: false });
  drained.once("readable", () => { while (drained.read() !== null); });
  await once(drained, "end");
  const web = Readable.toWeb(Readable.from(["text"]));
  await new V3().updateFrom(web);
  const closing = new Readable({ read() {} });
  closing.push("text");
  closing.push(null);
  closing.read(); // The stream has no more bytes, and ends after this tick.
  for (const source of [closing, used, destroyed, drained, web])
    await assert.rejects(new V3().updateFrom(source), { name: "TypeError",
      message: "updateFrom: the source was read before" });
  const [shared, taken] = [Readable.from(["hel", "lo"]), Readable.from(["text"])];
  const [, both] = await Promise.allSettled([V3, library.V3Nano].map((Stream) => new Stream().updateFrom(shared)));
  assert.equal(both.reason?.message, "updateFrom: the source was read before");
  const [, nothing] = await Promise.allSettled([taken.toArray(), new V3().updateFrom(taken)]);
  assert.equal(nothing.reason?.message, "updateFrom: the source was read before");
  const rest = Readable.from(["header", "hel", "lo"]);
  for await (const header of rest.iterator({ destroyOnReturn: false })) if (header === "header") break;
  assert.equal((await new V3().updateFrom(rest)).digest(), 3327445792987248966n);
  const handle = await open(new URL("rapidhash.wasm", import.meta.url));
  const whole = library.v3(await handle.readFile());
  const again = await open(new URL("rapidhash.wasm", import.meta.url));
  assert.equal((await new V3().updateFrom(again.readableWebStream())).digest(), whole);
  await Promise.all([handle.close(), again.close()]);
  assert.equal((await new V3().updateFrom(new PassThrough().end())).digest(), library.v3(""));
  const ended = new PassThrough().on("readable", () => {}).end();
  await once(ended, "end"); // by itself, as a socket ends: nothing was lost
  assert.equal((await new V3().updateFrom(ended)).digest(), library.v3(""));
  const odd = Readable.from([{ a: 7 }]);
  await assert.rejects(new V3().updateFrom(odd), { name: "TypeError", message: /^update: data must be a string/ });
  const missing = createReadStream(new URL("missing", import.meta.url));
  await assert.rejects(new V3().updateFrom(missing), { code: "ENOENT" });
});

test("each version of a large file", async () => {
  const message = await readFile(large);
  // One number for all versions: the V3 hash of their digits.
  assert.equal(library.v3(versions.map((name) => library[`${name}Hex`](message)).join("")), 18094625061088781476n);
  assert.equal(library.v3(message), 17274253787457370873n);
  assert.equal(library.v2_2(message.latin1Slice()), 4230584181448816188n);
});

test("a module by its bytes, and compiled", async () => {
  const bytes = await readFile(new URL("rapidhash.wasm", import.meta.url));
  assert.ok(bytes.length <= 41000);
  const module = new WebAssembly.Module(bytes);
  const foreign = runInNewContext("new WebAssembly.Module(bytes)", { bytes });
  for (const other of [await load(bytes), await load(module), loadSync(bytes), loadSync(module), loadSync(foreign)])
    assert.equal(other.v3("hello"), 3327445792987248966n);
  // Modules without one of the exports, whose names follow their lengths, and of another version.
  const names = WebAssembly.Module.exports(module).map(({ name }) => String.fromCharCode(name.length) + name);
  const others = [...names.map((name) => [name, name.replace(/.$/, "?")]), ["A\xe4\0\v", "A\xe5\0\v"]];
  for (const [old, changed] of others)
    assert.throws(() => loadSync(Buffer.from(bytes.latin1Slice().replace(old, changed), "latin1")),
      { name: "TypeError", message: /^the module is not that of this version/ });
});

test("a key costs at most what JSON.stringify of its fields costs", () => {
  const calls = [(at) => library.v3Key("user:1", at, null), (at) => library.v3(JSON.stringify(["user:1", at, null]))];
  const costs = calls.map(() => Infinity);
  for (let round = 0; round < 20; round++)
    calls.forEach((call, which) => {
      const start = process.hrtime.bigint();
      for (let at = 0; at < 20000; at++) call(at);
      costs[which] = Math.min(costs[which], Number(process.hrtime.bigint() - start));
    });
  assert.ok(costs[0] <= costs[1], `${costs[0] / 20000} ns, and ${costs[1] / 20000} ns`);
});

test("a hasher keeps no memory of others", async () => {
  setFlagsFromString("--expose-gc");
  const gc = runInNewContext("gc");
  const used = async () => {
    for (let round = 0; round < 3; round++, gc()) await setTimeout(10);
    return process.memoryUsage().arrayBuffers;
  };
  const before = await used();
  const kept = Array.from({ length: 2000 }, () => {
    for (let at = 0; at < 63; at++) new V3().update("other");
    return new V3().update("kept");
  });
  assert.ok((await used() - before) / kept.length < 512);
});

test("a call that a timeout stops leaves other hashers as they are", () => {
  for (let round = 0; round < 400; round++) {
    const hasher = new V3({ seed: 1 }).update("hel");
    const context = createContext({ V3, hasher });
    assert.throws(() => runInContext("for (;;) { hasher.digest(); new V3({ seed: 2 }); }", context, { timeout: 1 }),
      { code: "ERR_SCRIPT_EXECUTION_TIMEOUT" });
    assert.equal(hasher.update("lo").digest(), library.v3("hello", { seed: 1 }));
  }
});

test("objects of another realm", () => {
  const { bytes, view, buffer, secrets, options, floats } = runInNewContext(`
    const bytes = Uint8Array.from({ length: 120 }, (_, at) => at);
    const secrets = BigUint64Array.of(1n, 2n, 3n, 5n, 7n, 11n, 13n, 17n);
    ({ bytes, secrets, buffer: bytes.buffer, view: new DataView(bytes.buffer), floats: new Float64Array(bytes.buffer),
       options: { seed: 1n } })`);
  for (const message of [bytes, view, buffer, floats]) {
    assert.equal(library.v3(message), 7088138960297660729n);
    assert.equal(library.v3(message, options), 8806718467852582029n);
    assert.equal(library.v3(message, { secrets }), 13105958653737073913n);
    assert.equal(new V3({ secrets }).update(message).digest(), 13105958653737073913n);
  }
});

test("a used web stream where there is no Response", { skip: !process.getBuiltinModule }, async () => {
  const [{ Response }, used] = [globalThis, new Blob(["text"]).stream()];
  await used.cancel();
  delete globalThis.Response;
  await assert.rejects(new V3().updateFrom(used), { message: "updateFrom: the source was read before" })
    .finally(() => Object.assign(globalThis, { Response }));
});

test("require", () => {
  const require = createRequire(import.meta.url);
  assert.match(require.resolve("yervound-rapidhash"), /rapidhash\.cjs$/);
  const { hex, loadSync } = require("yervound-rapidhash");
  assert.equal(hex(loadSync().v3("hello")), "2e2d7651b45f7946");
});

test("a message too large for the memory", () => {
  const { v1, v3Protected, v3, room } = loadSync();
  assert.ok(room > 4e9 && room < 2 ** 32);
  // The length of the whole needs more than 32 bits.
  const whole = new Uint8Array(2 ** 32);
  const long = whole.subarray(0, room + 1);
  // The longest message needs each page of 4 GiB. The memory does not grow here.
  const { prototype } = WebAssembly.Memory;
  const { grow } = prototype;
  let pages;
  prototype.grow = function (more) {
    pages = this.buffer.byteLength / 65536 + more;
    throw new RangeError();
  };
  assert.throws(() => v1(whole.subarray(0, room)), RangeError);
  prototype.grow = grow;
  assert.equal(pages, 65536);
  const message = `not enough memory in WebAssembly for ${room + 1} bytes at once: ` +
    "V3, micro and nano hash such a message in pieces";
  for (const call of [v1, v3Protected])
    assert.throws(() => call(long), { name: "RangeError", message });
  const hasher = new V3();
  const saved = "a saved hasher has 208 bytes, not 4294967296";
  assert.throws(() => hasher.load(whole), { name: "TypeError", message: saved });
  for (let at = 0; at < whole.length; at += 2 ** 24) hasher.update(whole.subarray(at, at + 2 ** 24));
  assert.equal(v3(whole), hasher.digest());
  assert.equal(v3("hello"), 3327445792987248966n);
});

// The encoder of Node 20 and earlier writes nothing into 2 GiB or more.
test("texts in a memory of 2 GiB", () => {
  const fresh = loadSync();
  const { prototype } = WebAssembly.Memory;
  const { grow } = prototype;
  prototype.grow = function () {
    return grow.call(this, 32768);
  };
  fresh.v1(new Uint8Array(200000));
  prototype.grow = grow;
  for (const text of ["é", "é".repeat(30), "a".repeat(100)])
    for (const call of ["v1", "v3", "v3Hex", "v3Key"]) assert.equal(fresh[call](text), library[call](text));
});
