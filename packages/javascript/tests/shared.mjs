// Tests the exported calls, which need no load, in Node and in browsers: before, while and after `ready` loads one.
import assert from "node:assert/strict";
import { test } from "node:test";

import * as calls from "yervound-rapidhash";

const { loadSync, ready, v3, v3Key, V3, V3Micro, V3Nano } = calls;
const { instantiate } = WebAssembly;

test("calls while `ready` loads the module once, after a load that failed", async () => {
  let loads = 0;
  WebAssembly.instantiate = (module) => (loads += 1) === 1 ? Promise.reject(Error("no memory")) : instantiate(module);
  await assert.rejects(ready(), { message: "no memory" });
  const started = [ready(), ready()];
  const early = new V3().update("hel");
  await Promise.all(started);
  WebAssembly.instantiate = instantiate;
  assert.equal(loads, 2);
  assert.equal(early.clone().update("lo").digest(), 3327445792987248966n);
  assert.equal(v3("hello"), 3327445792987248966n);
  assert.equal(v3Key("user", 4711, null), 14742763072502883419n);
});

test("each call and class is that of a library", () => {
  const library = loadSync();
  // The versions of V2 differ at 60 bytes, and V3 and its relatives at 120.
  const data = Uint8Array.from({ length: 120 }, (_, at) => at);
  const messages = [data.subarray(0, 60), data].map((message) => [message, { seed: 7 }]);
  const others = { v3Key: [["user", 4711, null]], v3KeyWith: [[{ seed: 7 }, "user"]] };
  for (const name of Object.keys(library).filter((name) => name !== "room" && !name.startsWith("V")))
    for (const given of others[name] ?? (/Secrets/.test(name) ? [[7]] : messages))
      assert.deepEqual([calls[name](...given)], [library[name](...given)]);
  for (const name of Object.keys(library).filter((name) => name.startsWith("V")))
    for (const hasher of [new calls[name]({ seed: 7 }), new calls[name]({ seed: 7 }).clone()])
      assert.equal(hasher.update(data).digest(), new library[name]({ seed: 7 }).update(data).digest());
});

test("classes over a shared one", async () => {
  class Named extends V3Nano {
    title = "a title";
  }
  const hasher = new Named().update("hel");
  WebAssembly.instantiate = () => assert.fail("a module was loaded again");
  await ready();
  WebAssembly.instantiate = instantiate;
  const other = hasher.clone();
  assert.ok(hasher instanceof V3Nano && other instanceof Named && !(hasher instanceof V3));
  assert.equal(other.title, "a title");
  for (const its of [hasher, other]) assert.equal(its.update("lo").digest(), new V3Nano().update("hello").digest());
  assert.equal(new V3Micro().load(new V3Micro().update("hel").save()).update("lo").digest(), v3("hello"));
});
