// Tests the page's worker with files whose stream has fewer or more bytes than their size.
import assert from "node:assert/strict";
import { test } from "node:test";

let listener;
const posted = [];
const encoder = new TextEncoder();
globalThis.addEventListener = (_, called) => (listener = called);
globalThis.postMessage = (message) => posted.push(message);
Object.defineProperty(globalThis, "performance", { value: { now: () => 1000 } }); // whose own `now` Node 18 keeps
await import("./worker.mjs");

/** Returns the messages of the worker for a file of five bytes whose stream has these pieces. */
async function reported(...pieces) {
  const stream = () => new ReadableStream({
    start(controller) {
      for (const piece of pieces) controller.enqueue(encoder.encode(piece));
      controller.close();
    },
  });
  await listener({ data: { file: { size: 5, stream }, names: ["v3"] } });
  return posted.splice(0);
}

test("a file that does not change", async () => {
  const messages = await reported("h", "e", "l", "l", "o");
  // The pieces after the first come too soon after it.
  assert.deepEqual(messages.map(({ done, end }) => done ?? end), [1, 5, "done"]);
  assert.deepEqual(messages[1].hashes, { v3: 3327445792987248966n });
});

for (const bytes of ["hell", "hello!"]) {
  test(`a file that changes, with ${bytes}`, async () => {
    const end = "could not be hashed: the file changed while it was read";
    assert.deepEqual((await reported(bytes)).at(-1), { end });
  });
}
