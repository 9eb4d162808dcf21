// Hashes one file with the versions that the page names. Reports to it: { done } bytes, the { hashes } so far, and
// finally the { end }.
import { load } from "./rapidhash.mjs";

// V1, V2, and protected V3 need the whole message in memory, which cannot hold a longer file.
const most = 2 ** 30;
const pause = 100;

/** Returns room for the bytes of a file that is short enough to keep, if there is the memory. */
function roomFor({ size }) {
  try {
    return size <= most ? new Uint8Array(size) : undefined;
  } catch {
    return undefined;
  }
}

/** Hashes a file in pieces and returns its bytes if there is room to keep them. */
async function byPieces(file, hashers) {
  const kept = roomFor(file);
  const digests = () => Object.fromEntries(hashers.map(([name, hasher]) => [name, hasher.digest()]));
  let [done, told] = [0, 0];
  for (const reader = file.stream().getReader(); ;) {
    const { done: isEnd, value } = await reader.read();
    if (isEnd) break;
    done += value.length;
    if (done > file.size) break;
    for (const [, hasher] of hashers) hasher.update(value);
    kept?.set(value, done - value.length);
    if (performance.now() - told < pause) continue;
    told = performance.now();
    postMessage({ done, hashes: digests() });
  }
  if (done !== file.size) throw new Error("the file changed while it was read");
  postMessage({ done, hashes: digests() });
  return kept;
}

/** Hashes a file in pieces with the versions that can, and then as a whole with the others. */
async function hash(file, names) {
  const calls = await load();
  const classOf = (name) => calls[name.replace("v", "V")];
  const kept = await byPieces(file, names.filter(classOf).map((name) => [name, new (classOf(name))()]));
  for (const name of names.filter((name) => !classOf(name))) {
    let result;
    try {
      result = kept ? calls[name](kept) : "needs the whole file in memory: here up to 1 GiB, if it is free";
    } catch (error) {
      result = error.message;
    }
    postMessage({ hashes: { [name]: result } });
  }
}

addEventListener("message", async ({ data }) => {
  try {
    await hash(data.file, data.names);
    postMessage({ end: "done" });
  } catch (error) {
    postMessage({ end: `could not be hashed: ${error.message}` });
  }
});
