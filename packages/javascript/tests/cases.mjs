// Replays the cases that every language has, in Node and in browsers. Their README.md has the format. The package is
// the installed one, or in a checkout that of make npm.
import assert from "node:assert/strict";
import { test } from "node:test";

const its = await import("yervound-rapidhash").catch(() => import("../../../build/npm/rapidhash.mjs"));
const library = its.loadSync();

async function read(name) {
  const url = new URL(name, import.meta.url);
  if (url.protocol !== "file:") return (await fetch(url)).text();
  return (await import("node:fs/promises")).readFile(url, "utf8");
}

function bytesOf(digits) {
  return Uint8Array.from(digits === "-" ? [] : digits.match(/../g) ?? [], (pair) => Number.parseInt(pair, 16));
}

/** Returns the message of digits or of a rule, or the number of bytes of 0 that no array of some engines can have. */
function messageOf(text) {
  const [rule, size] = text.split(":");
  if (rule === "zeros") return Number(size);
  return rule === "ramp" ? Uint8Array.from({ length: Number(size) }, (_, at) => at % 251) : bytesOf(text);
}

const decoder = new TextDecoder("utf-8", { fatal: true, ignoreBOM: true });

/** Returns the string of which a message is the UTF-8, or the message if there is none. */
function textOf(message) {
  try {
    return decoder.decode(message);
  } catch {
    return message;
  }
}

/** Adds a message in pieces of 1, 2, 3 bytes, and so on, or so many bytes of 0. */
function addInPieces(hasher, message) {
  const zeros = typeof message === "number" ? new Uint8Array(2 ** 24) : undefined;
  for (let left = zeros ? message : 0; left > 0; left -= zeros.length) hasher.update(zeros.subarray(0, left));
  for (let at = 0, size = 1; at < message.length; at += size, size += 1) hasher.update(message.subarray(at, at + size));
  return hasher;
}

/** Returns the options for the secrets that a line names, in each way that there is. */
function optionsOf(version, rule) {
  const [name, list] = rule.split(":");
  const secrets = BigUint64Array.from((list ?? "0").split(","), BigInt);
  const [seed] = secrets;
  const suffix = version === "v1" ? "V1" : "";
  if (name === "word") return [{ seed }, { secrets: library[`seedSecrets${suffix}`](seed) }];
  if (name === "make") return [{ secrets: library[`makeSecrets${suffix}`](seed) }];
  if (name === "own") return [{ secrets }];
  assert.equal(name, "default");
  return [undefined, {}, ...version.startsWith("v3") ? [{ secrets: library.seedSecrets(0n) }] : []];
}

/** Returns the name of a version's calls, and the class of its hashers, if any. */
function named(version) {
  const name = version.replace(/_[a-z]/, (part) => part[1].toUpperCase());
  return [name, library[name.replace("v", "V")]];
}

/** Returns what all numbers are, or all of them. */
const same = (numbers) => [...new Set(numbers)].join(" ");

function replayHash(version, rule, argument) {
  const [name, Stream] = named(version);
  const message = messageOf(argument);
  const all = optionsOf(version, rule).slice(0, typeof message === "number" ? 1 : undefined);
  return same(all.flatMap((options) => {
    const streams = Stream ? [addInPieces(new Stream(options), message)] : [];
    const found = streams.flatMap((hasher) => [hasher.digest(), BigInt(`0x${hasher.digest("hex")}`)]);
    if (typeof message === "number") return found;
    const digits = library[`${name}Hex`](message, options);
    const hash = library[name](message, options);
    const ofText = library[name](textOf(message), options);
    return [...found, hash, ofText, BigInt(`0x${digits}`), its.hex(hash) === digits ? hash : -1n];
  }));
}

function replaySecrets(version, rule) {
  const [name, number] = rule.split(":");
  const call = name === "make" ? "makeSecrets" : "seedSecrets";
  return library[version === "v1" ? `${call}V1` : call](BigInt(number)).join(" ");
}

function replayKey(version, rule, argument) {
  if (argument.startsWith("zeros")) return "";
  const fields = argument.split(" ").filter((text) => text !== "()").map((text) => text === "-" ? null
    : text[0] === "x" ? bytesOf(text.slice(1)) : BigInt(text));
  const found = optionsOf(version, rule).map((options) => library.v3KeyWith(options ?? {}, ...fields));
  return same(rule === "default" ? [...found, library.v3Key(...fields)] : found);
}

/** Checks that a hasher refuses bytes and keeps its message. */
function refuse(hasher, saved) {
  const before = hasher.digest();
  assert.throws(() => hasher.load(saved), { name: "TypeError" });
  assert.equal(hasher.digest(), before);
}

/** Plays an operation on the last saved bytes that changes them. */
function change(kind, text, hasher, saved) {
  for (let bit = 0; kind === "~" && bit < 8 * saved.length; bit++) {
    saved[bit >> 3] ^= 1 << (bit & 7);
    refuse(hasher, saved);
    saved[bit >> 3] ^= 1 << (bit & 7);
  }
  if (kind === "~") return;
  const [place, others, check] = text.split(":");
  const changed = saved.slice();
  changed.set(bytesOf(others), Number(place));
  changed.set(bytesOf(check), 200);
  if (kind === "^") refuse(hasher, changed);
  else hasher.load(changed);
}

function replayStream(version, rule, argument) {
  const [, Stream] = named(version);
  const options = optionsOf(version, rule).pop();
  let [hasher, saved] = [new Stream(options), undefined];
  const values = [];
  for (const operation of argument.split(" ")) {
    const [kind, text] = [operation[0], operation.slice(1)];
    if (kind === "w") hasher.update(bytesOf(text));
    else if (kind === "r") hasher.reset();
    else if (kind === "f") values.push(hasher.digest());
    else if (kind === "s") {
      saved = hasher.save();
      values.push(Array.from(saved, (byte) => byte.toString(16).padStart(2, "0")).join(""));
      hasher = new Stream(options).update("other").load(saved);
    } else if (kind === "=") hasher.load(bytesOf(text));
    else if (kind === "!") refuse(hasher, bytesOf(text));
    else if ("~^+".includes(kind)) change(kind, text, hasher, saved);
    else throw new Error(operation);
  }
  return values.join(" ");
}

function replayShard(kind, first, count) {
  const call = kind === "first_hash" ? its.firstHash : its[kind];
  try {
    const numbers = count < 2n ** 53n && kind !== "first_hash" ? [count, Number(count)] : [count];
    return same(numbers.map((number) => BigInt(call(first, number))));
  } catch (error) {
    assert.equal(error.name, "RangeError");
    return "refused";
  }
}

function replayFingerprint(version, rule, argument) {
  const hashes = argument === "-" ? [] : argument.split(" ").map(BigInt);
  return same([its.fingerprint(hashes), its.fingerprint(new BigUint64Array(hashes))]);
}

const replays = { hash: replayHash, secrets: replaySecrets, key: replayKey, stream: replayStream,
  fingerprint: replayFingerprint };
for (const kind of ["shard", "first_hash", "bucket"])
  replays[kind] = (version, rule, text) => replayShard(kind, ...text.split(" ").map(BigInt));

const text = await read("cases.tsv").catch(() => read("../../../crates/test_replay/data/cases.tsv"));
const lines = text.trimEnd().split("\n");

test("the cases of every language", () => {
  let count = 0;
  const versions = new Set();
  for (const line of lines.filter((line) => !/^(#|kind\t)/.test(line))) {
    const [kind, version, rule, argument, value] = line.split("\t");
    const found = replays[kind](version, rule, argument);
    // A version without streams, and a key, has no message above what an array can have.
    if (!(found === "" && argument.startsWith("zeros:"))) assert.equal(found, value, line.slice(0, 120));
    count += 1;
    if (kind === "hash") versions.add(named(version)[0]);
  }
  assert.ok(count > 5000);
  assert.deepEqual([...versions].sort(), Object.keys(library).filter((name) => `${name}Hex` in library).sort());
});
