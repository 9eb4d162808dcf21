// The rapidhash family of hashes, over the C header compiled for WebAssembly:
//
//     import { v3 } from "yervound-rapidhash";
//     const hash = v3("hello");
//
// A hash is a BigInt below 2n ** 64n, the same on every machine. README.md describes every call.
import { bytesOf, choose, kindOf, sizeOf, word } from "./arguments.mjs";
import { encodeKey } from "./key.mjs";
import { checkModule, isLong, Library, messageOf, piece } from "./library.mjs";
import { names, Stream } from "./stream.mjs";
import code from "./module.mjs";

/** Returns the bytes of the module inside the package. */
function inside() {
  return Uint8Array.from(atob(code), (letter) => letter.charCodeAt(0));
}

/** Returns whether a value is a compiled module, even of another realm. */
function isModule(source) {
  try {
    return WebAssembly.Module.exports(source) !== undefined;
  } catch {
    return false;
  }
}

/** Refuses a string, which is a message for other calls. */
function codeOf(source) {
  const wanted = "source must be the bytes of a module, or a WebAssembly.Module";
  if (typeof source === "string") throw new TypeError(`load: ${wanted}, not string`);
  return bytesOf(source, "load", wanted);
}

/** Refuses a module that needs imports, which that of the package does not. */
function checked(module) {
  checkModule(WebAssembly.Module.imports(module).length === 0);
  return module;
}

async function libraryOf(source) {
  const module = isModule(source) ? source : await WebAssembly.compile(codeOf(source));
  return new Library(await WebAssembly.instantiate(checked(module)));
}

function libraryNow(source) {
  const module = isModule(source) ? source : new WebAssembly.Module(codeOf(source));
  return new Library(new WebAssembly.Instance(checked(module)));
}

/** Resolves to the calls, over the module inside the package, the bytes of another, or a WebAssembly.Module. */
export async function load(source = inside()) {
  return calls(await libraryOf(source));
}

/** Returns the calls synchronously, over the module inside the package or another. */
export function loadSync(source = inside()) {
  return calls(libraryNow(source));
}

export { bucket, fingerprint, firstHash, shard } from "./shards.mjs";

/** Returns a hash as 16 lower-case hexadecimal digits. */
export function hex(hash) {
  return word("hex: hash", hash).toString(16).padStart(16, "0");
}

/** The versions: the name of each call, its export, the number of its words of secrets and, if it has streams, that of
 * their lanes. */
const versions = {
  v1: ["v1", 4], v2_0: ["v2_0", 8], v2_1: ["v2_1", 8], v2_2: ["v2_2", 8],
  v3: ["v3", 8, 7], v3Micro: ["v3_micro", 8, 5], v3Nano: ["v3_nano", 8, 3], v3Protected: ["v3_protected", 8],
};

/** Returns the two calls of a version: for a BigInt and for hexadecimal digits. They hash a message longer than a piece
 * with a stream, if the version has one. */
function form(library, ofHash, [name, count, lanes]) {
  const { atBytes } = library;
  const { [name]: whole, [`${name}_low`]: low } = library.exports;
  checkModule(whole && low);
  const ofDigits = `${ofHash}Hex`;
  const standard = count === 4 ? library.atDefaultV1 : library.atDefault;
  const general = (data, options, encoding) => {
    if (options === undefined && typeof data === "string" && 3 * data.length <= piece && !encoding)
      return BigInt.asUintN(64, whole(atBytes, library.putText(data), standard));
    const call = encoding ? ofDigits : ofHash;
    const choice = options === undefined ? undefined : choose(options, call, count);
    const message = messageOf(data, call);
    if (lanes && isLong(message)) return new Stream(library, lanes, choice).update(message).digest(encoding);
    const secrets = choice === undefined ? standard : library.give(choice, count);
    const length = library.put(message);
    if (encoding) return library.digits(low(atBytes, length, secrets));
    return BigInt.asUintN(64, whole(atBytes, length, secrets));
  };
  // Separate and small, so that the engine inlines it into its callers.
  const hash = (data, options) => {
    if (options === undefined && kindOf(data) === "Uint8Array") {
      const length = sizeOf(data);
      if (length > 0 && length <= piece)
        return BigInt.asUintN(64, whole(atBytes, library.putBytes(data, length), standard));
    }
    return general(data, options);
  };
  return [hash, (data, options) => general(data, options, "hex")];
}

/** Returns the call that hashes a key: by V3, of which `v3` is the call for a long key. */
function keys(library, v3) {
  const { atBytes, atDefault, exports } = library;
  return (fields, options) => {
    const choice = options === undefined ? undefined : choose(options, "v3KeyWith", 8);
    const key = encodeKey(fields, library, piece);
    if (typeof key !== "number") return v3(key, choice);
    const secrets = choice === undefined ? atDefault : library.give(choice, 8);
    return BigInt.asUintN(64, exports.v3(atBytes, key, secrets));
  };
}

/** Returns the classes of the hashers by their names, over the library that a function returns. */
function classes(libraryNeeded) {
  return Object.fromEntries(Object.entries(names).map(([lanes, name]) => [name, { [name]: class extends Stream {
    constructor(options) {
      super(libraryNeeded(), Number(lanes), options);
    }
  } }[name]]));
}

/** Returns the result of load: each call takes data and, optionally, { seed } or { secrets }. `room` is
 * the maximum length in bytes of a message for V1, V2, and protected V3, if the engine has the memory. */
function calls(library) {
  const secrets = (name, count) => (number) => library.take(name, count, number);
  const hashes = Object.fromEntries(Object.entries(versions).flatMap(([name, version]) => {
    const [hash, digits] = form(library, name, version);
    return [[name, hash], [`${name}Hex`, digits]];
  }));
  const key = keys(library, hashes.v3);
  return {
    ...hashes,
    v3Key: (...fields) => key(fields),
    v3KeyWith: (options, ...fields) => key(fields, options),
    makeSecrets: secrets("make_secrets", 8),
    seedSecrets: secrets("seed_secrets", 8),
    makeSecretsV1: secrets("make_secrets_v1", 4),
    seedSecretsV1: secrets("seed_secrets_v1", 4),
    ...classes(() => library),
    room: library.room,
  };
}

/** The library of the exported calls and these calls over it, which `ready` or the first call loads, and a load of
 * `ready` that has not ended. */
let shared;
let own;
let loading;

function share(library) {
  if (own === undefined) [shared, own] = [library, calls(library)];
  return own;
}

const ours = () => own ?? share(libraryNow(inside()));
const ourLibrary = () => ours() && shared;
const hash = (name) => (data, options) => ours()[name](data, options);
const call = (name) => (...words) => ours()[name](...words);

/** Loads the module for the exported calls. Without it, the first call loads the module synchronously. */
export async function ready() {
  if (own === undefined) await (loading ??= libraryOf(inside()).then(share).finally(() => (loading = undefined)));
}

/** Returns the exported calls of these names. */
const exported = (call, names) => Object.fromEntries(names.map((name) => [name, call(name)]));
export const { v1, v2_0, v2_1, v2_2, v3, v3Micro, v3Nano, v3Protected } = exported(hash, Object.keys(versions));
export const { v1Hex, v2_0Hex, v2_1Hex, v2_2Hex, v3Hex, v3MicroHex, v3NanoHex, v3ProtectedHex } =
  exported(hash, Object.keys(versions).map((name) => `${name}Hex`));
export const { v3Key, v3KeyWith, makeSecrets, seedSecrets, makeSecretsV1, seedSecretsV1 } = exported(call,
  ["v3Key", "v3KeyWith", "makeSecrets", "seedSecrets", "makeSecretsV1", "seedSecretsV1"]);
export const { V3, V3Micro, V3Nano } = classes(ourLibrary);
export { day, decimal, floatBits, time, uuid } from "./fields.mjs";
