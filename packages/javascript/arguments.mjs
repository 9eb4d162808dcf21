// The arguments of the calls: messages, integers, and { seed } or { secrets }. The internal slots of an object decide
// what it is, so properties, prototypes and other realms make no difference.

const encoder = new TextEncoder();
const { getOwnPropertyDescriptor, getPrototypeOf } = Object;
const typed = getPrototypeOf(Uint8Array.prototype);

/** Returns a method or getter as a function whose first argument is the object. */
const free = (method) => Function.prototype.call.bind(method);
const getter = (prototype, name) => free(getOwnPropertyDescriptor(prototype, name).get);

/** Returns the name of a typed array's class, and undefined for anything else. */
export const kindOf = getter(typed, Symbol.toStringTag);
/** Returns the length of a typed array in bytes: 0 if it is detached or outside its buffer. */
export const sizeOf = getter(typed, "byteLength");
const bufferOf = getter(typed, "buffer");
const offsetOf = getter(typed, "byteOffset");
const keysOf = free(typed.keys);
const view = DataView.prototype;
const [viewBuffer, viewOffset, viewSize] = ["buffer", "byteOffset", "byteLength"].map((name) => getter(view, name));
const bufferSize = getter(ArrayBuffer.prototype, "byteLength");

function isBuffer(data) {
  try {
    return bufferSize(data) >= 0;
  } catch {
    return false;
  }
}

/** Returns the bytes of a typed array, a view or a buffer, or undefined for anything else. */
function viewOf(data) {
  const kind = kindOf(data);
  // The iterator of a typed array refuses one that is detached or outside its buffer.
  if (kind !== undefined && sizeOf(data) === 0) keysOf(data);
  if (kind === "Uint8Array") return data;
  if (kind !== undefined) return new Uint8Array(bufferOf(data), offsetOf(data), sizeOf(data));
  if (ArrayBuffer.isView(data)) return new Uint8Array(viewBuffer(data), viewOffset(data), viewSize(data));
  return isBuffer(data) ? new Uint8Array(data) : undefined;
}

/** Returns the name of the call over an export of the module. */
export const callOf = (name) => name.replace(/_([a-z])/g, (_, letter) => letter.toUpperCase());

/** Returns what a value is, for the text of an error. */
export function whatIs(value) {
  if (typeof value !== "object" || value === null) return value === null ? "null" : typeof value;
  return Object.prototype.toString.call(value).slice(8, -1);
}

/** Returns the UTF-8 of a string, or the bytes of an ArrayBuffer or of a view of one. An error names the call. */
export function bytesOf(data, call, wanted = "data must be a string, an ArrayBuffer or a view of one") {
  if (typeof data === "string") return encoder.encode(data);
  let bytes;
  try {
    bytes = viewOf(data);
  } catch {
    throw new TypeError(`${call}: the buffer is detached, or too short for its view`);
  }
  if (bytes === undefined) throw new TypeError(`${call}: ${wanted}, not ${whatIs(data)}`);
  return bytes;
}

/** Returns a part of a Uint8Array without its own methods, which may have been replaced. */
export function part(bytes, from, to) {
  return new Uint8Array(bufferOf(bytes), offsetOf(bytes) + from, Math.min(to, sizeOf(bytes)) - from);
}

/** Writes a string as UTF-8 to an array that has room for it. Returns the number of bytes. */
export function encodeInto(text, array) {
  return encoder.encodeInto(text, array).written;
}

/** Returns the argument `name` as a BigInt from 0 to 2^64 - 1. A Number from 2^53 on may be rounded. */
export function word(name, number) {
  if (typeof number !== "bigint" && typeof number !== "number")
    throw new TypeError(`${name} must be a BigInt or a Number, not ${whatIs(number)}`);
  if (typeof number === "number" && !Number.isSafeInteger(number))
    throw new RangeError(`${name} must be an integer, and a BigInt from 2n ** 53n on, not ${number}`);
  if (BigInt.asUintN(64, BigInt(number)) !== BigInt(number))
    throw new RangeError(`${name} must be from 0 to 2n ** 64n - 1n, not ${number}`);
  return BigInt(number);
}

/** Returns whether a value is an object as { } creates it, in this window or another. */
function isPlain(value) {
  if (typeof value !== "object" || value === null) return false;
  const prototype = getPrototypeOf(value);
  return prototype === null || getPrototypeOf(prototype) === null && "isPrototypeOf" in prototype;
}

/** Returns the seed or the `count` words of secrets of a call, if any. Reads own properties alone, and refuses unknown
 * ones. */
export function choose(options, call, count) {
  if (options === undefined) return { seed: undefined, secrets: undefined };
  if (!isPlain(options))
    throw new TypeError(`${call}: options must be an object: { seed } or { secrets }, not ${whatIs(options)}`);
  const own = { __proto__: null, seed: undefined, secrets: undefined };
  for (const name of Reflect.ownKeys(options)) {
    if (name !== "seed" && name !== "secrets")
      throw new TypeError(`${call}: unknown option '${String(name)}': expected seed or secrets`);
    own[name] = options[name];
  }
  const { seed, secrets } = own;
  if (seed !== undefined && secrets !== undefined)
    throw new TypeError(`${call}: pass either seed or secrets, not both`);
  if (secrets !== undefined && kindOf(secrets) !== "BigUint64Array")
    throw new TypeError(`${call}: secrets must be a BigUint64Array, the seed first, not ${whatIs(secrets)}`);
  if (secrets !== undefined && sizeOf(secrets) !== 8 * count)
    throw new TypeError(`${call}: secrets must have ${count} words for this version, the seed first, not ${
      sizeOf(secrets) / 8}`);
  return { seed: seed === undefined ? undefined : word(`${call}: seed`, seed), secrets };
}

/** Returns whether a digest must be hexadecimal digits. */
export function isHex(encoding) {
  if (encoding !== undefined && encoding !== "hex")
    throw new TypeError("digest: the encoding must be 'hex', or undefined for a BigInt");
  return encoding === "hex";
}

/** Returns the error for a source that was read before: it would have no piece. */
export const readBefore = () => new TypeError("updateFrom: the source was read before");

/** Node's own check, where there is no Response, as in jsdom and with --no-experimental-fetch. */
const { isDisturbed } = globalThis.process?.getBuiltinModule?.("stream") ?? {};

/** Returns whether a stream was read before, at least in part, or cancelled. The rest may be the caller's message. */
export function wasRead(stream) {
  if (stream.readableDidRead === true || isDisturbed?.(stream) || ended.has(stream)) return true;
  try {
    getter(ReadableStream.prototype, "locked")(stream); // which a web stream has, also of another window
  } catch {
    return false;
  }
  try {
    return typeof Response === "function" && !new Response(stream); // reads nothing, and refuses such a stream
  } catch {
    return true;
  }
}

/** Returns whether a web stream has a reader, or a Node stream has ended after pieces or was destroyed. The iterator of
 * a Node stream that failed throws its error. */
function isUsedUp(source) {
  if (typeof source?.getReader === "function") return source.locked === true;
  if (typeof source?.pipe !== "function" || source.readable !== false || source.errored) return false;
  return source.readableEnded !== true || source.readableDidRead !== false;
}

/** The streams and iterators that a call reads or has not read to the end: none has its pieces for a second one. */
const begun = new WeakSet();
/** Those that a call has read to the end. They may have other pieces, as a cursor that is rewound. */
const ended = new WeakSet();

/** Notes that a call has read a stream or an iterator to the end. */
export function end(source) {
  if (begun.delete(source)) ended.add(source);
}

/** Returns whether a call has begun to read a stream or an iterator, and from now on one has. */
function wasBegun(source) {
  const isOnce = ["pipe", "next", "getReader"].some((name) => typeof source?.[name] === "function");
  return isOnce && !source.errored && (begun.has(source) || !begun.add(source));
}

/** Returns the stream of a Response, or of a Request. */
function streamOfBody(source) {
  if (source.bodyUsed === true) throw readBefore();
  if (source.body !== null) return streamOf(source.body);
  if (/^(opaque|opaqueredirect|error)$/.test(source.type))
    throw new TypeError(`updateFrom: a Response of the type '${source.type}' shows no body`);
  return (async function* () {})();
}

/** Returns the stream inside a Blob, a File or a Response, or a web stream, a Node stream or an iterable unchanged. */
export function streamOf(source) {
  if ([source?.[Symbol.asyncIterator], source?.getReader].some((call) => typeof call === "function")) return source;
  if (typeof source?.stream === "function") return streamOf(source.stream());
  if (typeof source?.arrayBuffer === "function" && source.body !== undefined) return streamOfBody(source);
  throw new TypeError(`updateFrom: source must be a stream, a Blob, a Response, or another async iterable, not ${
    whatIs(source)}`);
}

/** Returns the pieces of a result of streamOf. Some engines have no iterator for web streams. */
export function piecesOf(stream) {
  if (isUsedUp(stream) || wasBegun(stream)) throw readBefore();
  return typeof stream[Symbol.asyncIterator] === "function" ? stream : readAll(stream.getReader());
}

async function* readAll(reader) {
  try {
    for (;;) {
      const { done, value } = await reader.read();
      if (done) return;
      yield value;
    }
  } finally {
    await reader.cancel();
  }
}
