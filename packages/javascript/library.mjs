// The module's exports and its memory. After the module's own part, the memory has the default secrets, the secrets of
// a call, the state of a stream after its secrets, and the bytes of a single call. It grows to the longest message of
// V1, V2, or protected V3 and keeps that size. Its words are little-endian on every machine, so typed arrays over it
// have bytes, and a DataView reads and writes words.
import { bytesOf, callOf, encodeInto, kindOf, sizeOf, word } from "./arguments.mjs";

const page = 65536;
/** The maximum size in bytes of a memory with 32-bit addresses. */
const most = 2 ** 32;
/** A version with streams hashes a longer message in pieces of this many bytes. */
export const piece = 2 * page;
/** The secrets of a stream and the stream. */
export const stateSize = 64 + 208;
/** Up to this many bytes, a loop is faster than set(), and up to this many letters faster than encodeInto(). */
const few = 8;
const fewLetters = 20;
/** The version of the C header that the module is compiled from. */
const version = 100;
/** The default secrets of V1 are those of this seed word, and the others those of 0. */
const wordOfV1 = 0xbdd89aa982704029n;
const needed = ["memory", "__heap_base", "__stack_pointer", "version", "high", "start", "write", "reset", "finish",
  "finish_low", "save", "restore", "make_secrets", "seed_secrets", "make_secrets_v1", "seed_secrets_v1"];

/** The codes of the hexadecimal digits. toString(16) is slow above 31 bits. */
const codes = Array.from("0123456789abcdef", (digit) => digit.charCodeAt(0));

/** Refuses a module, unless it is that of the package. */
export function checkModule(isOurs) {
  if (!isOurs) throw new TypeError("the module is not that of this version of yervound-rapidhash");
}

export class Library {
  /** The stream whose state is in the memory, if any. */
  owner;
  #views;

  constructor({ exports }) {
    checkModule(needed.every((name) => name in exports) && exports.version() === version);
    this.exports = exports;
    this.atStack = exports.__stack_pointer.value;
    this.atDefault = (exports.__heap_base.value + 15) & ~15;
    this.atDefaultV1 = this.atDefault + 64;
    this.atSecrets = this.atDefaultV1 + 32;
    this.atState = this.atSecrets + 64;
    this.atBytes = this.atState + stateSize;
    this.room = most - this.atBytes;
    this.fit(piece);
    exports.seed_secrets(0n, this.atDefault);
    exports.seed_secrets_v1(wordOfV1, this.atDefaultV1);
  }

  /** Returns the views of the memory. It is the next use that creates them after the memory grows, which detaches them:
   * the call that needs the room may stop, at the end of the stack or by a timeout of Node's vm. */
  get views() {
    return this.#views ?? this.#look();
  }

  #look() {
    const { buffer } = this.exports.memory;
    this.#views = {
      secrets: new DataView(buffer, this.atSecrets, 64),
      secretsOfState: new DataView(buffer, this.atState, 64),
      state: new Uint8Array(buffer, this.atState, stateSize),
      bytes: new Uint8Array(buffer, this.atBytes),
      // Room for a text: the encoder of Node 20 and earlier writes nothing into 2 GiB or more.
      letters: new Uint8Array(buffer, this.atBytes, Math.min(piece, buffer.byteLength - this.atBytes)),
      view: new DataView(buffer, this.atBytes),
    };
    return this.#views;
  }

  /** Returns the bytes of the memory, with room for those of a message. */
  fit(length) {
    const { bytes } = this.views;
    const missing = length - bytes.length;
    if (missing <= 0) return bytes;
    this.#views = undefined;
    try {
      this.exports.memory.grow(Math.ceil(missing / page));
    } catch {
      throw new RangeError(`not enough memory in WebAssembly for ${length} bytes at once: ` +
        "V3, micro and nano hash such a message in pieces");
    }
    return this.views.bytes;
  }

  /** Writes a string as UTF-8 to the memory, which has room for it. Returns the number of bytes. */
  putText(text) {
    const { letters, view } = this.views;
    const { length } = text;
    if (length > fewLetters) return encodeInto(text, letters);
    let [at, all] = [0, 0];
    for (; at + 4 <= length; at += 4) {
      const [a, b] = [text.charCodeAt(at), text.charCodeAt(at + 1)];
      const [c, d] = [text.charCodeAt(at + 2), text.charCodeAt(at + 3)];
      view.setInt32(at, a | b << 8 | c << 16 | d << 24, true);
      all |= a | b | c | d;
    }
    for (; at < length; at++) all |= letters[at] = text.charCodeAt(at);
    return all > 127 ? encodeInto(text, letters) : length;
  }

  /** Copies `length` bytes, all of a Uint8Array, into the memory. Returns the length. */
  putBytes(message, length) {
    if (length <= few) {
      const { bytes } = this.views;
      for (let at = 0; at < length; at++) bytes[at] = message[at];
    } else {
      this.fit(length).set(message);
    }
    return length;
  }

  /** Copies a message of `messageOf` into the memory. Returns its length in bytes. */
  put(message) {
    return typeof message === "string" ? this.putText(message) : this.putBytes(message, sizeOf(message));
  }

  /** Writes the secrets of a call, those of a seed or the caller's own, to the memory: of a call or, at atState, of a
   * stream. Returns their offset. */
  give({ seed, secrets }, count, at = this.atSecrets) {
    const { exports } = this;
    if (secrets === undefined) {
      if (count === 4) exports.seed_secrets_v1(seed ?? wordOfV1, at);
      else exports.seed_secrets(seed ?? 0n, at);
      return at;
    }
    const view = at === this.atState ? this.views.secretsOfState : this.views.secrets;
    for (let place = 0; place < count; place++) view.setBigUint64(8 * place, secrets[place], true);
    return at;
  }

  /** Returns the secrets that the export `name` makes from a number. */
  take(name, count, number) {
    this.exports[name](word(`${callOf(name)}: number`, number), this.atSecrets);
    const secrets = new BigUint64Array(count);
    for (let place = 0; place < count; place++) secrets[place] = this.views.secrets.getBigUint64(8 * place, true);
    return secrets;
  }

  /** Empties the module's stack, before a call with a frame there: save or restore. Such a call leaves its frame if it
   * is stopped, at the end of the engine's stack or by a timeout of Node's vm. */
  rewind() {
    this.exports.__stack_pointer.value = this.atStack;
  }

  /** Returns the digits of a hash, of which an export returned the lower half. */
  digits(low) {
    const high = this.exports.high();
    return String.fromCharCode(
      codes[high >>> 28], codes[high >> 24 & 15], codes[high >> 20 & 15], codes[high >> 16 & 15],
      codes[high >> 12 & 15], codes[high >> 8 & 15], codes[high >> 4 & 15], codes[high & 15],
      codes[low >>> 28], codes[low >> 24 & 15], codes[low >> 20 & 15], codes[low >> 16 & 15],
      codes[low >> 12 & 15], codes[low >> 8 & 15], codes[low >> 4 & 15], codes[low & 15]);
  }
}

/** Returns a message for `put`: a short string unchanged, and anything else as bytes. */
export function messageOf(data, call) {
  if (typeof data === "string" && 3 * data.length <= piece) return data;
  return kindOf(data) === "Uint8Array" && sizeOf(data) > 0 ? data : bytesOf(data, call);
}

/** Returns whether a message must be hashed in pieces. */
export function isLong(message) {
  return typeof message !== "string" && sizeOf(message) > piece;
}
