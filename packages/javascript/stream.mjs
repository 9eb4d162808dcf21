// Messages in pieces.
import { bytesOf, choose, end, isHex, part, piecesOf, readBefore, sizeOf, streamOf, wasRead } from "./arguments.mjs";
import { isLong, messageOf, piece, stateSize } from "./library.mjs";

/** The offset of the stream of the C header in a state: the secrets come first. */
const atPointer = 64;
/** The size of a saved hasher, which begins with the name and the version of its format. */
const savedSize = 208;
/** The classes with these numbers of lanes. */
export const names = { 7: "V3", 5: "V3Micro", 3: "V3Nano" };
const format = Array.from("rapidV3\x02", (letter) => letter.charCodeAt(0));

/** Returns why a hasher with `lanes` lanes does not accept a saved one. */
function reasonOf(saved, lanes) {
  if (sizeOf(saved) !== savedSize) return `a saved hasher has ${savedSize} bytes, not ${sizeOf(saved)}`;
  if (format.some((byte, at) => saved[at] !== byte))
    return "expected a saved hasher, and of this version of the format";
  if (saved[8] !== lanes || saved[9] !== 1)
    return `the hasher was saved with ${saved[8]} lanes and options ${saved[9]}, not ${lanes} and 1`;
  return "the saved hasher was changed, or has another seed or other secrets";
}

/** Hashes a message in pieces. The state stays in the memory until another stream needs the space. */
export class Stream {
  #library;
  #lanes;
  /** The array of the state outside of the memory, if it has left that. Hashers share none: one that lives long would
   * keep the states of others. */
  #room;
  /** Half of a surrogate pair at the end of the last string, which the next string may complete, or "". */
  #half = "";
  /** Whether a call of updateFrom has not ended. Another would mix its pieces with those. */
  #isReading = false;

  constructor(library, lanes, options) {
    const { exports, atState, atDefault } = library;
    this.#library = library;
    this.#lanes = lanes;
    // Options may have getters, which may hash.
    const choice = options === undefined ? undefined : choose(options, names[lanes], 8);
    library.owner?.#leave();
    const secrets = choice === undefined ? atDefault : library.give(choice, 8, atState);
    exports.start(atState + atPointer, lanes, secrets);
    library.owner = this;
  }

  /** Brings the state into the memory. Returns the offset of the stream. */
  #enter() {
    const library = this.#library;
    if (library.owner !== this) {
      library.owner?.#leave();
      this.#fill();
      library.owner = this;
    }
    return library.atState + atPointer;
  }

  /** Copies the state out of the memory, in which another stream needs the space. Its call may be stopped, as by a
   * timeout of Node's vm, so this stream does not own the memory from here on. */
  #leave() {
    (this.#room ??= new Uint8Array(stateSize)).set(this.#library.views.state);
    this.#library.owner = undefined;
  }

  /** Copies the state, which has left the memory before, into it. */
  #fill() {
    this.#library.views.state.set(this.#room);
  }

  /** Copies the state to another hasher, whose start has sent this one's out of the memory. Returns the other. */
  #copyTo(other) {
    other.#enter();
    this.#fill();
    return other;
  }

  /** Appends a piece to the message. Returns the hasher. */
  update(data, ...others) {
    if (others.length > 0) throw new TypeError("update takes one piece: an encoding or an option has no effect");
    if (typeof data === "string") return this.#addText(data);
    const message = messageOf(data, "update");
    if (sizeOf(message) === 0) return this;
    if (this.#half !== "") this.#add("\ufffd");
    this.#half = "";
    return this.#add(message);
  }

  /** Appends a string after the half that waits for it, without the half at its own end, which waits for the next.
   * Returns the hasher. */
  #addText(text) {
    if (text === "") return this;
    const isPair = this.#half !== "" && (text.charCodeAt(0) & 0xfc00) === 0xdc00;
    const isCut = (text.charCodeAt(text.length - 1) & 0xfc00) === 0xd800;
    const rest = messageOf(isPair || isCut ? text.slice(Number(isPair), isCut ? -1 : undefined) : text, "update");
    if (this.#half !== "") this.#add(isPair ? this.#half + text[0] : "\ufffd");
    this.#half = "";
    this.#add(rest);
    if (isCut) this.#half = text.slice(-1);
    return this;
  }

  /** Appends a message of `messageOf`. Returns the hasher. */
  #add(message) {
    const library = this.#library;
    const stream = this.#enter();
    if (!isLong(message)) {
      library.exports.write(stream, library.atBytes, library.put(message));
      return this;
    }
    for (let at = 0; at < sizeOf(message); at += piece)
      library.exports.write(stream, library.atBytes, library.put(part(message, at, at + piece)));
    return this;
  }

  /** Appends all pieces of a web stream or a Node stream. Resolves to the hasher. */
  async updateFrom(source) {
    if (this.#isReading) throw new TypeError("updateFrom: the hasher still reads another source");
    const stream = streamOf(source);
    const isRest = wasRead(stream);
    let isEmpty = this.#isReading = true;
    try {
      for await (const data of piecesOf(stream)) {
        this.update(data);
        isEmpty = false;
      }
      end(stream);
    } finally {
      this.#isReading = false;
    }
    if (isEmpty && (isRest || stream.readableDidRead === true)) throw readBefore();
    return this;
  }

  /** Returns the hash of the message so far, as a BigInt or as "hex" digits. More pieces may follow. */
  digest(encoding) {
    const isDigits = isHex(encoding);
    // The half may be completed later, so another hasher ends it.
    if (this.#half !== "")
      return this.#copyTo(new Stream(this.#library, this.#lanes)).#add("\ufffd").digest(encoding);
    const { exports } = this.#library;
    if (isDigits) return this.#library.digits(exports.finish_low(this.#enter()));
    return BigInt.asUintN(64, exports.finish(this.#enter()));
  }

  /** Empties the message but keeps the secrets. Returns the hasher. */
  reset() {
    this.#library.exports.reset(this.#enter());
    this.#half = "";
    return this;
  }

  /** Returns an independent hasher with the same message so far. */
  clone() {
    this.#enter();
    const other = this.#copyTo(new this.constructor()); // which has left the memory too, if its constructor hashes
    other.#half = this.#half;
    return other;
  }

  /** Returns the saved hasher: bytes of the message, but no secrets. They are the same in every language. */
  save() {
    if (this.#half !== "") throw new TypeError("save: the message ends in half of a surrogate pair");
    const { exports, atBytes } = this.#library;
    this.#library.rewind();
    exports.save(this.#enter(), atBytes);
    return this.#library.views.bytes.slice(0, savedSize);
  }

  /** Replaces the message by that of a saved hasher of the same class, seed and secrets. Returns the hasher. */
  load(data) {
    const saved = bytesOf(data, "load");
    const { exports, atBytes } = this.#library;
    this.#library.rewind();
    if (sizeOf(saved) !== savedSize || !exports.restore(this.#enter(), atBytes, this.#library.put(saved)))
      throw new TypeError(reasonOf(saved, this.#lanes));
    this.#half = "";
    return this;
  }
}
