// The encoding of a key of several fields, which is the same in every language: for each field a tag, and then nothing,
// the integer as 8 bytes, or the number of bytes as 8 bytes and the bytes. All numbers are little-endian.
import { bytesOf, encodeInto, kindOf, sizeOf } from "./arguments.mjs";
import { millisecondsOf } from "./fields.mjs";

const [nothing, integer, bytes] = [0, 1, 2];
/** Up to this many letters, a loop is faster than encodeInto(). */
const few = 60;
const wanted = "a field must be null, a boolean, an integer, a string, a Uint8Array, a Date or an array of these";

/** Writes a short string as UTF-8. Returns the end, or -1 if it has half of a surrogate pair. */
function putLetters(text, array, start) {
  let end = start;
  for (let at = 0; at < text.length; at++) {
    const code = text.charCodeAt(at);
    if (code < 128) {
      array[end++] = code;
      continue;
    }
    if (code < 2048) {
      array[end++] = 192 | code >> 6;
    } else if ((code & 0xf800) !== 0xd800) {
      array[end++] = 224 | code >> 12;
      array[end++] = 128 | code >> 6 & 63;
    } else {
      const low = text.charCodeAt(++at); // NaN after the end
      if (code > 0xdbff || (low & 0xfc00) !== 0xdc00) return -1;
      const point = (code << 10) + low - 0x35fdc00;
      array[end++] = 240 | point >> 18;
      array[end++] = 128 | point >> 12 & 63;
      array[end++] = 128 | point >> 6 & 63;
      array[end++] = 128 | low & 63;
      continue;
    }
    array[end++] = 128 | code & 63;
  }
  return end;
}

/** Writes a string as UTF-8. Returns the end. */
function putText(text, place, array, start) {
  const { length } = text;
  let end = -1;
  if (length <= few) end = putLetters(text, array, start);
  else if (!/\p{Surrogate}/u.test(text)) end = start + encodeInto(text, array.subarray(start, start + 3 * length));
  if (end < 0) throw new TypeError(`fields[${place}] has half of a surrogate pair`);
  return end;
}

/** Writes an integer as 8 bytes. */
function putInteger(number, place, view, at) {
  if (typeof number === "bigint") {
    if (BigInt.asIntN(64, number) !== number && BigInt.asUintN(64, number) !== number)
      throw new RangeError(`fields[${place}] must be from -(2n ** 63n) to 2n ** 64n - 1n`);
    view.setBigUint64(at, BigInt.asUintN(64, number), true);
  } else {
    if (!Number.isSafeInteger(number))
      throw new RangeError(`fields[${place}] must be a safe integer, or a BigInt, not ${number}; floatBits makes a ${
        ""}BigInt of a number with a fraction`);
    view.setInt32(at, number | 0, true);
    view.setInt32(at + 4, Math.floor(number / 2 ** 32), true);
  }
}

/** Writes the size of a field's bytes as 8 bytes. */
function putSize(size, view, at) {
  view.setUint32(at, size, true);
  view.setUint32(at + 4, Math.floor(size / 2 ** 32), true);
}

/** Returns the integer of a boolean or a Date, or undefined for anything else. */
function integerOf(field, place) {
  if (typeof field === "boolean") return Number(field);
  const milliseconds = millisecondsOf(field);
  if (Number.isNaN(milliseconds)) throw new RangeError(`fields[${place}] is an invalid Date`);
  return milliseconds === undefined ? undefined : BigInt(milliseconds) * 1000n;
}

/** Writes fields: those of a list at its place, or else each at its own. Returns the same as putField. */
function putFields(fields, place, array, view, room, start) {
  let end = start;
  for (let at = 0; at < fields.length && end <= room; at++)
    end = putField(fields[at], place ?? at, array, view, room, end);
  return end;
}

/** Returns a copy of a list up to its first hole, which is refused, and any other field unchanged. */
function copyOf(field) {
  if (!Array.isArray(field)) return field;
  const items = [], { length } = field;
  for (let item = null; items.length < length && item !== undefined; items.push(item)) item = field[items.length];
  return items;
}

/** Writes a list: the number of its items, and then each. Returns the same as putField. */
function putList(items, place, array, view, room, start) {
  if (items.some(Array.isArray)) throw new TypeError(`fields[${place}]: a list in a key must not contain a list`);
  return putFields(items, place, array, view, room, putField(items.length, place, array, view, room, start));
}

/** Writes the field of another value than null, an integer or a string. Returns the same as putField. */
function putOther(field, place, array, view, room, end) {
  if (Array.isArray(field)) return putList(field, place, array, view, room, end);
  const kind = kindOf(field);
  // A Date is read before whatIs() asks for the name of its class: a user's getter, which may hash.
  const number = kind === undefined ? integerOf(field, place) : undefined;
  if (number !== undefined) return putField(number, place, array, view, room, end);
  if (kind !== undefined && kind !== "Uint8Array") throw new TypeError(`fields[${place}]: ${wanted}, not ${kind}`);
  const text = bytesOf(field, `fields[${place}]`, wanted);
  const start = end + 9, after = start + sizeOf(text);
  if (after > room) return after;
  array[end] = bytes;
  putSize(after - start, view, end + 1);
  array.set(text, start);
  return after;
}

/** Writes a field to an array of `room` bytes, of which `view` is a view. Returns the end of the field; if it may not
 * fit, a number of bytes above the room that suffices for the fields so far. */
function putField(field, place, array, view, room, end) {
  const kind = typeof field, start = end + 9;
  const most = kind === "string" ? start + 3 * field.length : start;
  if (most > room) return most;
  if (field === null) {
    array[end] = nothing;
    return end + 1;
  }
  if (kind === "bigint" || kind === "number") {
    array[end] = integer;
    putInteger(field, place, view, end + 1);
    return start;
  }
  if (kind !== "string") return putOther(field, place, array, view, room, end);
  array[end] = bytes;
  const after = putText(field, place, array, start);
  putSize(after - start, view, end + 1);
  return after;
}

/** Returns an array with room for a key of `size` bytes, and for some more, if the engine has an array as long. */
function arrayOf(size) {
  for (const room of [Math.ceil(1.25 * size), size]) {
    try {
      return new Uint8Array(room);
    } catch (error) {
      if (!(error instanceof RangeError)) throw error;
    }
  }
  throw new RangeError(`v3Key: a key of ${size} bytes is longer than an array can be`);
}

/** Writes the encoding of a key to the library's memory and returns its length, or, if it is long, returns it as a
 * Uint8Array. */
export function encodeKey(values, library, room) {
  // A getter of a list may change it, and may hash, which writes to the memory.
  const fields = values.some(Array.isArray) ? values.map(copyOf) : values, { views } = library;
  let size = putFields(fields, undefined, views.bytes, views.view, room, 0);
  if (size <= room) return size;
  for (;;) {
    const array = arrayOf(size);
    const end = putFields(fields, undefined, array, new DataView(array.buffer), array.length, 0);
    if (end <= array.length) return array.subarray(0, end);
    size = end;
  }
}
