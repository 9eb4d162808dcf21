/** A message: a string, hashed as UTF-8, or bytes. */
export type Message = string | ArrayBuffer | ArrayBufferView;

/**
 * A seed from 0 to 2^64 - 1, as a BigInt from 2^53 on; or secrets, whose first word is the seed: four words for V1,
 * eight for every other version. Never both. A seed word does not protect against chosen input: use makeSecrets.
 */
export type Options =
  | { readonly seed?: bigint | number | undefined; readonly secrets?: undefined }
  | { readonly seed?: undefined; readonly secrets?: BigUint64Array | undefined };

/** A web stream, if it is not an async iterable. */
export interface WebStream {
  getReader(): {
    read(): Promise<{ done: boolean; value?: Message | undefined }>;
    cancel(): Promise<void>;
  };
}

/** A Node stream, a web stream, or any other async iterable of pieces; also a Blob, a File, or a Response. */
export type Pieces = AsyncIterable<Message> | WebStream | { stream(): WebStream } | { readonly body: WebStream | null };

/** Hashes a message in pieces. */
export interface Hasher {
  /**
   * Appends a piece to the message. Returns the hasher. The first half of a surrogate pair at the end of a string waits
   * for the next string, so pieces of a string hash as the string. Before bytes and in a digest it is U+FFFD.
   */
  update(data: Message): this;
  /**
   * Appends all pieces of a stream. Resolves to the hasher. Rejects with a TypeError if the stream was read before and
   * has no more pieces, or if a Response hides its body. So it does while another call reads the stream or fills the
   * hasher. After an error the hasher has the pieces before it.
   */
  updateFrom(source: Pieces): Promise<this>;
  /** Returns the hash of the message so far. More pieces may follow. */
  digest(): bigint;
  /** Returns the same hash as 16 lower-case hexadecimal digits. */
  digest(encoding: "hex"): string;
  /** Returns the hash as an encoding that is known at run time says. */
  digest(encoding: "hex" | undefined): bigint | string;
  /** Empties the message but keeps the secrets. Returns the hasher. */
  reset(): this;
  /** Returns an independent hasher with the same message so far. A subclass is constructed without an argument. */
  clone(): this;
  /** Returns the saved hasher: 208 bytes, the same in every language. They have bytes of the message but no secrets.
   * Throws a TypeError if the message ends in half of a surrogate pair. */
  save(): Uint8Array;
  /** Replaces the message by that of a saved hasher of the same class, seed and secrets. Returns the hasher. Throws a
   * TypeError that names the reason if the bytes are changed or of another hasher, and then changes nothing. */
  load(saved: ArrayBuffer | ArrayBufferView): this;
}

/** A field of a key: null, a boolean, an integer from -(2n ** 63n) to 2n ** 64n - 1n (a safe one, or a BigInt), a text,
 * bytes, a Date as its time, or a list of these. `undefined` is none. */
export type Value = null | boolean | number | bigint | string | Uint8Array | ArrayBuffer | DataView | Date;
export type Field = Value | readonly Value[];

/** The functions. A hash is from 0 to 2^64 - 1, the same on every machine. */
export interface Rapidhash {
  v1(data: Message, options?: Options): bigint;
  v2_0(data: Message, options?: Options): bigint;
  v2_1(data: Message, options?: Options): bigint;
  v2_2(data: Message, options?: Options): bigint;
  v3(data: Message, options?: Options): bigint;
  v3Micro(data: Message, options?: Options): bigint;
  v3Nano(data: Message, options?: Options): bigint;
  v3Protected(data: Message, options?: Options): bigint;
  /** These return the same hash as 16 lower-case hexadecimal digits. */
  v1Hex(data: Message, options?: Options): string;
  v2_0Hex(data: Message, options?: Options): string;
  v2_1Hex(data: Message, options?: Options): string;
  v2_2Hex(data: Message, options?: Options): string;
  v3Hex(data: Message, options?: Options): string;
  v3MicroHex(data: Message, options?: Options): string;
  v3NanoHex(data: Message, options?: Options): string;
  v3ProtectedHex(data: Message, options?: Options): string;
  /** Returns the hash of a key of several fields, the same in every language. Any other field is an error. */
  v3Key(...fields: Field[]): bigint;
  v3KeyWith(options: Options, ...fields: Field[]): bigint;
  /** Makes a seed and secrets from a number, for every version except V1. If others choose input, use a random one. */
  makeSecrets(number: bigint | number): BigUint64Array;
  /** Returns the default secrets with a seed derived from a word, for every version except V1. */
  seedSecrets(number: bigint | number): BigUint64Array;
  makeSecretsV1(number: bigint | number): BigUint64Array;
  seedSecretsV1(number: bigint | number): BigUint64Array;
  readonly V3: new (options?: Options) => Hasher;
  readonly V3Micro: new (options?: Options) => Hasher;
  readonly V3Nano: new (options?: Options) => Hasher;
  /** The maximum length in bytes of a message for V1, V2, and protected V3, if the engine has the memory. */
  readonly room: number;
}

/** A module: its bytes, or a WebAssembly.Module, whose type the library of the engine declares. */
export type Source = ArrayBuffer | ArrayBufferView | object;

/** Loads the module inside the package, or another source of it. */
export function load(source?: Source): Promise<Rapidhash>;

/** Loads the module inside the package, or another source of it, synchronously. */
export function loadSync(source?: Source): Rapidhash;

/** Returns a hash as 16 lower-case hexadecimal digits. */
export function hex(hash: bigint): string;

/** Returns the shard of a hash, below `count`: the integer part of hash * count / 2^64. It has the type of `count`. */
export function shard(hash: bigint, count: number): number;
export function shard(hash: bigint, count: bigint): bigint;
export function shard(hash: bigint, count: bigint | number): bigint | number;

/** Returns the first hash of a shard. The shard has the hashes from it to before the first of the next shard. */
export function firstHash(shard: bigint | number, count: bigint | number): bigint;

/** Returns the bucket of a hash, below `count`, which is below 2^32. Among more buckets the hash keeps its bucket, or
 * has a new one. */
export function bucket(hash: bigint, count: bigint | number): number;

/** Returns the fingerprint of hashes: their sum modulo 2^64, in any order, and 0n of none. */
export function fingerprint(hashes: Iterable<bigint>): bigint;

/** Loads the module for the calls below. Without it, the first of them loads the module synchronously, which some
 * browsers refuse outside of a worker. */
export function ready(): Promise<void>;

export const v1: Rapidhash["v1"];
export const v2_0: Rapidhash["v2_0"];
export const v2_1: Rapidhash["v2_1"];
export const v2_2: Rapidhash["v2_2"];
export const v3: Rapidhash["v3"];
export const v3Micro: Rapidhash["v3Micro"];
export const v3Nano: Rapidhash["v3Nano"];
export const v3Protected: Rapidhash["v3Protected"];
export const v1Hex: Rapidhash["v1Hex"];
export const v2_0Hex: Rapidhash["v2_0Hex"];
export const v2_1Hex: Rapidhash["v2_1Hex"];
export const v2_2Hex: Rapidhash["v2_2Hex"];
export const v3Hex: Rapidhash["v3Hex"];
export const v3MicroHex: Rapidhash["v3MicroHex"];
export const v3NanoHex: Rapidhash["v3NanoHex"];
export const v3ProtectedHex: Rapidhash["v3ProtectedHex"];
export const v3Key: Rapidhash["v3Key"];
export const v3KeyWith: Rapidhash["v3KeyWith"];
export const makeSecrets: Rapidhash["makeSecrets"];
export const seedSecrets: Rapidhash["seedSecrets"];
export const makeSecretsV1: Rapidhash["makeSecretsV1"];
export const seedSecretsV1: Rapidhash["seedSecretsV1"];

/** Returns the days since 1970-01-01 of a date `2024-02-29`, or of a Date that is midnight in UTC, and null for null.
 * Throws a RangeError or a TypeError for anything else. */
export function day(date: string | Date): number;
export function day(date: string | Date | null): number | null;
/** Returns the microseconds since 1970-01-01 00:00 UTC of a Date, or of a text with an offset from UTC, such as
 * `2024-02-29T12:34:56.789012Z`, and null for null. Throws a RangeError or a TypeError for anything else. */
export function time(value: string | Date): bigint;
export function time(value: string | Date | null): bigint | null;
/** Returns the 16 bytes of a UUID of 36 letters, and null for null. Throws a RangeError for another text. */
export function uuid(text: string): Uint8Array;
export function uuid(text: string | null): Uint8Array | null;
/** Returns the text that all texts of a decimal number's value have in common, such as `1.5` for `1.50`, and null for
 * null. Throws a RangeError for another text, or if more than 150,000 characters are needed without an exponent. */
export function decimal(number: string | number | bigint): string;
export function decimal(number: string | number | bigint | null): string | null;
/** Returns the 64 bits of a number, those of 0 for -0, and null for null. Throws a RangeError for NaN. */
export function floatBits(number: number): bigint;
export function floatBits(number: number | null): bigint | null;

export const V3: Rapidhash["V3"];
export type V3 = Hasher;
export const V3Micro: Rapidhash["V3Micro"];
export type V3Micro = Hasher;
export const V3Nano: Rapidhash["V3Nano"];
export type V3Nano = Hasher;
