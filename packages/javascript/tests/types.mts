// Code that the types accept or refuse. tsc compiles it, and nothing runs it.
import { day, decimal, hex, load, loadSync, ready, shard, v3, v3Hex, V3, V3Micro, V3Nano, type Hasher, type Message,
  type Options, type Rapidhash } from "yervound-rapidhash";

const library: Rapidhash = loadSync();
const later: Promise<Rapidhash> = load(new WebAssembly.Module(new Uint8Array(8)));
const data = new Uint8Array(3);
const messages: Message[] = ["text", data, data.buffer, new DataView(data.buffer), new Float64Array(2)];
const options: Options[] = [{}, { seed: 1 }, { seed: 1n }, { secrets: library.makeSecrets(1n) }];
const optional = (seed?: bigint, secrets?: BigUint64Array): Options[] => [
  { seed, secrets: undefined }, { seed: undefined, secrets }, ...options,
];
const hash: bigint = library.v3("text", { seed: 7n }) ^ library.v1(data) ^ library.v2_0(data);
type Version = { [Name in keyof Rapidhash]: `${Name}Hex` extends keyof Rapidhash ? Name : never }[keyof Rapidhash];
const hashes: Record<Version, (data: Message, options?: Options) => bigint> = library;
const text: string = hex(hash) + library.v3Hex("text", { seed: 7n });
const hasher: Hasher = new library.V3(optional(1n)[0]).update(data).clone().reset();
const digits: string = hasher.load(hasher.save()).digest("hex");
const isHasher = (value: unknown): value is V3 => value instanceof V3;
const micro: V3Micro = new V3Micro();
const counted = (count: bigint | number): bigint | number => shard(hash, count);
const known = (encoding?: "hex"): bigint | string => new V3Nano().update(data).digest(encoding);

async function pieces(): Promise<bigint> {
  async function* parts() {
    yield* messages;
  }
  const { V3Nano } = await later;
  await hasher.updateFrom(new Blob([data]).stream());
  return (await new V3Nano().updateFrom(parts())).digest() ^ hasher.digest();
}

const shared: Promise<string> = ready().then(() => v3Hex("text") + v3("text", { seed: 1 }) + new V3().digest("hex"));
const key: bigint = library.v3Key("text", 1, 2n, null, data, data.buffer);
const seeded: bigint = library.v3KeyWith({ seed: 1 }, key, new DataView(data.buffer));

// @ts-expect-error A misspelt property is not a field.
library.v3Key(undefined);
const typed: bigint = library.v3Key(new Date(), true, [1, null], day("2024-02-29"), decimal("1.50"));
// @ts-expect-error A list in a list is not a field.
library.v3Key([[1]]);
// @ts-expect-error A seed is not a string.
library.v3(data, { seed: "7" });
// @ts-expect-error A bare seed is not an options object.
library.v3(data, 7n);
// @ts-expect-error A misspelt option.
library.v3(data, { sed: 7n });
// @ts-expect-error Both a seed and secrets.
library.v3(data, { seed: 7n, secrets: library.seedSecrets(7) });
// @ts-expect-error An encoding that a digest does not have.
hasher.digest("base64");
// @ts-expect-error The secrets of V1 are a BigUint64Array too, not an array of BigInts.
library.v1(data, { secrets: [1n, 2n, 3n, 4n] });
// @ts-expect-error A number is not a message.
hashes.v2_2(7);
// @ts-expect-error An array of numbers is not a message.
new library.V3Micro().update([1, 2]);
// @ts-expect-error A string is not a stream.
void hasher.updateFrom("text");
// @ts-expect-error A hash is not a Number.
const rounded: number = library.v2_2(data);
// @ts-expect-error hex requires a BigInt.
hex(7);
// @ts-expect-error A path cannot be read synchronously.
loadSync("rapidhash.wasm");
// @ts-expect-error The properties are read-only.
library.room = 7;

export { counted, digits, isHasher, known, micro, pieces, rounded, shared, text };
