// Replays tests/fields.tsv, the values of types and the encodings of their fields, in Node: scripts/fields.py says how.
import assert from "node:assert/strict";
import { existsSync, readFileSync } from "node:fs";
import { test } from "node:test";

const its = await import("yervound-rapidhash").catch(() => import("../../../build/npm/rapidhash.mjs"));
const { day, decimal, floatBits, time, uuid, v3, v3Key } = its;
const beside = new URL("fields.tsv", import.meta.url);
const file = existsSync(beside) ? beside : new URL("../../../tests/fields.tsv", import.meta.url);
const lines = readFileSync(file, "utf8").trim().split("\n").slice(2).map((line) => line.split("\t"));

/** Returns the items of a list of JSON, whose integers can be large. */
function listOf(text) {
  const numbers = text.replace(/("(?:[^"\\]|\\.)*")|(-?\d+)/g, (all, string) => string ?? `{"n":"${all}"}`);
  return JSON.parse(numbers, (_, it) => it !== null && typeof it.n === "string" ? BigInt(it.n) : it);
}

const makers = { boolean: (text) => text === "true", integer: BigInt, date: day, time, uuid, decimal, list: listOf,
  float: (text) => floatBits(text.endsWith("inf") ? Number(text.replace("inf", "Infinity")) : Number(text)) };

function keyOf(make, text) {
  try {
    return v3Key(text === "null" ? null : make(text));
  } catch (error) {
    assert.ok(error instanceof TypeError || error instanceof RangeError || error instanceof SyntaxError, error);
    return "refused";
  }
}

test("values of types", () => {
  for (const [kind, text, encoding] of lines) {
    const bytes = Uint8Array.from(encoding.match(/../g), (digits) => Number.parseInt(digits, 16));
    const wanted = encoding === "refused" ? encoding : v3(bytes);
    assert.equal(keyOf(makers[kind], text), wanted, `${kind} ${text}`);
    if (text === "null" && ["date", "time", "uuid", "decimal"].includes(kind))
      assert.equal(makers[kind](null), null);
    const date = kind === "date" && wanted !== "refused" ? new Date(text) : undefined;
    if (date !== undefined && text !== "null") assert.equal(v3Key(day(date)), wanted);
    if (kind === "time" && wanted !== "refused" && /^[^.]*(\.\d{1,3}0*)?(Z|[+-][\d:]+)$/.test(text))
      assert.equal(v3Key(new Date(text)), wanted, text);
  }
  assert.ok(lines.length > 470);
});

test("decimals of many digits", () => {
  for (const text of [`0.${"0".repeat(100_000)}1`, "1".repeat(131_072), `${"9".repeat(149_999)}`]) {
    const start = performance.now();
    assert.equal(decimal(text), text);
    assert.equal(decimal(`+0${text}${text.includes(".") ? "" : "."}000e0`), text);
    assert.ok(performance.now() - start < 500);
  }
  assert.equal(decimal("1e149999"), `1${"0".repeat(149_999)}`);
  const nines = "9".repeat(400);
  for (const text of ["1e150000", "-1e149999", "1e-149999", "1e1000000000", `1e${nines}`, `1e-${nines}`])
    assert.throws(() => decimal(text), { name: "RangeError", message: /^decimal: number must have at most 150000 / });
  assert.equal(decimal(`0e${nines}`), "0");
  for (const text of [" 1", "1 ", "1_000", "0x10", "1,5", "١", "1\n"]) assert.throws(() => decimal(text), RangeError);
  assert.equal(decimal(-5n), "-5");
  assert.equal(decimal(-0), "0");
});

test("what is refused", () => {
  const invalid = new Date(NaN);
  for (const call of [() => day(invalid), () => day(new Date(1)), () => day(19782), () => time(invalid), () => time(5),
    () => time("2024-02-29T12:34:56"), () => time("2024-02-29T12:34:56+24:00"), () => uuid("1-1-1-1-1"),
    () => time("2024-02-29T12:34:56+01:00:60"), () => time("12024-02-29T12:34:56Z"),
    () => uuid(undefined), () => decimal(1.5), () => decimal(undefined), () => floatBits("1"), () => floatBits(NaN),
    () => day("2024-02-29\n")])
    assert.throws(call, /^(Type|Range)Error: (day|time|uuid|decimal|floatBits): /);
  const hostile = Object.assign(new Date(1), { toString: () => assert.fail() });
  for (const [call, value, shown] of [[time, invalid, "Invalid Date"], [day, hostile, "1970-01-01T00:00:00.001Z"],
    [decimal, 1.5, 1.5], [decimal, `${"1".repeat(40)},5`, `"${"1".repeat(40)}..."`], [uuid, {}, "Object"]])
    assert.throws(() => call(value), ({ message }) => message.endsWith(`, not ${shown}`));
  assert.equal(time("2024-02-29 12:34:56.789012+00"), 1709210096789012n);
  assert.equal(time("1880-01-01 00:00:00-05:50:36"), time("1880-01-01T05:50:36Z"));
  assert.equal(time("1930-01-01 00:00:00+00:19:32"), time("1929-12-31T23:40:28Z"));
});
