// The fields of values that JavaScript has no type for, by the rules of docs/ALGORITHM.md. Each function keeps null.
import { whatIs } from "./arguments.mjs";

const dateTime = Function.prototype.call.bind(Date.prototype.getTime);
const longest = 150_000, millisecondsOfDay = 864e5;

/** Returns the milliseconds of a Date, or undefined for anything else. */
export function millisecondsOf(value) {
  try {
    return dateTime(value);
  } catch {
    return undefined;
  }
}

function refuse(call, wanted, value) {
  const milliseconds = millisecondsOf(value);
  const shown = typeof value === "string" ? JSON.stringify(value.length > 40 ? `${value.slice(0, 40)}...` : value)
    : typeof value === "number" ? value : milliseconds === undefined ? whatIs(value)
    : Number.isNaN(milliseconds) ? "Invalid Date" : new Date(milliseconds).toISOString();
  throw new (typeof value === "string" ? RangeError : TypeError)(`${call}: ${wanted}, not ${shown}`);
}

/** Returns the days from 1970-01-01 to a date of the Gregorian calendar, or undefined if there is no such date. */
function daysTo(year, month, day) {
  const date = new Date(0);
  date.setUTCFullYear(year, month - 1, day);
  return date.getUTCMonth() === month - 1 && date.getUTCDate() === day ? date.getTime() / millisecondsOfDay : undefined;
}

/** Returns the days since 1970-01-01 of a date `2024-02-29`, or of a Date that is midnight in UTC. */
export function day(date) {
  if (date === null) return null;
  const days = millisecondsOf(date) / millisecondsOfDay;
  if (Number.isInteger(days)) return days;
  const parts = typeof date === "string" ? /^(\d{4})-(\d\d)-(\d\d)$/.exec(date) : null;
  const found = parts === null ? undefined : daysTo(Number(parts[1]), Number(parts[2]), Number(parts[3]));
  return found ?? refuse("day", "date must be a day such as '2024-02-29', or a Date at midnight in UTC", date);
}

/** Returns the microseconds since 1970-01-01 00:00 UTC of a Date, or of a text with an offset from UTC, such as
 * `2024-02-29T12:34:56.789012Z`, or with a blank for T as databases print it. */
export function time(value) {
  if (value === null) return null;
  const milliseconds = millisecondsOf(value);
  if (Number.isInteger(milliseconds)) return BigInt(milliseconds) * 1000n;
  const parts = typeof value !== "string" ? null
    : /^(\d{4})-(\d\d)-(\d\d)[T ](\d\d):(\d\d):(\d\d)(?:\.(\d{1,6})0*)?(?:Z|([+-])(\d\d)(?::(\d\d)(?::(\d\d))?)?)$/
      .exec(value);
  const wanted = "value must be a Date, or a time in years 0 to 9999 with an offset from UTC and at most microseconds";
  if (parts === null) refuse("time", wanted, value);
  const numbers = parts.slice(1).map((digits) => Number(digits ?? 0));
  const [year, month, date, hours, minutes, seconds, , , zoneHours, zoneMinutes, zoneSeconds] = numbers;
  const days = daysTo(year, month, date);
  const isClock = Math.max(hours, zoneHours) < 24 && Math.max(minutes, seconds, zoneMinutes, zoneSeconds) < 60;
  if (days === undefined || !isClock) refuse("time", wanted, value);
  const ahead = (parts[8] === "-" ? -1 : 1) * ((60 * zoneHours + zoneMinutes) * 60 + zoneSeconds);
  const whole = ((days * 24 + hours) * 60 + minutes) * 60 + seconds - ahead;
  return BigInt(whole) * 1_000_000n + BigInt((parts[7] ?? "").padEnd(6, "0"));
}

/** Returns the 16 bytes of a UUID of 36 letters. */
export function uuid(text) {
  if (text === null) return null;
  if (typeof text !== "string" || !/^[0-9a-f]{8}(-[0-9a-f]{4}){3}-[0-9a-f]{12}$/i.test(text))
    refuse("uuid", "text must be a UUID of 36 letters", text);
  return Uint8Array.from(text.match(/[0-9a-f]{2}/gi), (digits) => parseInt(digits, 16));
}

/** Returns the number of characters of a text without those of its end that are zeros. */
function withoutZeros(text) {
  let end = text.length;
  while (text[end - 1] === "0") end--;
  return end;
}

/** Returns the text of a decimal number that all texts of its value have in common. */
export function decimal(number) {
  if (number === null) return null;
  const text = typeof number === "bigint" || Number.isSafeInteger(number) ? String(number) : number;
  const parts = typeof text === "string" ? /^([+-]?)(?=\.?\d)(\d*)(?:\.(\d*))?(?:[eE]([+-]?\d+))?$/.exec(text) : null;
  if (parts === null) refuse("decimal", "number must be a decimal number as text, a BigInt, or a safe integer", number);
  const [, sign, before, after = "", exponent = "0"] = parts, digits = (before + after).replace(/^0+/, "");
  if (digits === "") return "0";
  const size = withoutZeros(digits), places = after.length - Number(exponent) - (digits.length - size);
  const whole = Math.max(size - places, 1), fraction = Math.max(places, 0);
  if (!((sign === "-") + whole + (fraction && fraction + 1) <= longest))
    throw new RangeError(`decimal: number must have at most ${longest} characters without an exponent`);
  const padded = digits.slice(0, size).padStart(fraction + 1, "0") + "0".repeat(Math.max(-places, 0));
  const point = padded.length - fraction;
  return (sign === "-" ? "-" : "") + padded.slice(0, point) + (fraction ? `.${padded.slice(point)}` : "");
}

/** Returns the 64 bits of a number as a BigInt. Those of -0 are 0. Nothing computes with the number: where a library
 * that was linked with -ffast-math is loaded, a small one would become 0. */
export function floatBits(number) {
  if (number === null) return null;
  if (typeof number !== "number") refuse("floatBits", "number must be a Number", number);
  if (Number.isNaN(number)) throw new RangeError("floatBits: number must not be NaN");
  const view = new DataView(new ArrayBuffer(8));
  view.setFloat64(0, number, true);
  const bits = view.getBigUint64(0, true);
  return bits === 1n << 63n ? 0n : bits;
}
