/** Values, from JavaScript to JSON and back (docs/formats.md, 'Lines'). */

import { randomUUID } from "node:crypto";

/**
 * What may be asked with and answered. There are no floats: a number has to be whole, and above 2^53 it is a bigint.
 * @typedef {null | boolean | number | bigint | string | Uint8Array | Value[] | { [name: string]: Value }} Value
 */

const MOST_LEVELS = 32;
const LEAST = -(2n ** 63n);
const MOST = 2n ** 63n - 1n;
// a text of JSON, or a whole number that may be above 2^53
const TEXT_OR_LONG = /"(?:[^"\\]|\\.)*"|-?\d{16,}/g;
// by which a long number is marked while a line is read; nobody can know it, so no map of a service's own is taken for one
const LONG = `$${randomUUID()}`;

/**
 * The JSON of a value; a RangeError or a TypeError if it can't be asked with.
 * @param {unknown} value
 * @param {number} [levels]
 * @returns {string}
 */
export function jsonOf(value, levels = MOST_LEVELS) {
  if (levels <= 0) throw new RangeError(`a value has more than ${MOST_LEVELS} levels`);
  if (value === null || typeof value === "boolean") return String(value);
  if (typeof value === "number") return jsonOfNumber(value);
  if (typeof value === "bigint") {
    if (value < LEAST || value > MOST) throw new RangeError(`${value} is not a whole number of 64 bits`);
    return String(value);
  }
  if (typeof value === "string") return jsonOfText(value);
  if (value instanceof Uint8Array) return `{"$hex":"${Buffer.from(value).toString("hex")}"}`;
  if (Array.isArray(value)) return `[${value.map((inner) => jsonOf(inner, levels - 1)).join(",")}]`;
  if (typeof value === "object" && [Object.prototype, null].includes(Object.getPrototypeOf(value))) {
    const members = Object.entries(value).map(([name, inner]) => `${jsonOfText(name)}:${jsonOf(inner, levels - 1)}`);
    return `{${members.join(",")}}`;
  }
  throw new TypeError(`${String(value)} is no value`);
}

/** @param {number} value */
function jsonOfNumber(value) {
  if (!Number.isSafeInteger(value)) throw new RangeError(`${value} is not a whole number below 2^53: use a bigint`);
  return String(value === 0 ? 0 : value);
}

/** @param {string} value */
function jsonOfText(value) {
  if (!value.isWellFormed()) throw new RangeError("a text has half of a pair of surrogates");
  return JSON.stringify(value);
}

/**
 * What a line of JSON says.
 * @param {string} line
 * @returns {any}
 */
export function read(line) {
  const marked = line.replace(TEXT_OR_LONG, (found) =>
    found.startsWith('"') || Number.isSafeInteger(Number(found)) ? found : `{"${LONG}":"${found}"}`);
  return JSON.parse(marked, revive);
}

/**
 * @param {string} _name
 * @param {any} value
 */
function revive(_name, value) {
  if (value === null || typeof value !== "object" || Array.isArray(value)) return value;
  const names = Object.keys(value);
  if (names.length !== 1 || typeof value[names[0]] !== "string") return value;
  if (names[0] === "$hex") return Buffer.from(value.$hex, "hex");
  return names[0] === LONG ? BigInt(value[LONG]) : value;
}
