"use strict";
// What the page says: sizes, times, and formulas with a mark. It sets all as text, never as HTML.

const UNITS = ["kB", "MB", "GB", "TB", "PB", "EB"];
const GROUPED = new Intl.NumberFormat("en"); // making one takes long
const NANOSECONDS = new Set(["ctime", "mtime"]);

// A size as people write it: three digits and a unit.
function size(bytes) {
  let value = bytes, unit = "bytes";
  for (const larger of UNITS) {
    if (value < 999.5) {
      break;
    }
    value /= 1000;
    unit = larger;
  }
  if (unit === "bytes") {
    return plural(value, "byte");
  }
  return `${value < 9.95 ? value.toFixed(1) : Math.round(value)} ${unit}`;
}

function plural(count, one, more = `${one}s`) {
  return `${GROUPED.format(count)} ${count === 1 ? one : more}`;
}

const two = (number) => String(number).padStart(2, "0");
const day = (date) => `${date.getFullYear()}-${two(date.getMonth() + 1)}-${two(date.getDate())}`;
const clock = (date) => `${two(date.getHours())}:${two(date.getMinutes())}:${two(date.getSeconds())}`;

// A time in seconds since 1970 as people write it: of today by the clock.
function when(seconds) {
  const date = new Date(1000 * seconds);
  if (Number.isNaN(date.getTime())) {
    return `${seconds} s`; // no calendar has it
  }
  return day(date) === day(new Date()) ? clock(date) : `${day(date)} ${clock(date).slice(0, 5)}`;
}

// The same, whole.
function exactly(seconds) {
  const date = new Date(1000 * seconds);
  return Number.isNaN(date.getTime()) ? `${seconds} seconds since 1970` : `${day(date)} ${clock(date)}`;
}

// A text in an element of a class.
function made(tag, className, ...inside) {
  const it = document.createElement(tag);
  it.className = className;
  it.append(...inside);
  return it;
}

// A formula with a mark on the character at a byte, and what is said of it.
function marked(formula, place, says, className) {
  const bytes = new TextEncoder().encode(formula);
  const before = new TextDecoder("utf-8", { ignoreBOM: true }).decode(bytes.slice(0, place));
  const [at = " ", ...after] = formula.slice(before.length);
  return made("div", className, made("code", "", before, made("mark", "", at), after.join("")), says);
}
