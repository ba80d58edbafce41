/**
 * The range of time that an objective's charts show, as its address says it.
 * @module
 */

import { element, present } from "./dom.js";
import { DAY, HOUR } from "./minutes.js";
import { readMonth, sloPlace, spellMonth } from "./routes.js";

/** @typedef {import("./minutes.js").Zone} Zone */
/** @typedef {import("./routes.js").Span} Span */
/** @typedef {{from: number, to: number, name: string}} Range */
/** @typedef {{at: number, begin: number, origin: number, zone: Zone}} Known the moment, the window's begin */

/** @type {[string, number][]} */
const LASTS = [
  ["6h", 6 * HOUR],
  ["3d", 3 * DAY],
];

/**
 * The minutes of a range, up to the moment at most. Throws an Error that says what is wrong with it.
 * @param {Span} span
 * @param {Known} known
 * @returns {Range}
 */
export function rangeOf(span, known) {
  const wanted = wantedOf(span, known);
  // What lies before the history is left out, but for the hour in which it begins, where a slice may.
  const begun = Math.min(Math.floor(known.origin / HOUR) * HOUR, known.at - HOUR);
  const [from, to] = [Math.max(wanted.from, begun), Math.min(wanted.to, known.at)];
  if (wanted.from >= wanted.to) throw new Error(`${wanted.name} is empty`);
  if (from >= to) throw new Error(`no minute of this range is counted: ${wanted.name}`);
  return { from, to, name: wanted.name };
}

/**
 * @param {Span} span
 * @param {Known} known
 * @returns {Range}
 */
function wantedOf({ range, from, to }, { at, begin, zone }) {
  const last = LASTS.find(([name]) => name === range);
  if (last) return { from: at - last[1], to: at, name: `The last ${rangeWords(range)}` };
  const month = readMonth(range);
  if (month) {
    const [first, end] = [0, 1].map((by) => zone.startOf({ year: month.year, month: month.month + by, day: 1 }));
    return { from: first, to: end, name: `The month ${range}` };
  }
  if (range) throw new Error(`the range ${range} is none of 6h, 3d and a month as 2026-11`);
  if (!from && !to) return { from: begin, to: at, name: "The window" };
  const [first, end] = [from ? zone.read(from) : begin, to ? zone.read(to) : at];
  if (first === null || end === null) throw new Error("from and to are dates as 2026-11-29T14:20");
  return { from: first, to: end, name: `${zone.full(first)} to ${zone.full(end)}` };
}

/** @param {string} name */
const rangeWords = (name) => name.replace(/[a-z]/, " $&");

/**
 * Links to the ranges, and dates to set one by hand.
 * @param {{office: string, slo: string, objective: number}} place
 * @param {Span} span the present one
 * @param {Range | null} shown
 * @param {Known} known
 */
export function rangeControls({ office, slo, objective }, span, shown, { at, zone }) {
  const month = spellMonth(zone.dateOf(at));
  const choices = [...LASTS.map(([name]) => [name, rangeWords(name)]), ["", "the window"], [month, "this month"]];
  const links = choices.map(([range, words]) => {
    const isHere = !span.from && !span.to && span.range === range;
    const href = sloPlace(office, slo, objective, { range });
    return element("a", { href, "aria-current": isHere ? "true" : null }, words);
  });
  const [from, to] = [shown?.from ?? at - 6 * HOUR, shown?.to ?? at].map((minute) => zone.spelled(minute));
  const dates = { from: dateInput("range-from", from), to: dateInput("range-to", to) };
  const form = element(
    "form",
    { class: "dates" },
    ...present([
      element("label", { for: "range-from" }, "from "),
      dates.from,
      element("label", { for: "range-to" }, "to "),
      dates.to,
      element("button", { type: "submit" }, "Show"),
    ]),
  );
  form.addEventListener("submit", (event) => {
    event.preventDefault();
    const [begin, end] = [dates.from, dates.to].map(({ value }) => value.replace(" ", "T"));
    location.hash = sloPlace(office, slo, objective, { from: begin, to: end });
  });
  return element("nav", { class: "ranges", "aria-label": "Range of time" }, ...links, form);
}

/**
 * @param {string} id
 * @param {string} value
 */
function dateInput(id, value) {
  const form = { placeholder: "2026-11-29T14:20", pattern: "\\d{4}-\\d\\d-\\d\\d[T ]\\d\\d:\\d\\d", maxlength: 16 };
  const marks = { id, type: "text", value, required: true, autocomplete: "off", ...form };
  return /** @type {HTMLInputElement} */ (element("input", marks));
}
