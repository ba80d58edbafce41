/**
 * Numbers of an objective as cells of a table.
 * @module
 */

import { element } from "./dom.js";
import { exactNumber } from "./exact.js";
import { ZERO, burnText, compare, leftText, readFraction, toNumber } from "./fractions.js";

/** The Workbook's windows in minutes, by the names that slo-notify gives them. */
export const MINUTES_OF = { "5m": 5, "30m": 30, "1h": 60, "6h": 360, "3d": 4320 };
export const LOOKBACKS = /** @type {(keyof typeof MINUTES_OF)[]} */ (Object.keys(MINUTES_OF));

const none = () => element("span", { class: "none" }, "none");

/** @param {string?} text */
export function remainingCell(text) {
  const value = readFraction(text);
  if (!value) return none();
  const isSpent = compare(value, ZERO) <= 0;
  const fill = element("span", { class: isSpent ? "fill spent" : "fill" });
  fill.style.width = `${isSpent ? 100 : Math.min(100, toNumber(value) * 100)}%`;
  const bar = element("span", { class: "bar", "aria-hidden": "true" }, fill);
  return element("span", { class: "remaining" }, exactNumber(leftText(value), `budget left: ${text}`), bar);
}

/**
 * @param {string} lookback
 * @param {string?} text
 */
export function burnCell(lookback, text) {
  const value = readFraction(text);
  return value ? exactNumber(burnText(value), `burn over ${lookback}: ${text}`) : none();
}

/**
 * Good of total.
 * @param {import("./office.js").Sum} sum
 */
export function countsText({ num, den }) {
  return `${num.toLocaleString("en")} of ${den.toLocaleString("en")}`;
}
