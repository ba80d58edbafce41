/**
 * Burn rates and budgets of sums, exactly (docs/rules.md), and how long a budget lasts.
 * @module
 */

import { ONE, ZERO, compare, divide, fraction, multiply, readTarget, roundedDown, subtract } from "./fractions.js";
import { DAY, HOUR } from "./minutes.js";

/** @typedef {import("./fractions.js").Fraction} Fraction */
/** @typedef {import("./office.js").Sum} Sum */

/**
 * @param {Sum} sum
 * @param {string} target
 * @returns {Fraction | null} null where nothing was counted
 */
export function burnOf(sum, target) {
  if (!sum.den) return null;
  return divide(fraction(sum.den - sum.num, sum.den), subtract(ONE, readTarget(target)));
}

/**
 * The minutes until nothing is left, null where it doesn't end so.
 *
 * A rolling window spends `burn` budgets in its own length; what falls out of it meanwhile isn't
 * counted, so it may last longer. A calendar window's budget grows with its events: `elapsed`
 * minutes have burnt `1 - remaining`, and a burn above 1 takes what is left.
 * @param {{remaining: Fraction, burn: Fraction, isRolling: boolean, elapsed: number}} state
 * @returns {Fraction | null}
 */
export function minutesLeft({ remaining, burn, isRolling, elapsed }) {
  if (compare(remaining, ZERO) <= 0) return ZERO;
  const speed = isRolling ? burn : subtract(burn, ONE);
  if (compare(speed, ZERO) <= 0) return null;
  return divide(multiply(remaining, fraction(elapsed, 1)), speed);
}

/**
 * How long a budget lasts, as people say it: `95 min`, `7 h`, `3.5 d`. Never longer than it does.
 * @param {Fraction | null} minutes
 * @returns {string}
 */
export function lastsText(minutes) {
  if (!minutes) return "doesn't end";
  if (minutes.num === 0n) return "spent";
  if (compare(minutes, fraction(2 * HOUR, 1)) < 0) return `${roundedDown(minutes, 0)} min`;
  if (compare(minutes, fraction(2 * DAY, 1)) < 0) return `${roundedDown(divide(minutes, fraction(HOUR, 1)), 0)} h`;
  const days = divide(minutes, fraction(DAY, 1));
  if (compare(days, fraction(1000, 1)) > 0) return "above 1,000 d";
  const digits = compare(days, fraction(10, 1)) < 0 ? 1 : 0;
  return `${roundedDown(days, digits).replace(/\.0$/, "")} d`;
}

/**
 * The minutes until something that grows with time is full, at its pace since it began.
 * @param {{used: number, limit: number, elapsed: number}} state
 * @returns {Fraction | null} null where it doesn't grow
 */
export function minutesUntilFull({ used, limit, elapsed }) {
  if (used <= 0 || elapsed <= 0) return null;
  return divide(fraction(BigInt(Math.max(0, limit - used)) * BigInt(elapsed), 1), fraction(used, 1));
}
