/**
 * Where policies alert, in words.
 * @module
 */

import { LOOKBACKS, MINUTES_OF } from "./cells.js";
import { compare, fraction, readFraction } from "./fractions.js";
import { spanText } from "./minutes.js";

/** @typedef {import("./file.js").AlertEntry} AlertEntry */
/** @typedef {import("./file.js").ObjectiveEntry} ObjectiveEntry */
/** @typedef {import("./file.js").TermEntry} TermEntry */

/** @type {Record<string, string>} */
const WORDS = { gt: "above", gte: "from", lt: "below", lte: "up to" };

/** @param {TermEntry} term */
export const aboveText = ({ op, burn }) => `${WORDS[op] ?? op} ${burn}`;

/**
 * @param {AlertEntry} alert
 * @returns {string} its severity, or its name where it has none
 */
export const severityText = ({ severity, policy }) => severity || policy;

/** @param {number} minutes as `5m`, or in words where the Workbook hasn't this window */
export function lookbackText(minutes) {
  return LOOKBACKS.find((name) => MINUTES_OF[name] === minutes) ?? spanText(minutes);
}

/**
 * The terms of an objective's policies that look at a window, as `page above 14.4`.
 * @param {ObjectiveEntry} objective
 * @param {number} minutes
 */
export function termsAt({ alerts }, minutes) {
  const told = alerts.flatMap((alert) =>
    (alert.terms ?? []).flatMap((term) => {
      const words = `${severityText(alert)} ${aboveText(term)}`;
      if (term.lookback === minutes) return [term.short ? `${words} (with ${lookbackText(term.short)})` : words];
      return term.short === minutes ? [`${words} (with ${lookbackText(term.lookback)})`] : [];
    }),
  );
  return told.join(", ");
}

/**
 * @param {string} text a threshold as it was written, `14.4`
 * @returns {import("./fractions.js").Fraction?}
 */
export function thresholdOf(text) {
  const found = /^(\d+)(?:\.(\d+))?$/.exec(text);
  if (!found) return null;
  const part = found[2] ?? "";
  return fraction(BigInt(found[1] + part), 10n ** BigInt(part.length));
}

/**
 * The term by which an alert burns, the gravest first; the first one where that can't be said.
 * @param {ObjectiveEntry} objective
 * @param {AlertEntry} alert
 * @returns {TermEntry | undefined}
 */
export function burningTerm(objective, { terms = [] }) {
  const burns = (/** @type {TermEntry} */ term) =>
    isAbove(objective, term, term.lookback) && isAbove(objective, term, term.short);
  return terms.find(burns) ?? terms[0];
}

/**
 * @param {ObjectiveEntry} objective
 * @param {TermEntry} term
 * @param {number?} minutes
 */
function isAbove({ burns }, { op, burn }, minutes) {
  if (minutes === null) return true;
  const [value, least] = [readFraction(burns[lookbackText(minutes)] ?? null), thresholdOf(burn)];
  if (!value || !least) return false;
  const order = compare(value, least);
  return op === "gte" ? order >= 0 : op === "gt" && order > 0;
}
