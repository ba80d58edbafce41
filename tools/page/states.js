/**
 * The states of an objective, by what wakes somebody first, in words.
 * @module
 */

import { element } from "./dom.js";
import { ZERO, compare, readFraction } from "./fractions.js";
import { spanText } from "./minutes.js";

/** @typedef {import("./file.js").AlertEntry} AlertEntry */
/** @typedef {import("./file.js").ObjectiveEntry} ObjectiveEntry */
/** @typedef {import("./file.js").OfficeEntry} OfficeEntry */
/** @typedef {import("./file.js").SloEntry} SloEntry */
/** @typedef {{name: string, words: string, short: string}} State `short` is for a phone */

export const PAGE = { name: "page", words: "Page", short: "Page" };
export const TICKET = { name: "ticket", words: "Ticket", short: "Ticket" };
export const SPENT = { name: "spent", words: "Budget spent", short: "Spent" };
export const SILENT = { name: "silent", words: "Burns, tells nobody", short: "Untold" };
export const AWAY = { name: "away", words: "Not known", short: "Not known" };
export const STALE = { name: "stale", words: "Data is old", short: "Old data" };
export const FAILED = { name: "failed", words: "No window", short: "No window" };
export const NO_DATA = { name: "no_data", words: "No data", short: "No data" };
export const UNWATCHED = { name: "unwatched", words: "No alerts defined", short: "No alerts" };
export const QUIET = { name: "quiet", words: "Quiet", short: "Quiet" };
export const STATES = [PAGE, TICKET, SPENT, SILENT, AWAY, STALE, FAILED, NO_DATA, UNWATCHED, QUIET];

const PAGES = /^(page|critical)$/i;

/**
 * Whether an alert burns, or stands open at the receiver.
 * @param {AlertEntry} alert
 */
export const isOpen = ({ state, since }) => state === "breaching" || since !== null;

/**
 * Whom an alert wakes, or would.
 * @param {AlertEntry} alert
 */
export function gravityOf(alert) {
  if (alert.since === null && alert.tells === false) return SILENT;
  return PAGES.test(alert.severity) ? PAGE : TICKET;
}

/**
 * @param {OfficeEntry} office
 * @param {SloEntry} slo
 * @param {ObjectiveEntry} objective
 * @returns {State}
 */
export function stateOf(office, slo, objective) {
  const state = lastStateOf(slo, objective);
  // What was well when the office answered last may burn by now.
  return office.up || (state !== QUIET && state !== UNWATCHED) ? state : AWAY;
}

/**
 * The state as the office told it last.
 * @param {SloEntry} slo
 * @param {ObjectiveEntry} objective
 * @returns {State}
 */
export function lastStateOf(slo, objective) {
  const open = objective.alerts.filter(isOpen).map(gravityOf);
  for (const state of [PAGE, TICKET]) if (open.includes(state)) return state;
  const remaining = readFraction(objective.remaining);
  if (remaining && compare(remaining, ZERO) <= 0) return SPENT;
  if (open.length) return SILENT;
  if (slo.fault !== null) return FAILED;
  if (objective.state === "stale") return objective.age === null ? NO_DATA : STALE;
  if (objective.state === "no_data") return NO_DATA;
  return objective.alerts.length ? QUIET : UNWATCHED;
}

/** @param {State} state */
export function badge(state) {
  const words =
    state.short === state.words
      ? [state.words]
      : [element("span", { class: "long" }, state.words), element("span", { class: "short" }, state.short)];
  return element("span", { class: `state ${state.name}` }, ...words);
}

/**
 * What stands under a state: the policies that are open, that none is defined, how old it is.
 * @param {OfficeEntry} office
 * @param {SloEntry} slo
 * @param {ObjectiveEntry} objective
 * @param {State} state
 * @returns {string}
 */
export function stateDetail(office, slo, objective, state) {
  const told = objective.alerts
    .filter(isOpen)
    .map(({ policy, state: now }) => (now === "breaching" ? policy : `${policy}, open, ${now.replace("_", " ")}`));
  if (!objective.alerts.length && state !== UNWATCHED) told.push("no alerts defined");
  const age = awayText(office);
  if (age) told.push(state === AWAY ? `was ${lastStateOf(slo, objective).words.toLowerCase()} ${age}` : `as of ${age}`);
  return told.join(", ");
}

/**
 * How old the numbers of an office are that doesn't answer.
 * @param {OfficeEntry} office
 * @returns {string?} null of one that answers
 */
export function awayText(office) {
  if (office.up || office.at === null) return null;
  return `${spanText(Math.max(0, Math.floor(Date.now() / 60_000) - office.at))} ago`;
}
