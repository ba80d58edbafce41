/**
 * What is open, and all objectives of all offices, those first that wake somebody first.
 * @module
 */

import { lastsText, minutesUntilFull } from "./budget.js";
import { LOOKBACKS, burnCell, remainingCell } from "./cells.js";
import { element, present, row, say, tableOf } from "./dom.js";
import { ageOf, isOld } from "./file.js";
import { filtered } from "./filter.js";
import { compare, readFraction } from "./fractions.js";
import { spanText, zoneOf } from "./minutes.js";
import { openOnes, openSection } from "./open.js";
import { overviewPlace, sloPlace } from "./routes.js";
import { STATES, badge, stateDetail, stateOf } from "./states.js";
import { trendCell } from "./trend.js";

/** @typedef {import("./file.js").Overview} Overview */
/** @typedef {import("./file.js").OfficeEntry} OfficeEntry */
/** @typedef {import("./file.js").SloEntry} SloEntry */
/** @typedef {import("./file.js").ObjectiveEntry} ObjectiveEntry */
/** @typedef {import("./filter.js").Row} Row */
/** @typedef {import("./fractions.js").Fraction} Fraction */
/** @typedef {import("./routes.js").Filter} Filter */
/** @typedef {import("./states.js").State} State */
/**
 * @typedef {{
 *   office: OfficeEntry, slo: SloEntry, objective: ObjectiveEntry, state: State, rank: number, left: Fraction?,
 * }} Line
 */

const BURNS = LOOKBACKS.map((name) => `Burn ${name}`);
const HEADERS = ["SLO", "State", "Budget left", "Last 7 days", ...BURNS, "Newest data"];
// Above this part of a limit the page tells how full an office is.
const FILLING = 0.7;
// What fills up as time goes on; the rest only where people define more.
const GROWING = ["accepted", "bytes", "cells", "days"];

/**
 * @param {Overview} overview
 * @returns {Line[]}
 */
function linesOf(overview) {
  return overview.offices
    .flatMap((office) =>
      office.slos.flatMap((slo) =>
        slo.objectives.map((objective) => {
          const state = stateOf(office, slo, objective);
          const left = readFraction(objective.remaining);
          return { office, slo, objective, state, rank: STATES.indexOf(state), left };
        }),
      ),
    )
    .sort(worseFirst);
}

/**
 * @param {Line} a
 * @param {Line} b
 */
function worseFirst(a, b) {
  return a.rank - b.rank || byRemaining(a.left, b.left) || (a.slo.name < b.slo.name ? -1 : 1);
}

/**
 * @param {Fraction?} left
 * @param {Fraction?} right
 */
function byRemaining(left, right) {
  if (left && right) return compare(left, right);
  return left ? -1 : right ? 1 : 0;
}

/**
 * @param {Line} line
 * @param {boolean} hasSeveral whether there is more than one office
 * @returns {Row}
 */
function lineRow(line, hasSeveral) {
  const { office, slo, objective, state } = line;
  const link = element("a", { href: sloPlace(office.name, slo.name, objective.number) }, slo.display);
  const under = [slo.objectives.length > 1 || objective.display !== "0" ? objective.display : null, objective.target];
  const where = [slo.service_display, hasSeveral ? office.name : null];
  const told = [...under, ...where].filter((text) => text).join(" · ");
  const detail = stateDetail(office, slo, objective, state);
  const made = row(HEADERS, [
    element("span", { class: "what" }, link, element("small", {}, told)),
    element("span", {}, badge(state), detail ? element("small", {}, detail) : null),
    remainingCell(objective.remaining),
    trendCell(objective.trend),
    ...LOOKBACKS.map((name) => burnCell(name, objective.burns[name] ?? null)),
    objective.age === null ? element("span", { class: "none" }, "none in 30 d") : `${spanText(objective.age)} ago`,
  ]);
  if (!office.up) made.classList.add("aged");
  return { line, row: made, search: `${slo.name} ${told} ${slo.display} ${state.words}`.toLowerCase() };
}

/**
 * @param {Line[]} lines
 * @param {Filter} filter
 */
function summaryOf(lines, filter) {
  const counts = STATES.map((state) => ({ state, count: lines.filter((line) => line.state === state).length }));
  const items = counts
    .filter(({ count }) => count)
    .map(({ state, count }) => {
      const place = overviewPlace({ ...filter, state: filter.state === state.name ? "" : state.name });
      return element("li", {}, element("a", { href: place }, badge(state), element("strong", {}, count)));
    });
  return element("ul", { class: "summary", "aria-label": "Objectives by state" }, ...items);
}

/**
 * What is wrong with the file or with an office, in words.
 * @param {Overview} overview
 * @returns {string[]}
 */
function troubles(overview) {
  const { notify, offices } = overview;
  const found = offices
    .filter((office) => !office.up)
    .map((office) =>
      office.at === null
        ? `${office.name} isn't known yet (${office.fault}): slo-notify hasn't had an answer of it since it began`
        : `${office.name} doesn't answer (${office.fault}): ${shownOf(office)}`,
    );
  found.push(...offices.filter(({ up, fault }) => up && fault !== null).map(({ name, fault }) => `${name}: ${fault}`));
  if (notify.clock !== null) found.push(`Nothing is judged or sent: ${notify.clock}`);
  if (notify.receiver_fault !== null) found.push(`No alert is passed on: ${notify.receiver_fault}`);
  return found;
}

/** @param {OfficeEntry} office */
function shownOf(office) {
  return `its numbers are those of ${zoneOf("UTC").full(office.at ?? 0)}, and what burns since isn't known`;
}

/**
 * What an office is nearly full of, and when it would be.
 * @param {OfficeEntry} office
 * @returns {string[]}
 */
function fillings({ name, usage, at, origin }) {
  return Object.entries(usage ?? {})
    .filter(([, [used, limit]]) => limit && used / limit > FILLING)
    .map(([what, [used, limit]]) => {
      const part = `${name}: ${what} ${Math.floor((100 * used) / limit)} % full`;
      const counts = `${used.toLocaleString("en")} of ${limit.toLocaleString("en")}`;
      const elapsed = at !== null && origin !== null ? at - origin : 0;
      const left = GROWING.includes(what) ? minutesUntilFull({ used, limit, elapsed }) : null;
      const when = left ? `, full in ${lastsText(left)} at the pace since its history begins` : "";
      return `${part}${when} (${counts})`;
    });
}

/** @param {Overview} overview */
function fillingList(overview) {
  const items = overview.offices.flatMap(fillings).map((text) => element("li", {}, text));
  return items.length ? element("ul", { class: "usage", "aria-label": "Offices that fill up" }, ...items) : null;
}

/**
 * Says how old the file is.
 * @param {Overview} overview
 */
export function sayAge(overview) {
  const written = zoneOf("UTC").full(overview.written);
  if (isOld(overview)) {
    say(`Old: the overview was written at ${written}, ${spanText(Math.floor(ageOf(overview) / 60))} ago`, "bad");
  } else {
    say(`As of ${written}`);
  }
}

/** @param {Overview} overview */
function noLines(overview) {
  const unknown = overview.offices.filter((office) => office.at === null && !office.slos.length);
  if (!unknown.length) return element("p", {}, "No office has an SLO.");
  const names = unknown.map((office) => office.name).join(", ");
  const text = `Nothing is known yet of ${names}: slo-notify tells it after its first round with an answer.`;
  return element("p", {}, text);
}

/**
 * @param {Overview} overview
 * @param {Filter} filter
 * @param {(filter: Filter) => void} kept takes what the controls say
 * @param {AbortSignal} signal
 * @returns {HTMLElement[]}
 */
export function overviewView(overview, filter, kept, signal) {
  const lines = linesOf(overview);
  const rows = lines.map((line) => lineRow(line, overview.offices.length > 1));
  sayAge(overview);
  const caption = "All objectives: first what wakes somebody, then by what is left.";
  const table = tableOf({ caption, classes: "overview", headers: HEADERS, bodies: [], hasHint: true });
  const controls = filtered(table, rows, filter, HEADERS.length, kept);
  return present([
    element("h1", { tabindex: -1 }, "Error budgets"),
    ...troubles(overview).map((text) => element("p", { class: "trouble", role: "alert" }, text)),
    lines.length ? openSection(overview, signal, openOnes(overview)) : null,
    summaryOf(lines, filter),
    fillingList(overview),
    lines.length ? controls : null,
    lines.length ? table : noLines(overview),
  ]);
}
