/**
 * One objective of an SLO over its window.
 * @module
 */

import { burnOf, lastsText, minutesLeft } from "./budget.js";
import { LOOKBACKS, MINUTES_OF, burnCell, countsText } from "./cells.js";
import { chartLibrary } from "./chart.js";
import { details, element, present, row, say, section, table } from "./dom.js";
import { exactNumber } from "./exact.js";
import { burnText, leftText, percent, readFraction, spell } from "./fractions.js";
import { spanText, zoneOf } from "./minutes.js";
import { Office } from "./office.js";
import { gateCommand, openOnes, openSection, runbookLink } from "./open.js";
import { drawPanels, panels } from "./panels.js";
import { rangeControls, rangeOf } from "./ranges.js";
import { monthPlace, sloPlace } from "./routes.js";
import { askSeries } from "./series.js";
import { badge, stateDetail, stateOf } from "./states.js";
import { termsAt } from "./terms.js";

/** @typedef {import("./file.js").OfficeEntry} OfficeEntry */
/** @typedef {import("./file.js").SloEntry} SloEntry */
/** @typedef {import("./file.js").ObjectiveEntry} ObjectiveEntry */
/** @typedef {import("./minutes.js").Zone} Zone */
/** @typedef {import("./series.js").Told} Told */
/** @typedef {{office: OfficeEntry, slo: SloEntry, objective: ObjectiveEntry}} Place */

const YEAR = 399 * 1440;

/** @param {SloEntry} slo */
function windowText(slo) {
  const { duration, rolling, start, zone } = slo.window;
  return rolling ? `the last ${duration}` : `${duration} on the calendar from ${start}, ${zone}`;
}

/**
 * @param {string} name
 * @param {import("./dom.js").Child} value
 */
const fact = (name, value) => element("div", {}, element("dt", {}, name), element("dd", {}, value));

/**
 * @param {Place} place
 * @param {Zone} zone
 */
function facts({ office, slo, objective }, zone) {
  const remaining = readFraction(objective.remaining);
  const state = stateOf(office, slo, objective);
  const detail = stateDetail(office, slo, objective, state);
  const left = remaining ? exactNumber(leftText(remaining), `budget left: ${objective.remaining}`, true) : "none";
  const { num, den } = objective;
  const counted = num === null || den === null ? "none" : countsText({ num, den });
  return element(
    "dl",
    { class: office.up ? "facts" : "facts aged" },
    fact("State", element("span", {}, badge(state), detail ? ` ${detail}` : null)),
    fact("Budget left", left),
    fact("Good of total", objective.error ? exactNumber(counted, `error: ${objective.error}`, true) : counted),
    fact("Target", objective.target),
    fact("Window", windowText(slo)),
    fact("Counted from", objective.from === null ? "no window has begun" : zone.full(objective.from)),
    fact("Newest data", objective.age === null ? "none in 30 days" : `${spanText(objective.age)} ago`),
    fact("Name", element("code", {}, slo.name)),
    fact("May a release go?", gateCommand(slo)),
    fact("Owner", slo.owner ?? "not said"),
    fact("Runbook", slo.runbook ? runbookLink(slo.runbook) : "not said"),
    fact("Service", slo.service_display),
    fact("Indicator", `${slo.indicator}, ${slo.method}`),
    fact("Office", office.name),
  );
}

/**
 * Burns with the time that the budget lasts at each.
 * @param {Place} place
 */
function burnsTable({ office, slo, objective }) {
  const headers = ["Over the last", "Burn", "Alerts", "Budget ends in"];
  const isRolling = slo.window.rolling;
  const remaining = readFraction(objective.remaining);
  const rows = LOOKBACKS.map((lookback) => {
    const text = objective.burns[lookback] ?? null;
    const burn = readFraction(text);
    const lasts =
      remaining && burn && office.at !== null && objective.from !== null
        ? lastsText(minutesLeft({ remaining, burn, isRolling, elapsed: office.at - objective.from }))
        : "can't be said";
    const terms = termsAt(objective, MINUTES_OF[lookback]);
    const alerts = terms || element("span", { class: "none" }, "none");
    return row(headers, [lookback, burnCell(lookback, text), alerts, lasts]);
  });
  const caption = isRolling
    ? "When nothing would be left, if events came and failed as lately. What leaves the window meanwhile isn't counted."
    : "When nothing would be left, if events came and failed as lately, should the window last so long.";
  return table({ caption, classes: office.up ? "plain" : "plain aged", headers, rows });
}

/** @param {Place} place */
function objectiveLinks({ office, slo, objective }) {
  if (slo.objectives.length < 2) return null;
  const links = slo.objectives.map((each) =>
    element(
      "a",
      {
        href: sloPlace(office.name, slo.name, each.number),
        "aria-current": each.number === objective.number ? "page" : null,
      },
      `${each.display} (${each.target})`,
    ),
  );
  return element("nav", { class: "objectives", "aria-label": "Objectives" }, ...links);
}

/**
 * The numbers that the charts draw.
 * @param {Told} told
 * @param {string} target
 * @param {Zone} zone
 */
function numbersTable(told, target, zone) {
  const headers = ["From", "Good", "Total", "Burn", "Budget left at its end"];
  const rows = told.steps.map(({ from, to, sum }) => {
    const burn = sum && burnOf(sum, target);
    const remaining = readFraction(told.remaining.get(to) ?? null);
    return row(headers, [
      zone.full(from),
      sum ? sum.num.toLocaleString("en") : "not asked",
      sum ? sum.den.toLocaleString("en") : "not asked",
      burn ? exactNumber(burnText(burn), `burn: ${spell(burn)}`) : "none",
      remaining ? exactNumber(leftText(remaining), `budget left: ${spell(remaining)}`) : "none",
    ]);
  });
  const caption = `Numbers of each step of ${spanText(told.step)}`;
  return details("The charts' numbers", table({ caption, classes: "plain", headers, rows }));
}

/**
 * @param {Told} told
 * @param {Zone} zone
 */
function alertsTable(told, zone) {
  if (!told.alerts.length) return element("p", {}, "No alerts are defined: nobody is told when it burns.");
  const headers = ["From", "To", "Policy", "Lasted"];
  const rows = told.alerts
    .flatMap(({ policy, intervals }) => intervals.map(([from, to]) => ({ policy, from, to })))
    .sort((a, b) => b.from - a.from)
    .map(({ policy, from, to }) => {
      const end = to >= told.to ? "now" : zone.full(to);
      return row(headers, [zone.full(from), end, policy, spanText(to - from)]);
    });
  if (!rows.length) return element("p", {}, "No alert was active in this range.");
  return table({ caption: "When alerts were active", classes: "plain", headers, rows });
}

/**
 * @param {Told} told
 * @param {Zone} zone
 */
function exclusionsList(told, zone) {
  if (told.exclusions === null) return null;
  if (!told.exclusions.length) return element("p", {}, "Nothing is excluded in this range.");
  return element(
    "ul",
    {},
    ...told.exclusions.map(({ id, from, to }) =>
      element("li", {}, `${id}: ${zone.full(from)} to ${zone.full(to)}, shaded in the charts`),
    ),
  );
}

/**
 * What can't be asked of this office, in words.
 * @param {Told} told
 * @param {Office} office
 * @param {boolean} isRolling
 */
function leftOut(told, office, isRolling) {
  const version = "this version of the office doesn't";
  const missing = present([
    told.exclusions ? null : `Exclusions count in all numbers, but ${version} list them: none is shaded.`,
    office.hasStatus || isRolling ? null : `Windows that are over aren't shown: ${version} tell them.`,
    told.steps.every(({ sum }) => sum) ? null : "Where nothing is drawn, the office's history hasn't begun.",
  ]);
  if (!missing.length) return null;
  return element("ul", { class: "left-out" }, ...missing.map((text) => element("li", {}, text)));
}

/**
 * The windows that are over, where the office tells them.
 * @param {Office} office
 * @param {Place} place
 * @param {Zone} zone
 */
async function closedWindows(office, { slo, objective, office: entry }, zone) {
  if (slo.window.rolling || entry.at === null || entry.at < office.origin) return null;
  const windows = await office.windows(slo.name, Math.max(office.origin, entry.at - YEAR), entry.at);
  if (!windows) return null;
  const headers = ["Window", "Good", "Total", "Budget left"];
  const rows = windows.reverse().map(({ from, budgets }) => {
    const { num, den, remaining } = budgets[objective.number];
    const left = readFraction(remaining);
    const shown = left ? exactNumber(leftText(left), `budget left: ${remaining}`) : "none";
    return row(headers, [zone.full(from), num.toLocaleString("en"), den.toLocaleString("en"), shown]);
  });
  const caption = "By their begin, the present one first";
  return section("Windows", table({ caption, classes: "plain", headers, rows }));
}

/**
 * The texts of the objects, as the office writes them.
 * @param {Office} office
 * @param {SloEntry} slo
 * @param {ObjectiveEntry} objective
 */
async function objectTexts(office, slo, objective) {
  const builtIn = ["workbook-page", "workbook-ticket"];
  const own = objective.alerts.map((alert) => alert.policy).filter((name) => !builtIn.includes(name));
  const wanted = [
    ["SLO", slo.name],
    ["SLI", slo.indicator],
    ["Service", slo.service],
    ...own.map((name) => ["AlertPolicy", name]),
  ];
  const texts = await Promise.all(wanted.map(([kind, name]) => office.objectText(kind, name)));
  return section(
    "Objects",
    ...wanted.map(([kind, name], index) => details(`${kind} ${name}`, element("pre", { tabindex: 0 }, texts[index]))),
  );
}

/**
 * What stands above the charts.
 * @param {Place} place
 * @param {import("./file.js").Overview} overview
 * @param {AbortSignal} signal
 */
function headOf(place, overview, signal) {
  const { office: entry, slo, objective } = place;
  const zone = zoneOf(slo.window.zone);
  const month = monthPlace(entry.name, slo.name, objective.number);
  const monthLink = element("a", { href: month }, "A calendar month, for printing");
  const open = openOnes({ ...overview, offices: [{ ...entry, slos: [{ ...slo, objectives: [objective] }] }] });
  return present([
    element("h1", { tabindex: -1 }, slo.display),
    entry.up ? null : element("p", { class: "trouble", role: "alert" }, awayLine(entry, zone)),
    slo.description ? element("p", {}, slo.description) : null,
    objectiveLinks(place),
    open.length ? openSection(overview, signal, open) : null,
    element("p", { class: "zone" }, `Times are in ${zone.label}. `, monthLink),
    facts(place, zone),
    section("Burn", burnsTable(place)),
  ]);
}

/**
 * @param {OfficeEntry} office
 * @param {Zone} zone
 */
function awayLine({ name, fault, at }, zone) {
  const known = at === null ? "nothing of it is known" : `the numbers are those of ${zone.full(at)}`;
  return `${name} doesn't answer (${fault}): ${known}`;
}

/**
 * @param {Place} place
 * @param {import("./routes.js").Span} span
 * @param {import("./file.js").Overview} overview
 * @param {AbortSignal} signal
 * @param {(parts: HTMLElement[]) => void} put shows the view, which goes on to fill itself
 */
export async function sloView(place, span, overview, signal, put) {
  const { office: entry, slo, objective } = place;
  const zone = zoneOf(slo.window.zone);
  const office = new Office(entry, signal);
  const head = headOf(place, overview, signal);
  const progress = element("p", { class: "progress" });
  const rest = element("div", {}, progress);
  if (entry.at === null || objective.from === null) {
    put([...head, rest]);
    say("The office has no numbers for this SLO", "bad");
    return;
  }
  const known = { at: entry.at, begin: objective.from, origin: office.origin, zone };
  const names = { office: entry.name, slo: slo.name, objective: objective.number };
  let range = null;
  let fault = null;
  try {
    range = rangeOf(span, known);
  } catch (odd) {
    fault = odd;
  }
  put([...head, element("h2", {}, range?.name ?? "No range"), rangeControls(names, span, range, known), rest]);
  if (!range) throw fault;
  say(`Loading ${slo.display} …`, "busy");
  const library = chartLibrary();
  const told = await askSeries(office, slo, objective, range, (done, all) => {
    progress.textContent = `${done} of ${all} answers`;
  });
  const texts = await objectTexts(office, slo, objective);
  const windows = await closedWindows(office, place, zone);
  await library;
  const figures = panels(told);
  const numbers = numbersTable(told, objective.target, zone);
  if (signal.aborted) return;
  rest.replaceChildren(
    ...present([
      element("div", { class: "figures" }, ...figures.map(({ figure }) => figure)),
      numbers,
      section("Alerts", alertsTable(told, zone)),
      section("Exclusions", exclusionsList(told, zone), leftOut(told, office, slo.window.rolling)),
      windows,
      texts,
    ]),
  );
  await drawPanels(figures, told, objective, zone);
  say(`${slo.display}, as of ${zone.full(entry.at)}`);
}
