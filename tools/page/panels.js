/**
 * The charts of an objective, one below the other over the same time.
 * @module
 */

import { burnOf } from "./budget.js";
import { colour, draw } from "./chart.js";
import { element } from "./dom.js";
import { burnText, fraction, percent, readFraction, spell, toNumber } from "./fractions.js";
import { spanText } from "./minutes.js";
import { PAGE, gravityOf } from "./states.js";
import { aboveText, lookbackText, severityText, thresholdOf } from "./terms.js";

/** @typedef {import("./series.js").Told} Told */
/** @typedef {import("./minutes.js").Zone} Zone */
/** @typedef {import("./chart.js").Series} Series */
/** @typedef {"remaining" | "burn" | "events" | "alerts"} Subject */
/** @typedef {{subject: Subject, figure: HTMLElement, canvas: HTMLCanvasElement}} Panel */

const LANE_HEIGHT = 44;
// A bar is at least this part of the axis.
const MOST_BARS = 150;
const LONG_TICK = 10_000;

/** @param {Told} told */
const captions = ({ step }) => ({
  remaining: `Budget left, in the window up to each minute, by steps of ${spanText(step)}`,
  burn: `Burn rate of each step of ${spanText(step)}`,
  events: `Good and total of each step of ${spanText(step)}`,
  alerts: "When alerts were active, to the minute",
});

/** @type {{destroy: () => void}[]} */
let drawn = [];

/**
 * The figures, still empty.
 * @param {Told} told
 * @returns {Panel[]}
 */
export function panels(told) {
  /** @type {Subject[]} */
  const subjects = told.alerts.length ? ["remaining", "burn", "events", "alerts"] : ["remaining", "burn", "events"];
  return subjects.map((subject) => {
    const caption = captions(told)[subject];
    const label = `${caption}; its numbers stand in the tables below`;
    const canvas = /** @type {HTMLCanvasElement} */ (element("canvas", { role: "img", "aria-label": label }));
    const place = element("div", { class: `canvas ${subject}` }, canvas);
    if (subject === "alerts") place.style.height = `${told.alerts.length * LANE_HEIGHT + 48}px`;
    return { subject, canvas, figure: element("figure", {}, element("figcaption", {}, caption), place) };
  });
}

/**
 * Draws the figures, which have to stand in the page.
 * @param {Panel[]} figures
 * @param {Told} told
 * @param {import("./file.js").ObjectiveEntry} objective
 * @param {Zone} zone
 */
export async function drawPanels(figures, told, objective, zone) {
  clearPanels();
  const shades = (told.exclusions ?? []).map(({ from, to, id }) => ({ from, to, label: id }));
  const least = (told.to - told.from) / MOST_BARS;
  const parts = {
    remaining: { series: [remainingSeries(told)], least: 0, most: 1, unit: percentTick },
    burn: { series: burnSeries(told, objective), least: 0, most: 1, unit: tick },
    events: { series: eventSeries(told), least: 0, most: 1, unit: tick },
    alerts: {
      series: told.alerts.map((alert, lane) => alertSeries(alert, lane, least)),
      lanes: told.alerts.map(({ policy, severity }) => (severity ? `${policy} (${severity})` : policy)),
    },
  };
  const range = { from: told.from, to: told.to, zone, shades };
  drawn = await Promise.all(figures.map(({ subject, canvas }) => draw({ canvas, ...range, ...parts[subject] })));
}

/** Takes the charts away, before the page shows something else. */
export function clearPanels() {
  for (const chart of drawn) chart.destroy();
  drawn = [];
}

/**
 * A number beside an axis: one that is too long for its place as `20K` or `1.5M`.
 * @param {number} value
 */
export function tick(value) {
  const isLong = Math.abs(value) >= LONG_TICK;
  return value.toLocaleString("en", isLong ? { notation: "compact" } : {}).replace("-", "−");
}

/** @param {number} value */
const percentTick = (value) => `${tick(Math.round(value * 100))} %`;

/**
 * @param {Told} told
 * @returns {Series}
 */
function remainingSeries(told) {
  const points = [...told.remaining.entries()]
    .sort(([a], [b]) => a - b)
    .map(([x, text]) => {
      const value = readFraction(text);
      return { x, y: value && toNumber(value), exact: value ? `${percent(value)} (${text})` : "none" };
    });
  return { label: "Budget left", color: colour("accent"), points, fill: true };
}

/**
 * Points that hold from the begin of each step to its end, also where the next one has no value.
 * @param {Told} told
 * @param {(sum: import("./office.js").Sum) => {y: number | null, exact: string}} value
 */
function stepped(told, value) {
  return told.steps.flatMap(({ from, to, sum }) => {
    const point = sum ? value(sum) : { y: null, exact: "none" };
    return [
      { x: from, ...point },
      { x: to, ...point },
    ];
  });
}

/**
 * @param {Told} told
 * @param {import("./file.js").ObjectiveEntry} objective
 * @returns {Series[]}
 */
function burnSeries(told, { target, alerts }) {
  const points = stepped(told, (sum) => {
    const burn = burnOf(sum, target);
    if (!burn) return { y: null, exact: "none" };
    return { y: toNumber(burn), exact: `${burnText(burn)} (${spell(burn)})` };
  });
  const even = [told.from, told.to].map((x) => ({ x, y: 1, exact: spell(fraction(1, 1)) }));
  return [
    { label: "Burn", color: colour("accent"), points, stepped: true, fill: true },
    { label: "Spends the budget in one window", color: colour("faint"), points: even },
    ...alerts.flatMap((alert) => (alert.terms ?? []).flatMap((term) => thresholdSeries(told, alert, term))),
  ];
}

/**
 * A line at the burn rate from which a policy alerts.
 * @param {Told} told
 * @param {import("./file.js").AlertEntry} alert
 * @param {import("./file.js").TermEntry} term
 * @returns {Series[]}
 */
function thresholdSeries(told, alert, term) {
  const value = thresholdOf(term.burn);
  if (!value) return [];
  const points = [told.from, told.to].map((x) => ({ x, y: toNumber(value), exact: term.burn }));
  const label = `${severityText(alert)} ${aboveText(term)} over ${lookbackText(term.lookback)}`;
  return [{ label, color: colour(gravityOf(alert) === PAGE ? "bad" : "warn"), points, dash: [6, 4] }];
}

/**
 * @param {Told} told
 * @returns {Series[]}
 */
function eventSeries(told) {
  const of = (/** @type {"num" | "den"} */ key) =>
    stepped(told, (sum) => ({ y: sum[key], exact: sum[key].toLocaleString("en") }));
  return [
    { label: "Good", color: colour("good"), points: of("num"), stepped: true, fill: true },
    { label: "Total", color: colour("faint"), points: of("den"), stepped: true },
  ];
}

/**
 * The bars of an alert; a short one is drawn as long as one sees.
 * @param {import("./series.js").Alert} alert
 * @param {number} lane
 * @param {number} least the minutes of the shortest bar
 * @returns {Series}
 */
function alertSeries({ policy, intervals }, lane, least) {
  const points = intervals.flatMap(([from, to]) => {
    const end = Math.max(to, from + least);
    const exact = `${to - from} min`;
    return [{ x: from, y: lane, exact }, { x: end, y: lane, exact }, { x: end, y: null, exact: "" }];
  });
  return { label: policy, color: colour("bad"), points, bar: true };
}
