/**
 * A calendar month of an objective, a page to print.
 * @module
 */

import { burnOf } from "./budget.js";
import { countsText } from "./cells.js";
import { element, keysHint, present, row, say, section, table } from "./dom.js";
import { exactNumber } from "./exact.js";
import { ONE, burnText, compare, divide, fraction, leftText, multiply, percent, spell } from "./fractions.js";
import { readTarget, subtract } from "./fractions.js";
import { spanText, zoneOf } from "./minutes.js";
import { Office, askEach } from "./office.js";
import { monthPlace, sloPlace } from "./routes.js";

/** @typedef {import("./minutes.js").Zone} Zone */
/** @typedef {import("./office.js").Sum} Sum */
/** @typedef {import("./routes.js").Month} Month */
/** @typedef {import("./slo.js").Place} Place */
/** @typedef {{day: number, from: number, to: number}} Day `to` is cut at the office's moment */
/**
 * @typedef {{days: Map<number, Sum>, whole: Sum, alerts: {policy: string, from: number, to: number}[],
 *   exclusions: import("./office.js").Exclusion[]?, begun: boolean}} Told
 */

// Targets have as many: 99.999 %.
const GOOD_DIGITS = 3;
const WEEKDAYS = ["Monday", "Tuesday", "Wednesday", "Thursday", "Friday", "Saturday", "Sunday"];

const monthFormat = new Intl.DateTimeFormat("en-GB", { month: "long", year: "numeric", timeZone: "UTC" });

/** @param {Month} month */
const nameOf = ({ year, month }) => monthFormat.format(Date.UTC(year, month - 1));

/**
 * @param {Month} month
 * @param {number} by
 * @returns {Month}
 */
function moved({ year, month }, by) {
  const date = new Date(Date.UTC(year, month - 1 + by));
  return { year: date.getUTCFullYear(), month: date.getUTCMonth() + 1 };
}

/**
 * The days of a month that have begun.
 * @param {Month} month
 * @param {Zone} zone
 * @param {number} now
 * @returns {Day[]}
 */
export function daysOf({ year, month }, zone, now) {
  const count = new Date(Date.UTC(year, month, 0)).getUTCDate();
  const begins = Array.from({ length: count + 1 }, (_, index) => zone.startOf({ year, month, day: index + 1 }));
  return begins
    .slice(0, -1)
    .map((from, index) => ({ day: index + 1, from, to: Math.min(begins[index + 1], now) }))
    .filter(({ from, to }) => from < to);
}

/**
 * @param {Office} office
 * @param {Place} place
 * @param {Day[]} days
 * @returns {Promise<Told>}
 */
async function askMonth(office, { slo, objective }, days) {
  const known = days.filter(({ to }) => to > office.origin);
  if (!known.length) return { days: new Map(), whole: { num: 0, den: 0 }, alerts: [], exclusions: null, begun: false };
  const begins = new Map(known.map(({ from, to }) => [to, from]));
  const sumTo = (/** @type {number} */ to) => office.sum(slo.name, objective.number, begins.get(to) ?? to, to);
  const sums = await askEach([...begins.keys()], sumTo);
  const byDay = new Map(known.map(({ day, to }) => [day, /** @type {Sum} */ (sums.get(to))]));
  const [from, to] = [known[0].from, known[known.length - 1].to];
  const whole = await office.sum(slo.name, objective.number, from, to);
  const alerts = await Promise.all(
    objective.alerts.map(async ({ policy }) => {
      const intervals = await office.alerts(slo.name, objective.number, policy, from, to);
      return intervals.map(([first, after]) => ({ policy, from: first, to: after }));
    }),
  );
  const exclusions = await office.exclusions(slo.name);
  return {
    days: byDay,
    whole,
    alerts: alerts.flat().sort((a, b) => a.from - b.from),
    exclusions: exclusions && exclusions.filter((each) => each.from < to && each.to > from),
    begun: true,
  };
}

/**
 * How much of the month's budget a day took: what failed in it, of what may fail in the month.
 * @param {Sum} sum
 * @param {Sum} whole the month's
 * @param {string} target
 */
export function tookOf(sum, whole, target) {
  const budget = multiply(subtract(ONE, readTarget(target)), fraction(whole.den, 1));
  return divide(fraction(sum.den - sum.num, 1), budget);
}

/**
 * A day's cell: its date, the part that was good, how much of the month's budget it took.
 * @param {{day: number, weekday: number}} date a weekday counts from Monday, 0
 * @param {Sum | undefined} sum
 * @param {Sum} whole the month's
 * @param {string} target
 */
function dayCell({ day, weekday }, sum, whole, target) {
  const burn = sum ? burnOf(sum, target) : null;
  const date = element("b", {}, element("span", { class: "weekday" }, `${WEEKDAYS[weekday].slice(0, 3)} `), day);
  if (!sum || !burn) return element("td", { class: "day", role: "cell" }, date, element("small", {}, "no data"));
  const grade = compare(burn, ONE) > 0 ? "above" : "within";
  const took = whole.den ? tookOf(sum, whole, target) : null;
  const exact = `took of the month's budget: ${took && spell(took)}; burn: ${spell(burn)}`;
  return element(
    "td",
    { class: `day ${grade}`, role: "cell" },
    date,
    exactNumber(percent(fraction(sum.num, sum.den), GOOD_DIGITS), `good: ${countsText(sum)}`),
    took ? element("small", {}, "took ", exactNumber(percent(took), exact)) : null,
  );
}

const emptyCell = () => element("td", { role: "cell" });

/**
 * @param {Month} month
 * @param {Told} told
 * @param {string} target
 */
function calendar({ year, month }, told, target) {
  const count = new Date(Date.UTC(year, month, 0)).getUTCDate();
  const before = (new Date(Date.UTC(year, month - 1, 1)).getUTCDay() + 6) % 7;
  const cells = [
    ...Array.from({ length: before }, emptyCell),
    ...Array.from({ length: count }, (_, index) =>
      dayCell({ day: index + 1, weekday: (before + index) % 7 }, told.days.get(index + 1), told.whole, target),
    ),
  ];
  while (cells.length % 7) cells.push(emptyCell());
  const weeks = Array.from({ length: cells.length / 7 }, (_, week) =>
    element("tr", { role: "row" }, ...cells.slice(week * 7, week * 7 + 7)),
  );
  const heads = WEEKDAYS.map((name) =>
    element("th", { scope: "col", role: "columnheader" }, element("abbr", { title: name }, name.slice(0, 3))),
  );
  return element(
    "table",
    { class: "calendar", role: "table" },
    element("caption", {}, "Each day: the part that was good, and how much of the month's budget it took.", keysHint()),
    element("thead", { role: "rowgroup" }, element("tr", { role: "row" }, ...heads)),
    element("tbody", { role: "rowgroup" }, ...weeks),
  );
}

/**
 * @param {Sum} sum
 * @param {string} target
 */
function wholeFacts(sum, target) {
  const burn = burnOf(sum, target);
  if (!burn) return element("p", {}, "Nothing was counted in this month.");
  const [good, left] = [fraction(sum.num, sum.den), subtract(ONE, burn)];
  const facts = [
    ["Good of total", countsText(sum)],
    ["Good", exactNumber(percent(good, GOOD_DIGITS), `good: ${spell(good)}`, true)],
    ["Target", target],
    ["Burn", exactNumber(burnText(burn), `burn: ${spell(burn)}`, true)],
    ["Budget left", exactNumber(leftText(left), `budget left: ${spell(left)}`, true)],
  ];
  const items = facts.map(([name, value]) => element("div", {}, element("dt", {}, name), element("dd", {}, value)));
  return element("dl", { class: "facts" }, ...items);
}

/**
 * @param {Told} told
 * @param {Zone} zone
 * @param {boolean} isWatched whether it has alerts
 */
function happenings(told, zone, isWatched) {
  const headers = ["From", "To", "What", "Lasted"];
  const alerts = told.alerts.map(({ policy, from, to }) => ({ from, to, what: `alert ${policy}` }));
  const exclusions = (told.exclusions ?? []).map(({ id, from, to }) => ({ from, to, what: `excluded by ${id}` }));
  const rows = [...alerts, ...exclusions]
    .sort((a, b) => a.from - b.from)
    .map(({ from, to, what }) => row(headers, [zone.full(from), zone.full(to), what, spanText(to - from)]));
  const leftOut = "Exclusions count in all numbers, but this version of the office doesn't list them.";
  return section(
    "Alerts and exclusions",
    rows.length
      ? table({ caption: "By their begin", classes: "plain", headers, rows })
      : element("p", {}, isWatched ? "No alert was active in this month." : "No alerts are defined: nobody was told."),
    told.exclusions ? null : element("p", { class: "left-out" }, leftOut),
  );
}

/**
 * @param {Place} place
 * @param {Month} month
 * @param {Month} current
 */
function turning({ office, slo, objective }, month, current) {
  const link = (/** @type {number} */ by) => {
    const other = moved(month, by);
    return element("a", { href: monthPlace(office.name, slo.name, objective.number, other) }, nameOf(other));
  };
  const print = element("button", { type: "button" }, "Print");
  print.addEventListener("click", () => window.print());
  const isCurrent = month.year === current.year && month.month === current.month;
  const back = element("a", { href: sloPlace(office.name, slo.name, objective.number) }, "The SLO");
  const next = isCurrent ? null : link(1);
  return element("nav", { class: "turning", "aria-label": "Months" }, back, link(-1), next, print);
}

/**
 * @param {Place} place
 * @param {Month?} wanted null for the present one
 * @param {AbortSignal} signal
 * @param {(parts: HTMLElement[]) => void} put
 */
export async function monthView(place, wanted, signal, put) {
  const { office: entry, slo, objective } = place;
  const zone = zoneOf(slo.window.zone);
  if (entry.at === null) throw new Error("the office's moment isn't known");
  const current = zone.dateOf(entry.at);
  const month = wanted ?? current;
  const what = `${objective.display}, target ${objective.target}, ${slo.service_display}.`;
  const head = [
    element("h1", { tabindex: -1 }, `${slo.display}, ${nameOf(month)}`),
    turning(place, month, current),
    element("p", {}, `${what} Days begin at midnight in ${zone.label}.`),
  ];
  const rest = element("div");
  put([...head, rest]);
  say(`Loading ${nameOf(month)} …`, "busy");
  const days = daysOf(month, zone, entry.at);
  const office = new Office(entry, signal);
  const told = await askMonth(office, place, days);
  const end = days.at(-1)?.to ?? entry.at;
  const note = told.begun ? null : element("p", { class: "trouble" }, "The office's history hasn't this month.");
  const overMidnight = "A slice over midnight counts in the month, and in neither day.";
  const midnights = slo.method === "Occurrences" ? null : element("p", { class: "left-out" }, overMidnight);
  if (signal.aborted) return;
  rest.replaceChildren(
    ...present([
      note,
      section("The month", wholeFacts(told.whole, objective.target)),
      section("Day by day", calendar(month, told, objective.target), midnights),
      happenings(told, zone, objective.alerts.length > 0),
    ]),
  );
  say(`${nameOf(month)}, counted up to ${zone.full(end)}`);
}
