/**
 * What is asked of an office for the charts of an objective: few questions, whatever the window.
 * @module
 */

import { present } from "./dom.js";
import { OfficeFault, askEach } from "./office.js";

/** @typedef {import("./office.js").Office} Office */
/** @typedef {import("./office.js").Sum} Sum */
/** @typedef {{from: number, to: number, sum: Sum?}} Step sum null before the office's history */
/** @typedef {{policy: string, severity: string, intervals: [number, number][]}} Alert */
/**
 * @typedef {{
 *   from: number, to: number, step: number, steps: Step[], remaining: Map<number, string?>, alerts: Alert[],
 *   exclusions: import("./office.js").Exclusion[]?,
 * }} Told
 */

// Every length divides the hour, or is a multiple of it, so that slices lie inside of steps.
const STEPS = [1, 2, 5, 10, 15, 30, 60, 120, 180, 240, 360, 720, 1440, 2880, 4320, 7200, 10_080, 14_400];
const MOST_STEPS = 96;
const HOUR = 60;

/**
 * The minutes at which steps begin and end, `from` and `to` among them.
 * @param {number} from
 * @param {number} to
 * @param {number} slice every step holds whole ones
 */
export function edgesOf(from, to, slice = 1) {
  const isFit = (/** @type {number} */ each) => each % slice === 0 && (to - from) / each <= MOST_STEPS;
  const step = STEPS.find(isFit) ?? STEPS[STEPS.length - 1];
  const edges = [from];
  for (let edge = (Math.floor(from / step) + 1) * step; edge < to; edge += step) edges.push(edge);
  if (to > from) edges.push(to);
  return { edges, step };
}

/**
 * @param {Office} office
 * @param {import("./file.js").SloEntry} slo
 * @param {import("./file.js").ObjectiveEntry} objective
 * @param {{from: number, to: number}} range
 * @param {(done: number, all: number) => void} told
 * @returns {Promise<Told>}
 */
export async function askSeries(office, slo, objective, { from, to }, told) {
  // An older slo-notify doesn't tell the slice: it is an hour at most, and divides it.
  const { edges, step } = edgesOf(from, to, objective.slice ?? (slo.method === "Occurrences" ? 1 : HOUR));
  const known = edges.filter((edge) => edge >= office.origin);
  const all = 2 * known.length;
  const remaining = await askEach(
    known,
    async (at) => (await office.budgets(slo.name, at))[objective.number].remaining,
    (done) => told(done, all),
  );
  const steps = await askSteps(office, slo.name, objective.number, edges, step, (done) =>
    told(known.length + done, all),
  );
  const alerts = await Promise.all(
    objective.alerts.map((alert) => askAlert(office, slo.name, objective.number, alert, from, to)),
  );
  const exclusions = await office.exclusions(slo.name);
  return {
    from,
    to,
    step,
    steps,
    remaining,
    alerts: present(alerts),
    exclusions: exclusions && exclusions.filter((each) => each.from < to && each.to > from),
  };
}

/**
 * Good and total of each step, by one question where the office answers it.
 * @param {Office} office
 * @param {string} slo
 * @param {number} objective
 * @param {number[]} edges
 * @param {number} step
 * @param {(done: number) => void} told
 * @returns {Promise<Step[]>}
 */
async function askSteps(office, slo, objective, edges, step, told) {
  const ranges = edges.slice(1).map((to, index) => ({ from: edges[index], to }));
  const asked = ranges.filter(({ to }) => to > office.origin);
  // The first step is shorter than the others: the sums are asked from its end on.
  const even = asked.filter(({ from }) => from >= office.origin && from % step === 0);
  const sums = even.length ? await office.sums(slo, objective, even[0].from, even[even.length - 1].to, step) : null;
  const known = new Map(sums ? even.map(({ to }, index) => [to, sums[index]]) : []);
  const rest = asked.map(({ to }) => to).filter((to) => !known.has(to));
  const begins = new Map(ranges.map(({ from, to }) => [to, from]));
  const others = await askEach(rest, (to) => office.sum(slo, objective, begins.get(to) ?? to, to), told);
  return ranges.map(({ from, to }) => ({ from, to, sum: known.get(to) ?? others.get(to) ?? null }));
}

/**
 * @param {Office} office
 * @param {string} slo
 * @param {number} objective
 * @param {import("./file.js").AlertEntry} alert
 * @param {number} from
 * @param {number} to
 * @returns {Promise<Alert | null>} null where the policy is no longer bound
 */
async function askAlert(office, slo, objective, { policy, severity }, from, to) {
  try {
    return { policy, severity, intervals: await office.alerts(slo, objective, policy, from, to) };
  } catch (fault) {
    if (fault instanceof OfficeFault && fault.status === 404) return null;
    throw fault;
  }
}
