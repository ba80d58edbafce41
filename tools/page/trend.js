/**
 * The burn rates of the last seven days as a small line.
 * @module
 */

import { element } from "./dom.js";
import { DAY } from "./minutes.js";

/** @typedef {import("./file.js").TrendEntry} TrendEntry */

const WIDTH = 60;
const HEIGHT = 16;
const DAYS = 7;
const SPACE = "http://www.w3.org/2000/svg";
// The line's top, where the week burnt less: what spends the budget in just one window.
const LEAST_TOP = 1;

/**
 * @param {TrendEntry | null | undefined} trend
 * @returns {HTMLElement}
 */
export function trendCell(trend) {
  const known = (trend?.burns ?? []).filter((burn) => burn !== null);
  if (!trend || !known.length) {
    const nothing = "burn of the last 7 days: nothing was counted in a step that is over";
    return element("span", { class: "none", tabindex: -1, "data-exact": nothing }, "none");
  }
  const most = known.reduce((a, b) => Math.max(a, b), 0);
  const made = document.createElementNS(SPACE, "svg");
  for (const [name, value] of Object.entries({ width: WIDTH, height: HEIGHT, viewBox: `0 0 ${WIDTH} ${HEIGHT}` })) {
    made.setAttribute(name, `${value}`);
  }
  for (const [name, line] of [
    ["base", `M0 ${HEIGHT - 0.5}H${WIDTH}`],
    ["line", lineOf(trend, Math.max(most, LEAST_TOP))],
  ]) {
    const path = document.createElementNS(SPACE, "path");
    path.setAttribute("class", name);
    path.setAttribute("d", line);
    made.append(path);
  }
  const lately = trend.burns.at(-1) ?? "none";
  const text = `burn of the last 7 days by ${trend.step / 60} h: at most ${most}, lately ${lately}`;
  const mark = { class: most > 1 ? "trend above" : "trend", tabindex: -1, "data-exact": text };
  return element("span", { ...mark, role: "img", "aria-label": text }, made);
}

/**
 * A level for each step, with gaps where nothing was counted.
 * @param {TrendEntry} trend
 * @param {number} top
 */
function lineOf({ burns, step }, top) {
  const steps = (DAYS * DAY) / step;
  let text = "";
  burns.slice(-steps).forEach((burn, index, all) => {
    if (burn === null) return;
    const [left, right] = [0, 1].map((by) => ((steps - all.length + index + by) / steps) * WIDTH);
    const y = (HEIGHT - 1 - (burn / top) * (HEIGHT - 2)).toFixed(1);
    const isLinked = index > 0 && all[index - 1] !== null;
    text += `${isLinked ? "L" : "M"}${left.toFixed(1)} ${y}H${right.toFixed(1)}`;
  });
  return text;
}
