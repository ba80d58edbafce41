/**
 * What burns, or is open at the receiver: since when, told to whom, and what to do.
 * @module
 */

import { lastsText, minutesLeft } from "./budget.js";
import { details, element, present, section } from "./dom.js";
import { exactNumber } from "./exact.js";
import { burnText, compare, leftText, readFraction } from "./fractions.js";
import { DAY, spanText, zoneOf } from "./minutes.js";
import { Office } from "./office.js";
import { sloPlace } from "./routes.js";
import { STATES, awayText, badge, gravityOf, isOpen } from "./states.js";
import { aboveText, burningTerm, lookbackText, severityText } from "./terms.js";

/** @typedef {import("./file.js").AlertEntry} AlertEntry */
/** @typedef {import("./file.js").NotifyEntry} NotifyEntry */
/** @typedef {import("./file.js").ObjectiveEntry} ObjectiveEntry */
/** @typedef {import("./file.js").OfficeEntry} OfficeEntry */
/** @typedef {import("./file.js").Overview} Overview */
/** @typedef {import("./file.js").SloEntry} SloEntry */
/**
 * @typedef {{
 *   office: OfficeEntry, slo: SloEntry, objective: ObjectiveEntry, alerts: AlertEntry[], rank: number,
 * }} Open
 */

const SHOWN = 4;
const LOOKED_BACK = 2 * DAY;
/** @type {Record<string, string>} */
const RECEIVERS = { alertmanager: "Alertmanager", webhook: "the webhook" };

/**
 * The objectives with an open alert, those that wake somebody first, of these the least budget.
 * @param {Overview} overview
 * @returns {Open[]}
 */
export function openOnes({ offices }) {
  const found = offices.flatMap((office) =>
    office.slos.flatMap((slo) =>
      slo.objectives.flatMap((objective) => {
        const alerts = objective.alerts.filter(isOpen);
        if (!alerts.length) return [];
        const rankOf = (/** @type {AlertEntry} */ alert) => STATES.indexOf(gravityOf(alert));
        alerts.sort((a, b) => rankOf(a) - rankOf(b));
        const left = readFraction(objective.remaining);
        return [{ office, slo, objective, alerts, rank: rankOf(alerts[0]), left }];
      }),
    ),
  );
  return found.sort((a, b) => a.rank - b.rank || (a.left && b.left ? compare(a.left, b.left) : 0));
}

/**
 * Whom an alert was told to, and when.
 * @param {AlertEntry} alert
 * @param {NotifyEntry} notify
 * @param {OfficeEntry} office
 * @param {string} zone
 */
function toldText(alert, notify, office, zone) {
  const receiver = RECEIVERS[notify.receiver];
  if (alert.since !== null) {
    return `told to ${receiver ?? "a receiver that isn't set any more"} at ${momentText(alert.since, office.at, zone)}`;
  }
  if (alert.tells === false) return "told to nobody: its policy doesn't tell that it burns";
  if (!receiver) return "told to nobody: slo-notify has no receiver";
  return `not told to ${receiver} yet`;
}

/**
 * A minute with its day, where that isn't today.
 * @param {number} minute
 * @param {number?} at
 * @param {string} name of the zone
 */
function momentText(minute, at, name) {
  const zone = zoneOf(name);
  const isToday = at !== null && zone.dayAndMonth(minute) === zone.dayAndMonth(at) && at - minute < DAY;
  return isToday ? zone.zonedTime(minute) : zone.full(minute);
}

/**
 * @param {number} since
 * @param {number?} at
 * @param {string} name of the zone
 */
function sinceText(since, at, name) {
  const lasted = at === null || at <= since ? "" : `, ${spanText(at - since)}`;
  return `since ${momentText(since, at, name)}${lasted}`;
}

/**
 * When an alert began: the office is asked, until it answers the minute counts at which the
 * receiver was told.
 * @param {Open} open
 * @param {AlertEntry} alert
 * @param {AbortSignal} signal
 */
function beginOf({ office, slo, objective }, alert, signal) {
  const { at } = office;
  const zone = slo.window.zone;
  const known = alert.since === null ? "since a minute that isn't known" : sinceText(alert.since, at, zone);
  const place = element("span", { class: "since" }, known);
  if (at === null || !office.up || alert.state !== "breaching") return place;
  new Office(office, signal).alerts(slo.name, objective.number, alert.policy, at - LOOKED_BACK, at).then(
    (intervals) => {
      const last = intervals.at(-1);
      // What begins with this minute stands in no interval yet.
      if (!last || last[1] < at) return;
      const isLonger = last[0] <= at - LOOKED_BACK && (alert.since === null || alert.since > last[0]);
      place.textContent = isLonger ? `for more than ${spanText(LOOKED_BACK)}` : sinceText(last[0], at, zone);
    },
    // The line stays as it is.
    () => {},
  );
  return place;
}

/**
 * @param {Open} open
 * @param {AlertEntry} alert
 * @param {NotifyEntry} notify
 * @param {AbortSignal} signal
 */
function alertLine(open, alert, notify, signal) {
  const { office, slo, objective } = open;
  const term = burningTerm(objective, alert);
  const burn = term && readFraction(objective.burns[lookbackText(term.lookback)] ?? null);
  const speed =
    term && burn
      ? [
          "burns ",
          exactNumber(burnText(burn), `burn over ${lookbackText(term.lookback)}: ${burn.num}/${burn.den}`, true),
          ` over ${lookbackText(term.lookback)} (${severityText(alert)} ${aboveText(term)})`,
        ]
      : [alert.state === "breaching" ? "burns" : `open, ${alert.state.replace("_", " ")}`];
  const since = beginOf(open, alert, signal);
  const told = toldText(alert, notify, office, slo.window.zone);
  return element("li", {}, element("b", {}, alert.policy), ": ", ...speed, ", ", since, ", ", told);
}

/**
 * How long the budget lasts at the pace of the last hour.
 * @param {Open} open
 */
function lastsLine({ office, slo, objective }) {
  const remaining = readFraction(objective.remaining);
  if (!remaining) return element("p", {}, "Of its budget nothing is known.");
  const left = exactNumber(leftText(remaining), `budget left: ${objective.remaining}`, true);
  const burn = readFraction(objective.burns["1h"] ?? null);
  if (remaining.num <= 0n || !burn || office.at === null || objective.from === null) {
    return element("p", {}, "Budget left: ", left);
  }
  const elapsed = office.at - objective.from;
  const minutes = minutesLeft({ remaining, burn, isRolling: slo.window.rolling, elapsed });
  const gone = minutes ? `, gone in ${lastsText(minutes)}` : ", lasts";
  return element("p", {}, "Budget left: ", left, `${gone} at the pace of the last hour`);
}

/**
 * The address under which Alertmanager silences an alert.
 * @param {string} link
 * @param {Open} open
 */
function silencePlace(link, { office, slo, objective }) {
  const labels = { slo: slo.name, objective: `${objective.number}`, office: office.name };
  const filter = Object.entries(labels).map(([name, value]) => `${name}=${JSON.stringify(value)}`);
  return `${link}/#/silences/new?filter=${encodeURIComponent(`{${filter.join(",")}}`)}`;
}

/** What is no address of the web is shown, and leads nowhere. */
const isAddress = (/** @type {string} */ text) => /^https?:\/\//i.test(text);

/**
 * A runbook as a link, where it is one.
 * @param {string} text
 */
export function runbookLink(text) {
  if (!isAddress(text)) return element("span", {}, `Runbook: ${text}`);
  return element("a", { href: text, rel: "noreferrer" }, "Runbook");
}

/** @param {SloEntry} slo */
export const gateCommand = (slo) => element("code", {}, `slo-gate ${slo.name}`);

/**
 * @param {Open} open
 * @param {NotifyEntry} notify
 */
function actions(open, notify) {
  const { slo, alerts } = open;
  const runbook = alerts.map((alert) => alert.runbook).find((text) => text) ?? slo.runbook;
  const isTold = alerts.some((alert) => alert.since !== null) && notify.receiver === "alertmanager";
  const silence = isTold && notify.link && isAddress(notify.link) ? silencePlace(notify.link, open) : null;
  return element(
    "p",
    { class: "actions" },
    runbook ? runbookLink(runbook) : element("span", { class: "none" }, "no runbook"),
    silence ? element("a", { href: silence, rel: "noreferrer" }, "Silence in Alertmanager") : null,
    element("span", {}, slo.owner ? `Owner: ${slo.owner}` : "no owner"),
    element("span", {}, "Gate: ", gateCommand(slo)),
  );
}

/**
 * @param {Open} open
 * @param {NotifyEntry} notify
 * @param {AbortSignal} signal
 */
function openItem(open, notify, signal) {
  const { office, slo, objective, alerts } = open;
  const age = awayText(office);
  const name = objective.display === "0" ? null : objective.display;
  const where = [name, `target ${objective.target}`, slo.service_display];
  return element(
    "li",
    { class: `burning ${STATES[open.rank].name}${age ? " aged" : ""}` },
    element(
      "p",
      { class: "what" },
      badge(STATES[open.rank]),
      " ",
      element("a", { href: sloPlace(office.name, slo.name, objective.number) }, slo.display),
      element("small", {}, present(where).join(" · "), age ? `, as of ${age}` : null),
    ),
    element("ul", {}, ...alerts.map((alert) => alertLine(open, alert, notify, signal))),
    lastsLine(open),
    actions(open, notify),
  );
}

/**
 * Why nothing can be said to be quiet.
 * @param {Overview} overview
 */
function quietText({ offices, notify }) {
  const away = offices.filter((office) => !office.up).length;
  if (away || notify.clock !== null) return "No alert is known to be open. What is said below is missing.";
  const receiver = RECEIVERS[notify.receiver];
  return receiver ? `Nothing burns, and nothing is open at ${receiver}.` : "Nothing burns.";
}

/**
 * @param {Overview} overview
 * @param {AbortSignal} signal
 * @param {Open[]} ones
 * @param {number} shown so many stand in sight, the others open on demand
 */
export function openSection(overview, signal, ones, shown = SHOWN) {
  if (!ones.length) return element("p", { class: "calm" }, quietText(overview));
  const items = ones.slice(0, shown).map((each) => openItem(each, overview.notify, signal));
  const rest = ones.slice(shown);
  const more = rest.length ? moreItems(rest, overview.notify, signal) : null;
  const heading = `Open now (${ones.length.toLocaleString("en")})`;
  const made = section(heading, element("ul", { class: "open" }, ...items), more);
  made.classList.add("strip");
  return made;
}

/**
 * The others, made once somebody wants to see them.
 * @param {Open[]} rest
 * @param {NotifyEntry} notify
 * @param {AbortSignal} signal
 */
function moreItems(rest, notify, signal) {
  const list = element("ul", { class: "open" });
  const made = details(`${rest.length.toLocaleString("en")} more`, list);
  made.addEventListener("toggle", () => {
    if (!list.childElementCount) list.append(...rest.map((each) => openItem(each, notify, signal)));
  });
  return made;
}
