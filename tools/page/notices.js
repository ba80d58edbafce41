/**
 * All alerts that are open, and the notices that wait in the offices.
 * @module
 */

import { element, row, say, table } from "./dom.js";
import { zoneOf } from "./minutes.js";
import { Office, OfficeFault } from "./office.js";
import { openOnes, openSection } from "./open.js";
import { sloPlace } from "./routes.js";

/** @typedef {import("./file.js").OfficeEntry} OfficeEntry */

const HEADERS = ["SLO", "Policy", "State", "At", "Number"];
const MOST = 1000;

/**
 * @param {OfficeEntry} office
 * @param {import("./office.js").Notice[]} notices
 */
function noticesTable(office, notices) {
  if (!notices.length) return element("p", {}, "None waits.");
  const rows = notices.map(({ number, at, slo, objective, policy, state }) => {
    const known = office.slos.find((each) => each.name === slo);
    const link = known ? element("a", { href: sloPlace(office.name, slo, objective) }, known.display) : slo;
    const date = zoneOf(known?.window.zone ?? "UTC").full(at);
    return row(HEADERS, [link, policy, state.replace("_", " "), date, number]);
  });
  const caption = notices.length === MOST ? `The first ${MOST.toLocaleString("en")} that wait` : "All that wait";
  return table({ caption, classes: "plain", headers: HEADERS, rows });
}

/**
 * @param {string} name
 * @param {HTMLElement} child
 */
const part = (name, child) => element("section", {}, element("h3", {}, name), child);

/**
 * @param {import("./file.js").Overview} overview
 * @param {AbortSignal} signal
 * @param {(parts: HTMLElement[]) => void} put
 */
export async function noticesView(overview, signal, put) {
  const open = openOnes(overview);
  const head = [
    element("h1", { tabindex: -1 }, "Alerts"),
    openSection(overview, signal, open, open.length),
    element("h2", {}, "Notices that wait"),
    element("p", {}, "What slo-notify hasn't passed on yet. It takes each notice once the receiver has heard of it."),
  ];
  const rest = element("div");
  put([...head, rest]);
  say("Loading notices …", "busy");
  let failed = 0;
  const parts = await Promise.all(
    overview.offices.map(async (entry) => {
      try {
        const office = new Office(entry, signal);
        return part(entry.name, noticesTable(entry, await office.notices()));
      } catch (fault) {
        if (!(fault instanceof OfficeFault)) throw fault;
        failed += 1;
        return part(entry.name, element("p", { class: "trouble" }, `Not known: ${fault.message}`));
      }
    }),
  );
  if (signal.aborted) return;
  rest.replaceChildren(...parts);
  say(failed ? `${failed} of ${parts.length} offices didn't answer` : "All offices answered", failed ? "bad" : "well");
}
