/**
 * The page: reads the overview again and again, and shows the place that its address names.
 * @module
 */

import { element, say } from "./dom.js";
import { readOverview } from "./file.js";
import { monthView } from "./month.js";
import { noticesView } from "./notices.js";
import { overviewView, sayAge } from "./overview.js";
import { clearPanels } from "./panels.js";
import { openOnes } from "./open.js";
import { OVERVIEW, overviewPlace, readRoute, sloPlace } from "./routes.js";
import { sloView } from "./slo.js";

/** @typedef {import("./file.js").Overview} Overview */
/** @typedef {import("./routes.js").Route} Route */

const RETRY = 10;
const TITLE = "Error budgets";

const main = /** @type {HTMLElement} */ (document.getElementById("main"));
const noticesLink = /** @type {HTMLElement} */ (document.getElementById("notices"));
const dark = matchMedia("(prefers-color-scheme: dark)");

/** @type {Overview | null} */
let overview = null;
/** @type {Route} */
let route = readRoute("");
let ends = new AbortController();
/** The place of the SLO that was open, to which the focus goes back. */
let opened = "";
/** The overview as it was filtered last, to which one goes back. */
let overviewHash = OVERVIEW;

/** @param {HTMLElement[]} parts */
function put(parts) {
  main.replaceChildren(...parts);
  titlePlace();
}

/** The heading of a place that has no other. */
const heading = () => element("h1", { tabindex: -1 }, TITLE);

/** @param {unknown} fault */
function tellFault(fault) {
  const text = fault instanceof Error ? fault.message : `${fault}`;
  main.append(element("p", { class: "trouble" }, `This couldn't be shown: ${text}. `, againButton()));
  say(`Failed: ${text}`, "bad");
}

function againButton() {
  const button = element("button", { type: "button" }, "Ask again");
  button.addEventListener("click", () => void refresh(true));
  return button;
}

/**
 * @param {Overview} file
 * @param {{office: string, slo: string, objective: number}} names
 */
function placeOf(file, names) {
  const office = file.offices.find((each) => each.name === names.office);
  const slo = office?.slos.find((each) => each.name === names.slo);
  const objective = slo?.objectives.find((each) => each.number === names.objective);
  if (!office || !slo || !objective) {
    const isUnknown = office && office.at === null && !office.up;
    if (isUnknown) throw new Error(`nothing is known yet of ${names.office}: slo-notify hasn't had an answer of it`);
    throw new Error(`the overview has no ${names.office}/${names.slo}/${names.objective}`);
  }
  return { office, slo, objective };
}

/** Shows the present place anew. */
async function show() {
  ends.abort();
  ends = new AbortController();
  const { signal } = ends;
  clearPanels();
  if (!overview) return;
  put([heading()]);
  try {
    if (route.view === "overview") put(overviewView(overview, route.filter, keepFilter, signal));
    else if (route.view === "notices") await noticesView(overview, signal, put);
    else if (route.view === "slo") await sloView(placeOf(overview, route), route.span, overview, signal, put);
    else if (route.view === "month") await monthView(placeOf(overview, route), route.month, signal, put);
    else throw new Error("this address names no place of the page");
  } catch (fault) {
    if (!signal.aborted) tellFault(fault);
  }
}

/**
 * Keeps in the address what the overview's controls say.
 * @param {import("./routes.js").Filter} filter
 */
function keepFilter(filter) {
  route = { view: "overview", filter: { ...filter } };
  overviewHash = overviewPlace(filter);
  history.replaceState(null, "", overviewHash);
}

/** What has the focus, so that the same stands under it once the table was made anew. */
function focusedLink() {
  const active = document.activeElement;
  return active instanceof HTMLElement && main.contains(active) ? (active.getAttribute("href") ?? active.id) : "";
}

/** @param {string} mark an address or an id */
function focusAgain(mark) {
  if (!mark) return;
  const isMarked = (/** @type {Element} */ each) => each.getAttribute("href") === mark || each.id === mark;
  const found = [...main.querySelectorAll("a, input, select")].find(isMarked);
  if (found instanceof HTMLElement) found.focus({ preventScroll: true });
}

/**
 * Reads the overview; where the place is the overview it is shown anew.
 * @param {boolean} isAsked whether somebody asks, else only what is new is shown
 */
async function refresh(isAsked = false) {
  let next = RETRY;
  try {
    const told = await readOverview();
    const isNew = told.second !== overview?.second;
    const isFirst = overview === null;
    overview = told;
    next = told.every;
    noticesLink.textContent = `Alerts (${openOnes(told).length.toLocaleString("en")} open)`;
    if (isFirst || isAsked || (isNew && route.view === "overview")) {
      const mark = focusedLink();
      await show();
      if (route.view === "overview") focusAgain(mark);
    } else if (route.view === "overview") sayAge(told);
  } catch (fault) {
    const text = `The overview can't be read: ${fault instanceof Error ? fault.message : fault}`;
    say(text, "bad");
    if (!overview) {
      const trouble = element("p", { class: "trouble" }, `${text}. `, againButton());
      put([heading(), trouble]);
    }
  }
  clearTimeout(timer);
  timer = setTimeout(refresh, next * 1000);
}

let timer = 0;

/** Takes the place from the address, and marks it where a link of the head leads there. */
function takeRoute() {
  route = readRoute(location.hash);
  if (route.view === "overview") overviewHash = location.hash || OVERVIEW;
  for (const link of document.querySelectorAll("header nav a")) {
    const { view } = readRoute(link.getAttribute("href") ?? "");
    if (view === route.view) link.setAttribute("aria-current", "page");
    else link.removeAttribute("aria-current");
  }
}

/** Names the place in the title, as tabs and the history show it. */
function titlePlace() {
  const heading = main.querySelector("h1")?.textContent ?? TITLE;
  document.title = heading === TITLE ? TITLE : `${heading} · ${TITLE}`;
}

async function routed() {
  if (route.view === "slo") opened = sloPlace(route.office, route.slo, route.objective);
  takeRoute();
  const shown = show();
  window.scrollTo(0, 0);
  if (route.view === "overview" && opened) {
    await shown;
    const link = [...main.querySelectorAll(".overview a")].find((each) => each.getAttribute("href") === opened);
    if (link instanceof HTMLElement) link.focus();
  } else {
    main.querySelector("h1")?.focus();
  }
}

/** @param {KeyboardEvent} event */
function escaped(event) {
  if (event.key !== "Escape" || route.view === "overview") return;
  location.hash = route.view === "month" ? sloPlace(route.office, route.slo, route.objective) : overviewHash;
}

document.getElementById("skip")?.addEventListener("click", (event) => {
  event.preventDefault();
  main.focus();
});
document.addEventListener("keydown", escaped);
window.addEventListener("hashchange", () => void routed());
dark.addEventListener("change", () => void show());
takeRoute();
say("Loading the overview …", "busy");
await refresh();
