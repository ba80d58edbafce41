/**
 * Which rows of the overview are shown, in which groups: kept in the page's address.
 * @module
 */

import { element, present } from "./dom.js";
import { STATES } from "./states.js";

/** @typedef {import("./overview.js").Line} Line */
/** @typedef {import("./routes.js").Filter} Filter */
/** @typedef {{line: Line, row: HTMLElement, search: string}} Row */
/** @typedef {{body: HTMLElement, rows: Row[], shown: number}} Piece `shown` of them are shown */
/** @typedef {{head: HTMLElement?, count: HTMLElement?, pieces: Piece[]}} Group */

// Rows that fill a screen.
const PIECE = 20;
let turn = 0;

/** @type {Record<string, {words: string, of: (line: Line) => string, name: (line: Line) => string}>} */
const KINDS = {
  service: { words: "service", of: ({ slo }) => slo.service, name: ({ slo }) => slo.service_display },
  office: { words: "office", of: ({ office }) => office.name, name: ({ office }) => office.name },
  state: { words: "state", of: ({ state }) => state.name, name: ({ state }) => state.words },
};

/**
 * @param {Line} line
 * @param {Filter} filter
 * @param {string} search what its row says
 * @param {string[]} words
 */
function isShown(line, filter, search, words) {
  for (const kind of /** @type {("service" | "office" | "state")[]} */ (Object.keys(KINDS))) {
    if (filter[kind] && KINDS[kind].of(line) !== filter[kind]) return false;
  }
  return words.every((word) => search.includes(word));
}

/**
 * The rows in groups, each under a head; one without a head where nothing groups them.
 * @param {Row[]} rows
 * @param {string} by
 * @param {number} columns
 * @returns {Group[]}
 */
function groupsOf(rows, by, columns) {
  /** @type {Map<string, Row[]>} */
  const found = new Map();
  const kind = Object.hasOwn(KINDS, by) ? KINDS[by] : null;
  for (const each of rows) {
    const key = kind ? kind.of(each.line) : "";
    const known = found.get(key);
    if (known) known.push(each);
    else found.set(key, [each]);
  }
  return [...found.values()].map((members) => {
    if (!kind) return { head: null, count: null, pieces: piecesOf(members) };
    const count = element("span");
    const name = kind.name(members[0].line);
    const cell = element("th", { scope: "rowgroup", role: "rowheader", colspan: columns }, name, " ", count);
    const head = element("tbody", { role: "rowgroup" }, element("tr", { role: "row", class: "group" }, cell));
    return { head, count, pieces: piecesOf(members) };
  });
}

/**
 * Bodies of a few rows each: what isn't in sight is laid out by the body, not by the row.
 * @param {Row[]} rows
 * @returns {Piece[]}
 */
function piecesOf(rows) {
  return Array.from({ length: Math.ceil(rows.length / PIECE) }, (_, index) => {
    const part = rows.slice(index * PIECE, (index + 1) * PIECE);
    const body = element("tbody", { role: "rowgroup", class: "piece" }, ...part.map(({ row }) => row));
    return { rows: part, body, shown: part.length };
  });
}

/**
 * Shows the pieces that have more rows again, a screen in each frame, so that what is in sight comes at once.
 * @param {Piece[]} pieces
 */
function showAgain(pieces) {
  const again = pieces.filter(({ body, shown }) => shown && body.classList.contains("empty"));
  const mine = (turn += 1);
  const next = () => {
    // Another filter has its own pieces to show.
    if (mine !== turn) return;
    for (let rows = 0; rows < PIECE && again.length; ) {
      const piece = again.shift();
      piece?.body.classList.remove("empty");
      rows += piece?.shown ?? 0;
    }
    if (again.length) requestAnimationFrame(next);
  };
  next();
}

/**
 * Shows of a piece what the filter lets through.
 * @param {Piece} piece
 * @param {Filter} filter
 * @param {string[]} words
 * @returns {number} how many rows
 */
function applyTo(piece, filter, words) {
  const { body, rows } = piece;
  let shown = 0;
  for (const { line, row, search } of rows) {
    const isSeen = isShown(line, filter, search, words);
    if (row.hidden === isSeen) row.hidden = !isSeen;
    if (isSeen) shown += 1;
  }
  if (!shown || shown > piece.shown) body.classList.add("empty");
  piece.shown = shown;
  body.style.setProperty("--rows", `${shown}`);
  return shown;
}

/**
 * @param {string} id
 * @param {string} label
 * @param {[string, string][]} options values and names
 * @param {string} value
 */
function choice(id, label, options, value) {
  const select = /** @type {HTMLSelectElement} */ (
    element("select", { id }, ...options.map(([each, name]) => element("option", { value: each }, name)))
  );
  // What the address names and no row has is a choice too: it shows nothing.
  if (!options.some(([each]) => each === value)) select.append(element("option", { value }, value));
  select.value = value;
  return { select, part: element("span", { class: "choice" }, element("label", { for: id }, `${label} `), select) };
}

/**
 * @param {Row[]} rows
 * @param {"service" | "office" | "state"} kind
 * @returns {[string, string][]}
 */
function valuesOf(rows, kind) {
  const { of, name } = KINDS[kind];
  const found = new Map(rows.map(({ line }) => [of(line), name(line)]));
  const order = (/** @type {[string, string]} */ [value, text]) =>
    kind === "state" ? `${STATES.findIndex((each) => each.name === value)}`.padStart(2, "0") : text;
  return [...found].sort((a, b) => (order(a) < order(b) ? -1 : 1));
}

/**
 * Fills a table with the rows, and gives the controls that filter and group them.
 * @param {HTMLElement} table
 * @param {Row[]} rows
 * @param {Filter} filter
 * @param {number} columns
 * @param {(filter: Filter) => void} kept
 */
export function filtered(table, rows, filter, columns, kept) {
  const now = { ...filter };
  const count = element("output", { for: "filter" });
  /** @type {Group[]} */
  let groups = [];
  const bodiesOf = (/** @type {Group} */ { head, pieces }) => [head, ...pieces.map(({ body }) => body)];
  const group = () => {
    for (const body of groups.flatMap(bodiesOf)) body?.remove();
    groups = groupsOf(rows, now.group, columns);
    table.append(...present(groups.flatMap(bodiesOf)));
  };
  const apply = () => {
    const words = now.words.toLowerCase().split(/\s+/);
    let all = 0;
    for (const { head, count: told, pieces } of groups) {
      const shown = pieces.reduce((sum, piece) => sum + applyTo(piece, now, words), 0);
      all += shown;
      if (head && told) {
        told.textContent = `(${shown})`;
        head.hidden = !shown;
      }
    }
    showAgain(groups.flatMap(({ pieces }) => pieces));
    count.textContent = `${all} of ${rows.length}`;
  };
  group();
  apply();
  const changed = () => {
    apply();
    kept(now);
  };
  return controls(rows, now, count, changed, group);
}

/**
 * @param {Row[]} rows
 * @param {Filter} now which the controls change
 * @param {HTMLElement} count
 * @param {() => void} changed
 * @param {() => void} group
 */
function controls(rows, now, count, changed, group) {
  const input = /** @type {HTMLInputElement} */ (
    element("input", { id: "filter", type: "search", autocomplete: "off", value: now.words })
  );
  input.addEventListener("input", () => {
    now.words = input.value;
    changed();
  });
  const kinds = /** @type {("service" | "office" | "state")[]} */ (["service", "office", "state"]);
  const choices = kinds.map((kind) => {
    const values = valuesOf(rows, kind);
    if (values.length < 2 && !now[kind]) return null;
    const made = choice(`filter-${kind}`, KINDS[kind].words, [["", "all"], ...values], now[kind]);
    made.select.addEventListener("change", () => {
      now[kind] = made.select.value;
      changed();
    });
    return made.part;
  });
  /** @type {[string, string][]} */
  const groupings = [["", "nothing"], ["service", "service"], ["office", "office"], ["state", "state"]];
  const grouped = choice("group", "in groups by", groupings, now.group);
  grouped.select.addEventListener("change", () => {
    now.group = grouped.select.value;
    group();
    changed();
  });
  const words = element("span", { class: "choice words" }, element("label", { for: "filter" }, "Show only "), input);
  return element("p", { class: "filter" }, words, ...present(choices), grouped.part, count);
}
