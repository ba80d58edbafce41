/**
 * The places of the page, as they stand behind the `#` of its address.
 * @module
 */

/** @typedef {{year: number, month: number}} Month a month counts from 1 */
/** @typedef {{words: string, service: string, office: string, state: string, group: string}} Filter */
/** @typedef {{range: string, from: string, to: string}} Span a range's name, or two dates */
/**
 * @typedef {{view: "overview", filter: Filter} | {view: "notices"} | {view: "unknown"}
 *   | {view: "slo", office: string, slo: string, objective: number, span: Span}
 *   | {view: "month", office: string, slo: string, objective: number, month: Month?}} Route
 */

export const OVERVIEW = "#/";
export const NOTICES = "#/notices";
/** @type {Filter} */
export const NO_FILTER = { words: "", service: "", office: "", state: "", group: "" };

/**
 * @param {string} hash
 * @returns {Route}
 */
export function readRoute(hash) {
  const [path, query = ""] = cut(hash.replace(/^#?\/?/, ""));
  const keys = new URLSearchParams(query);
  const of = (/** @type {string} */ key) => keys.get(key) ?? "";
  let parts;
  try {
    parts = path.split("/").map(decodeURIComponent);
  } catch {
    return { view: "unknown" };
  }
  const [office, slo, number = "0", word, month] = parts;
  if (parts.length === 1) {
    const [words, service, state, group] = ["words", "service", "state", "group"].map(of);
    const filter = { words, service, office: of("office"), state, group };
    if (office === "") return { view: "overview", filter };
    return { view: office === "notices" ? "notices" : "unknown" };
  }
  if (!/^\d+$/.test(number) || (word ?? "month") !== "month") return { view: "unknown" };
  const place = { office, slo, objective: Number(number) };
  if (word) return { view: "month", ...place, month: readMonth(month ?? "") };
  return { view: "slo", ...place, span: { range: of("range"), from: of("from"), to: of("to") } };
}

/** @param {string} text */
function cut(text) {
  const at = text.indexOf("?");
  return at < 0 ? [text] : [text.slice(0, at), text.slice(at + 1)];
}

/**
 * @param {string} text as `2026-11`
 * @returns {Month?} null is the present one
 */
export function readMonth(text) {
  const found = /^(\d{4})-(0[1-9]|1[0-2])$/.exec(text);
  return found && { year: Number(found[1]), month: Number(found[2]) };
}

/** @param {Month} month */
export const spellMonth = ({ year, month }) => `${year}-${`${month}`.padStart(2, "0")}`;

/** @param {Record<string, string>} keys those without a value are left out */
function queryOf(keys) {
  const query = `${new URLSearchParams(Object.entries(keys).filter(([, value]) => value))}`;
  return query ? `?${query}` : "";
}

/** @param {Partial<Filter>} filter */
export const overviewPlace = (filter) => `${OVERVIEW}${queryOf(filter)}`;

/**
 * @param {string} office
 * @param {string} slo
 * @param {number} objective
 * @param {Partial<Span>} span
 */
export function sloPlace(office, slo, objective = 0, span = {}) {
  const place = `#/${encodeURIComponent(office)}/${encodeURIComponent(slo)}`;
  return `${objective ? `${place}/${objective}` : place}${queryOf(span)}`;
}

/**
 * @param {string} office
 * @param {string} slo
 * @param {number} objective
 * @param {Month} [month]
 */
export function monthPlace(office, slo, objective, month) {
  const place = `#/${encodeURIComponent(office)}/${encodeURIComponent(slo)}/${objective}/month`;
  return month ? `${place}/${spellMonth(month)}` : place;
}
