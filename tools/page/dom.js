/**
 * Elements of the page. Texts are set as texts, so nothing that an office tells becomes markup.
 * @module
 */

/**
 * @typedef {Node | string | number | null} Child
 */

/**
 * @param {string} name
 * @param {Record<string, string | number | boolean | null>} attributes null leaves one out
 * @param {...Child} children
 * @returns {HTMLElement}
 */
export function element(name, attributes = {}, ...children) {
  const made = document.createElement(name);
  for (const [key, value] of Object.entries(attributes)) {
    if (value !== null && value !== false) made.setAttribute(key, value === true ? "" : `${value}`);
  }
  made.append(...present(children).map((child) => (typeof child === "number" ? `${child}` : child)));
  return made;
}

/**
 * The list without what isn't there.
 * @template T
 * @param {(T | null)[]} list
 * @returns {T[]}
 */
export function present(list) {
  return /** @type {T[]} */ (list.filter((each) => each !== null));
}

/**
 * A table with a caption and headers. Roles are named, since narrow screens show rows as blocks.
 * @param {{caption: string, classes?: string, headers: string[], rows: HTMLElement[], hasHint?: boolean}} parts
 * @returns {HTMLElement}
 */
export function table({ rows, ...parts }) {
  return tableOf({ ...parts, bodies: [element("tbody", { role: "rowgroup" }, ...rows)] });
}

/**
 * The same around bodies that stand already.
 * @param {{caption: string, classes?: string, headers: string[], bodies: HTMLElement[], hasHint?: boolean}} parts
 * @returns {HTMLElement}
 */
export function tableOf({ caption, classes = "", headers, bodies, hasHint = false }) {
  const heads = headers.map((text) => element("th", { scope: "col", role: "columnheader" }, text));
  return element(
    "table",
    { class: classes, role: "table" },
    element("caption", {}, caption, hasHint ? keysHint() : null),
    element("thead", { role: "rowgroup" }, element("tr", { role: "row" }, ...heads)),
    ...bodies,
  );
}

/**
 * A row whose first cell heads it.
 * @param {string[]} headers those of the table, which narrow screens show beside the cells
 * @param {Child[]} cells
 * @returns {HTMLElement}
 */
export function row(headers, cells) {
  const [head, ...rest] = cells;
  return element(
    "tr",
    { role: "row" },
    element("th", { scope: "row", role: "rowheader" }, head),
    ...rest.map((cell, index) => element("td", { role: "cell", "data-head": headers[index + 1] }, cell)),
  );
}

/** What the arrow keys do in a table of numbers, which paper doesn't tell. */
export const keysHint = () =>
  element("span", { class: "keys" }, " Arrow keys move to the numbers, which show their exact fraction.");

/**
 * A part of the page under a heading.
 * @param {string} heading
 * @param {...Child} children
 */
export function section(heading, ...children) {
  return element("section", {}, element("h2", {}, heading), ...children);
}

/**
 * Something that opens on demand.
 * @param {string} summary
 * @param {...Child} children
 */
export function details(summary, ...children) {
  return element("details", {}, element("summary", {}, summary), ...children);
}

const status = /** @type {HTMLElement} */ (document.getElementById("status"));

/**
 * Says how the page stands; screen readers tell it too.
 * @param {string} text
 * @param {"well" | "busy" | "bad"} mood
 */
export function say(text, mood = "well") {
  if (status.textContent !== text) status.textContent = text;
  status.dataset.mood = mood;
}
