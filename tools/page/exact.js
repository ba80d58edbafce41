/**
 * Numbers that show their exact fraction: under the pointer, and with the keyboard, which reaches
 * them by the arrow keys from any link or number of their table.
 * @module
 */

import { element } from "./dom.js";

const MARGIN = 8;
const tip = element("div", { id: "exact", role: "tooltip", hidden: true });
document.body.append(tip);

/**
 * @param {string} text as one reads it
 * @param {string} exact the exact value with its meaning
 * @param {boolean} isReached whether the tabulator stops here too
 * @returns {HTMLElement}
 */
export function exactNumber(text, exact, isReached = false) {
  return element("span", { class: "number", tabindex: isReached ? 0 : -1, "data-exact": exact }, text);
}

/** @param {EventTarget?} target */
function numberAt(target) {
  return target instanceof Element ? /** @type {HTMLElement?} */ (target.closest("[data-exact]")) : null;
}

/** @param {HTMLElement} number */
function show(number) {
  tip.textContent = number.dataset.exact ?? "";
  tip.hidden = false;
  const at = number.getBoundingClientRect();
  const left = Math.min(at.left, document.documentElement.clientWidth - tip.offsetWidth - MARGIN);
  const isAbove = at.bottom + tip.offsetHeight + MARGIN > window.innerHeight;
  tip.style.left = `${Math.max(MARGIN, left)}px`;
  tip.style.top = `${isAbove ? at.top - tip.offsetHeight - 4 : at.bottom + 4}px`;
  number.setAttribute("aria-describedby", "exact");
}

function hide() {
  tip.hidden = true;
  document.querySelector("[aria-describedby=exact]")?.removeAttribute("aria-describedby");
}

/** @param {Event} event */
function changed(event) {
  const number = numberAt(event.target);
  hide();
  if (number) show(number);
}

const STEPS = { ArrowLeft: [0, -1], ArrowRight: [0, 1], ArrowUp: [-1, 0], ArrowDown: [1, 0] };

/** @param {KeyboardEvent} event */
function moved(event) {
  if (!(event.key in STEPS) || !(event.target instanceof HTMLElement)) return;
  const inside = event.target.closest("table");
  if (!inside || event.altKey || event.ctrlKey || event.metaKey) return;
  const rows = [...inside.querySelectorAll("tr")]
    .map((each) => /** @type {HTMLElement[]} */ ([...each.querySelectorAll("a, [data-exact]")]))
    .filter((each) => each.length);
  const from = rows.findIndex((each) => each.includes(/** @type {HTMLElement} */ (event.target)));
  if (from < 0) return;
  const [down, right] = STEPS[/** @type {keyof typeof STEPS} */ (event.key)];
  const column = rows[from].indexOf(event.target) + right;
  const line = rows[from + down];
  const next = line?.[Math.min(column, down ? line.length - 1 : column)];
  if (!next) return;
  event.preventDefault();
  next.focus();
}

for (const name of ["focusin", "pointerover"]) document.addEventListener(name, changed);
document.addEventListener("focusout", hide);
window.addEventListener("scroll", hide, { passive: true });
document.addEventListener("keydown", moved);
