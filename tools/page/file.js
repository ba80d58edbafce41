/**
 * The file `overview.json`, which slo-notify writes each minute (tools/OVERVIEW.md).
 * @module
 */

/**
 * `op` is OpenSLO's word, lookbacks are minutes.
 * @typedef {{lookback: number, short: number?, op: string, burn: string}} TermEntry
 */
/**
 * What an older slo-notify doesn't tell is undefined.
 * @typedef {{
 *   policy: string, severity: string, state: string, since: number?, tells?: boolean,
 *   runbook?: string?, terms?: TermEntry[],
 * }} AlertEntry
 */
/** @typedef {{to: number, step: number, burns: (number | null)[]}} TrendEntry */
/**
 * @typedef {{
 *   number: number, display: string, target: string, from: number?, num: number?, den: number?,
 *   error: string?, burn: string?, remaining: string?, burns: Record<string, string?>,
 *   age: number?, stale: boolean, state: string, alerts: AlertEntry[], slice?: number,
 *   trend?: TrendEntry?,
 * }} ObjectiveEntry
 */
/** @typedef {{duration: string, rolling: boolean, start: string?, zone: string}} WindowEntry */
/**
 * @typedef {{
 *   name: string, display: string, service: string, service_display: string, description: string,
 *   indicator: string, method: string, window: WindowEntry, fault: string?, objectives: ObjectiveEntry[],
 *   owner?: string?, runbook?: string?,
 * }} SloEntry
 */
/**
 * @typedef {{
 *   name: string, path: string, up: boolean, fault: string?, at: number?, origin: number?,
 *   entries: number?, usage: Record<string, [number, number]>?, slos: SloEntry[],
 * }} OfficeEntry
 */
/**
 * @typedef {{
 *   clock: string?, receiver: string, receiver_fault: string?, waiting: number, link?: string?,
 * }} NotifyEntry
 */
/**
 * @typedef {{
 *   version: number, written: number, second: number, every: number, notify: NotifyEntry,
 *   offices: OfficeEntry[],
 * }} Overview
 */

const ADDRESS = "overview.json";
const KNOWN_VERSION = 1;
// After so many writings that didn't come the file is old.
const LATE = 3;

/**
 * Reads the file. Throws an Error whose message says why there is none.
 * @returns {Promise<Overview>}
 */
export async function readOverview() {
  let answer;
  try {
    answer = await fetch(ADDRESS, { cache: "no-store" });
  } catch {
    throw new Error("the web server doesn't answer");
  }
  if (!answer.ok) throw new Error(`the web server answers ${answer.status}: does slo-notify write it?`);
  let overview;
  try {
    overview = await answer.json();
  } catch {
    throw new Error("it isn't JSON");
  }
  if (overview.version !== KNOWN_VERSION) throw new Error(`its version ${overview.version} isn't known`);
  return overview;
}

/**
 * The seconds since the file was written, by this machine's clock.
 * @param {Overview} overview
 */
export const ageOf = (overview) => Math.max(0, Math.round(Date.now() / 1000) - overview.second);

/** @param {Overview} overview */
export const isOld = (overview) => ageOf(overview) > LATE * overview.every;
