/**
 * An office, asked through the web server on the page's own origin (docs/api.md). Only questions
 * are asked here; nothing is changed.
 * @module
 */

const AT_ONCE = 3;
const PATIENCE = 20_000;
const LONGEST_LOOKBACK = 43_200;
const LONGEST_TIMELINE = 44_640;
// Cuts lie on whole hours, where every slice begins.
const HOUR = 60;

/** @typedef {{num: number, den: number}} Sum good and total */
/** @typedef {{from: number, num: number, den: number, burn: string?, remaining: string?, error: string?}} Budget */
/** @typedef {{from: number, to: number, id: string, live: boolean, slo: string}} Exclusion */
/** @typedef {{from: number, to: number?, budgets: Budget[]}} ClosedWindow */
/** @typedef {{at: number, number: number, slo: string, objective: number, policy: string, state: string}} Notice */

/** An answer other than 200, or none. */
export class OfficeFault extends Error {
  /**
   * @param {string} text
   * @param {number} status 0 where no answer came
   * @param {string} word the office's own word for it
   */
  constructor(text, status, word) {
    super(text);
    this.status = status;
    this.word = word;
  }
}

/** Lets few questions through at once, so that the office's workers stay free for others. */
class Turnstile {
  constructor() {
    this.inside = 0;
    /** @type {(() => void)[]} */
    this.waiting = [];
  }

  async enter() {
    if (this.inside < AT_ONCE) this.inside += 1;
    else await new Promise((/** @type {(value: void) => void} */ go) => this.waiting.push(() => go()));
  }

  leave() {
    const next = this.waiting.shift();
    if (next) next();
    else this.inside -= 1;
  }
}

const turnstile = new Turnstile();

export class Office {
  /**
   * @param {import("./file.js").OfficeEntry} entry
   * @param {AbortSignal} signal ends what is still under way
   */
  constructor({ path, usage, origin }, signal) {
    this.path = path;
    // Whether this version answers `GET /status`, and with it the questions for sums, windows and
    // exclusions; others aren't asked for these in vain.
    this.hasStatus = usage !== null;
    // The first minute of the history: nothing can be asked for one before it.
    this.origin = origin ?? Infinity;
    this.signal = signal;
    this.asked = 0;
  }

  /**
   * @param {(string | number)[]} parts
   * @param {Record<string, string | number>} keys
   * @returns {Promise<Response>}
   */
  async answer(parts, keys = {}) {
    const query = new URLSearchParams(Object.entries(keys).map(([key, value]) => [key, `${value}`]));
    const route = parts.map((part) => encodeURIComponent(part)).join("/");
    const address = `${this.path}${route}${Object.keys(keys).length ? `?${query}` : ""}`;
    await turnstile.enter();
    const ends = new AbortController();
    const end = () => ends.abort();
    const timer = setTimeout(end, PATIENCE);
    this.signal.addEventListener("abort", end);
    try {
      this.signal.throwIfAborted();
      this.asked += 1;
      const answer = await fetch(address, { signal: ends.signal, cache: "no-store" });
      if (answer.ok) return answer;
      throw await faultOf(answer);
    } catch (fault) {
      if (fault instanceof OfficeFault || this.signal.aborted) throw fault;
      throw new OfficeFault("the office doesn't answer", 0, "");
    } finally {
      clearTimeout(timer);
      this.signal.removeEventListener("abort", end);
      turnstile.leave();
    }
  }

  /**
   * @param {(string | number)[]} parts
   * @param {Record<string, string | number>} keys
   * @returns {Promise<any>}
   */
  async ask(parts, keys = {}) {
    return (await this.answer(parts, keys)).json();
  }

  /**
   * The text of an object as the office writes it.
   * @param {string} kind
   * @param {string} name
   */
  async objectText(kind, name) {
    return (await this.answer(["objects", kind, name])).text();
  }

  /**
   * The budgets of an SLO's objectives at a minute of the history.
   * @param {string} slo
   * @param {number} at
   * @returns {Promise<Budget[]>}
   */
  async budgets(slo, at) {
    return (await this.ask(["budgets", slo], { at })).budgets;
  }

  /**
   * Good and total of the minutes from `from` up to `to`: a lookback from there, or several. Before
   * the history there is nothing to ask for.
   * @param {string} slo
   * @param {number} objective
   * @param {number} from
   * @param {number} to above `from`
   * @returns {Promise<Sum>}
   */
  async sum(slo, objective, from, to) {
    const sum = { num: 0, den: 0 };
    for (let end = to; end > from && end > this.origin; ) {
      const begin = end - from <= LONGEST_LOOKBACK ? from : cutBelow(end);
      const { num, den } = await this.ask(["burns", slo, objective], { at: end, lookback: `${end - begin}m` });
      sum.num += num;
      sum.den += den;
      end = begin;
    }
    return sum;
  }

  /**
   * The sums over equal steps from `from`, a minute of the history, on, the last one cut at `to`.
   * @param {string} slo
   * @param {number} objective
   * @param {number} from
   * @param {number} to
   * @param {number} step
   * @returns {Promise<Sum[] | null>} null where this version hasn't the question
   */
  async sums(slo, objective, from, to, step) {
    const told = await this.newer(["sums", slo, objective], { from, to, step });
    return told && told.sums.map((/** @type {[number, number]} */ [num, den]) => ({ num, den }));
  }

  /**
   * The calendar windows that begin from `from` up to `to`.
   * @param {string} slo
   * @param {number} from
   * @param {number} to
   * @returns {Promise<ClosedWindow[] | null>} null where this version hasn't the question
   */
  async windows(slo, from, to) {
    const told = await this.newer(["windows", slo], { from, to });
    return told && told.windows;
  }

  /**
   * The exclusions of an SLO that hold.
   * @param {string} slo
   * @returns {Promise<Exclusion[] | null>} null where this version hasn't the question
   */
  async exclusions(slo) {
    const told = await this.newer(["exclusions"]);
    return told && told.exclusions.filter((/** @type {Exclusion} */ each) => each.slo === slo && each.live);
  }

  /**
   * The intervals in which an alert was active.
   * @param {string} slo
   * @param {number} objective
   * @param {string} policy
   * @param {number} from
   * @param {number} to
   * @returns {Promise<[number, number][]>}
   */
  async alerts(slo, objective, policy, from, to) {
    /** @type {[number, number][]} */
    const found = [];
    for (let begin = Math.max(from, this.origin); begin < to; begin += LONGEST_TIMELINE) {
      const end = Math.min(to, begin + LONGEST_TIMELINE);
      const told = await this.ask(["alerts", slo, objective, policy], { from: begin, to: end });
      for (const [first, after] of told.intervals) {
        const last = found.at(-1);
        if (last && last[1] === first) last[1] = after;
        else found.push([first, after]);
      }
    }
    return found;
  }

  /** @returns {Promise<Notice[]>} the notices that wait, 1,000 at most */
  async notices() {
    return (await this.ask(["notices"])).notices;
  }

  /**
   * Asks for what a version may not have.
   * @param {(string | number)[]} parts
   * @param {Record<string, string | number>} keys
   * @returns {Promise<any>}
   */
  async newer(parts, keys = {}) {
    if (!this.hasStatus) return null;
    try {
      return await this.ask(parts, keys);
    } catch (fault) {
      if (fault instanceof OfficeFault && fault.status === 404) return null;
      throw fault;
    }
  }
}

/**
 * Where a range that is too long for one lookback is cut.
 * @param {number} end
 */
function cutBelow(end) {
  return Math.ceil((end - LONGEST_LOOKBACK) / HOUR) * HOUR;
}

/**
 * @param {Response} answer
 * @returns {Promise<OfficeFault>}
 */
async function faultOf(answer) {
  let word = "";
  try {
    word = (await answer.json()).error ?? "";
  } catch {
    // A proxy's own page.
  }
  return new OfficeFault(`the office answers ${answer.status} ${word}`.trim(), answer.status, word);
}

/**
 * Asks for each of some minutes.
 * @template T
 * @param {number[]} minutes
 * @param {(minute: number) => Promise<T>} ask
 * @param {(done: number) => void} [told]
 * @returns {Promise<Map<number, T>>}
 */
export async function askEach(minutes, ask, told = () => {}) {
  /** @type {Map<number, T>} */
  const found = new Map();
  await Promise.all(
    minutes.map(async (minute) => {
      found.set(minute, await ask(minute));
      told(found.size);
    }),
  );
  return found;
}
