/**
 * Minutes since 1970-01-01T00:00Z as dates in a time zone.
 * @module
 */

export const HOUR = 60;
export const DAY = 1440;

/**
 * @typedef {{year: number, month: number, day: number}} CivilDate a month counts from 1
 */

/** A time zone that this browser knows, or UTC in its place. */
export class Zone {
  /** @param {string} name as the office knows it */
  constructor(name) {
    this.name = name;
    this.isKnown = true;
    try {
      this.format = Zone.formatOf(name);
    } catch {
      this.isKnown = false;
      this.format = Zone.formatOf("UTC");
    }
    const timeZone = this.format.resolvedOptions().timeZone;
    this.fullFormat = new Intl.DateTimeFormat("en-GB", {
      timeZone,
      day: "numeric",
      month: "short",
      year: "numeric",
      hour: "2-digit",
      minute: "2-digit",
      hourCycle: "h23",
      timeZoneName: "short",
    });
    this.dayFormat = new Intl.DateTimeFormat("en-GB", { timeZone, day: "numeric", month: "short" });
    /** @type {Intl.DateTimeFormatOptions} */
    const time = { timeZone, hour: "2-digit", minute: "2-digit", hourCycle: "h23" };
    this.timeFormat = new Intl.DateTimeFormat("en-GB", time);
    this.zonedFormat = new Intl.DateTimeFormat("en-GB", { ...time, timeZoneName: "short" });
  }

  /** @param {string} timeZone */
  static formatOf(timeZone) {
    return new Intl.DateTimeFormat("en-GB", {
      timeZone,
      year: "numeric",
      month: "numeric",
      day: "numeric",
      hour: "numeric",
      minute: "numeric",
      hourCycle: "h23",
    });
  }

  /** What a reader is to know of it. */
  get label() {
    return this.isKnown ? this.name : `UTC, since this browser doesn't know the zone ${this.name}`;
  }

  /**
   * @param {number} minute
   * @returns {string} as `29 Nov 2026, 14:20 CET`
   */
  full(minute) {
    return this.fullFormat.format(minute * 60_000);
  }

  /** @param {number} minute */
  dayAndMonth(minute) {
    return this.dayFormat.format(minute * 60_000);
  }

  /** @param {number} minute */
  time(minute) {
    return this.timeFormat.format(minute * 60_000);
  }

  /**
   * @param {number} minute
   * @returns {string} as `14:20 CET`
   */
  zonedTime(minute) {
    return this.zonedFormat.format(minute * 60_000);
  }

  /**
   * The zone's civil time at a minute, as if it were one of UTC.
   * @param {number} minute
   */
  civil(minute) {
    /** @type {Record<string, number>} */
    const parts = {};
    for (const part of this.format.formatToParts(minute * 60_000)) parts[part.type] = Number(part.value);
    return Date.UTC(parts.year, parts.month - 1, parts.day, parts.hour, parts.minute) / 60_000;
  }

  /**
   * @param {number} minute
   * @returns {CivilDate}
   */
  dateOf(minute) {
    const date = new Date(this.civil(minute) * 60_000);
    return { year: date.getUTCFullYear(), month: date.getUTCMonth() + 1, day: date.getUTCDate() };
  }

  /**
   * The minute at which a day begins.
   * @param {CivilDate} date days and months may lie outside their range
   */
  startOf(date) {
    return this.minuteAt(Date.UTC(date.year, date.month - 1, date.day) / 60_000);
  }

  /**
   * The minute of a civil time; where it stands twice the earlier one, where the clock passes over
   * it the first minute behind.
   * @param {number} civil as if it were one of UTC
   */
  minuteAt(civil) {
    const before = civil - (this.civil(civil - DAY) - (civil - DAY));
    const after = civil - (this.civil(civil + DAY) - (civil + DAY));
    const found = [before, after].filter((minute) => this.civil(minute) === civil);
    return found.length ? Math.min(...found) : before;
  }

  /**
   * @param {number} minute
   * @returns {string} its civil time as `2026-11-29T14:20`
   */
  spelled(minute) {
    return new Date(this.civil(minute) * 60_000).toISOString().slice(0, 16);
  }

  /**
   * @param {string} text as `2026-11-29T14:20`
   * @returns {number?} its minute, null where it is no date
   */
  read(text) {
    const time = /^\d{4}-\d\d-\d\dT\d\d:\d\d$/.test(text) ? Date.parse(`${text}Z`) : NaN;
    return Number.isNaN(time) ? null : this.minuteAt(time / 60_000);
  }
}

/** @type {Map<string, Zone>} */
const zones = new Map();

/**
 * @param {string} name
 * @returns {Zone}
 */
export function zoneOf(name) {
  let zone = zones.get(name);
  if (!zone) zones.set(name, (zone = new Zone(name)));
  return zone;
}

/**
 * A length of time in words.
 * @param {number} minutes
 */
export function spanText(minutes) {
  if (minutes < 2 * HOUR) return `${minutes} min`;
  if (minutes < 2 * DAY) return `${Math.floor(minutes / HOUR)} h`;
  return `${Math.floor(minutes / DAY)} d`;
}
