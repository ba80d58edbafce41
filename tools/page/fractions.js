/**
 * Exact fractions, as the office gives them: texts `num/den` of any length.
 * @module
 */

/**
 * A fraction in lowest terms; `den` is above 0.
 * @typedef {{readonly num: bigint, readonly den: bigint}} Fraction
 */

/**
 * @param {bigint} a
 * @param {bigint} b
 * @returns {bigint}
 */
function greatestDivisor(a, b) {
  while (b) [a, b] = [b, a % b];
  return a < 0n ? -a : a;
}

/**
 * @param {bigint | number} num
 * @param {bigint | number} den above 0
 * @returns {Fraction}
 */
export function fraction(num, den) {
  const [n, d] = [BigInt(num), BigInt(den)];
  const divisor = greatestDivisor(n, d);
  return { num: n / divisor, den: d / divisor };
}

export const ONE = fraction(1, 1);
export const ZERO = fraction(0, 1);

/**
 * Reads `num/den`.
 * @param {string | null} text
 * @returns {Fraction | null} null where there is none
 */
export function readFraction(text) {
  if (text === null) return null;
  const [num, den] = text.split("/");
  return fraction(BigInt(num), BigInt(den));
}

/**
 * Reads a target as it was written: `0.999` or `99.9%`.
 * @param {string} text
 * @returns {Fraction}
 */
export function readTarget(text) {
  const isPercent = text.endsWith("%");
  const [whole, part = ""] = text.replace("%", "").split(".");
  return fraction(BigInt(whole + part), 10n ** BigInt(part.length + (isPercent ? 2 : 0)));
}

/**
 * @param {Fraction} a
 * @param {Fraction} b
 */
export const subtract = (a, b) => fraction(a.num * b.den - b.num * a.den, a.den * b.den);

/**
 * @param {Fraction} a
 * @param {Fraction} b
 */
export const multiply = (a, b) => fraction(a.num * b.num, a.den * b.den);

/**
 * @param {Fraction} a
 * @param {Fraction} b above 0
 */
export const divide = (a, b) => fraction(a.num * b.den, a.den * b.num);

/**
 * Below 0 where a is less than b, above 0 where it is greater.
 * @param {Fraction} a
 * @param {Fraction} b
 */
export function compare(a, b) {
  const difference = a.num * b.den - b.num * a.den;
  return difference < 0n ? -1 : difference > 0n ? 1 : 0;
}

/** @param {Fraction} value */
export const spell = (value) => `${value.num}/${value.den}`;

/**
 * The nearest number to draw with.
 * @param {Fraction} value
 */
export function toNumber(value) {
  const scale = 10n ** 12n;
  return Number((value.num * scale) / value.den) / Number(scale);
}

/**
 * The greatest decimal of so many digits that isn't above the value.
 * @param {Fraction} value
 * @param {number} digits
 */
export function roundedDown(value, digits) {
  const scaled = value.num * 10n ** BigInt(digits);
  const down = scaled / value.den - (scaled % value.den < 0n ? 1n : 0n);
  return withPoint(down, digits);
}

/**
 * The nearest decimal of so many digits, of two the greater one.
 * @param {Fraction} value
 * @param {number} digits
 */
export function rounded(value, digits) {
  const half = fraction(1n, 2n * 10n ** BigInt(digits));
  return roundedDown(fraction(value.num * half.den + half.num * value.den, value.den * half.den), digits);
}

/**
 * @param {bigint} scaled
 * @param {number} digits
 */
function withPoint(scaled, digits) {
  const text = (scaled < 0n ? -scaled : scaled).toString().padStart(digits + 1, "0");
  const whole = text.slice(0, text.length - digits).replace(/\B(?=(\d{3})+$)/g, ",");
  const part = digits ? `.${text.slice(-digits)}` : "";
  return `${scaled < 0n ? "−" : ""}${whole}${part}`;
}

/**
 * A part of a whole in percent, never more than there is.
 * @param {Fraction} value
 * @param {number} digits
 */
export function percent(value, digits = 1) {
  const hundredfold = multiply(value, fraction(100, 1));
  return `${roundedDown(hundredfold, hundredfold.den === 1n ? 0 : digits)} %`;
}

/**
 * What is left of a budget, never more than there is; one that was spent twice or more is told by
 * how often.
 * @param {Fraction} value
 */
export function leftText(value) {
  if (compare(value, fraction(-1, 1)) > 0) return percent(value);
  const times = subtract(value, ONE);
  const digits = times.den === 1n || compare(times, fraction(-100, 1)) < 0 ? 0 : 1;
  return `spent ${roundedDown(times, digits).replace("−", "")}×`;
}

/**
 * A burn rate, with as many digits as one reads.
 * @param {Fraction} value at least 0
 */
export function burnText(value) {
  if (value.num === 0n) return "0";
  if (compare(value, fraction(1, 100)) < 0) return "< 0.01";
  const digits = compare(value, fraction(10, 1)) < 0 ? 2 : compare(value, fraction(100, 1)) < 0 ? 1 : 0;
  return rounded(value, digits);
}
