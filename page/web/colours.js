// @ts-check
/** Colours by a property: numbers in classes of about as many features each, texts in categories. */
import { propertyOf } from "./names.js";

/** @typedef {import("./pieces.js").Feature} Feature */
/**
 * A line of a legend. `least` and `greatest` are the numbers of a class.
 * @typedef {{colour: string, kind: "class" | "category" | "other" | "none", label: string, count: number,
 *   least?: number, greatest?: number}} Entry
 */
/** @typedef {{property: string, kind: "numbers" | "texts", legend: Entry[], colourOf: (feature: Feature) => string}} Colouring */

/**
 * From light to dark, so that it is read without telling hues apart.
 * @type {Record<5 | 7, string[]>}
 */
export const SEQUENCES = {
  5: ["#f7f0c6", "#8dd087", "#00a898", "#006b95", "#233066"],
  7: ["#f7f0c6", "#b9da91", "#55c588", "#00a898", "#00809d", "#005686", "#233066"],
};
/** neighbours in this list differ in lightness too */
export const CATEGORIES = ["#ffafae", "#48a4cd", "#efc379", "#49ad8e", "#e9b4f5", "#9c9e4c",
  "#6cdfe5", "#cc845b", "#a6dc9a", "#978dd5", "#a2ccff", "#c97da1"];
const OTHER = "#b8b8b8", NONE = "#f4efe3";

/**
 * Colours for the features by one of their properties. Where no kind is given, a property is of numbers if each feature
 * that has it has a number. `null` is no value.
 * @param {Iterable<Feature>} features
 * @param {string} property
 * @param {{classes?: 5 | 7, kind?: "numbers" | "texts"}} choice
 * @returns {Colouring}
 */
export function colouring(features, property, choice = {}) {
  const { classes = 5, kind } = choice;
  const all = [...features], values = all.map(feature => propertyOf(feature, property)).filter(isValue);
  const isNumbers = kind ? kind === "numbers" : values.length > 0 && values.every(value => typeof value === "number");
  const colours = isNumbers ? byNumbers(values, SEQUENCES[classes]) : byTexts(values);
  const colourOf = (/** @type {Feature} */ feature) => colours.colourOf(propertyOf(feature, property));
  const coloured = colours.legend.reduce((sum, entry) => sum + entry.count, 0);
  /** @type {Entry} */
  const none = { colour: NONE, kind: "none", label: "", count: all.length - coloured };
  const legend = none.count ? [...colours.legend, none] : colours.legend;
  return { property, kind: isNumbers ? "numbers" : "texts", legend, colourOf };
}

/** @param {any} value */
const isValue = value => value !== undefined && value !== null;

/**
 * A number, or a text that is one.
 * @param {any} value
 */
function numberOf(value) {
  if (typeof value === "number") return value;
  return typeof value === "string" && /^\s*[-+]?(\d+\.?\d*|\.\d+)([eE][-+]?\d+)?\s*$/.test(value) ? Number(value) : NaN;
}

/** @param {any} value */
const textOf = value => typeof value === "string" ? value : JSON.stringify(value);

/**
 * Classes by quantiles. The bound of class i of n is the number with rank i/n among all; a number that is a bound belongs to
 * the class below it, so equal numbers are in one class, and a class may be empty, which the legend then leaves out.
 * @param {any[]} values
 * @param {string[]} colours
 */
function byNumbers(values, colours) {
  const numbers = Float64Array.from(values.map(numberOf).filter(Number.isFinite)).sort(), n = colours.length;
  const bounds = colours.slice(1).map((_, i) => numbers[Math.ceil(((i + 1) * numbers.length) / n) - 1]);
  const classOf = (/** @type {number} */ number) => bounds.filter(bound => bound < number).length;
  /** @type {Entry[]} */
  const legend = [];
  let first = 0;
  while (first < numbers.length) {
    const own = classOf(numbers[first]);
    let end = first + 1;
    while (end < numbers.length && classOf(numbers[end]) === own) end++;
    const least = numbers[first], greatest = numbers[end - 1];
    const label = least === greatest ? `${least}` : `${least} – ${greatest}`;
    legend.push({ colour: colours[own], kind: "class", label, count: end - first, least, greatest });
    first = end;
  }
  const colourOf = (/** @type {any} */ value) => {
    const number = numberOf(value);
    return Number.isFinite(number) ? colours[classOf(number)] : NONE;
  };
  return { legend, colourOf };
}

/**
 * The most frequent texts as categories, of equally frequent ones the lesser first; the others together.
 * @param {any[]} values
 */
function byTexts(values) {
  /** @type {Map<string, number>} */
  const counts = new Map();
  for (const value of values) counts.set(textOf(value), (counts.get(textOf(value)) || 0) + 1);
  const sorted = [...counts].sort((a, b) => b[1] - a[1] || (a[0] < b[0] ? -1 : 1)), chosen = sorted.slice(0, CATEGORIES.length);
  /** @type {Entry[]} */
  const legend = chosen.map(([label, count], i) => ({ colour: CATEGORIES[i], kind: "category", label, count }));
  const others = sorted.slice(chosen.length).reduce((sum, [, count]) => sum + count, 0);
  if (others) legend.push({ colour: OTHER, kind: "other", label: "other", count: others });
  const colours = new Map(chosen.map(([label], i) => [label, CATEGORIES[i]]));
  const colourOf = (/** @type {any} */ value) => isValue(value) ? colours.get(textOf(value)) || OTHER : NONE;
  return { legend, colourOf };
}
