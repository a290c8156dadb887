// @ts-check
/** What features are called: by their id, their number, or a property. */

/** @typedef {import("./pieces.js").Feature} Feature */
/** @typedef {{by: "id"} | {by: "number"} | {by: "property", property: string}} Naming */

/** the most characters of a name */
const LONGEST = 40;

/**
 * What a feature is called. Without an id, or without the property, it goes by its number.
 * @param {Feature} feature
 * @param {Naming} naming
 */
export function nameOfFeature(feature, naming) {
  const byNumber = `#${feature.num}`;
  if (naming.by === "number") return byNumber;
  const value = naming.by === "id" ? feature.id : propertyOf(feature, naming.property);
  if (value === undefined || value === null || value === "") return byNumber;
  return shortened(typeof value === "string" ? value : JSON.stringify(value));
}

/**
 * A text of at most so many characters, none of them cut in two.
 * @param {string} text
 */
function shortened(text) {
  if (text.length <= LONGEST) return text;
  const characters = [...text.slice(0, 2 * LONGEST + 2)];
  return characters.length <= LONGEST ? text : characters.slice(0, LONGEST).join("") + "…";
}

/**
 * What a feature is called, by its number; one that is gone too.
 * @param {import("./model.js").Model} model
 * @param {number} num
 */
export function nameOf(model, num) {
  const feature = model.features.get(num);
  return feature ? model.nameOf(feature) : `#${num}`;
}

/**
 * A property of a feature.
 * @param {Feature} feature
 * @param {string} property
 * @returns {any}
 */
export function propertyOf({ properties }, property) {
  return properties && typeof properties === "object" && Object.hasOwn(properties, property) ? properties[property] : undefined;
}

/**
 * The names of properties, and how many features have each; the most frequent first, then as the text has them.
 * @param {Iterable<Feature>} features
 * @returns {{name: string, count: number}[]}
 */
export function propertyNames(features) {
  /** @type {Map<string, number>} */
  const counts = new Map();
  for (const { properties } of features) {
    if (!properties || typeof properties !== "object") continue;
    for (const name of Object.keys(properties)) counts.set(name, (counts.get(name) || 0) + 1);
  }
  return Array.from(counts, ([name, count]) => ({ name, count })).sort((a, b) => b.count - a.count);
}
