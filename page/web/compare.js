// @ts-check
/** Whether two models are the same map. */
import { least } from "./changes.js";

/** @typedef {import("./pieces.js").Pieces} Pieces */
/** @typedef {import("./pieces.js").Feature} Feature */

/**
 * The first way in which a map is another one; nothing where both are the same. The features of both go by the same numbers.
 * @param {Pieces} one
 * @param {Pieces} other
 * @returns {string | null}
 */
export function difference(one, other) {
  if (String(one.order) !== String(other.order)) return "features";
  if (namesOf(one) !== namesOf(other)) return "layers";
  for (const num of one.order) {
    const what = differentPart(one, one.feature(num), other, other.feature(num));
    if (what) return `${what} of ${num}`;
  }
  // each segment that is drawn is one of a ring
  for (const count of /** @type {const} */ (["features", "segments", "vertices"])) {
    if (one.counts[count] !== other.counts[count]) return `${count}: ${one.counts[count]}, ${other.counts[count]}`;
  }
  return null;
}

/** @param {Pieces} map */
const namesOf = map => JSON.stringify(map.layers.map(layer => layer.name));

/**
 * @param {Pieces} one
 * @param {Feature} a
 * @param {Pieces} other
 * @param {Feature} b
 */
function differentPart(one, a, other, b) {
  if (JSON.stringify(a.id) !== JSON.stringify(b.id)) return "id";
  if (JSON.stringify(a.properties) !== JSON.stringify(b.properties)) return "properties";
  if (a.layer !== b.layer) return "layer";
  return ringsOf(one, a) === ringsOf(other, b) ? null : "rings";
}

/**
 * The rings of a feature as a text, each from its least position on.
 * @param {Pieces} map
 * @param {Feature} feature
 */
function ringsOf(map, feature) {
  return JSON.stringify(feature.polygons.map(polygon => polygon.map(ring => turned(map.positions(ring)))));
}

/**
 * A ring from its least position on.
 * @param {number[]} at
 */
function turned(at) {
  const [x, y] = least(at);
  let k = 0;
  while (at[k] !== x || at[k + 1] !== y) k += 2;
  return [...at.slice(k), ...at.slice(0, k)];
}
