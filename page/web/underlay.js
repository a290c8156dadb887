// @ts-check
/** Lines of another file, to be drawn below the map for comparison. */
import { boxOf } from "./boxes.js";
import { arcsOf } from "./topology.js";

/** @typedef {{xy: Float64Array, box: import("./boxes.js").Box}} Line */
/** @typedef {{scale: number[], translate: number[]}} Transform */

/** @type {Transform} */
const SAME = { scale: [1, 1], translate: [0, 0] };

/**
 * The lines of a GeoJSON or TopoJSON text, in units of the map's grid.
 * @param {any} given
 * @param {Transform | undefined} transform of the map
 * @returns {Line[]}
 */
export function linesOf(given, transform) {
  /** @type {Line[]} */
  const lines = [];
  const to = transform || SAME;
  /**
   * @param {ArrayLike<number>[]} positions
   * @param {Transform} from
   */
  const add = (positions, from) => {
    const xy = new Float64Array(2 * positions.length);
    positions.forEach((position, i) => {
      for (const axis of [0, 1]) {
        const value = position[axis] * from.scale[axis] + from.translate[axis];
        xy[2 * i + axis] = (value - to.translate[axis]) / to.scale[axis];
      }
    });
    lines.push({ xy, box: boxOf(xy) });
  };
  if (given && given.type === "Topology") {
    const { xy, ends } = arcsOf(given);
    ends.forEach((end, i) => add(pairsOf(xy.subarray(i ? ends[i - 1] : 0, end)), given.transform || SAME));
  } else eachLine(given, positions => add(positions, SAME));
  return lines;
}

/**
 * @param {Float64Array} way
 * @returns {Float64Array[]} of each position its two numbers
 */
const pairsOf = way => Array.from({ length: way.length / 2 }, (_, i) => way.subarray(2 * i, 2 * i + 2));

/**
 * Calls for each list of positions in a GeoJSON object.
 * @param {any} object
 * @param {(positions: number[][]) => void} found
 */
function eachLine(object, found) {
  if (!object || typeof object !== "object") return;
  if (object.coordinates) eachList(object.coordinates, found);
  eachLine(object.geometry, found);
  for (const part of object.features || object.geometries || []) eachLine(part, found);
}

/**
 * @param {any} list
 * @param {(positions: number[][]) => void} found
 */
function eachList(list, found) {
  if (!Array.isArray(list) || !list.length) return;
  if (Array.isArray(list[0]) && typeof list[0][0] === "number") found(list);
  else for (const part of list) eachList(part, found);
}
