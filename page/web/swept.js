// @ts-check
/** Which vertices a refused edit of a vertex would pass over. The answer of border_edit does not name them. */
import { boxOf } from "./boxes.js";

/** @typedef {import("./model.js").Model} Model */
/** @typedef {{triangles: number[][], vertices: [number, number][]}} Swept */

/**
 * The triangles that a line would pass over, and the vertices in them, near enough to point at: numbers are not exact here.
 * @param {Model} model
 * @param {string} line
 * @returns {Swept}
 */
export function sweptBy(model, line) {
  const triangles = trianglesOf(model, line);
  /** @type {Map<string, [number, number]>} */
  const found = new Map();
  for (const triangle of triangles) {
    const box = boxOf(Float64Array.from(triangle));
    model.index.search(box, i => {
      const { xy, from, to, users } = model.pieces[i];
      for (let k = from; users.length && k < to; k += 2) {
        const x = xy[k], y = xy[k + 1];
        if (isWithin(box, x, y) && holds(triangle, x, y)) found.set(`${x} ${y}`, [x, y]);
      }
    });
  }
  return { triangles, vertices: [...found.values()] };
}

/**
 * @param {Model} model
 * @param {string} line
 * @returns {number[][]} of each triangle its corners
 */
function trianglesOf(model, line) {
  const [verb, ...rest] = line.split(" "), [x, y, u, v, ...more] = rest.map(Number);
  if (verb === "move") return model.neighbours(x, y).map(([nx, ny]) => [x, y, u, v, nx, ny]);
  if (verb === "insert") return [[x, y, u, v, ...more]];
  return verb === "remove" ? [[x, y, ...model.neighbours(x, y).flat()]] : [];
}

/**
 * @param {import("./boxes.js").Box} box
 * @param {number} x
 * @param {number} y
 */
const isWithin = ([x0, y0, x1, y1], x, y) => x >= x0 && y >= y0 && x <= x1 && y <= y1;

/**
 * Whether a triangle has a position of its box in it or on its border, and not at a corner.
 * @param {number[]} triangle
 * @param {number} x
 * @param {number} y
 */
function holds(triangle, x, y) {
  let isLeft = false, isRight = false;
  for (let k = 0; k < 6; k += 2) {
    const ax = triangle[k], ay = triangle[k + 1], bx = triangle[(k + 2) % 6], by = triangle[(k + 3) % 6];
    if (x === ax && y === ay) return false;
    const turn = (bx - ax) * (y - ay) - (by - ay) * (x - ax);
    if (turn > 0) isLeft = true;
    if (turn < 0) isRight = true;
  }
  return !(isLeft && isRight);
}
