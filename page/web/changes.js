// @ts-check
/** What an accepted line of a script does to the pieces and the features. Nothing here refuses: border_edit did that before. */
import { pieceOf, piecesOf } from "./pieces.js";
import { orderWith, splitWords } from "./lines.js";

/** @typedef {import("./pieces.js").Pieces} Pieces */
/** @typedef {import("./pieces.js").Ring} Ring */
/** @typedef {import("./pieces.js").Feature} Feature */
/**
 * What `rings` of border_edit says of a feature: its polygons, of each its rings, of each its positions.
 * @typedef {number[][][][]} Rings
 */

/**
 * Does what an accepted line does.
 * @param {Pieces} map
 * @param {string} line
 * @param {string} answer
 * @param {Rings | null} rings what `rings` says of the feature that a split made, where the old one had holes
 */
export function changeBy(map, line, answer, rings) {
  const [verb, ...rest] = line.split(" "), numbers = rest.map(Number);
  switch (verb) {
    case "move": move(map, numbers); break;
    case "insert": insert(map, numbers); break;
    case "remove": remove(map, numbers[0], numbers[1]); break;
    case "merge": merge(map, numbers[0], numbers[1]); break;
    case "delete": removeFeature(map, numbers[0]); break;
    case "rename": map.setId(numbers[0], JSON.parse(line.slice(verb.length + rest[0].length + 2))); break;
    case "split": split(map, splitWords(line), Number(answer.split(" ")[1]), rings); break;
    default: throw new Error(`no change of the page: ${line}`);
  }
}

/**
 * @param {Pieces} map
 * @param {number[]} numbers the old position of a vertex, and its new one
 */
function move(map, [x, y, u, v]) {
  for (const [i, k] of map.places(x, y)) map.setWay(i, put(map.way(i), k, u, v));
}

/**
 * A way with another position in the place of one.
 * @param {Float64Array} xy
 * @param {number} k
 * @param {number} x
 * @param {number} y
 */
function put(xy, k, x, y) {
  const way = xy.slice();
  way.set([x, y], 2 * k);
  return way;
}

/**
 * @param {Pieces} map
 * @param {number[]} numbers the ends of a segment, and the new vertex
 */
function insert(map, [ax, ay, bx, by, x, y]) {
  for (const i of new Set(map.places(ax, ay).map(place => place[0]))) {
    const xy = map.way(i);
    for (let k = 2; k < xy.length; k += 2) {
      const isAlong = xy[k - 2] === ax && xy[k - 1] === ay && xy[k] === bx && xy[k + 1] === by;
      const isBack = xy[k - 2] === bx && xy[k - 1] === by && xy[k] === ax && xy[k + 1] === ay;
      if (!isAlong && !isBack) continue;
      const way = new Float64Array(xy.length + 2);
      way.set(xy.subarray(0, k));
      way.set([x, y], k);
      way.set(xy.subarray(k), k + 2);
      map.setWay(i, way);
      break;
    }
  }
}

/**
 * Takes a vertex out of every piece. Where it is the end of a piece, one of its two neighbours becomes the end instead: in
 * the piece that has this neighbour the vertex goes, in any other the neighbour stands in its place.
 * @param {Pieces} map
 * @param {number} x
 * @param {number} y
 */
function remove(map, x, y) {
  const [[u, v]] = map.neighbours(x, y);
  // from the last place in a piece to the first one, so that the numbers of the others stay true
  for (const [i, k] of map.places(x, y).reverse()) {
    const xy = map.way(i), last = xy.length / 2 - 1, next = k === 0 ? 2 : 2 * k - 2;
    const isInside = k > 0 && k < last, hasNeighbour = last > 0 && xy[next] === u && xy[next + 1] === v;
    map.setWay(i, isInside || hasNeighbour ? without(xy, k) : put(xy, k, u, v));
  }
}

/**
 * A way without one of its positions.
 * @param {Float64Array} xy
 * @param {number} k
 */
function without(xy, k) {
  const way = new Float64Array(xy.length - 2);
  way.set(xy.subarray(0, 2 * k));
  way.set(xy.subarray(2 * k + 2), 2 * k);
  return way;
}

/**
 * @param {Pieces} map
 * @param {number} num
 */
function removeFeature(map, num) {
  map.dropFeature(map.feature(num).num);
  map.order = map.order.filter(each => each !== num);
}

/**
 * Cuts the pieces of a ring at a vertex, so that one of them begins there.
 * @param {Pieces} map
 * @param {Ring} ring
 * @param {number} x
 * @param {number} y
 */
function cutAt(map, ring, x, y) {
  const own = piecesOf(ring);
  for (const [i, k] of map.places(x, y)) {
    const xy = map.way(i), { users } = map.pieces[i];
    if (!own.has(i) || k === 0 || 2 * k === xy.length - 2) continue;
    const rest = map.addPiece(xy.slice(2 * k));
    map.setWay(i, xy.slice(0, 2 * k + 2));
    const inTwo = (/** @type {number} */ ref) => ref === i ? [i, rest] : ref === ~i ? [~rest, ~i] : [ref];
    for (const num of new Set(users)) {
      const feature = map.feature(num);
      map.setFeature({ ...feature, polygons: feature.polygons.map(polygon => polygon.map(each => each.flatMap(inTwo))) });
    }
  }
}

/**
 * The first polygon of a feature whose outer ring has both ends of a path, and whose holes have neither.
 * @param {Pieces} map
 * @param {Feature} feature
 * @param {[number, number][]} ends
 */
function cutPolygon(map, feature, ends) {
  const standsIn = ends.map(([x, y]) => new Set(map.places(x, y).map(place => place[0])));
  const has = (/** @type {Ring} */ ring, /** @type {Set<number>} */ pieces) => ring.some(ref => pieces.has(pieceOf(ref)));
  return feature.polygons.findIndex(([outer, ...holes]) =>
    standsIn.every(pieces => has(outer, pieces) && !holes.some(hole => has(hole, pieces))));
}

/**
 * @param {Pieces} map
 * @param {{num: number, id: any, path: number[]}} words
 * @param {number} added the number of the new feature
 * @param {Rings | null} rings
 */
function split(map, { num, id, path }, added, rings) {
  const [px, py] = path, [qx, qy] = path.slice(-2);
  const at = cutPolygon(map, map.feature(num), [[px, py], [qx, qy]]);
  cutAt(map, map.feature(num).polygons[at][0], px, py);
  cutAt(map, map.feature(num).polygons[at][0], qx, qy);
  const feature = map.feature(num), [outer, ...holes] = feature.polygons[at];
  const first = startAt(map, outer, px, py), ring = [...outer.slice(first), ...outer.slice(0, first)];
  const end = startAt(map, ring, qx, qy), way = map.addPiece(Float64Array.from(path));
  // a hole is the new feature's where that has one with the same least position
  const firsts = new Set((rings || []).flatMap(polygon => polygon.slice(1)).map(hole => String(hole[0])));
  const isNew = (/** @type {Ring} */ hole) => firsts.has(String(least(map.positions(hole))));
  const polygons = feature.polygons.slice();
  polygons[at] = [[...ring.slice(0, end), ~way], ...holes.filter(hole => !isNew(hole))];
  map.setFeature({ ...feature, polygons });
  map.setFeature({ ...feature, num: added, id, polygons: [[[...ring.slice(end), way], ...holes.filter(isNew)]] });
  map.order = orderWith(map.order, num, added);
}

/**
 * The first piece of a ring that begins at a position.
 * @param {Pieces} map
 * @param {Ring} ring
 * @param {number} x
 * @param {number} y
 */
function startAt(map, ring, x, y) {
  return ring.findIndex(ref => { const [u, v] = map.start(ref); return u === x && v === y; });
}

/**
 * The least position of some, by x and then y.
 * @param {number[]} at
 * @returns {[number, number]}
 */
export function least(at) {
  let k = 0;
  for (let i = 2; i < at.length; i += 2) if (at[i] < at[k] || (at[i] === at[k] && at[i + 1] < at[k + 1])) k = i;
  return [at[k], at[k + 1]];
}

/**
 * Joins two features of one polygon each along the run of pieces that their outer rings have in common.
 * @param {Pieces} map
 * @param {number} num
 * @param {number} other
 */
function merge(map, num, other) {
  const one = map.feature(num), [ring, ...holes] = one.polygons[0], [ring2, ...holes2] = map.feature(other).polygons[0];
  // pieces of a single position stand in no run
  const isLong = (/** @type {number} */ ref) => map.way(pieceOf(ref)).length > 2;
  const outer = ring.filter(isLong), outer2 = ring2.filter(isLong), of2 = piecesOf(outer2);
  const common = new Set(outer.map(pieceOf).filter(i => of2.has(i)));
  const left = restOf(outer, common);
  let right = restOf(outer2, common);
  const [x, y] = map.start(~left[left.length - 1]), [u, v] = map.start(right[0]);
  if (x !== u || y !== v) right = right.map(ref => ~ref).reverse();
  removeFeature(map, other);
  map.setFeature({ ...one, polygons: [[[...left, ...right], ...holes, ...holes2]] });
}

/**
 * What is left of a ring without a run of its pieces, from the end of the run on.
 * @param {Ring} ring
 * @param {Set<number>} run
 * @returns {Ring}
 */
function restOf(ring, run) {
  const isRun = (/** @type {number} */ k) => run.has(pieceOf(ring[k % ring.length]));
  let last = 0;
  while (last < ring.length && !(isRun(last) && !isRun(last + 1))) last++;
  const rest = [];
  for (let k = last + 1; rest.length < ring.length && !isRun(k); k++) rest.push(ring[k % ring.length]);
  return rest;
}
