// @ts-check
/** How many features, vertices and segments a map has, as `count` of border_edit says it, kept up to date by each change. */

/** @typedef {import("./pieces.js").Pieces} Pieces */
/** @typedef {import("./pieces.js").Piece} Piece */
/** @typedef {{features: number, vertices: number, segments: number}} Counts */

/**
 * Counts by walking the map. Between its two ends a piece has vertices that no other piece has, since arcs are cut where
 * borders meet; ends may stand in several pieces.
 * @param {Pieces} map
 * @param {number=} vertices how many there are; they are counted where that is not given
 * @returns {Counts}
 */
export function countAll(map, vertices) {
  const { features, pieces } = map, segments = pieces.reduce((sum, piece) => sum + segmentsOf(piece), 0);
  return { features: features.size, vertices: vertices ?? countVertices(pieces), segments };
}

/** @param {Piece} piece */
const segmentsOf = ({ from, to, users }) => users.length ? (to - from) / 2 - 1 : 0;

/** @param {Piece[]} pieces */
function countVertices(pieces) {
  const ends = new Float64Array(4 * pieces.length);
  let inner = 0, at = 0;
  for (let i = 0; i < pieces.length; i++) {
    const piece = pieces[i], { xy, from, to } = piece;
    if (!piece.users.length) continue;
    inner += innerVertices(piece);
    ends[at++] = xy[from];
    ends[at++] = xy[from + 1];
    ends[at++] = xy[to - 2];
    ends[at++] = xy[to - 1];
  }
  return inner + distinct(ends.subarray(0, at));
}

/**
 * The counts in the answer to `count`.
 * @param {string} said
 * @returns {Counts}
 */
export function countsIn(said) {
  const [features, vertices, segments] = said.split(" ").filter((_, i) => i % 2).map(Number);
  return { features, vertices, segments };
}

/**
 * Whether border_edit counts as much as a walk did. Then each border stands once in what was walked, and each vertex of
 * several pieces is an end of them: else the walk counts something twice.
 * @param {Counts} walked
 * @param {string} said
 */
export function isCounted(walked, said) {
  const { features, vertices, segments } = countsIn(said);
  return walked.features === features && walked.vertices === vertices && walked.segments === segments;
}

/** @param {Piece} piece */
const innerVertices = ({ from, to }) => Math.max(0, (to - from) / 2 - 2);

/**
 * How many different positions there are among some: a table of hashes, of which at most half is filled.
 * @param {Float64Array} xy
 */
function distinct(xy) {
  const mask = 2 ** Math.ceil(Math.log2(xy.length + 2)) - 1, table = new Int32Array(mask + 1).fill(-1);
  let count = 0;
  for (let i = 0; i < xy.length; i += 2) {
    const x = xy[i], y = xy[i + 1];
    let at = (Math.imul(x, 0x9e3779b1) ^ Math.imul(y + 0x7f4a7c15, 0x85ebca6b)) >>> 0;
    at = (at ^ (at >>> 15)) & mask;
    while (table[at] >= 0 && (xy[table[at]] !== x || xy[table[at] + 1] !== y)) at = (at + 1) & mask;
    if (table[at] < 0) { table[at] = i; count++; }
  }
  return count;
}

/**
 * The counts after a change, from those before it and the pieces that it changed.
 * @param {Pieces} map
 * @param {import("./pieces.js").Before} before
 * @returns {Counts}
 */
export function recounted(map, before) {
  let { vertices, segments } = before.counts;
  const changed = changedPieces(map, before);
  /** @type {Map<string, {x: number, y: number, was: boolean, is: boolean}>} */
  const ends = new Map();
  for (const i of changed) {
    for (const [piece, sign] of /** @type {[Piece | undefined, number][]} */ ([[before.pieces.get(i), -1], [map.pieces[i], 1]])) {
      if (!piece || !piece.users.length) continue;
      segments += sign * ((piece.to - piece.from) / 2 - 1);
      vertices += sign * innerVertices(piece);
      for (const at of [piece.from, piece.to - 2]) noteEnd(ends, piece.xy[at], piece.xy[at + 1], sign);
    }
  }
  for (const { x, y, was, is } of ends.values()) {
    if (was !== is && !map.places(x, y).some(([i]) => !changed.has(i))) vertices += is ? 1 : -1;
  }
  return { features: map.features.size, vertices, segments };
}

/**
 * @param {Map<string, {x: number, y: number, was: boolean, is: boolean}>} ends
 * @param {number} x
 * @param {number} y
 * @param {number} sign
 */
function noteEnd(ends, x, y, sign) {
  const key = `${x} ${y}`, end = ends.get(key) || { x, y, was: false, is: false };
  ends.set(key, end);
  if (sign < 0) end.was = true; else end.is = true;
}

/**
 * The pieces that go another way, came into use, or went out of it.
 * @param {Pieces} map
 * @param {import("./pieces.js").Before} before
 * @returns {Set<number>}
 */
function changedPieces(map, before) {
  /** @type {Set<number>} */
  const changed = new Set();
  for (const [i, old] of before.pieces) {
    const now = map.pieces[i], wasUsed = Boolean(old && old.users.length), isUsed = now.users.length > 0;
    if (wasUsed !== isUsed || (isUsed && old && old.xy !== now.xy)) changed.add(i);
  }
  return changed;
}

/**
 * How many vertices a thinning leaves, from its answer.
 * @param {Counts} counts before it
 * @param {string} answer `ok N`
 */
export const verticesLeft = (counts, answer) => counts.vertices - Number(answer.split(" ")[1] || 0);
