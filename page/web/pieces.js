// @ts-check
/**
 * Borders in short pieces, and the features over them. Each border stands here once, so a change of a piece is a change of
 * all features that have it. Whatever changes notes first what was there, so that it can be taken back.
 */
import { Boxes, NOTHING, boxOf, union } from "./boxes.js";
import { arcsOf, eachFeature, layerNames, polygonsOf } from "./topology.js";
import { countAll, recounted } from "./counts.js";

/** @typedef {import("./boxes.js").Box} Box */
/** @typedef {import("./topology.js").Way} Way */
/** @typedef {import("./counts.js").Counts} Counts */
/**
 * A part of a border: the positions of `xy` from `from` up to `to`. `users` has the number of a feature once for each ring
 * that takes the piece. Positions and users are never written over: a change of users gives the piece others, and a change of
 * positions puts another piece in its place.
 * @typedef {{xy: Way, from: number, to: number, users: number[]}} Piece
 */
/**
 * Pieces one after another; ~i is piece i from its end to its beginning.
 * @typedef {number[]} Ring
 */
/**
 * `collection` is -1 where the feature is a layer by itself.
 * @typedef {{num: number, id: any, properties: any, polygons: Ring[][],
 *   collection: number, layer: number, box: Box}} Feature
 */
/** @typedef {{name: string, isShown: boolean}} Layer */
/** @typedef {{pieces: Piece[], features: Feature[], order: number[]}} Shot */
/**
 * How arcs are cut into pieces: the first piece of each arc, and the end of the last one; whether each arc is one piece, which then
 * has its number; and how many pieces all further rings may have.
 * @typedef {{firsts: Int32Array, isWhole: boolean, left: number}} Cut
 */
/**
 * What was there before a change.
 * @typedef {{pieces: Map<number, Piece | undefined>, features: Map<number, Feature | undefined>,
 *   order: number[], counts: Counts}} Before
 */

/** the most segments of a piece */
const PIECE = 64;
/** the most features, and positions of all rings, of a map that border_edit opens: of a text with more nothing is made */
const MOST_FEATURES = 200000, MOST_POSITIONS = 4000000;
/** @type {number[]} */
const NOBODY = [];
/** the number of no feature */
const NONE = -1;

/**
 * The piece that a ring takes, whichever way it goes.
 * @param {number} ref
 */
export const pieceOf = ref => ref < 0 ? ~ref : ref;

/** @param {Ring} ring */
export const piecesOf = ring => new Set(ring.map(pieceOf));

export class Pieces {
  /** @type {Piece[]} */
  pieces = [];
  /** @type {Map<number, Feature>} */
  features = new Map();
  /**
   * numbers of the features in the order of the text
   * @type {number[]}
   */
  order = [];
  /** @type {Layer[]} */
  layers = [];
  /** @type {Counts} */
  counts = { features: 0, vertices: 0, segments: 0 };
  /** pieces by place */
  index = new Boxes(new Float64Array(0));
  /** features by place: `slots` has the number of the feature in each slot, `slotOf` the slot of each feature */
  areas = this.index;
  /** @type {number[]} */
  slots = [];
  /** @type {Map<number, number>} */
  slotOf = new Map();
  /**
   * what was there before the change under way
   * @type {Before | null}
   */
  before = null;

  /**
   * @param {any} topology
   * @param {number[]=} numbers of its features, in the order of the text; 0, 1, 2, .. where none are given
   */
  constructor(topology, numbers) {
    this.transform = topology.transform;
    this.load(topology, numbers);
  }

  /**
   * Takes another text of the map. A layer that was hidden stays so.
   * @param {any} topology
   * @param {number[]=} numbers
   * @param {number=} vertices how many there are; they are counted where that is not given
   */
  load(topology, numbers, vertices) {
    this.features = new Map();
    this.order = [];
    const hidden = new Set(this.layers.filter(layer => !layer.isShown).map(layer => layer.name));
    this.layers = layerNames(topology).map(name => ({ name, isShown: !hidden.has(name) }));
    const arcs = arcsOf(topology), cut = cutOf(arcs.ends), users = new Users(cut.firsts[arcs.ends.length]);
    eachFeature(topology, (object, collection, layer) => {
      if (this.order.length === MOST_FEATURES) throw new Error("too many features");
      const num = numbers ? numbers[this.order.length] : this.order.length;
      const polygons = polygonsOf(object).map(polygon => polygon.map(ring => refsOf(ring, cut)));
      const feature = { num, id: object.id, properties: object.properties, polygons, collection, layer, box: NOTHING };
      this.features.set(num, feature);
      this.order.push(num);
      users.add(feature);
    });
    this.loadPieces(arcs, users);
    this.counts = countAll(this, vertices);
    this.loadIndexes();
  }

  /**
   * The pieces of the arcs, each with its users.
   * @param {import("./topology.js").Arcs} arcs
   * @param {Users} users
   */
  loadPieces({ xy, ends }, users) {
    this.pieces = [];
    let first = 0;
    for (const end of ends) {
      for (let from = first; from + 2 < end; from += 2 * PIECE) {
        this.pieces.push({ xy, from, to: Math.min(from + 2 * PIECE + 2, end), users: users.of(this.pieces.length) });
      }
      first = end;
    }
  }

  loadIndexes() {
    const boxes = new Float64Array(4 * this.pieces.length);
    this.pieces.forEach((piece, i) => putBox(boxes, i, piece));
    this.index = new Boxes(boxes);
    const all = [...this.features.values()].filter(feature => feature.polygons.length);
    this.slots = all.map(feature => feature.num);
    this.slotOf = new Map();
    const outlines = new Float64Array(4 * all.length);
    all.forEach((feature, slot) => {
      feature.box = boxOfRings(feature, boxes);
      outlines.set(feature.box, 4 * slot);
      this.slotOf.set(feature.num, slot);
    });
    this.areas = new Boxes(outlines);
  }

  /** @returns {Box} the box of all features, of hidden layers too */
  extent() {
    let [x0, y0, x1, y1] = NOTHING;
    for (const { box } of this.features.values()) {
      x0 = Math.min(x0, box[0]);
      y0 = Math.min(y0, box[1]);
      x1 = Math.max(x1, box[2]);
      y1 = Math.max(y1, box[3]);
    }
    return [x0, y0, x1, y1];
  }

  /**
   * A feature that is known to be there.
   * @param {number} num
   * @returns {Feature}
   */
  feature(num) {
    const feature = this.features.get(num);
    if (!feature) throw new Error(`no feature ${num}`);
    return feature;
  }

  /**
   * The borders as they are now, which stay so whatever is changed here.
   * @returns {Shot}
   */
  shot() { return { pieces: this.pieces.slice(), features: [...this.features.values()], order: this.order }; }

  // ---- rings and places

  /**
   * The positions of a piece.
   * @param {number} i
   * @returns {Way}
   */
  way(i) {
    const { xy, from, to } = this.pieces[i];
    return xy.subarray(from, to);
  }

  /**
   * Where a piece begins, in the direction of a ring.
   * @param {number} ref
   * @returns {[number, number]}
   */
  start(ref) {
    const { xy, from, to } = this.pieces[pieceOf(ref)], at = ref < 0 ? to - 2 : from;
    return [xy[at], xy[at + 1]];
  }

  /**
   * The positions of a ring, each once: x, y, x, y, ..
   * @param {Ring} ring
   * @returns {number[]}
   */
  positions(ring) {
    /** @type {number[]} */
    const out = [];
    for (const ref of ring) {
      const { xy, from, to } = this.pieces[pieceOf(ref)], step = ref < 0 ? -2 : 2;
      for (let at = ref < 0 ? to - 2 : from; at >= from && at < to; at += step) {
        const end = out.length;
        if (end === 0 || out[end - 2] !== xy[at] || out[end - 1] !== xy[at + 1]) out.push(xy[at], xy[at + 1]);
      }
    }
    while (out.length > 2 && out[0] === out[out.length - 2] && out[1] === out[out.length - 1]) out.length -= 2;
    return out;
  }

  /**
   * Each place where a position stands, in hidden layers too: the piece, and the number of the vertex in it.
   * @param {number} x
   * @param {number} y
   * @returns {[number, number][]}
   */
  places(x, y) {
    /** @type {[number, number][]} */
    const found = [];
    this.index.search([x, y, x, y], i => {
      const { xy, from, to, users } = this.pieces[i];
      if (!users.length) return;
      for (let k = from; k < to; k += 2) if (xy[k] === x && xy[k + 1] === y) found.push([i, (k - from) / 2]);
    });
    return found;
  }

  /**
   * The positions next to a vertex, each once.
   * @param {number} x
   * @param {number} y
   * @returns {[number, number][]}
   */
  neighbours(x, y) {
    /** @type {Map<string, [number, number]>} */
    const found = new Map();
    for (const [i, k] of this.places(x, y)) {
      const xy = this.way(i);
      for (const next of [2 * k - 2, 2 * k + 2]) {
        if (next >= 0 && next < xy.length) found.set(`${xy[next]} ${xy[next + 1]}`, [xy[next], xy[next + 1]]);
      }
    }
    return [...found.values()];
  }

  // ---- changes

  /** @param {Feature} feature */
  use(feature) {
    for (const polygon of feature.polygons) for (const ring of polygon) for (const ref of ring) {
      this.notePiece(pieceOf(ref));
      const piece = this.pieces[pieceOf(ref)];
      piece.users = piece.users.length ? [...piece.users, feature.num] : [feature.num];
    }
  }

  /** @param {Feature} feature */
  leave(feature) {
    for (const polygon of feature.polygons) for (const ring of polygon) for (const ref of ring) {
      this.notePiece(pieceOf(ref));
      const piece = this.pieces[pieceOf(ref)], at = piece.users.indexOf(feature.num);
      piece.users = piece.users.filter((_, k) => k !== at);
    }
  }

  /** @param {number} i */
  notePiece(i) {
    if (!this.before || this.before.pieces.has(i)) return;
    const piece = this.pieces[i];
    this.before.pieces.set(i, piece && { ...piece });
  }

  /** @param {number} num */
  noteFeature(num) {
    if (this.before && !this.before.features.has(num)) this.before.features.set(num, this.features.get(num));
  }

  /**
   * @param {number} i
   * @param {Way} xy
   */
  setWay(i, xy) {
    this.notePiece(i);
    this.pieces[i] = { xy, from: 0, to: xy.length, users: this.pieces[i].users };
    this.index.put(i, boxOf(xy));
    this.widen(i);
  }

  /**
   * Makes the boxes of the features with a piece hold it.
   * @param {number} i
   */
  widen(i) {
    const box = boxOf(this.way(i));
    for (const num of this.pieces[i].users) {
      const feature = this.features.get(num);
      if (!feature) continue;
      feature.box = union(feature.box, box);
      this.putArea(feature);
    }
  }

  /**
   * A piece that no feature has yet.
   * @param {Way} xy
   * @returns {number}
   */
  addPiece(xy) {
    const i = this.pieces.length;
    this.notePiece(i);
    this.pieces.push({ xy, from: 0, to: xy.length, users: NOBODY });
    this.index.put(i, boxOf(xy));
    return i;
  }

  /** @param {Feature} feature */
  putArea(feature) {
    let slot = this.slotOf.get(feature.num);
    if (slot === undefined) {
      slot = this.slots.length;
      this.slots.push(feature.num);
      this.slotOf.set(feature.num, slot);
    }
    if (feature.polygons.length) this.areas.put(slot, feature.box);
  }

  /**
   * Puts a feature in the place of what has its number.
   * @param {Feature} feature
   */
  setFeature(feature) {
    this.dropFeature(feature.num);
    this.features.set(feature.num, feature);
    this.use(feature);
    const outer = feature.polygons.flatMap(polygon => polygon[0] || []);
    feature.box = outer.reduce((box, ref) => union(box, boxOf(this.way(pieceOf(ref)))), NOTHING);
    this.putArea(feature);
  }

  /** @param {number} num */
  dropFeature(num) {
    this.noteFeature(num);
    const old = this.features.get(num);
    if (old) this.leave(old);
    this.features.delete(num);
  }

  /**
   * A feature with another id.
   * @param {number} num
   * @param {any} id
   */
  setId(num, id) {
    this.noteFeature(num);
    this.features.set(num, { ...this.feature(num), id });
  }

  /**
   * Makes a change, and answers what was there before. Where the change fails, nothing is changed.
   * @param {() => void} change
   * @returns {Before}
   */
  noted(change) {
    const before = { pieces: new Map(), features: new Map(), order: this.order, counts: this.counts };
    this.before = before;
    try {
      change();
      this.counts = recounted(this, before);
    } catch (fault) {
      this.before = null;
      this.restore(before);
      throw fault;
    }
    this.before = null;
    return before;
  }

  /** @param {Before} before */
  restore({ pieces, features, order, counts }) {
    for (const [i, piece] of pieces) {
      this.pieces[i] = piece || { xy: new Float64Array(0), from: 0, to: 0, users: NOBODY };
      if (piece) this.index.put(i, boxOf(this.way(i)));
    }
    for (const [num, feature] of features) {
      if (feature) this.features.set(num, feature); else this.features.delete(num);
    }
    this.order = order;
    this.counts = counts;
    for (const i of pieces.keys()) this.widen(i);
  }
}

/**
 * Puts the box of a piece among the boxes of all pieces.
 * @param {Float64Array} boxes four numbers for each
 * @param {number} i
 * @param {Piece} piece
 */
function putBox(boxes, i, { xy, from, to }) {
  let x0 = Infinity, y0 = Infinity, x1 = -Infinity, y1 = -Infinity;
  for (let k = from; k < to; k += 2) {
    const x = xy[k], y = xy[k + 1];
    if (x < x0) x0 = x;
    if (x > x1) x1 = x;
    if (y < y0) y0 = y;
    if (y > y1) y1 = y;
  }
  boxes[4 * i] = x0;
  boxes[4 * i + 1] = y0;
  boxes[4 * i + 2] = x1;
  boxes[4 * i + 3] = y1;
}

/**
 * The box of the outer rings of a feature.
 * @param {Feature} feature
 * @param {Float64Array} boxes those of all pieces
 * @returns {Box}
 */
function boxOfRings(feature, boxes) {
  let x0 = Infinity, y0 = Infinity, x1 = -Infinity, y1 = -Infinity;
  for (const [outer] of feature.polygons) for (let i = 0; outer && i < outer.length; i++) {
    const ref = outer[i], at = ref < 0 ? 4 * ~ref : 4 * ref;
    if (boxes[at] < x0) x0 = boxes[at];
    if (boxes[at + 1] < y0) y0 = boxes[at + 1];
    if (boxes[at + 2] > x1) x1 = boxes[at + 2];
    if (boxes[at + 3] > y1) y1 = boxes[at + 3];
  }
  return [x0, y0, x1, y1];
}

/**
 * Where arcs are cut: each has pieces of at most so many segments.
 * @param {number[]} ends
 * @returns {Cut}
 */
function cutOf(ends) {
  const firsts = new Int32Array(ends.length + 1);
  let first = 0, isWhole = true;
  for (let arc = 0; arc < ends.length; arc++) {
    const pieces = Math.max(0, Math.ceil(((ends[arc] - first) / 2 - 1) / PIECE));
    firsts[arc + 1] = firsts[arc] + pieces;
    isWhole &&= pieces === 1;
    first = ends[arc];
  }
  return { firsts, isWhole, left: MOST_POSITIONS };
}

/**
 * A ring of arc indexes as a ring of pieces.
 * @param {number[]} arcs
 * @param {Cut} cut
 * @returns {Ring}
 */
function refsOf(arcs, cut) {
  if (!Array.isArray(arcs)) throw new Error("a ring is no list");
  const { firsts } = cut;
  let size = 0;
  for (let k = 0; k < arcs.length; k++) {
    const arc = arcs[k] < 0 ? ~arcs[k] : arcs[k];
    size += firsts[arc + 1] - firsts[arc];
  }
  cut.left -= size;
  // also where an index is none
  if (!(cut.left >= 0)) throw new Error("no such arc, or too many positions");
  if (cut.isWhole) return arcs;
  const refs = new Array(size);
  let at = 0;
  for (let k = 0; k < arcs.length; k++) {
    const arc = arcs[k], first = firsts[arc < 0 ? ~arc : arc], end = firsts[(arc < 0 ? ~arc : arc) + 1];
    if (arc >= 0) for (let i = first; i < end; i++) refs[at++] = i;
    else for (let i = end - 1; i >= first; i--) refs[at++] = ~i;
  }
  return refs;
}

/** Who takes each piece, while a map is loaded. Most pieces are taken by one ring or by two. */
class Users {
  /** @param {number} count of the pieces */
  constructor(count) {
    this.first = new Int32Array(count).fill(NONE);
    this.second = new Int32Array(count).fill(NONE);
    /** @type {Map<number, number[]>} */
    this.others = new Map();
  }

  /** @param {Feature} feature */
  add({ num, polygons }) {
    const { first, second, others } = this;
    for (const polygon of polygons) for (const ring of polygon) for (let k = 0; k < ring.length; k++) {
      const i = ring[k] < 0 ? ~ring[k] : ring[k];
      if (first[i] === NONE) first[i] = num;
      else if (second[i] === NONE) second[i] = num;
      else if (others.has(i)) others.get(i)?.push(num);
      else others.set(i, [num]);
    }
  }

  /**
   * @param {number} i
   * @returns {number[]} the numbers of the features that take a piece
   */
  of(i) {
    const { first, second } = this;
    if (first[i] === NONE) return NOBODY;
    if (second[i] === NONE) return [first[i]];
    const others = this.others.get(i);
    return others ? [first[i], second[i], ...others] : [first[i], second[i]];
  }
}
