// @ts-check
/**
 * The outlines of faces that border_cover tells of. It names a face by a segment, directed with the face on its left;
 * here the outline is followed from there along the borders of the layer. All is exact. Each function gives way often,
 * so that the page stays quick on a large map; nothing of a browser is used here.
 *
 * A border is what stands in some polygon of the layer an odd number of times. Pieces meet at their ends alone, and two
 * of them have no segment in common, so borders are followed from piece to piece.
 */
import { boxOf, meets } from "./boxes.js";
import { doubledArea, exactSign, isInside, widestRow } from "./exact.js";
import { pieceOf } from "./pieces.js";

/** @typedef {import("./pieces.js").Shot} Shot */
/** @typedef {import("./boxes.js").Box} Box */
/** @typedef {import("./topology.js").Way} Way */
/**
 * What is known of a face: the layer, the segment that names it (x, y, x, y), and twice its area.
 * @typedef {{layer: number, segment: number[], area: string}} Named
 */
/**
 * The outline of a face, then those of the islands in it, each closed: the first position is not repeated. `isWhole` is
 * false where their areas do not add up to that of the face, so that some island is not known. `place` is within the
 * face.
 * @typedef {{ways: Way[], box: Box, isWhole: boolean, place: [number, number]}} Shape
 */
/**
 * An outline with what lies on its left, which goes around islands to the right. `area` is twice what is within it.
 * @typedef {{way: Way, box: Box, area: bigint}} Outline
 */
/**
 * @template T
 * @typedef {Generator<void, T, void>} Steps
 */

/** pieces, features or positions after which it gives way */
const STEP = 1000;

/** Steps of work, counted over several functions. */
class Pace {
  done = 0;

  /**
   * Whether it is time to give way, after some work more.
   * @param {number} work
   */
  isTime(work) {
    this.done += work;
    if (this.done < STEP) return false;
    this.done = 0;
    return true;
  }
}

/**
 * The pieces that are borders of a layer.
 * @param {Shot} shot
 * @param {number} layer
 * @param {Pace} pace
 * @returns {Steps<Set<number>>}
 */
function* bordersOf({ features }, layer, pace) {
  /** @type {Set<number>} */
  const borders = new Set();
  for (const feature of features) {
    if (feature.layer !== layer) continue;
    for (const polygon of feature.polygons) {
      /** @type {Set<number>} */
      const odd = new Set();
      for (const ring of polygon) for (const ref of ring) {
        const i = pieceOf(ref);
        if (!odd.delete(i)) odd.add(i);
        if (pace.isTime(1)) yield;
      }
      for (const i of odd) borders.add(i);
    }
    if (pace.isTime(1)) yield;
  }
  return borders;
}

/** The borders of a layer, and how they go on from each other. A border that is gone along is a number as in a ring. */
class Borders {
  /**
   * @param {Shot} shot
   * @param {Pace} pace
   */
  constructor(shot, pace) {
    this.pieces = shot.pieces;
    this.pace = pace;
    /**
     * borders both ways
     * @type {number[]}
     */
    this.all = [];
    /**
     * those that begin at a position
     * @type {Map<string, number[]>}
     */
    this.from = new Map();
    /**
     * outlines of islands, once they are looked for
     * @type {Outline[] | null}
     */
    this.found = null;
  }

  /**
   * @param {Set<number>} borders
   * @returns {Steps<void>}
   */
  *take(borders) {
    for (const i of borders) {
      const { from, to } = this.pieces[i];
      // a piece of a single position bounds nothing
      if (to - from > 2) { this.add(i); this.add(~i); }
      if (this.pace.isTime(1)) yield;
    }
  }

  /** @param {number} ref */
  add(ref) {
    const key = this.keyOf(ref, 0), others = this.from.get(key);
    if (others) others.push(ref); else this.from.set(key, [ref]);
    this.all.push(ref);
  }

  /**
   * Where in the positions of its piece the k-th one of a border stands.
   * @param {number} ref
   * @param {number} k
   */
  at(ref, k) { return ref < 0 ? this.pieces[~ref].to - 2 - 2 * k : this.pieces[ref].from + 2 * k; }

  /**
   * A position of a border, as a name.
   * @param {number} ref
   * @param {number} k
   */
  keyOf(ref, k) {
    const { xy } = this.pieces[pieceOf(ref)], at = this.at(ref, k);
    return `${xy[at]} ${xy[at + 1]}`;
  }

  /**
   * The way that a border goes at first.
   * @param {number} ref
   * @returns {[number, number]}
   */
  way(ref) {
    const { xy } = this.pieces[pieceOf(ref)], at = this.at(ref, 0), next = this.at(ref, 1);
    return [xy[next] - xy[at], xy[next + 1] - xy[at + 1]];
  }

  /**
   * The border that goes on where one ends, with the same face on its left: the next one clockwise from the way back.
   * @param {number} ref
   */
  next(ref) {
    const others = /** @type {number[]} */ (this.from.get(this.keyOf(~ref, 0))).filter(other => other !== ~ref);
    if (others.length < 2) return others.length ? others[0] : ~ref;
    const back = this.way(~ref);
    return others.reduce((best, other) => isSooner(back, this.way(other), this.way(best)) ? other : best);
  }

  /**
   * The borders around a face, from one of them on.
   * @param {number} first
   * @returns {Steps<number[]>}
   */
  *around(first) {
    const refs = [];
    let ref = first;
    do {
      refs.push(ref);
      ref = this.next(ref);
      if (this.pace.isTime(1)) yield;
    } while (ref !== first);
    return refs;
  }

  /**
   * An outline of borders, each position once.
   * @param {number[]} refs
   * @returns {Steps<Outline>}
   */
  *outline(refs) {
    const size = refs.reduce((sum, ref) => sum + this.lengthOf(ref), 0), way = new Float64Array(2 * size);
    let end = 0;
    for (const ref of refs) {
      const { xy } = this.pieces[pieceOf(ref)], length = this.lengthOf(ref);
      for (let k = 0; k < length; k++) {
        const at = this.at(ref, k);
        way[end++] = xy[at];
        way[end++] = xy[at + 1];
      }
      if (this.pace.isTime(length)) yield;
    }
    return { way, box: boxOf(way), area: yield* doubledArea(way, this.pace) };
  }

  /**
   * How many segments a border has.
   * @param {number} ref
   */
  lengthOf(ref) {
    const { from, to } = this.pieces[pieceOf(ref)];
    return (to - from) / 2 - 1;
  }

  /**
   * The borders that have the segments which name faces: of each face the border that goes the same way, if there is
   * one.
   * @param {Named[]} faces
   * @returns {Steps<(number | undefined)[]>}
   */
  *named(faces) {
    /** @type {Map<number, number[]>} */
    const byX = new Map();
    faces.forEach(({ segment: [x] }, i) => byX.set(x, [...byX.get(x) ?? [], i]));
    /** @type {(number | undefined)[]} */
    const found = faces.map(() => undefined);
    for (const ref of this.all) {
      const { xy } = this.pieces[pieceOf(ref)], length = this.lengthOf(ref);
      for (let k = 0; k < length; k++) {
        const at = this.at(ref, k), wanted = byX.get(xy[at]);
        if (!wanted) continue;
        const next = this.at(ref, k + 1), way = [xy[at], xy[at + 1], xy[next], xy[next + 1]];
        for (const i of wanted) if (faces[i].segment.every((v, j) => v === way[j])) found[i] = ref;
      }
      if (this.pace.isTime(length)) yield;
    }
    return found;
  }

  /**
   * The outlines of all islands of the layer: what lies around borders that hang together.
   * @returns {Steps<Outline[]>}
   */
  *islands() {
    /** @type {Outline[]} */
    const islands = [];
    /** @type {Set<number>} */
    const seen = new Set();
    for (const ref of this.all) {
      if (seen.has(ref)) continue;
      const refs = yield* this.around(ref), outline = yield* this.outline(refs);
      for (const each of refs) seen.add(each);
      if (outline.area < 0n) islands.push(outline);
    }
    return islands;
  }

  /**
   * The islands that lie in a face, and in no other island there.
   * @param {Outline} outline
   * @returns {Steps<Outline[]>}
   */
  *islandsIn(outline) {
    this.found ??= yield* this.islands();
    /** @type {Outline[]} */
    const within = [];
    for (const island of this.found) {
      // what the outline is part of reaches to its box at least
      const [x0, y0, x1, y1] = island.box, [u0, v0, u1, v1] = outline.box;
      const isNear = x0 > u0 && y0 > v0 && x1 < u1 && y1 < v1;
      if (isNear && (yield* isInside(island.way, outline.way, this.pace))) within.push(island);
    }
    const outer = [];
    for (const island of within) if (!(yield* this.isInOther(island, within))) outer.push(island);
    return outer;
  }

  /**
   * @param {Outline} island
   * @param {Outline[]} others
   * @returns {Steps<boolean>}
   */
  *isInOther(island, others) {
    for (const other of others) {
      if (other === island || !meets(other.box, island.box)) continue;
      if (yield* isInside(island.way, other.way, this.pace)) return true;
    }
    return false;
  }

  /**
   * The shape of a face that a border has on its left.
   * @param {number} ref
   * @param {bigint} area twice that of the face
   * @returns {Steps<Shape>}
   */
  *shape(ref, area) {
    const outline = yield* this.outline(yield* this.around(ref)), { way, box } = outline;
    const islands = outline.area === area ? [] : yield* this.islandsIn(outline);
    const sum = islands.reduce((all, island) => all + island.area, outline.area);
    const ways = [way, ...islands.map(island => island.way)];
    return { ways, box, isWhole: sum === area, place: yield* widestRow(ways, box, this.pace) };
  }
}

/**
 * Whether of two ways out of a position the one comes sooner than the other, clockwise from the way back.
 * @param {[number, number]} back
 * @param {[number, number]} one
 * @param {[number, number]} other
 */
function isSooner(back, one, other) {
  const half = quarter(back, one), otherHalf = quarter(back, other);
  return half === otherHalf ? exactSign(one, other) < 0 : half < otherHalf;
}

/**
 * In which part of the turn clockwise from the way back a way lies: before half of it, at half of it, or behind that.
 * @param {[number, number]} back
 * @param {[number, number]} way
 */
const quarter = (back, way) => 1 + exactSign(back, way);

/**
 * The shapes of faces, as the map was when the faces were found; nothing for one whose segment is no border.
 * @param {Shot} shot
 * @param {Named[]} faces
 * @returns {Steps<(Shape | null)[]>}
 */
export function* shapesOf(shot, faces) {
  const pace = new Pace();
  /** @type {(Shape | null)[]} */
  const shapes = faces.map(() => null);
  for (const layer of new Set(faces.map(face => face.layer))) {
    const own = [...faces.keys()].filter(i => faces[i].layer === layer), borders = new Borders(shot, pace);
    yield* borders.take(yield* bordersOf(shot, layer, pace));
    const refs = yield* borders.named(own.map(i => faces[i]));
    for (let k = 0; k < own.length; k++) {
      const ref = refs[k];
      if (ref !== undefined) shapes[own[k]] = yield* borders.shape(ref, BigInt(faces[own[k]].area));
    }
  }
  return shapes;
}
