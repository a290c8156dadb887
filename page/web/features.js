// @ts-check
/** Acts on whole features: merging, cutting, reshaping, naming, taking out. */
import { Stopped } from "./editor.js";
import { ask, choose } from "./dialogs.js";
import { twiceArea } from "./units.js";
import { TEXT } from "./words.js";

/** @typedef {import("./editor.js").Editor} Editor */
/** @typedef {import("./panel.js").Panel} Panel */
/**
 * A position of a drawn line; where it lies on a border and is no vertex, the segment that is to have it.
 * @typedef {{x: number, y: number, segment: [number, number, number, number] | null}} PathPoint */

export class Features {
  /**
   * @param {Editor} editor
   * @param {Panel} panel
   */
  constructor(editor, panel) {
    this.editor = editor;
    this.panel = panel;
  }

  /** Joins the selected features to the first one, as far as each has a border with what is joined by then. */
  async merge() {
    const [first, ...others] = this.editor.selected;
    if (!others.length) return;
    const isKept = await this.editor.perform(async send => {
      while (others.length) {
        const near = await this.editor.neighboursOf(first), at = others.findIndex(num => near.includes(num));
        const [next] = others.splice(Math.max(0, at), 1);
        await send(`merge ${first} ${next}`);
      }
    });
    if (isKept) this.editor.select([first]);
  }

  async rename() {
    const [num] = this.editor.selected, feature = this.editor.model.features.get(num);
    if (!feature) return;
    const { id } = feature, old = typeof id === "string" ? id : id === undefined ? "" : JSON.stringify(id);
    const text = await ask(TEXT.newId, old);
    if (text !== null) await this.editor.edit(`rename ${num} ${JSON.stringify(text)}`);
  }

  async remove() {
    const lines = this.editor.selected.map(num => `delete ${num}`);
    if (lines.length) await this.editor.perform(send => send(...lines));
  }

  /**
   * The feature in which a drawn line runs.
   * @param {PathPoint[]} path
   */
  async cutFeature(path) {
    const [a, b] = path;
    const [x, y] = path.length > 2 ? [b.x, b.y] : [Math.round((a.x + b.x) / 2), Math.round((a.y + b.y) / 2)];
    const inside = this.panel.layers.hit((await this.editor.featuresAt(x, y)).inside);
    return inside.find(num => this.editor.selected.includes(num)) ?? inside[0];
  }

  /**
   * Cuts a feature in two along a drawn line.
   * @param {PathPoint[]} path
   */
  async cut(path) {
    const num = await this.cutFeature(path);
    if (num === undefined) { this.panel.note(TEXT.nothingDone, TEXT.cutOutside); return; }
    const name = this.panel.nameOf(num), id = await ask(TEXT.partId(name), `${name} 2`);
    if (id === null) return;
    let part = NaN;
    const isKept = await this.editor.perform(async send => {
      const answers = await send(...insertLines(path), splitLine(num, id, path));
      part = Number(answers[answers.length - 1].slice(3));
    });
    if (isKept) this.editor.select([part]);
  }

  /**
   * Gives what a drawn line cuts off to the neighbour there: a cut and a merge.
   * @param {PathPoint[]} path
   */
  async reshape(path) {
    const num = await this.cutFeature(path);
    if (num === undefined) { this.panel.note(TEXT.nothingDone, TEXT.cutOutside); return; }
    let taker = NaN;
    const isKept = await this.editor.perform(async send => {
      const inserts = insertLines(path);
      if (inserts.length) await send(...inserts);
      const [answer] = await send(splitLine(num, TEXT.partOfReshape, this.smallerLast(num, path)));
      const part = Number(answer.slice(3));
      taker = await this.takerOf(part, num);
      await send(`merge ${taker} ${part}`);
    });
    if (isKept) this.editor.select([taker]);
  }

  /**
   * The line in the direction in which the new part of a split is the smaller one.
   * @param {number} num
   * @param {PathPoint[]} path
   */
  smallerLast(num, path) {
    const { model } = this.editor, ends = [path[0], path[path.length - 1]];
    for (const polygon of model.features.get(num)?.polygons ?? []) {
      const ring = model.positions(polygon[0]);
      const [from, to] = ends.map(end => placeIn(ring, end));
      if (from < 0 || to < 0) continue;
      const back = path.slice().reverse();
      const first = [...stretch(ring, from, to), ...wayOf(back)], second = [...stretch(ring, to, from), ...wayOf(path)];
      return Math.abs(twiceArea(second)) <= Math.abs(twiceArea(first)) ? path : back;
    }
    return path;
  }

  /**
   * The neighbour that gets a part that was cut off.
   * @param {number} part
   * @param {number} from
   */
  async takerOf(part, from) {
    const { layers } = this.panel;
    const near = (await this.editor.neighboursOf(part)).filter(num => num !== from && layers.of(num) === layers.of(from));
    const [wanted] = this.editor.selected.filter(num => near.includes(num));
    if (wanted !== undefined) return wanted;
    if (!near.length) throw new Stopped(TEXT.noTaker);
    if (near.length === 1) return near[0];
    const chosen = await choose(TEXT.chooseTaker, near.map(num => this.panel.nameOf(num)));
    if (chosen === null) throw new Stopped("");
    return near[chosen];
  }
}

/** @param {PathPoint[]} path */
const wayOf = path => path.flatMap(({ x, y }) => [x, y]);

/**
 * Where a position stands in a ring; below 0 where it does not.
 * @param {number[]} ring
 * @param {{x: number, y: number}} point
 */
function placeIn(ring, { x, y }) {
  for (let k = 0; k < ring.length; k += 2) if (ring[k] === x && ring[k + 1] === y) return k / 2;
  return -1;
}

/**
 * The positions of a ring from one place to another, both of them.
 * @param {number[]} ring
 * @param {number} from
 * @param {number} to
 */
function stretch(ring, from, to) {
  const count = ring.length / 2, way = [ring[2 * from], ring[2 * from + 1]];
  for (let k = from; k !== to;) { k = (k + 1) % count; way.push(ring[2 * k], ring[2 * k + 1]); }
  return way;
}

/**
 * @param {number} num
 * @param {string} id
 * @param {PathPoint[]} path
 */
const splitLine = (num, id, path) => `split ${num} ${JSON.stringify(id)} ${path.map(({ x, y }) => `${x} ${y}`).join(" ")}`;

/**
 * The lines that make vertices of the positions on borders.
 * @param {PathPoint[]} path
 * @returns {string[]}
 */
export function insertLines(path) {
  /** @type {PathPoint[]} */
  const before = [];
  /** @type {string[]} */
  const lines = [];
  for (const point of path) {
    if (!point.segment) continue;
    let [ax, ay, bx, by] = point.segment;
    // an earlier position has cut the same segment in two
    const same = before.find(other => String(other.segment) === String(point.segment));
    if (same && share(point.segment, point) > share(point.segment, same)) [ax, ay] = [same.x, same.y];
    else if (same) [bx, by] = [same.x, same.y];
    lines.push(`insert ${ax} ${ay} ${bx} ${by} ${point.x} ${point.y}`);
    before.push(point);
  }
  return lines;
}

/**
 * How far along a segment a position stands: 0 at its begin, 1 at its end.
 * @param {number[]} segment
 * @param {{x: number, y: number}} point
 */
export function share([ax, ay, bx, by], { x, y }) {
  const ux = bx - ax, uy = by - ay;
  return ((x - ax) * ux + (y - ay) * uy) / (ux * ux + uy * uy);
}
