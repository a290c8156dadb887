// @ts-check
/** A line that the user draws: a cut, a reshape, or a way that is measured. */
import { by } from "./dom.js";
import { answerText, TEXT } from "./words.js";

/** @typedef {import("./features.js").PathPoint} PathPoint */
/** @typedef {"cut" | "reshape" | "measure"} Kind */

/**
 * the kinds, which are the names of their buttons too
 * @type {Kind[]}
 */
const KINDS = ["cut", "reshape", "measure"];
/** pixels within which a point is meant */
const NEAR = 10;
const HINTS = { cut: TEXT.hintCut, reshape: TEXT.hintReshape, measure: TEXT.hintMeasure };

export class Sketch {
  /** @param {import("./tools.js").Tools} tools */
  constructor(tools) {
    this.tools = tools;
    /** @type {Kind | null} */
    this.kind = null;
    /** @type {PathPoint[]} */
    this.path = [];
    /** whether a measured way is closed */
    this.isClosed = false;
    /** when a line became whole */
    this.endedAt = -Infinity;
    /**
     * the newest point under way
     * @type {Promise<any>}
     */
    this.turn = Promise.resolve();
  }

  /** @param {Kind} kind */
  toggle(kind) {
    if (kind !== "measure" && !this.tools.editor.canEdit) return;
    if (this.kind === kind) this.stop(); else this.begin(kind);
  }

  /** @param {Kind | null} kind */
  begin(kind) {
    this.kind = kind;
    this.path = [];
    this.isClosed = false;
    for (const name of KINDS) by(name).setAttribute("aria-pressed", String(name === kind));
    this.tools.panel.hint(kind ? HINTS[kind] : "");
    if (kind) by("said").textContent = HINTS[kind];
    this.tools.view.redrawOver();
  }

  stop() { this.begin(null); }

  /** A point at the pointer. Points follow each other as they were clicked, though border_edit is asked for some. */
  click() {
    const { tools } = this;
    tools.look();
    if (this.kind === "measure") { this.measure(); return; }
    const { vertex, segment } = tools, [x, y] = vertex ?? (segment ? tools.onSegment(segment) : tools.grid());
    const spot = { x, y, segment: vertex ? null : segment };
    this.turn = this.turn.then(() => this.add(spot)).catch(fault => tools.editor.fail(fault));
    return this.turn;
  }

  /** @param {PathPoint} spot */
  async add(spot) {
    const last = this.path[this.path.length - 1];
    // the second click of a double click
    if (!this.kind || (last && last.x === spot.x && last.y === spot.y)) return;
    const { editor, panel, view } = this.tools, isVertex = editor.model.places(spot.x, spot.y).length > 0;
    const point = isVertex ? { ...spot, segment: null } : spot;
    if (!this.path.length && !isVertex && !point.segment) { panel.hint(TEXT.hintBegin); return; }
    if (point.segment) {
      const answer = await editor.talk.attempt(`insert ${point.segment.join(" ")} ${point.x} ${point.y}`);
      if (answer !== "ok") { panel.note(TEXT.refused, answerText(answer), answer); return; }
    }
    this.path.push(point);
    view.redrawOver();
    if (this.path.length > 1 && (isVertex || point.segment)) await this.end();
  }

  /** The line is whole. */
  async end() {
    const { kind, path } = this, { features } = this.tools;
    this.stop();
    this.endedAt = performance.now();
    if (kind === "cut") await features.cut(path); else await features.reshape(path);
  }

  // ---- measuring

  measure() {
    if (this.isClosed) { this.path = []; this.isClosed = false; }
    const [x, y] = this.tools.vertex || this.tools.grid(), [first] = this.path;
    const last = this.path[this.path.length - 1];
    if (first && this.path.length > 2 && this.isNear(first)) this.isClosed = true;
    else if (!last || last.x !== x || last.y !== y) this.path.push({ x, y, segment: null });
    this.tellMeasure();
  }

  /**
   * Whether the pointer is at a point.
   * @param {PathPoint} point
   */
  isNear({ x, y }) {
    const { view, pointer } = this.tools, [sx, sy] = view.screen(x, y);
    return Math.hypot(sx - pointer.x, sy - pointer.y) < NEAR;
  }

  /** Takes the last point back. */
  dropPoint() {
    if (this.isClosed) this.isClosed = false; else this.path.pop();
    if (this.kind === "measure") this.tellMeasure();
    this.tools.view.redrawOver();
  }

  tellMeasure() {
    const { panel } = this.tools, way = this.path.flatMap(point => [point.x, point.y]);
    const text = way.length < 4 ? TEXT.hintMeasure : this.isClosed ? panel.measures.outline(way) : panel.measures.way(way);
    panel.hint(text);
    by("said").textContent = text;
    this.tools.view.redrawOver();
  }
}
