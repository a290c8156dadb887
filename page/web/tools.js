// @ts-check
/** What the pointer does on the map: pointing, dragging, clicking. Keys stand in keys.js, drawn lines in sketch.js. */
import { Sketch } from "./sketch.js";
import { share } from "./features.js";
import { by } from "./dom.js";
import { TEXT } from "./words.js";

/** @typedef {import("./editor.js").Editor} Editor */
/**
 * A vertex that is dragged: where it was, where it is, and what border_edit would say.
 * @typedef {object} Carried
 * @property {"vertex"} kind
 * @property {number} x
 * @property {number} y
 * @property {number} u
 * @property {number} v
 * @property {[number, number][]} places pieces that have it
 * @property {[number, number][]} near positions that are joined to it
 * @property {{x: number, y: number}} from where the pointer took it
 * @property {boolean} isMoved
 * @property {string} answer
 * @property {boolean} isTrying
 */
/** @typedef {{kind: "pan", x: number, y: number, isMoved: boolean}} Pan */

/** pixels within which a vertex and a border are taken, and from which on a press is a drag */
const NEAR_VERTEX = 9, NEAR_BORDER = 7, DRAG = 4;
/** milliseconds within which two clicks may be a double click */
const DOUBLE = 600;

export class Tools {
  /**
   * @param {Editor} editor
   * @param {import("./panel.js").Panel} panel
   * @param {import("./features.js").Features} features
   */
  constructor(editor, panel, features) {
    this.editor = editor;
    this.panel = panel;
    this.features = features;
    this.view = editor.view;
    this.map = by("map");
    /**
     * under the pointer
     * @type {[number, number] | null}
     */
    this.vertex = null;
    /** @type {[number, number, number, number] | null} */
    this.segment = null;
    /** @type {number | null} */
    this.feature = null;
    /** @type {Carried | Pan | null} */
    this.drag = null;
    /**
     * a vertex that was let go, until the answer is there
     * @type {Carried | null}
     */
    this.held = null;
    this.sketch = new Sketch(this);
    this.pointer = { x: 0, y: 0 };
    /** whether the pointer is moved by keys, so that it has to be drawn */
    this.isByKeys = false;
    this.isAsking = false;
    this.listen();
  }

  listen() {
    const { map } = this, onMap = (/** @type {Event} */ e) => e.target === map || e.target instanceof HTMLCanvasElement;
    map.addEventListener("pointerdown", (/** @type {PointerEvent} */ e) => { if (onMap(e)) this.down(e); });
    map.addEventListener("pointermove", (/** @type {PointerEvent} */ e) => { if (onMap(e) || this.drag) this.move(e); });
    map.addEventListener("pointerup", (/** @type {PointerEvent} */ e) => this.up(e));
    map.addEventListener("pointercancel", () => this.cancel());
    map.addEventListener("pointerleave", () => { if (!this.drag && !this.isByKeys) this.forget(); });
    map.addEventListener("dblclick", (/** @type {MouseEvent} */ e) => { if (onMap(e)) this.twice(e); });
    map.addEventListener("wheel", (/** @type {WheelEvent} */ e) => this.wheel(e), { passive: false });
  }

  /** @param {WheelEvent} e */
  wheel(e) {
    e.preventDefault();
    const [x, y] = this.at(e);
    this.view.zoom(Math.exp(-e.deltaY * (e.deltaMode ? 0.05 : 0.0016)), x, y);
  }

  /**
   * @param {MouseEvent} e
   * @returns {[number, number]}
   */
  at(e) { const box = this.map.getBoundingClientRect(); return [e.clientX - box.left, e.clientY - box.top]; }

  /**
   * The position of the grid at the pointer.
   * @returns {[number, number]}
   */
  grid() {
    const [x, y] = this.view.place(this.pointer.x, this.pointer.y);
    return [Math.round(x), Math.round(y)];
  }

  /** @param {MouseEvent} e */
  pointAt(e) {
    this.isByKeys = false;
    [this.pointer.x, this.pointer.y] = this.at(e);
  }

  /** The pointer goes to the middle of the map. */
  centre() {
    this.pointer = { x: Math.round(this.view.width / 2), y: Math.round(this.view.height / 2) };
    this.look();
  }

  forget() {
    this.vertex = this.segment = this.feature = null;
    this.view.redrawOver();
  }

  /** What is under the pointer. */
  look() {
    const { view, editor } = this, [x, y] = view.place(this.pointer.x, this.pointer.y);
    if (!editor.model) return;
    // with the whole of a large map on the screen no vertex can be told from its neighbours
    const { hasVertices, kx, ky } = view;
    this.vertex = hasVertices ? editor.model.nearestVertex(x, y, NEAR_VERTEX / kx, NEAR_VERTEX / ky) : null;
    const isBorder = hasVertices && !this.vertex;
    this.segment = isBorder ? editor.model.nearestSegment(x, y, NEAR_BORDER / kx, NEAR_BORDER / ky) : null;
    this.map.style.cursor = this.sketch.kind ? "crosshair" : this.vertex ? "move" : this.segment ? "copy" : "default";
    view.redrawOver();
    this.tell();
    this.askFeature();
  }

  /** Which feature is here: border_edit says it. One question at a time. */
  async askFeature() {
    if (this.isAsking || this.editor.isClosed || this.drag || !this.editor.model) return;
    this.isAsking = true;
    try {
      for (;;) {
        const [x, y] = this.grid(), { inside } = await this.editor.featuresAt(x, y);
        this.feature = this.panel.layers.hit(inside)[0] ?? null;
        this.tell();
        this.view.redrawOver();
        const [u, v] = this.grid();
        if (u === x && v === y) break;
      }
    } catch (fault) {
      this.editor.fail(fault);
    } finally {
      this.isAsking = false;
    }
  }

  /** Where the pointer is, and on what. */
  tell() {
    const { units, layers } = this.panel, { drag } = this;
    const [x, y] = drag?.kind === "vertex" ? [drag.u, drag.v] : this.vertex || this.grid();
    const where = `${units.coordinate(x, 0)}, ${units.coordinate(y, 1)}`;
    by("where").textContent = units.hasUnit ? TEXT.where(where, x, y) : where;
    const on = this.vertex ? TEXT.vertexAt : this.segment ? TEXT.borderAt : "";
    const name = this.feature === null ? "" : TEXT.numbered(layers.nameOf(this.feature), this.feature);
    by("what").textContent = [on, name, this.view.hasVertices ? "" : TEXT.tooFar].filter(Boolean).join(", ");
    if (this.isByKeys) by("said").textContent = [on, name, where].filter(Boolean).join(", ");
  }

  // ---- pressing, moving, letting go

  /** @param {PointerEvent} e */
  down(e) {
    this.map.focus();
    this.pointAt(e);
    if (e.button > 1) return;
    this.look();
    if (e.button === 0 && this.vertex && !this.sketch.kind && this.editor.canEdit) this.take(this.vertex);
    else this.drag = { kind: "pan", x: e.clientX, y: e.clientY, isMoved: false };
    this.map.setPointerCapture(e.pointerId);
  }

  /**
   * Takes a vertex, to carry it.
   * @param {[number, number]} vertex
   */
  take([x, y]) {
    const { model } = this.editor;
    this.panel.hideNote();
    this.drag = {
      kind: "vertex", x, y, u: x, v: y, places: model.places(x, y), near: model.neighbours(x, y),
      from: { ...this.pointer }, isMoved: false, answer: "ok", isTrying: false,
    };
  }

  /** @param {PointerEvent} e */
  move(e) {
    this.pointAt(e);
    const { drag } = this;
    if (!drag) this.look();
    else if (drag.kind === "pan") this.pan(drag, e);
    else {
      const { x, y } = drag.from, distance = Math.hypot(this.pointer.x - x, this.pointer.y - y);
      if (drag.isMoved || distance >= DRAG) this.carry(drag);
    }
  }

  /**
   * @param {Pan} drag
   * @param {PointerEvent} e
   */
  pan(drag, e) {
    const dx = e.clientX - drag.x, dy = e.clientY - drag.y;
    if (!drag.isMoved && Math.hypot(dx, dy) < DRAG) return;
    drag.isMoved = true;
    this.map.style.cursor = "grabbing";
    this.view.pan(dx, dy);
    drag.x = e.clientX;
    drag.y = e.clientY;
  }

  /**
   * The vertex follows the pointer.
   * @param {Carried} drag
   */
  carry(drag) {
    if (!drag.isMoved) {
      drag.isMoved = true;
      // the pieces with the vertex are drawn above the map while it moves
      this.view.without = new Set(drag.places.map(([piece]) => piece));
      this.view.change();
    }
    [drag.u, drag.v] = this.grid();
    this.view.redrawOver();
    this.tell();
    this.tryDrag(drag);
  }

  /**
   * Asks whether a carried vertex may stand where it is.
   * @param {Carried} drag
   */
  async tryDrag(drag) {
    if (drag.isTrying) return;
    drag.isTrying = true;
    try {
      while (this.drag === drag) {
        const { u, v } = drag, isBack = u === drag.x && v === drag.y;
        const answer = isBack ? "ok" : await this.editor.talk.attempt(`move ${drag.x} ${drag.y} ${u} ${v}`);
        if (answer !== drag.answer) this.view.redrawOver();
        drag.answer = answer;
        if (drag.u === u && drag.v === v) break;
      }
    } catch (fault) {
      this.editor.fail(fault);
    } finally {
      drag.isTrying = false;
    }
  }

  /** @param {PointerEvent} e */
  async up(e) {
    const { drag } = this;
    if (!drag) return;
    // the cursor stays as it is until there is an answer: another one is a frame to draw, for which the answer would wait
    this.drag = null;
    if (drag.kind === "vertex" && drag.isMoved) await this.putDown(drag);
    else if (!drag.isMoved && e.button === 0) await this.click(e.shiftKey || e.ctrlKey || e.metaKey);
    this.look();
  }

  /**
   * A carried vertex goes where it is.
   * @param {Carried} drag
   */
  async putDown(drag) {
    this.drag = null;
    if (drag.u !== drag.x || drag.v !== drag.y) {
      this.held = drag;                 // stays drawn until the answer is there
      await this.editor.edit(`move ${drag.x} ${drag.y} ${drag.u} ${drag.v}`);
      this.held = null;
    }
    this.view.without = null;
    this.view.change();
  }

  /** A carried vertex goes back. */
  cancel() {
    this.drag = this.held = null;
    this.view.without = null;
    this.view.change();
  }

  /** @param {boolean} isMore whether what is selected stays selected */
  async click(isMore) {
    if (this.sketch.kind) await this.sketch.click(); else await this.select(isMore);
  }

  /** @param {boolean} isMore */
  async select(isMore) {
    const { editor, panel } = this, [x, y] = this.grid();
    panel.hideNote();
    const { inside, border } = await editor.featuresAt(x, y).catch(() => ({ inside: [], border: [] }));
    const found = panel.layers.hit(inside), all = found.length ? found : panel.layers.hit(border);
    // where features lie over each other, each click takes the next one
    const now = editor.selected.length === 1 && !isMore ? all.indexOf(editor.selected[0]) : -1;
    const num = all[all.length ? (now + 1) % all.length : 0];
    const others = isMore ? editor.selected.filter(other => other !== num) : [], isOut = isMore && others.length < editor.selected.length;
    if (num !== undefined || !isMore) editor.select(num === undefined || isOut ? others : [...others, num]);
    if (num !== undefined) by("said").textContent = TEXT.selectedOne(panel.nameOf(num));
  }

  // ---- vertices

  /** @param {MouseEvent} e */
  async twice(e) {
    // not where the first of the two clicks ended a line
    if (this.sketch.kind || performance.now() - this.sketch.endedAt < DOUBLE) return;
    this.pointAt(e);
    this.look();
    await this.insertHere();
  }

  /** Puts a vertex on the border under the pointer. */
  async insertHere() {
    if (!this.view.hasVertices) this.panel.note("", TEXT.zoomIn);
    if (this.vertex || !this.segment || !this.editor.canEdit) return;
    const [x, y] = this.onSegment(this.segment);
    await this.editor.edit(`insert ${this.segment.join(" ")} ${x} ${y}`);
    this.look();
  }

  /**
   * The position of the grid on a segment that is next to the pointer.
   * @param {[number, number, number, number]} segment
   * @returns {[number, number]}
   */
  onSegment(segment) {
    const [x, y] = this.view.place(this.pointer.x, this.pointer.y), [ax, ay, bx, by] = segment, t = share(segment, { x, y });
    return [Math.round(ax + t * (bx - ax)), Math.round(ay + t * (by - ay))];
  }

  async removeHere() {
    if (!this.vertex && this.editor.selected.length) this.panel.note("", TEXT.howToDelete);
    if (!this.vertex || !this.editor.canEdit) return;
    await this.editor.edit(`remove ${this.vertex[0]} ${this.vertex[1]}`);
    this.look();
  }
}
