// @ts-check
/** Keys: all that the pointer does can be done with them. */
import { isAsking, showHelp } from "./dialogs.js";
import { by } from "./dom.js";
import { TEXT } from "./words.js";

/** @typedef {import("./tools.js").Tools} Tools */

/** pixels of a step of the cursor: usual, with Ctrl; of the map with Shift; and how near to an edge the map moves along */
const STEP = 12, SMALL_STEP = 1, PAN = 90, EDGE = 40;
/** pixels within which V and B find a vertex and a border */
const FAR = 400;
/** @type {Record<string, [number, number]>} */
const ARROWS = { ArrowLeft: [-1, 0], ArrowRight: [1, 0], ArrowUp: [0, -1], ArrowDown: [0, 1] };

export class Keys {
  /**
   * @param {Tools} tools
   * @param {{save: () => void, thin: () => void, discard: () => boolean, cover: () => void}} acts
   */
  constructor(tools, acts) {
    this.tools = tools;
    this.acts = acts;
    const { editor, features, sketch } = tools, view = editor.view;
    const zoom = (/** @type {number} */ by) => this.zoom(by);
    /**
     * keys that are taken wherever no field is in use
     * @type {Record<string, (e: KeyboardEvent) => void>}
     */
    this.anywhere = {
      s: () => sketch.toggle("cut"), r: () => sketch.toggle("reshape"), d: () => sketch.toggle("measure"),
      m: () => { if (editor.canEdit) features.merge(); },
      F2: () => { if (editor.canEdit) features.rename(); },
      t: () => { if (editor.canEdit) acts.thin(); },
      f: () => view.fit(editor.model.extent()), o: () => acts.cover(),
      "/": () => by("find").focus(), "?": () => showHelp(),
      "+": () => zoom(1.5), "=": () => zoom(1.5), "-": () => zoom(1 / 1.5),
      Escape: () => this.stop(),
      Delete: e => { if (e.shiftKey) this.remove(); },
    };
    /**
     * keys that are taken on the map alone
     * @type {Record<string, (e: KeyboardEvent) => void>}
     */
    this.onMap = {
      Enter: e => this.at(() => tools.click(e.shiftKey)),
      " ": () => this.carry(),
      i: () => this.at(() => tools.insertHere()),
      v: () => this.jump("vertex"), b: () => this.jump("segment"),
      Delete: e => { if (e.shiftKey) this.remove(); else tools.removeHere(); },
      Backspace: () => { if (sketch.kind) sketch.dropPoint(); else tools.removeHere(); },
    };
    window.addEventListener("keydown", e => this.press(e));
  }

  /** @param {KeyboardEvent} e */
  press(e) {
    const { editor, map } = this.tools, target = /** @type {HTMLElement} */ (e.target);
    if (!editor.model || isAsking()) return;
    const key = e.key.length === 1 ? e.key.toLowerCase() : e.key;
    if (e.ctrlKey || e.metaKey) { this.pressWithCtrl(e, key); return; }
    if (e.altKey) return;
    const isField = target.matches("input, select, textarea"), isOnMap = this.isOnMap(target);
    if (isField) { if (key === "Escape") { if (!this.acts.discard()) map.focus(); } return; }
    if (isOnMap && ARROWS[key]) { e.preventDefault(); this.arrow(ARROWS[key], e.shiftKey, false); return; }
    const does = isOnMap ? this.onMap[key] ?? this.anywhere[key] : this.anywhere[key];
    if (!does) return;
    e.preventDefault();
    does(e);
    editor.view.redrawOver();
  }

  /** @param {HTMLElement} target */
  isOnMap(target) { return target === this.tools.map || target === document.body; }

  /**
   * @param {KeyboardEvent} e
   * @param {string} key
   */
  pressWithCtrl(e, key) {
    const { editor } = this.tools, target = /** @type {HTMLElement} */ (e.target);
    if (ARROWS[key] && this.isOnMap(target)) { e.preventDefault(); this.arrow(ARROWS[key], false, true); return; }
    if (key === "s") { e.preventDefault(); this.acts.save(); return; }
    if (target.matches("input[type=search], dialog input")) return;
    const isUndo = key === "z" && !e.shiftKey, isRedo = key === "y" || (key === "z" && e.shiftKey);
    if (!isUndo && !isRedo) return;
    e.preventDefault();
    if (this.acts.discard() || !editor.canEdit) return;
    if (isUndo) editor.undo(); else editor.redo();
  }

  /**
   * Moves the cursor, or the map.
   * @param {[number, number]} direction
   * @param {boolean} isMap
   * @param {boolean} isSmall
   */
  arrow([dx, dy], isMap, isSmall) {
    const { tools } = this, { view } = tools;
    if (isMap) { view.pan(-PAN * dx, -PAN * dy); this.moved(); return; }
    this.show();
    const step = isSmall ? SMALL_STEP : STEP;
    tools.pointer.x += step * dx;
    tools.pointer.y += step * dy;
    this.keepInSight();
    this.moved();
  }

  /** The map moves along where the cursor comes near an edge. */
  keepInSight() {
    const { pointer, view } = this.tools;
    const within = (/** @type {number} */ v, /** @type {number} */ size) => Math.min(Math.max(v, EDGE), size - EDGE);
    const x = within(pointer.x, view.width), y = within(pointer.y, view.height);
    if (x === pointer.x && y === pointer.y) return;
    view.pan(x - pointer.x, y - pointer.y);
    pointer.x = x;
    pointer.y = y;
  }

  /** What follows where the cursor has moved. */
  moved() {
    const { tools } = this;
    if (tools.drag?.kind === "vertex") tools.carry(tools.drag); else tools.look();
  }

  /** Shows the cursor; at first in the middle, where the pointer was not on the map before. */
  show() {
    const { tools } = this, { pointer } = tools;
    if (!tools.isByKeys && pointer.x === 0 && pointer.y === 0) tools.centre();
    tools.isByKeys = true;
  }

  /**
   * Does something at the cursor.
   * @param {() => any} does
   */
  at(does) {
    this.show();
    this.tools.look();
    return does();
  }

  /** Picks the vertex at the cursor up, or puts it down. */
  carry() {
    const { tools } = this, { drag } = tools;
    if (drag?.kind === "vertex") {
      tools.panel.hint("");
      if (drag.isMoved) tools.putDown(drag).then(() => tools.look()); else tools.cancel();
      return;
    }
    this.at(() => {
      if (!tools.vertex || tools.sketch.kind || !tools.editor.canEdit) return;
      this.putCursor(tools.vertex[0], tools.vertex[1]);
      tools.take(tools.vertex);
      tools.panel.hint(TEXT.hintCarry);
      by("said").textContent = TEXT.hintCarry;
    });
  }

  /**
   * The cursor goes to the nearest vertex or border.
   * @param {"vertex" | "segment"} kind
   */
  jump(kind) {
    this.show();
    const { tools } = this, { view, editor } = tools, [x, y] = view.place(tools.pointer.x, tools.pointer.y);
    const [dx, dy] = [FAR / view.kx, FAR / view.ky];
    if (kind === "vertex") {
      const vertex = editor.model.nearestVertex(x, y, dx, dy);
      if (vertex) this.putCursor(...vertex);
    } else {
      const segment = editor.model.nearestSegment(x, y, dx, dy);
      // in the middle of it, away from its ends
      if (segment) this.putCursor((segment[0] + segment[2]) / 2, (segment[1] + segment[3]) / 2);
    }
    this.moved();
  }

  /**
   * @param {number} x
   * @param {number} y
   */
  putCursor(x, y) {
    [this.tools.pointer.x, this.tools.pointer.y] = this.tools.view.screen(x, y);
    this.keepInSight();
  }

  /** @param {number} by */
  zoom(by) {
    const { view, pointer, isByKeys } = this.tools;
    if (isByKeys) view.zoom(by, pointer.x, pointer.y); else view.zoom(by, view.width / 2, view.height / 2);
    this.tools.look();
  }

  remove() { if (this.tools.editor.canEdit) this.tools.features.remove(); }

  /** Esc: what is under way ends, one thing after the other. */
  stop() {
    const { tools } = this, { editor, panel, sketch } = tools;
    if (tools.drag?.kind === "vertex") { tools.cancel(); panel.hint(""); } else if (sketch.kind) sketch.stop();
    else if (this.acts.discard()) return;
    else { panel.hideNote(); editor.select([]); }
  }
}
