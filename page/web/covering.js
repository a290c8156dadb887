// @ts-check
/**
 * Overlaps and gaps: looking for them, and where they are in the map; their list stands in found.js. border_cover looks
 * at the map as it is at that moment. What is edited meanwhile, or afterwards, changes nothing of what was found, but
 * makes it out of date.
 */
import { by } from "./dom.js";
import { drawChain } from "./marks.js";
import { Found } from "./found.js";
import { shapesOf } from "./faces.js";
import { actsBetween } from "./lines.js";
import { TalkFault } from "./talk.js";
import { inTurns } from "./turns.js";
import { coverFaultText, TEXT } from "./words.js";

/** @typedef {import("./found.js").Face} Face */
/**
 * A look that has begun: its number, the map as it was then, how many entries the log had, and the greatest width that
 * is asked for, if any.
 * @typedef {{look: number, shot: import("./pieces.js").Shot, entries: number, width: string}} Begun
 */

const CURRENT = "#ffd24a", EDGE = "#23272e";
/** the greatest width that can be asked for */
const WIDEST = 1e12;

/** What stops a look, in words. */
class NotLooked extends Error {}

export class Covering {
  /**
   * @param {import("./editor.js").Editor} editor
   * @param {import("./panel.js").Panel} panel
   */
  constructor(editor, panel) {
    this.editor = editor;
    this.found = new Found(panel, face => this.goTo(face), () => this.draw());
    /** the newest look, which replaces those before */
    this.newest = 0;
    this.isLooking = false;
    /** why nothing was found out */
    this.problem = "";
    /** how many entries the log had when what is listed was looked at; below 0 where nothing is listed */
    this.entries = -1;
    this.isOld = false;
    /**
     * the face that was gone to
     * @type {Face | null}
     */
    this.current = null;
    editor.watchers.push(() => this.follow());
    editor.view.layers.push(ctx => this.paint(ctx));
    by("coverForm").addEventListener("submit", (/** @type {Event} */ e) => { e.preventDefault(); this.look(); });
    by("coverClear").addEventListener("click", () => this.clear());
  }

  // ---- looking

  /** Looks at the map as it is. */
  async look() {
    const newest = ++this.newest, isNewest = () => newest === this.newest;
    this.isLooking = true;
    this.problem = "";
    this.tell(TEXT.coverLooking);
    try {
      const begun = await this.begin(isNewest), report = begun && (await this.editor.talk.looked(begun.look));
      if (report?.fault) throw new NotLooked(TEXT.coverFailed(coverFaultText(report.fault)));
      if (begun && report && isNewest()) await this.take(begun, report, isNewest);
    } catch (fault) {
      if (isNewest()) this.fail(fault);
    } finally {
      if (isNewest()) { this.isLooking = false; this.follow(); }
    }
  }

  /**
   * Begins to look, once border_cover is there; nothing where another look has begun meanwhile.
   * @param {() => boolean} isNewest
   * @returns {Promise<Begun | null>}
   */
  async begin(isNewest) {
    const { editor } = this, { talk } = editor, width = widthIn(by("coverWidth"));
    while (await talk.isBuilding()) {
      if (!isNewest()) return null;
      this.tell(TEXT.coverBuilding);
    }
    if (!isNewest()) return null;
    this.tell(TEXT.coverLooking);
    // no edit is under way then, so the model is the map that border_cover is given
    return editor.queue(async () => {
      if (editor.isLocked) throw new NotLooked(TEXT.coverThinning);
      const shot = editor.model.shot(), entries = editor.log.length, { look, missing, proved } = await talk.look(width);
      if (missing) throw new NotLooked(TEXT.coverMissing);
      if (!proved) by("unproved").hidden = false;
      return { look, shot, entries, width };
    });
  }

  /**
   * Lists what was found, and draws it.
   * @param {Begun} begun
   * @param {import("./talk.js").Report} report
   * @param {() => boolean} isNewest
   */
  async take({ shot, entries, width }, report, isNewest) {
    const layers = new Map(shot.features.map(({ num, layer }) => [num, layer]));
    const faces = report.faces.map(face => {
      // the program numbers features in the order of the text
      const features = face.features.map(place => shot.order[place]);
      return { ...face, features, layer: layers.get(features[0]) ?? -1 };
    });
    const shapes = await inTurns(shapesOf(shot, faces), isNewest);
    if (!shapes) return;
    const uneven = report.uneven.map(each => ({ ...each, feature: shot.order[each.feature] }));
    this.entries = entries;
    this.current = null;
    this.follow();
    const numbered = faces.map((face, i) => ({ ...face, number: i + 1, shape: shapes[i] }));
    await this.found.show({ ...report, faces: numbered, uneven }, width);
  }

  /** Takes away what was found. */
  clear() {
    this.newest++;
    this.isLooking = false;
    this.entries = -1;
    this.problem = "";
    this.current = null;
    this.found.clear();
    this.follow();
    by("look").focus();
  }

  /** @param {any} fault */
  fail(fault) {
    if (fault instanceof NotLooked) { this.problem = fault.message; return; }
    const isSaid = fault instanceof TalkFault && fault.status === 409 && !fault.isClosed;
    this.problem = TEXT.coverFailed(isSaid ? fault.message : TEXT.noAnswer);
    if (!isSaid) this.editor.fail(fault);
  }

  // ---- what the page says of it

  /** What is true once something has changed: what is listed may be out of date, and features may have other names. */
  follow() {
    const { editor, entries, isOld: wasOld } = this, acts = entries < 0 ? 0 : actsBetween(editor.log.slice(entries));
    by("look").disabled = !editor.canEdit;
    if (!this.isLooking) this.tell(this.problem);
    this.isOld = acts > 0;
    by("coverAge").hidden = by("coverClear").hidden = entries < 0;
    setText("coverAge", this.isOld ? TEXT.coverOld(acts) : TEXT.coverNow);
    for (const id of ["coverAge", "coverFound"]) by(id).classList.toggle("old", this.isOld);
    this.found.nameAnew();
    if (this.isOld !== wasOld) this.draw();
  }

  /** @param {string} text */
  tell(text) {
    by("coverState").hidden = !text;
    setText("coverState", text);
  }

  // ---- in the map

  /** Draws the faces of the kinds that are shown. */
  draw() {
    const { view } = this.editor, faces = this.found.drawn();
    view.covered = faces.length ? { faces, isOld: this.isOld } : null;
    view.change();
  }

  /** @param {Face} face */
  goTo(face) {
    const [x, y, u, v] = face.segment;
    const [x0, y0, x1, y1] = face.shape?.box ?? [Math.min(x, u), Math.min(y, v), Math.max(x, u), Math.max(y, v)];
    const edge = Math.max(x1 - x0, y1 - y0, 4) / 2;
    this.current = face;
    this.editor.view.fit([x0 - edge, y0 - edge, x1 + edge, y1 + edge]);
  }

  /**
   * Draws a line along the face that was gone to.
   * @param {CanvasRenderingContext2D} ctx
   */
  paint(ctx) {
    const { current, editor } = this;
    if (!current || !this.found.isShown(current)) return;
    const ways = current.shape?.ways.map(way => [...way, way[0], way[1]]) ?? [current.segment];
    for (const [style, width] of /** @type {[string, number][]} */ ([[EDGE, 6], [CURRENT, 3]])) {
      for (const way of ways) drawChain(ctx, editor.view, way, style, width);
    }
  }
}

/**
 * The greatest width that is asked for; nothing where there is none.
 * @param {HTMLInputElement} field
 */
function widthIn(field) {
  const text = field.value.trim(), isWhole = /^[0-9]{1,13}$/.test(text) && Number(text) <= WIDEST;
  if (!isWhole && (text || field.validity.badInput)) throw new NotLooked(TEXT.coverWidth);
  return text;
}

/**
 * Sets a text where it is another one, so that it is not said twice.
 * @param {string} id
 * @param {string} text
 */
function setText(id, text) {
  if (by(id).textContent !== text) by(id).textContent = text;
}
