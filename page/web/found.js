// @ts-check
/** The list of overlaps and gaps, what the areas add up to, and which kinds are shown. */
import { by, make } from "./dom.js";
import { inTurns } from "./turns.js";
import { readable } from "./units.js";
import { faceText, grouped, halved, TEXT } from "./words.js";

/** @typedef {import("./talk.js").Kind} Kind */
/**
 * A face: `features` are as the page numbers them, and `number` is its place in the list, from 1. Where it is in the
 * map is not known if there is no shape.
 * @typedef {import("./talk.js").ToldFace & {number: number, layer: number,
 *   shape: import("./faces.js").Shape | null}} Face
 */
/** @typedef {Omit<import("./talk.js").Report, "faces"> & {faces: Face[]}} Listed */

/** @type {Kind[]} */
const KINDS = ["overlap", "twice", "gap", "lake"];
/** names of features of a face, at most */
const MOST_NAMES = 5;

export class Found {
  /**
   * @param {import("./panel.js").Panel} panel
   * @param {(face: Face) => void} goTo
   * @param {() => void} redraw
   */
  constructor(panel, goTo, redraw) {
    this.panel = panel;
    this.goTo = goTo;
    this.redraw = redraw;
    /** @type {Face[]} */
    this.faces = [];
    /** @type {Set<Kind>} */
    this.hidden = new Set();
    /** of each face its row; rows are made anew where features go by other names */
    this.rows = new Map();
    this.named = "";
    /** the newest list, which replaces those before */
    this.newest = 0;
    by("faces").addEventListener("keydown", (/** @type {KeyboardEvent} */ e) => this.press(e));
    by("coverKinds").append(...KINDS.map(kind => this.choice(kind)));
  }

  /**
   * Shows what was found.
   * @param {Listed} listed
   * @param {string} width of what was asked for, at most
   */
  async show({ faces, uneven, wide, sums, counts }, width) {
    this.faces = faces;
    this.named = this.panel.layers.nameBy;
    // where there are many sums, the list is what is seen first
    if (by("coverFound").hidden) by("coverSums").open = sums.length === 1;
    by("coverFound").hidden = false;
    const tables = sums.flatMap(each => this.sum(each, sums.length > 1));
    by("sums").replaceChildren(...tables, make("p", TEXT.sumsNotch, "dim"));
    by("widths").replaceChildren(...wide.map(each => make("li", widthText(each))));
    by("coverWidths").hidden = !wide.length;
    by("uneven").replaceChildren(...uneven.map(each => this.unevenRow(each)));
    this.tellCounts(counts, width);
    this.redraw();
    await this.list();
  }

  /**
   * Says how many there are of each kind, and whether all are listed.
   * @param {Record<Kind, number>} counts
   * @param {string} width
   */
  tellCounts(counts, width) {
    const { faces } = this, listed = KINDS.map(kind => faces.filter(face => face.kind === kind).length);
    const texts = KINDS.map(kind => TEXT.coverKind(TEXT.coverKinds[kind], counts[kind]));
    KINDS.forEach((kind, i) => { by(`${kind}Count`).textContent = texts[i]; });
    by("said").textContent = texts.join(", ");
    by("coverMore").hidden = faces.length > 0 && KINDS.every((kind, i) => counts[kind] === listed[i]);
    const none = width ? TEXT.coverNothingSo(width) : TEXT.coverNothing;
    by("coverMore").textContent = faces.length ? TEXT.coverFirst(Math.max(...listed)) : none;
  }

  /** Takes all away. */
  clear() {
    this.faces = [];
    this.newest++;
    by("coverFound").hidden = true;
    by("faces").replaceChildren();
    this.redraw();
  }

  /** The faces that are drawn. */
  drawn() {
    return /** @type {import("./hatching.js").Face[]} */ (this.faces.filter(face => face.shape && this.isShown(face)));
  }

  /** @param {Face} face */
  isShown(face) { return !this.hidden.has(face.kind); }

  // ---- the list

  /** Lists the faces of the kinds that are shown. */
  async list() {
    const newest = ++this.newest;
    this.rows = new Map();
    by("faces").replaceChildren();
    await inTurns(this.makeRows(), () => newest === this.newest);
  }

  *makeRows() {
    for (const face of this.faces) {
      if (this.hidden.has(face.kind)) continue;
      const row = this.row(face);
      // one row is reached by Tab, and the others from there by arrows
      row.tabIndex = this.rows.size ? -1 : 0;
      this.rows.set(face, row);
      by("faces").append(make("li", [row]));
      yield;
    }
  }

  /** @param {Face} face */
  row(face) {
    const { panel } = this, size = panel.measures.face(face, face.shape);
    const names = face.features.slice(0, MOST_NAMES).map(num => panel.nameOf(num));
    const text = faceText(face.kind, names, face.count - names.length);
    const row = make("button", [
      hatched(face.kind), make("b", String(face.number)), make("span", text), make("small", size),
    ]);
    row.addEventListener("click", () => {
      this.mark(face);
      this.goTo(face);
      by("said").textContent = TEXT.coverShown(face.number, text);
    });
    row.addEventListener("focus", () => this.reach(row));
    return row;
  }

  /**
   * Marks the row of the face that is gone to.
   * @param {Face} face
   */
  mark(face) {
    for (const row of this.rows.values()) row.removeAttribute("aria-current");
    this.rows.get(face)?.setAttribute("aria-current", "true");
  }

  /**
   * Tab comes back to the row that was reached last.
   * @param {HTMLElement} row
   */
  reach(row) {
    for (const other of this.rows.values()) if (other.tabIndex === 0) other.tabIndex = -1;
    row.tabIndex = 0;
  }

  /** @param {KeyboardEvent} e */
  press(e) {
    const rows = [...this.rows.values()], at = rows.indexOf(document.activeElement);
    const next = { ArrowDown: at + 1, ArrowUp: at - 1, Home: 0, End: rows.length - 1 }[e.key];
    if (next === undefined || at < 0) return;
    e.preventDefault();
    rows[Math.max(0, Math.min(next, rows.length - 1))].focus();
  }

  /** Lists the faces anew where features go by other names. */
  nameAnew() {
    const { nameBy } = this.panel.layers;
    if (this.named === nameBy || !this.faces.length) return;
    this.named = nameBy;
    this.list();
  }

  // ---- kinds

  /** @param {Kind} kind */
  choice(kind) {
    const box = make("input"), text = make("span", TEXT.coverKinds[kind]);
    const label = make("label", [box, hatched(kind), text], "check");
    box.type = "checkbox";
    box.checked = true;
    text.id = `${kind}Count`;
    label.title = TEXT.coverKindHelp[kind];
    box.addEventListener("change", () => {
      if (box.checked) this.hidden.delete(kind); else this.hidden.add(kind);
      this.redraw();
      this.list();
    });
    return label;
  }

  // ---- sums

  /**
   * What the areas of a layer add up to.
   * @param {import("./talk.js").Sums} sums
   * @param {boolean} isNamed whether the layer has to be named
   * @returns {Node[]}
   */
  sum({ polygons, over, covered, gaps, within, layer }, isNamed) {
    const rows = [polygons, over, covered, gaps, within].map((twice, i) =>
      make("tr", [make("td", TEXT.sumsRows[i]), this.areaCell(twice)], i % 2 ? "" : "sum"));
    const said = [over === "0" ? "" : TEXT.sumsOver, gaps === "0" ? "" : TEXT.sumsGaps].filter(Boolean);
    const unit = this.panel.units.hasUnit ? TEXT.sumsUnits : TEXT.sumsUnit;
    const caption = make("p", `${said.join(" ") || TEXT.sumsClear} ${unit}`);
    return [...(isNamed ? [make("h4", layer)] : []), make("table", rows), caption];
  }

  /** @param {string} twice */
  areaCell(twice) {
    const { units } = this.panel, exact = document.createTextNode(halved(twice));
    const own = make("small", readable(units.areaOfTwice(Number(twice))));
    return make("td", units.hasUnit ? [exact, own] : [exact]);
  }

  /** @param {import("./talk.js").Uneven} uneven */
  unevenRow({ feature, polygon, rings, even }) {
    const text = TEXT.coverUneven(this.panel.nameOf(feature), polygon + 1, halved(rings), halved(even));
    const row = make("button", text, "plain");
    row.addEventListener("click", () => this.panel.goTo(feature));
    return make("li", [row]);
  }
}

/** @param {Kind} kind */
function hatched(kind) {
  const swatch = make("i", "", `hatch ${kind}`);
  swatch.title = TEXT.coverKinds[kind];
  return swatch;
}

/** @param {import("./talk.js").Wide} wide */
function widthText(wide) {
  const some = KINDS.filter(kind => wide[kind]), most = BigInt(wide.most);
  const kinds = some.map(kind => `${TEXT.coverKinds[kind].toLowerCase()} ${grouped(wide[kind])}`);
  return TEXT.coverWide(grouped(most / 2n), grouped(most), kinds.join(", "));
}
