// @ts-check
/** What stands around the map: notes, the selection, the list of edits, and which buttons can be used. */
import { Refusal, Stopped } from "./editor.js";
import { by, make } from "./dom.js";
import { answerText, grouped, TEXT } from "./words.js";

/** @typedef {import("./editor.js").Editor} Editor */
/** @typedef {import("./talk.js").LogEntry} LogEntry */

/** milliseconds for which good news are shown */
const GOOD_NEWS = 3000;
/** how many acts, lines of one act, characters of a line, names and properties are listed at most */
const MOST_LINES = 300, MOST_OF_ACT = 4, LONGEST_LINE = 160, MOST_IDS = 5000, MOST_PROPERTIES = 200;

export class Panel {
  /**
   * @param {Editor} editor
   * @param {import("./layers.js").Layers} layers
   * @param {import("./units.js").Units} units
   * @param {import("./measuring.js").Measuring} measures
   */
  constructor(editor, layers, units, measures) {
    this.editor = editor;
    this.layers = layers;
    this.units = units;
    this.measures = measures;
    this.infoKey = "";
    /**
     * the newest act in the list
     * @type {LogEntry[]}
     */
    this.listed = [];
    /** @type {number | undefined} */
    this.timer = undefined;
    editor.watchers.push(entry => { if (entry) this.list(entry); else this.show(); });
    editor.onFault = fault => this.tellFault(fault);
    by("noteClose").addEventListener("click", () => { this.hideNote(); by("map").focus(); });
    by("noteShow").addEventListener("click", () => this.showConflict());
    for (const entry of editor.log) this.list(entry);
    if (!editor.log.length) by("lines").append(make("li", TEXT.noEdits, "dim"));
  }

  // ---- notes

  /**
   * @param {string} head
   * @param {string} text
   * @param {string=} code the answer as it came
   */
  note(head, text, code = "") { this.put(head, text, code, false); }

  /**
   * Good news, which goes away by itself.
   * @param {string} text
   */
  said(text) {
    this.put("", text, "", true);
    this.timer = window.setTimeout(() => this.hideNote(), GOOD_NEWS);
  }

  /**
   * @param {string} head
   * @param {string} text
   * @param {string} code
   * @param {boolean} isGood
   */
  put(head, text, code, isGood) {
    clearTimeout(this.timer);
    by("note").hidden = false;
    by("note").className = isGood ? "good" : "";
    by("noteHead").textContent = head;
    by("noteText").textContent = text;
    by("noteCode").textContent = code;
    by("noteShow").hidden = isGood || !(this.editor.conflict || this.editor.swept);
    (isGood ? by("said") : by("alert")).textContent = `${head} ${text}`;
  }

  hideNote() {
    clearTimeout(this.timer);
    by("note").hidden = true;
    this.editor.conflict = this.editor.swept = null;
    this.editor.view.redrawOver();
  }

  /** @param {any} fault */
  tellFault(fault) {
    if (fault instanceof Refusal) this.note(TEXT.refused, answerText(fault.answer), fault.answer);
    else if (fault instanceof Stopped) { if (fault.message) this.note(TEXT.nothingDone, fault.message); }
    else if (fault.isClosed) this.note(TEXT.closed, TEXT.otherTab);
    else if (fault.status === 0) this.note(TEXT.closed, TEXT.noServer);
    else this.note(TEXT.noAnswer, fault.message);
  }

  /** Goes to the place of a refusal. */
  showConflict() {
    const { conflict, swept, view } = this.editor;
    const at = conflict ? conflict.flat() : (swept ? [...swept.triangles.flat(), ...swept.vertices.flat()] : []);
    if (!at.length) return;
    const xs = at.filter((_, i) => i % 2 === 0), ys = at.filter((_, i) => i % 2);
    const [x0, x1, y0, y1] = [Math.min(...xs), Math.max(...xs), Math.min(...ys), Math.max(...ys)];
    const edge = Math.max(x1 - x0, y1 - y0, 4) / 2;
    view.fit([x0 - edge, y0 - edge, x1 + edge, y1 + edge]);
    by("map").focus();
  }

  /** @param {string} text */
  hint(text) {
    by("hint").hidden = !text;
    by("hint").textContent = text;
  }

  // ---- the list of edits

  /**
   * Lists an edit; those of one act stand together.
   * @param {LogEntry} entry
   */
  list(entry) {
    const lines = by("lines");
    if (this.listed.length && this.listed[0].act === entry.act) lines.firstElementChild.remove(); else this.listed = [];
    if (lines.firstElementChild?.className === "dim") lines.replaceChildren();
    this.listed.push(entry);
    lines.prepend(actItem(this.listed));
    while (lines.children.length > MOST_LINES) lines.lastElementChild.remove();
  }

  // ---- buttons, and what is selected

  show() {
    const { editor } = this, { history, selected } = editor, canEdit = editor.canEdit;
    by("undo").disabled = !canEdit || !history.done.length;
    by("redo").disabled = !canEdit || !history.undone.length;
    by("merge").disabled = !canEdit || selected.length < 2;
    by("rename").disabled = !canEdit || selected.length !== 1;
    by("delete").disabled = !canEdit || !selected.length;
    for (const id of ["cut", "reshape", "thin"]) by(id).disabled = !canEdit;
    by("save").disabled = !canEdit || !editor.isUnsaved;
    by("state").textContent = this.state();
    by("state").classList.toggle("unsaved", editor.isUnsaved);
    by("counts").textContent = TEXT.counts(editor.model.features.size, editor.vertices);
    this.layers.tellCounts();
    this.showInfo().catch(fault => editor.fail(fault));
  }

  state() {
    const { isClosed, isUnsaved, log } = this.editor;
    if (isClosed) return TEXT.closed;
    if (isUnsaved) return TEXT.stateUnsaved;
    return log.length ? TEXT.stateSaved : TEXT.stateUntouched;
  }

  /** @param {number} num */
  nameOf(num) { return this.layers.nameOf(num); }

  async showInfo() {
    const { selected, log } = this.editor, key = `${selected.join(" ")}/${log.length}/${this.layers.nameBy}`;
    if (key === this.infoKey) return;
    this.infoKey = key;
    const info = by("info");
    if (!selected.length) info.replaceChildren(make("p", TEXT.nothingSelected), make("p", TEXT.howToEdit, "dim"));
    else if (selected.length > 1) info.replaceChildren(...this.many(selected));
    else {
      const [num] = selected, [area] = await this.editor.talk.ask(`area ${num}`), near = await this.editor.neighboursOf(num);
      if (key === this.infoKey) info.replaceChildren(...this.one(num, area, near));
    }
  }

  /** @param {number[]} numbers */
  many(numbers) {
    const list = make("ol", numbers.map(num => make("li", this.nameOf(num))));
    return [make("h3", TEXT.manySelected(numbers.length)), make("p", TEXT.mergeKeeps, "dim"), list];
  }

  /**
   * @param {number} num
   * @param {string} twice
   * @param {number[]} near
   * @returns {Node[]}
   */
  one(num, twice, near) {
    const { model } = this.editor, feature = model.features.get(num);
    if (!feature) return [];
    const vertices = feature.polygons.flat().reduce((sum, ring) => sum + model.positions(ring).length / 2, 0);
    const rows = [
      [TEXT.rowNumber, String(num)],
      [TEXT.rowLayer, this.layers.list[this.layers.of(num)]?.name ?? ""],
      [TEXT.rowArea, this.measures.area(num, twice)],
      [TEXT.rowParts, String(feature.polygons.length)],
      [TEXT.rowVertices, grouped(vertices)],
      [TEXT.rowNeighbours, this.links(near)],
    ];
    const own = feature.properties && typeof feature.properties === "object" ? Object.entries(feature.properties) : [];
    const text = (/** @type {any} */ value) => typeof value === "string" ? value : JSON.stringify(value);
    const properties = own.slice(0, MOST_PROPERTIES).map(([name, value]) => [name, text(value)]);
    const head = make("h4", properties.length ? TEXT.properties : TEXT.noProperties);
    return [make("h3", this.nameOf(num)), table(rows), head, table(properties)];
  }

  /** @param {number[]} numbers */
  links(numbers) {
    return make("span", numbers.map(num => {
      const link = make("a", this.nameOf(num));
      link.href = "#";
      link.addEventListener("click", event => { event.preventDefault(); this.goTo(num); });
      return link;
    }));
  }

  /**
   * Selects a feature, and goes there.
   * @param {number} num
   */
  goTo(num) {
    const feature = this.editor.model.features.get(num);
    if (!feature) return;
    const [x0, y0, x1, y1] = feature.box, w = x1 - x0, h = y1 - y0;
    this.editor.view.fit([x0 - w, y0 - h, x1 + w, y1 + h]);
    this.editor.select([num]);
    by("said").textContent = TEXT.selectedOne(this.nameOf(num));
  }

  // ---- finding

  /** Fills the list of names that the search proposes. */
  fillNames() {
    const numbers = this.editor.model.order.slice(0, MOST_IDS);
    by("ids").replaceChildren(...numbers.map(num => make("option", this.nameOf(num))));
  }

  /**
   * Goes to the feature with a name, or with the text in its name; true where there is one.
   * @param {string} text
   */
  find(text) {
    const wanted = text.trim().toLowerCase(), { order } = this.editor.model;
    if (!wanted) return false;
    const name = (/** @type {number} */ num) => this.nameOf(num).toLowerCase();
    const found = order.find(num => name(num) === wanted || `#${num}` === wanted)
      ?? order.find(num => name(num).startsWith(wanted)) ?? order.find(num => name(num).includes(wanted));
    if (found === undefined) { this.note("", TEXT.notFound(text.trim())); return false; }
    this.hideNote();
    this.goTo(found);
    by("map").focus();
    return true;
  }
}

/**
 * An act in the list of edits. Of many lines the first and the last are shown.
 * @param {LogEntry[]} entries
 */
function actItem(entries) {
  const isAccepted = (/** @type {LogEntry} */ { answer }) => answer.startsWith("ok");
  const refused = (/** @type {LogEntry} */ { line, answer }) => [make("div", shortened(line)), make("span", answerText(answer))];
  const texts = entries.filter(isAccepted).map(({ line, answer }) => answer === "ok" ? shortened(line) : `${shortened(line)} → ${answer}`);
  const few = texts.length > MOST_OF_ACT ? [TEXT.manyLines(texts[0], texts[texts.length - 1], texts.length)] : texts;
  const no = entries.filter(entry => !isAccepted(entry)).map(entry => make("div", refused(entry), "no"));
  return make("li", [...few.map(text => make("div", text)), ...no]);
}

/** @param {string} line */
const shortened = line => line.length > LONGEST_LINE ? `${line.slice(0, LONGEST_LINE)} …` : line;

/** @param {(string | Node)[][]} rows */
function table(rows) {
  return make("table", rows.map(([name, value]) => {
    const cell = make("td");
    cell.append(value);
    return make("tr", [make("td", String(name)), cell]);
  }));
}
