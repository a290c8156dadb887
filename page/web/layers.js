// @ts-check
/** Layers that are shown and hit, what features are called by, and their colours. */
import { colouring } from "./colours.js";
import { by, make } from "./dom.js";
import { propertyNames } from "./names.js";
import { TEXT } from "./words.js";

/** @typedef {import("./editor.js").Editor} Editor */
/**
 * `isHit`: whether its features can be pointed at
 * @typedef {{isHit: boolean, count: HTMLElement}} Row
 */

export class Layers {
  /** @param {Editor} editor */
  constructor(editor) {
    this.editor = editor;
    /**
     * of each layer
     * @type {Row[]}
     */
    this.rows = [];
    this.nameBy = "";
    this.colourBy = "";
    this.coloured = NaN;
    by("nameBy").addEventListener("change", () => this.name(by("nameBy").value));
    by("colourBy").addEventListener("change", () => this.colour(by("colourBy").value));
    editor.watchers.push(() => this.recolour());
    this.fill();
  }

  get list() { return this.editor.model.layers; }

  /**
   * @param {number} num
   * @returns {number} the layer of a feature
   */
  of(num) { return this.editor.model.features.get(num)?.layer ?? -1; }

  /**
   * Those features that can be pointed at.
   * @param {number[]} numbers
   */
  hit(numbers) { return numbers.filter(num => this.editor.model.isShown(num) && this.rows[this.of(num)].isHit); }

  /** @param {number} num */
  nameOf(num) {
    const feature = this.editor.model.features.get(num);
    return feature ? this.editor.model.nameOf(feature) : `#${num}`;
  }

  // ---- the list

  fill() {
    const head = make("tr", ["", TEXT.layerShown, TEXT.layerHit].map(text => make("th", text)));
    this.rows = this.list.map(() => ({ isHit: true, count: make("small") }));
    by("layerList").replaceChildren(head, ...this.list.map((layer, i) => this.row(layer.name, i)));
    const names = propertyNames(this.editor.model.features.values()).map(({ name }) => name);
    this.fillChoice("nameBy", TEXT.nameById, names);
    this.fillChoice("colourBy", TEXT.noColour, names);
    this.tellCounts();
  }

  /**
   * @param {string} name
   * @param {number} i
   */
  row(name, i) {
    const { model } = this.editor;
    const show = this.box(TEXT.layerOption(TEXT.layerShown, name), isOn => this.show(i, isOn));
    const hit = this.box(TEXT.layerOption(TEXT.layerHit, name), isOn => { this.rows[i].isHit = isOn; });
    show.checked = model.layers[i].isShown;
    const head = make("td", [document.createTextNode(name), this.rows[i].count]);
    return make("tr", [head, make("td", [show]), make("td", [hit])]);
  }

  /**
   * @param {string} label
   * @param {(isOn: boolean) => void} change
   */
  box(label, change) {
    const box = make("input");
    box.type = "checkbox";
    box.checked = true;
    box.setAttribute("aria-label", label);
    box.addEventListener("change", () => { change(box.checked); this.editor.view.change(); });
    return box;
  }

  /**
   * @param {number} layer
   * @param {boolean} isOn
   */
  show(layer, isOn) {
    const { editor } = this;
    editor.model.show(layer, isOn);
    editor.select(editor.selected.filter(num => editor.model.isShown(num)));
  }

  /**
   * The choice of a property. The first option is none of them.
   * @param {string} id
   * @param {string} none
   * @param {string[]} names
   */
  fillChoice(id, none, names) {
    by(id).replaceChildren(option(none, ""), ...names.map(name => option(name, `=${name}`)));
  }

  tellCounts() {
    const sizes = this.editor.model.layerSizes();
    this.rows.forEach(({ count }, i) => { count.textContent = TEXT.layerCount(sizes[i]); });
  }

  // ---- names and colours

  /** @param {string} value of the choice */
  name(value) {
    const { editor } = this;
    this.nameBy = value;
    editor.model.naming = value ? { by: "property", property: value.slice(1) } : { by: "id" };
    editor.view.change();
    editor.changed();
  }

  /** @param {string} value of the choice */
  colour(value) {
    this.colourBy = value;
    this.coloured = NaN;
    this.recolour();
    this.editor.view.change();
  }

  /** Colours and legend again where features came or went. */
  recolour() {
    const { model, view } = this.editor;
    if (!this.colourBy) { view.colouring = null; by("legend").replaceChildren(); return; }
    if (this.coloured === model.features.size) return;
    this.coloured = model.features.size;
    const found = colouring(model.features.values(), this.colourBy.slice(1));
    view.colouring = found;
    by("legend").replaceChildren(...found.legend.map(entry => this.legendRow(entry)));
  }

  /** @param {import("./colours.js").Entry} entry */
  legendRow(entry) {
    const swatch = make("i");
    swatch.style.background = entry.colour;
    return make("li", [swatch, make("span", legendText(entry)), make("span", TEXT.legendCount(entry.count), "dim")]);
  }
}

/**
 * @param {string} text
 * @param {string} value
 */
function option(text, value) {
  const element = make("option", text);
  element.value = value;
  return element;
}

/** @param {import("./colours.js").Entry} entry */
function legendText({ kind, label, least = NaN, greatest = NaN }) {
  const number = (/** @type {number} */ n) => n.toLocaleString("en", { maximumSignificantDigits: 6 });
  switch (kind) {
    case "class": return TEXT.range(number(least), number(greatest));
    case "other": return TEXT.otherValues;
    case "none": return TEXT.noValue;
    default: return label;
  }
}
