// @ts-check
/** Lengths and areas in words: in the map's own unit, and in kilometres where that may be a degree. */
import { areaOfFeature, areaOfRing, lengthOfChain } from "./measures.js";
import { readable } from "./units.js";
import { grouped, TEXT } from "./words.js";

export class Measuring {
  /**
   * @param {import("./model.js").Model} model
   * @param {import("./units.js").Units} units
   */
  constructor(model, units) {
    this.model = model;
    this.units = units;
    this.unit = units.hasUnit ? TEXT.unitMap : TEXT.unitGrid;
  }

  /**
   * A way that was drawn: its length, and that of its last stretch.
   * @param {number[]} way x, y, x, y, ..
   */
  way(way) { return TEXT.measured(this.length(way), this.length(way.slice(-4))); }

  /**
   * An outline that was drawn.
   * @param {number[]} way
   */
  outline(way) { return TEXT.measuredArea(this.length([...way, way[0], way[1]]), this.squares(this.units.area(way))); }

  /** @param {number} area */
  squares(area) { return `${readable(area)} ${TEXT.square(this.unit)}`; }

  /** @param {number[]} way */
  length(way) {
    const own = `${readable(this.units.length(way))} ${this.unit}`;
    return this.model.isDegrees ? TEXT.ifDegrees(own, `${readable(lengthOfChain(this.model, way).value)} km`) : own;
  }

  /**
   * The area of a feature.
   * @param {number} num
   * @param {string} twice twice the area in squares of the grid, exactly
   */
  area(num, twice) {
    const own = this.squares(this.units.areaOfTwice(Number(twice))), feature = this.model.features.get(num);
    if (!this.model.isDegrees || !feature) return own;
    return TEXT.ifDegrees(own, `${readable(areaOfFeature(this.model, feature).value)} km²`);
  }

  /**
   * The area of a face, and its width: twice the area by the length of its border. On the grid the width is what
   * border_cover tells, which is rounded up.
   * @param {{area: string, width: string}} face
   * @param {import("./faces.js").Shape | null} shape
   */
  face({ area, width }, shape) {
    const { units, model } = this, own = units.areaOfTwice(Number(area));
    const squares = this.squares(own), onGrid = grouped(width);
    if (!shape || !units.hasUnit) return TEXT.faceOnGrid(squares, onGrid);
    const { ways } = shape, sum = (/** @type {number[]} */ all) => all.reduce((one, other) => one + other, 0);
    const border = sum(ways.map(way => units.length(way) + units.length([...way.slice(-2), ...way.slice(0, 2)])));
    const ownWidth = `${readable((2 * own) / border)} ${this.unit}`;
    if (!model.isDegrees) return TEXT.faceSize(squares, ownWidth, onGrid);
    // islands are no part of it
    const land = sum(ways.map((way, i) => (i ? -1 : 1) * areaOfRing(model, way).value));
    const across = (2 * land) / sum(ways.map(way => lengthOfChain(model, way, true).value));
    const [landText, acrossText] = [`${readable(land)} km²`, `${readable(across)} km`];
    return TEXT.faceSize(TEXT.ifDegrees(squares, landText), TEXT.ifDegrees(ownWidth, acrossText), onGrid);
  }
}
