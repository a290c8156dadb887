// @ts-check
/** Coordinates, lengths and areas in the unit of the map, where it has one; else in units of its grid. */

/**
 * a way: x, y, x, y, .. in units of the grid
 * @typedef {number[]} Way
 */

export class Units {
  /** @param {{scale: number[], translate: number[]} | undefined} transform */
  constructor(transform) {
    this.hasUnit = transform !== undefined && transform !== null;
    this.scale = transform ? transform.scale : [1, 1];
    this.translate = transform ? transform.translate : [0, 0];
  }

  /**
   * A coordinate, with as many decimals as tell neighbours on the grid apart.
   * @param {number} v
   * @param {0 | 1} axis
   */
  coordinate(v, axis) {
    if (!this.hasUnit) return String(Math.round(v));
    const digits = Math.ceil(-Math.log10(Math.abs(this.scale[axis])));
    return (this.translate[axis] + this.scale[axis] * v).toFixed(Math.max(0, Math.min(9, digits)));
  }

  /** @param {ArrayLike<number>} way */
  length(way) {
    let sum = 0;
    for (let k = 2; k < way.length; k += 2) {
      sum += Math.hypot((way[k] - way[k - 2]) * this.scale[0], (way[k + 1] - way[k - 1]) * this.scale[1]);
    }
    return sum;
  }

  /** @param {Way} way whose end is joined to its begin */
  area(way) { return Math.abs(twiceArea(way) / 2) * Math.abs(this.scale[0] * this.scale[1]); }

  /** @param {number} twice twice an area, in squares of the grid */
  areaOfTwice(twice) { return (twice / 2) * Math.abs(this.scale[0] * this.scale[1]); }
}

/**
 * Twice the area of a closed way, below zero where it runs clockwise.
 * @param {Way} way
 */
export function twiceArea(way) {
  const n = way.length;
  if (n < 6) return 0;
  // relative to the first position, so that large coordinates keep their digits
  const [x0, y0] = way;
  let sum = 0;
  for (let k = 2; k + 3 < n; k += 2) sum += (way[k] - x0) * (way[k + 3] - y0) - (way[k + 2] - x0) * (way[k + 1] - y0);
  return sum;
}

/**
 * A number for reading: six digits, grouped.
 * @param {number} value
 */
export function readable(value) {
  if (value === 0) return "0";
  const size = Math.floor(Math.log10(Math.abs(value)));
  if (size >= 15 || size < -7) return value.toPrecision(6);
  return value.toLocaleString("en", { maximumFractionDigits: Math.max(0, Math.min(12, 5 - size)) });
}
