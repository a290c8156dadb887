// @ts-check
/**
 * Areas and sides, exactly: positions are whole numbers of up to 10^12, and products of them have more digits than a
 * number of JavaScript. Where a number is near enough to tell, it is taken.
 */

/** @typedef {import("./boxes.js").Box} Box */
/** @typedef {import("./topology.js").Way} Way */
/**
 * Whoever counts the work that is done: whether it is time to give way.
 * @typedef {{isTime: (work: number) => boolean}} Pace
 */
/**
 * @template T
 * @typedef {Generator<void, T, void>} Steps
 */

/** all whole numbers up to this one are numbers of JavaScript */
const WHOLE = 2 ** 53;
/** how far off a sum of two products may be, in parts of the greatest */
const OFF = 2 ** -50;

/**
 * On which side of a way another one goes: 1 to the left, -1 to the right, 0 along it or against it.
 * @param {[number, number]} way differences of positions
 * @param {[number, number]} other
 */
export function exactSign([ax, ay], [bx, by]) {
  const left = ax * by, right = ay * bx, difference = left - right;
  if (Math.abs(difference) > OFF * (Math.abs(left) + Math.abs(right))) return Math.sign(difference);
  const whole = BigInt(ax) * BigInt(by) - BigInt(ay) * BigInt(bx);
  return whole > 0n ? 1 : whole < 0n ? -1 : 0;
}

/**
 * Twice the area within a closed way, below zero where it goes around that to the right.
 * @param {Way} way the first position is not repeated
 * @param {Pace} pace
 * @returns {Steps<bigint>}
 */
export function* doubledArea(way, pace) {
  const [x0, y0] = way;
  let whole = 0n, part = 0, size = 0;
  for (let k = 2; k + 3 < way.length; k += 2) {
    const ax = way[k] - x0, ay = way[k + 1] - y0, bx = way[k + 2] - x0, by = way[k + 3] - y0;
    const left = ax * by, right = ay * bx, reach = Math.abs(left) + Math.abs(right);
    if (size + reach >= WHOLE) { whole += BigInt(part); part = size = 0; }
    if (reach < WHOLE) { part += left - right; size += reach; }
    else whole += BigInt(ax) * BigInt(by) - BigInt(ay) * BigInt(bx);
    if (pace.isTime(1)) yield;
  }
  return whole + BigInt(part);
}

/**
 * Whether a way lies within another one, which it does not meet: its first position has an odd number of segments to
 * its right.
 * @param {Way} way
 * @param {Way} other closed; the first position is not repeated
 * @param {Pace} pace
 * @returns {Steps<boolean>}
 */
export function* isInside([x, y], other, pace) {
  let isOdd = false, px = other[other.length - 2], py = other[other.length - 1];
  for (let k = 0; k < other.length; k += 2) {
    const qx = other[k], qy = other[k + 1];
    if (py > y !== qy > y) {
      const side = exactSign([qx - px, qy - py], [x - px, y - py]);
      if (qy > py ? side > 0 : side < 0) isOdd = !isOdd;
    }
    px = qx;
    py = qy;
    if (pace.isTime(1)) yield;
  }
  return isOdd;
}

/**
 * The middle of the widest place that closed ways have within them by the even-odd rule, along one of three level
 * lines. It is near enough to write a number there.
 * @param {Way[]} ways
 * @param {Box} box
 * @param {Pace} pace
 * @returns {Steps<[number, number]>}
 */
export function* widestRow(ways, [x0, y0, x1, y1], pace) {
  let best = { x: (x0 + x1) / 2, y: (y0 + y1) / 2, width: 0 };
  for (const part of [0.5, 0.35, 0.65]) {
    // between two heights of vertices, so that none is on the line
    const y = Math.floor(y0 + part * (y1 - y0)) + (y1 - y0 > 1 ? 0.5 : part);
    const crossings = yield* crossingsAt(ways, y, pace);
    for (let k = 1; k < crossings.length; k += 2) {
      const left = crossings[k - 1], width = crossings[k] - left;
      if (width > best.width) best = { x: left + width / 2, y, width };
    }
  }
  return [best.x, best.y];
}

/**
 * Where closed ways cross a level line, from left to right.
 * @param {Way[]} ways
 * @param {number} y
 * @param {Pace} pace
 * @returns {Steps<number[]>}
 */
function* crossingsAt(ways, y, pace) {
  const found = [];
  for (const way of ways) {
    let px = way[way.length - 2], py = way[way.length - 1];
    for (let k = 0; k < way.length; k += 2) {
      const qx = way[k], qy = way[k + 1];
      if (py > y !== qy > y) found.push(px + ((y - py) * (qx - px)) / (qy - py));
      px = qx;
      py = qy;
      if (pace.isTime(1)) yield;
    }
  }
  return found.sort((a, b) => a - b);
}
