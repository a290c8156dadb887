// @ts-check
/** From the grid to a picture of it. */

/** @typedef {import("./boxes.js").Box} Box */
/**
 * Where a picture is: the position of the grid in its middle, pixels for a unit (`ky` is below 0 where y grows
 * downwards), half its width and height, and the box that it shows.
 * @typedef {{x: number, y: number, kx: number, ky: number, halfWidth: number, halfHeight: number, box: Box}} Frame
 */

/**
 * @param {Frame} frame
 * @param {number} x
 */
export const across = (frame, x) => (x - frame.x) * frame.kx + frame.halfWidth;
/**
 * @param {Frame} frame
 * @param {number} y
 */
export const down = (frame, y) => frame.halfHeight - (y - frame.y) * frame.ky;

/**
 * Puts positions in the path of a canvas.
 * @param {CanvasRenderingContext2D} ctx
 * @param {Frame} frame
 * @param {{xy: Float64Array, from: number, to: number}} way
 * @param {number} step pixels: a position that is nearer to the last one is passed over, but the last one of all
 * @returns {number} how many segments are drawn
 */
export function traceWay(ctx, frame, { xy, from, to }, step) {
  let lastX = across(frame, xy[from]), lastY = down(frame, xy[from + 1]), drawn = 0;
  ctx.moveTo(lastX, lastY);
  for (let k = from + 2; k < to; k += 2) {
    const sx = across(frame, xy[k]), sy = down(frame, xy[k + 1]);
    if (k + 2 < to && Math.abs(sx - lastX) < step && Math.abs(sy - lastY) < step) continue;
    ctx.lineTo(sx, sy);
    lastX = sx;
    lastY = sy;
    drawn++;
  }
  return drawn;
}
