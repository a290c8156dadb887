// @ts-check
/** Marks above the map that say why an edit was refused. */

/** @typedef {import("./view.js").View} View */

const RED = "#d21f1f", PALE_RED = "rgba(210,31,31,0.25)", WHITE = "rgba(255,255,255,0.9)";

/**
 * Puts positions of the grid in the path of a canvas.
 * @param {CanvasRenderingContext2D} ctx
 * @param {View} view
 * @param {ArrayLike<number>} chain x, y, x, y, ..
 */
function trace(ctx, view, chain) {
  ctx.beginPath();
  for (let k = 0; k < chain.length; k += 2) {
    const [x, y] = view.screen(chain[k], chain[k + 1]);
    if (k) ctx.lineTo(x, y); else ctx.moveTo(x, y);
  }
}

/**
 * Draws a chain of segments.
 * @param {CanvasRenderingContext2D} ctx
 * @param {View} view
 * @param {ArrayLike<number>} chain x, y, x, y, ..
 * @param {string} style
 * @param {number=} width
 */
export function drawChain(ctx, view, chain, style, width = 2) {
  trace(ctx, view, chain);
  ctx.strokeStyle = style;
  ctx.lineWidth = width;
  ctx.stroke();
}

/**
 * Draws a ring about a position.
 * @param {CanvasRenderingContext2D} ctx
 * @param {View} view
 * @param {number} x
 * @param {number} y
 * @param {string} style
 * @param {number=} radius
 */
export function drawDot(ctx, view, x, y, style, radius = 5) {
  const [sx, sy] = view.screen(x, y);
  ctx.beginPath();
  ctx.arc(sx, sy, radius, 0, 2 * Math.PI);
  ctx.fillStyle = "#fff";
  ctx.fill();
  ctx.strokeStyle = style;
  ctx.lineWidth = 2;
  ctx.stroke();
}

/**
 * Draws two segments in conflict.
 * @param {CanvasRenderingContext2D} ctx
 * @param {View} view
 * @param {number[][]} segments of each its ends: x, y, x, y
 */
export function drawConflict(ctx, view, segments) {
  for (const segment of segments) drawChain(ctx, view, segment, WHITE, 8);
  for (const segment of segments) drawChain(ctx, view, segment, RED, 4);
  for (const [x, y, u, v] of segments) {
    drawDot(ctx, view, x, y, RED, 3.5);
    drawDot(ctx, view, u, v, RED, 3.5);
  }
}

/**
 * Draws the triangles that an edit would pass over, and the vertices in them.
 * @param {CanvasRenderingContext2D} ctx
 * @param {View} view
 * @param {import("./swept.js").Swept} swept
 */
export function drawSwept(ctx, view, { triangles, vertices }) {
  for (const triangle of triangles) {
    trace(ctx, view, triangle);
    ctx.fillStyle = PALE_RED;
    ctx.fill();
  }
  for (const [x, y] of vertices) drawDot(ctx, view, x, y, RED);
}
