// @ts-check
/** What is drawn above the map: what is pointed at, selected, carried, drawn, and in conflict. */
import { drawChain, drawConflict, drawDot, drawSwept } from "./marks.js";
import { conflictOf } from "./words.js";

/** @typedef {import("./tools.js").Tools} Tools */
/** @typedef {CanvasRenderingContext2D} Canvas */

const RED = "#d21f1f", BLUE = "#1669c9", LINE = "#5b5751", PALE = "rgba(90,90,90,0.35)";
const SELECTED = "rgba(30,110,210,0.22)", HOVER = "rgba(240,180,40,0.25)", INSIDE = "rgba(22,105,201,0.12)";
const CURSOR = "#23272e";

/**
 * @param {Canvas} ctx
 * @param {Tools} tools
 */
export function paint(ctx, tools) {
  const { view, editor } = tools;
  if (!editor.model) return;
  const carried = tools.drag?.kind === "vertex" ? tools.drag : tools.held;
  const moved = carried && carried.isMoved ? carried : null;
  view.moved = moved;
  paintFeatures(ctx, tools);
  view.moved = null;
  if (moved) paintCarried(ctx, tools, moved);
  else if (tools.vertex) drawDot(ctx, view, tools.vertex[0], tools.vertex[1], BLUE);
  else if (tools.segment && !tools.drag) drawChain(ctx, view, tools.segment, BLUE, 2.5);
  if (tools.sketch.kind) paintSketch(ctx, tools);
  if (editor.swept) drawSwept(ctx, view, editor.swept);
  if (editor.conflict) drawConflict(ctx, view, editor.conflict);
  if (tools.isByKeys) paintCursor(ctx, tools);
}

/**
 * The feature that is pointed at, and those that are selected.
 * @param {Canvas} ctx
 * @param {Tools} tools
 */
function paintFeatures(ctx, { view, editor, feature, drag }) {
  if (feature !== null && !drag && !editor.selected.includes(feature)) {
    view.path(ctx, feature);
    ctx.fillStyle = HOVER;
    ctx.fill("evenodd");
  }
  editor.selected.forEach((num, i) => {
    view.path(ctx, num);
    ctx.fillStyle = SELECTED;
    ctx.fill("evenodd");
    ctx.strokeStyle = BLUE;
    ctx.lineWidth = i ? 1.5 : 2.5;
    ctx.stroke();
  });
}

/**
 * A vertex that is carried, with the borders that follow it.
 * @param {Canvas} ctx
 * @param {Tools} tools
 * @param {import("./tools.js").Carried} carried
 */
function paintCarried(ctx, { view, editor }, { x, y, u, v, places, near, answer }) {
  const isRefused = answer.startsWith("refused"), style = isRefused ? RED : BLUE;
  for (const [piece] of places) {
    const way = Array.from(editor.model.way(piece));
    for (let k = 0; k < way.length; k += 2) if (way[k] === x && way[k + 1] === y) { way[k] = u; way[k + 1] = v; }
    drawChain(ctx, view, way, LINE, 1);
  }
  for (const [p, q] of near) {
    drawChain(ctx, view, [p, q, x, y], PALE, 1);
    drawChain(ctx, view, [p, q, u, v], style, 2);
  }
  for (const segment of conflictOf(answer) ?? []) drawChain(ctx, view, segment, RED, 4);
  drawDot(ctx, view, u, v, style);
}

/**
 * A line that is drawn, up to the pointer.
 * @param {Canvas} ctx
 * @param {Tools} tools
 */
function paintSketch(ctx, tools) {
  const { view, sketch } = tools, way = sketch.path.flatMap(point => [point.x, point.y]);
  if (sketch.isClosed) {
    drawChain(ctx, view, [...way, way[0], way[1]], BLUE, 2);
    ctx.fillStyle = INSIDE;
    ctx.fill();
  } else if (way.length) {
    ctx.setLineDash([6, 4]);
    drawChain(ctx, view, [...way, ...(tools.vertex || view.place(tools.pointer.x, tools.pointer.y))], BLUE, 2);
    ctx.setLineDash([]);
  }
  for (const { x, y } of sketch.path) drawDot(ctx, view, x, y, BLUE, 4);
}

/**
 * The cursor that keys move.
 * @param {Canvas} ctx
 * @param {Tools} tools
 */
function paintCursor(ctx, { pointer: { x, y } }) {
  for (const [style, width] of /** @type {[string, number][]} */ ([["#fff", 4], [CURSOR, 1.5]])) {
    ctx.beginPath();
    for (const [dx, dy] of [[1, 0], [-1, 0], [0, 1], [0, -1]]) {
      ctx.moveTo(x + 5 * dx, y + 5 * dy);
      ctx.lineTo(x + 16 * dx, y + 16 * dy);
    }
    ctx.strokeStyle = style;
    ctx.lineWidth = width;
    ctx.stroke();
  }
}
