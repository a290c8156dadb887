// @ts-check
/** Draws a map on a canvas, in short steps so that the page stays quick: each function gives way often. */
import { nameOf } from "./names.js";
import { meets } from "./boxes.js";
import { hatchFaces, numberFaces } from "./hatching.js";
import { pieceOf } from "./pieces.js";
import { across, down, traceWay } from "./screen.js";

/** @typedef {import("./model.js").Model} Model */
/** @typedef {import("./pieces.js").Feature} Feature */
/** @typedef {import("./boxes.js").Box} Box */
/** @typedef {import("./screen.js").Frame} Frame */
/** @typedef {Generator<void, void, void>} Steps */
/**
 * What is to be drawn.
 * @typedef {{model: Model, without: Set<number> | null, underlay: import("./underlay.js").Line[], showNames: boolean,
 *   colouring: import("./colours.js").Colouring | null, covered: import("./hatching.js").Covered | null}} Contents
 */

export const SEA = "#e9eef1";
const LAND = "#f4efe3", LINE = "#5b5751", VERTEX = "#1f5fa8", LABEL = "#3a3733", UNDERLAY = "#6aa36a";
/** the most positions of features that are filled in one colour, names, and vertices shown */
const MOST_FILLED = 250000, MOST_NAMES = 260, MOST_VERTICES = 5000;
/** positions that are filled, and segments that are drawn, before it gives way; one stroke for some hundreds of segments is
 * faster than one for all */
const FILL_STEP = 3000, STROKE_STEP = 400;

/**
 * Draws all of a map. Answers whether vertices were few enough to be drawn.
 * @param {CanvasRenderingContext2D} ctx
 * @param {Frame} frame
 * @param {Contents} contents
 * @returns {Generator<void, boolean, void>}
 */
export function* drawMap(ctx, frame, contents) {
  const { model, without } = contents, seen = model.featuresIn(frame.box);
  yield;
  yield* fillFeatures(ctx, frame, contents, seen);
  yield* strokeUnderlay(ctx, frame, contents.underlay);
  /** @type {number[]} */
  const pieces = [];
  model.eachPiece(frame.box, (_, i) => { if (!without || !without.has(i)) pieces.push(i); });
  yield;
  yield* strokeBorders(ctx, frame, model, pieces);
  if (contents.covered) yield* hatchFaces(ctx, frame, model, contents.covered);
  const vertices = pieces.reduce((sum, i) => sum + verticesOf(model.pieces[i]), 0), isRoom = vertices < MOST_VERTICES;
  if (isRoom) markVertices(ctx, frame, model, pieces);
  yield;
  const numbers = contents.covered ? numberFaces(ctx, frame, model, contents.covered) : [];
  yield;
  if (contents.showNames && seen.length <= MOST_NAMES) yield* writeNames(ctx, frame, model, seen, numbers);
  return isRoom;
}

/**
 * Fills the features that are seen: in the colour of land, where they are not too many, or each in its own.
 * @param {CanvasRenderingContext2D} ctx
 * @param {Frame} frame
 * @param {Contents} contents
 * @param {number[]} seen
 * @returns {Steps}
 */
function* fillFeatures(ctx, frame, { model, colouring }, seen) {
  const isMuch = seen.length > MOST_FILLED / 4 || isMore(model, seen, MOST_FILLED);
  if (isMuch && !colouring) return;
  const step = isMuch ? 2.2 : 0.7;
  ctx.fillStyle = LAND;
  let filled = 0;
  for (const num of seen) {
    const feature = model.features.get(num);
    if (!feature) continue;
    if (colouring) ctx.fillStyle = colouring.colourOf(feature);
    ctx.beginPath();
    filled += tracePath(ctx, frame, model, feature, step, null) + 100;
    ctx.fill("evenodd");
    if (filled > FILL_STEP) { filled = 0; yield; }
  }
}

/** @param {import("./pieces.js").Piece} piece */
const verticesOf = ({ from, to }) => (to - from) / 2;

/**
 * Whether features have more positions than so many.
 * @param {Model} model
 * @param {number[]} seen
 * @param {number} most
 */
function isMore(model, seen, most) {
  let left = most;
  for (const num of seen) {
    for (const polygon of model.feature(num).polygons) for (const ring of polygon) for (const ref of ring) {
      left -= verticesOf(model.pieces[pieceOf(ref)]);
    }
    if (left < 0) return true;
  }
  return false;
}

/**
 * Puts the rings of a feature in the path of a canvas.
 * @param {CanvasRenderingContext2D} ctx
 * @param {Frame} frame
 * @param {Model} model
 * @param {Feature} feature
 * @param {number} step pixels: a position that is nearer to the last one is passed over
 * @param {{x: number, y: number, u: number, v: number} | null} moved a vertex that is shown elsewhere
 * @returns {number} how many positions were looked at
 */
export function tracePath(ctx, frame, model, feature, step, moved) {
  let size = 0;
  for (const polygon of feature.polygons) for (const ring of polygon) {
    let isFirst = true, lastX = 0, lastY = 0;
    for (const ref of ring) {
      const { xy, from, to } = model.pieces[pieceOf(ref)], n = to - from, by = ref < 0 ? -2 : 2;
      size += n / 2;
      for (let k = 0, at = ref < 0 ? to - 2 : from; k < n; k += 2, at += by) {
        const isMoved = moved !== null && moved.x === xy[at] && moved.y === xy[at + 1];
        const sx = across(frame, isMoved ? moved.u : xy[at]), sy = down(frame, isMoved ? moved.v : xy[at + 1]);
        if (isFirst) { ctx.moveTo(sx, sy); isFirst = false; }
        else if (k !== n - 2 && Math.abs(sx - lastX) < step && Math.abs(sy - lastY) < step) continue;
        else ctx.lineTo(sx, sy);
        lastX = sx;
        lastY = sy;
      }
    }
    ctx.closePath();
  }
  return size;
}

/**
 * @param {CanvasRenderingContext2D} ctx
 * @param {Frame} frame
 * @param {import("./underlay.js").Line[]} lines
 * @returns {Steps}
 */
function* strokeUnderlay(ctx, frame, lines) {
  ctx.strokeStyle = UNDERLAY;
  ctx.lineWidth = 2;
  for (const { xy, box } of lines) {
    if (!meets(box, frame.box)) continue;
    ctx.beginPath();
    traceWay(ctx, frame, { xy, from: 0, to: xy.length }, 0.7);
    ctx.stroke();
    yield;
  }
}

/**
 * @param {CanvasRenderingContext2D} ctx
 * @param {Frame} frame
 * @param {Model} model
 * @param {number[]} pieces
 * @returns {Steps}
 */
function* strokeBorders(ctx, frame, model, pieces) {
  ctx.strokeStyle = LINE;
  ctx.lineWidth = 1;
  ctx.lineJoin = "round";
  // less is drawn where all is small: at a step under a pixel nobody sees a vertex
  const step = pieces.length > 40000 ? 2.2 : pieces.length > 8000 ? 1.2 : 0.7;
  let drawn = 0;
  ctx.beginPath();
  for (const i of pieces) {
    drawn += traceWay(ctx, frame, model.pieces[i], step);
    if (drawn < STROKE_STEP) continue;
    ctx.stroke();
    ctx.beginPath();
    drawn = 0;
    yield;
  }
  ctx.stroke();
  yield;
}

/**
 * Marks vertices, and with a larger mark those where borders meet. A vertex within five pixels of the last one has no mark,
 * and can be taken all the same.
 * @param {CanvasRenderingContext2D} ctx
 * @param {Frame} frame
 * @param {Model} model
 * @param {number[]} pieces
 */
function markVertices(ctx, frame, model, pieces) {
  ctx.fillStyle = VERTEX;
  /** @type {Map<string, number>} */
  const ends = new Map();
  for (const i of pieces) {
    const { xy, from, to } = model.pieces[i];
    let lastX = NaN, lastY = NaN;
    for (let k = from; k < to; k += 2) {
      const sx = across(frame, xy[k]), sy = down(frame, xy[k + 1]), isEnd = k === from || k === to - 2;
      if (!isEnd && Math.abs(sx - lastX) <= 5 && Math.abs(sy - lastY) <= 5) continue;
      ctx.fillRect(sx - 1.5, sy - 1.5, 3, 3);
      lastX = sx;
      lastY = sy;
      if (!isEnd) continue;
      const key = `${xy[k]} ${xy[k + 1]}`, count = (ends.get(key) || 0) + 1;
      ends.set(key, count);
      if (count === 3) ctx.fillRect(sx - 2.5, sy - 2.5, 5, 5);
    }
  }
}

/**
 * Writes names where there is room for them, none over another.
 * @param {CanvasRenderingContext2D} ctx
 * @param {Frame} frame
 * @param {Model} model
 * @param {number[]} seen
 * @param {Box[]} taken where something stands already
 * @returns {Steps}
 */
function* writeNames(ctx, frame, model, seen, taken) {
  ctx.font = "12px system-ui, sans-serif";
  ctx.textAlign = "center";
  ctx.textBaseline = "middle";
  ctx.lineWidth = 3;
  ctx.lineJoin = "round";
  ctx.strokeStyle = "rgba(255,255,255,0.85)";
  ctx.fillStyle = LABEL;
  for (const num of seen) {
    const feature = model.features.get(num), place = feature && widestPlace(model, feature, frame.box);
    if (!place) continue;
    const name = nameOf(model, num), half = ctx.measureText(name).width / 2 + 2;
    const sx = across(frame, place.x), sy = down(frame, place.y);
    /** @type {Box} */
    const room = [sx - half, sy - 8, sx + half, sy + 8];
    if (place.width * frame.kx < Math.min(2 * half, 60) || taken.some(other => meets(other, room))) continue;
    taken.push(room);
    ctx.strokeText(name, sx, sy);
    ctx.fillText(name, sx, sy);
    yield;
  }
}

/**
 * A position within a feature, in its widest part along one of three level lines through what is seen of it.
 * @param {Model} model
 * @param {Feature} feature
 * @param {Box} box
 */
function widestPlace(model, feature, box) {
  let best = { x: 0, y: 0, width: 0 };
  const bottom = Math.max(feature.box[1], box[1]), top = Math.min(feature.box[3], box[3]);
  for (const part of [0.5, 0.35, 0.65]) {
    const y = bottom + part * (top - bottom) + 0.5, crossings = crossingsOf(model, feature, y);
    for (let k = 1; k < crossings.length; k += 2) {
      const left = Math.max(crossings[k - 1], box[0]), right = Math.min(crossings[k], box[2]);
      if (right - left > best.width) best = { x: (left + right) / 2, y, width: right - left };
    }
  }
  return best.width > 0 ? best : null;
}

/**
 * Where the borders of a feature cross a level line, from left to right.
 * @param {Model} model
 * @param {Feature} feature
 * @param {number} y
 */
function crossingsOf(model, feature, y) {
  const found = [];
  for (const polygon of feature.polygons) for (const ring of polygon) for (const ref of ring) {
    const { xy, from, to } = model.pieces[pieceOf(ref)];
    for (let k = from + 2; k < to; k += 2) {
      const ax = xy[k - 2], ay = xy[k - 1], bx = xy[k], by = xy[k + 1];
      if (ay > y !== by > y) found.push(ax + ((y - ay) * (bx - ax)) / (by - ay));
    }
  }
  return found.sort((a, b) => a - b);
}
