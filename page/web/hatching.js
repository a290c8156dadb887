// @ts-check
/**
 * Draws faces in the map. Each kind has its own colour, and also its own hatching, line and mark, since not all eyes
 * tell colours apart. The numbers are those of the list.
 */
import { meets } from "./boxes.js";
import { across, down, traceWay } from "./screen.js";

/** @typedef {import("./screen.js").Frame} Frame */
/** @typedef {import("./boxes.js").Box} Box */
/** @typedef {"overlap" | "twice" | "gap" | "lake"} Kind */
/** @typedef {{number: number, kind: Kind, layer: number, shape: import("./faces.js").Shape}} Face */
/** @typedef {{faces: Face[], isOld: boolean}} Covered */
/**
 * What makes the mark of a face, at a place on the screen, the path of a canvas.
 * @typedef {(ctx: CanvasRenderingContext2D, x: number, y: number) => void} Mark
 */
/**
 * The lines of a tile, each x, y, x, y; the dashes of an outline; a mark.
 * @typedef {{colour: string, pale: string, tile: number[][], dash: number[], mark: Mark}} Look
 */

/** pixels of a tile, of a mark from its middle, and of a face that is hatched; of twice as many it has a number */
const TILE = 8, MARK = 4.5, SMALL = 9;
/** how much can be seen through what was found before the map was edited */
const OLD = 0.4;
const RISING = [[-2, 2, 2, -2], [0, 8, 8, 0], [6, 10, 10, 6]], FALLING = [[-2, 6, 2, 10], [0, 0, 8, 8], [6, -2, 10, 2]];
const CROSSED = [...RISING, ...FALLING], LEVEL = [[0, 4, 8, 4]];
/** of marks: squares, diamonds, triangles and disks */
const SQUARE = polygonMark(4, 0.5), DIAMOND = polygonMark(4, 0), TRIANGLE = polygonMark(3, 0.25);
const DISK = polygonMark(12, 0);
/** @type {Record<Kind, Look>} */
const LOOKS = {
  overlap: { colour: "#b8390e", pale: "rgba(184,57,14,0.16)", tile: RISING, dash: [], mark: SQUARE },
  twice: { colour: "#8e2f79", pale: "rgba(142,47,121,0.16)", tile: CROSSED, dash: [8, 2, 2, 2], mark: DIAMOND },
  gap: { colour: "#0b5fa5", pale: "rgba(11,95,165,0.16)", tile: FALLING, dash: [5, 3], mark: TRIANGLE },
  lake: { colour: "#0a7467", pale: "rgba(10,116,103,0.16)", tile: LEVEL, dash: [2, 2], mark: DISK },
};
/** what was made of the tiles, for each kind; a browser makes it once */
const patterns = new Map();

/**
 * What makes a regular polygon the path of a canvas.
 * @param {number} corners
 * @param {number} turned from where the first corner is to the right, in corners
 * @returns {Mark}
 */
function polygonMark(corners, turned) {
  return (ctx, x, y) => {
    ctx.beginPath();
    for (let k = 0; k < corners; k++) {
      const angle = ((k + turned) * 2 * Math.PI) / corners;
      ctx.lineTo(x + MARK * Math.cos(angle), y + MARK * Math.sin(angle));
    }
    ctx.closePath();
  };
}

/**
 * The hatching of a kind, as what fills.
 * @param {CanvasRenderingContext2D} ctx
 * @param {Kind} kind
 * @returns {CanvasPattern}
 */
function patternOf(ctx, kind) {
  const known = patterns.get(kind);
  if (known) return known;
  const tile = document.createElement("canvas"), on = /** @type {CanvasRenderingContext2D} */ (tile.getContext("2d"));
  tile.width = tile.height = TILE;
  on.strokeStyle = LOOKS[kind].colour;
  on.lineWidth = 1.2;
  for (const [x, y, u, v] of LOOKS[kind].tile) {
    on.beginPath();
    on.moveTo(x, y);
    on.lineTo(u, v);
    on.stroke();
  }
  const pattern = /** @type {CanvasPattern} */ (ctx.createPattern(tile, "repeat"));
  patterns.set(kind, pattern);
  return pattern;
}

/**
 * The faces that are seen.
 * @param {Frame} frame
 * @param {import("./model.js").Model} model
 * @param {Covered} covered
 */
function seenFaces(frame, model, { faces }) {
  return faces.filter(({ layer, shape }) => model.layers[layer]?.isShown && meets(shape.box, frame.box));
}

/**
 * Hatches the faces that are seen, and are not too small for that.
 * @param {CanvasRenderingContext2D} ctx
 * @param {Frame} frame
 * @param {import("./model.js").Model} model
 * @param {Covered} covered
 * @returns {Generator<void, void, void>}
 */
export function* hatchFaces(ctx, frame, model, covered) {
  for (const face of seenFaces(frame, model, covered)) {
    if (sizeOf(frame, face) < SMALL) continue;
    // whatever is set here goes within one step, since a drawing may end behind any
    ctx.save();
    if (covered.isOld) ctx.globalAlpha = OLD;
    drawFace(ctx, frame, face);
    ctx.restore();
    yield;
  }
}

/**
 * Numbers the faces that are seen, and marks those that are too small to be hatched. Answers where the numbers stand.
 * @param {CanvasRenderingContext2D} ctx
 * @param {Frame} frame
 * @param {import("./model.js").Model} model
 * @param {Covered} covered
 * @returns {Box[]}
 */
export function numberFaces(ctx, frame, model, covered) {
  /** @type {Box[]} */
  const taken = [];
  ctx.save();
  for (const face of seenFaces(frame, model, covered)) {
    ctx.globalAlpha = 1;
    if (sizeOf(frame, face) >= 2 * SMALL) writeNumber(ctx, frame, face, taken);
    if (covered.isOld) ctx.globalAlpha = OLD;
    if (sizeOf(frame, face) < SMALL) markFace(ctx, frame, face);
  }
  ctx.restore();
  return taken;
}

/**
 * Pixels of the longer side of the box of a face.
 * @param {Frame} frame
 * @param {Face} face
 */
const sizeOf = ({ kx, ky }, { shape: { box } }) => Math.max((box[2] - box[0]) * kx, (box[3] - box[1]) * Math.abs(ky));

/**
 * Makes the outlines of a face the path of a canvas.
 * @param {CanvasRenderingContext2D} ctx
 * @param {Frame} frame
 * @param {import("./faces.js").Shape} shape
 */
function traceShape(ctx, frame, { ways }) {
  ctx.beginPath();
  for (const xy of ways) {
    traceWay(ctx, frame, { xy, from: 0, to: xy.length }, 0.7);
    ctx.closePath();
  }
}

/**
 * @param {CanvasRenderingContext2D} ctx
 * @param {Frame} frame
 * @param {Face} face
 */
function drawFace(ctx, frame, { kind, shape }) {
  const { colour, pale, dash } = LOOKS[kind];
  traceShape(ctx, frame, shape);
  // where an island is not known, what is hatched would be more than the face
  if (shape.isWhole) hatch(ctx, frame, kind, pale);
  ctx.strokeStyle = colour;
  ctx.lineWidth = 2;
  ctx.setLineDash(dash);
  ctx.stroke();
}

/**
 * @param {CanvasRenderingContext2D} ctx
 * @param {Frame} frame
 * @param {Face} face
 */
function markFace(ctx, frame, { kind, shape }) {
  const { colour, mark } = LOOKS[kind], [x, y] = shape.place;
  mark(ctx, across(frame, x), down(frame, y));
  ctx.fillStyle = colour;
  ctx.fill();
  ctx.strokeStyle = "#fff";
  ctx.lineWidth = 1;
  ctx.stroke();
}

/**
 * Fills the path with the hatching of a kind, which stays where it is on the grid.
 * @param {CanvasRenderingContext2D} ctx
 * @param {Frame} frame
 * @param {Kind} kind
 * @param {string} pale
 */
function hatch(ctx, frame, kind, pale) {
  const pattern = patternOf(ctx, kind);
  pattern.setTransform(new DOMMatrix().translate(across(frame, 0) % TILE, down(frame, 0) % TILE));
  for (const style of [pale, pattern]) {
    ctx.fillStyle = style;
    ctx.fill("evenodd");
  }
}

/**
 * Writes the number of a face on it, where no other number stands.
 * @param {CanvasRenderingContext2D} ctx
 * @param {Frame} frame
 * @param {Face} face
 * @param {Box[]} taken
 */
function writeNumber(ctx, frame, face, taken) {
  const [x, y] = face.shape.place, sx = across(frame, x), sy = down(frame, y), text = String(face.number);
  ctx.font = "bold 12px system-ui, sans-serif";
  const half = ctx.measureText(text).width / 2 + 3;
  /** @type {Box} */
  const room = [sx - half, sy - 8, sx + half, sy + 8];
  if (taken.some(other => meets(other, room))) return;
  taken.push(room);
  ctx.fillStyle = "#fff";
  ctx.strokeStyle = LOOKS[face.kind].colour;
  ctx.lineWidth = 1;
  ctx.beginPath();
  ctx.rect(sx - half, sy - 8, 2 * half, 16);
  ctx.fill();
  ctx.stroke();
  ctx.textAlign = "center";
  ctx.textBaseline = "middle";
  ctx.fillStyle = LOOKS[face.kind].colour;
  ctx.fillText(text, sx, sy + 0.5);
}
