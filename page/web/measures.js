// @ts-check
/**
 * Lengths and areas. In grid units; and beside that, for a map in degrees, in kilometres on a sphere of radius 6371.0088 km
 * (the mean radius of the Earth), for another map with a transform in its own unit. The Earth is no sphere: a length is off
 * by up to 0.6 per cent, an area by up to 1 per cent.
 *
 * On the sphere a length is that of great circles from vertex to vertex, and an area that of borders that are straight in
 * longitude and latitude, as RFC 7946 (3.1.1) has them. Numbers are doubles: `area` of border_edit is the exact one.
 */

/** @typedef {import("./pieces.js").Pieces} Pieces */
/** @typedef {import("./pieces.js").Feature} Feature */
/** @typedef {import("./model.js").Model} Model */
/**
 * `value` is in kilometres (of an area: their squares), in the map's own unit, or the same as `grid`.
 * @typedef {{grid: number, value: number, unit: "km" | "map" | "grid"}} Measure
 */

const RADIUS = 6371.0088, RADIAN = Math.PI / 180;
/** what rounding may put past 180 or 90 degrees */
const ROUNDING = 1e-6;

/**
 * Whether a map is in degrees: it has a transform, and lies within -180 to 180 and -90 to 90.
 * @param {Pieces} map
 */
export function isDegrees(map) {
  const [x0, y0, x1, y1] = map.extent();
  if (!map.transform || x0 > x1) return false;
  return [[x0, y0], [x1, y1]].every(([x, y]) => {
    const [lon, lat] = toUnits(map.transform, x, y);
    return Math.abs(lon) <= 180 + ROUNDING && Math.abs(lat) <= 90 + ROUNDING;
  });
}

/**
 * A position of the grid in the map's own unit.
 * @param {{scale: number[], translate: number[]}} transform
 * @param {number} x
 * @param {number} y
 * @returns {[number, number]}
 */
function toUnits({ scale, translate }, x, y) {
  return [translate[0] + scale[0] * x, translate[1] + scale[1] * y];
}

/** @param {Model} model */
const unitOf = model => model.isDegrees ? "km" : model.transform ? "map" : "grid";

/**
 * The length of a chain of vertices.
 * @param {Model} model
 * @param {ArrayLike<number>} chain x, y, x, y, ..
 * @param {boolean=} isClosed whether the last vertex is joined to the first one
 * @returns {Measure}
 */
export function lengthOfChain(model, chain, isClosed = false) {
  const { scale } = model.transform || { scale: [1, 1] }, unit = unitOf(model);
  let grid = 0, value = 0;
  for (let k = isClosed ? 0 : 2; k < chain.length; k += 2) {
    const before = k ? k - 2 : chain.length - 2;
    const x = chain[before], y = chain[before + 1], u = chain[k], v = chain[k + 1];
    grid += Math.hypot(u - x, v - y);
    if (unit === "km") value += onSphere(toUnits(model.transform, x, y), toUnits(model.transform, u, v));
    else value += Math.hypot((u - x) * scale[0], (v - y) * scale[1]);
  }
  return { grid, value, unit };
}

/**
 * The great circle between two positions in degrees, in kilometres.
 * @param {[number, number]} from
 * @param {[number, number]} to
 */
function onSphere([lon, lat], [lon2, lat2]) {
  const across = Math.sin(((lat2 - lat) / 2) * RADIAN) ** 2;
  const along = Math.cos(lat * RADIAN) * Math.cos(lat2 * RADIAN) * Math.sin(((lon2 - lon) / 2) * RADIAN) ** 2;
  return 2 * RADIUS * Math.asin(Math.min(1, Math.sqrt(across + along)));
}

/**
 * The length of all rings of a feature, holes among them.
 * @param {Model} model
 * @param {Feature} feature
 * @returns {Measure}
 */
export function lengthOfFeature(model, feature) {
  let grid = 0, value = 0;
  for (const polygon of feature.polygons) for (const ring of polygon) {
    const length = lengthOfChain(model, model.positions(ring), true);
    grid += length.grid;
    value += length.value;
  }
  return { grid, value, unit: unitOf(model) };
}

/**
 * The area of a feature: that of each outer ring less those of its holes.
 * @param {Model} model
 * @param {Feature} feature
 * @returns {Measure}
 */
export function areaOfFeature(model, feature) {
  let grid = 0, value = 0;
  for (const polygon of feature.polygons) polygon.forEach((ring, i) => {
    const area = areaOfRing(model, model.positions(ring)), sign = i ? -1 : 1;
    grid += sign * area.grid;
    value += sign * area.value;
  });
  return { grid, value, unit: unitOf(model) };
}

/**
 * The area within a ring.
 * @param {Model} model
 * @param {ArrayLike<number>} ring x, y, x, y, .. the last position not repeated
 * @returns {Measure}
 */
export function areaOfRing(model, ring) {
  const { scale } = model.transform || { scale: [1, 1] }, unit = unitOf(model), grid = areaOnGrid(ring);
  return { grid, value: unit === "km" ? areaOnSphere(ring, model.transform) : grid * Math.abs(scale[0] * scale[1]), unit };
}

/**
 * The area within a ring, in squares of the grid.
 * @param {ArrayLike<number>} ring
 */
function areaOnGrid(ring) {
  let twice = 0;
  for (let k = 2; k + 2 < ring.length; k += 2) {
    twice += (ring[k] - ring[0]) * (ring[k + 3] - ring[1]) - (ring[k + 2] - ring[0]) * (ring[k + 1] - ring[1]);
  }
  return Math.abs(twice) / 2;
}

/**
 * The area within a ring on the sphere, in square kilometres: the sum over its sides of the difference of longitude times
 * the mean sine of the latitude along the side.
 * @param {ArrayLike<number>} ring
 * @param {{scale: number[], translate: number[]}} transform
 */
function areaOnSphere(ring, transform) {
  if (ring.length < 6) return 0;
  let sum = 0;
  let [lon, lat] = toUnits(transform, ring[ring.length - 2], ring[ring.length - 1]);
  const base = Math.sin(lat * RADIAN);
  for (let k = 0; k < ring.length; k += 2) {
    const [lon2, lat2] = toUnits(transform, ring[k], ring[k + 1]);
    const middle = ((lat + lat2) / 2) * RADIAN, half = ((lat2 - lat) / 2) * RADIAN;
    const mean = Math.sin(middle) * (half === 0 ? 1 : Math.sin(half) / half);
    sum += (lon2 - lon) * RADIAN * (mean - base);
    [lon, lat] = [lon2, lat2];
  }
  return Math.abs(sum) * RADIUS * RADIUS;
}
