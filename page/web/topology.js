// @ts-check
/** Reads a topology (TopoJSON 1.0): its arcs, its layers in the order of the text, and its features. */
import { Reader, addUp } from "./reading.js";

/** @typedef {import("./reading.js").Arcs} Arcs */
/**
 * Positions one after another: x, y, x, y, ..
 * @typedef {Float64Array} Way
 */

/** the types of geometries that are features */
const FEATURES = new Set(["Polygon", "MultiPolygon", null]);
/** where `parsed` keeps the names of the layers, in the order of the text */
const LAYERS = Symbol("layers");

/**
 * The topology of a text that was read. An object of JavaScript lists names that are whole numbers first, whatever the text
 * says. The numbers of features hang on the order of the layers, so where a layer has such a name, the order is read from the
 * text.
 * @param {Reader} reader
 * @returns {any}
 */
function topologyOf(reader) {
  const { topology, text } = reader.end();
  if (Object.keys(topology.objects).some(name => /^\d+$/.test(name))) topology[LAYERS] = namesIn(text);
  return topology;
}

/**
 * The topology of a text.
 * @param {string} text
 * @returns {any}
 */
export function parsed(text) {
  const reader = new Reader();
  reader.take(new TextEncoder().encode(text));
  return topologyOf(reader);
}

/**
 * The topology of a text that is on its way.
 * @param {ReadableStream<Uint8Array>} stream
 * @returns {Promise<any>}
 */
export async function parsedStream(stream) {
  const reader = new Reader(), source = stream.getReader();
  for (let { done, value } = await source.read(); !done; { done, value } = await source.read()) {
    if (value) reader.take(value);
  }
  return topologyOf(reader);
}

/**
 * The names of the members of `objects`, in the order of the text.
 * @param {string} text
 * @returns {string[]}
 */
function namesIn(text) {
  const names = [], token = /"(?:[^"\\]|\\.)*"|[{}[\]]/g, colon = /\s*:/y;
  let depth = 0, isObjects = false;
  for (let found = token.exec(text); found; found = token.exec(text)) {
    const [part] = found;
    if (part === "{" || part === "[") { depth++; continue; }
    if (part === "}" || part === "]") {
      depth--;
      if (isObjects && depth === 1) return names;
      continue;
    }
    colon.lastIndex = token.lastIndex;
    if (depth > 2 || !colon.test(text)) continue;
    if (depth === 1) isObjects = JSON.parse(part) === "objects";
    else if (isObjects) names.push(JSON.parse(part));
  }
  return names;
}

/**
 * @param {any} topology
 * @returns {string[]}
 */
export const layerNames = topology => topology[LAYERS] || Object.keys(topology.objects);

/**
 * The arcs of a topology as positions of the grid; nobody writes into them.
 * @param {any} topology as `parsed` gives it, or as JSON gives it
 * @returns {Arcs}
 */
export function arcsOf({ arcs, transform }) {
  if (!Array.isArray(arcs)) return arcs;
  const xy = Float64Array.from(arcs.flatMap(arc => arc.flatMap((/** @type {number[]} */ position) => position.slice(0, 2))));
  let end = 0;
  const found = { xy, ends: arcs.map(arc => { end += 2 * arc.length; return end; }) };
  if (transform !== undefined) addUp(found);
  return found;
}

/**
 * Calls for each feature, in the order in which border_edit numbers them, with the number of the collection that it is in
 * (-1 where it is a layer by itself) and with the number of its layer.
 * @param {any} topology
 * @param {(object: any, collection: number, layer: number) => void} found
 */
export function eachFeature(topology, found) {
  let collections = 0;
  /**
   * @param {any} object
   * @param {number} collection
   * @param {number} layer
   */
  const visit = (object, collection, layer) => {
    if (object.type === "GeometryCollection") {
      const inner = collections++;
      for (const part of object.geometries) visit(part, inner, layer);
    } else if (FEATURES.has(object.type)) found(object, collection, layer);
  };
  layerNames(topology).forEach((name, layer) => visit(topology.objects[name], -1, layer));
}

/**
 * The arc indexes of a geometry: of its polygons the rings, the outer one first.
 * @param {any} object
 * @returns {number[][][]}
 */
export function polygonsOf(object) {
  if (object.type === "Polygon") return [object.arcs];
  return object.type === "MultiPolygon" ? object.arcs : [];
}
