// Cases of a file that the page draws before border_edit has it open: whether it is the map, and files that are none.
import { Model, parsed } from "../web/model.js";
import { isCounted } from "../web/counts.js";

/** A text with these arcs, and with a feature for each list of arc indexes, which are its ring. */
const textOf = (arcs, rings) => JSON.stringify({
  type: "Topology", objects: { a: { type: "GeometryCollection", geometries: rings.map(ring => ({ type: "Polygon", arcs: [ring] })) } }, arcs,
});

const LEFT = [[10, 10], [0, 10], [0, 0], [10, 0]], SIDE = [[10, 0], [10, 10]], RIGHT = [[10, 0], [20, 0], [20, 10], [10, 10]];
// Arcs, rings, what border_edit counts (each vertex and each segment once, a repeated position not at all), and whether
// the file is the map: each segment stands in it once, and a vertex of several arcs is an end of them.
const FILES = [
  ["two squares with a side in common", [LEFT, SIDE, RIGHT], [[0, 1], [2, -2]], "features 2 vertices 6 segments 7", true],
  ["an arc that no feature has", [LEFT, SIDE, RIGHT, [[50, 50], [60, 60]]], [[0, 1], [2, -2]], "features 2 vertices 6 segments 7", true],
  ["the side stands in the file twice", [[...LEFT, [10, 10]], [...RIGHT, [10, 0]]], [[0], [1]], "features 2 vertices 6 segments 7", false],
  ["squares that touch where both arcs begin", [[[10, 10], [0, 10], [0, 0], [10, 0], [10, 10]], [[10, 10], [20, 10], [20, 20], [10, 20], [10, 10]]],
    [[0], [1]], "features 2 vertices 7 segments 8", true],
  ["squares that touch within both arcs", [[[0, 0], [10, 0], [10, 10], [0, 10], [0, 0]], [[20, 20], [10, 20], [10, 10], [20, 10], [20, 20]]],
    [[0], [1]], "features 2 vertices 7 segments 8", false],
  ["squares that touch where one arc begins", [[[0, 0], [10, 0], [10, 10], [0, 10], [0, 0]], [[10, 10], [20, 10], [20, 20], [10, 20], [10, 10]]],
    [[0], [1]], "features 2 vertices 7 segments 8", false],
  ["a repeated position", [[[0, 0], [10, 0], [10, 0], [10, 10], [0, 0]]], [[0]], "features 1 vertices 3 segments 3", false],
  ["a feature more", [[[0, 0], [10, 0], [10, 10], [0, 0]]], [[0]], "features 2 vertices 3 segments 3", false],
];

// so many positions of one arc that 64 segments of it are a piece, of which there are 1000
const LONG = Array.from({ length: 64001 }, (_, i) => [i, 0]);
const FAULTS = [
  ["an arc index that is none", textOf([LEFT], [[5]])],
  ["a negative one", textOf([LEFT], [[-2]])],
  ["one that is no number", textOf([LEFT], [["x"]])],
  ["one that is not whole", textOf([LEFT], [[0.5]])],
  ["a ring that is no list", textOf([LEFT], [7])],
  ["more positions than a map may have", textOf([LONG], [Array(4001).fill(0)])],
  ["more than fit in the memory", textOf([LONG], [Array(1e6).fill(0)])],
  ["more features than a map may have", textOf([], Array(200001).fill([]))],
  ["decimals", '{"type":"Topology","objects":{},"arcs":[[[0,0],[1.5,2]]]}'],
  ["half a text", textOf([LEFT], [[0]]).slice(0, 60)],
  ["a list", "[]"],
  ["a number", "5"],
  ["no objects", '{"type":"Topology","arcs":[]}'],
  ["no text", ""],
];

/** @param {(what: string, found: any, expected: any) => void} check */
export function checkFiles(check) {
  for (const [what, arcs, rings, count, isMap] of FILES) {
    check(what, isCounted(new Model(parsed(textOf(arcs, rings))).counts, count), isMap);
  }
  for (const [what, text] of FAULTS) {
    let isFault = false;
    try { new Model(parsed(text)); } catch (fault) { isFault = true; }
    check(`${what} is a fault`, isFault, true);
  }
  const most = new Model(parsed(textOf([], Array(200000).fill([]))));
  check("as many features as a map may have", most.counts.features, 200000);
}
