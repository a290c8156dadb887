// Cases of overlaps and gaps in the model of the page: outlines of faces, worked by hand; sides and areas, exactly; how
// long ago a look was; what is said of faces.
import { least } from "../web/changes.js";
import { Model } from "../web/model.js";
import { doubledArea, exactSign, isInside } from "../web/exact.js";
import { shapesOf } from "../web/faces.js";
import { actsBetween } from "../web/lines.js";
import { Measuring } from "../web/measuring.js";
import { Units } from "../web/units.js";
import { coverFaultText, faceText, halved } from "../web/words.js";

const HUGE = 1e12;
/** who gives way at each step, so that a step too few is seen */
const pace = { isTime: () => true };

/** What steps give in the end. */
function all(steps) {
  for (;;) {
    const step = steps.next();
    if (step.done) return step.value;
  }
}

/** The positions of a box as a ring, from its lower left corner to the left of what is in it. */
const box = (x, y, u, v) => `${x} ${y}, ${u} ${y}, ${u} ${v}, ${x} ${v}`;
const positionsIn = text => text.split(", ").map(position => position.split(" ").map(Number));

/**
 * A text of layers. Each has a list of features, each of these its polygons, each of these its rings with `;` between.
 * Each segment is an arc, since a border stands once alone.
 */
function mapOf(layers) {
  const arcs = [], places = new Map();
  const indexOf = ([a, b]) => {
    const name = `${a}; ${b}`, back = places.get(`${b}; ${a}`);
    if (back !== undefined) return ~back;
    if (!places.has(name)) places.set(name, arcs.push([a, b]) - 1);
    return places.get(name);
  };
  const ringOf = text => {
    const ring = positionsIn(text);
    return ring.map((position, k) => indexOf([position, ring[(k + 1) % ring.length]]));
  };
  const featureOf = polygons => ({ type: "MultiPolygon", arcs: polygons.map(rings => rings.split("; ").map(ringOf)) });
  const objects = Object.fromEntries(Object.entries(layers).map(([name, features]) =>
    [name, { type: "GeometryCollection", geometries: features.map(featureOf) }]));
  return { type: "Topology", objects, arcs };
}

// Maps whose borders stand once each.
const PAIR = { a: [["0 0, 9 0, 10 0, 10 10, 9 10, 0 10"], ["9 0, 10 0, 20 0, 20 10, 10 10, 9 10"]] };
const UPON = { a: [[box(0, 0, 20, 20)], [box(5, 5, 10, 10)]] };
const LAKE = { a: [[`${box(0, 0, 20, 20)}; 5 5, 5 10, 10 10, 10 5`]] };
const SAME = { a: [[box(0, 0, 10, 10)], [box(0, 0, 10, 10)]] };
const TWICE = { a: [["0 0, 6 0, 10 0, 10 10, 6 10, 0 10", "6 0, 10 0, 16 0, 16 10, 10 10, 6 10"]] };
const FRAME = { a: [["0 0, 8 0, 8 10, 0 10"], ["12 0, 20 0, 20 10, 12 10"], ["0 -5, 20 -5, 20 0, 12 0, 8 0, 0 0"],
  ["0 10, 8 10, 12 10, 20 10, 20 15, 0 15"], [box(9, 4, 11, 6)]] };
const TIP = { a: [["0 0, 20 0, 20 5, 6 5, 6 15, 15 15, 20 15, 20 20, 0 20"], ["20 5, 20 15, 15 15"],
  ["6 5, 15 15, 6 15"]] };
const STRIPS = { a: [["0 0, 8 0, 9 0, 10 0, 10 10, 9 10, 8 10, 0 10"],
  ["8 0, 9 0, 10 0, 18 0, 18 10, 10 10, 9 10, 8 10"], ["9 0, 10 0, 18 0, 26 0, 26 10, 18 10, 10 10, 9 10"]] };
const BOW = { a: [["0 0, 10 0, 10 10, 0 10; 2 2, 2 4, 4 4, 4 2; 4 4, 4 6, 6 6, 6 4"]] };
const CORNER = { a: [["0 0, 10 0, 10 10, 0 10; 2 2, 2 8, 8 8, 8 2"], ["2 2, 4 3, 3 4"]] };
// the left side of the inner one stands in its outer ring and in its hole, so the hole is open
const OPEN = { a: [[`${box(-20, -10, 30, 20)}; ${box(-5, -5, 15, 15)}`],
  ["0 0, 10 0, 10 10, 0 10; 0 0, 5 5, 0 10"]] };
// a frame with an island, in which is a lake with an island in it, and beside it another island
const NESTED = { a: [[`${box(0, 0, 100, 100)}; ${box(10, 10, 90, 90)}`],
  [`${box(20, 20, 60, 60)}; ${box(30, 30, 50, 50)}`], [box(35, 35, 45, 45)], [box(70, 70, 80, 80)]] };
const LEAST = `${-HUGE} ${-HUGE}`, GREATEST = `${HUGE} ${HUGE}`, BELOW = `${HUGE} ${HUGE - 1}`;
const FAR = { a: [[`${LEAST}, ${HUGE} ${-HUGE}, ${BELOW}, ${GREATEST}, ${-HUGE} ${HUGE}`],
  [`${LEAST}, ${BELOW}, ${GREATEST}`]] };
// A map, a layer, the segment that names a face, and twice its area; its outline, then its islands, each from its least
// position on; and whether they add up to the area. Rows are those of the rules in docs/COVERING.md, worked by hand.
const SHAPES = [
  ["an overlap", PAIR, 0, "9 10 9 0", "20", "9 0, 10 0, 10 10, 9 10", true],
  ["one upon another", UPON, 0, "5 10 5 5", "50", box(5, 5, 10, 10), true],
  ["a lake", LAKE, 0, "5 10 5 5", "50", box(5, 5, 10, 10), true],
  ["two with one outline", SAME, 0, "0 10 0 0", "200", box(0, 0, 10, 10), true],
  ["a feature twice", TWICE, 0, "6 10 6 0", "80", "6 0, 10 0, 10 10, 6 10", true],
  ["a gap with an island", FRAME, 0, "8 10 8 0", "72", "8 0, 12 0, 12 10, 8 10; 9 4, 9 6, 11 6, 11 4", true],
  ["an area that is another one", FRAME, 0, "8 10 8 0", "71", "8 0, 12 0, 12 10, 8 10; 9 4, 9 6, 11 6, 11 4", false],
  ["a gap with its tip on a border", TIP, 0, "15 15 6 5", "140", "6 5, 20 5, 15 15", true],
  ["what two hold", STRIPS, 0, "8 10 8 0", "20", "8 0, 9 0, 9 10, 8 10", true],
  ["what three hold", STRIPS, 0, "9 10 9 0", "20", "9 0, 10 0, 10 10, 9 10", true],
  ["what two others hold", STRIPS, 0, "10 10 10 0", "160", "10 0, 18 0, 18 10, 10 10", true],
  ["a lake that meets another at a corner", BOW, 0, "2 4 2 2", "8", "2 2, 4 2, 4 4, 2 4", true],
  ["the other one", BOW, 0, "4 6 4 4", "8", "4 4, 6 4, 6 6, 4 6", true],
  ["an island at a corner", CORNER, 0, "2 8 2 2", "69", "2 2, 3 4, 4 3, 2 2, 8 2, 8 8, 2 8", true],
  ["a segment twice in a polygon", OPEN, 0, "-5 15 -5 -5", "650",
    `${box(-5, -5, 15, 15)}; 0 0, 5 5, 0 10, 10 10, 10 0`, true],
  ["islands in islands", NESTED, 0, "10 90 10 10", "9400",
    `${box(10, 10, 90, 90)}; 20 20, 20 60, 60 60, 60 20; 70 70, 70 80, 80 80, 80 70`, true],
  ["the lake in the island", NESTED, 0, "30 50 30 30", "600",
    `${box(30, 30, 50, 50)}; 35 35, 35 45, 45 45, 45 35`, true],
  ["far away, and thin", FAR, 0, `${LEAST} ${BELOW}`, `${2 * HUGE}`, `${LEAST}, ${BELOW}, ${GREATEST}`, true],
  ["a layer of its own", { b: [[box(5, 0, 8, 4)]], ...PAIR }, 1, "9 10 9 0", "20", "9 0, 10 0, 10 10, 9 10", true],
  ["a segment that is no border", PAIR, 0, "9 10 9 1", "20", null, false],
  ["a layer that has not this segment", { b: [[box(0, 0, 10, 10)]], ...PAIR }, 0, "9 10 9 0", "20", null, false],
];

// ways, and on which side of the first the second goes
const WIDE = 2 * HUGE;
const SIGNS = [
  [[1, 0], [0, 1], 1], [[0, 1], [1, 0], -1], [[2, 2], [-3, -3], 0], [[HUGE, HUGE - 1], [HUGE - 1, HUGE - 2], -1],
  [[WIDE, WIDE - 1], [WIDE - 1, WIDE - 2], -1], [[WIDE - 1, WIDE - 2], [WIDE, WIDE - 1], 1],
  [[WIDE, WIDE], [-WIDE, -WIDE], 0],
];
// closed ways, and twice their areas
const HALF = 2 ** 26;
const AREAS = [
  [box(0, 0, 3, 2), 12n], ["0 2, 3 2, 3 0, 0 0", -12n], ["0 0, 1 0, 0 1", 1n],
  [box(-HUGE, -HUGE, HUGE, HUGE), 8n * 10n ** 24n], [`${LEAST}, ${BELOW}, ${GREATEST}`, 2n * 10n ** 12n],
  [`${LEAST}, ${GREATEST}, ${BELOW}`, -2n * 10n ** 12n],
  [`0 0, ${HALF} 0, ${HALF} ${HALF}, 0 ${HALF}, -1 1`, 2n * 2n ** 52n + 2n ** 26n],
];
// a position, a closed way, and whether the one is in the other
const NOTCHED = "0 0, 4 0, 4 4, 3 1, 0 4";
const INSIDES = [
  ["1 1", box(0, 0, 3, 2), true], ["4 1", box(0, 0, 3, 2), false], ["-1 1", box(0, 0, 3, 2), false],
  ["1 3", box(0, 0, 3, 2), false], ["2 1", NOTCHED, true], ["3 2", NOTCHED, false],
  ["2 2", "0 4, 3 1, 4 4, 4 0, 0 0", false],
  [`${HUGE - 1} ${HUGE - 2}`, `${LEAST}, ${HUGE} ${HUGE - 2}, ${GREATEST}`, true],
];

// entries of the log behind a look, each with its act; how many acts ago it was
const move = act => ["move 0 0 1 1", "ok", act], undo = act => ["undo", "ok", act];
const AGES = [
  [[], 0], [[move(5)], 1], [[move(5), move(5), move(6)], 2], [[move(5), undo(6)], 0], [[undo(6)], 1],
  [[undo(6), undo(6)], 1], [[undo(6), move(7)], 2], [[move(5), move(5), undo(6), undo(6), undo(7)], 1],
  [[["move 0 0 1 1", "refused occupied", 5]], 0], [[["thin 5", "ok 3", 5]], 1],
  [[["thin 5", "ok 0", 5], ["undo", "refused nothing to undo", 6]], 0],
];

const TEXTS = [
  [faceText("overlap", ["A", "B"], 0), "A and B overlap"],
  [faceText("overlap", ["A", "B", "C"], 0), "A, B and C overlap"],
  [faceText("overlap", ["A", "B"], 1200), "A, B and 1,200 more overlap"],
  [faceText("twice", ["A"], 0), "A holds this twice"], [faceText("gap", ["A", "B"], 0), "Gap between A and B"],
  [faceText("lake", ["A"], 0), "Lake in A"], [halved("5080"), "2,540"], [halved("5"), "2.5"], [halved("1"), "0.5"],
  [halved("0"), "0"], [halved("-1"), "-0.5"], [halved("-5080"), "-2,540"],
  [halved("8000000000000000000000001"), "4,000,000,000,000,000,000,000,000.5"],
  [coverFaultText("open: too large sides").includes("too many borders"), true],
  [coverFaultText("open: too large bytes").includes("64 MiB"), true],
  [coverFaultText("unlike 1 2 3 4").includes("never been seen"), true], [coverFaultText("what else"), "what else"],
];

const byLeast = way => {
  const at = Array.from({ length: way.length / 2 }, (_, k) => `${way[2 * k]} ${way[2 * k + 1]}`);
  const from = at.indexOf(least(way).join(" "));
  return [...at.slice(from), ...at.slice(0, from)].join(", ");
};
const shapeText = shape => shape && shape.ways.map(byLeast).join("; ");
const wayOf = text => Float64Array.from(positionsIn(text).flat());

/** @param {(what: string, found: any, expected: any) => void} check */
export function checkFaces(check) {
  for (const [what, layers, layer, segment, area, ways, isWhole] of SHAPES) {
    const face = { layer, segment: segment.split(" ").map(Number), area };
    const [shape] = all(shapesOf(new Model(mapOf(layers)).shot(), [face]));
    check(`${what}: its outlines`, shapeText(shape), ways);
    check(`${what}: they add up`, Boolean(shape?.isWhole), isWhole);
    const around = shape?.ways.filter(way => all(isInside(shape.place, way, pace))) ?? [0];
    check(`${what}: its place is in it`, around.length % 2, 1);
  }
  for (const [way, other, sign] of SIGNS) check(`sign of ${way} and ${other}`, exactSign(way, other), sign);
  for (const [text, area] of AREAS) check(`twice the area of ${text}`, all(doubledArea(wayOf(text), pace)), area);
  for (const [at, text, isIn] of INSIDES) check(`${at} in ${text}`, all(isInside(wayOf(at), wayOf(text), pace)), isIn);
  for (const [log, acts] of AGES) {
    const entries = log.map(([line, answer, act]) => ({ line, answer, act }));
    check(`acts of ${JSON.stringify(log)}`, actsBetween(entries), acts);
  }
  for (const [text, expected] of TEXTS) check(`${expected}`, text, expected);
  checkShot(check);
  checkSizes(check);
}

/** A shot stays as it is whatever is edited afterwards. */
function checkShot(check) {
  const model = new Model(mapOf(PAIR)), face = { layer: 0, segment: [9, 10, 9, 0], area: "20" }, shot = model.shot();
  for (const line of ["move 9 10 5 10", "insert 9 0 5 10 6 5", "remove 10 10", "delete 1"]) model.apply(line, "ok");
  check("outlines of a shot after edits", shapeText(all(shapesOf(shot, [face]))[0]), "9 0, 10 0, 10 10, 9 10");
  check("and none of the map then", all(shapesOf(model.shot(), [face]))[0], null);
  model.undo();
  const [other] = all(shapesOf(model.shot(), [{ ...face, segment: [5, 10, 6, 5] }]));
  check("an edit is seen in a new shot", shapeText(other).includes("6 5"), true);
}

/** Areas and widths in the unit of the map. The width is twice the area by the length of the border. */
function checkSizes(check) {
  const size = (transform, isTraced = true) => {
    const model = new Model({ ...mapOf(PAIR), transform });
    // numbers are positions already, and no differences
    model.isDegrees = transform?.translate[0] === 0;
    const [shape] = all(shapesOf(new Model(mapOf(PAIR)).shot(), [{ layer: 0, segment: [9, 10, 9, 0], area: "20" }]));
    return new Measuring(model, new Units(transform)).face({ area: "20", width: "1" }, isTraced ? shape : null);
  };
  const halves = { scale: [0.5, 0.5], translate: [1000, 0] }, degrees = { scale: [1, 1], translate: [0, 0] };
  check("a face on the grid", size(undefined), "10 square grid units · width 1 grid units");
  check("a face in the unit of the map", size(halves), "2.5 square map units · width 0.454545 map units · grid 1");
  check("a face without an outline", size(halves, false), "2.5 square map units · width 1 grid units");
  // the area is R^2 sin 10 by the width of a degree, 123,016.68 km²; the border, of great circles, 2,444.6024 km
  check("a face in degrees", size(degrees), "10 square map units (123,017 km² if these are degrees) · "
    + "width 0.909091 map units (100.644 km if these are degrees) · grid 1");
}
