// Shows a map in the browser that frames.py or test_drawing.py starts, and measures it.
import { Model, parsed } from "./web/model.js";
import { TURN, View } from "./web/view.js";
import { colouring } from "./web/colours.js";
const by = id => document.getElementById(id), start = performance.now();
const text = await (await fetch("map.json")).text(), fetched = performance.now();
const topology = parsed(text), read = performance.now();
let model = new Model(topology);
const made = performance.now(), view = new View(by("base"), by("over"));
view.resize();

/** Shows the whole map, as it is. */
function show() {
  Object.assign(window, { model, view });
  view.setModel(model);
  view.fit(model.extent());
}

show();
const whole = { x: view.x, y: view.y, ky: view.ky };
const isStill = () => !view.wanted && !view.drawing && !view.overWanted;
const frame = () => new Promise(done => requestAnimationFrame(done));
const settled = async () => { while (!isStill()) await frame(); };
await settled();
const drawn = performance.now();

function spread(list) {
  const sorted = list.slice().sort((a, b) => a - b);
  return { median: sorted[sorted.length >> 1], worst: sorted[Math.floor(0.95 * sorted.length)] };
}

/** Frames while something moves, how many a second, milliseconds from one to the next, and those of the drawings meanwhile. */
async function moving(step, milliseconds) {
  view.stats.draws = [];
  const times = [await frame()];
  for (let i = 0; times[times.length - 1] - times[0] < milliseconds; i++) { step(i); times.push(await frame()); }
  const frames = times.length - 1, between = times.slice(1).map((time, i) => time - times[i]);
  const second = (1000 * frames) / (times[frames] - times[0]);
  return { frames, second, ...spread(between), drawing: spread(view.stats.draws).median };
}

async function go(nearness) {
  Object.assign(view, whole);
  view.ky *= nearness;
  view.kx = view.ky * view.aspect;
  view.change();
  await settled();
}

/**
 * Milliseconds of one drawing of all that is seen: `all` in turns, until it is shown, and `steps` at a go, of which the longest
 * one has `longest`.
 */
async function drawing() {
  await new Promise(done => setTimeout(done, 200));
  const asked = performance.now();
  view.change();
  await settled();
  const all = performance.now() - asked, begun = performance.now(), steps = view.drawAll();
  let longest = 0, last = begun;
  for (let isDone = false; !isDone;) {
    isDone = steps.next().done;
    const now = performance.now();
    longest = Math.max(longest, now - last);
    last = now;
  }
  return { frames: 1, all, steps: last - begun, longest };
}

const timed = work => { const begun = performance.now(); work(); return performance.now() - begun; };

/** Milliseconds of edits of a feature in the middle. */
function edits() {
  const { x, y } = whole, feature = model.features.get(model.featuresIn([x, y, x, y])[0]);
  const at = model.positions(feature.polygons[0][0]), half = 2 * (at.length >> 2), ends = [at[0], at[1], at[half], at[half + 1]];
  const [dx, dy] = [9 / view.kx, 9 / view.ky], hundred = () => { for (let i = 0; i < 100; i++) model.nearestVertex(at[0] + i, at[1], dx, dy); };
  return {
    split: timed(() => model.apply(`split ${feature.num} "part" ${ends.join(" ")}`, `ok ${model.next}`)),
    merge: timed(() => model.apply(`merge ${feature.num} ${model.next - 1}`, "ok")),
    move: timed(() => model.apply(`move ${at[0]} ${at[1]} ${at[0] + 1} ${at[1]}`, "ok")),
    undo: timed(() => { for (let i = 0; i < 3; i++) model.undo(); }),
    hover: timed(hundred) / 100,
    replace: timed(() => model.replace(topology, model.order)),
  };
}

/** Shows the map anew, as it was at first. */
window.reset = () => {
  model = new Model(parsed(text));
  Object.assign(view, { underlay: [], without: null, colouring: null, layers: [], moved: null });
  show();
};
window.settled = settled;
window.measure = {
  ready: { fetch: fetched - start, parse: read - fetched, model: made - read, drawn: drawn - made },
  size: { features: model.counts.features, vertices: model.counts.vertices, pieces: model.pieces.length },
  heap: () => performance.memory.usedJSHeapSize / 1e6,
  go, drawing, edits, settled, turn: TURN,
  picture: milliseconds => moving(i => { view.x += (i % 2 ? 7 : -7) / view.kx; view.showShot(); }, milliseconds),
  pan: milliseconds => moving(i => { const way = i % 120 < 60 ? 1 : -1; view.pan(7 * way, 3 * way); }, milliseconds),
  zoom: milliseconds => moving(i => view.zoom(i % 80 < 40 ? 1.03 : 1 / 1.03, 500, 400), milliseconds),
  colour: async () => {
    view.setColouring(colouring(model.features.values(), "none of them"));
    await settled();
    const found = await drawing();
    view.setColouring(null);
    await settled();
    return found;
  },
  idle: async milliseconds => {
    let asked = 0;
    const tick = view.tick;
    view.tick = now => { asked++; tick(now); };
    await new Promise(done => setTimeout(done, milliseconds));
    view.tick = tick;
    return asked;
  },
};
