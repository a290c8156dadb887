// Drawn edits of all kinds, given to border_edit and, where it accepts them, to the model of the page; and the outlines of
// all overlaps and gaps that border_cover finds on the way.
import { execFile, spawn } from "node:child_process";
import { mkdtempSync, readFileSync, rmSync, writeFileSync } from "node:fs";
import { tmpdir } from "node:os";
import { join } from "node:path";
import { Model, orderAfter, parsed } from "../web/model.js";
import { isCounted } from "../web/counts.js";
import { shapesOf } from "../web/faces.js";
import { areaOfFeature } from "../web/measures.js";

/** A running border_edit: one answer for each line. */
class Child {
  constructor(program, map) {
    this.process = spawn(program, [map, "-", "--out", "/dev/null", "--undo", "1000"], { stdio: ["pipe", "pipe", "inherit"] });
    this.rest = "";
    /** who waits for an answer, the first one first */
    this.waiting = [];
    this.process.on("error", fault => this.end(String(fault)));
    this.process.on("close", code => this.end(`border_edit ended with status ${code}`));
    this.process.stdin.on("error", () => undefined);
    this.process.stdout.setEncoding("utf8");
    this.process.stdout.on("data", chunk => this.read(chunk));
  }

  read(chunk) {
    const lines = (this.rest + chunk).split("\n");
    this.rest = lines.pop();
    for (const line of lines) this.waiting.shift().answered(line);
  }

  end(why) {
    this.fault = new Error(why);
    for (const { failed } of this.waiting.splice(0)) failed(this.fault);
  }

  ask(line) {
    if (this.fault) return Promise.reject(this.fault);
    return new Promise((answered, failed) => {
      this.waiting.push({ answered, failed });
      this.process.stdin.write(line + "\n");
    });
  }

  /** The text of the map. A kept text may have line feeds of its own, so lines are joined until the answer of `count` comes. */
  async document() {
    const asked = [this.ask("document"), this.ask("count")], lines = [await asked[0]];
    let line = await asked[1];
    while (!line.startsWith("features ")) {
      lines.push(line);
      line = await new Promise((answered, failed) => this.waiting.push({ answered, failed }));
    }
    return { text: lines.join("\n"), topology: parsed(lines.join("\n")), count: line };
  }

  close() { this.process.stdin.end(); }
}

/**
 * The faces that border_cover finds in a text: of each its features, as they stand in the text, its area, and the segment
 * that names it.
 * @returns {Promise<{features: number[], area: string, segment: number[]}[]>}
 */
async function facesIn(program, text, folder) {
  const file = join(folder, "text.json");
  writeFileSync(file, text);
  const report = await new Promise((done, failed) => {
    execFile(program, [file, "--most", "4000000"], { maxBuffer: 2 ** 30 }, (fault, out, said) => {
      if (fault && fault.code !== 1) failed(new Error(`border_cover: ${said || fault}`)); else done(out);
    });
  });
  const faces = report.matchAll(/^(?:overlap|twice|gap|lake) ([\d ]+) \/ (\d+) \d+ \/ (.+)$/gm);
  const numbers = text => text.split(" ").map(Number);
  return Array.from(faces, ([, features, area, segment]) => ({ features: numbers(features), area, segment: numbers(segment) }));
}

/** Numbers below n, the same for the same seed. */
function source(seed) {
  let state = seed >>> 0;
  return n => {
    state = (state + 0x6d2b79f5) >>> 0;
    let t = Math.imul(state ^ (state >>> 15), 1 | state);
    t = (t + Math.imul(t ^ (t >>> 7), 61 | t)) ^ t;
    return ((t ^ (t >>> 14)) >>> 0) % n;
  };
}

/** The lines of one act, which are likely to be accepted; `UNDO` where the newest act is to be taken back. */
const UNDO = "undo act";
function someAct(model, rand) {
  const kind = rand(100);
  if (model.past.length && kind < 14) return [UNDO];
  if (model.past.length && kind < 20) return ["undo"];
  if (!model.order.length) return ["undo"];
  const num = model.order[rand(model.order.length)], feature = model.features.get(num);
  if (kind < 23) return [`delete ${num}`];
  if (kind < 27 || !feature.polygons.length) return [`rename ${num} ${JSON.stringify("n\"é " + rand(1000))}`];
  if (kind < 29) return [`thin ${rand(2) ? rand(50) : rand(200000)}`];
  const polygon = feature.polygons[rand(feature.polygons.length)], outer = model.positions(polygon[0]);
  if (kind < 72) return [vertexLine(rand, kind, model.positions(polygon[rand(polygon.length)]))];
  if (kind < 82) return [splitLine(rand, num, outer)];
  if (kind < 88) return cutOfSides(rand, num, outer);
  return merges(model, rand, num, kind);
}

const MOVE = 46, INSERT = 59;
function vertexLine(rand, kind, at) {
  const k = 2 * rand(at.length / 2), x = at[k], y = at[k + 1], u = at[(k + 2) % at.length], v = at[(k + 3) % at.length];
  const off = s => rand(2 * s + 1) - s, near = Math.max(2, Math.round(Math.hypot(u - x, v - y) / (rand(4) ? 3 : 0.4)));
  if (kind < MOVE) return `move ${x} ${y} ${x + off(near)} ${y + off(near)}`;
  const between = [Math.round((x + u) / 2) + off(near >> 2), Math.round((y + v) / 2) + off(near >> 2)];
  if (kind < INSERT) return `insert ${x} ${y} ${u} ${v} ${between.join(" ")}`;
  return `remove ${x} ${y}`;
}

function splitLine(rand, num, at) {
  const n = at.length / 2, k = rand(n), j = (k + 2 + rand(Math.max(1, n - 3))) % n;
  const [from, to] = [k, j].map(place => [at[2 * place], at[2 * place + 1]]);
  const middle = from.map((value, axis) => Math.round((value + to[axis]) / 2) + rand(7) - 3);
  return `split ${num} "s ${rand(99)}" ${[...from, ...(rand(2) ? middle : []), ...to].join(" ")}`;
}

/** A cut from the middle of a side to that of another one, as a user draws it. */
function cutOfSides(rand, num, at) {
  const n = at.length / 2, k = rand(n), j = (k + 1 + rand(n - 1)) % n;
  const sides = [k, j].map(i => [at[2 * i], at[2 * i + 1], at[(2 * i + 2) % at.length], at[(2 * i + 3) % at.length]]);
  const middles = sides.map(([x, y, u, v]) => [Math.round((x + u) / 2), Math.round((y + v) / 2)]);
  return [...sides.map((side, i) => `insert ${side.join(" ")} ${middles[i].join(" ")}`), `split ${num} "cut" ${middles.flat().join(" ")}`];
}

/** One merge or two, with neighbours. */
function merges(model, rand, num, kind) {
  const users = model.features.get(num).polygons[0][0].flatMap(ref => model.pieces[ref < 0 ? ~ref : ref].users);
  const others = [...new Set(users)].filter(other => other !== num);
  if (!others.length) return [`merge ${num} ${num}`];
  return Array.from({ length: kind < 97 ? 1 : 2 }, () => `merge ${num} ${others[rand(others.length)]}`);
}

/** All that is done to one map. */
class Run {
  constructor(programs, map, { edits, every, seed }) {
    Object.assign(this, { map, edits, every, rand: source(seed), child: new Child(programs.edit, map) });
    this.cover = programs.cover;
    Object.assign(this, { log: [], tally: {}, done: 0, compared: 0, faces: 0, isFile: false });
    this.folder = mkdtempSync(join(tmpdir(), "drawn_edits-"));
  }

  /** The map as the page has it first: as its file has it, where that counts nothing twice; else from the text. */
  async begin() {
    const { topology, count } = await this.child.document();
    try {
      this.model = new Model(parsed(readFileSync(this.map, "utf8")));
      this.isFile = isCounted(this.model.counts, count);
    } catch (fault) {
      this.isFile = false;
    }
    if (!this.isFile) this.model = new Model(topology);
  }

  async go() {
    try {
      await this.begin();
      this.first = this.model.order.length;
      await this.compare();
      while (this.done < this.edits) {
        const before = this.done;
        await this.someAct();
        if (Math.floor(before / this.every) !== Math.floor(this.done / this.every)) await this.compare();
      }
      await this.compare();
    } finally {
      this.child.close();
      rmSync(this.folder, { recursive: true });
    }
  }

  async someAct() {
    const { model, rand } = this, lines = someAct(model, rand);
    if (lines[0] === UNDO) { await this.takeBack(); return; }
    if (model.layers.length > 1) model.show(rand(model.layers.length), rand(3) > 0);
    model.beginAct();
    for (const line of lines) if (!(await this.edit(line)).startsWith("ok")) break;
    model.endAct();
  }

  async takeBack() {
    const count = this.model.changesOfAct(), left = this.model.past.length - count;
    for (let i = 0; i < count; i++) {
      const answer = await this.child.ask("undo");
      if (answer !== "ok") throw new Error(`undo of an act: ${answer}`);
      this.note("undo of an act", "undo", answer);
    }
    this.model.undoAct();
    if (this.model.past.length !== left) throw new Error("an act was taken back in part");
  }

  note(what, line, answer) {
    this.done++;
    this.log.push([line, answer]);
    const key = `${what} ${answer.startsWith("ok") ? "ok" : "refused"}`;
    this.tally[key] = (this.tally[key] || 0) + 1;
  }

  async edit(line) {
    const { model, child } = this, [verb, num] = line.split(" "), swept = model.swept(line).vertices;
    const answer = await child.ask(line);
    this.note(verb, line, answer);
    if (answer === "bad line") throw new Error(`bad line: ${line}`);
    if (/^(move|insert|remove)/.test(line)) this.checkSwept(line, answer, swept.length);
    if (!answer.startsWith("ok") || answer === "ok 0") return answer;
    if (verb === "thin") {
      const { topology } = await child.document();
      model.replace(topology, orderAfter(this.first, this.log));
      return answer;
    }
    if (verb === "split" && answer !== `ok ${model.next}`) throw new Error(`${line}: ${answer}, and not ok ${model.next}`);
    const hasHoles = verb === "split" && model.feature(Number(num)).polygons.some(polygon => polygon.length > 1);
    model.apply(line, answer, hasHoles ? JSON.parse(await child.ask(`rings ${model.next}`)) : null);
    return answer;
  }

  /**
   * An edit that is accepted passes over no vertex, and one that is refused for it over one at least; a move is refused so
   * too where its way meets a border.
   */
  checkSwept(line, answer, count) {
    if (answer === "ok" && count) throw new Error(`${line} is accepted, and passes over ${count}`);
    const isMove = line.startsWith("move");
    if (answer === "refused sweeps" && !count && !isMove) throw new Error(`${line} is refused, and passes over none`);
  }

  async compare() {
    const { model, child } = this, { text, topology, count } = await child.document(), { features, vertices, segments } = model.counts;
    const counts = `features ${features} vertices ${vertices} segments ${segments}`;
    const fault = model.differs(topology) || (String(orderAfter(this.first, this.log)) !== String(model.order) && "order")
      || (count !== counts && `${counts}, and not ${count}`) || await this.differentArea() || this.differentHit(topology)
      || await this.differentFace(text);
    if (fault) throw new Error(`${fault}, after ${JSON.stringify(this.log.slice(-4))}`);
    this.compared++;
  }

  /** The area of a feature beside that of border_edit, which is exact. */
  async differentArea() {
    const { model, rand, child } = this;
    if (!model.order.length) return null;
    const num = model.order[rand(model.order.length)], twice = Number(await child.ask(`area ${num}`));
    const found = 2 * areaOfFeature(model, model.feature(num)).grid;
    return Math.abs(found - twice) <= 1e-9 * Math.abs(twice) ? null : `area of ${num}: ${found}, ${twice}`;
  }

  /** The outlines of all faces that border_cover finds: each has its area, so no island is missing or too much. */
  async differentFace(text) {
    const { model } = this, told = await facesIn(this.cover, text, this.folder);
    const faces = told.map(face => ({ ...face, layer: model.feature(model.order[face.features[0]]).layer }));
    this.faces += faces.length;
    const steps = shapesOf(model.shot(), faces);
    let step = steps.next();
    while (!step.done) step = steps.next();
    const wrong = faces.find((_, i) => !step.value[i]?.isWhole);
    return wrong ? `face ${JSON.stringify(wrong)}` : null;
  }

  /** How far the nearest vertex of a layer that is shown is, by a look at all of them. */
  leastDistance(plain, x, y) {
    let least = Infinity;
    for (const { num, polygons } of plain.features.values()) for (const ring of this.model.isShown(num) ? polygons.flat() : []) {
      const at = plain.positions(ring);
      for (let k = 0; k < at.length; k += 2) least = Math.min(least, Math.hypot(at[k] - x, at[k + 1] - y));
    }
    return least;
  }

  /** The nearest vertex to a position, and the features in a box, beside all rings of the text. */
  differentHit(topology) {
    const { model, rand } = this, plain = new Model(topology, model.order), [x0, y0, x1, y1] = plain.extent();
    if (x0 > x1) return null;
    const x = x0 + rand(1000) * (x1 - x0) / 1000, y = y0 + rand(1000) * (y1 - y0) / 1000;
    const reach = (x1 - x0 + y1 - y0) / (2 << rand(6)), least = this.leastDistance(plain, x, y);
    const found = model.nearestVertex(x, y, reach, reach), distance = found ? Math.hypot(found[0] - x, found[1] - y) : Infinity;
    if (distance !== (least < reach ? least : Infinity)) return `vertex near ${x} ${y}: ${distance}, ${least}`;
    const seen = new Set(model.featuresIn([x, y, x + reach, y + reach]));
    const missing = plain.featuresIn([x, y, x + reach, y + reach]).find(num => model.isShown(num) !== seen.has(num));
    return missing === undefined ? null : `feature ${missing} in a box at ${x} ${y}`;
  }
}

/**
 * Draws edits of a map. Answers how many were made, how often all was compared, how many faces there were, whether the model
 * began with the file, and what differed.
 * @param {{edit: string, cover: string}} programs
 * @param {string} map
 * @param {{edits: number, every: number, seed: number}} given
 */
export async function drawEdits(programs, map, given) {
  const run = new Run(programs, map, given);
  let fault = "";
  try { await run.go(); } catch (error) { fault = error.stack; }
  return { done: run.done, compared: run.compared, faces: run.faces, isFile: run.isFile, tally: run.tally, fault };
}
