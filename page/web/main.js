// @ts-check
/** Puts the parts of the page together. */
import { Covering } from "./covering.js";
import { isAsking, showHelp } from "./dialogs.js";
import { by } from "./dom.js";
import { early } from "./early.js";
import { Editor } from "./editor.js";
import { Features } from "./features.js";
import { Files, nameOf } from "./files.js";
import { Keys } from "./keys.js";
import { Layers } from "./layers.js";
import { Measuring } from "./measuring.js";
import { Mending } from "./mending.js";
import { paint } from "./paint.js";
import { Panel } from "./panel.js";
import { Talk } from "./talk.js";
import { Thinning } from "./thinning.js";
import { Tools } from "./tools.js";
import { Units } from "./units.js";
import { View } from "./view.js";
import { TEXT } from "./words.js";

/** @typedef {import("./talk.js").Began} Began */

/** milliseconds after which the page says again that it is there */
const ALIVE = 20000;

const talk = new Talk(early), editor = new Editor(talk, new View(by("base"), by("over")));
const mending = new Mending(talk, start);

async function start() {
  const drawing = draw(), began = await talk.begin();
  document.title = TEXT.title(began.name);
  by("name").textContent = by("name").title = began.name;
  by("save").title = `${TEXT.savesTo(began.out, began.format)} (Ctrl+S)`;
  by("target").textContent = TEXT.savesTo(nameOf(began.out), began.format);
  by("target").title = began.out;
  // where it is not what one expects
  by("target").hidden = began.over && began.format === "TopoJSON";
  by("unproved").hidden = began.proved;
  by("unproved").textContent = TEXT.unproved;
  const drawn = await drawing;
  if (began.opens) await open(began, drawn); else mending.show(began);
}

/** Draws the map as its file has it, while border_edit opens it; where it can't be drawn, border_edit says what is wrong. */
async function draw() {
  try {
    return editor.draw(await talk.file());
  } catch (fault) {
    return null;
  }
}

/**
 * @param {Began} began
 * @param {import("./model.js").Model | null} drawn
 */
async function open(began, drawn) {
  await editor.open(began, drawn);
  const units = new Units(editor.model.transform), layers = new Layers(editor);
  const panel = new Panel(editor, layers, units, new Measuring(editor.model, units));
  const features = new Features(editor, panel), tools = new Tools(editor, panel, features);
  const thinning = new Thinning(editor, panel), files = new Files(editor, panel, began);
  const covering = new Covering(editor, panel);
  editor.view.layers.push(ctx => paint(ctx, tools));
  wireEdits(tools, features, thinning);
  wireView(files);
  const showList = wireTabs();
  wireFind(panel, tools);
  const discard = () => { const { isOpen } = thinning; if (isOpen) thinning.discard(); return isOpen; };
  const cover = () => { showList("cover"); by("look").focus(); };
  new Keys(tools, { save: () => files.save(), thin: () => thinning.open(), discard, cover });
  talk.socket.open(began.socket);
  // for tests
  Object.assign(window, { editor, tools, covering });
  panel.show();
  by("busy").hidden = true;
  by("map").focus();
}

/**
 * What a button does; then the map has the focus, so that keys go on there.
 * @param {string} id
 * @param {() => any} does
 */
function on(id, does) {
  by(id).addEventListener("click", async (/** @type {MouseEvent} */ e) => {
    try {
      await does();
    } catch (fault) {
      editor.fail(fault);
    }
    // not where a key pressed the button: then the focus stays there
    if (!isAsking() && e.detail > 0) by("map").focus();
  });
}

/**
 * @param {Tools} tools
 * @param {Features} features
 * @param {Thinning} thinning
 */
function wireEdits(tools, features, thinning) {
  on("undo", () => editor.undo());
  on("redo", () => editor.redo());
  on("cut", () => tools.sketch.toggle("cut"));
  on("reshape", () => tools.sketch.toggle("reshape"));
  on("measure", () => tools.sketch.toggle("measure"));
  on("merge", () => features.merge());
  on("rename", () => features.rename());
  on("delete", () => features.remove());
  by("thin").addEventListener("click", () => thinning.open());
}

/** @param {Files} files */
function wireView(files) {
  const { view } = editor, zoom = (/** @type {number} */ by) => view.zoom(by, view.width / 2, view.height / 2);
  on("fit", () => view.fit(editor.model.extent()));
  on("zoomIn", () => zoom(1.5));
  on("zoomOut", () => zoom(1 / 1.5));
  on("save", () => files.save());
  on("script", () => files.script());
  on("download", () => files.download());
  by("helpOpen").addEventListener("click", showHelp);
  by("underlay").addEventListener("click", () => files.toggleUnderlay());
  by("underlayFile").addEventListener("change", () => files.underlay(by("underlayFile").files[0]));
  by("down").checked = view.down;
  by("down").addEventListener("change", () => view.turn());
  by("names").addEventListener("change", () => { view.showNames = by("names").checked; view.change(); });
}

/**
 * @param {Panel} panel
 * @param {Tools} tools
 */
function wireFind(panel, tools) {
  const find = () => { if (panel.find(by("find").value)) tools.centre(); };
  by("find").addEventListener("focus", () => { panel.fillNames(); by("find").select(); });
  by("find").addEventListener("keydown", (/** @type {KeyboardEvent} */ e) => { if (e.key === "Enter") find(); });
  // one of the names that the browser proposes
  by("find").addEventListener("input", (/** @type {InputEvent} */ e) => {
    if (e.inputType === "insertReplacementText") find();
  });
}

/** The lists beside the map: one is shown, arrows go from tab to tab. Answers what shows a list. */
function wireTabs() {
  const tabs = [["tabLayers", "layers"], ["tabEdits", "edits"], ["tabCover", "cover"]];
  const show = (/** @type {number} */ at) => tabs.forEach(([tab, list], i) => {
    by(tab).setAttribute("aria-selected", String(i === at));
    by(tab).tabIndex = i === at ? 0 : -1;
    by(list).hidden = i !== at;
  });
  tabs.forEach(([tab], i) => {
    by(tab).addEventListener("click", () => show(i));
    by(tab).addEventListener("keydown", (/** @type {KeyboardEvent} */ e) => {
      const step = { ArrowLeft: tabs.length - 1, ArrowRight: 1 }[e.key];
      if (!step) return;
      const next = (i + step) % tabs.length;
      show(next);
      by(tabs[next][0]).focus();
    });
  });
  return (/** @type {string} */ list) => show(tabs.findIndex(each => each[1] === list));
}

setInterval(() => { if (!editor.isClosed) talk.alive().catch(fault => editor.fail(fault)); }, ALIVE);
window.addEventListener("beforeunload", e => { if (!editor.isClosed && editor.isUnsaved) e.preventDefault(); });
window.addEventListener("pagehide", () => talk.leave());
// a page that comes back as it was does not know what happened meanwhile
window.addEventListener("pageshow", e => { if (e.persisted) location.reload(); });
start().catch(fault => {
  by("busy").hidden = false;
  by("busy").textContent = `${TEXT.notOpened} ${fault.status === 0 ? TEXT.noServer : fault.message}`;
  console.error(fault);
});
