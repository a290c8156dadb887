// @ts-check
/** Thinning to a share of the vertices: flat vertices are left out with rising bounds until so many are left. */
import { by } from "./dom.js";
import { isChange } from "./lines.js";
import { TEXT } from "./words.js";

/** @typedef {import("./editor.js").Editor} Editor */

/** The bounds, twice an area in squares of the grid: 0 1 2 3 4 6 8 12 16 24 .. */
export function* bounds() {
  yield* [0n, 1n, 2n, 3n];
  for (let bound = 4n; bound <= 8n * 10n ** 24n; bound *= 2n) { yield bound; yield bound + bound / 2n; }
}

export class Thinning {
  /**
   * @param {Editor} editor
   * @param {import("./panel.js").Panel} panel
   */
  constructor(editor, panel) {
    this.editor = editor;
    this.panel = panel;
    this.box = by("thinning");
    this.slider = /** @type {HTMLInputElement} */ (by("thinShare"));
    /** vertices before */
    this.before = 0;
    /** the share that is wanted */
    this.wanted = 1;
    /**
     * the act that is shown, not kept yet; of each of its steps whether it changed the map, and the vertices left after it
     * @type {import("./editor.js").Run | null}
     */
    this.run = null;
    /** @type {{isChange: boolean, left: number}[]} */
    this.steps = [];
    /**
     * what is under way
     * @type {Promise<any>}
     */
    this.turn = Promise.resolve();
    this.isBusy = false;
    this.slider.addEventListener("input", () => this.tell());
    this.slider.addEventListener("change", () => { this.wanted = Number(this.slider.value) / 100; this.follow(); });
    by("thinKeep").addEventListener("click", () => this.keep());
    by("thinDiscard").addEventListener("click", () => this.discard());
  }

  get isOpen() { return !this.box.hidden; }

  get left() { return this.steps.length ? this.steps[this.steps.length - 1].left : this.before; }

  open() {
    if (this.isOpen) { this.slider.focus(); return; }
    this.before = this.editor.vertices;
    this.run = this.editor.newRun();
    this.steps = [];
    this.wanted = 1;
    this.slider.value = "100";
    this.box.hidden = false;
    this.editor.isLocked = true;
    this.tell();
    this.slider.focus();
    this.editor.changed();
  }

  /** What the slider says, and what is left. */
  tell() {
    const wanted = TEXT.thinWanted(Number(this.slider.value));
    const share = this.before ? Math.round((100 * this.left) / this.before) : 100;
    by("thinWanted").textContent = wanted;
    this.slider.setAttribute("aria-valuetext", wanted);
    by("thinLeft").textContent = TEXT.thinLeft(this.left, this.before, share);
    by("thinBusy").hidden = !this.isBusy;
  }

  /** Thins to the share that is wanted. */
  follow() {
    if (this.isBusy) return;
    this.isBusy = true;
    this.tell();
    this.turn = this.toWanted().catch(fault => this.editor.fail(fault)).finally(() => { this.isBusy = false; this.tell(); });
  }

  /** Makes steps, or takes some back, until the map is as the slider wants it, which may move meanwhile. */
  async toWanted() {
    const run = /** @type {import("./editor.js").Run} */ (this.run), [x0, y0, x1, y1] = this.editor.model.extent();
    const all = [...bounds()].filter(bound => Number(bound) <= (x1 - x0) * (y1 - y0));
    while (!this.editor.isClosed) {
      const made = this.steps.length, target = Math.min(this.target(), all.length);
      if (target > made) await this.step(run, all[made]);
      else if (target < made) await this.shorten(run, target);
      else {
        await this.editor.showRun(run);
        if (Math.min(this.target(), all.length) === target) return;
      }
      this.tell();
    }
  }

  /** How many steps are wanted: one more, where those that are made leave too many vertices. */
  target() {
    if (this.wanted === 1) return 0;
    const enough = this.steps.findIndex(step => step.left <= this.wanted * this.before);
    return enough < 0 ? this.steps.length + 1 : enough + 1;
  }

  /**
   * @param {import("./editor.js").Run} run
   * @param {bigint} bound
   */
  async step(run, bound) {
    const [answer] = await this.editor.extend(run, `thin ${bound}`);
    this.steps.push({ isChange: isChange(answer), left: this.left - Number(answer.split(" ")[1]) });
  }

  /**
   * Takes the newest steps back, until so many are left.
   * @param {import("./editor.js").Run} run
   * @param {number} count
   */
  async shorten(run, count) {
    await this.editor.shorten(run, this.steps.slice(count).filter(step => step.isChange).length);
    this.steps.length = count;
  }

  async keep() {
    await this.turn;
    if (this.run) this.editor.keepRun(this.run);
    if (this.steps.length) this.panel.said(TEXT.thinKept(this.left, this.before));
    this.close();
  }

  async discard() {
    this.wanted = 1;
    this.follow();
    await this.turn;
    this.close();
  }

  close() {
    this.box.hidden = true;
    this.editor.isLocked = false;
    this.editor.changed();
    by("map").focus();
  }
}
