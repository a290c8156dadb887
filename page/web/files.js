// @ts-check
/** Saving, files that the browser saves, and a file that is drawn below the map. */
import { confirmed } from "./dialogs.js";
import { by, give } from "./dom.js";
import { linesOf } from "./underlay.js";
import { TEXT } from "./words.js";

/**
 * The name of a file in its folder.
 * @param {string} file
 */
export const nameOf = file => file.slice(file.lastIndexOf("/") + 1);

export class Files {
  /**
   * @param {import("./editor.js").Editor} editor
   * @param {import("./panel.js").Panel} panel
   * @param {import("./talk.js").Began} began
   */
  constructor(editor, panel, began) {
    this.editor = editor;
    this.panel = panel;
    this.name = nameOf(began.out);
    this.format = began.format;
  }

  /**
   * Writes the file.
   * @param {boolean=} force
   * @returns {Promise<void>}
   */
  async save(force = false) {
    if (!this.editor.canEdit || !this.editor.isUnsaved) return;
    this.panel.put("", TEXT.saving, "", true);
    try {
      const { file, bytes } = await this.editor.save(force);
      this.panel.said(TEXT.saved(file, bytes));
    } catch (fault) {
      const { canForce, message, status } = /** @type {any} */ (fault);
      this.panel.hideNote();
      if (canForce && (await confirmed(TEXT.saveAll(message), TEXT.saveAnyway))) { await this.save(true); return; }
      if (status === 409 && !canForce) this.panel.note(TEXT.notSaved, message); else if (!canForce) this.editor.fail(fault);
    }
  }

  async script() { give("edits.txt", "text/plain", await this.editor.talk.text("script")); }

  /** Gives the browser what Save would write. */
  async download() {
    const [text, kind] = this.format === "GeoJSON" ? ["geojson", "application/geo+json"] : ["document", "application/json"];
    give(this.name, kind, await this.editor.talk.text(text));
  }

  /** @param {File | undefined} file */
  async underlay(file) {
    if (!file) return;
    try {
      const lines = linesOf(JSON.parse(await file.text()), this.editor.model.transform);
      this.editor.view.underlay = lines;
      this.panel.said(TEXT.underlay(lines.length, file.name));
    } catch (fault) {
      this.panel.note("", TEXT.noUnderlay(file.name));
    }
    by("underlayFile").value = "";
    this.tellUnderlay();
  }

  /** Asks for a file to draw below the map, or takes away the one that is there. */
  toggleUnderlay() {
    if (!this.editor.view.underlay.length) { by("underlayFile").click(); return; }
    this.editor.view.underlay = [];
    this.tellUnderlay();
  }

  tellUnderlay() {
    by("underlay").textContent = this.editor.view.underlay.length ? TEXT.underlayRemove : TEXT.underlayAdd;
    this.editor.view.change();
  }
}
