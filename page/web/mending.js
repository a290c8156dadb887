// @ts-check
/** A map that does not open: its picture, what stops it, and mending it. */
import { tell } from "./dialogs.js";
import { by, make } from "./dom.js";
import { faultText, findingText, placeOfFinding, TEXT } from "./words.js";

/** how much larger the picture becomes with a step of the wheel, and at most */
const STEP = 1.25, LARGEST = 40;

export class Mending {
  /**
   * @param {import("./talk.js").Talk} talk
   * @param {() => Promise<void>} reopen
   */
  constructor(talk, reopen) {
    this.talk = talk;
    this.reopen = reopen;
    this.scale = 1;
    by("mendForm").addEventListener("submit", (/** @type {Event} */ e) => { e.preventDefault(); this.mend(); });
    by("picture").addEventListener("wheel", (/** @type {WheelEvent} */ e) => this.wheel(e), { passive: false });
    by("pictureWhole").addEventListener("click", () => { this.showPicture("picture"); by("pictureWhole").hidden = true; });
    by("pictureImage").addEventListener("error", () => {
      by("pictureImage").hidden = true;
      by("pictureNone").hidden = false;
    });
  }

  /** @param {import("./talk.js").Began} began */
  show(began) {
    by("mending").hidden = false;
    by("busy").hidden = true;
    by("pictureImage").src = "picture";
    by("mendTitle").textContent = TEXT.mendTitle(began.name);
    by("mendFault").textContent = faultText(began.fault);
    const findings = began.findings.filter(line => !line.startsWith("counts"));
    by("mendCount").textContent = findings.length ? TEXT.mendCount(findings.length) : "";
    by("findings").hidden = !findings.length;
    by("findings").replaceChildren(...findings.map(line => make("li", this.finding(line))));
    by("mendSaves").textContent = `${TEXT.savesTo(began.out, began.format)}.`;
    by("mendForm").hidden = !began.mendable;
    by("mendNot").hidden = began.mendable;
    by("mend").focus();
  }

  /**
   * What a finding says. Where it has a place, a click shows that.
   * @param {string} line
   */
  finding(line) {
    const said = [make("span", findingText(line)), make("code", line)], place = placeOfFinding(line);
    if (!place) return said;
    const button = make("button", said, "plain");
    button.addEventListener("click", () => this.showPlace(place).catch(fault => {
      by("mendState").textContent = TEXT.noPicture(fault.message);
    }));
    return [button];
  }

  /** @param {{x: number, y: number, width: number}} place */
  async showPlace(place) {
    const svg = await this.talk.picture(place);
    this.showPicture(URL.createObjectURL(new Blob([svg], { type: "image/svg+xml" })));
    by("pictureWhole").hidden = false;
  }

  /** @param {string} address */
  showPicture(address) {
    const image = by("pictureImage");
    if (image.src.startsWith("blob:")) URL.revokeObjectURL(image.src);
    image.src = address;
    image.style.width = "";
    this.scale = 1;
    by("picture").classList.remove("near");
  }

  /** @param {WheelEvent} e */
  wheel(e) {
    e.preventDefault();
    const box = by("picture"), image = by("pictureImage"), before = this.scale;
    this.scale = Math.min(LARGEST, Math.max(1, before * (e.deltaY < 0 ? STEP : 1 / STEP)));
    image.style.width = this.scale === 1 ? "" : `${100 * this.scale}%`;
    box.classList.toggle("near", this.scale > 1);
    // the place under the pointer stays
    const { left, top } = box.getBoundingClientRect(), grown = this.scale / before;
    box.scrollLeft = (box.scrollLeft + e.clientX - left) * grown - (e.clientX - left);
    box.scrollTop = (box.scrollTop + e.clientY - top) * grown - (e.clientY - top);
  }

  async mend() {
    const digits = by("mendDigits").value.trim();
    by("mend").disabled = true;
    by("mendState").textContent = TEXT.mending;
    try {
      const { report, opens } = await this.talk.mend(digits === "" ? null : Number(digits));
      if (!opens) { by("mendState").textContent = TEXT.mendFailed; return; }
      by("mending").hidden = true;
      await this.reopen();
      await tell(TEXT.mended, report.map(line => findingText(line)).join("\n"));
      by("map").focus();
    } catch (fault) {
      by("mendState").textContent = `${TEXT.mendFailed} ${TEXT.mendReason(/** @type {Error} */ (fault).message)}`;
    } finally {
      by("mend").disabled = false;
    }
  }
}
