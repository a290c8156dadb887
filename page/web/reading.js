// @ts-check
/**
 * Reads the text of a topology as its bytes come. Most of a large map are the positions of its arcs: they become numbers at
 * once, and no list is made for each. The rest is read as JSON.
 */

/**
 * The numbers of all positions of all arcs: x, y, x, y, .., and of each arc where it ends in them.
 * @typedef {{xy: Float64Array, ends: number[]}} Arcs
 */

const QUOTE = 0x22, BACKSLASH = 0x5c, COLON = 0x3a, COMMA = 0x2c, MINUS = 0x2d, ZERO = 0x30, NINE = 0x39, SPACE = 0x20;
const OPEN = 0x7b, CLOSE = 0x7d, OPEN_LIST = 0x5b, CLOSE_LIST = 0x5d;
/** the four bytes of the word `arcs` */
const ARCS = 0x61726373;
/** how many lists are open in an arc: that of all arcs, and the arc */
const ARC = 2;
/** numbers that there is room for at first */
const ROOM = 1 << 16;

export class Reader {
  /**
   * the text without its arcs, for which `null` stands
   * @type {Uint8Array[]}
   */
  rest = [];
  isArcs = false;
  /** in the rest: how many lists and objects are open, whether a string is, and whether its next byte is escaped */
  depth = 0;
  isString = false;
  isEscaped = false;
  /** how many bytes the newest string has, and its last four */
  length = 0;
  word = 0;
  /** in the arcs: how many lists are open, and the number under way */
  lists = 0;
  number = 0;
  isMinus = false;
  isNumber = false;
  /** the numbers, of which so many are there */
  xy = new Float64Array(ROOM);
  size = 0;
  /** @type {number[]} */
  ends = [];

  /**
   * Takes the next bytes.
   * @param {Uint8Array} bytes
   */
  take(bytes) {
    for (let at = 0; at < bytes.length;) at = this.isArcs ? this.takeArcs(bytes, at) : this.takeRest(bytes, at);
  }

  /**
   * What all of the text says, and the text without its arcs. Arcs are positions of the grid, also where the text has
   * differences.
   * @returns {{topology: any, text: string}}
   */
  end() {
    const decoder = new TextDecoder(), parts = this.rest.map(bytes => decoder.decode(bytes, { stream: true }));
    const text = parts.join("") + decoder.decode(), topology = JSON.parse(text);
    if (topology.arcs === null) {
      topology.arcs = { xy: this.xy.slice(0, this.size), ends: this.ends };
      if (topology.transform !== undefined) addUp(topology.arcs);
    }
    return { topology, text };
  }

  /**
   * Takes bytes up to those of the arcs. Answers where it stopped.
   * @param {Uint8Array} bytes
   * @param {number} from
   */
  takeRest(bytes, from) {
    let at = from, { isArcs, depth, isString, isEscaped, length, word } = this;
    while (at < bytes.length && !isArcs) {
      const byte = bytes[at++];
      if (isString) {
        isString = byte !== QUOTE || isEscaped;
        isEscaped = byte === BACKSLASH && !isEscaped;
        if (isString) { word = (word << 8) | byte; length++; }
      }
      else if (byte === QUOTE) { isString = true; length = 0; }
      else if (byte === OPEN || byte === OPEN_LIST) depth++;
      else if (byte === CLOSE || byte === CLOSE_LIST) depth--;
      // of the topology itself, and what stands before it is its name
      else if (byte === COLON && depth === 1) isArcs = length === 4 && word === ARCS;
    }
    Object.assign(this, { isArcs, depth, isString, isEscaped, length, word });
    this.rest.push(bytes.subarray(from, at));
    if (isArcs) this.rest.push(new TextEncoder().encode("null"));
    return at;
  }

  /**
   * Takes bytes of the arcs. Answers where it stopped.
   * @param {Uint8Array} bytes
   * @param {number} from
   */
  takeArcs(bytes, from) {
    // a number has a digit at least, and a position two numbers, so there is room for all that these bytes can have
    const xy = this.withRoom(bytes.length - from), { ends } = this;
    let at = from, { lists, number, isMinus, isNumber, size } = this;
    while (at < bytes.length) {
      const byte = bytes[at++];
      if (byte >= ZERO && byte <= NINE) { number = 10 * number + (byte - ZERO); isNumber = true; continue; }
      if (isNumber) {
        xy[size++] = isMinus ? -number : number;
        number = 0;
        isMinus = isNumber = false;
      }
      if (byte === COMMA) continue;
      if (byte === MINUS) isMinus = true;
      else if (byte === OPEN_LIST) lists++;
      else if (byte === CLOSE_LIST) {
        if (lists === ARC) ends.push(size);
        lists--;
        if (lists === 0) { this.isArcs = false; break; }
      } else if (byte > SPACE) throw new Error("an arc has something else than whole numbers");
    }
    Object.assign(this, { lists, number, isMinus, isNumber, size });
    return at;
  }

  /**
   * The numbers, with room for those of so many bytes more.
   * @param {number} bytes
   */
  withRoom(bytes) {
    const needed = this.size + bytes / 2 + 1;
    if (needed > this.xy.length) {
      const more = new Float64Array(Math.max(needed, 2 * this.xy.length));
      more.set(this.xy);
      this.xy = more;
    }
    return this.xy;
  }
}

/**
 * Makes positions of what are differences from one to the next.
 * @param {Arcs} arcs
 */
export function addUp({ xy, ends }) {
  let first = 0;
  for (const end of ends) {
    for (let at = first + 2; at < end; at += 2) {
      xy[at] += xy[at - 2];
      xy[at + 1] += xy[at - 1];
    }
    first = end;
  }
}
