// @ts-check
/** A WebSocket, on which short requests are answered sooner: for a POST a browser takes several milliseconds longer. */

/** @typedef {import("./early.js").Posted} Posted */

/** requests that change nothing */
const QUESTIONS = ["try", "ask", "alive"];
/** characters of a request, at most; the server takes no more than 1 MiB */
const MOST = 1 << 16;

export class Socket {
  /** @type {WebSocket | null} */
  socket = null;
  /**
   * requests without an answer yet, in the order in which they are answered
   * @type {{name: string, answered: (answer: Posted | null) => void}[]}
   */
  asked = [];

  /**
   * names of requests that the server answers on it
   * @type {string[]}
   */
  taken = [];

  /**
   * Opens it. Until that is done nothing is sent on it, and nothing once it is closed, or if it can't be opened.
   * @param {string[]} taken
   */
  open(taken) {
    this.taken = taken;
    try {
      this.socket = new WebSocket(new URL("socket", location.href).href.replace("http", "ws"));
    } catch (fault) {
      // some browsers take the page's policy to forbid it
      return;
    }
    this.socket.onmessage = e => this.asked.shift()?.answered(JSON.parse(e.data));
    this.socket.onclose = () => this.closed();
  }

  /**
   * What came of a request; nothing where it has to be sent as a POST.
   * @param {string} name
   * @param {object} given
   * @returns {Promise<Posted | null>}
   */
  async send(name, given) {
    const { socket } = this, text = JSON.stringify({ name, ...given });
    if (socket?.readyState !== WebSocket.OPEN || !this.taken.includes(name) || text.length > MOST) return null;
    return new Promise(answered => {
      this.asked.push({ name, answered });
      socket.send(text);
    });
  }

  /** No answer comes any more. Whether an edit was made is not known, so it is not sent again. */
  closed() {
    for (const { name, answered } of this.asked.splice(0)) {
      answered(QUESTIONS.includes(name) ? null : { status: 0, said: {} });
    }
  }
}
