// Cases of requests on a WebSocket, with a stand-in for the browser's: what is sent there, and what comes of each.
import { Socket } from "../web/socket.js";
import { Talk } from "../web/talk.js";

const ADDRESS = "http://127.0.0.1:7/token/", OK = { status: 200, said: { answer: "ok" } };
const [CONNECTING, OPEN, CLOSING, CLOSED] = [0, 1, 2, 3];

/** A WebSocket that a case opens, answers and closes. */
class StandIn {
  static OPEN = OPEN;
  static isForbidden = false;
  readyState = CONNECTING;
  sent = [];
  constructor(address) {
    if (StandIn.isForbidden) throw new Error("forbidden");
    this.address = address;
    StandIn.newest = this;
  }
  send(text) { this.sent.push(JSON.parse(text)); }
  open() { this.readyState = OPEN; this.onopen?.(); }
  answer(answer) { this.onmessage({ data: JSON.stringify(answer) }); }
  close() { this.readyState = CLOSED; this.onclose(); }
}

/** A socket of the page, and the browser's, in a state. */
function opened(readyState, taken = SHORT) {
  const socket = new Socket();
  socket.open(taken);
  StandIn.newest.readyState = readyState;
  return { socket, browser: StandIn.newest };
}

const LOST = { status: 0, said: {} }, LONG = "x".repeat(1 << 16), SHORT = ["edit", "try", "ask", "alive"];
// Requests on an open one, and what comes of each where the first is answered and then the connection is lost. What comes of
// one that is sent as a POST is nothing.
const LISTS = [
  [["edit"], [OK]],
  [["edit", "edit"], [OK, LOST]],
  [["try", "edit", "try", "ask", "alive", "edit"], [OK, LOST, null, null, null, LOST]],
  [["edit", "save", "mend", "place", "begin", "leave", ""], [OK, null, null, null, null, null, null]],
];
const STATES = [["not open yet", CONNECTING], ["closing", CLOSING], ["closed", CLOSED]];

async function checkLists(check) {
  for (const [names, expected] of LISTS) {
    const { socket, browser } = opened(OPEN);
    const came = names.map(name => socket.send(name, { owner: 1, act: 2 })), isShort = name => SHORT.includes(name);
    const sent = names.filter(isShort).map(name => ({ name, owner: 1, act: 2 }));
    check(`${names} are sent`, JSON.stringify(browser.sent), JSON.stringify(sent));
    browser.answer(OK);
    browser.close();
    check(`what comes of ${names}`, JSON.stringify(await Promise.all(came)), JSON.stringify(expected));
    check(`after ${names} nothing is sent`, await socket.send("edit", {}), null);
    check("nor awaited", socket.asked.length, 0);
  }
}

async function checkStates(check) {
  const unopened = new Socket();
  check("before it is opened", await unopened.send("edit", {}), null);
  StandIn.isForbidden = true;
  unopened.open(SHORT);
  StandIn.isForbidden = false;
  check("where it is forbidden", await unopened.send("edit", {}), null);
  for (const [what, state] of STATES) {
    const { socket, browser } = opened(state);
    check(`${what}: a POST`, await socket.send("edit", {}), null);
    check(`${what}: nothing is sent`, browser.sent.length, 0);
  }
  const { socket, browser } = opened(OPEN);
  check("its address", browser.address, "ws://127.0.0.1:7/token/socket");
  check("a long request is a POST", await socket.send("edit", { lines: [LONG] }), null);
  check("and what the server does not take here", await opened(OPEN, ["ask"]).socket.send("edit", {}), null);
  const answers = [1, 2, 3].map(number => socket.send("ask", { number }));
  for (const number of [1, 2, 3]) browser.answer({ status: 200, said: { number } });
  check("answers in their order", JSON.stringify((await Promise.all(answers)).map(answer => answer.said.number)), "[1,2,3]");
}

/** Requests of the page, of which each is sent once, but for a question that may be asked again. */
async function checkTalk(check) {
  const posts = [], talk = new Talk(new Map());
  const fault = promise => promise.then(() => "none", ({ status, isClosed }) => `${status} ${isClosed}`);
  globalThis.XMLHttpRequest = class {
    open(_, name) { this.name = name; }
    setRequestHeader() {}
    send(text) {
      posts.push(`${this.name} ${text}`);
      Object.assign(this, { status: 200, response: { answer: "posted" } });
      this.onloadend();
    }
  };
  talk.owner = 4;
  check("without a socket", await talk.attempt("move 1 1 2 2"), "posted");
  check("what was posted", posts.pop(), 'try {"owner":4,"line":"move 1 1 2 2"}');
  talk.socket.open(SHORT);
  const browser = StandIn.newest;
  browser.open();
  const attempt = talk.attempt("move 1 1 2 2");
  await new Promise(done => setTimeout(done));
  browser.answer(OK);
  check("with a socket", await attempt, "ok");
  check("nothing was posted", posts.length, 0);
  const closed = fault(talk.ask("count"));
  await new Promise(done => setTimeout(done));
  browser.answer({ status: 409, said: { reason: "gone", closed: true } });
  check("another page has the map", await closed, "409 true");
  const again = talk.attempt("move 1 1 2 2"), edit = fault(talk.edit(1, ["undo"]));
  await new Promise(done => setTimeout(done));
  browser.close();
  check("a lost question is asked again", await again, "posted");
  check("a lost edit is not", [await edit, posts.length].join(), "0 false,1");
  check("the next request is a POST", (await talk.edit(2, ["undo"])).answer, "posted");
}

/** @param {(what: string, found: any, expected: any) => void} check */
export async function checkSocket(check) {
  Object.assign(globalThis, { WebSocket: StandIn, location: new URL(ADDRESS) });
  await checkLists(check);
  await checkStates(check);
  await checkTalk(check);
}
