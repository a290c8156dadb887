// @ts-check
/** What the page asks first of all: this module needs no other one, and runs while those are on their way. */

/**
 * What came of a POST: its status, which is 0 where there was no answer, and what it says.
 * @typedef {{status: number, said: any}} Posted
 */

/**
 * Sends a POST. `fetch` would have the answer later, since it reads it as a stream.
 * @param {string} name
 * @param {object} body
 * @returns {Promise<Posted>}
 */
export function post(name, body) {
  return new Promise(done => {
    const request = new XMLHttpRequest();
    request.open("POST", name);
    request.responseType = "json";
    request.setRequestHeader("Content-Type", "application/json");
    request.onloadend = () => done({ status: request.status, said: request.response ?? {} });
    request.send(JSON.stringify(body));
  });
}

/**
 * Answers that are on their way, each taken by whoever asks first.
 * @type {Map<string, Promise<any>>}
 */
export const early = new Map();
early.set("begin", post("begin", {}));
early.set("map", fetch("map"));

// whoever takes an answer is told of its fault
for (const answer of early.values()) answer.catch(() => undefined);
