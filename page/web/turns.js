// @ts-check
/** Work that takes long, in short turns, so that the page never stands still. */

/** milliseconds of a turn */
const TURN = 8;

/**
 * Takes steps to their end. Answers what they give; nothing where that is not wanted any more.
 * @template T
 * @param {Generator<void, T, void>} steps
 * @param {() => boolean} isWanted
 * @returns {Promise<T | null>}
 */
export async function inTurns(steps, isWanted) {
  while (isWanted()) {
    const end = performance.now() + TURN;
    do {
      const step = steps.next();
      if (step.done) return step.value;
    } while (performance.now() < end);
    await new Promise(done => setTimeout(done));
  }
  return null;
}
