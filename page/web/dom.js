// @ts-check
/** Small help with elements of the page. All text goes in as text, never as HTML. */

/**
 * The element with an id.
 * @param {string} id
 * @returns {any}
 */
export const by = id => document.getElementById(id);

/**
 * A new element with a text or with children in it.
 * @template {keyof HTMLElementTagNameMap} T
 * @param {T} tag
 * @param {string | Node[]=} inside
 * @param {string=} kind its class
 * @returns {HTMLElementTagNameMap[T]}
 */
export function make(tag, inside = "", kind = "") {
  const element = document.createElement(tag);
  if (typeof inside === "string") element.textContent = inside; else element.append(...inside);
  if (kind) element.className = kind;
  return element;
}

/**
 * A file that the browser saves.
 * @param {string} name
 * @param {string} type
 * @param {string} text
 */
export function give(name, type, text) {
  const link = document.createElement("a");
  link.href = URL.createObjectURL(new Blob([text], { type }));
  link.download = name;
  link.click();
  setTimeout(() => URL.revokeObjectURL(link.href), 10000);
}
