// What the page asks the server for, and how it makes elements: a name is always a text, never markup.

const KEY = "hizmorke-token";

// The token stands behind the # of the printed address. It goes into the tab's own memory and out of the address.
const given = new URLSearchParams(location.hash.slice(1)).get("token");
if (given) {
  sessionStorage.setItem(KEY, given);
  history.replaceState(null, "", location.pathname);
}

export const hasToken = () => sessionStorage.getItem(KEY) !== null;

/** What the server refused, in its words. */
export class Refused extends Error {}

const pause = (milliseconds) => new Promise((done) => setTimeout(done, milliseconds));

/**
 * Asks until the answer is there.
 * @param {string} name what is asked for
 * @param {object} body what the server needs for it
 * @param {{progress?: (stage: string, share: number) => void, wanted?: () => boolean}} more is told how far it is; says
 *     whether the answer is wanted still, else it is null
 */
export async function ask(name, body = {}, { progress = () => {}, wanted = () => true } = {}) {
  const headers = { "Content-Type": "application/json" };
  if (name === "edit") headers["X-Hizmorke-Token"] = sessionStorage.getItem(KEY) ?? "";
  for (let wait = 60; ; wait = Math.min(400, 1.4 * wait)) {
    let reply, told;
    try {
      reply = await fetch(`/api/${name}`, { method: "POST", headers, body: JSON.stringify(body) });
      told = await reply.json();
    } catch {
      throw new Refused("the page's server doesn't answer: was hizmorke view ended?");
    }
    if (!reply.ok) throw new Refused(told.error ?? `status ${reply.status}`);
    if (!wanted()) return null;
    if (told.ready) return told;
    progress(told.stage, told.share);
    await pause(wait);
  }
}

/**
 * An element with attributes, listeners (`onclick`) and what is in it; texts stay texts.
 * @param {string} tag
 * @param {object} attributes
 * @param {...(Node | string | number | null)} children
 */
export function element(tag, attributes = {}, ...children) {
  return filled(document.createElement(tag), attributes, children);
}

/** The same for SVG. */
export function drawn(tag, attributes = {}, ...children) {
  return filled(document.createElementNS("http://www.w3.org/2000/svg", tag), attributes, children);
}

function filled(made, attributes, children) {
  for (const [name, value] of Object.entries(attributes)) {
    if (name.startsWith("on")) made.addEventListener(name.slice(2), value);
    else if (value === true) made.setAttribute(name, "");
    else if (value !== false && value !== null) made.setAttribute(name, value);
  }
  made.append(...children.filter((child) => child !== null).map((child) => (child instanceof Node ? child : String(child))));
  return made;
}

/** A number as people read it. */
export const plain = (number) => (number === null || number === undefined ? "–" : number.toLocaleString("en"));

/** Saves something under a name. */
export function save(content, name) {
  const url = URL.createObjectURL(content);
  element("a", { href: url, download: name }).click();
  setTimeout(() => URL.revokeObjectURL(url), 10_000);
}
