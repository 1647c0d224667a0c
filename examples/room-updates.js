// Updates of a board's elements: which of two counts, how a room writes them, and which it takes.

/** The live elements of these from back to front: by their indices, those without one last, then by their ids. */
export function inSceneOrder(elements) {
  const order = ({ index, id }) => [index == null ? 1 : 0, index ?? "", id];
  const compare = (a, b) => (a < b ? -1 : a > b ? 1 : 0);
  return elements.filter((element) => !element.isDeleted).sort((a, b) => {
    const [x, y] = [order(a), order(b)];
    return compare(x[0], y[0]) || compare(x[1], y[1]) || compare(x[2], y[2]);
  });
}

/** Whether the update a counts and b doesn't: the higher version, then the lower versionNonce, then the lesser text. The text is
 * the element's as the room sends it, not what JSON.stringify makes of it: there 1.50 would become 1.5, and two could differ. */
export function beats(a, b) {
  if (a.element.version !== b.element.version) return a.element.version > b.element.version;
  if (a.element.versionNonce !== b.element.versionNonce) return a.element.versionNonce < b.element.versionNonce;
  return isLess(a.text, b.text);
}

/** Texts are compared by their bytes in UTF-8; `<` would compare UTF-16. */
function isLess(a, b) {
  const [x, y] = [a, b].map((text) => new TextEncoder().encode(text));
  const at = x.findIndex((byte, i) => byte !== y[i]);
  return at < 0 ? x.length < y.length : at >= y.length ? false : x[at] < y[at];
}

/** The texts of the elements in a message of the room, which is compact: {"type":"..","payload":{"elements":[..]}} */
export function elementTexts(message) {
  const list = message.slice(message.indexOf("[") + 1, -"]}}".length);
  const texts = [];
  let start = 0, depth = 0, inString = false;
  for (let i = 0; i < list.length; i++) {
    const c = list[i];
    if (inString) {
      if (c === "\\") i++;
      else if (c === '"') inString = false;
    } else if (c === '"') inString = true;
    else if (c === "{" || c === "[") depth++;
    else if (c === "}" || c === "]") depth--;
    else if (c === "," && depth === 0) {
      texts.push(list.slice(start, i));
      start = i + 1;
    }
  }
  return list === "" ? texts : [...texts, list.slice(start)];
}

/** An element's text as the room writes it: all members in the order of their names, half a pair of surrogates as U+FFFD. */
function textOf(element) {
  const text = JSON.stringify(Object.fromEntries(Object.keys(element).sort().map((name) => [name, element[name]])));
  return text.replace(/\\(?:(ud...)|.)/g, (escape, half) => (half ? "\ufffd" : escape));
}

/** The updates in a message of the room, as {element, text}. */
export const updatesOf = (message) => elementTexts(message).map((text) => ({ element: JSON.parse(text), text }));

/** The message with these updates. */
export const messageOf = (updates) => `{"type":"SCENE_UPDATE","payload":{"elements":[${updates.map(({ text }) => text).join(",")}]}}`;

/** How many bytes a text has. */
export const sizeOf = (text) => new TextEncoder().encode(text).length;

const isObject = (value) => typeof value === "object" && value !== null && !Array.isArray(value);
export const isText = (value) => typeof value === "string";
const isNumber = (value) => Number.isSafeInteger(value) && value >= 0;

/** Whether a text is a fractional key: its first letter says how long its integer part is, and the rest doesn't end in 0. */
function isKey(text) {
  const size = text < "a" ? 92 - text.charCodeAt(0) : text.charCodeAt(0) - 95;
  const isWhole = text.length === size ? !/^A0*$/.test(text) : text.length > size && !text.endsWith("0");
  return isWhole && /^[A-Za-z][0-9A-Za-z]*$/.test(text);
}

/** How many brackets are open at most. */
export function depthOf(value) {
  if (typeof value !== "object" || value === null) return 0;
  return 1 + Object.values(value).reduce((most, it) => Math.max(most, depthOf(it)), 0);
}

/** What holds of an element that a room takes as it is, by the room's faults in their order. Two are this client's: a room drops
 * a selection, and makes null of an index that is no key, so that others would be sent something else than is held here. */
const HOLDS = {
  depth: (it) => depthOf(it) <= 120,
  id: ({ id }) => isText(id) && id !== "",
  type: ({ type }) => isText(type) && type !== "selection",
  version: ({ version }) => isNumber(version),
  versionNonce: ({ versionNonce }) => isNumber(versionNonce),
  updated: ({ updated }) => isNumber(updated ?? 0),
  index: ({ index }) => index == null || (isText(index) && isKey(index)),
  isDeleted: ({ isDeleted }) => typeof (isDeleted ?? false) === "boolean",
  groupIds: ({ groupIds }) => groupIds == null || (Array.isArray(groupIds) && groupIds.every(isText)),
  frameId: ({ frameId }) => isText(frameId ?? ""),
  boundElements: ({ boundElements }) => Array.isArray(boundElements ?? []),
  containerId: ({ type, containerId }) => type !== "text" || isText(containerId ?? ""),
  binding: (it) => it.type !== "arrow" || [it.startBinding, it.endBinding].every((end) => isObject(end ?? {})),
  fileId: ({ type, fileId }) => type !== "image" || isText(fileId ?? ""),
};

/** An own element as {element, text}, as a room reads it; or {fault}. */
export function ownUpdate(given) {
  if (!isObject(given)) return { fault: "not an object" };
  const text = textOf({ ...given, version: given.version ?? 1, versionNonce: given.versionNonce ?? 0 });
  const element = JSON.parse(text);
  const fault = Object.keys(HOLDS).find((name) => !HOLDS[name](element));
  return fault ? { fault } : { element, text };
}

/** These updates in runs, each of which is sent as one message of so many bytes, or of one element. */
export function inMessages(updates, longest) {
  const runs = [];
  let size = Infinity;
  for (const update of updates) {
    const more = sizeOf(update.text) + 1;
    size += more;
    if (size > longest) {
      runs.push([]);
      size = more;
    }
    runs.at(-1).push(update);
  }
  return runs;
}
