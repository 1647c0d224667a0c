// What a user would write today in place of `board library`: JSON.parse, the latest item of each id, defaults and members in order.
// usage: node library_node.js < libraries, one a line. Numbers aren't kept as they are written.
const fs = require("fs");
const DEFAULTS = {
  angle: 0, backgroundColor: "transparent", boundElements: [], fillStyle: "solid", frameId: null, groupIds: [], height: 0, index: null,
  isDeleted: false, link: null, locked: false, opacity: 100, roughness: 1, roundness: null, seed: 1, strokeColor: "#1e1e1e",
  strokeStyle: "solid", strokeWidth: 2, updated: 0, version: 1, versionNonce: 0, width: 0, x: 0, y: 0,
};
const whole = (element) => {
  const all = { ...DEFAULTS, ...element };
  return Object.fromEntries(Object.keys(all).sort().map((name) => [name, all[name] ?? DEFAULTS[name] ?? null]));
};
const shelf = new Map();
for (const line of fs.readFileSync(0, "utf8").split("\n")) {
  if (!line.trim()) continue;
  const library = JSON.parse(line);
  if (library.type !== "excalidrawlib") throw new Error("type");
  for (const { id, status, created, name, elements } of library.libraryItems) {
    const item = { id, status: status ?? "unpublished", created: created ?? 0, name, elements: elements.map(whole) };
    const old = shelf.get(id);
    if (!old || item.created > old.created || (item.created === old.created && JSON.stringify(item) < JSON.stringify(old))) shelf.set(id, item);
  }
}
const libraryItems = [...shelf.values()].sort((a, b) => (a.id < b.id ? -1 : 1));
process.stdout.write(JSON.stringify({ type: "excalidrawlib", version: 2, libraryItems }) + "\n");
