// Own updates that a page holds over a reload.

/** How long updates are gathered before they are written, in milliseconds. */
const GATHERED = 100;

/**
 * The own updates that the room of this address isn't known to have, in the browser's IndexedDB. Each page writes rows of its own,
 * so that two pages don't take each other's away. Without IndexedDB, or where it fails, nothing is held.
 */
export class HeldUpdates {
  #database; // a promise of it
  #page = crypto.getRandomValues(new Uint32Array(2)).join("-");
  #due = new Map(); // of each id the text that is to be written
  #rows = new Map(); // of each id its rows: of each row's key the text
  #timer = null;

  constructor(address) {
    this.#database = opened(`room ${address}`);
    this.#database.catch(() => {});
  }

  /** The texts that were held when the page began. */
  async recall() {
    try {
      const table = (await this.#database).transaction("updates").objectStore("updates");
      const [keys, texts] = await Promise.all([table.getAllKeys(), table.getAll()].map(answered));
      keys.forEach((key, at) => this.#rowsOf(JSON.parse(texts[at]).id).set(key, texts[at]));
      return texts;
    } catch {
      return [];
    }
  }

  /** Holds an update, and none of its id that was put before. It is written soon. */
  put({ element, text }) {
    this.#due.set(element.id, text);
    this.#timer ??= setTimeout(() => this.flush(), GATHERED);
  }

  /** Holds none of this id any more. What another page wrote since stays. */
  drop(id) {
    this.#due.delete(id);
    const rows = this.#rowsOf(id);
    this.#rows.delete(id);
    if (rows.size === 0) return;
    this.#change((table) => {
      for (const [key, text] of rows) {
        const asked = table.get(key);
        asked.onsuccess = () => asked.result === text && table.delete(key);
      }
    });
  }

  /** Writes what was put. */
  flush() {
    clearTimeout(this.#timer);
    this.#timer = null;
    const rows = [...this.#due].map(([id, text]) => [id, `${this.#page} ${id}`, text]);
    this.#due.clear();
    if (rows.length === 0) return;
    for (const [id, key, text] of rows) this.#rowsOf(id).set(key, text);
    this.#change((table) => {
      for (const [, key, text] of rows) table.put(text, key);
      table.transaction.commit?.(); // at once, since the page may be about to end
    });
  }

  #rowsOf(id) {
    if (!this.#rows.has(id)) this.#rows.set(id, new Map());
    return this.#rows.get(id);
  }

  async #change(change) {
    try {
      change((await this.#database).transaction("updates", "readwrite").objectStore("updates"));
    } catch {
      // There is no table, or none any more.
    }
  }
}

/** The database of this name, with its table. */
function opened(name) {
  return new Promise((resolve, reject) => {
    const opening = indexedDB.open(name);
    opening.onupgradeneeded = () => opening.result.createObjectStore("updates");
    opening.onsuccess = () => resolve(opening.result);
    opening.onerror = () => reject(opening.error);
  });
}

function answered(request) {
  return new Promise((resolve, reject) => {
    request.onsuccess = () => resolve(request.result);
    request.onerror = () => reject(request.error);
  });
}
