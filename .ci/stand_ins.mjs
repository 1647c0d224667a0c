// What stands in .ci/members.mjs for what a test can't have: the Excalidraw component, IndexedDB, a room that says what it is told
// to, and a way to a room on which texts can be held back.
import { connect, createServer } from "node:net";

/** A port that is free now. */
export function freePort() {
  return new Promise((resolve) => {
    const server = createServer().listen(0, "127.0.0.1", () => {
      const { port } = server.address();
      server.close(() => resolve(port));
    });
  });
}

/** A way to the port of a room. What members send over it is held back while isHeld. */
export class Gate {
  isHeld = false;
  #held = [];

  static async to(port) {
    const gate = new Gate();
    const server = createServer((member) => {
      const room = connect(port, "127.0.0.1");
      member.on("data", (bytes) => (gate.isHeld ? gate.#held.push([room, bytes]) : room.write(bytes)));
      room.on("data", (bytes) => member.write(bytes));
      for (const [one, other] of [[member, room], [room, member]]) one.on("error", () => {}).on("close", () => other.destroy());
    });
    await new Promise((resolve) => server.listen(0, "127.0.0.1", resolve));
    gate.address = `ws://127.0.0.1:${server.address().port}`;
    return gate;
  }

  release() {
    this.isHeld = false;
    for (const [room, bytes] of this.#held.splice(0)) room.write(bytes);
  }
}

/** Stands for WebSocket: a room that opens with `first`, and answers each text by the texts, or the codes of a Close, that `answer`
 * gives for it. */
export function standInRoom(first, answer) {
  return class StandIn {
    static CONNECTING = 0;
    static OPEN = 1;
    static last = null;
    readyState = 0;

    constructor() {
      StandIn.last = this;
      setTimeout(() => {
        this.readyState = 1;
        this.onopen?.();
        this.say(first);
      });
    }

    say(text) {
      this.onmessage?.({ data: text });
    }

    send(text) {
      for (const said of answer(text)) setTimeout(() => (typeof said === "number" ? this.close(said) : this.say(said)));
    }

    close(code = 1000) {
      this.readyState = 3;
      this.onclose?.({ code });
    }
  };
}

/** Stands for IndexedDB, as far as a table without own keys goes. A transaction takes requests only while it is active. */
export class IndexedDb {
  #databases = new Map();

  /** The rows of all tables of all databases. */
  rows() {
    return [...this.#databases.values()].flatMap((tables) => [...tables.values()].flatMap((table) => [...table.values()]));
  }

  open(name) {
    const request = {};
    setImmediate(() => {
      const isNew = !this.#databases.has(name);
      if (isNew) this.#databases.set(name, new Map());
      const tables = this.#databases.get(name);
      request.result = {
        createObjectStore: (table) => tables.set(table, new Map()),
        transaction: (table, mode = "readonly") => new Transaction(tables.get(table), mode),
      };
      if (isNew) request.onupgradeneeded?.();
      request.onsuccess?.();
    });
    return request;
  }
}

class Transaction {
  #rows;
  #mode;
  #asked = [];
  #isActive = true;
  #isCommitted = false;

  constructor(rows, mode) {
    if (!rows) throw new Error("NotFoundError");
    this.#rows = rows;
    this.#mode = mode;
    setImmediate(() => this.#next());
  }

  objectStore() {
    const keys = () => [...this.#rows.keys()].sort();
    return {
      transaction: this,
      get: (key) => this.#ask(() => this.#rows.get(key)),
      getAll: () => this.#ask(() => keys().map((key) => this.#rows.get(key))),
      getAllKeys: () => this.#ask(keys),
      put: (value, key) => this.#ask(() => this.#rows.set(key, structuredClone(value)) && key, "readwrite"),
      delete: (key) => this.#ask(() => void this.#rows.delete(key), "readwrite"),
    };
  }

  commit() {
    this.#isCommitted = true;
  }

  #ask(work, mode = this.#mode) {
    if (!this.#isActive || this.#isCommitted) throw new Error("TransactionInactiveError");
    if (mode !== this.#mode) throw new Error("ReadOnlyError");
    const request = {};
    this.#asked.push(() => {
      request.result = work();
      this.#isActive = true;
      request.onsuccess?.();
    });
    return request;
  }

  #next() {
    this.#isActive = false;
    const answer = this.#asked.shift();
    if (!answer) return;
    answer();
    setImmediate(() => this.#next());
  }
}

/** Stands for the Excalidraw component, as far as the adapter calls it. It has an undo stack, in which a change counts as one of
 * its user's unless it is told otherwise. */
export class Component {
  elements = [];
  files = {};
  collaborators = new Map();
  appState = { editingTextElement: null, newElement: null, resizingElement: null, selectedElementIds: {} };
  shown = 0;
  undone = [];

  getAppState() {
    return this.appState;
  }

  getFiles() {
    return this.files;
  }

  getSceneElementsIncludingDeleted() {
    return this.elements;
  }

  // The component tells of what it was made to show, too.
  updateScene({ elements, collaborators, captureUpdate }) {
    if (collaborators) this.collaborators = collaborators;
    if (!elements) return;
    this.shown++;
    this.change(elements, captureUpdate);
  }

  addFiles(files) {
    for (const file of files) this.files[file.id] = file;
  }

  change(elements, captureUpdate = "IMMEDIATELY") {
    if (captureUpdate !== "NEVER") this.undone.push(this.elements);
    this.elements = elements;
    this.adapter?.onChange(elements, this.appState, this.files);
  }
}
