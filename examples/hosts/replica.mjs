// A replica of a board in a process of its own, the program replica_lines: each call writes a line, and its promise gives
// what the answer tells. docs/FORMATS.md has the lines, with all commands, refusals and faults.
//
//     const board = await Replica.open("bin/replica_lines", 3, randomInt(2 ** 48 - 1));
//     await board.receive(message);      // a message's text, as it came from a room or another replica
//     message = await board.change({ name: "set", id: "box", member: "x", value: 40 });
//     message = await board.undo();      // a text too, which goes to the others as it is: no number is written anew
//     await board.close();
import { spawn } from "node:child_process";

/** The board refuses this, and nothing is changed: words says why, named of which id or member, null where of none. */
export class Refused extends Error {
  constructor(words, named) {
    super(named === null ? words : `${words}: ${named}`);
    Object.assign(this, { words, named });
  }
}

/** What was given has a fault, which the message tells, and nothing is changed. */
export class Faulty extends Error {}

/** The program wants memory, and nothing is changed. */
export class WantOfMemory extends Error {}

/** The program is gone, and the replica with it. */
export class Ended extends Error {}

/** A living replica. Calls may be made before earlier ones are answered: they are answered in turn. A command, a list of
 * elements and a scene are values, or the text of one JSON value, which goes in as it is. */
export class Replica {
  #run;
  #end;
  #waiting = []; // calls that aren't answered yet
  #came = []; // pieces of the answer under way

  /** Runs the program, a path or an array of words, and opens a replica that begins with a scene, or empty. Each replica of
   * a board needs a number of its own (0 to 63), and each that is opened a fresh seed (0 to 2 ** 53 - 1). */
  static async open(program, number, seed, scene = null) {
    const replica = new Replica([program].flat());
    const opened = replica.#ask({ replica: 1, number, seed }, { scene });
    opened.catch(() => replica.close());
    await opened;
    return replica;
  }

  constructor([program, ...words]) {
    // A control-C at the terminal is for this process: the program, in a group of its own, ends with its input.
    this.#run = spawn(program, words, { stdio: ["pipe", "pipe", "inherit"], detached: true });
    this.#run.stdin.on("error", () => {}); // it has ended, which is told below
    this.#run.stdout.on("data", (piece) => this.#read(piece));
    let why = new Ended("the program has ended");
    this.#run.on("error", (error) => (why = error));
    this.#end = new Promise((resolve) => this.#run.on("close", (status, signal) => resolve(status ?? signal))).then((status) => {
      for (const { reject } of this.#waiting) reject(why);
      return status;
    });
  }

  /** Ends the program, if it is there, once all calls are answered, and gives its status, or what signal ended it. */
  close() {
    this.#run.stdin.end();
    return this.#end;
  }

  /** For `await using`. */
  [Symbol.asyncDispose]() { return this.close(); }

  /** Makes a change, and gives the message to send, or null where nothing changed. Times are in milliseconds. */
  change(command, { capture = "now", time = Date.now() } = {}) {
    return this.#step({ do: "change", time, capture }, { command });
  }

  /** Takes back the last own change that is still seen, and gives the message to send. Refused where there is none. */
  undo({ time = Date.now() } = {}) { return this.#step({ do: "undo", time }); }

  /** Takes back the last undo, and gives the message to send. Refused where there is none. */
  redo({ time = Date.now() } = {}) { return this.#step({ do: "redo", time }); }

  /** Takes these elements, and gives how many: those that are held aren't taken. */
  take(elements) { return this.#told({ do: "take" }, { elements }).then(Number); }

  /** Takes the elements of a message's text, and gives how many: none where it is of another type. */
  receive(message) { return this.#told({ do: "receive", message }).then(Number); }

  /** From now on no update of this element is taken, since somebody is at it: true. */
  hold(id) { return this.#told({ do: "hold", id }).then(JSON.parse); }

  /** Updates of this element are taken again: false. Those that came meanwhile aren't kept: they must come again. */
  release(id) { return this.#told({ do: "release", id }).then(JSON.parse); }

  /** The text of the scene that is shown. */
  scene() { return this.#told({ do: "scene" }); }

  /** The text of all that is stored, deleted elements too: a scene to open a replica with, or to keep. */
  state() { return this.#told({ do: "state" }); }

  /** The text of the element that is stored of this id, or null. */
  stored(id) { return this.#told({ do: "stored", id }).then((text) => (text === "null" ? null : text)); }

  /** How many entries can be undone, and how many redone: {undo, redo}. */
  lengths() { return this.#ask({ do: "lengths" }).then(JSON.parse); }

  /** Whether something that was captured later waits for the next entry. */
  pending() { return this.#told({ do: "pending" }).then(JSON.parse); }

  async #step(members, texts) {
    const message = await this.#ask(members, texts);
    return message.endsWith('"elements":[]}}') ? null : message;
  }

  /** The text of the one member that the answer has. */
  async #told(members, texts) {
    const answer = await this.#ask(members, texts);
    return answer.slice(answer.indexOf(":") + 1, -1);
  }

  /** The answer to a line of these members, of which some may be texts, or what it throws. */
  async #ask(members, texts = {}) {
    const more = Object.entries(texts).map(([name, value]) => `,"${name}":${textOf(value)}`);
    const line = `${JSON.stringify(members).slice(0, -1)}${more}}\n`;
    if (!this.#run.stdin.writable) throw new Ended("the program has ended");
    const answer = await new Promise((resolve, reject) => {
      this.#waiting.push({ resolve, reject });
      this.#run.stdin.write(line);
    });
    if (!/^\{"(refusal|fault|memory)":/.test(answer)) return answer;
    const { refusal, name, fault } = JSON.parse(answer);
    throw refusal ? new Refused(refusal, name) : fault ? new Faulty(fault) : new WantOfMemory("out of memory");
  }

  #read(piece) {
    for (let end; (end = piece.indexOf("\n")) >= 0; piece = piece.subarray(end + 1)) {
      this.#waiting.shift().resolve(Buffer.concat([...this.#came.splice(0), piece.subarray(0, end)]).toString());
    }
    this.#came.push(piece);
  }
}

/** The text of a value; a text that is one already is checked to be JSON, and put on one line. */
function textOf(value) {
  if (typeof value !== "string") return JSON.stringify(value);
  JSON.parse(value);
  return value.replaceAll("\n", " ");
}
