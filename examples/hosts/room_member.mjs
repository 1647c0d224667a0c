#!/usr/bin/env node
// room_member.mjs ROOM NUMBER [SECONDS]
// A member of a room (ws://127.0.0.1:4000) with a replica of its own. NUMBER, from 0 to 63, is one that no other member has. It
// draws a box, moves it and undoes that, keeps in step until control-C, or for so many seconds, and prints its scene then.
// It takes node's own WebSocket, where there is one, or else that of the package ws (Debian: node-ws).
import { randomInt, randomUUID } from "node:crypto";
import { once } from "node:events";
import { createRequire } from "node:module";
import { setTimeout as pause } from "node:timers/promises";
import { fileURLToPath } from "node:url";
import { Refused, Replica } from "./replica.mjs";

const PROGRAM = process.env.REPLICA_LINES ?? fileURLToPath(new URL("../../bin/replica_lines", import.meta.url));
const WebSocket = globalThis.WebSocket ?? createRequire(import.meta.url)("ws");
/** The first and the longest pause before it joins again, in milliseconds. */
const FIRST_PAUSE = 500, LONGEST_PAUSE = 30000;

/** A replica that a room keeps in step. */
class Member {
  #board;
  #address;
  #room = null; // the link on which all that the room stores came
  #own = new Set(); // the ids of what was changed here
  #pause = FIRST_PAUSE;
  #tellJoined;

  constructor(board, address) {
    this.#board = board;
    this.#address = address;
    this.hasJoined = new Promise((resolve) => (this.#tellJoined = resolve));
    this.#join();
  }

  /** Joins the room, and takes what it sends. Where the link is lost it joins again, after a pause that grows. */
  #join() {
    const room = new WebSocket(this.#address);
    room.onmessage = ({ data: first }) => {
      room.onmessage = ({ data }) => this.#receive(data);
      this.#enter(room, first);
    };
    // Some programs tell of a room that isn't there by an error alone.
    room.onclose = room.onerror = () => {
      room.onclose = room.onerror = () => {};
      this.#room = null;
      setTimeout(() => this.#join(), this.#pause * (0.5 + Math.random()));
      this.#pause = Math.min(2 * this.#pause, LONGEST_PAUSE);
    };
  }

  /** Takes the first message, all that the room stores, and sends what it lacks of what was changed here. */
  async #enter(room, message) {
    this.#room = room;
    this.#pause = FIRST_PAUSE;
    this.#receive(message);
    const texts = await Promise.all([...this.#own].map((id) => this.#board.stored(id)));
    const lacking = texts.filter((text) => !message.includes(text));
    if (lacking.length > 0) room.send(`{"type":"SCENE_UPDATE","payload":{"elements":[${lacking}]}}`);
    this.#tellJoined();
  }

  /** Takes the elements of a message; one of another type has none. */
  #receive(message) {
    this.#board.receive(message);
    if (message.startsWith('{"type":"INVALID_RESPONSE"')) console.error("the room says:", message);
  }

  /** Sends what a change, or an undo, changed, as it is: where there is no link, the next joining does. */
  async #send(step) {
    try {
      const message = await step;
      if (message === null) return;
      for (const { id } of JSON.parse(message).payload.elements) this.#own.add(id);
      this.#room?.send(message);
    } catch (error) {
      if (!(error instanceof Refused)) throw error;
      console.error("refused:", error.message);
    }
  }

  /** Draws a box, moves it, and undoes that. */
  async draw() {
    await this.hasJoined;
    const id = randomUUID();
    await this.#send(this.#board.change({ name: "create", element: { id, type: "rectangle", width: 80, height: 50 } }));
    await this.#send(this.#board.change({ name: "set", id, member: "x", value: 120 }));
    await pause(500);
    await this.#send(this.#board.undo());
  }
}

const [address, number, seconds] = process.argv.slice(2);
if (number === undefined) {
  console.error("usage: room_member.mjs ROOM NUMBER [SECONDS]");
  process.exit(1);
}
const board = await Replica.open(PROGRAM, Number(number), randomInt(2 ** 48 - 1));
new Member(board, address).draw();
await Promise.race([once(process, "SIGINT"), ...(seconds ? [pause(1000 * seconds)] : [])]);
console.log(await board.scene());
process.exit();
