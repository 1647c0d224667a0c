// A client of a room, without dependencies, for pages and for programs that have WebSocket.
//
//     import { RoomClient } from "./room-client.js";
//     const room = new RoomClient("ws://127.0.0.1:4000", { onElements: () => draw(room.elements()) });
//     room.change({ ...element, x: 10 });
//
// It keeps of each id the best update that it was given or made, deleted ones too, merged as the room does. When the room goes
// away it joins again, after a pause that grows, and sends what the room lacks. What the room isn't known to have yet it holds in
// the browser, and hands it in after a reload. Of an own element that a room refuses for its form it keeps nothing: it would be
// refused again at each joining, with all that is sent beside it. docs/FORMATS.md has the messages.
import { Answers } from "./room-answers.js";
import { HeldUpdates } from "./room-held.js";
import { Members } from "./room-members.js";
import { beats, depthOf, elementTexts, inMessages, inSceneOrder, isText, messageOf, ownUpdate, sizeOf, updatesOf } from "./room-updates.js";

export { elementTexts, inSceneOrder };

/** How long changes are gathered before they are sent together, and how long after a question the next one may be asked, in
 * milliseconds. */
const GATHERED = 30, ASKED = 500;
/** How many bytes a message of several elements has at most, and any text. A room takes up to 64 MiB, or less if it is told so. */
const LONGEST_MESSAGE = 2 ** 20, LONGEST = 2 ** 24;
/** The first and the longest pause before it joins again. A link that lasted makes the next pause a first one. */
const FIRST_PAUSE = 500, LONGEST_PAUSE = 30_000, LASTED = 10_000;
/** How long an answer to a handshake is waited for before it is told that none comes, in milliseconds. */
const PATIENCE = 5000;

/** Why a room is away: by the code of the Close that ended the link, and by the status of what isn't let in. */
const CAUSE_OF_CODE = { 1001: "ended", 1002: "breach", 1006: "lost", 1007: "not UTF-8", 1008: "refused", 1009: "too long", 1013: "full" };
const CAUSE_OF_STATUS = { 404: "not there", 429: "full", 502: "not there", 503: "full", 504: "not there" };

/** Why nobody is let in at this address: whether something answers there at all, and its status where a page may read it. */
async function causeOfRefusal(url) {
  try {
    const words = { mode: "no-cors", cache: "no-store", redirect: "manual", signal: AbortSignal.timeout(PATIENCE) };
    const { status } = await fetch(url.replace(/^ws/, "http"), words);
    return { cause: CAUSE_OF_STATUS[status] ?? "refused", ...(status > 0 && { status }) };
  } catch {
    return { cause: "not there" };
  }
}

export class RoomClient {
  #url;
  #told;
  #isDurable;
  #held;
  #members;
  #socket = null;
  #hasEntered = false; // whether all that the room stores came over this link
  #joinedAt = 0;
  #answers;
  #longestSent = { size: 0 }; // of the texts that went over this link
  #board = new Map(); // of each id its best update, as {element, text}
  #waiting = new Map(); // the updates that the room isn't known to have, by their ids
  #gathered = new Set(); // ids of what is to be sent
  #mostBytes = LONGEST_MESSAGE; // of a message of several elements
  #mostAlone = LONGEST; // of any text
  #pause = FIRST_PAUSE;
  #sending = null; // timers
  #asking = null;
  #joining = null;
  #isClosed = false;
  #onPageHide = () => this.#flush();

  /**
   * Joins the room. Each of these may be left out:
   * - onElements(elements): these came from the room, or were held over a reload, and count now; at each joining all that count
   * - onState(state, why): "joined", "away" (it will join again) or "closed". `why` says why it is away, as {cause, code, status}:
   *   docs/ROOMS.md has the causes
   * - onPresence(message): a message of another type came, as an object
   * - onFault(fault, element): this element isn't taken, for this fault. Of an own one whose form is faulty, or that is too long,
   *   nothing is kept or sent. One that the room refuses stays here, waits, and is handed in again at the next joining, unless the
   *   room has shown that it is too long. Without an element: a fault came that can't be told to be of any
   * - isDurable: whether the room has a journal, which no message tells. bin/room's rooms have
   * - onKept(elements): of a durable room: these, or better updates of theirs, are safe
   * - me: what other members are told of this one, {username} at least; without it nothing
   * - onMembers(members): the other members, by their ids
   * - onMessage(direction, text): each text as it came ("<") or went (">")
   */
  constructor(url, told = {}) {
    this.#url = url;
    this.#told = told;
    this.#isDurable = told.isDurable ?? false;
    this.#held = new HeldUpdates(url);
    this.#members = new Members(told.me, (message) => this.presence(message), () => told.onMembers?.(this.members()));
    globalThis.addEventListener?.("pagehide", this.#onPageHide);
    this.#recall();
    this.#join();
  }

  /** The best update of each id, deleted ones too. */
  stored() {
    return [...this.#board.values()].map((update) => update.element);
  }

  /** The live elements from back to front. */
  elements() {
    return inSceneOrder(this.stored());
  }

  /** The best update of this id, if there is one. */
  element(id) {
    return this.#board.get(id)?.element;
  }

  /** The elements that the room isn't known to have, or in a durable room to have kept: own changes, and what a room lost. */
  waiting() {
    return [...this.#waiting.values()].map((update) => update.element);
  }

  /** The other members by their ids, as {username, pointer, button, selectedElementIds}. */
  members() {
    return this.#members.all();
  }

  /** Whether what is changed now is sent soon. */
  get isJoined() {
    return this.#socket?.readyState === WebSocket.OPEN;
  }

  /** Makes an own change of an element: a version higher by one, with a new nonce that decides where another member makes that
   * version too. Gives the element as it is then, or nothing if a room refuses such: then onFault is told why. */
  change(element) {
    const versionNonce = Math.floor(Math.random() * 2 ** 31);
    return this.#own({ ...element, version: (element?.version ?? 0) + 1, versionNonce, updated: Date.now() });
  }

  /** Takes elements that the page has changed and stamped itself, as the Excalidraw component does, and sends those that count
   * and that a room takes; of the others onFault is told. */
  put(elements) {
    for (const element of elements) this.#own(element);
  }

  /** Sends a message of any other type to all others. Gives whether it went: not if the room is away, or the message too long. */
  presence(message) {
    const text = JSON.stringify(message) ?? "null";
    const { type } = JSON.parse(text) ?? {};
    if (!isText(type) || /^(SCENE_INIT|SCENE_UPDATE|KEPT|INVALID_RESPONSE)$/.test(type)) throw new TypeError("a message needs a type of its own");
    if (depthOf(JSON.parse(text)) > 128) throw new TypeError("a message nests 128 deep at most");
    const isSent = this.isJoined && sizeOf(text) <= this.#mostAlone;
    if (isSent) this.#send(text);
    return isSent;
  }

  /** Changes what other members are told of this one: {username, pointer: {x, y}, button, selectedElementIds}, or some of it. */
  show(changes) {
    this.#members.show(changes);
  }

  /** Sends what was gathered, and leaves the room for good. */
  close() {
    this.#flush();
    this.#isClosed = true;
    globalThis.removeEventListener?.("pagehide", this.#onPageHide);
    for (const timer of [this.#sending, this.#asking, this.#joining]) clearTimeout(timer);
    this.#members.forget();
    this.#socket?.close();
    this.#told.onState?.("closed");
  }

  // ---- own updates

  #own(given) {
    const update = ownUpdate(given);
    const fault = update.fault ?? (this.#hasRoom(update) ? undefined : "too long");
    if (fault !== undefined) {
      this.#told.onFault?.(fault, given);
      return undefined;
    }
    if (this.#take(update)) {
      this.#held.put(update);
      this.#wait(update);
    }
    return update.element;
  }

  /** Whether a message has room for the update. */
  #hasRoom(update) {
    return sizeOf(messageOf([update])) <= this.#mostAlone;
  }

  #take(update) {
    const stored = this.#board.get(update.element.id);
    const counts = !stored || beats(update, stored);
    if (counts) this.#board.set(update.element.id, update);
    return counts;
  }

  /** An update is sent soon, and waits until the room has it. */
  #wait(update) {
    this.#waiting.set(update.element.id, update);
    this.#gathered.add(update.element.id);
    this.#sendSoon();
  }

  /** The room has these updates; a durable one has kept them. */
  #settle(updates) {
    for (const update of updates) {
      const own = this.#waiting.get(update.element.id);
      if (own && !beats(own, update)) this.#forget(update.element.id);
    }
    if (this.#isDurable && updates.length > 0) this.#told.onKept?.(updates.map(({ element }) => element));
  }

  #forget(id) {
    this.#waiting.delete(id);
    this.#gathered.delete(id);
    this.#held.drop(id);
  }

  /** Takes what was held when the page began, unless the room has told better. */
  async #recall() {
    const updates = (await this.#held.recall()).map((text) => ({ element: JSON.parse(text), text }));
    if (this.#isClosed) return;
    const taken = updates.filter((update) => this.#take(update));
    for (const update of taken) this.#wait(update);
    for (const { element } of updates) if (!this.#waiting.has(element.id)) this.#held.drop(element.id);
    if (taken.length > 0) this.#told.onElements?.(taken.map(({ element }) => element));
  }

  // ---- joining, and why the room is away

  #join() {
    const socket = new WebSocket(this.#url);
    let hasOpened = false;
    const lose = (code) => {
      if (this.#socket !== socket || this.#isClosed) return;
      this.#lose(hasOpened, code);
    };
    socket.onopen = () => (hasOpened = true);
    socket.onmessage = (event) => {
      if (this.#socket === socket && !this.#isClosed) this.#receive(event.data);
    };
    socket.onclose = (event) => lose(event.code);
    // Some programs tell of a room that isn't there by an error alone. A browser tells the code behind the error.
    socket.onerror = () => setTimeout(lose, 0, 1006);
    this.#socket = socket;
    this.#hasEntered = false;
    this.#answers = new Answers(this.#isDurable);
    this.#longestSent = { size: 0 };
    // A room that has no place leaves a handshake without an answer until it has.
    this.#joining = setTimeout(() => hasOpened || this.#told.onState?.("away", { cause: "full" }), PATIENCE);
  }

  /** The link is lost: joins again later. */
  #lose(hasOpened, code) {
    this.#socket = null;
    this.#members.forget();
    if (code === 1009) this.#learnLongest();
    if (this.#hasEntered && Date.now() - this.#joinedAt > LASTED) this.#pause = FIRST_PAUSE;
    clearTimeout(this.#joining);
    // Not all at once where many lost the same room.
    this.#joining = setTimeout(() => this.#join(), this.#pause * (0.5 + Math.random()));
    this.#pause = Math.min(2 * this.#pause, LONGEST_PAUSE);
    this.#tellAway(hasOpened, code);
  }

  async #tellAway(hasOpened, code) {
    const why = hasOpened ? { cause: CAUSE_OF_CODE[code] ?? "closed" } : await causeOfRefusal(this.#url);
    if (!this.isJoined && !this.#isClosed) this.#told.onState?.("away", { ...why, code });
  }

  /** A text was too long for the room: the longest that went over the link, since none that is shorter than a fair one is. */
  #learnLongest() {
    const { size, updates } = this.#longestSent;
    if (size === 0) return;
    if (updates?.length > 1) this.#mostBytes = size / 2;
    else this.#mostAlone = Math.min(this.#mostAlone, size - 1);
    if (updates?.length !== 1) return;
    this.#held.drop(updates[0].element.id);
    this.#told.onFault?.("too long", updates[0].element);
  }

  /** All that the room stores came. What this client has and the room lacks is sent, and waits, even if a room had it before. */
  #enter(text) {
    this.#hasEntered = true;
    this.#joinedAt = Date.now();
    clearTimeout(this.#joining);
    const theirs = new Set(this.#takeTexts(text).map((update) => update.text));
    this.#gathered.clear();
    for (const update of this.#board.values()) {
      if (!theirs.has(update.text)) this.#wait(update);
    }
    this.#told.onState?.("joined");
    this.#members.enter();
  }

  // ---- what comes

  #receive(text) {
    this.#told.onMessage?.("<", text);
    if (!this.#hasEntered) {
      this.#enter(text);
      return;
    }
    const message = JSON.parse(text);
    if (message.type === "SCENE_INIT" || message.type === "SCENE_UPDATE") this.#takeTexts(text);
    else if (message.type === "KEPT" || message.type === "INVALID_RESPONSE") this.#takeAnswer(message);
    else if (!this.#members.take(message)) this.#told.onPresence?.(message);
  }

  /** Takes elements of the room, and gives their updates: what a durable one tells of is safe there. */
  #takeTexts(text) {
    const updates = updatesOf(text);
    const taken = updates.filter((update) => this.#take(update));
    this.#settle(updates);
    if (taken.length > 0) this.#told.onElements?.(taken.map((update) => update.element));
    return updates;
  }

  #takeAnswer(message) {
    const certain = this.#answers.take(message);
    if (!certain) this.#told.onPresence?.(message);
    for (const { updates, fault } of certain ?? []) {
      if (fault === undefined) this.#settle(updates);
      else if (updates.length > 1) for (const update of updates) this.#sendUpdates([update]); // one may spoil all
      else this.#told.onFault?.(fault, updates[0]?.element);
    }
    this.#ask();
  }

  // ---- what goes

  #sendSoon() {
    if (this.#gathered.size > 0) this.#sending ??= setTimeout(() => this.#sendGathered(), GATHERED);
  }

  #sendGathered() {
    clearTimeout(this.#sending);
    this.#sending = null;
    if (!this.isJoined || this.#gathered.size === 0) return; // it is sent when it joins again
    const updates = [...this.#gathered].map((id) => this.#board.get(id)).filter((update) => this.#hasRoom(update));
    this.#gathered.clear();
    for (const run of inMessages(updates, this.#mostBytes)) this.#sendUpdates(run);
    this.#ask();
  }

  #sendUpdates(updates) {
    this.#answers.sent(updates);
    this.#send(messageOf(updates), updates);
  }

  /** Asks the room which updates it has, once in a while as long as some are due. */
  #ask() {
    if (this.#asking !== null || !this.isJoined || !this.#answers.areDue) return;
    for (const text of this.#answers.ask()) this.#send(text);
    this.#asking = setTimeout(() => {
      this.#asking = null;
      this.#ask();
    }, ASKED);
  }

  /** Sends and writes what is to be, as the page may be about to end. */
  #flush() {
    this.#sendGathered();
    this.#members.leave();
    this.#held.flush();
  }

  #send(text, updates) {
    const size = sizeOf(text);
    if (size > this.#longestSent.size) this.#longestSent = { size, updates };
    this.#socket.send(text);
    this.#told.onMessage?.(">", text);
  }
}
