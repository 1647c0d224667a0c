// Which own updates a room has for certain.

/** How many texts a question has; each is answered by one of 256 faults. */
const TEXTS = 4;

/**
 * What a room answers to the updates that were sent over one link.
 *
 * A room with a journal answers each update over the link that it came on, in the order in which they were sent: by KEPT once the
 * update is safe, or by INVALID_RESPONSE if it refuses the update. It answers a presence by nothing, as the client sends none that
 * is faulty. So the answers pair with the updates by their order, if they are the room's. But another member can send a KEPT or
 * an INVALID_RESPONSE too: a room relays a presence of any type. The number in a KEPT doesn't help: it counts the updates of all,
 * so every member can count along.
 *
 * So the client asks the room. A question is four texts, each of so many spaces and a question mark. They aren't JSON, and the
 * room answers each with the byte at which it isn't: "syntax at byte 17". How many spaces there are is drawn for each question,
 * and nobody else is told: another member guesses all four once in 2^32 times, and one wrong guess spoils the question.
 *
 * The texts of a link keep their order, so all answers to the updates in front of a question are there before the question's
 * own. If as many came as there were updates, all of them are the room's, none is missing, and the first is that of the first
 * update, and so on. If more came, somebody else sent some: then nothing is claimed. A room without a journal answers refused
 * updates alone. There the updates in front of a question were taken if no refusal came, and else nothing is claimed.
 */
export class Answers {
  #isDurable;
  #sent = []; // the updates of each message that is still to be answered
  #came = []; // since the last question: of each text that may be an answer its fault, undefined for a KEPT
  #isSpoiled = false; // whether somebody else sent one of them for certain
  #question = null; // while one is asked: its faults that are still to come, and how many messages are in front of it

  constructor(isDurable) {
    this.#isDurable = isDurable;
  }

  /** Whether updates were sent that no answered question stands behind. */
  get areDue() {
    return this.#sent.length > 0;
  }

  /** These updates were sent in one message. */
  sent(updates) {
    this.#sent.push(updates);
  }

  /** The texts of a question, to be sent now; none if nothing is due, or if one is asked already. */
  ask() {
    if (!this.areDue || this.#question) return [];
    const spaces = [...crypto.getRandomValues(new Uint8Array(TEXTS))];
    this.#question = { faults: spaces.map((count) => `syntax at byte ${count}`), messages: this.#sent.length };
    return spaces.map((count) => `${" ".repeat(count)}?`);
  }

  /**
   * Takes a KEPT or an INVALID_RESPONSE. Gives undefined if nothing is due: then it is no answer. Else gives what is certain now,
   * as a list of {updates, fault}: without a fault these updates were taken, and are safe in a room with a journal; with one they
   * were refused for it. An entry without updates is a fault that can't be told to be of any.
   */
  take({ type, payload }) {
    if (!this.areDue) return undefined;
    const fault = type === "KEPT" ? undefined : String(payload?.fault);
    if (this.#question && fault === this.#question.faults[0]) {
      this.#question.faults.shift();
      return this.#question.faults.length > 0 ? [] : this.#settle();
    }
    // An update of this client is JSON: such a fault is a wrong guess. More than are due are counted no further.
    this.#isSpoiled ||= / at byte \d+$/.test(fault) || this.#came.length === this.#sent.length;
    if (!this.#isSpoiled) this.#came.push(fault);
    return [];
  }

  /** The question is answered: gives what is certain of the messages in front of it. */
  #settle() {
    const sent = this.#sent.splice(0, this.#question.messages);
    const came = this.#came;
    const areTheRooms = this.#isDurable ? came.length === sent.length : came.every((fault) => fault === undefined);
    const areCertain = areTheRooms && !this.#isSpoiled;
    this.#came = [];
    this.#isSpoiled = false;
    this.#question = null;
    if (areCertain) return sent.map((updates, at) => ({ updates, fault: came[at] }));
    return came.filter((fault) => fault !== undefined).map((fault) => ({ updates: [], fault }));
  }
}
