// Who is in a room, by presences that the members agree on. docs/ROOMS.md has the convention.

/** How soon a change of this member is said, after how long it is said again, and within which time somebody new is answered, in
 * milliseconds. */
const SOON = 50, AGAIN = 30_000, ANSWERED = 1000;
/** After how long a silence a member counts as gone. A browser lets a hidden page speak once a minute. */
const SILENT = 100_000;
/** How many others are listed, how many elements each has selected, and how long a name and an id are, all at most. */
const MOST = 1024, LONGEST = 100;

/** The other members of a room, and what they are told of this one. */
export class Members {
  #id = crypto.getRandomValues(new Uint32Array(4)).join("-");
  #me;
  #send;
  #onChange;
  #others = new Map(); // of each id the member, and when it was heard last
  #isIn = false; // whether the room is joined
  #saying = null; // the timer for the next own word
  #due = 0; // when it ends
  #telling = null; // the timer for the next call of onChange

  /** `me` is what others are told, {username} at least; without it this member isn't announced. `send` sends a presence. */
  constructor(me, send, onChange) {
    this.#me = me;
    this.#send = send;
    this.#onChange = onChange;
  }

  /** The others by their ids. */
  all() {
    return new Map([...this.#others].map(([id, { member }]) => [id, member]));
  }

  /** Changes what others are told of this member, soon. */
  show(changes) {
    this.#me = { ...this.#me, ...changes };
    if (this.#isIn) this.#sayWithin(SOON);
  }

  /** The room was joined: this member says that it is here. */
  enter() {
    this.#isIn = true;
    this.#sayWithin(0);
  }

  /** The room was left: nobody counts as here until heard of again. */
  forget() {
    this.#isIn = false;
    clearTimeout(this.#saying);
    this.#saying = null;
    if (this.#others.size > 0) this.#tellSoon();
    this.#others.clear();
  }

  /** This member says that it leaves. */
  leave() {
    if (this.#me) this.#send({ type: "MEMBER_LEFT", payload: { member: this.#id } });
  }

  /** Whether a message is one of this convention; then it is taken. */
  take({ type, payload }) {
    if (type !== "MEMBER" && type !== "MEMBER_LEFT") return false;
    const id = payload?.member;
    if (!isName(id) || id === this.#id) return true;
    if (type === "MEMBER_LEFT") {
      if (this.#others.delete(id)) this.#tellSoon();
      return true;
    }
    const isNew = !this.#others.has(id);
    if (isNew && this.#others.size === MOST) return true;
    this.#others.set(id, { member: memberOf(payload), heard: Date.now() });
    if (isNew && this.#due - Date.now() > ANSWERED) this.#sayWithin(Math.random() * ANSWERED); // once, whoever else is new
    this.#tellSoon();
    return true;
  }

  #sayWithin(delay) {
    const due = Date.now() + delay;
    if (this.#saying !== null && this.#due <= due) return;
    clearTimeout(this.#saying);
    this.#due = due;
    this.#saying = setTimeout(() => this.#say(), delay);
  }

  #say() {
    this.#saying = null;
    if (this.#me) this.#send({ type: "MEMBER", payload: { ...this.#me, member: this.#id } });
    const silent = [...this.#others].filter(([, { heard }]) => Date.now() - heard > SILENT);
    for (const [id] of silent) this.#others.delete(id);
    if (silent.length > 0) this.#tellSoon();
    this.#sayWithin(AGAIN);
  }

  #tellSoon() {
    this.#telling ??= setTimeout(() => {
      this.#telling = null;
      this.#onChange();
    }, SOON);
  }
}

const isName = (value) => typeof value === "string" && value !== "" && value.length <= LONGEST;
const isPlace = (value) => Number.isFinite(value?.x) && Number.isFinite(value?.y);

/** What a stranger's text says of a member, with what isn't of its kind left out. */
function memberOf({ username, pointer, button, selectedElementIds }) {
  const member = { username: isName(username) ? username : "", button: button === "down" ? "down" : "up" };
  if (isPlace(pointer)) member.pointer = { x: pointer.x, y: pointer.y, tool: pointer.tool === "laser" ? "laser" : "pointer" };
  const ids = typeof selectedElementIds !== "object" || Array.isArray(selectedElementIds) ? [] : Object.keys(selectedElementIds ?? {});
  member.selectedElementIds = Object.fromEntries(ids.filter(isName).slice(0, MOST).map((id) => [id, true]));
  return member;
}
