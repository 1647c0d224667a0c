// Keeps an Excalidraw component in step with a room. It uses of the component what its API documents: onChange, onPointerUpdate,
// updateScene, getSceneElementsIncludingDeleted, getAppState, getFiles and addFiles.
//
//     const adapter = new ExcalidrawAdapter(api, "ws://127.0.0.1:4000", { me: { username: "Ada" } });
//     <Excalidraw excalidrawAPI={..} onChange={(...words) => adapter.onChange(...words)}
//         onPointerUpdate={(words) => adapter.onPointerUpdate(words)} />
import { RoomClient } from "./room-client.js";

/** CaptureUpdateAction.NEVER of the component: what others changed is no step of its user's undo. */
const NEVER = "NEVER";
/** How long pictures that are lacking are gathered, and within which time one is sent that others lack, in milliseconds. */
const GATHERED = 200, ANSWERED = 1000;
/** How many pictures are remembered that others lack. */
const MOST = 1000;

/** Ties a component to a room. Pictures go as presences, from member to member: a room keeps none. */
export class ExcalidrawAdapter {
  #api;
  #isNamed;
  #versions = new Map(); // of each id the version that was last seen on both sides
  #held = new Map(); // updates of elements that are being edited, the last of each id
  #selected; // what this member told others of its selection
  #memberCount = 0;
  #asked = new Set(); // ids of pictures that the others were asked for
  #wanted = new Set(); // ids of pictures that others lack
  #asking = null; // a timer

  /** `api` is the component's; `url` and `told` are RoomClient's. */
  constructor(api, url, told = {}) {
    this.#api = api;
    this.#isNamed = told.me !== undefined;
    this.room = new RoomClient(url, {
      ...told,
      onElements: (elements) => {
        this.#show(elements);
        told.onElements?.(elements);
      },
      onMembers: (members) => {
        this.#showMembers(members);
        told.onMembers?.(members);
      },
      onPresence: (message) => this.#takeFiles(message) || told.onPresence?.(message),
    });
  }

  /** What the component tells of each change: elements that are new are sent. */
  onChange(elements, appState, files = {}) {
    const changed = elements.filter((element) => this.#versions.get(element.id) !== element.version);
    for (const element of changed) this.#versions.set(element.id, element.version);
    this.room.put(changed);
    this.#release(editedIds(appState));
    if (this.#isNamed && appState.selectedElementIds !== this.#selected) {
      this.#selected = appState.selectedElementIds;
      this.room.show({ selectedElementIds: this.#selected });
    }
    if ([...this.#wanted].some((id) => files[id])) this.#sendWanted();
  }

  /** What the component tells of its user's pointer. */
  onPointerUpdate({ pointer, button }) {
    if (this.#isNamed) this.room.show({ pointer, button });
  }

  /** Leaves the room for good. */
  close() {
    clearTimeout(this.#asking);
    this.room.close();
  }

  // ---- elements

  #show(elements) {
    const edited = editedIds(this.#api.getAppState());
    for (const element of elements.filter(({ id }) => edited.has(id))) this.#held.set(element.id, element);
    this.#put(elements.filter(({ id }) => !edited.has(id)));
  }

  /** Shows what was held back of elements that nobody edits any more, if it still counts. */
  #release(edited) {
    const free = [...this.#held.keys()].filter((id) => !edited.has(id));
    for (const id of free) this.#held.delete(id);
    this.#put(free.map((id) => this.room.element(id)));
  }

  #put(elements) {
    if (elements.length === 0) return;
    for (const { id, version } of elements) this.#versions.set(id, version);
    const all = new Map(this.#api.getSceneElementsIncludingDeleted().map((element) => [element.id, element]));
    for (const element of elements) all.set(element.id, element);
    this.#api.updateScene({ elements: [...all.values()].sort(byIndex), captureUpdate: NEVER });
    this.#askSoon();
  }

  // ---- members

  #showMembers(members) {
    this.#api.updateScene({ collaborators: members, captureUpdate: NEVER });
    if (members.size > this.#memberCount) {
      this.#asked.clear(); // somebody new may have what nobody had
      this.#askSoon();
    }
    this.#memberCount = members.size;
  }

  // ---- pictures

  /** The ids of the pictures that are shown here and aren't there. */
  #lacking() {
    const files = this.#api.getFiles();
    const images = this.#api.getSceneElementsIncludingDeleted().filter(({ type, isDeleted }) => type === "image" && !isDeleted);
    return new Set(images.map(({ fileId }) => fileId).filter((id) => id && !files[id]));
  }

  #askSoon() {
    this.#asking ??= setTimeout(() => {
      this.#asking = null;
      const ids = [...this.#lacking()].filter((id) => !this.#asked.has(id));
      if (ids.length > 0 && this.room.presence({ type: "FILES_WANTED", payload: { ids } })) for (const id of ids) this.#asked.add(id);
    }, GATHERED);
  }

  /** Whether a message is about pictures; then it is taken. */
  #takeFiles({ type, payload }) {
    if (type === "FILES_WANTED") {
      for (const id of listOf(payload?.ids)) if (this.#wanted.size < MOST) this.#wanted.add(id);
      // Not all at once: what another one sends meanwhile isn't sent again.
      setTimeout(() => this.#sendWanted(), Math.random() * ANSWERED);
    } else if (type === "FILES") {
      const lacking = this.#lacking();
      const files = listOf(payload?.files).filter(isPicture);
      for (const { id } of files) this.#wanted.delete(id);
      const added = files.filter(({ id }) => lacking.has(id));
      if (added.length > 0) this.#api.addFiles(added);
    }
    return type === "FILES_WANTED" || type === "FILES";
  }

  #sendWanted() {
    const files = this.#api.getFiles();
    for (const { id, mimeType, dataURL, created } of [...this.#wanted].map((id) => files[id]).filter(Boolean)) {
      this.#wanted.delete(id);
      this.room.presence({ type: "FILES", payload: { files: [{ id, mimeType, dataURL, created }] } });
    }
  }
}

const listOf = (value) => (Array.isArray(value) ? value : []);
const isPicture = (file) => typeof file?.id === "string" && typeof file.dataURL === "string" && file.dataURL.startsWith("data:image/");

/** The ids of the elements that are drawn, resized or written now: the component doesn't like them to be exchanged. */
function editedIds({ editingTextElement, newElement, resizingElement }) {
  return new Set([editingTextElement, newElement, resizingElement].filter(Boolean).map(({ id }) => id));
}

function byIndex(a, b) {
  return a.index === b.index ? (a.id < b.id ? -1 : 1) : (a.index ?? "~") < (b.index ?? "~") ? -1 : 1;
}
