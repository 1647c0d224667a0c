import { RoomClient, inSceneOrder } from "./room-client.js";
import { ExcalidrawAdapter, type ComponentApi } from "./excalidraw-adapter.js";
declare const api: ComponentApi;
const room = new RoomClient("ws://127.0.0.1:4000", { me: { username: "Ada" }, onState: (state, why) => state === "away" && why?.cause === "full" });
const made: { id: string } | undefined = room.change({ id: "a", type: "text" });
const drawn: { id: string }[] = inSceneOrder(room.elements());
new ExcalidrawAdapter(api, "ws://127.0.0.1:4000").room.show({ pointer: { x: 1, y: 2 } });
// @ts-expect-error: an element needs an id
room.change({ type: "text" });
export { made, drawn };
