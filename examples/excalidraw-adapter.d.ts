// Types of excalidraw-adapter.js. The component's own types differ from version to version, and brand ids and data URLs: what is
// taken from it and handed to it is typed loosely.
import type { RoomClient, RoomOptions } from "./room-client.js";

/** What the adapter calls of the component's API. */
export interface ComponentApi {
  /** Of it editingTextElement, newElement and resizingElement are looked into. */
  getAppState(): any;
  getFiles(): any;
  getSceneElementsIncludingDeleted(): readonly any[];
  /** With elements or collaborators, and captureUpdate. */
  updateScene(scene: any): void;
  addFiles(files: any[]): void;
}

export class ExcalidrawAdapter {
  constructor(api: ComponentApi, url: string, told?: RoomOptions);
  readonly room: RoomClient;
  onChange(elements: readonly any[], appState: any, files?: any): void;
  onPointerUpdate(words: { pointer: { x: number; y: number; tool?: "pointer" | "laser" }; button: "up" | "down" }): void;
  close(): void;
}
