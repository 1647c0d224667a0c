// Types of room-client.js, which says what each of these does.

/** An element of a board, as FORMATS has it: members that a room looks into, and any others. */
export interface RoomElement {
  id: string;
  type: string;
  version?: number;
  versionNonce?: number;
  updated?: number | null;
  index?: string | null;
  isDeleted?: boolean | null;
  [name: string]: unknown;
}

/** A message of any other type than SCENE_INIT, SCENE_UPDATE, KEPT and INVALID_RESPONSE. */
export interface Presence {
  type: string;
  [name: string]: unknown;
}

/** What other members are told of one. */
export interface Member {
  username: string;
  pointer?: { x: number; y: number; tool?: "pointer" | "laser" };
  button?: "up" | "down";
  selectedElementIds?: Readonly<Record<string, true>>;
}

export type Cause =
  | "refused" | "not there" | "full" // before it was joined
  | "ended" | "lost" | "breach" | "not UTF-8" | "too long" | "closed"; // a link that was there, by the code of its Close

/** Why a room is away: `code` is that of the Close, `status` that of the answer to a request, where a page may read it. */
export interface Away {
  cause: Cause;
  code?: number;
  status?: number;
}

export interface RoomOptions {
  isDurable?: boolean;
  me?: Member;
  onElements?(elements: RoomElement[]): void;
  onState?(state: "joined" | "away" | "closed", why?: Away): void;
  onPresence?(message: Presence): void;
  onFault?(fault: string, element?: unknown): void;
  onKept?(elements: RoomElement[]): void;
  onMembers?(members: Map<string, Member>): void;
  onMessage?(direction: "<" | ">", text: string): void;
}

export class RoomClient {
  constructor(url: string, told?: RoomOptions);
  stored(): RoomElement[];
  elements(): RoomElement[];
  element(id: string): RoomElement | undefined;
  waiting(): RoomElement[];
  members(): Map<string, Member>;
  get isJoined(): boolean;
  change(element: RoomElement): RoomElement | undefined;
  put(elements: readonly RoomElement[]): void;
  presence(message: Presence): boolean;
  show(changes: Partial<Member>): void;
  close(): void;
}

/** The texts of the elements in a compact message of a room. */
export function elementTexts(message: string): string[];

/** The live elements of these from back to front. */
export function inSceneOrder<Of extends { id: string; index?: string | null; isDeleted?: boolean | null }>(elements: readonly Of[]): Of[];
