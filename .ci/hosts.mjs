// node .ci/hosts.mjs PROGRAM BOARD
// Runs examples/hosts/replica.mjs over the program replica_lines, as .ci/hosts runs examples/hosts/replica.py, and tells the same
// lines of it.
import { spawnSync } from "node:child_process";
import { Ended, Faulty, Refused, Replica, WantOfMemory } from "../examples/hosts/replica.mjs";

const [PROGRAM, BOARD] = process.argv.slice(2);
const SCENE = `{"type": "excalidraw", "elements": [
  {"id": "box", "type": "rectangle", "index": "a0", "x": 1.50},
  {"id": "line", "type": "arrow", "index": "a1"},
  {"id": "gone", "type": "ellipse", "index": "a2", "isDeleted": true}
]}`;
const GREATEST = 2 ** 53 - 1;

const row = (what, ...told) => console.log(`${what}:`, told.join(" "));
const yes = (holds) => (holds ? "yes" : "no");

/** The elements of a message or a scene with their versions, or nothing. */
function told(text) {
  const value = JSON.parse(text ?? "{}");
  const elements = (value.payload ?? value).elements ?? [];
  return elements.map(({ id, version }) => `${id}:${version}`).join(" ") || "nothing";
}

/** What a call ends with. */
async function caught(call) {
  try {
    await call();
    return "nothing";
  } catch (error) {
    if (error instanceof Refused || error instanceof Faulty) return error.message;
    if (error instanceof Ended || error instanceof WantOfMemory) return error.constructor.name;
    if (error instanceof SyntaxError) return "no JSON";
    if (error.code === "ENOENT") return "no file";
    throw error;
  }
}

async function allCaught(calls) {
  const told = [];
  for (const call of calls) told.push(await caught(call));
  return told.join(", ");
}

const created = (id, more) => ({ name: "create", element: { id, type: "rectangle", ...more } });
const moved = (id, x) => ({ name: "set", id, member: "x", value: x });

// ---- one replica
async function alone() {
  row("a number that is too great", await caught(() => Replica.open(PROGRAM, 64, 1)));
  row("a scene that is none", await caught(() => Replica.open(PROGRAM, 0, 1, { type: "clip" })));
  row("no program", await caught(() => Replica.open("false", 0, 1)), "and", await caught(() => Replica.open("./none", 0, 1)));
  const board = await Replica.open(PROGRAM, 3, GREATEST, SCENE);
  row("it begins with", told(await board.state()), "and shows", told(await board.scene()));
  await changes(board);
  await refusals(board);
  await faults(board);
  await others(board);
  row("closed", await board.close());
  row("after that", await caught(() => board.scene()));
}

async function changes(board) {
  const note = '{"name":"create",\n"element":{"id":"note","type":"text","text":"\\u2028 \u{1f600}","y":2.50}}';
  const message = await board.change(note, { time: 7 });
  row("created", told(message));
  const isSame = message.includes(await board.stored("note")) && message.includes('"y":2.50');
  row("its message has what is stored, and numbers as they were written", yes(isSame));
  row("moved", told(await board.change(moved("box", 40))));
  row("where it is", told(await board.change(moved("box", 40))));
  row("undone", told(await board.undo()), "and once more", told(await board.undo({ time: 8 })));
  row("redone", told(await board.redo()), "and there are", ...Object.values(await board.lengths()));
  row("its first number", yes((await board.stored("box")).includes('"x":1.50')));
  await board.change(moved("box", 41), { capture: "later" });
  row("later", yes(await board.pending()), "and with the next one", told(await board.change(moved("line", 5))), yes(await board.pending()));
  row("both undone", told(await board.undo()));
  await board.change(moved("line", 6), { capture: "never" });
  row("never", yes(await board.pending()), ...Object.values(await board.lengths()));
  const gone = told(await board.change({ name: "delete", ids: ["note"] }));
  row("deleted", gone, "and stored", yes((await board.stored("note")).includes('"isDeleted":true')));
  row("none of that id", yes((await board.stored("none")) === null));
}

async function refusals(board) {
  await board.take([{ id: "full", type: "rectangle", version: GREATEST }]);
  const commands = [created("box"), moved("none", 1), { name: "bind", arrow: "box", end: "start", target: "line" },
                    { name: "set", id: "box", member: "version", value: 9 }, moved("full", 1)];
  const before = await board.state();
  row("refused", await allCaught([...commands.map((it) => () => board.change(it)), () => board.redo()]));
  row("and nothing is changed", yes((await board.state()) === before));
}

async function faults(board) {
  const before = await board.state();
  row("faulty", await allCaught([
    () => board.change({ name: "draw" }), () => board.change(moved("box", 1), { time: -1 }), () => board.change(moved("box", 1), { capture: 1 }),
    () => board.take([{ id: "a", type: "text" }, { id: "b" }]), () => board.hold(7), () => board.receive("no message"),
    () => board.receive('{"type":"SCENE_UPDATE"}'), () => board.change('{"name":"delete","ids":[]},"time":0')]));
  row("and nothing is changed", yes((await board.state()) === before));
}

async function others(board) {
  const count = await board.take([{ id: "far", type: "text", version: 2 }, { id: "far", type: "text" }]);
  row("taken", count, told(await board.state()));
  await board.hold("far");
  const update = (version) => `{"type":"SCENE_UPDATE","payload":{"elements":[{"id":"far","type":"text","version":${version}},{"id":"near","type":"text"}]}}`;
  row("held", await board.receive(update(3)), yes((await board.stored("far")).includes('"version":2')));
  await board.release("far");
  row("released", await board.receive(update(4)), yes((await board.stored("far")).includes('"version":4')));
  row("a presence", await board.receive('{"type":"POINTER","payload":{"elements":[{"id":"x","type":"text"}]}}'));
}

// ---- two replicas that tell each other what they change
async function together() {
  const ada = await Replica.open(PROGRAM, 1, 11, SCENE);
  const ben = await Replica.open(PROGRAM, 2, 12, SCENE);
  const same = async (what) => yes((await ada[what]()) === (await ben[what]()));
  await ben.receive(await ada.change({ name: "bind", arrow: "line", end: "start", target: "box" }));
  // All at once: each is answered in its turn.
  const messages = await Promise.all([ben.change(moved("box", 50)), ben.change(created("hers")), ada.change(created("his")),
                                      ada.change(moved("box", 60)), ada.undo(), ben.undo(), ben.redo(), ada.undo(), ada.undo()]);
  row("apart they show one scene", await same("scene"));
  for (const message of [...messages, ...messages.filter((_, at) => at % 2 === 0)]) ada.receive(message);
  for (const message of [...messages].reverse()) ben.receive(message);
  row("together", await same("scene"), "and they store the same", await same("state"));
  row("what they show", told(await ada.scene()));
  await ben.receive(await ada.redo());
  await ada.receive(await ben.undo());
  row("after a redo and an undo", await same("scene"), ...Object.values(await ada.lengths()), ...Object.values(await ben.lengths()));
  const cleo = await Replica.open(PROGRAM, 5, 13, await ada.state());
  row("who begins with what one stores", yes((await cleo.scene()) === (await ben.scene()) && (await cleo.state()) === (await ben.state())));
  await Promise.all([ada.close(), ben.close(), cleo.close()]);
}

// ---- beside a session that the board replays
async function replayed() {
  const events = [["change", created("a", { x: 0 })], ["change", created("b")], ["change", moved("none", 1)], ["change", moved("a", 5)], ["undo"], ["undo"],
                  ["redo"], ["change", { name: "bind", arrow: "line", end: "end", target: "a" }], ["undo"], ["redo"], ["redo"]];
  const session = [`{"session":1,"replicas":1,"seed":77,"scene":${SCENE}}`];
  const board = await Replica.open(PROGRAM, 0, 77, SCENE);
  for (const [time, [name, command]] of events.entries()) {
    session.push(JSON.stringify({ do: name, at: 0, time, command }));
    await caught(() => (command ? board.change(command, { time }) : board[name]({ time })));
  }
  const { stdout } = spawnSync(BOARD, ["replay"], { input: session.join("\n"), encoding: "utf8" });
  row("a session of it ends in the same scene", yes(stdout?.startsWith(`{"replicas":[{"scene":${await board.scene()},"taken":`)));
  await board.close();
}

// ---- what ends a replica, and what doesn't
async function ended() {
  const small = await Replica.open(["sh", "-c", 'ulimit -v 65536; exec "$0"', PROGRAM], 4, 14, SCENE);
  const before = await small.state();
  row("too much", await caught(() => small.take([{ id: "big", type: "text", text: "x".repeat(60_000_000) }])));
  row("and nothing is changed", yes((await small.state()) === before), told(await small.change(moved("box", 2))));
  await small.close();
  // It is given two lines, and then the end of its input.
  const board = await Replica.open(["sh", "-c", 'sed -u 2q | "$0"', PROGRAM], 4, 15);
  const second = told(await board.change(created("a")));
  row("of two lines the second", second, "and a third", await caught(() => board.scene()), "status", await board.close());
  // It is killed while the second line waits for its answer.
  const killed = await Replica.open(["sh", "-c", 'sed -u 1q | "$0"; read -r line; kill -9 $$', PROGRAM], 4, 16);
  const ends = [await caught(() => killed.scene()), "and then", await caught(() => killed.scene())];
  row("killed", ...ends, "by a signal", yes((await killed.close()) === "SIGKILL"));
}

await alone();
await together();
await replayed();
await ended();
