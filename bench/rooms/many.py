#!/usr/bin/env python3
"""Many rooms on one machine. usage: many.py BOARD ROOMS [--members M] [--rate R] [--share S] [--seconds T]
Starts so many rooms, a process each. First nobody is there; then M members (3) join each room and say nothing; then in one of S
rooms (10) each member sends R updates (5) of 1 KB a second, and each second one member of each such room leaves and comes back.
Each part takes T seconds (10). Then all leave, and what each room wrote must have the last update of each member.
Prints for each part the rooms' memory, their processor time by the clock, and the latency from an update to each other member.
"""
import json
import os
import random
import resource
import selectors
import socket
import subprocess
import sys
import tempfile
import time

TICK = 0.002
HEAD = ("GET / HTTP/1.1\r\nHost: 127.0.0.1:%d\r\nUpgrade: websocket\r\nConnection: Upgrade\r\n"
        "Sec-WebSocket-Key: dGhlIHNhbXBsZSBub25jZQ==\r\nSec-WebSocket-Version: 13\r\n\r\n")
POINTS = [[i % 900 + 0.25, i % 700 + 0.5] for i in range(40)]


def framed(first, part):
    """A frame of a client whose mask is nothing but zeros."""
    count = len(part)
    size = bytes([128 | count]) if count < 126 else bytes([254]) + count.to_bytes(2, "big")
    return bytes([first]) + size + bytes(4) + part


def free_ports(count):
    """Ports that nobody listens on, below those that the system gives to clients."""
    ports = list(range(10000, 32000))
    random.shuffle(ports)
    for port in ports:
        with socket.socket() as it:
            it.setsockopt(socket.SOL_SOCKET, socket.SO_REUSEADDR, 1)
            if it.connect_ex(("127.0.0.1", port)) != 0:
                yield port
                count -= 1
        if count == 0:
            return


class Room:
    """A room of the program."""

    def __init__(self, board, port, folder):
        self.port = port
        self.wrote = f"{folder}/{port}"
        with open(f"{folder}/empty", "rb") as empty, open(self.wrote, "wb") as wrote:
            words = [board, "serve", str(port), "1024", "4000000000"]
            self.run = subprocess.Popen(words, stdin=empty, stdout=wrote, stderr=subprocess.DEVNULL)

    def listens(self):
        if self.run.poll() is not None:
            raise SystemExit(f"the room at {self.port} ended with {self.run.returncode}")
        with socket.socket() as it:
            return it.connect_ex(("127.0.0.1", self.port)) == 0

    def processor(self):
        """Seconds of processor time so far."""
        with open(f"/proc/{self.run.pid}/schedstat") as file:
            return int(file.read().split()[0]) / 1e9

    def memory(self):
        """What it holds, and its share of what processes hold together, in MB."""
        with open(f"/proc/{self.run.pid}/smaps_rollup") as file:
            lines = dict(line.split(":", 1) for line in list(file)[1:])
        return [int(lines[name].split()[0]) / 1024 for name in ("Rss", "Pss")]

    def ended(self):
        """The version of each element in what it wrote at its end."""
        if self.run.wait(120) != 0:
            raise SystemExit(f"the room at {self.port} ended with {self.run.returncode}")
        with open(self.wrote) as file:
            return {it["id"]: it["version"] for it in json.load(file)["elements"]}


class Member:
    """A member of a room, which reads what comes."""

    def __init__(self, load, room, name):
        self.load, self.room, self.name = load, room, name
        self.version = 0
        self.join()

    def join(self):
        self.began = time.monotonic()
        self.has_joined, self.is_greeted, self.came = False, False, bytearray()
        self.socket = socket.create_connection(("127.0.0.1", self.room.port), 60)
        self.socket.setsockopt(socket.IPPROTO_TCP, socket.TCP_NODELAY, 1)
        self.socket.sendall((HEAD % self.room.port).encode())
        self.socket.setblocking(False)
        self.load.asks.register(self.socket, selectors.EVENT_READ, self)

    def leave(self):
        self.load.asks.unregister(self.socket)
        self.socket.setblocking(True)
        self.socket.sendall(framed(0x88, (1000).to_bytes(2, "big")))
        self.socket.close()

    def draw(self):
        """Sends its element anew, with the time in it."""
        self.version += 1
        element = {"id": self.name, "type": "freedraw", "version": self.version, "versionNonce": 1, "points": POINTS,
                   "customData": {"at": time.monotonic_ns()}}
        text = json.dumps({"type": "SCENE_UPDATE", "payload": {"elements": [element]}}, separators=(",", ":"))
        self.socket.setblocking(True)
        self.socket.sendall(framed(0x81, text.encode()))
        self.socket.setblocking(False)

    def read(self):
        """Takes what came apart into frames. None of a member ends its link, and pings need no answer in so short a time."""
        piece = self.socket.recv(1 << 18)
        if not piece:
            raise SystemExit(f"the room at {self.room.port} closed a link")
        self.came += piece
        if not self.is_greeted:
            head, found, rest = self.came.partition(b"\r\n\r\n")
            if not found:
                return
            self.is_greeted, self.came = True, rest
        while len(self.came) >= 2:
            count, at = self.came[1] & 127, 2
            if count >= 126:
                at = 4 if count == 126 else 10
                count = int.from_bytes(self.came[2:at], "big")
            if len(self.came) < at + count:
                return
            if self.came[0] & 15 == 1:
                self.hear(bytes(self.came[at:at + count]))
            del self.came[:at + count]

    def hear(self, text):
        now = time.monotonic()
        if text.startswith(b'{"type":"SCENE_INIT"'):
            self.has_joined = True
            self.load.joins.append(now - self.began)
        elif text.startswith(b'{"type":"SCENE_UPDATE"'):
            at = text.index(b'"at":') + 5
            self.load.late.append(now - int(text[at:text.index(b"}", at)]) / 1e9)


class Load:
    """All members of all rooms."""

    def __init__(self):
        self.asks = selectors.DefaultSelector()
        self.joins, self.late = [], []

    def look(self, pause):
        for key, _ in self.asks.select(pause):
            key.data.read()

    def rest(self, seconds):
        until = time.monotonic() + seconds
        while (left := until - time.monotonic()) > 0:
            self.look(min(left, 0.5))

    def settle(self, members):
        while not all(member.has_joined for member in members):
            self.look(0.5)

    def draw(self, groups, rate, seconds):
        """Each member of these rooms sends so many updates a second, evenly spread; each second one of each leaves and comes back."""
        begin = time.monotonic()
        members = [member for group in groups for member in group]
        due = {member: random.random() / rate for member in members}
        turns = 0
        while (passed := time.monotonic() - begin) < seconds:
            for member in members:
                if due[member] <= passed and member.has_joined:
                    member.draw()
                    due[member] += 1 / rate
            if passed >= turns + 1:
                for group in groups:
                    back = group[turns % len(group)]
                    if back.has_joined:
                        back.leave()
                        back.join()
                turns += 1
            self.look(TICK)
        self.settle(members)
        self.rest(1)


def at_share(numbers, share):
    return sorted(numbers)[min(len(numbers) - 1, int(len(numbers) * share))] if numbers else 0


def told(name, rooms, load, run):
    """Runs a part, and prints a line of it."""
    load.late, load.joins = [], []
    before, began = sum(room.processor() for room in rooms), time.monotonic()
    own = time.process_time()
    run()
    passed = time.monotonic() - began
    used = sum(room.processor() for room in rooms) - before
    own = time.process_time() - own
    held, shared = (sum(numbers) for numbers in zip(*(room.memory() for room in rooms)))
    cells = [f"{len(rooms):,}", name, f"{held / len(rooms):.1f}, {shared / len(rooms):.1f} MB", f"{shared:,.0f} MB",
             f"{100 * used / passed:.1f} %"]
    if load.late:
        latency = ", ".join(f"{1000 * at_share(load.late, share):.1f}" for share in (0.5, 0.99))
        cells += [f"{len(load.late) / passed:,.0f}", f"{latency} ms", f"{1000 * at_share(load.joins, 0.5):.1f} ms"]
        cells[4] += f" ({1e6 * used / len(load.late):.0f} µs each)"
    else:
        cells += ["", "", ""]
    print("| " + " | ".join(cells) + " |", flush=True)
    print(f"the load took {100 * own / passed:.0f} % of a processor", file=sys.stderr)


def simulate(board, count, members, rate, share, seconds):
    load = Load()
    with tempfile.TemporaryDirectory() as folder:
        with open(f"{folder}/empty", "w") as empty:
            empty.write('{"type":"excalidraw"}')
        rooms = [Room(board, port, folder) for port in free_ports(count)]
        try:
            waiting = rooms
            while waiting := [room for room in waiting if not room.listens()]:
                time.sleep(0.1)
            time.sleep(1)
            told("nobody", rooms, load, lambda: load.rest(seconds))
            groups = [[Member(load, room, f"m{i}") for i in range(members)] for room in rooms]
            everybody = [member for group in groups for member in group]
            load.settle(everybody)
            told(f"{members} members each, quiet", rooms, load, lambda: load.rest(seconds))
            some = groups[:max(1, count // share)]
            told(f"of {len(some)} they draw", rooms, load, lambda: load.draw(some, rate, seconds))
            for member in everybody:
                member.leave()
            for room, group in zip(rooms, groups):
                wanted = {member.name: member.version for member in group if member.version}
                if room.ended() != wanted:
                    raise SystemExit(f"the room at {room.port} wrote another scene than was drawn")
        finally:
            for room in rooms:
                if room.run.poll() is None:
                    room.run.kill()
                room.run.wait()


def main():
    board, count, *more = sys.argv[1:]
    numbers = {"--members": 3, "--rate": 5, "--share": 10, "--seconds": 10}
    for name, number in zip(more[::2], more[1::2]):
        if name not in numbers:
            raise SystemExit(__doc__.strip().splitlines()[0])
        numbers[name] = int(number)
    hard = resource.getrlimit(resource.RLIMIT_NOFILE)[1]
    resource.setrlimit(resource.RLIMIT_NOFILE, (hard, hard))
    simulate(board, int(count), *numbers.values())


main()
