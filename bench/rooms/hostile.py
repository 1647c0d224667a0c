#!/usr/bin/env python3
"""What members can do to a room's memory. usage: hostile.py BOARD [NAMES..]
Each part opens a room under a limit of 2 GiB of memory, twice what its links may hold, in which one member does nothing but read.
Others do their worst. Then two newcomers join, and one is sent what the other draws. Tells how many members the room ended, how
much memory it had and asked for at most, and what came of the first one, the newcomers and the room, as a row of a table.
"""
import json
import os
import re
import resource
import selectors
import socket
import subprocess
import sys
import time

sys.dont_write_bytecode = True
HERE = os.path.dirname(os.path.abspath(__file__))
sys.path.insert(0, f"{os.path.dirname(os.path.dirname(HERE))}/.ci")
from client import Client, Refused, head_of

LIMIT = 2 << 30
LONGEST = 64 << 20
LONG = 1 << 20
TEXT, CONTINUED, PING, PONG = 1, 0, 9, 10
STAMP = re.compile(rb'"(?:at|id)":"')
ALIVE = 10


def head(first, count):
    """The head of a frame whose mask is nothing but zeros."""
    if count < 126:
        return bytes([first, 128 | count]) + bytes(4)
    size, code = (2, 254) if count < 65536 else (8, 255)
    return bytes([first, code]) + count.to_bytes(size, "big") + bytes(4)


def presence(count):
    """A frame with a message of so many bytes, which a room hands on. A member numbers those that it sends."""
    text = b'{"type":"MOUSE_LOCATION","at":"' + bytes([120]) * (count - 33) + b'"}'
    return head(128 | TEXT, len(text)) + text


def update(count):
    """A frame with an element of so many bytes. A member gives each that it sends an id of its own."""
    text = b'{"type":"SCENE_UPDATE","payload":{"elements":[{"type":"text","id":"%16d","text":"' % 0 + bytes([120]) * (count - 88) + b'"}]}}'
    return head(128 | TEXT, len(text)) + text


class Member:
    """A member that sends the same bytes so many times, and reads all that comes, or nothing."""

    def __init__(self, socket_, part, times, reads):
        self.socket, self.part, self.times, self.reads = socket_, memoryview(bytearray(part)), times, reads
        stamp = STAMP.search(bytes(part[:100]))
        self.at, self.stamp = 0, stamp.end() if stamp else None

    def wants(self):
        return (selectors.EVENT_WRITE if self.times else 0) | (selectors.EVENT_READ if self.reads else 0)

    def step(self, ready):
        if ready & selectors.EVENT_READ and not self.socket.recv(LONG):
            raise ConnectionResetError
        if ready & selectors.EVENT_WRITE:
            if self.at == 0 and self.stamp:
                self.part[self.stamp:self.stamp + 16] = b"%8d%8d" % (self.socket.fileno(), self.times)
            self.at += self.socket.send(self.part[self.at:self.at + LONG])
            if self.at == len(self.part):
                self.at, self.times = 0, self.times - 1


class Room:
    """A room, and its members."""

    def __init__(self, board):
        with socket.socket() as it:
            it.bind(("127.0.0.1", 0))
            self.port = it.getsockname()[1]
        words = [board, "serve", str(self.port), "1024", "4000000000"]
        pipes = {"stdin": subprocess.PIPE, "stdout": subprocess.DEVNULL, "stderr": subprocess.DEVNULL}
        self.run = subprocess.Popen(words, **pipes, preexec_fn=lambda: resource.setrlimit(resource.RLIMIT_AS, (LIMIT, LIMIT)))
        self.run.stdin.write(b'{"type":"excalidraw"}')
        self.run.stdin.close()
        self.asks, self.members, self.joined = selectors.DefaultSelector(), [], 0
        self.told = time.monotonic()
        for _ in range(600):
            with socket.socket() as it:
                if it.connect_ex(("127.0.0.1", self.port)) == 0:
                    break
            time.sleep(0.1)
        self.first = self.add()

    def add(self, part=b"", times=0, reads=True, begin=b""):
        """One more member, which has sent these bytes first. What the room answers to its handshake it reads, if it reads."""
        it = socket.create_connection(("127.0.0.1", self.port), 120)
        it.sendall(head_of(self.port) + begin)
        it.recv(12, socket.MSG_PEEK)
        it.setblocking(False)
        member = Member(it, part, times, reads)
        self.members.append(member)
        self.joined += 1
        if member.wants():
            self.asks.register(it, member.wants(), member)
        return member

    def go(self, seconds):
        """Goes on until all that was to be sent is, or for so many seconds."""
        until = time.monotonic() + seconds
        while time.monotonic() < until and any(member.times for member in self.members):
            for key, ready in self.asks.select(0.2):
                self.step(key.data, ready)
            if time.monotonic() > self.told + ALIVE:
                self.tell()

    def tell(self):
        """Those that read tell that they live, where they are between two frames."""
        self.told = time.monotonic()
        for member in list(self.members):
            if member.reads and member.at == 0:
                try:
                    member.socket.send(head(128 | PONG, 0))
                except OSError:
                    self.drop(member)

    def step(self, member, ready):
        before = member.wants()
        try:
            member.step(ready)
        except BlockingIOError:
            pass
        except OSError:
            self.drop(member)
            return
        if member.wants() != before:
            if member.wants():
                self.asks.modify(member.socket, member.wants(), member)
            else:
                self.asks.unregister(member.socket)

    def drop(self, member):
        """The room ended its link."""
        if member.wants():
            self.asks.unregister(member.socket)
        member.socket.close()
        self.members.remove(member)

    def lost(self):
        """How many members the room ended: all that joined but those whose sockets it has, the one that listens aside."""
        if self.run.poll() is not None:
            return self.joined
        place = f"/proc/{self.run.pid}/fd"
        sockets = [it for it in os.listdir(place) if os.readlink(f"{place}/{it}").startswith("socket")]
        return self.joined - (len(sockets) - 1)

    def reaches(self):
        """Whether one newcomer is sent what another one draws."""
        try:
            ada, ben = Client(self.port, seconds=120), Client(self.port, seconds=120)
            ben.receive()
            ada.send(json.dumps({"type": "SCENE_UPDATE", "payload": {"elements": [{"id": "ada", "type": "rectangle"}]}}))
            while not (text := ben.receive() or "{").startswith('{"type":"SCENE_UPDATE"'):
                if text == "{":
                    return False
            ada.leave()
            ben.leave()
            return True
        except (OSError, EOFError, Refused):
            return False

    def most(self):
        """How much memory it had at most, and had asked for, in MB."""
        if self.run.poll() is not None:
            return 0, 0
        with open(f"/proc/{self.run.pid}/status") as file:
            lines = dict(line.split(":", 1) for line in file)
        return tuple(int(lines[name].split()[0]) // 1024 for name in ("VmHWM", "VmPeak"))

    def end(self):
        for member in self.members:
            member.socket.close()
        try:
            return self.run.wait(60)
        except subprocess.TimeoutExpired:
            self.run.kill()
            return self.run.wait()


def pings(room):
    """10 members send pings for a minute, and read no pong"""
    for _ in range(10):
        room.add((head(128 | PING, 125) + bytes(125)) * 8000, 10000, False)
    room.go(60)


def fragments(room):
    """30 members send 60 MiB each in fragments, and not the last one"""
    part = head(CONTINUED, LONG) + bytes([120]) * LONG
    for _ in range(30):
        room.add(part, 60, False, head(TEXT, 1) + b"x")
    room.go(240)


def frames(room):
    """30 members send 63 MiB of a frame of 64 MiB"""
    part = head(128 | TEXT, LONGEST) + bytes([120]) * (63 << 20)
    for _ in range(30):
        room.add(part, 1, False)
    room.go(240)


def stalled(room):
    """of 100 members one reads nothing; another one sends 300 presences of 1 MiB"""
    for _ in range(98):
        room.add()
    room.add(reads=False)
    room.add(presence(LONG), 300)
    room.go(300)


def all_stalled(room):
    """none of 100 members reads; one of them sends 100 presences of 16 MiB"""
    for _ in range(99):
        room.add(reads=False)
    room.add(presence(16 * LONG), 100, False)
    room.go(240)


def long_presences(room):
    """5 members send 4 presences of almost 64 MiB each, and read"""
    part = presence(LONGEST - 100)
    for _ in range(5):
        room.add(part, 4)
    room.go(300)


def long_presences_unread(room):
    """10 members send 4 presences of almost 64 MiB each, and read nothing"""
    part = presence(LONGEST - 100)
    for _ in range(10):
        room.add(part, 4, False)
    room.go(300)


def slow(room):
    """a member reads 1 MiB a second; another one sends 200 presences of 1 MiB"""
    sender, reader = room.add(presence(LONG), 200), room.add(reads=False)
    until = time.monotonic() + 120
    while time.monotonic() < until and sender in room.members and sender.times:
        room.go(1)
        try:
            if not reader.socket.recv(LONG):
                return room.drop(reader)
        except BlockingIOError:
            pass
        except OSError:
            return room.drop(reader)


def storing(room):
    """one draws 80 elements of 32 MiB each"""
    room.add(update(32 * LONG), 80)
    room.go(300)


PARTS = (pings, fragments, frames, stalled, all_stalled, long_presences, long_presences_unread, slow, storing)


def main():
    board, *names = sys.argv[1:]
    for part in PARTS:
        if names and part.__name__ not in names:
            continue
        room = Room(board)
        part(room)
        time.sleep(0.5)
        stays, ended, reaches = room.first in room.members, room.lost(), room.reaches()
        had, asked = room.most()
        status = room.end()
        print(f"| {part.__doc__} | {ended} | {had}, {asked} MB | {'stays' if stays else 'ended'} | "
              f"{'reach' if reaches else 'do not reach'} each other | ended with {status} |", flush=True)


main()
