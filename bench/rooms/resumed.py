#!/usr/bin/env python3
"""Resumes a room from a journal. usage: resumed.py BOARD JOURNAL
Tells how long it takes until the room listens, how long until one who joins has all that is stored, and the room's memory.
"""
import os
import socket
import subprocess
import sys
import tempfile
import time

sys.dont_write_bytecode = True
sys.path.insert(0, f"{os.path.dirname(os.path.dirname(os.path.dirname(os.path.abspath(__file__))))}/.ci")
from client import Client

PIECE = 1 << 20


def listens(port):
    with socket.socket() as it:
        return it.connect_ex(("127.0.0.1", port)) == 0


def taken(link):
    """How many bytes the first message has, once all of it came."""
    link.take(1)
    size = {126: 2, 127: 8}.get(count := link.take(1)[0] & 127, 0)
    count = int.from_bytes(link.take(size), "big") if size else count
    left = count - len(link.came)
    link.came = b""
    while left > 0:
        left -= len(link.socket.recv(min(left, PIECE)))
    return count


def peak(pid):
    with open(f"/proc/{pid}/status") as file:
        return next(int(line.split()[1]) // 1024 for line in file if line.startswith("VmHWM"))


def main():
    board, path = sys.argv[1:]
    with socket.socket() as it:
        it.bind(("127.0.0.1", 0))
        port = it.getsockname()[1]
    with open(path, "rb") as given, tempfile.TemporaryFile(dir=os.path.dirname(path)) as journal:
        began = time.monotonic()
        room = subprocess.Popen([board, "serve", str(port), "10", "600000", "--resume"], stdin=given, stdout=journal, stderr=subprocess.DEVNULL)
        while not listens(port):
            if room.poll() is not None:
                raise SystemExit(f"the room ended with {room.returncode}")
            time.sleep(0.02)
        begun, link = time.monotonic(), Client(port, seconds=600)
        count = taken(link)
        print(f"it listens after {begun - began:.1f} s, and who joins has {count / 1e6:,.0f} MB after {time.monotonic() - begun:.1f} s; "
              f"the room had {peak(room.pid):,} MB at most")
        link.leave()
        room.kill()
        room.wait()


main()
