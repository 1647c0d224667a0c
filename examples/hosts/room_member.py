#!/usr/bin/env python3
"""room_member.py ROOM NUMBER [SECONDS]
A member of a room (ws://127.0.0.1:4000) with a replica of its own. NUMBER, from 0 to 63, is one that no other member has. It
draws a box, moves it and undoes that, keeps in step until control-C, or for so many seconds, and prints its scene then.
Debian: python3-websockets.
"""
import asyncio
import json
import os
import pathlib
import secrets
import signal
import sys

import websockets

from replica import Refused, Replica

PROGRAM = os.environ.get("REPLICA_LINES", pathlib.Path(__file__).resolve().parents[2] / "bin/replica_lines")


class Member:
    """A replica that a room keeps in step. Its calls take milliseconds, and may so be waited for in the loop."""

    def __init__(self, board):
        self.board = board
        self.room = None
        self.has_joined = asyncio.Event()
        self.own = set()  # the ids of what was changed here

    async def stay(self, address):
        """Joins the room, and takes what it sends; where the link is lost it joins again, after a pause that grows."""
        async for room in websockets.connect(address, max_size=None):
            try:
                await self.enter(room, await room.recv())
                async for message in room:
                    self.receive(message)
            except websockets.ConnectionClosed:
                pass
            self.room = None

    async def enter(self, room, message):
        """Takes all that the room stores, and sends what it lacks of what was changed here."""
        self.receive(message)
        self.room = room
        self.has_joined.set()
        lacking = [text for text in map(self.board.stored, self.own) if text not in message]
        if lacking:
            await room.send('{"type":"SCENE_UPDATE","payload":{"elements":[' + ",".join(lacking) + "]}}")

    def receive(self, message):
        """Takes the elements of a message; one of another type has none."""
        self.board.receive(message)
        if message.startswith('{"type":"INVALID_RESPONSE"'):
            print("the room says:", message, file=sys.stderr)

    async def make(self, step, *words):
        """Makes a change or takes one back, and sends what changed, as it is: where there is no link, the next joining does."""
        try:
            message = step(*words)
            if message is None:
                return
            self.own.update(element["id"] for element in json.loads(message)["payload"]["elements"])
            if self.room:
                await self.room.send(message)
        except Refused as refused:
            print("refused:", refused, file=sys.stderr)
        except websockets.ConnectionClosed:
            pass

    async def draw(self):
        """Draws a box, moves it, and undoes that."""
        await self.has_joined.wait()
        box = secrets.token_hex(8)
        element = {"id": box, "type": "rectangle", "width": 80, "height": 50}
        await self.make(self.board.change, {"name": "create", "element": element})
        await self.make(self.board.change, {"name": "set", "id": box, "member": "x", "value": 120})
        await asyncio.sleep(0.5)
        await self.make(self.board.undo)


async def main(address, number, seconds=None):
    with Replica.open(PROGRAM, int(number), secrets.randbits(53)) as board:
        member = Member(board)
        work = asyncio.gather(member.stay(address), member.draw())
        asyncio.get_running_loop().add_signal_handler(signal.SIGINT, work.cancel)
        try:
            await asyncio.wait_for(work, seconds and float(seconds))
        except (asyncio.CancelledError, asyncio.TimeoutError):
            print(board.scene())


if __name__ == "__main__":
    if not 2 <= len(sys.argv[1:]) <= 3:
        sys.exit("usage: room_member.py ROOM NUMBER [SECONDS]")
    asyncio.run(main(*sys.argv[1:]))
