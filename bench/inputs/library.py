#!/usr/bin/env python3
"""Writes a library to standard output, whose items have elements of some 190 bytes each, as programs write them: not all members.

usage: library.py ITEMS ELEMENTS [SEED]
"""
import json
import random
import sys


def main():
    items, elements = map(int, sys.argv[1:3])
    rnd = random.Random(int((sys.argv[3:] or ["1"])[0]))

    def element():
        return {"id": "%016x" % rnd.getrandbits(64), "type": rnd.choice(["rectangle", "ellipse", "diamond"]), "version": rnd.randint(1, 40),
                "versionNonce": rnd.getrandbits(31), "x": rnd.randint(-9999, 9999) / 8, "y": rnd.randint(-9999, 9999) / 8,
                "width": rnd.randint(1, 400), "height": rnd.randint(1, 400), "strokeColor": "#1971c2", "seed": rnd.getrandbits(31)}

    shelf = [{"status": "published", "elements": [element() for _ in range(elements)], "id": "%016x" % rnd.getrandbits(64),
              "created": 1718000000000 + at, "name": f"shape {at}"} for at in range(items)]
    json.dump({"type": "excalidrawlib", "version": 2, "source": "https://excalidraw.com", "libraryItems": shelf}, sys.stdout, separators=(",", ":"))
    print()


main()
