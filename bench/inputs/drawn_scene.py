#!/usr/bin/env python3
"""Writes a scene as people draw it to standard output: strokes of a pen, shapes with labels, arrows between them, texts.

usage: drawn_scene.py ELEMENTS [POINTS] [SEED] [--indent]
POINTS: how many points a stroke has on average (60); --indent: as Excalidraw saves a file, each value on a line of its own
"""
import json
import random
import sys

DIGITS = "0123456789ABCDEFGHIJKLMNOPQRSTUVWXYZabcdefghijklmnopqrstuvwxyz"


def key(i):
    head, width, base = ord("a"), 1, 62
    while i >= base:
        i -= base
        head, width, base = head + 1, width + 1, base * 62
    out = ""
    for _ in range(width):
        out = DIGITS[i % 62] + out
        i //= 62
    return chr(head) + out


def common(rnd, i, kind, name):
    return {
        "id": name, "type": kind, "x": rnd.uniform(-4000, 4000), "y": rnd.uniform(-4000, 4000), "width": rnd.uniform(5, 400),
        "height": rnd.uniform(5, 300), "angle": 0, "strokeColor": "#1e1e1e", "backgroundColor": "transparent", "fillStyle": "solid",
        "strokeWidth": 2, "strokeStyle": "solid", "roughness": 1, "opacity": 100, "groupIds": [], "frameId": None, "index": key(i),
        "roundness": {"type": 3}, "seed": rnd.getrandbits(31), "version": rnd.randint(2, 400), "versionNonce": rnd.getrandbits(31),
        "isDeleted": False, "boundElements": [], "updated": 1718000000000 + i, "link": None, "locked": False,
    }


def stroke(rnd, points):
    x = y = 0.0
    out = []
    for _ in range(max(2, int(rnd.expovariate(1 / points)))):
        out.append([round(x, 4), round(y, 4)])
        x, y = x + rnd.gauss(2, 3), y + rnd.gauss(0, 3)
    return out


def main():
    words = [word for word in sys.argv[1:] if word != "--indent"]
    count, points = int(words[0]), int((words[1:] or ["60"])[0])
    rnd = random.Random(int((words[2:] or ["1"])[0]))
    elements, shapes = [], []
    while len(elements) < count:
        i = len(elements)
        name = "%016x" % rnd.getrandbits(64)
        way = rnd.random()
        if way < 0.45:
            line = stroke(rnd, points)
            elements.append({**common(rnd, i, "freedraw", name), "points": line, "pressures": [], "simulatePressure": True,
                             "lastCommittedPoint": line[-1]})
        elif way < 0.75:
            shape = common(rnd, i, rnd.choice(["rectangle", "ellipse", "diamond"]), name)
            label = {**common(rnd, i + 1, "text", name + "t"), "text": "some words of a label", "originalText": "some words of a label",
                     "fontSize": 20, "fontFamily": 5, "textAlign": "center", "verticalAlign": "middle", "containerId": name,
                     "autoResize": True, "lineHeight": 1.25}
            shape["boundElements"] = [{"id": name + "t", "type": "text"}]
            shapes.append(shape)
            elements += [shape, label]
        elif len(shapes) > 1:
            a, b = rnd.sample(shapes[-40:], 2)
            for shape in (a, b):
                shape["boundElements"].append({"id": name, "type": "arrow"})
            elements.append({**common(rnd, i, "arrow", name), "points": [[0, 0], [100, 50]], "lastCommittedPoint": None,
                             "startBinding": {"elementId": a["id"], "focus": 0.1, "gap": 4},
                             "endBinding": {"elementId": b["id"], "focus": -0.1, "gap": 4},
                             "startArrowhead": None, "endArrowhead": "arrow", "elbowed": False})
    scene = {"type": "excalidraw", "version": 2, "source": "https://excalidraw.com", "elements": elements,
             "appState": {"gridSize": 20, "viewBackgroundColor": "#ffffff"}, "files": {}}
    how = {"indent": 2} if "--indent" in sys.argv else {"separators": (",", ":")}
    json.dump(scene, sys.stdout, **how)
    print()


main()
