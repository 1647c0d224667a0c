#!/usr/bin/env python3
"""Writes the journal of a room to standard output: an empty scene, and updates of one element of 1 KB each.

usage: journal.py UPDATES ELEMENTS   the updates go round over so many elements, whose versions rise
"""
import sys

POINTS = ",".join(f"[{i * 17 % 900}.25,{i * 29 % 700}.5]" for i in range(38))
ELEMENT = ('{"angle":0,"backgroundColor":"transparent","boundElements":[],"fillStyle":"solid","frameId":null,"groupIds":[],"height":0,'
           '"id":"%d","index":"a1","isDeleted":false,"link":null,"locked":false,"opacity":100,"points":[' + POINTS + '],'
           '"roughness":1,"roundness":null,"seed":1,"strokeColor":"#1e1e1e","strokeStyle":"solid","strokeWidth":2,"type":"freedraw",'
           '"updated":1718000000000,"version":%d,"versionNonce":1,"width":0,"x":0,"y":0}')


def main():
    updates, elements = map(int, sys.argv[1:])
    write = sys.stdout.write
    write('{"type":"excalidraw","version":2,"source":null,"elements":[],"appState":{},"files":{}}\n')
    for at in range(updates):
        write('{"type":"SCENE_UPDATE","payload":{"elements":[' + ELEMENT % (at % elements, at // elements + 1) + ']}}\n')


main()
