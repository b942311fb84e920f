#!/usr/bin/env python3
"""Writes samples/door.rec: a door leaf in bricks, with prisms at its corners.

The leaf is 9 cells wide, 21 high and 2 thick, 10 cm by 10 cm by 2 cm each. At each of its four
corners the outer edge is cut off, so that the corner cell is a prism (WEDGE6) in place of a brick
(HEX8). A record: 4-byte length of what follows, 2-byte kind, then 8-byte ids, all little-endian.
"""
import os
import struct

WIDE, HIGH, THICK = 9, 21, 2
WEDGE6, HEX8 = 13, 15


def node(x, y, z):
    return (z * (HIGH + 1) + y) * (WIDE + 1) + x


def outline(x, y):
    """The corners of a cell seen from the front, counter-clockwise, less the one that is cut off."""
    square = [(x, y), (x + 1, y), (x + 1, y + 1), (x, y + 1)]
    return [p for p in square if p[0] not in (0, WIDE) or p[1] not in (0, HIGH)]


def record(kind, ids):
    return struct.pack(f"<IH{len(ids)}Q", 2 + 8 * len(ids), kind, *ids)


def door():
    for z in range(THICK):
        for y in range(HIGH):
            for x in range(WIDE):
                face = outline(x, y)
                ids = [node(*p, z) for p in face] + [node(*p, z + 1) for p in face]
                yield record(HEX8 if len(face) == 4 else WEDGE6, ids)


if __name__ == "__main__":
    with open(os.path.join(os.path.dirname(os.path.abspath(__file__)), "door.rec"), "wb") as out:
        out.write(b"".join(door()))
