#!/usr/bin/env python3
"""What the splitting program has to print for the bytes on standard input.

Written from document 01 alone, as plainly as it can be, and with no regard to speed: it shares no
code, table or buffer with the program that it judges.
"""
import sys

NAMES = ("VERTEX SEG2 SEG3 SEG4 TRI3 TRI6 TRI7 QUAD4 QUAD8 QUAD9 TET4 TET10 WEDGE6 WEDGE15 HEX8 HEX21 "
         "PLINE PGON PHED").split()
SEPARATOR = 2**64 - 1

# by smallest position: the quad that is left, and for each of its diagonals the rows
WEDGE = """
0 1254: 15 0453 0154 0512; 24 0453 0241 0425
1 2035: 23 1534 1235 1320; 05 1534 1052 1503
2 0143: 04 2345 2043 2401; 13 2345 2431 2130
3 1254: 15 3210 3154 3512; 24 3210 3241 3425
4 2035: 23 4021 4235 4320; 05 4021 4052 4503
5 0143: 04 5102 5043 5401; 13 5102 5130 5314
"""
RENUMBER = "01234567 12305674 23016745 30127456 47650321 54761032 65472103 76543210".split()
BRICK = """
46 16 27: 0564 0126 0165 0674 0237 0276
46 16 36: 0564 0126 0165 0674 0637 0236
46 25 27: 0564 0125 0526 0674 0237 0276
46 25 36: 0564 0125 0526 0674 0637 0236
57 16 27: 0574 0165 0675 0126 0723 0762
57 16 36: 0574 0165 0675 0126 0637 0236
57 25 27: 0574 0125 2675 0237 0527
57 25 36: 0574 0567 0637 0125 0652 0362
"""


def wedge_table():
    table = []
    for line in WEDGE.strip().split("\n"):
        head, rows = line.split(":")
        cuts = {}
        for cut in rows.split(";"):
            diagonal, *simplexes = cut.split()
            cuts[diagonal] = simplexes
        table.append((head.split()[1], cuts))
    return table


def brick_table():
    return {tuple(head.split()): rows.split()
            for head, rows in (line.split(":") for line in BRICK.strip().split("\n"))}


WEDGES, BRICKS = wedge_table(), brick_table()


def nodes(name):
    digits = name.lstrip("ABCDEFGHIJKLMNOPQRSTUVWXYZ")
    return 1 if name == "VERTEX" else int(digits) if digits else None


def smallest(ids):
    return ids.index(min(ids))


def pick(ids, row):
    return [ids[int(corner)] for corner in row]


def diagonal(ids, quad, diagonals):
    """Which of the two diagonals holds the smallest, sought in the order of the quad."""
    corner = quad[smallest(pick(ids, quad))]
    return next(d for d in diagonals if corner in d)


def refusal(kind, ids):
    if not 1 <= kind <= 19:
        return 1
    if len(ids) > 4096:
        return 2
    name = NAMES[kind - 1]
    wanted = nodes(name)
    if wanted is not None and len(ids) != wanted or name in ("PLINE", "PGON") and not ids:
        return 3
    if name != "PHED" and SEPARATOR in ids:
        return 4
    if name in ("PLINE", "PGON", "PHED"):
        return 6
    return 0


def split(name, ids):
    """The kind of the simplexes and their ids."""
    place = smallest(ids)
    if name == "VERTEX":
        return 1, [ids[:1]]
    if name.startswith("SEG"):
        return 2, [pick(ids, "01" if place == 0 else "10")]
    if name.startswith("TRI"):
        return 5, [pick(ids, "012")]
    if name.startswith("QUAD"):
        return 5, [pick(ids, row) for row in (("013", "231") if place in (1, 3) else ("023", "012"))]
    if name.startswith("TET"):
        return 11, [pick(ids, "0123")]
    if name.startswith("WEDGE"):
        quad, cuts = WEDGES[min(place, 5)]
        return 11, [pick(ids, row) for row in cuts[diagonal(ids, quad, cuts)]]
    turned = pick(ids, RENUMBER[min(place, 7)])
    case = (diagonal(turned, "4567", ("46", "57")), diagonal(turned, "1265", ("16", "25")),
            diagonal(turned, "2376", ("27", "36")))
    return 11, [pick(turned, row) for row in BRICKS[case]]


def expected(stream):
    lines, at, begun = [], 0, 0
    while at < len(stream):
        length = int.from_bytes(stream[at:at + 4], "little")
        body = stream[at + 4:at + 4 + length]
        if len(stream) < at + 4 or length < 2 or length > 32770 or length % 8 != 2 or len(body) < length:
            lines.append(f"{begun} 21 0")
            begun += 1
            break
        kind = int.from_bytes(body[:2], "little")
        ids = [int.from_bytes(body[i:i + 8], "little") for i in range(2, length, 8)]
        why = refusal(kind, ids)
        if why:
            lines.append(f"{begun} {why} 0")
        else:
            simplex_kind, simplexes = split(NAMES[kind - 1], ids)
            lines.append(f"{begun} 0 {len(simplexes)}")
            lines += [" ".join(map(str, [simplex_kind] + simplex)) for simplex in simplexes]
        begun += 1
        at += 4 + length
    lines.append(f"end {begun}")
    return "\n".join(lines) + "\n"


if __name__ == "__main__":
    sys.stdout.write(expected(sys.stdin.buffer.read()))
