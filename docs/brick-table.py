#!/usr/bin/env python3
"""Draws docs/brick-table.svg, the brick's table for the drawing office wall, from the constant in the code.

Usage: docs/brick-table.py [SOURCE [PAGE]]. SOURCE is the Rattle file that holds the constant, or a folder of
such files; it is crates/cuts/src unless another is named. PAGE is the file to write, - for standard output.

The page is A3, landscape, in millimetres. Each of the 64 lines is a group `row-N` of its own, whose texts
are three diagonals and the tetrahedra; each box is a group `box-P`, whose heads are the three faces.
"""
import os
import re
import sys

ROOT = os.path.join(os.path.dirname(os.path.abspath(__file__)), "..")
SOURCE = os.path.join(ROOT, "crates/cuts/src")
PAGE = os.path.join(ROOT, "docs/brick-table.svg")

# The brick's corners in the order that begins at the smallest (document 01), by smallest position.
ORDERS = ["01234567", "12305674", "23016745", "30127456", "47650321", "54761032", "65472103", "76543210"]
# In that order: the faces that do not touch the first corner.
FACES = ["4567", "1265", "2376"]
SIDES = {"0321": "bottom", "4567": "top", "0154": "front", "1265": "right", "2376": "back", "3047": "left"}
EXAMPLE = [31, 12, 44, 27, 19, 8, 36, 23]


def rows_of(text):
    """The 64 rows of 24 figures: byte strings in a constant or a function, or 1,536 numbers in a constant."""
    constants = re.findall(r"^(?:pub )?const [^=]*=(.*?);\n", text, re.M | re.S)
    for body in constants + [text]:
        strings = re.findall(r'b"([0-9]{24})"', body)
        if len(strings) == 64:
            return strings
        numbers = re.findall(r"\b[0-9]\b", body)
        if len(numbers) == 1536 and not strings:
            return ["".join(numbers[at:at + 24]) for at in range(0, 1536, 24)]
    return None


def table(source):
    """The rows, each a list of tetrahedra; four equal figures are the filler of a row of five."""
    names = sorted(os.listdir(source)) if os.path.isdir(source) else [""]
    texts = [open(os.path.join(source, name).rstrip("/"), encoding="utf-8").read()
             for name in names if not name or name.endswith(".rt")]
    found = [rows for rows in map(rows_of, texts) if rows]
    if len(found) != 1:
        sys.exit(f"brick-table: {len(found)} constants of 64 rows in {source}, and not one")
    quads = [re.findall("....", row) for row in found[0]]
    return [[quad for quad in row if len(set(quad)) > 1] for row in quads]


def faces(smallest):
    """The three faces that do not touch a corner, in the order in which they are searched."""
    return ["".join(ORDERS[smallest][int(corner)] for corner in face) for face in FACES]


def side(face):
    """The name of a face, from whichever corner and which way round it is given."""
    return next(name for corners, name in SIDES.items() if set(corners) == set(face))


def diagonal(face, second):
    return f"{face[1]}–{face[3]}" if second else f"{face[0]}–{face[2]}"


# Drawing.

def text(x, y, words, size, anchor="start", style=""):
    return f'<text x="{x:g}" y="{y:g}" font-size="{size:g}" text-anchor="{anchor}"{style}>{words}</text>'


BOLD = ' font-weight="bold"'
FIGURES = ' class="figures"'


def line(x1, y1, x2, y2, width, dashed=False):
    dashes = ' stroke-dasharray="1.6 1.2"' if dashed else ""
    return f'<line x1="{x1:g}" y1="{y1:g}" x2="{x2:g}" y2="{y2:g}" stroke-width="{width:g}"{dashes}/>'


def corner_places(x, y, wide, high, deep):
    """Where the corners lie on the paper, corner 0 at x, y; `deep` is the step from front to back."""
    ring = [(0, 0), (wide, 0), (wide + deep[0], -deep[1]), (deep[0], -deep[1])]
    return [(x + i, y + j - up) for up in (0, high) for i, j in ring]


def brick(places, radius, smallest=None):
    """The brick in lines, its corner numbers in discs; that of the smallest id is black."""
    edges = ["01", "12", "45", "56", "67", "47", "04", "15", "26", "03", "23", "37"]
    drawn = []
    for edge in edges:
        (x1, y1), (x2, y2) = (places[int(corner)] for corner in edge)
        drawn.append(line(x1, y1, x2, y2, radius / 8, dashed="3" in edge))
    for corner, (x, y) in enumerate(places):
        fill, ink = ("black", "white") if corner == smallest else ("white", "black")
        drawn.append(f'<circle cx="{x:g}" cy="{y:g}" r="{radius:g}" fill="{fill}" stroke-width="0.3"/>')
        drawn.append(text(x, y + 0.5 * radius, corner, 1.45 * radius, "middle", f'{BOLD} fill="{ink}"'))
    return drawn


def row(number, tetrahedra, x, y):
    """One line of a box: its three diagonals, then its tetrahedra."""
    smallest, case = divmod(number, 8)
    drawn = [f'<g id="row-{number}"{FIGURES}>']
    for place, face in enumerate(faces(smallest)):
        second = case >> (2 - place) & 1
        drawn.append(text(x + 10 + 18 * place, y, diagonal(face, second), 5, "middle"))
    for place, corners in enumerate(tetrahedra):
        drawn.append(text(x + 60 + 14.6 * place, y, corners, 5, style=BOLD))
    if len(tetrahedra) == 5:
        drawn.append(text(x + 133, y, "five", 4))
    return drawn + ["</g>"]


def box(smallest, rows, x, y):
    """What a fitter needs once the smallest id is found: the brick, the three faces, eight lines."""
    wide, high, left = 197, 51.5, 49
    drawn = [f'<g id="box-{smallest}">',
             f'<rect x="{x:g}" y="{y:g}" width="{wide}" height="{high}" fill="none" stroke-width="0.5"/>',
             text(x + 4, y + 8, f"Smallest id at corner {smallest}", 4, style=BOLD)]
    drawn += brick(corner_places(x + 7, y + 43, 22, 19, (12, 8)), 2.9, smallest)
    for place, face in enumerate(faces(smallest)):
        middle = x + left + 10 + 18 * place
        drawn.append(text(middle, y + 4, side(face), 3, "middle"))
        drawn.append(text(middle, y + 8.2, face, 4.2, "middle", f'{FIGURES} id="face-{smallest}-{place}"'))
    drawn.append(text(x + left + 60, y + 8, "tetrahedra, by corner numbers", 3.4))
    drawn.append("</g>")
    for case in range(8):
        top = y + 9.9 + 5.15 * case
        drawn.append(line(x + left, top, x + wide - 3, top, 0.4 if case % 4 == 0 else 0.12))
        drawn += row(8 * smallest + case, rows[8 * smallest + case], x + left, top + 4.3)
    return drawn


def how(x, y):
    """The way to the line, in three steps."""
    steps = [
        ("1", "Find the corner with the smallest of the eight ids.", "Its box is the one with this corner in black."),
        ("2", "The box names the three faces that do not touch it.", "On each, find the corner with the smallest id:",
         "the cut of the face is the diagonal through it."),
        ("3", "The line with these three diagonals is the brick’s cut:", "four figures are the corners of one tetrahedron."),
    ]
    drawn = [text(x, y, "How a brick is cut into tetrahedra", 8, style=BOLD)]
    y += 10
    for number, *words in steps:
        drawn.append(text(x, y + 0.6, number, 7, style=BOLD))
        for sentence in words:
            drawn.append(text(x + 8, y, sentence, 4.3))
            y += 5.6
        y += 1.2
    return drawn + [text(x + 8, y, "Where an id stands twice, the corner that is printed first counts.", 3.3)]


def large_brick(x, y):
    """The brick with its corner numbers and the names of its faces; those behind are named from outside."""
    places = corner_places(x, y, 52, 32, (26, 16))

    def middle(face):
        corners = [places[int(corner)] for corner in face]
        return sum(p[0] for p in corners) / 4, sum(p[1] for p in corners) / 4

    drawn = []
    for face, (x1, y1), (x2, y2), anchor in (("3047", (0, 0), (-24, 4), "end"), ("2376", (18, -3), (34, -14), "start"),
                                             ("0321", (0, 0), (36, 10), "start")):
        at = middle(face)
        drawn.append(line(at[0] + x1, at[1] + y1, at[0] + x2, at[1] + y2, 0.2, dashed=True))
        drawn.append(f'<circle cx="{at[0] + x1:g}" cy="{at[1] + y1:g}" r="0.8"/>')
        shift = 1.5 if anchor == "start" else -1.5
        drawn.append(text(at[0] + x2 + shift, at[1] + y2 + 1.4, f"{side(face)} {face}", 4.2, anchor))
    for face, dx, dy in (("4567", 0, 1.4), ("0154", 13.5, -6)):
        at = middle(face)
        drawn.append(text(at[0] + dx, at[1] + dy, f"{side(face)} {face}", 4.2, "middle"))
    at = middle("1265")
    drawn += [text(at[0], at[1] + 1, "right", 4.2, "middle"), text(at[0], at[1] + 6.2, "1265", 4.2, "middle")]
    return drawn + brick(places, 3.2)


def example(rows, x, y):
    """A brick worked through, from its ids to its tetrahedra."""
    smallest = EXAMPLE.index(min(EXAMPLE))
    drawn = [text(x, y, "An example", 5, style=BOLD), text(x, y + 8, "corner", 4), text(x, y + 14, "id", 4)]
    for corner, number in enumerate(EXAMPLE):
        drawn.append(text(x + 24 + 12 * corner, y + 8, corner, 4.4, "middle", FIGURES))
        drawn.append(text(x + 24 + 12 * corner, y + 14, number, 4.4, "middle", FIGURES + BOLD))
    drawn.append(line(x, y + 9.8, x + 114, y + 9.8, 0.2))
    for step, words in enumerate((f"The smallest id is {EXAMPLE[smallest]}: the box of corner {smallest}.",
                                  "On its three faces the smallest id, and the diagonal through it:",
                                  "The line of these diagonals, and the ids at its corners:")):
        at = y + (22, 29, 43)[step]
        drawn += [text(x, at, step + 1, 4.4, style=BOLD), text(x + 7, at, words, 4)]
    case = 0
    for place, face in enumerate(faces(smallest)):
        ids = [EXAMPLE[int(corner)] for corner in face]
        second = ids.index(min(ids)) % 2
        case = 2 * case + second
        words = f"{face}: {min(ids)}, {diagonal(face, second)}"
        drawn.append(text(x + 7 + 38 * place, y + 35.5, words, 4, style=FIGURES))
    drawn.append('<g id="example">')
    for place, corners in enumerate(rows[8 * smallest + case]):
        at = (x + 7 + 57 * (place % 2), y + 49.5 + 5.6 * (place // 2))
        drawn.append(text(*at, corners, 4, style=FIGURES + BOLD))
        drawn.append(text(at[0] + 14, at[1], " ".join(str(EXAMPLE[int(corner)]) for corner in corners), 4, style=FIGURES))
    return drawn + ["</g>"]


def page(rows):
    drawn = how(10, 18) + large_brick(172, 70) + example(rows, 292, 15)
    for smallest in range(8):
        drawn += box(smallest, rows, 10 + 203 * (smallest // 4), 80 + 53 * (smallest % 4))
    return "\n".join([
        '<svg xmlns="http://www.w3.org/2000/svg" width="420mm" height="297mm" viewBox="0 0 420 297"',
        '     font-family="Liberation Sans, Arial, Helvetica, sans-serif" fill="black" stroke="none">',
        "<title>How a brick is cut into tetrahedra</title>",
        "<style>",
        "@page { size: A3 landscape; margin: 0 }",
        "line, rect, circle { stroke: black; stroke-linecap: round }",
        '.figures { font-family: "Liberation Mono", "Courier New", monospace }',
        "</style>",
        '<rect width="420" height="297" style="fill: white; stroke: none"/>',
        *drawn,
        text(10, 294.6, "Made by docs/brick-table.py from the table that the proved code uses (crates/cuts).", 2.8),
        "</svg>", ""])


def main():
    source, target = (sys.argv[1:] + [SOURCE, PAGE][len(sys.argv) - 1:])[:2]
    drawn = page(table(source))
    if target == "-":
        sys.stdout.write(drawn)
    else:
        with open(target, "w", encoding="utf-8") as out:
            out.write(drawn)


if __name__ == "__main__":
    main()
