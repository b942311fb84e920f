#!/usr/bin/env python3
"""Spells the definitions and lemmas of this repository as today's Rattle spells names.

usage: python3 tools/respell.py [--dry]     at the top of a checkout in which port.py has just run

A function or lemma is in snake case; a dash is kept where it joins two names, as in `length-overwrite`, and a plain
word is added with `_`, as in `settle_gives`. Types and modules keep their upper camel case. Names of the source,
of exports, of goals that Rattle makes, and all texts, inputs and outputs stay. A name that would fall together
with another gets the one in OVERRIDES. `--dry` writes nothing; both forms print what falls together.
"""

import glob
import re
import sys

# Where the rule would give a name that another definition has.
OVERRIDES = {
    "hex-row": "hex_row_lem",
    "hex-rows": "hex_rows_lem",
    "in-range": "in_range_lem",
    "laid-brick": "laid_brick_lem",
    "laid-tet": "laid_tet_lem",
    "laid-wedge": "laid_wedge_lem",
    "largerOf": "larger_of",
    "of_length": "of_length_lem",
    "out-only": "out_only_lem",
    "places-in": "places_in_lem",
    "quad_at": "quad_at_lem",
    "tet-rows": "tet_rows_lem",
    "tri-at": "tri_at_lem",
}

# Names of the library that lemmas speak of, beside the definitions of this repository.
LIBRARY_NAMES = set(
    "length append take drop map get_or set reverse add sub mul div mod lt le eq eqb ltb leb and or not neg abs min max "
    "zero suc true false none some nil mem paste replicate".split()
)

TOKEN = re.compile(r"[A-Za-z_0-9'\u0080-\u00b6\u00b8-\u2000\u2080-\u2089]+(?:-[A-Za-z_0-9'\u2080-\u2089]+)*")
SIGNATURE = re.compile(
    r"^\s*(?:(?P<mark>abbrev|unfoldable|record|data)\s+)?(?:pub\s+)?(?:(?P<kind>record|data)\s+)?"
    r"(?P<name>[^\s(){}:\[\]]+)\s*(?:\([^=]*|\{[^=]*)?:(?:\s|$)"
)
# What Rattle asks for by name in the files of one function.
GOAL = re.compile(
    r"^(?:invariant-|decreases-|loop-(?:again|preserved|init|smaller|holds-)|returns(?:-|$)|.*-requires(?:-\d+)?$|.*-result(?:-\d+)?$"
    r"|bounds-|slice-|shared-slice|slice_bounds|offset_bounds|overflow|cast|(?:add|sub|mul|part|float|int)-(?:copy|from-bits|to-float|put-run|put-cell|long|size|result|copy-start|home|next-id|room)[-\d]*)"
)


STEP = re.compile(r"(?<![\w.'-])[a-z][\w'-]*(?:\.[\w'-]+)*\.$")


def files(pattern):
    return sorted(f for f in glob.glob(pattern, recursive=True) if "/out/" not in f)


def of_function(path):
    return path.rsplit("/", 1)[1] in ("Proof.antt", "Answers.antt", "Invariants.antt")


def definitions():
    """Each name that the repository defines, with its places and whether it is a function or a type."""
    places, functions = {}, set()
    for path in files("crates/*/specs/**/*.antt") + files("crates/*/proofs/**/*.antt"):
        with open(path, encoding="utf-8") as text:
            for line in text:
                found = SIGNATURE.match(line)
                if not found or line.lstrip().startswith(("--", "use ", "pub use", "module ", "let ", "λ", "in ")):
                    continue
                name = found["name"]
                if not re.match(r"^[A-Za-z][\w'-]*$", name) or (of_function(path) and GOAL.match(name)):
                    continue
                places.setdefault(name, []).append(path)
                if (found["mark"] or found["kind"]) and "/specs/" in path:
                    functions.add(name)
    return places, functions


def snake(name):
    name = re.sub(r"([a-z0-9])([A-Z])", r"\1_\2", name)
    return re.sub(r"_([A-Z])(?=[a-z0-9_]|$)", lambda m: "_" + m[1].lower(), name)


def joined(words, names):
    """The words of a lemma's name, joined by a dash where it stands between two names, and else by `_`."""
    out, left = words[0], words[0]
    for i, word in enumerate(words[1:], 1):
        rest = words[i:]
        right = any("_".join(rest[:n]) in names for n in range(1, len(rest) + 1))
        if left in names and right:
            out, left = out + "-" + word, word
        else:
            out, left = out + "_" + word, left + "_" + word
    return out


def renamings():
    places, functions = definitions()
    names = LIBRARY_NAMES | {snake(n) for n in functions if "-" not in n and n[0].islower()}
    new = {}
    for name in places:
        if name in OVERRIDES:
            new[name] = OVERRIDES[name]
        elif name[0].isupper() and "-" not in name:
            continue
        else:
            words = [snake(w) for w in name.split("-")]
            spelled = "_".join(words) if name.endswith("-spec") else joined(words, names)
            if spelled != name:
                new[name] = spelled
    return new, places


def falls_together(new, places):
    """Names that one spelling would join, and new names that another definition has already."""
    said = []
    kept = {n for n in places if n not in new}
    back = {}
    for old, spelled in new.items():
        back.setdefault(spelled, []).append(old)
    for spelled, olds in sorted(back.items()):
        others = olds + ([spelled] if spelled in kept else [])
        if len(others) > 1:
            said.append(f"together: {others} -> {spelled}")
    return said


def spell(text, new):
    """Steps of a walk, as `c.before.hex-row`, go by names of the source, and stay."""
    return TOKEN.sub(lambda m: m[0] if STEP.search(text, 0, m.start()) else new.get(m[0], m[0]), text)


def spell_antt(text, new):
    lines = []
    for line in text.split("\n"):
        found = re.search(r"(?:^|\s)--(?=\s|$)", line)
        at = found.start() if found else len(line)
        lines.append(spell(line[:at], new) + spell_comment(line[at:], new))
    return "\n".join(lines)


def spell_comment(text, new):
    """In prose a name in camel case is one anywhere, one with a dash only between backticks."""
    camel = {old: spelled for old, spelled in new.items() if "-" not in old and not old.islower()}
    return re.sub(r"`[^`\n]*`", lambda m: spell(m[0], new), spell(text, camel))


CLAUSE = re.compile(r"\b(?:requires|ensures|ghost)\*?\s*(?:\w+\s*)?:?\s*\{")


def spell_rt(text, new):
    """The `ghost use` lines and the clauses of a source."""
    text = re.sub(r"ghost use [^;]*;", lambda m: spell(m[0], new), text)
    out, at = [], 0
    for found in CLAUSE.finditer(text):
        if found.start() < at or text.rfind("//", text.rfind("\n", 0, found.start()) + 1, found.start()) >= 0:
            continue
        end, depth = found.end(), 1
        while depth:
            depth += {"{": 1, "}": -1}.get(text[end], 0)
            end += 1
        out += [text[at : found.end()], spell(text[found.end() : end], new)]
        at = end
    return "".join(out) + text[at:]


def spell_edit(text, new):
    lines, antt = [], False
    for line in text.split("\n"):
        if line.startswith("file: "):
            antt = line.endswith(".antt")
        elif line.startswith(("old: ", "new: ")) and (antt or "use Rattle" in line):
            line = line[:5] + spell(line[5:], new)
        lines.append(line)
    return "\n".join(lines)


def spell_page(text, new):
    """In a page of docs/, names between backticks and behind a `#`."""
    return re.sub(r"`[^`\n]*`", lambda m: spell(m[0], new), text)


def main(dry):
    new, places = renamings()
    new.update(OVERRIDES)
    said = falls_together(new, places)
    print("\n".join(said))
    if dry:
        for old in sorted(new):
            print(f"{old} -> {new[old]}")
        return
    turns = [("crates/**/*.antt", spell_antt), ("crates/*/src/**/*.rt", spell_rt), ("crates/*/must-fail/*.edit", spell_edit)]
    turns += [("docs/**/*.md", spell_page), ("README.md", spell_page)]
    for pattern, turn in turns:
        for path in files(pattern):
            with open(path, encoding="utf-8") as source:
                text = source.read()
            turned = turn(text, new)
            if turned != text:
                with open(path, "w", encoding="utf-8") as target:
                    target.write(turned)


if __name__ == "__main__":
    main("--dry" in sys.argv[1:])
