#!/usr/bin/env python3
"""Brings the repository's own definitions and lemmas to today's spelling: words in snake case.

usage: python3 tools/respell.py      at the top of the repository, once, right after /opt/rattle/port/port.py

A definition, constructor, field or lemma in camel case, as bitCount, becomes bit_count, in .antt and .rt files, edits and pages. A lemma, field or label with
dashes, as at-end, becomes at_end, in .antt files and edits. Where a lemma would have a definition's name, it gets _lem behind it. Types, modules, functions of src/
and names that the toolchain makes keep theirs. A second run changes nothing.
"""

import os
import re
import sys

NAME = r"[\w'\-]+"
# Lemmas whose names definitions take.
LEMMAS = {"four_bytes": "getbits/proofs/Fields.antt", "has_room": "flat/proofs/Room.antt", "num_pos": "film_grain/proofs/Numbers.antt", "place_at": "getbits/proofs/Places.antt", "too_short": "flat_hdr/proofs/Rows.antt"}
# Fields and variables that a definition shares its name with.
SHARED = {"col-starts": "col_starts", "row-starts": "row_starts", "num-points": "num_points"}
KEEP = {"and-true", "or-true"}  # the library has these too
MADE = re.compile(r"returns|(?:Need|Else|Then|After|At|In|Lts|Tie)-|-spec$")


def snake(name):
    return re.sub(r"(?<=[a-z0-9])([A-Z])", lambda m: "_" + m.group(1).lower(), name).replace("-", "_")


def files(root, endings):
    for folder, dirs, names in os.walk(root):
        dirs[:] = sorted(d for d in dirs if d not in ("out", ".git", "target"))
        for name in sorted(names):
            if name.endswith(endings):
                yield os.path.join(folder, name)


def read(path):
    with open(path, encoding="utf-8") as f:
        return f.read()


def declared(text):
    """The names that a file of definitions or lemmas declares at its top, and in its records, data and sections, but for answers to goals, which the toolchain names."""
    inside = False
    for line in text.split("\n"):
        m = re.match(r"(?:(?:unfoldable|abbrev|pub|data|record|opaque|private) )*(" + NAME + r") :(?: |$)", line)
        if m and not re.match(r" (tie|goal)\.| [^ ]*\.Tie\.", line[m.end(1) + 2:]):
            yield m.group(1)
        if line and not line[0].isspace() and not line.startswith("--"):
            inside = re.match(r"(?:pub )?(?:data|record|module) .*where$", line) is not None
        m = inside and re.match(r"  +(?:pub )?(" + NAME + r") :(?: |$)", line)
        if m:
            yield m.group(1)


def main():
    if not os.path.isfile("crates.txt"):
        sys.exit("respell: run it at the top of the repository")
    camel, dashed, kept = {}, {}, set()
    for path in files("crates", (".antt",)):
        for name in declared(read(path)):
            if name in KEEP or MADE.search(name):
                continue
            if name[0].islower() and re.search("[A-Z]", name) and "-" not in name:
                camel[name] = snake(name)
            elif "-" in name:
                dashed[name] = snake(name)
            else:
                kept.add(name)
    taken = kept | set(camel.values())
    for name, new in dashed.items():
        if new in taken:
            dashed[name] = SHARED.get(name, new + "_lem")
    changed = 0
    for path in list(files("crates", (".antt", ".rt", ".edit"))) + [p for p in list(files("docs", (".md",))) + ["README.md"] if os.path.isfile(p)]:
        old = text = read(path)
        table = dict(camel)
        if path.endswith((".antt", ".edit")):
            table.update(dashed)
            for name, where in LEMMAS.items():
                crate = where.split("/")[0]
                if camel.get(next((c for c in camel if camel[c] == name), None)) == name and uses(text, name, path, where, crate):
                    table[name] = name + "_lem"
        text = "\n".join(turned(line, table, camel) for line in text.split("\n"))
        if text != old:
            with open(path, "w", encoding="utf-8") as f:
                f.write(text)
            changed += 1
    print(f"respell: {len(camel)} names in camel case, {len(dashed)} with dashes; {changed} files changed")


def turned(line, table, camel):
    """A line with its names turned; in a comment, whose words may have dashes too, only those in camel case."""
    names = camel if re.match(r"\s*(--|//|#)", line) else table
    return re.sub(r"(?<![\w'\-])" + NAME + r"(?![\w'\-])", lambda m: names.get(m.group(0), m.group(0)), line)


def uses(text, name, path, where, crate):
    """Does a file declare that lemma, or import it?"""
    if path.endswith(where):
        return True
    module = "Rattle." + crate + ".proofs." + os.path.splitext(os.path.basename(where))[0]
    m = re.search("use " + re.escape(module) + r"\.\{([^}]*)\}", text)
    return m is not None and name in re.split(r"[,\s]+", m.group(1))


if __name__ == "__main__":
    main()
