#!/usr/bin/env python3
"""Respells the repository's own words as today's Rattle has them: a definition such as entriesUsed becomes entries_used, in specs, proofs, clauses
and edits. Lemmas keep their hyphens between words (used-entriesUsed becomes used-entries_used), types and modules their capitals.
usage: tools/respell.py [FOLDER], once, after port.py."""
import os
import re
import sys

# A capital after a small letter or a digit; after an underscore it stays, since generated names such as uint_Makes have it.
INNER = re.compile(r"(?<=[a-z0-9])([A-Z])")

# Lemmas whose hyphen became an underscore and that would fall together with a definition.
APART = {"join_by": "join-by", "slot_held": "slot-held", "is_digit": "is-digit"}
APART_IN = {
    "home_after": ("home-after", ("laws/specs/LikeCells.antt", "census/specs/Crossed.antt")),
    "row_count": ("row-count", ("report/specs/Stands.antt",)),
}


def snake(word):
    return INNER.sub(lambda m: "_" + m.group(1).lower(), word)


def respelled(text):
    # A projection such as h.heapOf counts too.
    return re.sub(r"(?<![\w'])([a-z][a-z0-9_]*[a-z0-9][A-Z][\w'₀-₉]*|[a-z][A-Z][\w'₀-₉]*)", lambda m: snake(m.group(1)), text)


def main():
    root = sys.argv[1] if len(sys.argv) > 1 else "."
    changed = 0
    for folder, folders, files in os.walk(os.path.join(root, "crates")):
        folders[:] = [f for f in folders if f not in ("out", "data")]
        for name in files:
            if not name.endswith((".antt", ".rt", ".edit")):
                continue
            path = os.path.join(folder, name)
            with open(path, encoding="utf-8") as f:
                text = f.read()
            new = text
            for old, apart in APART.items():
                new = re.sub(r"(?<![\w'-])" + old + r"(?![\w'-])", apart, new)
            for old, (apart, places) in APART_IN.items():
                if path.endswith(places):
                    new = re.sub(r"(?<![\w'-])" + old + r"(?![\w'-])", apart, new)
            new = respelled(new)
            if new != text:
                with open(path, "w", encoding="utf-8") as f:
                    f.write(new)
                changed += 1
    print(f"respelled {changed} files")


main()
