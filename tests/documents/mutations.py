#!/usr/bin/env python3
"""Checks that each `old:` text of crates/NAME/mutations.txt and of tests/wrong_bodies.txt occurs
exactly once in its file, after the replacements before it, and that each name is used once in its
list. A change of the code thus cannot disable a mutation without notice. tests/mutations.py tries
if the prover rejects the mutations, and tests/wrong_bodies.py if tests reject the wrong bodies. The
exit status is 1 if a text is missing or occurs more than once.

usage: tests/documents/mutations.py
needs: nothing
"""
import os
import sys
from pathlib import Path

ROOT = Path(__file__).resolve().parent.parent.parent
NAME = os.path.relpath(__file__, ROOT)
BODIES = ROOT / "tests/wrong_bodies.txt"
# The other words of a line.
OTHERS = {"check"}, {"group", "program", "test", "says"}


def stale(path):
    """Yields the faults of a file of mutations or of wrong bodies, a line for each."""
    folder, others = (ROOT, OTHERS[1]) if path == BODIES else (path.parent, OTHERS[0])
    texts, file, old, name, names = {}, None, None, "", set()
    for number, line in enumerate(path.read_text().splitlines(), 1):
        where = f"{path.relative_to(ROOT)}:{number}"
        word, _, text = line.partition(": ")
        if word == "name":
            if text in names:
                yield f"{where}: a second mutation with the name {text}"
            names.add(text)
            texts, file, old, name = {}, None, None, text
        elif word == "file":
            file = folder / text.strip()
            texts.setdefault(file, file.read_text())
        elif word == "old":
            old = text
        elif line.startswith("new:"):
            if texts[file].count(old) != 1:
                yield f"{where}: {name}: {texts[file].count(old)} times in {file.relative_to(ROOT)}: {old.strip()}"
            texts[file] = texts[file].replace(old, text, 1)
        elif line and word not in others and not line.startswith("#"):
            yield f"{where}: unknown line: {line}"


def main():
    files = [*sorted(ROOT.glob("crates/*/mutations.txt")), BODIES]
    found = [line for path in files for line in stale(path)]
    count = sum(path.read_text().count("\nname: ") + path.read_text().startswith("name: ") for path in files)
    print("\n".join(found) or f"{NAME}: {count} mutations and wrong bodies have their texts in the code")
    sys.exit(bool(found) or not count)


main()
