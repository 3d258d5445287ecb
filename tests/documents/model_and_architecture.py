#!/usr/bin/env python3
"""Compares the documents with the code, which must have the layout of `rt fmt`:

- Each definition that a clause of a public function cites has a comment, its own or that of its group of lines.
- Each function, definition and mutation in its table of rules exists.
- The map and the list of crates in docs/ARCHITECTURE.md are those of crates.txt (docs/map.py --check).
- The picture of margins is the one that docs/margins.py draws.
- Each `==` of a type is derived, so that it compares every field.

The exit status is 1 if a check fails.

usage: tests/documents/model_and_architecture.py
needs: nothing
"""
import os
import re
import subprocess
import sys

sys.path.insert(0, f"{os.path.dirname(os.path.abspath(__file__))}/../shared")
from checks import NAME, ROOT  # noqa: E402

DEFINED = re.compile(r"^(?:abbrev |unfoldable )?pub (?:record |data )?(\w+)|^  (?:abbrev |unfoldable )pub (\w+)", re.M)
PUBLIC = re.compile(r'\s*pub (?:extern "C" )?fn (\w+)')
CLAUSE_NAME = re.compile(r"^\s*(?:requires|ensures)\*? \w+ ", re.M)
QUOTED = re.compile(r"`([^`\n]+)`")
# (a trait's parameters may follow its name)
EQUALITY = re.compile(r"^\s*(?:unsafe )?impl\b[^{;]*\b(?:PartialEq|Eq)\b[^{;]*\bfor\b", re.M)


def crates():
    """Returns the dependencies of each crate of crates.txt."""
    lines = (ROOT / "crates.txt").read_text().splitlines()
    pairs = [line.partition("#")[0].split(":") for line in lines if ":" in line.partition("#")[0]]
    return {head.split()[0]: below.split() for head, below in pairs}


def definitions(crate):
    texts = [path.read_text() for path in (ROOT / "crates" / crate / "specs").glob("*.antt")]
    return {name for text in texts for found in DEFINED.findall(text) for name in found if name and name != "mod"}


def public_clauses(text):
    """Yields the name of each public function, and the text of its clauses."""
    lines = text.split("\n")
    for start, line in enumerate(lines):
        found = PUBLIC.match(line)
        if not found:
            continue
        indent = line[: len(line) - len(line.lstrip())]
        end = start
        while end < len(lines) and lines[end] not in (indent + "{", indent + "{}"):
            end += 1
        clauses = re.search(r"\b(?:requires|ensures)\b.*", "\n".join(lines[start:end]), re.S)
        yield found[1], CLAUSE_NAME.sub("", clauses[0]) if clauses else ""


def is_word_of(name, text):
    return re.search(r"(?<![\w.])" + re.escape(name) + r"(?!\w)", text) is not None


def without_comment(crate):
    """Returns the names of the crate's definitions without a comment in the lines above, up to an empty line."""
    found = set()
    for path in (ROOT / "crates" / crate / "specs").glob("*.antt"):
        has_comment = False
        for line in path.read_text().splitlines():
            if not line.strip() or line.lstrip().startswith("--"):
                has_comment = bool(line.strip())
            elif (defined := DEFINED.match(line)) and not has_comment:
                found.add(defined[1] or defined[2])
    return found


def unstated_definitions():
    """Yields each definition that a clause of a public function cites and that no comment states."""
    for crate in crates():
        silent = without_comment(crate)
        for path in sorted((ROOT / "crates" / crate / "src").rglob("*.rt")):
            for function, clauses in public_clauses(path.read_text()):
                for name in sorted(silent):
                    if is_word_of(name, clauses):
                        yield f"crates/{crate}/specs: no comment states `{name}`, which {function} cites"


def missing_of_rules(model):
    """Yields the names in the table of rules that the repository does not have."""
    table = model[model.index("| rule | RFC 8033") :].split("\n\n")[0]
    code = "\n".join(path.read_text() for path in (ROOT / "crates").glob("*/src/*.rt"))
    defined = {name for crate in crates() for name in definitions(crate)}
    for line in table.splitlines()[2:]:
        rule, _, functions, names, edit = [it.strip() for it in line.strip("|").split("|")][:5]
        for function in QUOTED.findall(functions):
            if not re.search(r"\bfn " + function.split("::")[-1] + r"\b", code):
                yield f"docs/MODEL.md: {rule}: no function {function}"
        for name in QUOTED.findall(names):
            if name not in defined:
                yield f"docs/MODEL.md: {rule}: no definition {name}"
        crate, name = edit.replace("`", "").split()
        if f"name: {name}" not in (ROOT / "crates" / crate / "mutations.txt").read_text().splitlines():
            yield f"docs/MODEL.md: {rule}: no wrong body {name}"


def written_equalities():
    """Yields each `==` that is written by hand instead of derived. An equality that ignores a field
    would satisfy every contract."""
    for path in sorted((ROOT / "crates").glob("*/src/**/*.rt")):
        for found in EQUALITY.findall(path.read_text()):
            yield f"{path.relative_to(ROOT)}: `==` is not derived: {' '.join(found.split())}"


def main():
    model = (ROOT / "docs" / "MODEL.md").read_text()
    missing = [*unstated_definitions(), *missing_of_rules(model), *written_equalities()]
    print("\n".join(missing) or f"{NAME}: each cited definition is stated, and the table of rules names what the code has", flush=True)
    drawn = [subprocess.run([ROOT / "docs" / name, "--check"], check=False).returncode for name in ("map.py", "margins.py")]
    sys.exit(bool(missing) or any(drawn))


main()
