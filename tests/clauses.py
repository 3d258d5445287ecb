#!/usr/bin/env python3
"""Compares what two commits promise: prints each clause of a public function that only one of them has (`-` before, `+` after), and each definition of
specs/ that is gone (`-`) or reads otherwise (`~`). Status 1 if a clause or a definition is gone, a definition reads otherwise, or a function of both
has a new `requires`.

A clause is compared by its function's name, its own name and its text without spaces, after the renames that are given. A function or definition that
moved to another file of its crate is the same one. What is printed is not yet weaker: a person says what implies it.

usage: tests/clauses.py BEFORE [AFTER] [--rename OLD=NEW]..      AFTER: default: the files as they are; OLD=NEW: a word of the first commit's texts that has another name
"""
import argparse
import re
import subprocess
import sys
from collections import Counter
from pathlib import Path

ROOT = Path(__file__).resolve().parent.parent
FUNCTION = re.compile(r'\s*(?P<public>pub(?:\(\w+\))? )?(?:const )?(?:unsafe )?(?:extern "C" )?fn (?P<name>\w+)')
OWNER = re.compile(r"(?:pub )?trait (?P<trait>\w+)|impl(?:<.*?>)? (?:[\w:]+(?:<.*>)? for )?(?P<type>\w+)")
CLAUSE = re.compile(r"\s*(?P<kind>ensures|requires)\s*(?P<name>\w*)\s*\{")
DEFINITION = re.compile(r"(?:abbrev pub|unfoldable pub|pub record|pub data) (?P<name>\S+)")
OUTSIDE = re.compile(r"--|use |pub use |pub mod |mod |module |$")

# a text with each kind of function: clauses() must find the clauses of the three public ones alone
SAMPLE = """pub extern "C" fn exported(state: &State) -> u32
    ensures { result ≡ 0 }
{
}
pub(crate) fn private() -> u32
    ensures { result ≡ 1 }
{
}
impl Core {
    pub fn step(&self) -> u32
        requires small { self.0 < 3 }
    {
    }
    fn helper(&self)
        ensures { ⊤ }
    {
    }
}
trait Page {
    fn write(&self)
        ensures whole { ⊤ }
}
"""
FOUND = [("c::exported", "ensures", "", "{result≡0}"), ("c::Core::step", "requires", "small", "{self.0<3}"), ("c::Page::write", "ensures", "whole", "{⊤}")]


def files(commit):
    """Returns the names and texts of the code and of the definitions at a commit, or as they are."""
    if not commit:
        for path in sorted(it for pattern in ("src/**/*.rt", "specs/**/*.antt") for it in ROOT.glob(f"crates/*/{pattern}")):
            yield str(path.relative_to(ROOT)), path.read_text()
        return
    names = subprocess.run(["git", "ls-tree", "-r", "--name-only", commit, "crates"], cwd=ROOT, check=True, capture_output=True, text=True).stdout.split()
    for name in names:
        if re.match(r"crates/\w+/(?:src/.*\.rt|specs/.*\.antt)$", name):
            yield name, subprocess.run(["git", "show", f"{commit}:{name}"], cwd=ROOT, check=True, capture_output=True, text=True).stdout


def clauses(text, crate):
    """Returns the clauses of the public functions and trait functions of a file: (function, kind, clause's name, text)."""
    owner, inside_trait, function = "", False, None
    lines = text.splitlines()
    at = 0
    while at < len(lines):
        line = lines[at]
        if found := CLAUSE.match(line):
            body, depth = line[found.end() - 1:], line[found.end() - 1:].count("{") - line[found.end() - 1:].count("}")
            while depth > 0:
                at += 1
                body += " " + lines[at].strip()
                depth += lines[at].count("{") - lines[at].count("}")
            if function:
                yield f"{crate}::{function}", found["kind"], found["name"], re.sub(r"\s+", "", body)
        elif head := FUNCTION.match(line):
            function = f"{owner}{head['name']}" if head["public"] == "pub " or inside_trait else None
        elif head := OWNER.match(line):
            owner, inside_trait = f"{head['trait'] or head['type']}::", bool(head["trait"])
        elif line.startswith("}"):
            owner, inside_trait, function = "", False, None
        at += 1


def definitions(text, crate):
    """Returns the public definitions of a file: (crate and name, text)."""
    name, body = None, ""
    for line in [*text.splitlines(), ""]:
        head = DEFINITION.match(line)
        if head or OUTSIDE.match(line) and not line.startswith(" "):
            if name:
                yield f"{crate}::{name}", body
            name, body = head["name"] if head else None, ""
        if name:
            body += re.sub(r"\s+", "", line.partition(" -- ")[0])


def promises(commit, renames=()):
    """Returns the clauses, counted, and the texts of each definition, in their order."""
    found, defined = Counter(), {}
    for name, text in files(commit):
        for old, new in renames:
            text = re.sub(rf"\b{re.escape(old)}\b", new, text)
        crate = name.split("/")[1]
        if name.endswith(".rt"):
            found.update(clauses(text, crate))
        else:
            for key, body in definitions(text, crate):
                defined.setdefault(key, []).append(body)
    return found, {key: sorted(bodies) for key, bodies in defined.items()}


def main():
    words = argparse.ArgumentParser(usage=__doc__.split("usage: ")[1])
    words.add_argument("before")
    words.add_argument("after", nargs="?")
    words.add_argument("--rename", action="append", default=[])
    given = words.parse_args()
    if list(clauses(SAMPLE, "c")) != FOUND:
        sys.exit(f"tests/clauses.py misreads its sample: {list(clauses(SAMPLE, 'c'))}")
    before, defined = promises(given.before, [it.split("=", 1) for it in given.rename])
    after, defined_after = promises(given.after)
    for sign, only in (("-", before - after), ("+", after - before)):
        for function, kind, name, text in sorted(only):
            print(f"{sign} {function}: {kind} {name} {text}")
    gone = sorted(defined.keys() - defined_after.keys())
    other = sorted(key for key in defined.keys() & defined_after.keys() if defined[key] != defined_after[key])
    for key in gone:
        print(f"- definition {key}")
    for key in other:
        print(f"~ definition {key}")
    asked = {it[0] for it in (after - before) if it[1] == "requires"} & {it[0] for it in before}
    print(f"{sum(before.values())} clauses before, {sum(after.values())} after; {sum((before - after).values())} only before, "
          f"{sum((after - before).values())} only after; functions of both with a new requires: {len(asked)}; {len(defined)} definitions before, "
          f"{len(defined_after)} after: {len(gone)} gone, {len(other)} read otherwise")
    return int(bool(before - after or asked or gone or other))


if __name__ == "__main__":
    sys.exit(main())
