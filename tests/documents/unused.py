#!/usr/bin/env python3
"""Reports what a library in crates/ offers to nobody: each `pub fn` that other crates can name (functions, methods and
exports for C), whose name no other crate, test, measure, binding or example uses; each public module that no other crate
names; and each item with two paths, because its module is public and the library re-exports it. A law, which does
nothing and takes nothing, has no caller; it is used if docs/PROMISES.md or docs/MODEL.md names it. The exit status is
1 if something is reported.

The script compares names. A function is called if a crate that depends on its own names it outside contracts; a
function of a type without `self` if the type stands before it; a method if a dot or its type does. The script
cannot distinguish two methods of one name, nor see whether the code that calls one is itself reached.

usage: tests/documents/unused.py
needs: nothing
"""
import os
import re
import sys

sys.path.insert(0, f"{os.path.dirname(os.path.abspath(__file__))}/../shared")
from checks import NAME, ROOT, lower_crates  # noqa: E402

FUNCTION = re.compile(r'^( *)pub (?:const )?(?:unsafe )?(extern "C" )?fn (\w+)')
OWNER = re.compile(r"^(?:unsafe )?(?:impl|pub trait|trait)\b(?:<[^{]*?>)? ?(?:[\w:<>', ]+ for )?(\w+)")
# contracts, comments, and imports for contracts or by a `use`
CLAUSE = re.compile(r"^ *(?:requires|ensures|invariant|ghost)\b|^ *(?:pub )?use ")
OUTSIDE = ("bench", "bindings", "examples", "include", "tests", "fleet", "report")
ENDINGS = {".c", ".h", ".cc", ".cpp", ".hpp", ".rs", ".py", ".sh"}


def blocks(line):
    """Returns the number of braces that a line opens, less those that it closes."""
    return line.count("{") - line.count("}")


def code_of(text):
    """Returns the lines of a source without its comments, contracts and imports."""
    kept, depth, within = [], 0, False
    for line in text.splitlines():
        line = line if '"' in line else line.partition("//")[0]
        if not within and CLAUSE.match(line):
            within, depth = True, 0
        if within:
            depth += blocks(line)
            within = depth > 0 or not line.rstrip().endswith((";", "}"))
            continue
        kept.append(line)
    return "\n".join(kept)


class Function:
    """A public function: its crate, its type, if any, and flags: it takes `self`; it is a law; it is for C."""

    def __init__(self, crate, owner, name, head, is_for_c):
        self.crate, self.owner, self.name, self.is_for_c = crate, owner, name, is_for_c
        taken = re.search(r"fn \w+(?:<[^(]*>)?\(([^)]*)", head)[1]
        self.is_method = re.match(r"\s*(?:&(?:'\w+ )?)?(?:mut )?self\b", taken) is not None
        self.is_law = not owner and not taken.strip() and "->" not in head
        own = rf"\b{owner}::(?:<[^(]*>::)?{name}\b"
        plain = rf"(?<![\w.])(?<!fn ){name}\b(?=\s*(?:\(|::<|,|\)))"
        self.call = re.compile(rf"\.{name}(?:::<|\()|{own}" if self.is_method else own if owner else plain)

    def title(self):
        return f"{self.crate}: {self.owner + '::' if self.owner else ''}{self.name}"


def named_outside(crate, texts):
    """Returns the functions and types of a crate that others can name: those of its public modules, and those that
    it re-exports."""
    root = texts[ROOT / "crates" / crate / "src/lib.rt"]
    modules = set(re.findall(r"^pub mod (\w+);", root, re.M))
    handed_on = {name for uses in re.findall(r"^pub use ([^;]*);", root, re.M) for name in re.findall(r"\w+", uses)}
    within = [text for path, text in texts.items() if path.relative_to(ROOT / "crates" / crate / "src").parts[0].removesuffix(".rt") in modules]
    return handed_on | {name for text in within for name in re.findall(r"^pub (?:struct|enum|trait|fn) (\w+)", text, re.M)}


def functions(crate):
    texts = {path: path.read_text() for path in sorted((ROOT / "crates" / crate / "src").rglob("*.rt"))}
    outside = named_outside(crate, texts)
    for text in texts.values():
        owner, lines = "", text.splitlines()
        for start, line in enumerate(lines):
            if found := OWNER.match(line):
                owner = found[1]
            elif line.startswith("}"):
                owner = ""
            if found := FUNCTION.match(line):
                end = next(n for n in range(start, len(lines)) if re.match(r"^ *(?:requires|ensures|\{)|.*\{(?:\})?$", lines[n]))
                head = " ".join(lines[start : end + 1]).partition(" ensures ")[0]
                it = Function(crate, owner if found[1] else "", found[3], head, bool(found[2]))
                if it.is_for_c or (it.owner or it.name) in outside:
                    yield it


def paths(crate, above):
    """Returns a line for each public module of a crate that no crate above names, and for each one with a
    re-exported item."""
    root = (ROOT / "crates" / crate / "src/lib.rt").read_text()
    for module in re.findall(r"^pub mod (\w+);", root, re.M):
        # (a law may have no caller)
        if module != "law" and not any(re.search(rf"\b{crate}::{module}::", text) for text in above):
            yield f"{crate}: no other crate names the public module {module}"
        if re.search(rf"^pub use {module}::", root, re.M):
            yield f"{crate}: items of the public module {module} have a second path"


def main():
    below = lower_crates()
    texts = {crate: [path.read_text() for path in (ROOT / "crates" / crate / "src").rglob("*.rt")] for crate in below}
    source = {crate: "\n".join(map(code_of, texts[crate])) for crate in below}
    whole = {crate: "\n".join(texts[crate]) for crate in below}
    outside = "\n".join(path.read_text() for folder in OUTSIDE for path in (ROOT / folder).rglob("*")
                        if path.suffix in ENDINGS and path.is_file() and path != ROOT / "include/pie.h")
    named = set(re.findall(r"`(?:\w+::)*(\w+)`", "".join((ROOT / page).read_text() for page in ("docs/PROMISES.md", "docs/MODEL.md"))))
    found, unused = 0, []
    for crate in below:
        # (a program has no public functions)
        if (ROOT / "crates" / crate / "src/main.rt").exists():
            continue
        above = [source[other] for other in below if crate in below[other]]
        unused += paths(crate, [whole[other] for other in below if crate in below[other]])
        for it in functions(crate):
            found += 1
            calls = [outside] if it.is_for_c else above
            if not (any(it.call.search(text) for text in calls) or it.is_law and it.name in named):
                unused.append(it.title())
    print("\n".join(unused) or f"{NAME}: each of {found} public functions is called, and each item has one path")
    sys.exit(bool(unused) or not found)


main()
