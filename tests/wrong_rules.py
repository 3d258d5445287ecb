#!/usr/bin/env python3
"""Shows that the laws of pie_guarantees are not a copy of the rules. Each wrong rule of
crates/pie_guarantees/wrong_rules.txt replaces the right definition. The prover must then reject a lemma on which
the law depends, and accept this lemma with the right definition in the same place.

The file has a block for each rule, with a blank line between blocks. The lines of a block are:
  name:         the name of the rule
  law:          a function that the rule violates; once or more often
  file:         the file of the definition
  old:, new:    texts of one line
  spec:         files of definitions that are copied together with these and the steps of a command

One check tries all rules. It checks a crate that contains, for each rule and for each right definition, copies of
these definitions, of the lemmas on which the law depends, and of the parts of pie_guarantees that they use. No other
crate is checked again, and dependencies are loaded once. Run it after a change to a law: forty rules take about four
minutes of a processor.

usage: tests/wrong_rules.py [RULE ..]      such as picks_from_a_half_on; all by default
needs: rt, and what `rt check` kept of the crates below pie_guarantees
"""
import re
import shutil
import subprocess
import sys
import tempfile
from pathlib import Path

ROOT = Path(__file__).resolve().parent.parent
LAWS = ROOT / "crates/pie_guarantees"
RULES = LAWS / "wrong_rules.txt"
# the definitions of a command's effect, which are copied for each rule
STEPS = [ROOT / "crates" / path for path in ("pie_aqm/specs/Steps.antt", "pie_aqm/specs/Calls.antt", "pie_book/specs/Decision.antt", "pie_book/specs/Core.antt")]
OWN = re.compile(r"Rattle\.pie_guarantees\.(specs|proofs)\.(\w+)")
REFUSED = re.compile(r"^\./proofs/([A-Z]\d+)Guarantees(\w+)\.antt:\d+:\d+: error: `([^`]+)`", re.M)
DEFINED = re.compile(r"^(?:abbrev |unfoldable )?pub (?:record |data )?(\S+)", re.M)
PASSED_ON = re.compile(r"^(?:unfoldable )?pub use .*\{(.*)\}", re.M)
GLOB = re.compile(r"^(.*)\buse Rattle\.pie_guarantees\.specs\.\{(.*)\}", re.M)
DATA = re.compile(r"^pub data (\w+) : Type 0 where\n((?:  .*\n)+)", re.M)
NOT_COPIED = ("pie_audit", "pie_record", "pie_link", "pie_lock", "atomic_table")
LEMMA = re.compile(r"^ *(?:abbrev )?(?:pub )?([^\s(){}]+) : ", re.M)


def read_rules():
    """Returns each rule by its name: its laws, the copied files and the replacements."""
    rules = {}
    for block in RULES.read_text().strip("\n").split("\n\n"):
        found = {"name": [], "law": [], "spec": [], "file": [], "old": [], "new": []}
        for line in block.split("\n"):
            word, _, text = line.partition(": ")
            found[word].append(text)
        rules[found["name"][0]] = found
    return rules


def below(lines):
    """Returns the lines of crates.txt of pie_guarantees and of the crates that its laws use, without audits and links, which one law each names."""
    found = {}
    for line in lines:
        head, colon, rest = line.partition(":")
        if colon and not line.startswith("#"):
            found[head.split()[0]] = rest.partition("#")[0].split()
    found["pie_guarantees"] = [name for name in found["pie_guarantees"] if name not in NOT_COPIED]
    names, todo = [], ["pie_guarantees"]
    while todo:
        name = todo.pop()
        if name in found and name not in names:
            names.append(name)
            todo += found[name]
    return {name: found[name] for name in found if name in names}


def used(path):
    """Returns the files of pie_guarantees that this one uses, and itself."""
    found, todo = [], [path]
    while todo:
        path = todo.pop()
        if path not in found and path.exists():
            found.append(path)
            todo += [LAWS / kind / f"{name}.antt" for kind, name in OWN.findall(path.read_text())]
    return found


def proof_of(law):
    """Returns the text that proves a law, and the files of pie_guarantees that the text uses: its answers, or the lemmas of its attribute."""
    found = list((LAWS / "proofs").glob(f"*/{law}/Answers.antt"))
    if found:
        return found[0].read_text(), [path for path in used(found[0]) if path != found[0]]
    for path in (LAWS / "src").glob("*.rt"):
        if using := re.search(rf"^#\[tactic\(auto, using\(([^)]*)\).*\npub fn {law}\b", path.read_text(), re.M):
            lemmas = re.findall(r"crate::proofs::(\w+)::(\w+)", using[1])
            files = [file for name, _ in lemmas for file in used(LAWS / "proofs" / f"{name}.antt")]
            return " ".join(lemma for _, lemma in lemmas), sorted(set(files))
    sys.exit(f"tests/wrong_rules.py: nothing proves {law}")


def rests_on(law):
    """Returns the lemmas on which a law depends, by the words of their proofs: each with its file."""
    texts = {}
    proof, files = proof_of(law)
    for path in files:
        starts = [*LEMMA.finditer(path.read_text())]
        for found, after in zip(starts, [*starts[1:], None]):
            texts.setdefault(found[1], []).append((path.stem, path.read_text()[found.end():after.start() if after else None]))
    names, todo = set(), [proof]
    while todo:
        new = {word for word in re.findall(r"[^\s(){},;.]+", todo.pop()) if word in texts} - names
        names |= new
        todo += [text for name in new for _, text in texts[name]]
    return {(file, name) for name in names for file, _ in texts[name]}


def split(found, own, places):
    """Returns a `use` of definitions of the crate as `use`s of the copies of the files that have them."""
    wanted = found[2].split(", ")
    by_file = {path: [name for name in wanted if name in names] for path, names in own.items()}
    return "\n".join(f"{found[1]}use Rattle.pie_guarantees.specs.{places[path][1]}.{{{', '.join(names)}}}" for path, names in by_file.items() if names)


def shared(original, found):
    """Returns a `use` of a type and its cases in place of their definition."""
    cases = [line.split()[0] for line in found[2].splitlines() if " : " in line]
    return f"pub use {original}.{{{', '.join([found[1], *cases])}}}\n"


class Crate:
    """A crate in the place of pie_guarantees, of such copies alone."""

    def __init__(self, folder):
        self.folder, self.modules = folder / "crates/pie_guarantees", {"specs": [], "proofs": []}
        crates = below((ROOT / "crates.txt").read_text().splitlines())
        (folder / "crates.txt").write_text("".join(f"{name}: {' '.join(rest)}\n" for name, rest in crates.items()))
        shutil.copy(ROOT / "HANDLES", folder)
        for name in crates:
            if name != "pie_guarantees":
                (folder / "crates").mkdir(exist_ok=True)
                subprocess.run(["cp", "-a", "--reflink=auto", ROOT / "crates" / name, folder / "crates"], check=True)
        for kind in ("src", *self.modules):
            (self.folder / kind).mkdir(parents=True)
        (self.folder / "src/lib.rt").write_text("//! Nothing but lemmas.\n#![tactic(auto)]\n\n/// Nothing.\npub fn nothing() {}\n")

    def put(self, mark, rule, is_wrong):
        """Writes the copies for a rule, changed or not, under names that begin with this mark."""
        texts = {path: path.read_text() for path in {*STEPS, *(ROOT / name for name in rule["spec"] + rule["file"])}}
        for path, old, new in zip(rule["file"], rule["old"], rule["new"]):
            if texts[ROOT / path].count(old) != 1:
                sys.exit(f"tests/wrong_rules.py: {path}: {texts[ROOT / path].count(old)} times: {old}")
            if is_wrong:
                texts[ROOT / path] = texts[ROOT / path].replace(old, new)
        texts |= {path: path.read_text() for law in rule["law"] for path in proof_of(law)[1]}
        own = {}
        for path in sorted((LAWS / "specs").glob("*.antt")):
            if path.stem != "Lib":
                texts[path] = path.read_text()
                passed_on = {name for names in PASSED_ON.findall(texts[path]) for name in names.split(", ")}
                own[path] = {name for name in DEFINED.findall(texts[path]) if name != "use"} | passed_on
        places = {}
        for path in texts:
            crate, kind, name = path.parts[-3], path.parts[-2], path.stem
            places[path] = (kind, f"{mark}{crate.removeprefix('pie_').capitalize()}{name}")
        for path, text in texts.items():
            for other, (kind, name) in places.items():
                old = f"Rattle.{other.parts[-3]}.{other.parts[-2]}.{other.stem}"
                text = re.sub(rf"\buse {re.escape(old)}(?=[. ])", f"use Rattle.pie_guarantees.{kind}.{name}", text)
            text = GLOB.sub(lambda found: split(found, own, places), text)
            # (pie_event and pie_aqm do not export the declarations of these types to other crates; pie_book does)
            text = text.replace("use Rattle.pie_event.specs.Event.", "use Rattle.pie_book.specs.Types.")
            text = re.sub(r"^(use Rattle\.pie_aqm\.specs\.Types\.\{.*), ArrivingPacket\b(.*)$",
                          r"\1\2\nuse Rattle.pie_aqm.specs.declared.verdict.ArrivingPacket.{ArrivingPacket}", text, flags=re.M)
            # the copies share the enumerations with the definitions that are not copied
            original = f"Rattle.{path.parts[-3]}.{path.parts[-2]}.{path.stem}"
            text = DATA.sub(lambda found: shared(original, found), text)
            kind, name = places[path]
            self.modules[kind].append(name)
            (self.folder / kind / f"{name}.antt").write_text(text)

    def refused(self):
        """Returns the lemmas that the check rejects in the copies of each mark, and its whole output."""
        for kind, names in self.modules.items():
            (self.folder / kind / "Lib.antt").write_text("".join(f"pub mod {name}\n" for name in names))
        done = subprocess.run(["rt", "check", "--allow-holes"], cwd=self.folder, capture_output=True, text=True, check=False)
        said = done.stdout + done.stderr
        found = {}
        for mark, file, lemma in REFUSED.findall(said):
            found.setdefault(mark, set()).add((file, lemma))
        return found, said


def main():
    known = read_rules()
    names = sys.argv[1:] or sorted(known)
    rules = [known[name] for name in names]
    with tempfile.TemporaryDirectory() as folder:
        crate, right = Crate(Path(folder)), {}
        for number, rule in enumerate(rules):
            crate.put(f"W{number}", rule, True)
            place = (*rule["spec"], *rule["file"], *rule["law"])
            if place not in right:
                right[place] = f"R{number}"
                crate.put(right[place], rule, False)
        refused, said = crate.refused()
    bad = 0
    for number, (name, rule) in enumerate(zip(names, rules)):
        new = refused.get(f"W{number}", set()) - refused.get(right[(*rule["spec"], *rule["file"], *rule["law"])], set())
        for law in rule["law"]:
            lemmas = sorted(new & rests_on(law))
            bad += not lemmas
            print(f"{name}: {law}: " + (f"`{lemmas[0][1]}` is rejected, as it must be" if lemmas else f"nothing is rejected: {sorted(new)}"), flush=True)
    if bad:
        print(said[-3000:])
    print(f"{bad} of {sum(len(rule['law']) for rule in rules)} are not rejected")
    sys.exit(bool(bad))


main()
