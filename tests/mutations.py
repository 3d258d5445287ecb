#!/usr/bin/env python3
"""Tries the mutations of crates/NAME/mutations.txt: wrong code that the prover must reject. The file has a block for each mutation, with a blank
line between blocks: `name: NAME`, then `file: PATH` of the crate, and pairs of lines `old: TEXT` and `new: TEXT`, one replacement each. The line
`check: FUNCTION` names a function to check in place of the changed one, if only a caller rejects the mutation.

Mutations of a crate that change different functions are made in one copy of the crate, and one check judges each function: some seconds each, without
the time to load a crate. The others are tried alone: a mutation outside functions, or one whose functions are still proved; then the whole crate is
checked, or the functions of its `check:` lines. The checks of a crate reuse proofs of unchanged functions; those of an expensive one are divided among
the jobs. The last line gives the number of rejected mutations and the time. The exit status is 1 if a mutation was not rejected.

With --share, a part of the gate after `rt ci` whose libraries it uses, it tries one fortieth, chosen by the day of the commit; the shares cost about
the same. So 40 days try all, and the same commit tries the same mutations. A mutation that needs a check of a whole crate that is not small is
reported as NOT RUN.

With --read, nothing is proved: it names each mutation that the prover can't read, for example because a type changed. Such a mutation fails the gate
on the day of its share.

With --changed, it tries those of files that differ from the last commit.

usage: tests/mutations.py [--jobs N] [--read] [--changed] [CRATE | CRATE/NAME ..]   such as pie_book, or pie_book/departs_half; all by default
       tests/mutations.py [--jobs N] --share [DAY]                       DAY: a number of days, in place of the commit's day"""
import argparse
import functools
import os
import re
import resource
import shutil
import signal
import subprocess
import sys
import tempfile
import time
from concurrent.futures import ThreadPoolExecutor
from pathlib import Path

ROOT = Path(__file__).resolve().parent.parent
ME = "tests/mutations.py"
SHARES, DAY = 40, 24 * 60 * 60
# The cost of a check in seconds of a processor: to load the crate's dependencies, to prove a line of the functions
# that it reaches, and to judge a mutation; more in crates in which most searches run long before they fail.
LOADING, LINE_PROVED, EDIT, DEAR = 13, 0.08, 2.5, {"pie_link": 6, "pie_book": 4}
# A crate with at most this many lines of functions is small: in a share it is checked whole if a mutation needs
# that.
SMALL = 400
# The greatest cost of the batches of one crate that stay together in one share, unless a single batch costs more.
TOGETHER = 170
# The greatest number of mutations in one copy, halved for expensive crates: a check keeps all its results in memory.
MOST = 16
PARTS = ("src", "specs", "proofs")
# A line of crates.txt: a crate, its kind, and its dependencies.
LINE = re.compile(r"(\w+)([\w= +]*):([^#]*)")
FUNCTION = re.compile(r"( *)(?:pub(?:\(\w+\))? )?(?:unsafe )?(?:extern \"C\" )?fn (\w+)")
CALLED = re.compile(r"\b(\w+)(?:::<[^()]*>)?\(")
# The prover's messages at a limit of its own, and for a text that it cannot read.
LIMIT = re.compile(r"antt ran out of|outgrew the memory limit|stopped at the step limit")
UNREAD = re.compile(r"error\[[\w-]+\]|error: rattle does not read|src/\S+: error: (?!`)|(is not in scope|is no name|operand is missing|expected the end|cannot continue)")
# A rejection without meaning: a proof file uses a name that the edit removed.
NAMES = re.compile(r"(note: )?(\./)?proofs/.*(has no field|is not in scope|has no `|was not admitted)")


def crates():
    """Returns the dependencies of each crate of the repository by its name, and True if it is a static library."""
    lines = (LINE.match(line) for line in (ROOT / "crates.txt").read_text().splitlines())
    return {line[1]: (line[3].split(), "staticlib" in line[2]) for line in lines if line}


CRATES = crates()


def below(name):
    """Returns the repository's crates on which this one depends, each after its own dependencies."""
    found = []
    for it in CRATES[name][0]:
        if it in CRATES:
            found += [other for other in [*below(it), it] if other not in found]
    return found


def library(name):
    return ROOT / "crates" / name / "out/rlib" / f"{name}.rlib"


@functools.cache
def is_built(name):
    """Returns true if a crate's library exists and is newer than its files: `rt ci` restores the earlier content of
    out/."""
    files = (path for part in PARTS for path in (ROOT / "crates" / name / part).rglob("*") if path.is_file())
    return library(name).is_dir() and all(path.stat().st_mtime <= library(name).stat().st_mtime for path in files)


class Mutation:
    def __init__(self, crate, name, lines):
        self.lines, self.crate, self.folder = lines, crate, ROOT / "crates" / crate
        self.name = f"{crate}/{name}"
        self.functions, self.checked, texts = [], [], {}
        for file, old, new in self.steps():
            text = texts.get(file) or (self.folder / file).read_text()
            if text.count(old) != 1:
                sys.exit(f"{ME}: {self.name}: this text does not occur exactly once in {file}: {old.strip()}")
            self.functions.append(function_at(file, text, text.index(old)))
            texts[file] = text.replace(old, new)

    def steps(self):
        file = old = None
        for line in self.lines:
            word, _, text = line.partition(": ")
            if word == "file":
                file = text.strip()
            elif word == "old":
                old = text
            elif word == "check":
                self.checked.append(text.strip())
            elif line.startswith("new:"):
                yield file, old, text

    def goals(self):
        """Returns the functions that must be rejected, or nothing if the whole crate has to be
        checked."""
        known = self.checked or self.functions
        return [] if None in known else sorted(set(known))

    def has_libraries(self):
        return all(is_built(it) for it in below(self.crate))


def type_of(text):
    """Returns the name of a type or a trait, without its path and parameters."""
    return re.match(r"[&\s]*((?:\w+::)*)(\w+)", text)[2]


def implemented(header):
    """Returns the prover's name of a block of methods: its type, followed by the trait's name if it has one."""
    text, depth = header.removeprefix("impl").strip(), 0
    for at, letter in enumerate(text) if text.startswith("<") else ():
        depth += (letter == "<") - (letter == ">" and text[at - 1] != "-")
        if not depth:
            text = text[at + 1 :]
            break
    first, _, second = text.partition(" for ")
    return type_of(second) + type_of(first) if second else type_of(first)


def function_at(file, text, at):
    """Returns the function at this place of a file by the prover's name; None outside functions and outside src/."""
    lines = text[:at].split("\n")
    lines[-1] = text[text.rfind("\n", 0, at) + 1 :].partition("\n")[0]
    inside = None
    for number in range(len(lines) - 1, -1, -1):
        line = lines[number]
        if line.startswith("}") and number < len(lines) - 1:
            return None
        found = FUNCTION.match(line)
        if found and not inside:
            inside = found[2]
            if not found[1]:
                break
        if line.startswith("impl") and inside:
            inside = f"{implemented(' '.join(text.split(chr(10))[number : number + 6]).partition('{')[0])}::{inside}"
            break
    if not inside or not file.startswith("src/"):
        return None
    module = file.removeprefix("src/").removesuffix(".rt").replace("/", "::")
    # (a method is named by its type, which may be in another module)
    return inside if "::" in inside or module in ("lib", "main") else f"{module}::{inside}"


@functools.cache
def functions_of(crate):
    """Returns the number of lines of each function of a crate by its last name, and the names that it calls."""
    found = {}
    for path in (ROOT / "crates" / crate / "src").rglob("*.rt"):
        lines = path.read_text().splitlines()
        for at, line in enumerate(lines):
            begun = FUNCTION.match(line)
            if begun:
                text = lines[at : next((it for it in range(at, len(lines)) if lines[it] == begun[1] + "}"), at) + 1]
                count, known = found.get(begun[2], (0, set()))
                found[begun[2]] = count + len(text), known | {*CALLED.findall(" ".join(text[1:]))}
    return found


def lines_reached(crate, functions=None):
    """Estimates the number of lines of the functions that a check of these proves, with all that they call in their crate; without functions, of the
    whole crate."""
    known, found = functions_of(crate), set()
    wanted = list(known) if functions is None else [it.rpartition("::")[2] for it in functions]
    while wanted:
        name = wanted.pop()
        if name in known and name not in found:
            found.add(name)
            wanted += known[name][1]
    return sum(known[it][0] for it in found)


def words(kit, crate, functions):
    """Returns the prover's arguments that check these functions of a crate, or without functions all of it."""
    stands, is_static = CRATES[crate]
    top = "src/main.rt" if (ROOT / "crates" / crate / "src/main.rt").is_file() else "src/lib.rt"
    found = [kit / "bin/rattle", "check", "--crate-name", crate, top, "--jobs", "1"]
    for it in ["std", *stands]:
        found += ["--extern", f"{it}={library(it) if it in CRATES else kit / f'rlibs/{it}.rlib'}"]
    for folder in [kit / "rlibs", *[library(it).parent for it in below(crate)]]:
        found += ["-L", f"dependency={folder}"]
    found += ["--antt-project", kit / "rattle/logic/antt-project.json", "--logic-built", kit / "logic_built"]
    found += ["--crate-type", "staticlib"] if is_static else []
    for it in functions:
        found += ["--only", it]
    return found


def put(mutation, texts):
    """Returns these texts of the crate's files with a mutation applied; None if one of its texts does not occur
    exactly once."""
    texts = dict(texts)
    for file, old, new in mutation.steps():
        text = texts.get(file) or (mutation.folder / file).read_text()
        if text.count(old) != 1:
            return None
        texts[file] = text.replace(old, new)
    return texts


def checked(kit, kept, mutations, functions):
    """Returns the prover's answer for a copy of the crate with these mutations. kept: a folder for its proofs, or
    None."""
    texts = {}
    for it in mutations:
        texts = put(it, texts)
    with tempfile.TemporaryDirectory(prefix="pie-mutation-") as room:
        for part in PARTS:
            if (mutations[0].folder / part).is_dir():
                shutil.copytree(mutations[0].folder / part, Path(room, part))
        for file, text in texts.items():
            Path(room, file).write_text(text)
        asked = [*words(kit, mutations[0].crate, functions), *(["--incremental", kept] if kept else [])]
        run = lambda: subprocess.run(asked, cwd=room, stdin=subprocess.DEVNULL, stdout=subprocess.PIPE, stderr=subprocess.STDOUT, errors="replace",
            check=False)
        done = run()
        # most likely for memory
        return run() if done.returncode == -signal.SIGKILL else done


def judged(done):
    """Returns True if the prover rejected the copy, and a message; None if the copy is still proved."""
    lines = done.stdout.rstrip("\n").split("\n")
    # (no function has this name, or several have it)
    if done.returncode == 0 or done.returncode == 2 and "has no function" in done.stdout or "fits several" in done.stdout:
        return None
    told = [line for line in lines if re.match(r"(note: )?\S+:\d+:\d+:", line) and (": error" in line or line.startswith("note: "))]
    first = next((line for line in told if not NAMES.match(line)), "")
    if done.returncode == 3 and LIMIT.search(done.stdout):
        return True, "refused by a limit of the prover alone"
    if done.returncode != 1 or not re.match(r"only=\d+ proved=|logic=not-proved", lines[-1]):
        return False, "NOT TRIED: " + "\n".join(["the prover gave no verdict", *lines[-6:]])
    cause = next((line for line in lines if re.match(r"(\./)?(src|specs)/|.*: error: rattle does", line) and UNREAD.search(line)), "")
    if cause:
        return False, f"BAD EDIT: the prover can't read it: {cause[:200]}"
    only = " (only because a proof file names what the edit took away)" if told and not first else ""
    return True, f"refused{only}{': ' if first else ''}{first[:140]}"


def tried_alone(kit, kept, mutation, is_share):
    """Returns True if the prover rejects a mutation, and a message."""
    found = judged(checked(kit, kept, [mutation], mutation.goals())) if mutation.goals() else None
    if found is None and is_share and lines_reached(mutation.crate) > SMALL:
        return None, "NOT RUN: it wants its whole crate checked"
    found = found or judged(checked(kit, kept, [mutation], []))
    return found or (False, "NOT REFUSED: the crate is still proved with it")


def verdicts(done):
    """Returns the verdict of one check for each function, by its whole name; empty if the check ended without a
    verdict."""
    if done.returncode != 1 or not re.match(r"only=\d+ proved=", done.stdout.rstrip("\n").rpartition("\n")[2]):
        return {}
    return dict(re.findall(r"^fn (\S+): (proved|not proved|no proof)", done.stdout, re.MULTILINE))


def tried(kit, kept, batch, is_share):
    """Returns, for each mutation of a batch, if the prover rejects it, and a message."""
    told = {}
    if len(batch) > 1:
        found = verdicts(checked(kit, kept, batch, goals_of(batch)))
        for it in batch:
            said = [verdict for name in it.goals() for whole, verdict in found.items() if f"::{whole}".endswith(f"::{name}")]
            if len(said) == len(it.goals()) and any(verdict != "proved" for verdict in said):
                told[it] = True, "refused"
        if not found:
            # (one of them stops the check before any proof)
            half = len(batch) // 2
            return [*tried(kit, kept, batch[:half], is_share), *tried(kit, kept, batch[half:], is_share)]
    return [(it, *(told.get(it) or tried_alone(kit, kept, it, is_share))) for it in batch]


def tried_in_turn(kit, groups, is_share):
    """Returns the results of each mutation of these batches of one crate."""
    with tempfile.TemporaryDirectory(prefix="pie-mutation-kept-") as kept:
        return [said for batch in groups for said in tried(kit, kept if len(groups) > 1 else None, batch, is_share)]


def unread(kit, batch):
    """Returns each mutation of a batch that the prover can't read, and its message."""
    done = checked(kit, None, batch, [""])
    if done.returncode == 0:
        return []
    if len(batch) == 1:
        return [(batch[0].name, next((line for line in done.stdout.splitlines() if UNREAD.search(line)), done.stdout[-200:]))]
    half = len(batch) // 2
    return [*unread(kit, batch[:half]), *unread(kit, batch[half:])]


def goals_of(batch):
    return sorted({name for it in batch for name in it.goals()})


def most(crate):
    return MOST // 2 if crate in DEAR else MOST


def batches(mutations):
    """Groups the mutations so that one check can judge a group: of one crate, and no two of a group change the same function."""
    found = []
    for it in mutations:
        for group in found if it.goals() else ():
            texts, names = group["texts"], {*group["names"]}
            if it.crate == group["crate"] and len(group["all"]) < most(it.crate) and not names & {*it.goals(), *it.functions} and put(it, texts):
                group["all"].append(it)
                group["names"] += [*it.goals(), *it.functions]
                group["texts"] = put(it, texts)
                break
        else:
            is_open = bool(it.goals()) and None not in it.functions
            found.append({"crate": it.crate if is_open else "", "all": [it], "names": [*it.goals(), *it.functions], "texts": put(it, {})})
    return [group["all"] for group in found]


def blocks(text):
    """Returns the blocks of a file of mutations: the name of each, and its other lines."""
    for block in text.split("\n\n"):
        first, *rest = [line for line in block.strip("\n").split("\n") if not line.startswith("#")] or [""]
        if first:
            yield first.removeprefix("name: "), rest


def named(wanted):
    """Returns the mutations of these names, or all if no name is given, in the order of their names."""
    every = {
        f"{path.parent.name}/{name}": (path.parent.name, name, lines)
        for path in ROOT.glob("crates/*/mutations.txt")
        for name, lines in blocks(path.read_text())
    }
    is_in = lambda place, word: word in (place, place.partition("/")[0])
    missing = [word for word in wanted if not any(is_in(place, word) for place in every)]
    if missing:
        sys.exit(f"{ME}: there is no mutation {', '.join(missing)}")
    return [Mutation(*every[place]) for place in sorted(every) if not wanted or any(is_in(place, word) for word in wanted)]


def cost(groups):
    """Estimates the seconds of a processor to try these batches of one crate, one after another."""
    crate, is_whole = groups[0][0].crate, any(not it.goals() for batch in groups for it in batch)
    names = None if is_whole else {name for it in groups for name in goals_of(it)}
    return sum(LOADING + DEAR.get(crate, EDIT) * len(it) for it in groups) + LINE_PROVED * lines_reached(crate, names)


def by_crate(groups, limit=None):
    """Returns the batches of each crate. With a limit, batches are split such that no part costs
    more, unless a single mutation does."""
    found = []
    for batch in sorted(groups, key=lambda it: it[0].crate):
        if found and found[-1][0][0].crate == batch[0].crate and (limit is None or cost([*found[-1], batch]) <= limit):
            found[-1].append(batch)
        else:
            found.append([batch])
    return sorted(found, key=lambda it: (-cost(it), it[0][0].name))


def shared(groups):
    """Returns the batches in one share for each day, all of about the same cost; those of one crate stay together."""
    shares = [[] for _ in range(SHARES)]
    for part in by_crate(groups, TOGETHER):
        min(shares, key=lambda it: sum(map(cost, it))).append(part)
    return shares


def changed_files():
    """Returns the files that differ from the last commit."""
    ran = subprocess.run(["git", "-C", ROOT, "diff", "--name-only", "HEAD"], stdout=subprocess.PIPE, text=True, check=True)
    return {ROOT / name for name in ran.stdout.split()}


def commit_day():
    ran = subprocess.run(["git", "-C", ROOT, "log", "-1", "--format=%ct"], stdout=subprocess.PIPE, stderr=subprocess.DEVNULL, check=False)
    return int(ran.stdout) // DAY if ran.returncode == 0 else None


def build_below(mutations):
    """Builds the libraries on which these depend, if they have changed."""
    for crate in sorted({it.crate for it in mutations}):
        if subprocess.run(["rt", "check", "--only", ""], cwd=ROOT / "crates" / crate, stdout=subprocess.DEVNULL, check=False).returncode:
            sys.exit(f"{ME}: rt check --only '' fails in crates/{crate}")


def seconds():
    used = resource.getrusage(resource.RUSAGE_CHILDREN)
    return used.ru_utime + used.ru_stime


def main():
    parser = argparse.ArgumentParser(usage=__doc__.split("usage: ")[1])
    parser.add_argument("--jobs", type=int, default=os.cpu_count())
    parser.add_argument("--share", type=int, nargs="?", const=-1)
    parser.add_argument("--read", action="store_true")
    parser.add_argument("--changed", action="store_true")
    parser.add_argument("names", nargs="*")
    given = parser.parse_args()
    rt = shutil.which("rt")
    mutations = named(given.names)
    if given.changed:
        files = changed_files()
        mutations = [it for it in mutations if files & {it.folder / file for file, _, _ in it.steps()}]
        if not mutations:
            print(f"{ME}: no mutation changes a file that differs from the last commit")
            return 0
    if given.share is not None:
        day = commit_day() if given.share < 0 else given.share
        share = shared(batches(mutations))[day % SHARES] if day is not None else []
        parts = [it for it in share if it[0][0].has_libraries()]
        if not rt or not parts:
            print(f"NOT RUN: {ME}: a share of the mutations, without rt, the commit's date or the libraries of rt ci")
            return 0
        every, here = (sum(len(batch) for part in it for batch in part) for it in (share, parts))
        print(f"{ME}: day {day}, so share {day % SHARES} of {SHARES}: {every}, of which {here} have their libraries here", flush=True)
    elif not rt:
        sys.exit(f"{ME}: there is no rt")
    else:
        build_below(mutations)
        groups = batches(mutations)
        parts = by_crate(groups, max(TOGETHER / 4, sum(map(cost, by_crate(groups))) / max(given.jobs, 1)))
    kit, begun, used, counts = Path(rt).resolve().parent.parent, time.monotonic(), seconds(), {True: 0, False: 0, None: 0}
    if given.read and given.share is None:
        with ThreadPoolExecutor(max(given.jobs, 1)) as pool:
            found = [it for part in pool.map(lambda it: unread(kit, it), batches(mutations)) for it in part]
        for name, text in found:
            print(f"{ME}: {name}: BAD EDIT: {text}")
        print(f"{ME}: {len(mutations)} mutations, of which the prover can't read {len(found)}")
        return int(bool(found))
    with ThreadPoolExecutor(max(given.jobs, 1)) as pool:
        for found in pool.map(lambda it: tried_in_turn(kit, it, given.share is not None), parts):
            for it, is_refused, text in found:
                counts[is_refused] += 1
                print(f"{'NOT RUN: ' if is_refused is None else ''}{ME}: {it.name}: {text}", flush=True)
    took, spent = time.monotonic() - begun, seconds() - used
    print(f"{ME}: {counts[True]} refused, {counts[False]} not, {counts[None]} not tried, in {took:.0f} s and {spent:.0f} processor seconds")
    return int(counts[False] > 0 or not counts[True])


sys.exit(main())
