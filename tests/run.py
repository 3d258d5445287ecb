#!/usr/bin/env python3
"""Runs the scripts of tests/ and bindings/ concurrently, and prints the output and the time of each. The last line
has the numbers of passed and failed scripts. The exit status is 1 if one failed.

Each script lists its needs in its head, on a line `needs: WORD, WORD..`:
  nothing          nothing built: it runs before the proofs
  program          crates/pie/out/pie, which `rt run` in crates/pie builds and the gate leaves there
  CRATE            the program of that crate
  library          the static libraries of pie_c and pie_link_c, which are built first
  root             permission to make network namespaces; without it the script itself prints NOT RUN
  quiet            no other script at the same time: it runs last
  an early start   it takes longest
  a request        it runs only if it is named

usage: tests/run.py [--jobs N] [--unbuilt | --built | NAME..]
       NAME: a script by its path or its name, with or without its ending, or all of a folder: program, libraries, documents, bindings
       --jobs: the number of scripts that run at once, of those that need the library and of the others each; by default
       the number of processors
       --unbuilt: scripts that need nothing built; --built: the others; by default all that need no request"""
import argparse
import os
import re
import subprocess
import sys
import time
from concurrent.futures import ThreadPoolExecutor
from pathlib import Path

ROOT = Path(__file__).resolve().parent.parent
ME = "tests/run.py"
NEEDS = re.compile(r"^(?:# )?needs: ([\w, ]+?)(?:\"\"\")?$", re.M)
LIBRARY = ROOT / "bindings/c/library.py"
MARKS = {"nothing", "library", "root", "quiet", "an early start", "a request"}
# Other scripts wait for the library. Scripts that do not need it run at lower priority, so that it
# is built sooner.
ASIDE = ["nice", "-n", "5"]


class Script:
    def __init__(self, path):
        self.path, self.name = path, str(path.relative_to(ROOT))
        found = NEEDS.search(path.read_text()[:4000])
        self.needs = set(found[1].split(", ")) if found else set()

    def programs(self):
        """Returns the built programs that the script needs."""
        crates = ["pie" if need == "program" else need for need in sorted(self.needs - MARKS)]
        return [ROOT / "crates" / crate / "out" / crate for crate in crates]

    def is_called(self, word):
        place = Path(word).resolve()
        is_folder = word in self.path.relative_to(ROOT).parts[:2] or place in self.path.parents
        return word in (self.path.name, self.path.stem, self.name) or place == self.path or is_folder and "a request" not in self.needs


def scripts():
    """Returns every script of the folders of tests/, except tests/shared, and of bindings/; those
    with an early start come first. It is a mistake if a script of tests/ or a check.sh has no line
    `needs:`, or cannot be executed."""
    tests = [path for path in (ROOT / "tests").glob("*/*") if path.parent.name != "shared" and path.suffix in (".sh", ".py")]
    found = [Script(path) for path in sorted(tests)]
    bindings = [Script(path) for path in sorted((ROOT / "bindings").glob("*/*.sh"))]
    silent = [it.name for it in [*found, *bindings] if not it.needs and (it in found or it.path.name == "check.sh")]
    if silent:
        sys.exit(f"{ME}: no line `needs:` in the head of {', '.join(silent)}")
    found += [it for it in bindings if it.needs]
    closed = [it.name for it in found if not os.access(it.path, os.X_OK)]
    if closed:
        sys.exit(f"{ME}: not executable: {', '.join(closed)}")
    return sorted(found, key=lambda it: "an early start" not in it.needs)


def chosen(words):
    every = scripts()
    if words.names:
        missing = [name for name in words.names if not any(it.is_called(name) for it in every)]
        if missing:
            sys.exit(f"{ME}: there is no script {', '.join(missing)}")
        return [it for it in every if any(it.is_called(name) for name in words.names)]
    kept = [it for it in every if "a request" not in it.needs]
    return [it for it in kept if not (words.built and "nothing" in it.needs or words.unbuilt and "nothing" not in it.needs)]


def run(name, words):
    """Runs the script, prints its output and its time. Returns true if it passed."""
    begun = time.monotonic()
    done = subprocess.run(words, stdin=subprocess.DEVNULL, stdout=subprocess.PIPE, stderr=subprocess.STDOUT, check=False)
    passed = done.returncode == 0
    text = done.stdout.decode(errors="replace")
    ending = "" if text.endswith("\n") or not text else "\n"
    how = "" if passed else f": FAILED with status {done.returncode}"
    sys.stdout.write(f"{text}{ending}")
    sys.stdout.flush()
    print(f"{ME}: {name} took {time.monotonic() - begun:.0f} s{how}", file=sys.stderr, flush=True)
    return passed, text.count("\nNOT RUN") + text.startswith("NOT RUN")


def run_script(script, before=()):
    missing = [path for path in script.programs() if not path.exists()]
    if missing:
        print(f"{ME}: {script.name}: {missing[0].relative_to(ROOT)} is not built: FAILED", file=sys.stderr, flush=True)
        return False, 0
    return run(script.name, [*before, script.path])


def main():
    parser = argparse.ArgumentParser(usage=__doc__.split("usage: ")[1])
    parser.add_argument("--jobs", type=int, default=os.cpu_count())
    parser.add_argument("--built", action="store_true")
    parser.add_argument("--unbuilt", action="store_true")
    parser.add_argument("names", nargs="*")
    wanted = chosen(parser.parse_args())
    jobs = parser.parse_args().jobs
    aside = [it for it in wanted if "quiet" not in it.needs]
    ended = {}
    with ThreadPoolExecutor(max(jobs, 1)) as pool, ThreadPoolExecutor(max(jobs, 1)) as over_library:
        library = over_library.submit(run, "bindings/c/library.py", [LIBRARY]) if any("library" in it.needs for it in wanted) else None
        begun = {it: pool.submit(run_script, it, ASIDE if library else ()) for it in aside if "library" not in it.needs}
        if library and not library.result()[0]:
            ended |= {it: (False, 0) for it in wanted if "library" in it.needs}
        begun |= {it: over_library.submit(run_script, it) for it in aside if "library" in it.needs and it not in ended}
        ended |= {it: future.result() for it, future in begun.items()}
    for it in wanted:
        if it not in ended:
            ended[it] = run_script(it)
    failed = [it.name for it in wanted if not ended[it][0]]
    left = sum(count for _, count in ended.values())
    told = f", NOT RUN: {left}" if left else ""
    print(f"{ME}: {len(wanted) - len(failed)} scripts passed, {len(failed)} failed{told}{': ' if failed else ''}{', '.join(failed)}")
    sys.exit(1 if failed else 0)


main()
