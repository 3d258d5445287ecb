"""Shared by the Python scripts: ROOT is the repository, NAME the script's name. `check` prints each failure, and
`finish` their number; `expect` ends the script at the first failure."""
import atexit
import os
import shutil
import subprocess
import sys
import tempfile
from pathlib import Path

sys.dont_write_bytecode = True
ROOT = Path(__file__).resolve().parents[2]
NAME = Path(sys.argv[0]).resolve().relative_to(ROOT)

failures = []


def program():
    """Returns the program under test: the first argument, or the program that the repository built."""
    return str(Path(sys.argv[1] if sys.argv[1:] else ROOT / "crates/pie/out/pie").resolve())


def rows():
    """Writes the files of tests/rows to a folder that is removed when the script ends, and returns the folder."""
    folder = tempfile.TemporaryDirectory()
    atexit.register(folder.cleanup)
    subprocess.run([ROOT / "tests/shared/rows.sh", folder.name], check=True)
    return Path(folder.name)


def refusing(folder, what):
    """Compiles refuse.c in this folder. Without a compiler returns nothing and prints that no request failed for
    these."""
    compiler = shutil.which(os.environ.get("CC", "cc"))
    if not compiler:
        print(f"NOT RUN: {NAME}: no C compiler here, so no request for {what} was refused")
        return None
    library = f"{folder}/refuse.so"
    subprocess.run([compiler, "-O2", "-Wall", "-Werror", "-shared", "-fPIC", "-o", library, ROOT / "tests/shared/refuse.c"], check=True)
    return library


def with_selenium():
    """Runs the script again by Debian's own Python, for which its python3-selenium is, if this one lacks it."""
    own = "/usr/bin/python3"
    missing = subprocess.run([sys.executable, "-c", "import selenium"], capture_output=True, check=False).returncode
    if missing and os.path.realpath(sys.executable) != os.path.realpath(own) and os.path.exists(own) and "OWN_PYTHON" not in os.environ:
        os.execve(own, [own, *sys.argv], {**os.environ, "OWN_PYTHON": own})


def lower_crates():
    """Returns all crates on which each crate of crates.txt depends."""
    lines = [line.partition("#")[0] for line in (ROOT / "crates.txt").read_text().splitlines()]
    below = {line.partition(":")[0].split()[0]: set(line.partition(":")[2].split()) for line in lines if ":" in line}
    for crate in below:
        while more := {lower for it in below[crate] for lower in below.get(it, ())} - below[crate]:
            below[crate] |= more
    return below


def check(holds, *what):
    if not holds:
        failures.append(what)
        print(f"{NAME}:", *what)


def finish():
    print(f"{NAME}: {len(failures)} failed")
    sys.exit(1 if failures else 0)


def expect(what, got, want):
    if got != want:
        print(f"{NAME}: {what}:")
        for name, text in (("wanted", want), ("got", got)):
            print(f"  {name}: {text!r}"[:2000])
        sys.exit(1)
