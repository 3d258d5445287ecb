"""Shared by the scripts over `pie explain`: histories, their records by `--all --csv`, and moments for --from and
--to.

Command line: [PROGRAM [FIRST_SEED [RUNS [STEPS]]]]"""
import csv
import io
import random
import subprocess
import sys
import tempfile
from pathlib import Path

from checks import NAME, ROOT, expect, program

PROGRAM = program()
FIRST, RUNS, STEPS = (int(word) for word in (sys.argv[2:5] + ["1", "12", "200"][len(sys.argv[2:5]) :]))
LOST = ("early", "bytes", "packets")


def pie(history, *words):
    done = subprocess.run([PROGRAM, "explain", *words], input=history, capture_output=True, check=False, encoding="utf-8")
    return done.returncode, done.stdout, done.stderr


def histories():
    """Returns the name and the text of each history of examples/, and of this many random ones by reference.py."""
    for path in sorted((ROOT / "examples").glob("*.history")):
        yield path.stem, path.read_text()
    with tempfile.TemporaryDirectory() as work:
        for seed in range(FIRST, FIRST + RUNS):
            trace, history = f"{work}/trace", f"{work}/history"
            subprocess.run([sys.executable, ROOT / "tests/shared/reference.py", trace, history, str(seed), str(STEPS)], check=True)
            yield f"seed {seed}", Path(history).read_text()


def records(name, history):
    """Returns the output of `pie explain --all --csv` for a history: its lines, and without the header row its records and their
    effective moments."""
    status, text, _ = pie(history, "--all", "--csv")
    expect(f"{name}: status of --all", status, 0)
    rows = list(csv.DictReader(io.StringIO(text)))
    return text.splitlines(keepends=True), rows, [int(row["effective_moment"]) for row in rows]


def millis(time):
    """Returns a time in the form of explanations."""
    return f"{time // 10**6}.{time % 10**6:06} ms"


def written(moment, words):
    """Returns a moment in one of its forms."""
    unit, places = words.choice((("", 0), ("ns", 0), ("us", 3), ("ms", 6), ("s", 9)))
    whole, rest = divmod(moment, 10**places)
    decimals = f"{rest:0{places}}".rstrip("0" if words.random() < 0.5 else "") if places and (rest or words.random() < 0.5) else ""
    return f"{whole}{'.' if decimals else ''}{decimals}{unit}"


def within(moments, words):
    """Yields all of these moments, and three times those between two: the options that select them, and for each moment true if it is selected."""
    yield [], [True] * len(moments)
    for _ in range(3):
        first, last = sorted((words.choice(moments), words.choice(moments) + words.randrange(3)))
        yield ["--from", written(first, words), f"--to={written(last, words)}"], [first <= moment <= last for moment in moments]


def hold_each(hold, says):
    """Calls `hold` for each history, with random words of the first seed, and prints `says`."""
    words = random.Random(FIRST)
    for name, history in histories():
        hold(name, history, words)
    print(f"{NAME}: {RUNS} random histories and those of examples/: {says}")
