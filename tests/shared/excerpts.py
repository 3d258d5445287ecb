"""Shared by scripts over excerpts: audits of many texts in one run, explanations compared with the whole's,
segments, texts with a change, and records of parameters out of their ranges."""
import re
import subprocess
import tempfile
from pathlib import Path

from running import PROGRAM, run


# the lines about an event that differs: its record, and the one that the rules give
RIGHT = re.compile(r"pie: [^:]+: (event \d+ (is recorded as|sets parameters) |the rules (give|allow) |pie explain --event \d+ )")


# the line about a joint at which two texts do not fit together
JOINT = re.compile(r"pie: (\d+): at the joint: (.*)")


def audited(texts, *words):
    """Returns the status of one run of `pie audit` over files, and the finding and the error of each of these
    texts."""
    return audited_with_joints(texts, *words)[:2]


def audited_with_joints(texts, *words):
    """Returns the status of one run of `pie audit` over files, the finding and the error of each of these texts, and
    the line about the joint before each text that has one, by its place."""
    with tempfile.TemporaryDirectory() as folder:
        for place, text in enumerate(texts):
            (Path(folder) / str(place)).write_bytes(text.encode())
        ran = subprocess.run([PROGRAM, "audit", *words, *map(str, range(len(texts)))], cwd=folder, capture_output=True, text=True, check=False)
        lines = [line.split(": ", 1) for line in ran.stdout.splitlines()]
        joints = [JOINT.fullmatch(line) for line in ran.stderr.splitlines()]
        told = dict(line.removeprefix("pie: ").split(": ", 1) for line in ran.stderr.splitlines() if not RIGHT.match(line) and not JOINT.match(line))
        found = {place: [what for name, what in lines if name == str(place)] for place in range(len(texts))}
        found = [(" ".join(found[place]), told.get(str(place), "")) for place in range(len(texts))]
        return ran.returncode, found, [(int(joint[1]), joint[2]) for joint in joints if joint]


def explained(text, *words):
    """Returns the status of `pie explain --csv` for a text, and its records, the first of which is the header."""
    status, output, _ = run(["explain", *words, "--csv"], text.encode())
    return status, [line.split(",") for line in output.decode().splitlines()]


def rows_within(whole, before, last, is_known=True):
    """Returns the records of a whole history's explanations that belong to an excerpt after this many events, up to
    the event with this number, without the header. If the excerpt does not contain the setter of the probability,
    that field is empty until an event of the excerpt sets it."""
    header, *records = whole
    setter = header.index("set_by")
    rows = [header]
    for record in records:
        if before < int(record[0]) <= last:
            is_told = is_known or record[setter] and int(record[setter]) > before
            rows.append(record if is_told else [*record[:setter], "", *record[setter + 1 :]])
    return rows


def segments_of(text):
    """Returns the texts that csplit makes of segments: each begins with a `resume` record."""
    parts = []
    for line in text.splitlines(keepends=True):
        if line.startswith("resume,"):
            parts.append("")
        parts[-1] += line
    return parts


def changed(text, chance):
    """Returns the text with one change, after which it is a text of records or not."""
    lines = text.splitlines(keepends=True)
    kind, place = chance.randrange(4), chance.randrange(len(lines))
    if kind == 0:
        at = chance.randrange(len(text))
        return text[:at] + chance.choice("0123456789,x") + text[at + 1 :]
    if kind == 1:
        return "".join(lines[:place] + lines[place + 1 :])
    if kind == 2:
        other = chance.randrange(len(lines))
        lines[place], lines[other] = lines[other], lines[place]
        return "".join(lines)
    fields = lines[0].rstrip("\n").split(",")
    at = chance.randrange(1, len(fields))
    fields[at] = chance.choice(["0", "1", "65536", str(2**64 - 1), str(2**64), "", str(chance.randrange(2**20))])
    return "".join([",".join(fields) + "\n", *lines[1:]])


def bad_params(moment, chance):
    """Returns a record that changes a parameter to a value out of its range at this moment: it can be read, and is
    an event that differs."""
    params = [15_000_000, 15_000_000, 150_000_000, 125, 1250, 1024, 262_144, 10**11, 16_384]
    place, wrong = chance.choice([(0, 1), (1, 0), (2, 10**12 + 1), (3, 10**6 + 1), (5, 0), (6, 2**30 + 1), (7, 2**64 - 1), (8, 1000)])
    params[place] = wrong
    return ",".join(map(str, ["params", chance.randrange(2**16), moment, *params, "done"])) + "\n"
