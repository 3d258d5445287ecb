"""The work on one history, on the machine that has it: it runs `pie audit` and `pie explain --summary --csv`, and does not read the history itself.
It uses only the standard library, so a worker needs only this file and `pie`."""
import glob
import os
import re
import shlex
import socket
import subprocess

STDIN = "/dev/stdin"

# The columns of a file before the summary's fields. `status` is that of `pie audit`: 0 clean, 2 differs, 1 otherwise. `finding` is clean, differs
# or fault, the finding of `pie`; or missing, unread or unreached, if there is no finding.
FOUND = ("clean", "differs", "fault")
KNOWN = ["link", "path", "host", "size", "changed", "status", "finding", "event", "note"]
WORDS = ["link", "path", "host", "finding", "note"]  # (the other columns have numbers)


def version_of(pie):
    """Returns the version of `pie` on this machine, or None."""
    try:
        done = _call([pie, "--version"])
    except OSError:
        return None
    return done.stdout.strip() if done.returncode == 0 else None


def fields_of(pie):
    """Returns the names of the summary's fields, as `pie` writes them for a history without events."""
    done = subprocess.run([pie, "explain", "--summary", "--csv"], capture_output=True, text=True, errors="replace", input="open,0,1,1,1\n")
    return done.stdout.split("\n")[0].split(",")


def host_and_version(pie):
    """Returns the name of this machine, and its version of `pie`."""
    return socket.gethostname(), version_of(pie)


def _stamp(path):
    known = os.stat(path)
    return known.st_size, known.st_mtime_ns


def _call(words, history=os.devnull):
    """Runs a program with a history as its standard input, because `pie` refuses a name that is no text. The words name it /dev/stdin, so that `pie`
    can read it again for the line and the field of a fault."""
    with open(history, "rb") as given:
        return subprocess.run(words, capture_output=True, text=True, errors="replace", stdin=given)


def row_of(link, path, host, known, pie):
    """Returns the row of one history: a dictionary of the fields of KNOWN and of the summary. If `known` is the size and modification time that the
    file still has, the row states only that it is unchanged."""
    row = {"link": link, "path": path, "host": host, "size": "", "changed": "", "status": 1, "finding": "", "event": "", "note": ""}
    try:
        size, changed = _stamp(path)
    except OSError as fault:
        return {**row, "finding": "missing", "note": fault.strerror}
    if known == (size, changed):
        return {"link": link, "same": True}
    row["size"], row["changed"] = size, changed
    try:
        audit = _call([pie, "audit", STDIN], path)
        summed = _call([pie, "explain", "--summary", "--csv", STDIN], path)
    except OSError as fault:
        return {**row, "finding": "unread", "note": fault.strerror if fault.filename == path else f"{pie}: {fault.strerror}"}
    found = re.fullmatch(rf"(?:{STDIN}: )?(clean|differs),(\d+)\n", audit.stdout)
    if found:
        row["status"] = audit.returncode
        row["finding"], row["event"] = found.groups()
    else:
        row["finding"], row["note"] = "unread" if audit.returncode < 0 else "fault", _reason(audit, path)
    lines = summed.stdout.split("\n")
    if len(lines) > 1 and lines[1]:
        row.update(zip(lines[0].split(","), lines[1].split(",")))
    elif not row["note"]:
        row.update(status=1, finding="unread", note=f"pie explain: {_reason(summed, path)}")
    try:
        if _stamp(path) != (size, changed):
            row.update(status=1, finding="unread", note="changed while it was read")
    except OSError:
        row.update(status=1, finding="unread", note="went away while it was read")
    return row


def _reason(ended, path):
    """Returns one line with the reason why `pie` failed: its lines about the file at `path`, without the file's name but with that in a command."""
    if ended.returncode < 0:
        return f"pie was ended by signal {-ended.returncode}"
    lines = [line.removeprefix("pie: ").removeprefix(f"{STDIN}: ") for line in ended.stderr.strip().split("\n") if line.startswith("pie: ")]
    lines = [re.sub(f" of {STDIN}(?=[,:])", "", line).replace(f"{STDIN} is", "it is").replace(STDIN, shlex.quote(path)) for line in lines]
    return "; ".join(lines) or ended.stderr.strip().split("\n")[0] or f"pie ended with {ended.returncode} and said nothing"


def rows_of(files, pie, wanted):
    """Yields the rows of some histories; `files` has the link, path, host and known row of each. If this machine's `pie` is not of the wanted version,
    it returns that version instead."""
    has = version_of(pie)
    if has != wanted:
        return f"{socket.gethostname()} has {has or f'no program {pie}'}"
    return [row_of(*each, pie) for each in files]


def expand(patterns):
    """Returns the files that the patterns match, each once, in order, with sizes; and the patterns without a match. A link to no file is one of them: it
    has a row of its own, and the size 0."""
    found, missing = {}, []
    for pattern in patterns:
        names = [name for name in sorted(glob.glob(pattern, recursive=True)) if os.path.isfile(name) or not os.path.exists(name)]
        for name in names:
            found[name] = os.path.getsize(name) if os.path.exists(name) else 0
        if not names:
            missing.append(pattern)
    return list(found.items()), missing
