#!/usr/bin/env python3
"""Makes each allocation, each read and each write of the program fail in turn, once and from there on
(tests/shared/refuse.c). The program must report its fault, and its output must be a beginning of the normal output.
The inputs are a long text of many pages, and short texts read and written 7 bytes at a time, for each subcommand
that reads or writes: a failed read must end the text after all earlier records, also within a quoted text. Then each
call fails that creates, writes, renames and removes the file of -o, with and without hard links: the old file must
remain, or the new one must be complete, and a file that remains beside it must be named.
refused_storms.py does this for storms.

usage: tests/program/refused_requests.py [PROGRAM]      PROGRAM: crates/pie/out/pie by default
needs: program, an early start"""
import errno
import functools
import os
import sys
import tempfile

sys.path.insert(0, f"{os.path.dirname(os.path.abspath(__file__))}/../shared")
from checks import NAME, check, finish, refusing  # noqa: E402
from running import MEMORY, ONCE_AND_ON, READERS, STEP, TRACE, in_turn, read_fault, run, write_fault  # noqa: E402

FAULTS = {"REFUSE_MEMORY": MEMORY, "REFUSE_READ": read_fault(errno.EIO), "REFUSE_WRITE": write_fault(errno.EIO)}


def told(words, says, errors):
    """Returns true if each line on standard error reports this fault. A fault of a file has a line with the file's name;
    in an audit of files the line of the fault has it too."""
    names = [word.encode() for word in words if word.startswith("/")]
    *reason, line = says.splitlines(keepends=True)
    if words[0] == "audit" and names:
        lines = {*reason, *(line.replace(b"pie: ", b"pie: %s: " % name, 1) for name in names), *(b"pie: the text is in %s\n" % name for name in names), line}
        return errors != b"" and set(errors.splitlines(keepends=True)) <= lines
    is_read = says == FAULTS["REFUSE_READ"]
    return errors == says + b"".join(b"pie: the text is in %s\n" % name for name in names if is_read)


def is_beginning(words, variable, output, want):
    """Returns true if this output is a beginning of the wanted text. A summary of the events up to a fault is a
    different text, and an audit of files reports each file that it can read."""
    if variable == "REFUSE_WRITE" or "--summary" not in words and "--joined" not in words:
        return want.startswith(output)
    return "--summary" in words or set(output.splitlines()) <= set(want.splitlines())


@functools.cache
def output_of(words, given):
    """Returns the output of the program for this text."""
    return run(list(words), given)[1]


def texts_before(words, given, place):
    """Returns the outputs allowed before this read, if each earlier read returned STEP bytes: the output of all
    complete records, including those of the last page, or of the records that were complete one read earlier,
    because a record may be processed at the next read. The first read of an explanation is of one byte, by which it
    recognizes the text."""
    less = STEP - 1 if words[0] == "explain" else 0
    for reads in (place - 1, max(place - 2, 0)):
        read = given[:max(STEP * reads - less, 0)]
        yield output_of(tuple(words), read[:read.rfind(b"\n") + 1])


def refused(library, met, name, words, given, variables=tuple(FAULTS), **more):
    """Refuses each request for memory, each read and each write in turn. Returns the output with none refused, and their number."""
    want, counts = run(words, given)[1], {}
    for variable in variables:
        says = FAULTS[variable]
        # (for a short text only a single request is refused; for a long text also all requests after it)
        for on in ONCE_AND_ON[:1] if more and variable == "REFUSE_MEMORY" else ONCE_AND_ON:
            for place, (status, output, errors), is_refused in in_turn(library, met, words, given, variable, on, **more):
                counts[variable] = place - 1
                if not is_refused:
                    check((status, output, errors) == (0, want, b""), name, variable, place, "with nothing refused", status, errors)
                    continue
                # (a list that grows asks once more, for less, before it gives up)
                did_with_less = variable == "REFUSE_MEMORY" and not on and (status, output, errors) == (0, want, b"")
                check(status == 1 and told(words, says, errors) or did_with_less, name, variable, place, on, status, errors[:100])
                check(is_beginning(words, variable, output, want), name, variable, place, on, "no beginning of the text")
                if more and given and variable == "REFUSE_READ" and words[0] != "audit":
                    check(output in texts_before(words, given, place), name, variable, place, on, "not the text of all records before", output[-80:])
            print(f"{NAME}: {name}: {variable} at {counts[variable]} places{' and all after them' if on else ''}")
    return want, counts


def long_text(library, met):
    """Returns a text that is long enough for several reads and writes. The output is written in
    pages of some 32 KB, neither byte by byte nor all at the end."""
    long = TRACE.replace(b"8,32,100", b"8,3200,9999", 1) + b"depart,1,1001006\ntally\n" * 1200
    text = run(["run"], long)[1]
    commands = {"run": (["run"], long), **{name: (words, text) for name, words in READERS.items()}}
    for name, (words, given) in commands.items():
        want, counts = refused(library, met, name, words, given)
        check(all(counts.values()), name, "met nothing of", counts)
        is_paged = len(want) // 65536 < counts["REFUSE_WRITE"] <= len(want) // 16384 + 1
        check(name == "audit" or is_paged, name, "wrote", len(want), "bytes by", counts["REFUSE_WRITE"], "writes")
    for name, (words, given) in commands.items():
        # (an audit takes no -o, and with -o what-if writes another text)
        if name not in ("audit", "what-if"):
            outputs_refused(library, met, name, words, given)


def short_texts(library, met):
    """Tries short texts with reads and writes of at most 7 bytes, so that each 7 bytes are the last before some
    fault."""
    trace = b"open,0,4,16,100\narrive,1,10,7,1500,ect0,0\ndepart,2,25\ndepart,2,30\n"
    history = run(["run"], trace)[1]
    # (the second and the third event, with a preamble)
    part = run(["cut", "--from", "25"], history)[1]
    goes_on = part.replace(b",left,7,1500,ect0", b"").replace(b",empty", b"")
    check(part.startswith(b"resume,") and goes_on.endswith(b"depart,2,25\ndepart,2,30\n"), "what is cut:", part)
    with tempfile.TemporaryDirectory() as folder:
        files = {"first": b"".join(history.splitlines(keepends=True)[:2]), "second": part}
        for name, text in files.items():
            with open(f"{folder}/{name}", "wb") as file:
                file.write(text)
        first, second = f"{folder}/first", f"{folder}/second"
        # (these also allocate memory in ways that a long text does not)
        moved, asked = ["REFUSE_READ", "REFUSE_WRITE"], list(FAULTS)
        commands = [
            (["run"], trace, moved), (["run"], trace.replace(b"ect0", b'"ect0"'), moved), (["run"], goes_on, asked), (["audit"], history, moved), (["audit"], part, asked),
            (["audit", "--joined", first, second], b"", asked), (["explain", "--all", "--csv"], history, asked),
            (["explain", "--all", "--from", "25"], history, moved), (["explain", "--event", "3"], part, asked),
            (["explain", "--summary"], history, moved), (["cut", "--event", "2"], history, moved),
            (["cut", "--from", "30"], part, asked), (["cut", "--every", "2"], history, asked), (["cut", "--last", "1", second], b"", asked),
            (["migrate"], history, moved), (["params", "--rate", "100mbit", "--target", "20ms"], b"", moved),
        ]
        for words, given, variables in commands:
            name = " ".join(words).replace(f"{folder}/", "") + (" of a text that goes on" if given in (part, goes_on) else "")
            name += " of a quoted text" if b'"' in given else ""
            want, counts = refused(library, met, f"{STEP} bytes at a time: {name}", words, given, variables, REFUSE_STEP=str(STEP))
            read = len(given) + sum(len(text) * (2 if "--last" in words else 1) for file, text in files.items() if f"{folder}/{file}" in words)
            check(counts["REFUSE_READ"] >= read / STEP and counts["REFUSE_WRITE"] >= len(want) / STEP > 0, name, "read and wrote by", counts)
            check(counts.get("REFUSE_MEMORY") != 0, name, "requested no memory")


def faults_before(library, met, history):
    """Tries a fault in the text after output that cannot be flushed: the error of the device must be reported."""
    faulty = {"run": (["run"], TRACE + b"dep\n"), **{name: (words, history + b"dep\n") for name, words in READERS.items() if name not in ("audit", "what-if")}}
    for name, (words, given) in faulty.items():
        got = run(words, given, LD_PRELOAD=library, REFUSE_MET=met, REFUSE_WRITE="1", REFUSE_ON="1")
        check(got == (1, b"", FAULTS["REFUSE_WRITE"]), name, "a fault that cannot be flushed", got)


def outputs_refused(library, met, name, words, given):
    """Refuses each request for the file of -o, for the name of a private file and for a new name.
    No file that others may read may remain beside a private one, even if a request is refused right
    after it was created."""
    want = run(words, given)[1]
    for older, without in ((None, {}), (None, {"REFUSE_LINK": "1"}), (b"older\n", {})):
        forced = ["--force"] if older else []
        for on in ({**it, **without} for it in ONCE_AND_ON):
            for place in range(1, 10_000):
                if os.path.exists(met):
                    os.remove(met)
                with tempfile.TemporaryDirectory() as folder:
                    made = f"{folder}/made"
                    if older:
                        with open(made, "wb") as file:
                            file.write(older)
                        os.chmod(made, 0o600)
                    got = run([*words, "-o", made, *forced], given, LD_PRELOAD=library, REFUSE_MET=met, REFUSE_FILE=str(place), **on)
                    left = {it.name: open(it, "rb").read() for it in os.scandir(folder)}
                    open_to_all = [it.name for it in os.scandir(folder) if older and it.stat().st_mode & 0o077]
                check(not open_to_all, name, "-o", forced, place, on, "others may read", open_to_all)
                if not os.path.exists(met):
                    check(got == (0, b"", b"") and left == {"made": want}, name, "-o", place, "with nothing refused", got, list(left))
                    break
                is_whole = got[:2] == (0, b"") and left.pop("made", None) == want
                # (without hard links an empty file takes the name first; it remains only if its removal fails too)
                is_empty = on == {"REFUSE_LINK": "1", "REFUSE_ON": "1"} and left.get("made") == b""
                is_kept = got[:2] == (1, b"") and (left.pop("made", None) == older or is_empty)
                check(is_whole or is_kept, name, "-o", forced, place, on, "another file, or", got[0], got[2][:200])
                # (a part of the output remains under the partial name, which is reported; after a hard link it may
                # be the whole output)
                is_told = any(f"pie: {made}.partial: this file has {what}\n".encode() in got[2] for what in ("the output", "the incomplete output"))
                check(all(want.startswith(text) for text in left.values()), name, "-o", place, on, "no beginning of the text is left")
                # (a file whose permissions are refused is removed, unless that fails too)
                is_unmade = "REFUSE_ON" in on and got[2] == f"pie: {made}: Operation not permitted (os error 1)\n".encode()
                check(set(left) <= {"made.partial"} and (is_whole or is_told or is_unmade or not left), name, "-o", place, on, got[2], list(left))
            check(place > 4, name, "-o", forced, "met", place - 1, "requests alone")
            told = " ".join([*forced, *without, "and all after them" if "REFUSE_ON" in on else ""])
            print(f"{NAME}: {name} -o: REFUSE_FILE at {place - 1} places {told}")


def syncs_refused(library, words, given):
    """Refuses each synchronization: the output has not reached its device, so the old file must remain."""
    with tempfile.TemporaryDirectory() as folder:
        made = f"{folder}/made"
        for older in (None, b"older\n"):
            if older:
                with open(made, "wb") as file:
                    file.write(older)
            status, *_ = run([*words, "-o", made, *(["--force"] if older else [])], given, LD_PRELOAD=library, REFUSE_SYNC="1")
            kept = open(made, "rb").read() if os.path.exists(made) else None
            check((status, kept) == (1, older), "an output that cannot be synchronized", status, kept)


def main():
    status, history, errors = run(["run"], TRACE)
    check((status, errors) == (0, b""), "the trace itself", status, errors)
    with tempfile.TemporaryDirectory() as room:
        library, met = refusing(room, "memory, read or write"), f"{room}/met"
        if library:
            long_text(library, met)
            short_texts(library, met)
            faults_before(library, met, history)
            syncs_refused(library, ["run"], TRACE)
    finish()


main()
