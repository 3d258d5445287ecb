#!/usr/bin/env python3
"""Runs every subcommand on texts of great and of odd sizes while memory is ample, and compares status, messages and
output. A contract that allows lack of memory also allows a body that always reports it above some size, so each
size at which such a body may turn needs a text: lines at the limits of the fast reader, in bytes and in fields; a
queue of 2^20 packets; 5.2 million events, also as objects of JSON; 1000 flows; an unknown keyword after many records; names of
files as long as the system allows; histories that are decided again by `what-if`; and texts of pie-watch with 4,752 steps of
many queues and with 2.1 million rows.

usage: tests/program/ample_memory.py [PROGRAM]      PROGRAM: crates/pie/out/pie by default
needs: program, an early start"""
import os
import subprocess
import sys
import tempfile
from itertools import islice

sys.path.insert(0, f"{os.path.dirname(os.path.abspath(__file__))}/../shared")
from checks import NAME, ROOT, check, finish, program  # noqa: E402

PROGRAM = program()
OPEN3 = "open3,1,rate,derandomized,capped,unscaled,rolling"
READERS = (["audit"], ["explain", "--all"], ["explain", "--summary"], ["cut", "--from", "0"], ["migrate"])
EVENTS, PACKETS, FLOWS, LATE, ROWS = 5_200_000, 2**20, 1000, 120_000, 2_100_000
STEP = 1000  # nanoseconds from one event of `many_events` to the next
BYTES = (2046, 2047, 2048, 2049, 4096, 32767, 32768, 32769, 65535, 65536, 70000)
FIELDS = (14, 15, 16, 63, 64, 65, 96, 97, 98, 127, 128, 129, 130, 255, 256, 257)


def run(words, given=None):
    """Returns status, output and messages of the program. `given` is the name of the file on standard input."""
    with open(given or os.devnull, "rb") as file:
        done = subprocess.run([PROGRAM, *words], stdin=file, capture_output=True, check=False, timeout=3000)
    return done.returncode, done.stdout, done.stderr.decode()


def expect(name, words, got, status, errors, lines=None, last=None):
    """Compares a result; `lines` is the number of lines of the output, and `last` its last line."""
    output = got[1]
    end = output[output.rfind(b"\n", 0, -1) + 1 :].decode()
    holds = (got[0], got[2]) == (status, errors) and lines in (None, output.count(b"\n")) and last in (None, end)
    check(holds, f"{name}:", *words, (got[0], got[2][:200], output.count(b"\n"), end[:200]), "wanted", (status, errors, lines, last))


def write(name, lines):
    with open(name, "w", encoding="ascii") as file:
        file.writelines(lines)


def resume(work, opening, events):
    """Returns the lines of an excerpt that begins after these events."""
    write(f"{work}/whole", [opening, *events, "depart,1,9,empty\n"])
    return run(["cut", "--event", str(len(events) + 1)], f"{work}/whole")[1].decode().splitlines(keepends=True)


def odd_lines():
    """Yields odd lines with their faults: of some number of bytes or of fields, plain, quoted, and with a carriage return."""
    for count in BYTES:
        yield "x" * count, "unknown kind"
        yield '"' + "x" * (count - 2) + '"', "unknown kind"
        yield "x" * (count - 1) + "\r", "unknown kind"
        yield "depart,1," + "9" * (count - 9), None
    for count in FIELDS:
        yield "x" + "," * (count - 1), "unknown kind"
        yield '"x"' + "," * (count - 1), "unknown kind"
        yield "update" + ",1" * (count - 1), "wrong number of fields"
        yield 'update,"1"' + ",1" * (count - 2), "wrong number of fields"


def lines(work):
    """Puts each odd line behind an opening, and behind the preamble of an excerpt."""
    opening = f"{OPEN3},0,4,16,100\n"
    preamble = resume(work, opening, ["arrive,1,5,7,100,ect0,0,enqueue\n"])[:2]
    for line, fault in odd_lines():
        for begin in ([opening], preamble):
            name = f"{work}/odd"
            write(name, [*begin, line + "\n"])
            for words in [["run"], *READERS]:
                # (only a whole history is migrated)
                if begin is preamble and words in (["run"], ["migrate"]):
                    continue
                what = fault or ("not a number in range" if words == ["run"] else "wrong number of fields")
                expect(f"{len(line)} bytes, {line.count(',') + 1} fields", words, run(words, name), 1, f"pie: record {len(begin) + 1}: {what}\n")
        # the first record of a text
        write(f"{work}/odd", [line + "\n"])
        for words in [["run"], *READERS]:
            expect(f"{len(line)} bytes, {line.count(',') + 1} fields first", words, run(words, f"{work}/odd"), 1,
                   "pie: the first record is not an open record\n")


def full_queue(work):
    """A queue of as many packets as version three allows, in an excerpt of as many records."""
    opening = f"{OPEN3},0,{PACKETS},16,140737488355328,15000000,15000000,150000000,125,1250,1024,1073741824,100000000000,65536\n"
    write(f"{work}/queue", [opening, *(f"arrive,{tag % 65536},{tag},{tag},1,not,0,enqueue\n" for tag in range(PACKETS)), f"depart,1,{PACKETS},left,0,1,not\n"])
    expect("full queue", ["audit"], run(["audit"], f"{work}/queue"), 0, "", 1, f"clean,{PACKETS + 1}\n")
    expect("full queue", ["explain"], run(["explain", "--tag", "0", "--csv"], f"{work}/queue"), 0, "", 3)
    expect("full queue", ["migrate"], run(["migrate"], f"{work}/queue"), 0, "", PACKETS + 2)
    words = ["cut", "--event", str(PACKETS + 1), "-o", f"{work}/excerpt"]
    expect("full queue", words, run(words, f"{work}/queue"), 0, "", 0)
    os.remove(f"{work}/queue")
    name, last = f"{work}/excerpt", f"clean,{PACKETS + 1}\n"
    expect("excerpt of a full queue", ["audit"], run(["audit"], name), 0, "", 1, last)
    expect("excerpt of a full queue", ["joined"], run(["audit", "--joined", name]), 0, "", 1, f"{name}: {last}")
    expect("excerpt of a full queue", ["explain"], run(["explain", "--all", "--csv"], name), 0, "", 2)
    expect("excerpt of a full queue", ["summary"], run(["explain", "--summary", "--csv"], name), 0, "", 2)
    expect("excerpt of a full queue", ["cut"], run(["cut", "--last", "1", name]), 0, "", PACKETS + 2, f"depart,1,{PACKETS},left,0,1,not\n")
    words = ["what-if", "--from", "0", "--target", "5ms", "-o", f"{work}/other"]
    got = run(words, name)
    check(got[:2] == (0, b""), "what-if of a full queue:", got[0], got[2][:200])
    expect("what-if of a full queue", ["audit"], run(["audit"], f"{work}/other"), 0, "", 1, f"clean,{PACKETS + 2}\n")
    os.remove(f"{work}/other")
    with open(name, encoding="ascii") as file:
        write(f"{work}/again", [*islice(file, PACKETS + 1), "depart,1,9\n", "show\n"])
    got = run(["run"], f"{work}/again")
    expect("run of a full queue", ["run"], got, 0, "", PACKETS + 3)
    os.remove(f"{work}/again")
    os.remove(name)


def many_events(work):
    """Every subcommand over more than five million events: polls of an empty queue, one each microsecond."""
    name, opening = f"{work}/many", f"{OPEN3},0,4,16,140737488355328\n"
    write(name, [opening, *(f"depart,7,{STEP * event},empty\n" for event in range(EVENTS))])
    last = f"depart,7,{STEP * (EVENTS - 1)},empty\n"
    first, latest = str(STEP), str(STEP * (EVENTS - 1))
    tries = [
        (["audit"], 1, f"clean,{EVENTS}\n"), (["migrate"], EVENTS + 1, last), (["explain", "--all", "--csv"], EVENTS + 1, None),
        (["explain", "--lost", "--csv"], 1, None), (["explain", "--marked", "--csv"], 1, None), 
        (["explain", "--all", "--json"], EVENTS, None), (["explain", "--event", str(EVENTS), "--csv"], 2, None), (["explain", "--from", latest, "--all", "--csv"], 2, None),
        (["explain", "--summary", "--csv"], 2, None), (["explain", "--every", f"{5 * STEP}ns", "--csv"], EVENTS // 5 + 1, None),
        (["explain", "--flows", "3", "--csv", "--every", f"{5 * STEP}ns"], 1, None), (["explain", "--digest", "--every", "10ms", "--csv"], None, None),
        (["cut", "--from", "0"], EVENTS + 1, last), (["cut", "--from", latest], 2, last), (["cut", "--to", first], 3, f"depart,7,{STEP},empty\n"),
        (["cut", "--event", str(EVENTS - 1), "--around", str(EVENTS)], EVENTS + 1, last), (["cut", "--every", "5"], EVENTS + EVENTS // 5, last),
        (["cut", "--every", "2600001"], EVENTS + 2, last),
    ]
    for words, count, end in tries:
        expect("many events", words, run(words, name), 0, "", count, end)
    words = ["cut", "--last", str(EVENTS // 2), name]
    expect("many events", words, run(words), 0, "", EVENTS // 2 + 1, last)
    with open(name, encoding="ascii") as file:
        write(f"{work}/trace", (line.replace(",empty", "") for line in file))
    expect("many events", ["run"], run(["run"], f"{work}/trace"), 0, "", EVENTS + 1, last)
    os.remove(f"{work}/trace")
    os.remove(name)


def segments(work):
    """Two segments of a long history, which follow each other."""
    name, opening = f"{work}/whole", f"{OPEN3},0,4,16,140737488355328\n"
    half = EVENTS // 10
    write(name, [opening, *("depart,7,1,empty\n" for _ in range(2 * half))])
    words = ["what-if", "--from", "1ns", "--limit", "1000", "--csv"]
    got = run(words, name)
    check(got[0] == 0 and f"\nevents,{2 * half},{2 * half},{2 * half},0\n".encode() in got[1], "what-if of many events:", got[0], got[1][:300], got[2][:200])
    words = ["cut", "--every", str(half)]
    got = run(words, name)
    expect("segments", words, got, 0, "", 2 * half + 2)
    at = got[1].rfind(b"resume,")
    for part, text in (("first", got[1][:at]), ("second", got[1][at:])):
        with open(f"{work}/{part}", "wb") as file:
            file.write(text)
    words = ["audit", "--joined", f"{work}/first", f"{work}/second"]
    expect("segments", words, run(words), 0, "", 3, f"{work}/second: follows\n")


def flows(work):
    """A thousand flows, the greatest number of a flow among them, each with a record of its own."""
    numbers = [0xFFFFFFFF, *range(FLOWS - 1)]
    opening = f"{OPEN3},0,{FLOWS},16,140737488355328\n"
    write(f"{work}/flows", [opening, *(f"arrive,1,5,{flow << 32},{1 + at % 9},not,0,enqueue\n" for at, flow in enumerate(numbers))])
    words = ["explain", "--flows", str(FLOWS), "--csv"]
    got = run(words, f"{work}/flows")
    expect("flows", words, got, 0, "", FLOWS + 1)
    shown = {line.split(",")[2] for line in got[1].decode().splitlines()[1:]}
    check(shown == {f"0x{flow:08x}" for flow in numbers}, "flows:", len(shown), "of", FLOWS)
    expect("flows in words", words[:-1], run(words[:-1], f"{work}/flows"), 0, "")


def late_faults(work):
    """Faults and a difference after many records: their words do not depend on the place."""
    opening = f"{OPEN3},0,4,16,140737488355328\n"
    events = ["depart,7,1,empty\n"] * LATE
    for line, fault in (("depart,7,1,full", "unknown word"), ("reset,7,1,not", "unknown word"), ("hello", "unknown kind"), ("depart,7", "wrong number of fields"),
                        ("depart,7,01,empty", "not a number in range")):
        write(f"{work}/late", [opening, *events, line + "\n"])
        for words in READERS:
            expect("a late fault", [*words, line], run(words, f"{work}/late"), 1, f"pie: record {LATE + 2}: {fault}\n")
    write(f"{work}/late", [opening, *events, "depart,7,1,left,1,1,not\n", *events])
    expect("a late difference", ["audit"], run(["audit"], f"{work}/late"), 2, "", 1, f"differs,{LATE + 1}\n")


def long_names(work):
    """Names of 255 bytes, the longest that the system allows, for each file that is read, and the longest for an output."""
    history, trace = "open,0,4,16,100\narrive,1,10,7,1500,ect0,0,enqueue\n", "open,0,4,16,100\narrive,1,10,7,1500,ect0,0\n"
    for count in (199, 200, 201, 246, 247, 254, 255):
        name = f"{work}/{'n' * count}"
        write(name, [history])
        told = run(["audit", name])
        expect(f"a name of {count} bytes", ["audit"], told, 0, "", 1, f"{name}: clean,1\n")
        for words in READERS[1:]:
            expect(f"a name of {count} bytes", words, run([*words, name]), 0, "")
        expect(f"a name of {count} bytes", ["joined"], run(["audit", "--joined", name]), 0, "", 1, f"{name}: clean,1\n")
        write(name, [trace])
        expect(f"a name of {count} bytes", ["run"], run(["run", name]), 0, "", 2)
        os.remove(name)
        if count > 255 - len(".partial"):
            continue
        write(f"{work}/trace", [trace])
        for force in ([], ["--force"]):
            words = ["run", "-o", name, *force, f"{work}/trace"]
            expect(f"an output with a name of {count} bytes", words, run(words), 0, "", 0)
        with open(name, encoding="ascii") as file:
            check(file.read() == history, f"an output with a name of {count} bytes has another content")
        os.remove(name)


def linux_steps(work):
    """Twelve copies of the recorded steps of Linux, each of queues of its own; and many rows of lost steps."""
    names, *rows = (ROOT / "tests/rows/linux_steps.csv").read_text().splitlines(keepends=True)
    queue = [line.split(",")[2].strip() if line.startswith("lost,") else line.split(",")[0] for line in rows]
    copies = [line.replace(name, f"{name}x{copy}", 1) for copy in range(12) for line, name in zip(rows, queue)]
    lost = 12 * sum(int(line.split(",")[1]) for line in rows if line.startswith("lost,"))
    write(f"{work}/steps", [names, *copies])
    told = f"pie: steps that were lost when the text was recorded: {lost}\npie: steps without the returned packets (column rq): {12 * 28}\n"
    for words, count in ((["audit"], 1), (["audit", "--json"], 1), (["explain", "--summary", "--csv"], 2), (["explain", "--flows", "3", "--json"], 4),
                         (["explain", "--all", "--csv"], None), (["explain", "--lost"], None), (["cut", "--from", "0"], None)):
        expect("steps of Linux", words, run(words, f"{work}/steps"), 0, "" if words[0] == "cut" else told, count)
    write(f"{work}/steps", [names, *("lost,1,dev/1:/0\n" for _ in range(ROWS))])
    told = f"pie: steps that were lost when the text was recorded: {ROWS}\n"
    expect("lost steps", ["audit"], run(["audit"], f"{work}/steps"), 0, told, 1, f"clean,{ROWS}\n")
    expect("lost steps", ["explain"], run(["explain", "--all", "--csv"], f"{work}/steps"), 0, told, 1)


def options(work):
    """The subcommands that read no text, with long lists of options."""
    words = ["params", "--rate", "100mbit", "--target", "20ms", "--tupdate", "30ms", "--limit", "2000p", "--alpha", "3", "--beta", "31", "--ecn", "--bytemode",
             "--mtu", "9000", "--dq_rate_estimator", "--no_derandomization", "--no_cap_drop_adjustment", "--decay", "half", "--overhead=-14", "--mpu", "64", "--linklayer", "atm"]
    got = run(words)
    check(got[0] == 0 and got[1].startswith(b"open3,"), "params:", got)
    got = run(["advise", "--rate", "10gbit", "--rtt", "1ms-10s", "--flows", "1-1000000", "--overhead", "64511", "--ecn"])
    check(got[0] == 0 and got[1].count(b"\n") > 20, "advise:", got)


def storms(work):
    """Storms with the most folds, changes and packets."""
    for words in (["--folds", "100", "--changes", "100", "--packets", "2000"], ["--folds", "100", "--senders", "8", "--packets", "10000", "--burst", "1024"]):
        got = run(["storm", *words])
        expect("a storm", words, got, 0, "")
        with open(f"{work}/storm", "wb") as file:
            file.write(got[1])
        told = run(["audit"], f"{work}/storm")
        check(told[0] == 0 and told[1].startswith(b"clean,"), "a storm:", *words, told)


def main():
    with tempfile.TemporaryDirectory() as work:
        for part in (lines, full_queue, many_events, segments, flows, late_faults, long_names, linux_steps, options, storms):
            part(work)
            print(f"{NAME}: {part.__name__}")
    finish()


main()
