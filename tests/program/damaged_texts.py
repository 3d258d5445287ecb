#!/usr/bin/env python3
"""Damages texts, and compares the program's status, output and error stream with those of the reader and the
reference of tests/shared/reference_texts.py: of `run` for a trace; of `audit`, and of `migrate` or `explain --all
--csv`, which read like the audit, for a history. Each text is in a file, so that the lines after the line of a fault name
its cause, as tests/shared/reference_causes.py finds it. First come malformed texts written by hand, and damaged rows of
a text of pie-watch, then the richest
traces and histories of each version and both profiles. A text of version one is cut at every byte, and each of its
bytes is changed, in a sample of places to two values. Of later versions each byte of the first record is changed,
because only that record has another format, and one in THIN of the other bytes. One call audits many texts as
files.

With `every` each byte is changed to each of the 255 other values, and each history goes to all three commands;
nothing else is tried. With numbers K and N after it, only each N-th place from the K-th is tried: N such runs try
all.

usage: tests/program/damaged_texts.py [PROGRAM [every [K N]]]      PROGRAM: crates/pie/out/pie by default
needs: program, an early start"""
import os
import random
import re
import sys
import tempfile
from concurrent.futures import ProcessPoolExecutor

sys.path.insert(0, f"{os.path.dirname(os.path.abspath(__file__))}/../shared")
import reference_texts as plain  # noqa: E402
from reference_causes import cause, number_allowed  # noqa: E402
from checks import NAME, ROOT, check, finish  # noqa: E402
from running import PROGRAM, TRACE, run  # noqa: E402

# The trace in version two and the second profile, whose controller the third arrival activates; and in version
# three with every optional element except the cap, with the decay and with a clock record at the end.
TRACES = [
    TRACE,
    TRACE.replace(b"open,", b"open2,2,bounded,").replace(b"100000,1000000000000", b"9000,1000000000000"),
    TRACE.replace(b"open,", b"open3,1,stamp,random,capped,scaled,half,bounded,") + b"clock,1001005,1795550400000000000\n",
]

# The expected status, output and error of a command for a text.
COMMANDS = {"run": plain.run, "audit": plain.audit, "migrate": plain.migrate, "explain --all --csv": plain.explain}
OF_A_HISTORY = [name for name in COMMANDS if name != "run"]
# One of this many places after the first record is damaged in versions two and three.
THIN = 10
# Bytes that mean something to a reader of records.
TELLING = b'0,\n"'


def wanted(name, text):
    """Returns the expected status, output and error stream of this command."""
    status, output, errors = COMMANDS[name](text.decode("latin-1"))
    return status, output.encode("latin-1"), errors.encode("latin-1")


def cause_of(command, text, errors, name):
    """Returns the expected lines after this line of a fault, if it is one, for the text in the file `name`."""
    fault = errors.decode("latin-1")
    is_fault = fault.startswith(("pie: record ", "pie: the first record"))
    return cause(text.decode("latin-1"), fault, command.split()[0], name).encode("latin-1") if is_fault else b""


# the lines about the right event, which any_numbers.py checks; the words of its explanation begin otherwise
RIGHT = re.compile(rb"pie: [^\n]*?: (?:event \d+ (?:is recorded as|sets parameters out)|the rules (?:give|allow) |pie explain --event \d+ )[^\n]*\n")


def without_right(ended):
    """Returns the end of a command without the lines about the right event of a difference."""
    status, output, errors = ended
    if RIGHT.search(errors):
        errors = b"".join(line for line in RIGHT.sub(b"", errors).splitlines(keepends=True) if line.startswith(b"pie: "))
    return status, output, errors


def audits_differing(program, texts):
    """Returns the differences of an audit of all these texts as files, with one call for the texts of each expected
    status."""
    found, by_status = [], {}
    for what, text in texts:
        status, *written = wanted("audit", text)
        by_status.setdefault(status, []).append((what, text, written))
    for status, its in by_status.items():
        with tempfile.TemporaryDirectory() as work:
            names = [f"{work}/{number}" for number in range(len(its))]
            for name, (_, text, _) in zip(names, its):
                with open(name, "wb") as file:
                    file.write(text)
            got = without_right(run(["audit", *names], b"", program))
        output = b"".join(f"{name}: ".encode() + out for name, (_, _, (out, _)) in zip(names, its) if out)
        errors = b"".join(
            f"pie: {name}: ".encode() + error.removeprefix(b"pie: ") + cause_of("audit", text, error, name)
            for name, (_, text, (_, error)) in zip(names, its)
            if error
        )
        if got != (status, output, errors):
            lines = [set(got[stream].splitlines()) ^ set(want.splitlines()) for stream, want in ((1, output), (2, errors))]
            texts_of = {name: what for name, (what, _, _) in zip(names, its)}
            found.append(f"audit: status {got[0]} and not {status}, and these lines differ: {lines} of {texts_of}")
    return found


def one_more(place, names):
    """Returns the audit, and one of the other commands for a history."""
    return names if len(names) == 1 else [names[0], random.Random(place).choice(names[1:])]


def differing(program, texts):
    """Returns the texts, each given with its damage and its commands, for which a command ends differently."""
    found = audits_differing(program, [(what, text) for what, text, names in texts if "audit" in names])
    with tempfile.TemporaryDirectory() as work:
        for what, text, names in texts:
            for name in names:
                if name != "audit":
                    got, want = run_file(work, name, text, program), wanted_of_file(work, name, text)
                    if got != want:
                        found.append(f"{name}: {what}: {got} and not {want}")
    return found


def run_file(work, name, text, program=PROGRAM):
    """Returns the end of this command for a file of the folder `work` with this text."""
    with open(f"{work}/text", "wb") as file:
        file.write(text)
    return without_right(run([*name.split(), f"{work}/text"], b"", program))


def wanted_of_file(work, name, text):
    """Returns the expected end of this command for a file of the folder `work` with this text."""
    status, output, errors = wanted(name, text)
    return status, output, errors + cause_of(name, text, errors, f"{work}/text")


def damaged(text, bytes_at, places):
    """Yields damaged texts for each of these places: the text up to the place, and the text with
    each other byte of `bytes_at` at the place."""
    for place in places:
        yield f"cut at {place}", text[:place]
    for place in places[: -1 if len(text) in places else None]:
        for byte in sorted(bytes_at(place)):
            if text[place] != byte:
                yield f"byte {place} made {byte}", text[:place] + bytes([byte]) + text[place + 1 :]


def every(_):
    return range(256)


def sample(place):
    """Returns a byte that is significant in the format, and a random one."""
    return {TELLING[place % len(TELLING)], random.Random(place).randrange(256)}


def sampled(number, text):
    """Returns the places at which the trace with this number, or its history, is damaged in a sample."""
    behind = text.index(b"\n") + 1
    return range(len(text) + 1) if number == 0 else [*range(behind), *range(behind + number - 1, len(text), THIN), len(text)]


def compare(program, bytes_at, places, chosen=one_more):
    """Returns the differences for traces and histories, at the places of `places`, with the commands of `chosen`;
    prints the number of comparisons."""
    found = []
    with ProcessPoolExecutor(os.cpu_count()) as pool:
        for number, trace in enumerate(TRACES):
            history = wanted("run", trace)[1]
            for names, text in ((["run"], trace), (OF_A_HISTORY, history)):
                texts = [(*it, chosen(at, names)) for at, it in enumerate(damaged(text, bytes_at, places(number, text)))]
                parts = [pool.submit(differing, program, texts[part::64]) for part in range(64)]
                found += [it for part in parts for it in part.result()]
                opening = text.split(b",")[0].decode()
                print(f"{NAME}: {', '.join(names)}: {len(texts)} cuts and changes of a text that begins with {opening}")
    return found


def is_error_line(text):
    return text.startswith(b"pie: ") and text.count(b"\n") == 1 and text.endswith(b"\n")


def malformed():
    """Checks text that is no trace: a named fault, and the history of the records before it."""
    opened = b"open,0,4,16,100\n"
    rows = [
        (b"", b"pie: the first record is not an open record\n"),
        (b"a" * 1_000_000, b"pie: the first record is not an open record\n"),
        (opened + b"a" * 1_000_000 + b"\n", b"pie: record 2: unknown kind\n"),
        (opened + b"depart," + b"1" * 1_000_000 + b",1\n", b"pie: record 2: not a number in range\n"),
        (opened + b"," * 1_000_000 + b"\n", b"pie: record 2: unknown kind\n"),
        (opened + b"depart" + b"," * 1_000_000 + b"\n", b"pie: record 2: wrong number of fields\n"),
        (opened + b"\0\0\0\n", b"pie: record 2: unknown kind\n"),
        (opened + b"depart,\0,1\n", b"pie: record 2: not a number in range\n"),
        (opened + b"dep\xffart,1,1\n", b"pie: record 2: unknown kind\n"),
        (opened + b'"depart,1,1\n' * 1000, b"pie: record 2: unknown kind\n"),
        (opened + b'"', b"pie: record 2: unknown kind\n"),
        (opened + b"open,0,4,16,100\n", b"pie: record 2: unknown kind\n"),
    ]
    for text, errors in rows:
        output = opened if text.startswith(opened) else b""
        got = run(["run"], text)
        check(got == (1, output, errors), "malformed", text[:60], len(text), got[0], got[2][:100])
        for name in OF_A_HISTORY:
            got, want = run(name.split(), text), wanted(name, text)
            check(got == want and is_error_line(got[2]), "malformed", name, text[:60], len(text), got[0], got[1][:100], got[2][:100], want[2])
    history = opened + b"depart,1,9,empty\ndepart,1,10,empty\n"
    for end in [b"\r", b"\r\n", b"\n", b"\n\n\n"]:
        check(run(["run"], end.join([b"open,0,4,16,100", b"depart,1,9", b"depart,1,10"])) == (0, history, b""), "line ends", end)
    check(run(["run"], b"\xef\xbb\xbf" + opened) == (0, opened, b""), "a byte order mark")


def causes():
    """Checks the causes of faults in texts that are damaged by hand: of openings, of a field that spans lines, of texts of the other kind, and of files
    that are no text of records."""
    nine, history = b",2,1,0,0,0,1,1,0,1024", b"open,0,4,16,100\narrive,1,10,7,1500,ect0,0,enqueue\ndepart,1,9,empty\n"
    numbers = nine[1:].split(b",")
    openings = [b",".join([b"open,0,4,16,100", *numbers[:place], bad, *numbers[place + 1 :]]) for place in range(9) for bad in (b"1000000000001", b"x")]
    openings += [b"open,0,0,1,1", b"rolling,0,65537,1,1", b"open2,1,bounded,0,1,0,1", b"open,0,1,1,1099511627777", b"open,1152921504606846976,1,1,1"]
    openings += [b"open3,1,rate,random,capped,half,bounded,0,1,1,1", b"open3,1,rate,random,capped,scaled,none,bounded,0,1,1,1", b"open2,3,bounded,0,1,1,1"]
    later = [b"arrive,1,10,7,1500,ect2,0", b"arrive,1,10,7,1500,ect0,0,left", b'"dep\n\r\nart",1,9', b"show", b"depart,1", b"a" * 50, b"\xff\x00\"'\\", b"clock,1,2"]
    texts = [b"\n" + opening + b"\nshow\n" for opening in openings]
    texts += [b"open,0,4,16,100\r\n\r\ndepart,1,9\n" + row + end for row in later for end in (b"", b"\n", b"\r")]
    texts += [b"open,0,4,16,100\ndepart,1,9,empty\n\n" + row + b"\n" for row in later]
    texts += [history, history.replace(b",enqueue", b"").replace(b",empty", b""), b"", b"\n\n", b"open3,1,stamp,random,capped,scaled,bounded,0,1,1,1\nclock,1152921504606846976,0\n"]
    with tempfile.TemporaryDirectory() as work:
        for text in texts:
            for name in COMMANDS:
                got, want = run_file(work, name, text), wanted_of_file(work, name, text)
                errors = got[2].replace(f"pie: {work}/text: ".encode(), b"pie: ", 1) if name == "audit" else got[2]
                check(errors == want[2], "the cause", name, text, errors, want[2])
        for first, says in (
            (b"\x1f\x8b\x08\x00", "is compressed by gzip; zcat {0} | pie run .. reads it"),
            (b"\xd4\xc3\xb2\xa1", "is a packet capture, and no text of records"),
            (b"\n\r\r\n\x1c", "is a packet capture, and no text of records"),
            (b"\xfd7zXZ\x00", "is compressed by xz; xzcat {0} | pie run .. reads it"),
            (b"\x28\xb5\x2f\xfd", "is compressed by zstd; zstdcat {0} | pie run .. reads it"),
            (b"BZh9", "is compressed by bzip2; bzcat {0} | pie run .. reads it"),
            (b"\xff\xfeo\x00", "is in UTF-16; iconv -f UTF-16 -t UTF-8 {0} | pie run .. reads it"),
            (b"\xff\xfe\x00\x00", "is in UTF-32; iconv -f UTF-32 -t UTF-8 {0} | pie run .. reads it"),
            (b"\x00\x00\xfe\xff", "is in UTF-32; iconv -f UTF-32 -t UTF-8 {0} | pie run .. reads it"),
            (b"o\x00p\x00", "is in UTF-16LE; iconv -f UTF-16LE -t UTF-8 {0} | pie run .. reads it"),
            (b"\x00o\x00p", "is in UTF-16BE; iconv -f UTF-16BE -t UTF-8 {0} | pie run .. reads it"),
        ):
            want = f"pie: the first record is not an open record\npie: {work}/text {says.format(f'{work}/text')}\n".encode()
            got = run_file(work, "run", first + b"pen\x00")
            check(got == (1, b"", want), "the cause of a file that begins with", first, got)


def steps_of_linux():
    """Checks the second line of faults of a text of pie-watch: the field and what is allowed there, for each column that is read."""
    names, *rows = (ROOT / "tests/rows/linux_steps.csv").read_text().splitlines()
    columns, fields = names.split(","), rows[1].split(",")
    words = {"type": "are enq, deq, calc, timer, wait, flow, init, resume, change, reset, destroy, empty", "kind": "are pie, fq_pie"}
    tried = 0
    with tempfile.TemporaryDirectory() as work:
        for place, column in enumerate(columns):
            for bad in ("x", "99999999999999999999", *(("01", '"a,b"') if column == "a_prob" else ())):
                row = ",".join([*fields[:place], bad, *fields[place + 1 :]])
                text = "\n".join([names, rows[0], row, *rows[2:5]]) + "\n"
                got = run_file(work, "audit", text.encode())
                lines = got[2].decode().splitlines()
                if not re.search(r"not a number in range|unknown word", lines[0] if lines else ""):
                    continue  # this column is not read, or has any text
                kind = "number of at most four hexadecimal digits" if column in ("proto", "l3") else "decimal number" if bad in ("x", '"a,b"') else \
                    "number without leading zeros" if bad == "01" else "smaller number"
                shown = bad.strip('"')
                want = f'pie: record 3 of {work}/text, field {place + 1} ({column}): "{shown}"; allowed {words.get(column, f"is a {kind}")}'
                check(got[0] == 1 and lines[1:] == [want], "the cause in a step", column, bad, lines, want)
                tried += 1
        for row, says in ((rows[1] + ",1", f"{len(columns) + 1} fields; the first row has {len(columns)}"), ("lost,1", "2 fields; lost has 3")):
            for name in ("explain", "cut --from 0"):
                got = run_file(work, name, "\n".join([names, rows[0], row]).encode())
                want = f"pie: record 3: wrong number of fields\npie: record 3 of {work}/text: {says}\n".encode()
                check((got[0], got[2]) == (1, want), "the cause in a step", row, name, got[2], want)
    check(tried > 100, "few columns of steps were damaged:", tried)


# A trace whose controller has packets in the queue after event 5.
QUEUED = b"""open3,1,rate,derandomized,capped,unscaled,bounded,5,8,64,1000
arrive,1,10,1,1000,ect0,0
arrive,1,20,2,1000,not,0
arrive,1,30,3,500,ce,5
update,4,15000005
depart,2,15000006
depart,2,15000007
"""


def preamble_cases(moment):
    """Yields changes of the first three records of the excerpt after event 5: the fields that are set, by record and number, the fault, and the
    number, the name and the allowed contents of the field that the cause names. The effective moment is `moment`."""
    no_number, unsound, statistics = "not a number in range", "a number that no controller holds", "statistics out of range"
    most = 2**64 - 1

    def resume(fields, why, number, name, *bounds):
        return {(1, place): value for place, value in fields.items()}, why, (1, number, name), number_allowed(*bounds)

    yield resume({30: 1001}, "more events than the limits allow", 30, "count", 5, 5)
    yield resume({32: 9}, "more packets than the ring holds", 32, "packets", 2, 2)
    yield resume({33: 2**30 + 1}, "more bytes than a queue holds", 33, "bytes", 1500, 1500)
    yield resume({31: 6}, no_number, 31, "set_by", 0, 5)
    yield {(1, 31): "x"}, no_number, (1, 31, "set_by"), f"is a number from 0 to {most}, or nothing"
    yield resume({34: 4}, no_number, 34, "moment", moment - 1, 2**60 - 1)
    yield resume({41: 2}, no_number, 41, "measuring", 0, 1)
    yield resume({42: 1}, no_number, 42, "start", 0, 0)
    yield resume({43: 1, 60: "x"}, no_number, 43, "counted", 0, 0)
    yield resume({45: 2}, no_number, 45, "active", 0, 1)
    yield resume({60: 2**128}, no_number, 60, "waited", 0, 2**128 - 1)
    yield resume({21: 1}, unsound, 21, "target", 2, 10**10)
    yield {(1, 29): 1000}, unsound, (1, 29, "dq_threshold"), "are 1024, 2048, 4096, 8192, 16384, 32768, 65536"
    yield resume({34: 2**60}, unsound, 34, "moment", 0, 2**60 - 1)
    for number, name, bound in ((35, "prob", 10**12), (37, "accu", 8_499_999_999_999), (38, "burst", 10**12), (39, "last", moment)):
        yield resume({number: bound + 1}, unsound, number, name, 0, bound)
    yield resume({36: 2**40 + 1}, unsound, 36, "old", 0, 0)
    yield resume({40: 2**60}, unsound, 40, "average", 0, 2**60 - 1)
    yield resume({41: 1, 42: moment + 1}, unsound, 42, "start", 0, moment)
    yield resume({41: 1, 43: 16384}, unsound, 43, "counted", 0, 16383)
    yield resume({44: 2**40 + 1}, unsound, 44, "last_wait", 0, 0)
    yield resume({45: 0}, unsound, 45, "active", 1, 1)
    yield resume({46: 6}, statistics, 46, "arrivals", 3, 3)
    yield resume({53: 5 * 65535 + 1}, statistics, 53, "left_bytes", 0, 5 * 65535)
    yield resume({60: 5 * 2**60 + 1}, statistics, 60, "waited", 0, moment)
    yield resume({46: 2}, statistics, 46, "arrivals", 3, 3)
    yield resume({46: 4, 55: 0}, statistics, 49, "early", 1, 1)
    yield resume({46: 1, 47: 1, 52: 3}, statistics, 52, "left", 0, 1)
    yield resume({32: 1}, statistics, 32, "packets", 2, 2)
    yield resume({58: 0}, statistics, 58, "largest_queue", 1500, most)
    yield resume({36: 2**40, 59: 4}, statistics, 59, "largest_delay", 2**40, most)
    yield resume({44: 5, 60: 4}, statistics, 44, "last_wait", 0, 0)
    yield resume({60: moment + 1}, statistics, 60, "waited", 0, moment)
    yield resume({35: 1, 55: 0, 56: 1}, statistics, 35, "prob", 0, 0)
    yield resume({44: 1}, statistics, 44, "last_wait", 0, 0)
    yield resume({2: 3}, no_number, 2, "profile", 1, 2)[:3] + ("are 1, 2",)
    yield resume({9: 0}, "limits out of range", 9, "packets", 2, 2**20)
    yield {(2, 3): 0}, "packet size out of range", (2, 3, "size"), number_allowed(1, 65535)
    yield {(2, 3): 1501}, "more bytes than were announced", (2, 3, "size"), number_allowed(1, 1500)
    yield {(2, 5): moment + 1}, "a packet that arrives later", (2, 5, "since"), number_allowed(0, moment)
    yield {(3, 5): 19}, "a packet that arrived before its predecessor", (3, 5, "since"), number_allowed(20, moment)
    yield {(3, 4): "ect2"}, "unknown word", (3, 4, "ecn"), "are not, ect0, ect1, ce"
    yield {(3, 3): 499}, "fewer bytes than were announced", (1, 33, "bytes"), "is 1499"


def preambles():
    """Checks the causes of faults in the preamble of an excerpt."""
    history = run(["run"], QUEUED)[1]
    excerpt = run(["cut", "--event", "6"], history)[1]
    rows = [line.split(",") for line in excerpt.decode().splitlines()]
    check([row[0] for row in rows] == ["resume", "queued", "queued", "depart"], "an excerpt with two packets", excerpt)
    with tempfile.TemporaryDirectory() as work:
        path = f"{work}/text"

        def expect(changed, what, why, record, number, name, allowed):
            text = "".join(plain.text_of(row) for row in changed).encode()
            value = changed[record - 1][number - 1]
            want = f'pie: record {record}: {why}\npie: line {record} of {path}, field {number} ({name}): "{value}"; allowed {allowed}\n'
            got = run_file(work, "explain --all", text)
            check((got[0], got[2].decode()) == (1, want), "the cause in a preamble", what, got, want)

        for fields, why, (record, number, name), allowed in preamble_cases(int(rows[0][33])):
            changed = [[str(fields.get((at, place), field)) for place, field in enumerate(row, 1)] for at, row in enumerate(rows, 1)]
            # (a fault of the end is found behind the last packet, and is one of the first record)
            expect(changed, fields, why, record, number, name, allowed)
        expect(rows[:2] + rows[3:], "a missing packet", "fewer packets than were announced", 1, 32, "packets", "is 1")
        short = [*rows[:2], rows[2][:4], *rows[3:]]
        got = run_file(work, "audit", "".join(map(plain.text_of, short)).encode())[2].decode()
        want = f"pie: {path}: record 3: wrong number of fields\npie: line 3 of {path}: 4 fields; queued has 5\n"
        check(got == want, "the cause in a preamble", "a short record", got, want)


def nearest_allowed(value, allowed):
    """Returns the number that is nearest to `value` among those that a cause allows."""
    if allowed.startswith("are "):
        return min(map(int, allowed.removeprefix("are ").split(", ")), key=lambda it: abs(it - value))
    bounds = [int(it) for it in re.findall(r"\d+", allowed)]
    return min(max(value, bounds[0]), bounds[-1])


def causes_in(work, texts):
    """Audits these texts in one call. Returns the place, the value and the allowed contents of the field that is the cause in the first line
    of each text, by the text's number."""
    for number, text in enumerate(texts):
        with open(f"{work}/{number}", "w", encoding="ascii") as file:
            file.write(text)
    errors = run(["audit", *(f"{work}/{number}" for number in range(len(texts)))], b"")[2].decode()
    found = re.findall(r'^pie: line 1 of \S*/(\d+), field (\d+) \(\w+\): "(.*)"; allowed (.*)$', errors, re.M)
    return {int(number): (int(place), value, allowed) for number, place, value, allowed in found}


def cures():
    """Changes each number of a `resume` record: the nearest number that the cause allows then removes the fault, also if several checks fail."""
    excerpt = run(["cut", "--event", "6"], run(["run"], QUEUED)[1])[1].decode().splitlines()
    row, rest = excerpt[0].split(","), "".join(f"{line}\n" for line in excerpt[1:])

    def text_with(changes):
        return ",".join(changes.get(place, field) for place, field in enumerate(row, 1)) + "\n" + rest

    changes = []
    for place, field in enumerate(row, 1):
        if field.isdigit():
            value = int(field)
            others = {0, 1, value - 1, value + 1, value + 2, value // 2, 2 * value + 1, 10**6}
            # (the limits of packets and of the event log have 32 bits, and a greater number is a fault of its own)
            others |= set() if place in (9, 10) else {2**41, 2**60, 2**64 - 1}
            changes += [{place: str(it)} for it in sorted(others - {value, -1})]
    with tempfile.TemporaryDirectory() as work:
        found = causes_in(work, [text_with(it) for it in changes])
        cured = []
        for number, (place, value, allowed) in found.items():
            if re.fullmatch(r"is \d+|is a number from \d+ to \d+|are [0-9, ]+", allowed) and value.isdigit():
                cured.append((changes[number], {**changes[number], place: str(nearest_allowed(int(value), allowed))}))
        left = causes_in(work, [text_with(it) for _, it in cured])
    for number, cause_left in left.items():
        check(False, "a number that does not cure:", *cured[number], cause_left)
    check(len(cured) > 250, "few numbers of a resume record had a cause:", len(cured), "of", len(changes))


def small():
    """Returns a trace and a history of four records, one of them replaced entirely or in part."""
    trace = b"open,0,4,16,100\narrive,1,10,7,1500,ect0,0\ndepart,2,25\ndepart,2,30\n"
    lines = [b"open,0,4,16,100\n", b"arrive,1,10,7,1500,ect0,0,enqueue\n", b"depart,2,25,left,7,1500,ect0\n", b"depart,2,30,empty\n"]
    history = b"".join(lines)
    for same in [trace, trace.replace(b"\n", b"\r\n"), trace.replace(b"depart", b'"depart"', 1)]:
        check(run(["run"], same) == (0, history, b""), "the history of", same)
    got = run(["run"], trace.replace(b"ect0,0", b"ect0,18446744073709551616"))
    check(got == (1, lines[0], b"pie: record 2: not a number in range\n"), "a word that is too great", got)
    faults = [
        (4, b"dep\n", b"pie: record 4: unknown kind\n"),
        (4, b"depart,2,30\n", b"pie: record 4: wrong number of fields\n"),
        (4, b"depart,2,30,emp\n", b"pie: record 4: unknown word\n"),
        (4, b"depart,02,30,empty\n", b"pie: record 4: not a number in range\n"),
        (3, b"depart,2,25,left,7,15", b"pie: record 3: wrong number of fields\n"),
        (3, b"depart,2,25,left,7,1500,ec", b"pie: record 3: unknown word\n"),
    ]
    for number, line, errors in faults:
        text = b"".join(lines[: number - 1]) + line
        before = b"".join(lines[: number - 1])
        migrated = before.replace(b"open,", b"open2,1,bounded,", 1)
        explained = run(["explain", "--all"], before)[1]
        for words, output in ((["audit"], b""), (["migrate"], migrated), (["explain", "--all"], explained)):
            got = run(words, text)
            check(got == (1, output, errors), words, "at", line, got)
        for name in OF_A_HISTORY:
            check(run(name.split(), text) == wanted(name, text), name, "at", line)
    cut = history[: len(history) - len(lines[3]) - 1]
    check(run(["audit"], cut) == (0, b"clean,2\n", b""), "a history without its last line feed")


def main():
    words = sys.argv[2:]
    if words[:1] == ["every"]:
        first, step = [int(word) for word in words[1:]] or (1, 1)
        found = compare(PROGRAM, every, lambda _, text: range(first - 1, len(text) + 1, step), lambda _, names: names)
    else:
        malformed()
        causes()
        steps_of_linux()
        preambles()
        cures()
        small()
        found = compare(PROGRAM, sample, sampled)
    for it in found[:50]:
        check(False, it[:500])
    check(not found, len(found), "texts differ")
    finish()


main()
