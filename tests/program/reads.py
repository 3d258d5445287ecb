#!/usr/bin/env python3
"""Passes texts to the built program in reads of all sizes: reads of 1, 2, 3 or more bytes each, or
two reads, split at a byte (tests/shared/refuse.c). The status, output and error stream of `run`,
`audit`, `explain --all --csv` and `cut --every` must be those of the reader and the references of
tests/shared, which read the whole text at once. The texts are:

- short ones, each split at every byte: quotes, carriage returns, empty lines, NUL bytes, byte order marks, and ends without a line feed;
- random traces and histories with random changes of that kind, long fields and odd numbers among them;
- numbers at the ends of each range, and numbers with another byte among their digits, at each place of a number in short texts;
- lines of about 2,048 bytes, and of about 64, 96 and 128 fields, in place of each record of short texts, with and without quotes;
- long ones in which each byte of a line with quotes and carriage returns is once the first byte after a full buffer.

usage: tests/program/reads.py [PROGRAM [FIRST_SEED [SEEDS]]]      PROGRAM: crates/pie/out/pie by default
needs: program, an early start"""
import os
import random
import sys
import tempfile
from concurrent.futures import ProcessPoolExecutor

sys.path.insert(0, f"{os.path.dirname(os.path.abspath(__file__))}/../shared")
import reference_resumed  # noqa: E402
import reference_texts as plain  # noqa: E402
from checks import NAME, check, finish, refusing  # noqa: E402
from reference_resumed import random_book, whole_text  # noqa: E402
from running import PROGRAM, TRACE, run  # noqa: E402

FIRST, SEEDS = ([int(word) for word in sys.argv[2:4]] + [1, 240][len(sys.argv[2:4]) :])[:2]
EVERY, EVENTS = 3, 12
# The expected result of a command for a text.
COMMANDS = {
    "run": plain.run,
    "audit": plain.audit,
    "explain --all --csv": plain.explain,
    f"cut --every {EVERY}": lambda text: reference_resumed.cut_every(text, EVERY),
}
OF_A_HISTORY = [name for name in COMMANDS if name != "run"]
# The buffers of both readers: of crate csv, and of the one that reads in place.
BUFFERS = (8192, 2**18)
BOM = b"\xef\xbb\xbf"

SHORT = (TRACE[: TRACE.index(b"depart")], b"open,0,4,16,100\narrive,1,10,7,1500,ect0,0\ndepart,2,25\nupdate,3,15000000\n")


def wanted(name, text):
    status, output, errors = COMMANDS[name](text.decode("latin-1"))
    return status, output.encode("latin-1"), errors.encode("latin-1")


def lines_of(text):
    return text.splitlines(keepends=True)


# ---- odd texts


def at_random(text, chance, change):
    """Returns the text with one field of one line changed."""
    lines = text.split(b"\n")
    place = chance.randrange(max(1, len(lines) - 1))
    fields = lines[place].split(b",")
    at = chance.randrange(len(fields))
    fields[at] = change(fields[at])
    lines[place] = b",".join(fields)
    return b"\n".join(lines)


def inside(chance, more):
    """Puts these bytes into a field, or over one of its bytes."""

    def change(field):
        at = chance.randrange(len(field) + 1)
        return field[:at] + more + field[at + chance.randrange(2) :]

    return change


def quoted(field):
    return b'"' + field + b'"'


def doubled(chance):
    def change(field):
        at = chance.randrange(len(field) + 1)
        return quoted(field[:at] + b'""' + field[at:])

    return change


def last_field(text, chance, change):
    """Returns the text with the last field of a line changed."""
    lines = text.split(b"\n")
    place = chance.randrange(max(1, len(lines) - 1))
    before, comma, last = lines[place].rpartition(b",")
    lines[place] = before + comma + change(last)
    return b"\n".join(lines)


def between(text, chance, more):
    """Returns the text with these bytes before one of its lines, or at its end."""
    lines = lines_of(text)
    place = chance.randrange(len(lines) + 1)
    return b"".join([*lines[:place], more, *lines[place:]])


ENDS = [str(2**bits + by) for bits in (16, 32, 60, 63, 64) for by in (-1, 0, 1)]
TENS = [str(10**digits + by) for digits in (1, 2, 7, 8, 9, 15, 16, 17, 19, 20) for by in (-1, 0)]
ABOVE = [str(2**64 * times) for times in (2, 5)] + ["00", "01", "", "0" * 20]


def wrong_digit(digits, at, chance):
    return digits[:at] + chance.choice(":/ +-.eE\0°") + digits[at + 1 :]


def number(chance):
    """Returns a number at an end of a range, or a text that is no number."""
    digits = "".join(chance.choice("0123456789") for _ in range(chance.choice((1, 7, 8, 9, 16, 19, 20, 21))))
    wrong = wrong_digit(digits, chance.randrange(len(digits)), chance)
    return chance.choice([chance.choice(ENDS), chance.choice(TENS), chance.choice(ABOVE), digits, digits, wrong, wrong, wrong]).encode("latin-1")


def odd(text, chance):
    """Returns the text with one random change, after which it is a text of the same records or not."""
    long = chance.choice((20, 250, 8190, 8192, 8193, 9000, 2**18 + 3))
    return chance.choice(
        [
            lambda: at_random(text, chance, quoted),
            lambda: last_field(text, chance, quoted),
            lambda: last_field(text, chance, lambda field: field + b'"'),
            lambda: last_field(text, chance, lambda field: field + b"\r"),
            lambda: last_field(text, chance, lambda field: quoted(field) + b"\r"),
            lambda: at_random(text, chance, doubled(chance)),
            lambda: at_random(text, chance, inside(chance, chance.choice((b'"', b"\r", b"\0", b"\xff", b",", b"\n", b" ", BOM)))),
            lambda: at_random(text, chance, lambda field: quoted(field[:1] + b"\n" + field[1:])),
            lambda: at_random(text, chance, lambda _: chance.choice((b"7", b"a", b"\0")) * long),
            lambda: at_random(text, chance, lambda _: quoted(b"1" * long)),
            lambda: at_random(text, chance, lambda _: number(chance)),
            lambda: at_random(text, chance, lambda _: number(chance)),
            lambda: text.replace(b"\n", b"\r\n"),
            lambda: text.replace(b"\n", b"\r"),
            lambda: between(text, chance, chance.choice((b"\n", b"\r\n", b"\r", b"\n\r\n\n", b'""\n', b",\n", b"\0\n", b"\n" * long, BOM))),
            lambda: BOM + text,
            lambda: BOM[: chance.randrange(1, 3)] + text,
            lambda: text[:-1],
            lambda: text[:-1] + chance.choice((b"\r", b'"', b"\0", b",", b"\r\r\n")),
            lambda: text[: chance.randrange(len(text) + 1)],
        ]
    )()


def odd_texts(seed):
    """Yields a random history and its trace, each with up to three changes."""
    chance = random.Random(seed)
    history = whole_text(random_book(seed, EVENTS)).encode()
    asked = {b"arrive": 7, b"depart": 3, b"update": 3, b"reset": 3, b"params": 12}
    rows = [line.split(b",") for line in history.splitlines()]
    trace = b"".join(b",".join(row[: asked.get(row[0], len(row))]) + b"\n" for row in rows)
    for text, names in ((trace, ["run"]), (history, OF_A_HISTORY)):
        for _ in range(chance.choice((1, 1, 2, 3))):
            text = odd(text, chance)
        yield text, names, chance


# ---- reads


def fed(library, name, text, **reads):
    """Returns the result of a command whose reads return this number of bytes each."""
    return run(name.split(), text, PROGRAM, LD_PRELOAD=library, **{f"REFUSE_{key}": str(most) for key, most in reads.items()})


def differing(what, library, name, text, want, **reads):
    got = fed(library, name, text, **reads)
    return [] if got == want else [f"{name}: {what}: {reads}: {text[:300]}: {got} and not {want}"[:2000]]


def compare_seed(library, seed):
    found, count = [], 0
    for text, names, chance in odd_texts(seed):
        steps = [{}, {"STEP": chance.randrange(1, 4)}, {"STEP": chance.randrange(4, 70)}, {"FIRST": chance.randrange(1, len(text) + 2)}]
        for name in names:
            want = wanted(name, text)
            # (a read of a byte or two of a long text takes long)
            for reads in steps if len(text) < 20000 else [{}, {"STEP": chance.randrange(8180, 8200)}, steps[3]]:
                found += differing(f"seed {seed}", library, name, text, want, **reads)
                count += 1
    return found, count


def peculiar(text):
    """Yields the text with each peculiarity once, and then with all after which it is a text of the same records."""
    first, second, *rest = lines_of(text)
    kind, comma, behind = second.partition(b",")
    rest = b"".join(rest)
    yield first + quoted(kind) + comma + behind + rest
    yield first + kind + comma + behind[:-1].rpartition(b",")[0] + b"," + quoted(behind[:-1].rpartition(b",")[2]) + b"\n" + rest
    yield text.replace(b"\n", b"\r\n")
    yield text.replace(b"\n", b"\r")
    yield BOM + text
    yield first + b"\n\r\n" + second + BOM + rest
    yield first + second[:-1] + b'"\n' + rest
    yield first + second[:-1] + b"\0\n" + rest
    yield text[:-1]
    yield text[:-1] + b"\r"
    yield BOM + first[:-1] + b"\r\n\n" + b'"' + kind + b'",' + behind[:-1] + b"\r\r\n" + rest[:-1]


def compare_splits(library, text, name):
    """Compares the text split at every byte, and in reads of 1 to 9 bytes."""
    found, want = [], wanted(name, text)
    for first in range(1, len(text)):
        found += differing("split", library, name, text, want, FIRST=first)
    for step in range(1, 10):
        found += differing("steps", library, name, text, want, STEP=step)
    return found, len(text) + 8


def compare_numbers(library, text, name):
    """Compares the text with other numbers in place of one."""
    chance = random.Random(name)
    wrong = [wrong_digit("12345678901234567890"[:many], at, chance) for many in (1, 7, 8, 9, 16, 19, 20) for at in range(many)]
    found, count = [], 0
    for line in dict((line[:6], line) for line in lines_of(text)).values():
        fields = line[:-1].split(b",")
        for at in [at for at, field in enumerate(fields) if field.isdigit()]:
            for it in ENDS + TENS + ABOVE + (wrong if at == 3 else wrong[-3:]):
                changed = b",".join([*fields[:at], it.encode("latin-1"), *fields[at + 1 :]]) + b"\n"
                it = text.replace(line, changed, 1)
                found += differing("numbers", library, name, it, wanted(name, it))
                count += 1
    return found, count


def of_bytes(line, size):
    """Returns the line with as many digits in its last field as make it this long, without its line feed."""
    return line[:-1] + b"1" * (size - len(line) + 1) + b"\n"


def of_fields(line, many):
    """Returns the line with this number of fields."""
    return line[:-1] + b",1" * (many - line.count(b",") - 1) + b"\n"


def compare_lengths(library, text, name):
    """Compares the text with one line of another length. None of these lines takes memory that grows with it."""
    found, count = [], 0
    kinds = dict((line.split(b",")[0], line) for line in lines_of(text))
    for kind, line in kinds.items():
        longer = [of_bytes(line, size) for size in (1023, 1024, 2046, 2047, 2048, 2049, 8191)]
        longer += [of_fields(line, base + by) for base in (32, 64, 96, 128) for by in (-1, 0, 1, 2)]
        for it in longer:
            for it in (it, it.replace(kind, quoted(kind), 1)):
                it = text.replace(line, it, 1)
                found += differing("lengths", library, name, it, wanted(name, it))
                count += 1
    return found, count


def compare_buffer(library, text, name, buffer):
    """Compares texts with additional lines after the first, such that each later byte is once the
    first one after a full buffer. The additional lines have the same history."""
    found, count = [], 0
    head = text.index(b"\n") + 1
    line = b"clock,1,1234567\n" if name == "run" else b"refused,1,23456\n"
    want = wanted(name, text)
    for at in range(head, len(text)):
        many, more = divmod(buffer - at, len(line))
        filler = (b"\n" * (more % 2) + b"\r\n" * (more // 2)) + line * many
        told = line * many if name == "run" else b""
        start = want[1].index(b"\n") + 1 if told else 0
        filled = text[:head] + filler + text[head:]
        output = want[1][:start] + told + want[1][start:]
        found += differing(f"byte {at} behind {buffer}", library, name, filled, (want[0], output, want[2]))
        count += 1
    return found, count


def tasks(library):
    for seed in range(FIRST, FIRST + SEEDS):
        yield compare_seed, library, seed
    for trace in SHORT:
        history = wanted("run", trace)[1]
        for text, names in ((trace, ["run"]), (history, OF_A_HISTORY)):
            for place, it in enumerate(peculiar(text)):
                # (all that read a history do so by one reader)
                yield compare_splits, library, it, names[place % len(names)]
    yield compare_numbers, library, SHORT[1], "run"
    yield compare_numbers, library, wanted("run", SHORT[1])[1], "audit"
    for trace in SHORT:
        yield compare_lengths, library, trace, "run"
        for name in OF_A_HISTORY:
            yield compare_lengths, library, wanted("run", trace)[1], name
    opened = b"open3,1,rate,derandomized,capped,unscaled,bounded,0,4,1048576,1048576\n"
    lines = SHORT[1].split(b"\n", 1)[1]
    history = wanted("run", opened + lines)[1]
    for buffer in BUFFERS:
        for text, names in ((opened + lines, ["run"]), (history, OF_A_HISTORY)):
            *_, it = peculiar(text)
            for name in names:
                yield compare_buffer, library, it.removeprefix(BOM), name, buffer


def main():
    with tempfile.TemporaryDirectory() as folder, ProcessPoolExecutor(os.cpu_count()) as pool:
        library = refusing(folder, "reads of few bytes")
        if not library:
            finish()
        found, counts = [], {}
        for name, done in [(it[0].__name__, pool.submit(*it)) for it in tasks(library)]:
            more, count = done.result()
            found += more
            counts[name] = counts.get(name, 0) + count
    for name, count in counts.items():
        print(f"{NAME}: {name}: {count} texts in reads of some size")
    for it in found[:20]:
        check(False, it)
    check(not found, len(found), "ends differ")
    finish()


main()
