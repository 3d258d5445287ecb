"""The independent reader's cause of a fault: the lines after the line of the fault, for a text in a named file. It has the names of the fields, what
is allowed in them, and the numbers of the lines from docs/FORMATS.md, and shares no code with the program."""
import reference_texts as plain

NINE = "target t_update max_burst alpha beta mean_pkt limit_bytes mark_ecnth dq_threshold"
STATISTICS = (
    "arrivals enqueued marked early over_bytes over_packets left left_bytes empty updates resets changes largest_queue largest_delay waited"
)
REGISTERS = "count moment packets bytes prob old accu burst last average"
CALL = "caller moment"
ARRIVAL = f"{CALL} tag size ecn word"
OPENED = "moment packets tail events"
ELEMENTS = "profile delay/ picking step size/"

# The names of the fields after the kind, for each number of them. A name with a slash has other contents than the same name without.
TRACE = {
    "arrive": [ARRIVAL],
    "depart": [CALL],
    "update": [CALL],
    "reset": [CALL],
    "params": [f"{CALL} {NINE}"],
    "fold": ["n"],
    "show": [""],
    "tally": [""],
}
HISTORY = {
    "arrive": [f"{ARRIVAL} verdict"],
    "depart": [f"{CALL} answer/empty", f"{CALL} answer/left tag size ecn"],
    "update": [f"{CALL} delay prob burst"],
    "reset": [f"{CALL} answer/done"],
    "params": [f"{CALL} {NINE} answer/done"],
    "refused": ["record code"],
    "folded": ["n"],
    "shown": [f"{REGISTERS} measuring active"],
    "tallied": [STATISTICS],
}
FIRST = {
    "open": [OPENED, f"{OPENED} {NINE}"],
    "rolling": [OPENED, f"{OPENED} {NINE}"],
    "open2": [f"profile mode {OPENED}", f"profile mode {OPENED} {NINE}"],
    "open3": [
        f"{ELEMENTS} mode {OPENED}",
        f"{ELEMENTS} decay mode {OPENED}",
        f"{ELEMENTS} mode {OPENED} {NINE}",
        f"{ELEMENTS} decay mode {OPENED} {NINE}",
    ],
}
KEYWORDS = {
    "ecn": "not ect0 ect1 ce",
    "verdict": "enqueue mark early bytes packets",
    "answer/empty": "empty",
    "answer/left": "left",
    "answer/done": "done",
    "profile": "1 2",
    "delay/": "rate stamp",
    "picking": "derandomized random",
    "step": "capped uncapped",
    "size/": "unscaled scaled",
    "decay": "zero half",
    "mode": "bounded rolling",
}
# The greatest numbers of fields that have not 64 bits.
MOST = {"caller": 2**16 - 1, "size": 2**32 - 1, "packets": 2**32 - 1, "tail": 2**32 - 1, "waited": 2**128 - 1, "measuring": 1, "active": 1}
RANGES = dict(zip(NINE.split(), plain.RANGES))


def number_allowed(least, most):
    return f"is {least}" if least == most else f"is a number from {least} to {most}"


def allowed_in(name):
    """Returns the words for the allowed contents of a field."""
    if name in KEYWORDS:
        words = KEYWORDS[name].split()
        return f"{'are' if len(words) > 1 else 'is'} {', '.join(words)}"
    return number_allowed(0, MOST.get(name, 2**64 - 1))


def is_allowed(name, field):
    if name in KEYWORDS:
        return field in KEYWORDS[name].split()
    is_number = field.isascii() and field.isdigit() and len(field) < 40 and (field == "0" or field[0] != "0")
    return is_number and int(field) <= MOST.get(name, 2**64 - 1)


def lines_of(text):
    """Returns the number of the line in which each record begins."""
    text = text.removeprefix("\xef\xbb\xbf")
    if '"' not in text and "\r" not in text:
        return [number for number, line in enumerate(text.split("\n"), 1) if line]
    begins, line, state, before = [], 1, "start", ""
    for c in text:
        if state == "start" and c not in "\r\n":
            begins.append(line)
        if state == "quoted":
            state = "closed" if c == '"' else state
        elif c == '"' and state != "bare":
            state = "quoted"
        else:
            state = {",": "field", "\r": "start", "\n": "start"}.get(c, "bare")
        if c == "\r" or (c == "\n" and before != "\r"):
            line += 1
        before = c
    return begins


def quoted(field):
    """Returns the beginning of a field as a message repeats it."""
    names = {'"': '\\"', "\\": "\\\\", "\n": "\\n", "\r": "\\r", "\t": "\\t"}
    shown = "".join(names.get(c, c if " " <= c <= "~" else f"\\x{ord(c):02x}") for c in field[:40])
    return f'"{shown}"' + (f" and {len(field) - 40} more bytes" if len(field) > 40 else "")


def kinds_of(is_trace, version):
    """Returns the fields of each kind of a record after the first."""
    kinds = dict(TRACE if is_trace else HISTORY)
    if version == 1 and not is_trace:
        kinds["shown"] = [f"{REGISTERS} measuring"]
    if version == 3:
        kinds["clock"] = ["clock_moment unix"]
    return kinds


def field_line(line, name, place, field, row, allowed):
    field = field.split("/")[0].removeprefix("clock_")
    return f"pie: line {line} of {name}, field {place + 1} ({field}): {quoted(row[place])}; allowed {allowed}\n"


MOST["clock_moment"] = 2**60 - 1


def in_kind(kinds, row, line, name):
    """Returns the line for a record whose kind is known: its number of fields, or its first field that is not allowed."""
    counts = [len(fields.split()) + 1 for fields in kinds[row[0]]]
    if len(row) not in counts:
        many = "field" if len(row) == 1 else "fields"
        return f"pie: line {line} of {name}: {len(row)} {many}; {row[0]} has {' or '.join(map(str, sorted(counts)))}\n"
    fields = kinds[row[0]][counts.index(len(row))].split()
    for place, field in enumerate(fields, 1):
        if not is_allowed(field, row[place]):
            return field_line(line, name, place, field, row, allowed_in(field))
    return None


def opening_line(row, line, name):
    """Returns the line for an opening whose fields are allowed each: its first parameter, limit or moment out of range."""
    fields = next(fields.split() for fields in FIRST[row[0]] if len(fields.split()) + 1 == len(row))
    places = {field: place for place, field in enumerate(fields, 1)}
    bounds = {field: RANGES[field] for field in NINE.split()[:8] if field in places}
    if "target" in places:
        bounds["dq_threshold"] = None
    is_large = row[0] == "open3"
    bounds |= {"packets": (1, 2**20 if is_large else 2**16), "tail": (1, 2**20), "events": (1, 2**47 if is_large else 2**40), "moment": (0, 2**60 - 1)}
    thresholds = [2**k for k in range(10, 17)]
    for field, bound in bounds.items():
        value = int(row[places[field]])
        if bound is None and value not in thresholds:
            return field_line(line, name, places[field], field, row, f"are {', '.join(map(str, thresholds))}")
        if bound and not bound[0] <= value <= bound[1]:
            return field_line(line, name, places[field], field, row, number_allowed(*bound))
    return None


def other_text(row, version, is_trace, name, command):
    """Returns the line for a record that is correct in the other kind of text."""
    try:
        (plain.event if is_trace else plain.request)(0, row, version)
    except plain.Fault:
        return ""
    if is_trace:
        return f"pie: the record is one of a history; pie {command} reads a trace\n"
    return f"pie: the record is one of a trace; pie {command} reads a history, which pie run {name} writes\n"


def cause(text, fault, command, name):
    """Returns the lines after the line of this fault of a text (not an excerpt) in the file `name`."""
    rows, is_trace = plain.records(text), command == "run"
    if not rows:
        return f"pie: {name} is empty\n" if not text else f"pie: {name} has no record\n"
    begins = lines_of(text)
    first = rows[0]
    if fault.startswith("pie: the first record"):
        kinds = [*FIRST] + ([] if command == "migrate" else ["resume"])
        return field_line(begins[0], name, 0, "kind", first, f"are {', '.join(kinds)}")
    number = int(fault.split()[2].rstrip(":"))
    row, line = rows[number - 1], begins[number - 1]
    if number == 1:
        return in_kind(FIRST, row, line, name) or opening_line(row, line, name)
    version = {"open2": 2, "open3": 3}.get(first[0], 1)
    kinds = kinds_of(is_trace, version)
    if row[0] in kinds:
        says = in_kind(kinds, row, line, name)
    else:
        says = field_line(line, name, 0, "kind", row, f"are {', '.join(kinds)}")
    return says + other_text(row, version, is_trace, name, command)
