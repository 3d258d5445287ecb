#!/usr/bin/env python3
"""Compares include/pie.h, include/pie_link.h and the Rust declarations (bindings/rust/src) with the source of the
libraries (crates/pie_params/src and those of pie_abi, pie_c and pie_link_c): structs with the
order, names and widths of their fields; functions with the order, names and widths of their parameters; codes, ECN
fields, the version. Ranges, defaults and tables of rates in comments are compared with each other, docs/FORMATS.md,
docs/LIBRARY.md and docs/PARAMETERS.md; the orders of errors with the source; the words of a flight recorder's
memory with include/pie_flight.h. The exit status is 1 if something differs.

usage: tests/libraries/header.py [ROOT]           compares, in this repository or in another folder
       tests/libraries/header.py --probes [ROOT]  writes a program in C that asks the library for each number of the header's comments
needs: nothing
"""
import re
import sys
from fractions import Fraction
from pathlib import Path

# names in the source, and those in pie.h
TYPES = {"RawParams": "pie_params", "PieState": "pie_state", "PieUpdated": "pie_updated", "PieEvent": "pie_event", "PieOpening": "pie_opening",
         "PieStats": "pie_stats", "LiveInterval": "pie_period", "Meter": "pie_meter", "Bounds": "pie_bounds", "Peak": "pie_peak", "Total": "pie_total",
         "usize": "size_t"}
RUST_TYPES = {"Params": "pie_params", "State": "pie_state", "RawUpdated": "pie_updated", "RawEvent": "pie_event", "RawOpening": "pie_opening",
              "Stats": "pie_stats", "usize": "size_t"}
PARAMETERS = {("pie_arrive", "bits"): "ecn", ("pie_write_refused", "number"): "record", ("pie_write_queued", "bits"): "ecn",
              ("pie_write_clock", "unix"): "unix_time", ("pie_period_clock", "unix"): "unix_time"}  # (compilers of C may define `unix`)
# a slice is a pointer and a length
SLICES = {"&[u8]": ("&char", "length"), "&mut [u8]": ("&mut unsigned char", "room"), "&mut [PieEvent]": ("&mut pie_event", "count")}
CODES = {"DONE": ["PIE_DONE", "PIE_ENQUEUE"], "OVER_BYTES": ["PIE_BYTES"], "OVER_PACKETS": ["PIE_PACKETS"]}
ECN = {"NotEct": "PIE_NOT_ECT", "Ect1": "PIE_ECT1", "Ect0": "PIE_ECT0", "Ce": "PIE_CE"}
REFUSALS = {"Moment": "PIE_BAD_MOMENT", "Size": "PIE_BAD_SIZE", "TooSoon": "PIE_TOO_SOON", "Params": "PIE_BAD_PARAMS",
            "State": "PIE_BAD_STATE", "Queue": "PIE_BAD_QUEUE", "Arrived": "PIE_BAD_ARRIVED", "NotWaited": "PIE_NOT_WAITED", "Limits": "PIE_BAD_LIMITS"}
LINK_REFUSALS = {"Busy": "PIE_BUSY", "TooSoon": "PIE_TOO_SOON", "Exhausted": "PIE_EXHAUSTED", "Full": "PIE_FULL", "NoEvent": "PIE_TOO_MANY",
                 "NoMemory": "PIE_NO_MEMORY", "NoCallers": "PIE_NO_CALLERS", "OneNumber": "PIE_ONE_NUMBER", "TooSmall": "PIE_TOO_SMALL"}
VERDICTS = {"Enqueue": "PIE_ENQUEUE", "Mark": "PIE_MARK", "Early": "PIE_EARLY", "Bytes": "PIE_BYTES", "Packets": "PIE_PACKETS"}
PROFILES = {"One": "PIE_ALWAYS_ON", "Two": "PIE_ON_AND_OFF"}
MODES = {"Bounded": "PIE_BOUNDED", "Rolling": "PIE_ROLLING"}

NUMBER = r"\d+(?:\.\d+)?(?:\^\d+)?(?: \* \d+\^\d+)?(?: - \d+)?"


def value(text):
    """Returns the number that a comment writes as 2^60 - 1 or 8.5 * 10^12."""
    total = Fraction(1)
    minuend, _, subtrahend = text.partition(" - ")
    for factor in minuend.split(" * "):
        base, _, power = factor.partition("^")
        total *= Fraction(base) ** int(power or 1)
    return total - int(subtrahend or 0)


def numbers(text):
    return [value(it) for it in re.findall(NUMBER, text)]


def bound(text):
    """Returns the least and the greatest value in a comment, or None if it has no range."""
    for pattern, found in ((rf"({NUMBER}) to ({NUMBER})", lambda a, b: (value(a), value(b))),
                           (rf"a power of two from ({NUMBER}) to ({NUMBER})", lambda a, b: (value(a), value(b))),
                           (rf"at most ({NUMBER})", lambda a: (0, value(a))),
                           (rf"below (\d{NUMBER[3:]})", lambda a: (0, value(a) - 1))):
        match = re.search(pattern, text)
        if match:
            return found(*match.groups())
    return None


def default(text):
    """Returns the default in a comment's parentheses, converted from milliseconds to nanoseconds."""
    match = re.search(rf"\(({NUMBER})( ms)?[;)]", text)
    return value(match[1]) * (10**6 if match[2] else 1) if match else None


def one_line(text):
    return " ".join(text.split())


def commented(text, pattern):
    """Returns the groups of each line that matches this pattern, and the comment in the line or below it."""
    whole = re.compile(pattern + r",?;?\s*(?:/\*(.*?)\*/)?", re.S)
    return [(*match.groups()[:-1], one_line(match[match.lastindex] if match.groups()[-1] else "")) for match in whole.finditer(text)]


class Header:
    """The declarations of include/pie.h."""

    def __init__(self, text):
        self.text = text
        bare = re.sub(r"/\*.*?\*/", "", text, flags=re.S)
        self.structs = {}
        for name, body in re.findall(r"struct (\w+) \{(.*?)\};", bare, re.S):
            self.structs[name] = [declaration_of_c(it) for it in body.split(";")[:-1]]
        enums = " ".join(re.findall(r"enum \{(.*?)\};", bare, re.S))
        self.constants = {name: int(number) for name, number in re.findall(r"(\w+) = (\d+)", enums)}
        self.functions = {}
        for result, name, inside in re.findall(r"^(void|size_t|uint\d+_t|struct \w+) (pie_\w+)\(([^)]*)\);", bare, re.M):
            self.functions[name] = (plain_c(result), [declaration_of_c(it) for it in inside.split(",")])
        self.comments = {}
        for name, body in re.findall(r"struct (\w+) \{(.*?)\n\};", text, re.S):
            self.comments[name] = {field: comment for _, field, comment in commented(body, r"((?:struct )?\w+) (\w+);")}
        self.codes = {name: comment for name, _, comment in commented(text, r"(PIE_\w+) = (\d+)")}
        self.defines = dict(re.findall(r"#define (PIE_\w+) (?:UINT\d+_C\()?\"?([\w.]+)", text))


def declaration_of_c(text):
    """Returns type and name of a field or a parameter."""
    before, _, name = one_line(text).rpartition(" ")
    return plain_c(before + "*" * name.count("*")), name.lstrip("*")


def plain_c(text):
    """Returns a type of C in the form in which types are compared."""
    text = re.sub(r"uint(\d+)_t", r"u\1", one_line(text).replace("struct ", ""))
    if text.endswith("*"):
        text = text.rstrip("* ")
        return "&" + text[6:] if text.startswith("const ") else "&mut " + text
    return text


def plain_rust(text, names):
    text = re.sub(r"\*mut (?!u8)(\w+)", r"&mut \1", text.replace("*mut u8", "&mut unsigned char"))
    for name, plain in names.items():
        text = re.sub(rf"\b{name}\b", plain, text)
    return text


class Rust:
    """The declarations for C in a source in Rust or Rattle."""

    def __init__(self, text, names, exported):
        self.text = text
        self.structs, self.docs = {}, {}
        for name, body in re.findall(r"#\[repr\(C\)\]\s*(?:#\[[^\]]*\]\s*)*(?:pub(?:\(crate\))? )?struct (\w+) \{(.*?)\n\}", text, re.S):
            # (the length of an array comes after its name, as in C)
            body = re.sub(r"(\w+): \[(\w+); (\w+)\],", lambda it: f"{it[1]}[{'PIE_' * (it[3] == 'RANGES')}{it[3]}]: {it[2]},", body)
            fields = re.findall(r"((?:\s*///[^\n]*\n)*)\s*(?:pub(?:\(crate\))? )?(\w+(?:\[\w+\])?): (\w+),", body)
            self.structs[names.get(name, name)] = [(plain_rust(kind, names), field) for _, field, kind in fields]
            self.docs[names.get(name, name)] = {field: one_line(doc.replace("///", "")) for doc, field, _ in fields}
        self.functions = {}
        for name, inside, result in re.findall(exported + r"fn (pie_\w+)\(([^)]*)\)(?: -> (\w+))?", text):
            pairs = [it.split(": ") for it in map(one_line, inside.split(",")) if it]
            pairs = [pair for field, kind in pairs
                     for pair in ([(field, SLICES[kind][0]), (SLICES[kind][1], "size_t")] if kind in SLICES else [(field, kind)])]
            self.functions[name] = (plain_rust(result, names) or "void",
                                    [(plain_rust(kind, names), PARAMETERS.get((name, field), field)) for field, kind in pairs])


def shown(it):
    """Returns a value in the form in which a difference is printed."""
    if isinstance(it, dict):
        return "; ".join(f"{name} {shown(inner)}" for name, inner in it.items())
    if isinstance(it, (tuple, list)):
        return "(" + ", ".join(shown(inner) for inner in it) + ")"
    return str(it)


def same(what, here, there, other="in crates/pie_c/src"):
    if isinstance(here, dict) and isinstance(there, dict):
        names = [name for name in {**there, **here} if here.get(name) != there.get(name)]
        here, there = {it: here.get(it) for it in names}, {it: there.get(it) for it in names}
    if here != there:
        yield f"{what}: {shown(here)}, and {other} {shown(there)}"


def compare_declarations(where, declared, source, all_functions):
    for name, fields in source.structs.items():
        if all_functions or name in declared.structs:
            yield from same(f"{where}: {name}", declared.structs.get(name), fields)
    for name, function in source.functions.items():
        if all_functions or name in declared.functions:
            yield from same(f"{where}: {name}", declared.functions.get(name), function)
    for name in [*declared.functions.keys() - source.functions.keys(), *declared.structs.keys() - source.structs.keys()]:
        yield f"{where}: {name}, which crates/pie_c/src does not have"


def compare_constants(header, source):
    found = dict(re.findall(r"const ([A-Z_]+): u32 = (\d+);", source.text))
    if "DONE" not in found or "BAD_PROFILE" not in found:
        yield "crates/pie_c/src: no codes were found"
    named = {name: int(number) for code, number in found.items() for name in CODES.get(code, ["PIE_" + code])}
    ecn = {ECN[name]: int(number) for number, name in re.findall(r"(\d) => Some\(Ecn::(\w+)\)", source.text)}
    if len(ecn) != 4:
        yield "crates/pie_c/src: no ECN fields were found"
    named |= {"PIE_EVENT_" + kind: int(number) for kind, number in re.findall(r"const ([A-Z]+): u8 = (\d+);", source.text)}
    own = {"PIE_ALWAYS_ON": 1, "PIE_ON_AND_OFF": 2, "PIE_USUAL": 0, "PIE_BOUNDED": 0, "PIE_ROLLING": 1}
    own |= {"PIE_DELAY_STAMP": 1, "PIE_PICK_RANDOM": 2, "PIE_STEP_UNCAPPED": 4, "PIE_SIZE_SCALED": 8, "PIE_DECAY_HALF": 16}
    yield from same("include/pie.h: constants", header.constants, {**named, **ecn, **own})


def compare_rust_enums(rust, header):
    for name, meanings in (("Ecn", ECN), ("Profile", PROFILES), ("Mode", MODES)):
        body = re.search(rf"enum {name} \{{(.*?)\n\}}", rust, re.S)
        found = {meanings.get(variant): int(number) for variant, number in re.findall(r"(\w+) = (\d+),", body[1] if body else "")}
        yield from same(f"bindings/rust: {name}", found, {it: header.constants.get(it) for it in meanings.values()}, "in include/pie.h")
    for what, meanings, pattern in (("refusals", REFUSALS, r"(\d+)(?:, Some\(parameter\)\))? => (?:Err\()?Refusal::(\w+)"),
                                    ("verdicts", VERDICTS, r"(\d+) => Ok\(Verdict::(\w+)\)")):
        found = {meanings.get(name): int(number) for number, name in re.findall(pattern, rust)}
        yield from same(f"bindings/rust: {what}", found, {it: header.constants.get(it) for it in meanings.values()}, "in include/pie.h")


def compare_methods(rust, source):
    """Compares the names of the parameters of each safe method in Rust, and the arguments that it passes on."""
    for name, (_, parameters) in source.functions.items():
        wanted = [field for _, field in parameters]
        method = re.search(rf"pub fn {name[4:]}\(\s*&mut self,(.*?)\)", rust, re.S)
        if method:
            found = ["state", *re.findall(r"(\w+):", method[1])]
            if not name.endswith("_event"):  # (these receive a packet, a caller and a moment, and make the event)
                yield from same(f"bindings/rust: State::{name[4:]}", found, wanted)
        for handed in re.findall(rf"unsafe \{{ {name}\((?:self|&mut \w+), ([^)]*)\)", rust):
            found = [*wanted[:1], *(it.replace(" as u32", "").replace("&mut event.0", "event").lstrip("&") for it in handed.split(", "))]
            yield from same(f"bindings/rust: the arguments of {name}", found, wanted)


def compare_ranges(header, rust, formats):
    """Compares the ranges and defaults of the comments with docs/FORMATS.md and the Rust documentation."""
    rows = {}
    for names, told, given in re.findall(r"^\| (`[a-z].*?) \| (.*?) \| ([\d, ]+) \|", formats, re.M):
        for name, number in zip(re.findall(r"`(\w+)`", names), given.split(", ")):
            rows[name] = (bound(told), int(number))
    comments = header.comments.get("pie_params", {})
    told = {it: (bound(text), default(text)) for it, text in comments.items()}
    yield from same("include/pie.h: range and default", told, rows, "in docs/FORMATS.md")
    for struct, fields in header.comments.items():
        for field, text in fields.items():
            if bound(text) and struct in rust.docs:
                doc = rust.docs[struct].get(field, "")
                told = (bound(text), default(text))
                yield from same(f"bindings/rust: {field}", (bound(doc), default(doc)), told, "in include/pie.h")


def compare_limits(header):
    """Compares the constants and the keywords of pie_text with the comments of the codes."""
    params, codes = header.comments.get("pie_params", {}), header.codes
    for name, number in (("PIE_MAX_MOMENT", numbers(codes["PIE_BAD_MOMENT"])[-1]), ("PIE_ONE", bound(header.comments["pie_state"]["prob"])[1]),
                         ("PIE_MAX_BYTES", bound(params["limit_bytes"])[1]), ("PIE_MAX_SIZE", numbers(codes["PIE_BAD_SIZE"])[-1])):
        yield from same(f"include/pie.h: {name}", int(header.defines.get(name, 0)), int(number), "in its comments")
    texts = dict(re.findall(r"case (PIE_\w+):\s*return \"([^\"]*)\";", header.text))
    for name, comment in codes.items():
        if header.constants.get(name, 0) > 100:
            yield from same(f"include/pie.h: pie_text of {name}", numbers(texts.get(name, "")), numbers(comment), "in its comment")
    for name in ("queued", "size"):
        told = bound(re.search(rf"\*   {name} (.*)", header.text)[1])
        wanted = (1, numbers(codes["PIE_BAD_SIZE"])[-1]) if name == "size" else (0, numbers(codes["PIE_BAD_QUEUE"])[0])
        yield from same(f"include/pie.h: {name} of pie_arrive", told, wanted, "in the comments of the codes")


def refusals_in(source):
    """Returns the errors of each call, in the order of its body: those of pie_arrive are in `arrive`, those of an
    opening in `checked`."""
    codes = {}
    for name, body in re.findall(r"^(?:pub extern \"C\" |pub\(crate\) |pub )?fn (\w+)\(.*?^\{\n(.*?)^\}", source.text, re.S | re.M):
        codes[name] = ["PIE_" + code for code in dict.fromkeys(re.findall(r"\b(BAD_\w+|TOO_SOON|NOT_WAITED)\b", body))]
    orders = {name: codes[name] or codes.get(name[4:], []) for name in codes if name.startswith("pie_")}
    apart = {"pie_open": "checked", "pie_depart": "depart", "pie_depart_waited": "depart_stamped"}
    return {**orders, **{name: codes.get(it, []) for name, it in apart.items()}}


def compare_refusals(header, rust, source):
    """Compares the order of errors in comments and documentation with the source."""
    orders = {name: codes for name, codes in refusals_in(source).items() if codes and name != "pie_check_state"}
    told = {}
    for comment, name in re.findall(r"/\*((?:(?!\*/).)*?)\*/\n(?:uint32_t|struct \w+|void) (pie_\w+)\(", header.text, re.S):
        listed = re.search(r"Errors(?: \(its `code`\))?(?:, in this order)?: ([A-Z_, ]+)\.", one_line(comment.replace("\n *", "\n")))
        if listed:
            told[name] = listed[1].split(", ")
    yield from same("include/pie.h: the order of refusals", told, orders)
    told = {}
    for listed, name in re.findall(r"/// # Errors\s*/// (?:In this order: )?([`\w, ]+)\.\s*pub fn (\w+)", rust):
        told["pie_" + name] = [REFUSALS.get(it) for it in re.findall(r"`(\w+)`", listed)]
    # Rust cannot express an ECN field or a profile out of its range
    wanted = {name: [it for it in codes if it not in ("PIE_BAD_ECN", "PIE_BAD_PROFILE", "PIE_BAD_CHOICES")] for name, codes in orders.items() if name in rust}
    yield from same("bindings/rust: the order of refusals", told, {**wanted, "pie_check": ["PIE_BAD_STATE"]})


def compare_numbers(header, source):
    """Compares the numbers of the parameters, which pie_check_params returns."""
    told = re.search(r"number of the first parameter out of its range: (.*?)\.", one_line(header.text.replace("\n *", "\n")))
    listed = {name: int(number) for number, name in re.findall(r"(\d) (\w+)", told[1] if told else "")}
    numbered = {re.sub(r"(?<=.)([A-Z])", r"_\1", name).lower(): int(number) for name, number in re.findall(r"Field::(\w+) => (\d+),", source.text)}
    yield from same("include/pie.h: the numbers of the parameters", listed, numbered)
    yield from same("include/pie.h: the order of the parameters", [name for _, name in header.structs.get("pie_params", [])], list(numbered))


def compare_link(root):
    """Compares include/pie_link.h with crates/pie_link_c: its calls with their parameters, its codes, their
    descriptions, and port and excerpt, which C sees as a pointer."""
    header = Header((root / "include/pie_link.h").read_text())
    names = {**TYPES, "PiePort": "pie_port", "PieExcerpt": "pie_excerpt", "PieRegisters": "pie_registers", "PieTotals": "pie_totals"}
    source = Rust(read_source(root / "crates/pie_link_c/src", "*.rt"), names, r'pub extern "C" ')
    # (a `Global` takes no bytes: C passes nothing for it)
    calls = {name: (result, [it for it in given if it[0] != "Global"]) for name, (result, given) in source.functions.items()}
    given = {name: (result, [(kind, {"added": "new"}.get(field, field)) for kind, field in it]) for name, (result, it) in header.functions.items()}
    yield from same("include/pie_link.h: calls", given, calls, "in crates/pie_link_c/src")
    for handle in ("PiePort", "PieExcerpt"):
        if not re.search(rf"pub struct {handle} \{{\s*at: \*mut u8,\s*alloc: Global,\s*///.*?\s*pub ghost", source.text):
            yield f"crates/pie_link_c/src: a {names[handle]} is not a pointer alone"
    # (after the library's pointer, a port contains the header's pointer)
    yield from same("include/pie_link.h: a pie_port", header.structs.get("pie_port"), [("&mut void", "at"), ("&mut pie_link_shared", "shared")], "here")
    yield from same("include/pie_link.h: a pie_excerpt", header.structs.get("pie_excerpt"), [("&mut void", "at")], "here")
    for name in ("pie_registers", "pie_totals"):
        yield from same(f"include/pie_link.h: struct {name}", header.structs.get(name), source.structs.get(name), "in crates/pie_link_c/src")
    most = re.findall(r"const MOST: usize = (\d+);", source.text)
    yield from same("include/pie_link.h: the most events of a fold", [header.defines.get("PIE_LINK_MOST")], most, "in crates/pie_link_c/src")
    found = {"PIE_" + name: int(number) for name, number in re.findall(r"const ([A-Z_]+): u32 = (\d+);", source.text)}
    yield from same("include/pie_link.h: codes", header.constants, found, "in crates/pie_link_c/src")
    words = re.findall(r"case (PIE_\w+): return", header.text)
    yield from same("include/pie_link.h: the codes that have words", sorted(words), sorted(found), "in crates/pie_link_c/src")
    tries = {name[13:] for name in calls if name.startswith("pie_link_try_")}
    waits = set(re.findall(r"static inline uint32_t pie_link_(\w+)\(struct pie_port", header.text)) - {"share", "gather", "close"}
    yield from same("include/pie_link.h: the calls that wait", sorted(waits), sorted(tries), "of those that don't")
    yield from compare_classes(header.text, calls, waits)
    yield from compare_rust_link(root, header)


def compare_classes(text, calls, waits):
    """Checks the classes of include/pie_link.h: each member calls the function of its name, and each function has one."""
    both = re.search(r"uint32_t try_##name taken noexcept \{ return pie_link_try_##name handed; \} \\\n"
                     r"\s*uint32_t name taken noexcept \{ return pie_link_##name handed; \}\n", text)
    found = []
    for body in re.findall(r"^class pie_\w+ : public .*?\{(.*?)\n\};", text, re.M | re.S):
        found += re.findall(r"(?:uint32_t|size_t) (\w+)\([^)]*\) noexcept \{\s*return (?:this [^?]*\? )?pie_link_(\w+)\(", body)
        found += [(it, it) for name in re.findall(r"PIE_LINK_BOTH\((\w+), \(", body) for it in ("try_" + name, name) if both]
    found += [("close", name) for name in re.findall(r"pie_link_close_any\(pie_\w+ \*\w+\) noexcept \{ return pie_link_(close\w*)\(", text)]
    wrong = [it for it in found if it[0] not in (it[1], it[1].removesuffix("_excerpt"))]
    yield from same("include/pie_link.h: what the members of its classes call", wrong, [], "here")
    yield from same("include/pie_link.h: the members of its classes", sorted(it[1] for it in found),
                    sorted([re.sub("_ports?$", "", name[9:]) for name in calls] + [*waits]), "of the calls")


def compare_rust_link(root, header):
    """Compares the Rust declarations of the calls of include/pie_link.h, the codes of its errors, and their order."""
    text = read_source(root / "bindings/rust/src", "link*.rs")
    rust = Rust(text, {**RUST_TYPES, "RawPort": "pie_port", "RawExcerpt": "pie_excerpt", "Registers": "pie_registers", "Totals": "pie_totals"}, r"(?<!pub )")
    for name in ("pie_registers", "pie_totals"):
        yield from same(f"bindings/rust: {name}", rust.structs.get(name), header.structs.get(name), "in include/pie_link.h")
    yield from same("bindings/rust: calls of a link", rust.functions, header.functions, "in include/pie_link.h")
    found = {LINK_REFUSALS.get(name): int(number) for number, name in re.findall(r"(\d+) => LinkRefusal::(\w+)", text)}
    codes = {**Header((root / "include/pie.h").read_text()).constants, **header.constants}
    yield from same("bindings/rust: refusals of a link", found, {it: codes.get(it) for it in LINK_REFUSALS.values()}, "in include/pie_link.h")
    orders = {}
    for comment, name in re.findall(r"/\*((?:(?!\*/).)*?)\*/\n(?:static inline )?uint32_t pie_link_(\w+)\(", header.text, re.S):
        listed = re.search(r"Errors(?:, in this order)?: ([^.]*)\.", one_line(comment.replace("\n *", "\n")))
        # (Rust cannot express a closed port, or an ECN field out of its range)
        if listed:
            orders[name] = [it for it in re.findall(r"PIE_\w+", listed[1]) if it not in ("PIE_CLOSED", "PIE_OPEN", "PIE_APART", "PIE_BAD_ECN")]
    told = {name: [{**REFUSALS, **LINK_REFUSALS}.get(it) for it in re.findall(r"`(\w+)`", listed) if it != "Refused"]
            for listed, name in re.findall(r"/// # Errors\s*/// In this order: ([^.\[]*)\.[^\n]*\s*pub fn (\w+)", text)}
    yield from same("bindings/rust: the order of a link's refusals", told, {it: orders.get(it) for it in told}, "in include/pie_link.h")


def compare_flight(header, rust):
    """Compares the words of a flight recorder's memory, and its bounds."""
    bare = re.sub(r"/\*.*?\*/", "", header, flags=re.S)
    answers = {"DONE", "NONE", "GONE", "BROKEN", "STOPPED"}
    told = [it for it in re.findall(r"PIE_FLIGHT_(\w+) = (\d+)()", bare) if it[0] not in answers]
    told += re.findall(r"#define PIE_FLIGHT_(\w+) \(?(?:UINT64_C\()?(\d\w*)\)*(?: << (\d+)\))?", bare)
    found = re.findall(r"const (\w+): (?:usize|u64|u32) = (\w+)(?: << (\d+))?;", rust)
    here, there = ({name: int(number, 0) << int(shift or 0) for name, number, shift in it} for it in (found, told))
    if len(there) < 20:
        yield "include/pie_flight.h: its words were not found"
    yield from same("bindings/rust: a flight recorder's words", {it: here.get(it) for it in there}, there, "in include/pie_flight.h")
    here, there = re.findall(r"WIDTHS: \[u32; 9\] = \[(.*?)\]", rust), re.findall(r"pie_flight_widths\[9\] = {(.*?)}", bare)
    yield from same("bindings/rust: the bits of a flight recorder's parameters", here, there, "in include/pie_flight.h")


def compare_names(root):
    """Checks that no struct has the name of a function: in C++ the function would hide the struct, and `pie_x x{}` would be no declaration."""
    text = "".join(re.sub(r"/\*.*?\*/", "", path.read_text(), flags=re.S) for path in sorted((root / "include").glob("*.h")))
    structs, functions = set(re.findall(r"struct (\w+) \{", text)), set(re.findall(r"\b(pie_\w+)\(", text))
    for name in sorted(structs & functions):
        yield f"include: {name} is a struct and a function"


def compare_rates(header, table, page):
    """Checks the table of limits in docs/PARAMETERS.md, and the rates in docs/LIBRARY.md at which a default is 15 ms. Header and table have the same
    least limit."""
    most = int(bound(header.comments["pie_params"]["limit_bytes"])[1])
    leasts = [re.findall(r"200 ms at (?:that|the) rate(?:\*\*)?, at least (\d+) (?:bytes )?and at most 2\^30", one_line(re.sub(r"^ \* ?", "", it, flags=re.M))) for it in (header.text, table)]
    if any(len(it) != 1 for it in leasts) or leasts[0] != leasts[1]:
        yield f"include/pie.h, docs/PARAMETERS.md: the least limit is {leasts}"
        return
    limit = int(leasts[0][0])
    units = {"kbit/s": 10**3, "Mbit/s": 10**6, "Gbit/s": 10**9}
    rows = re.findall(r"\| (\d+) ([kMG]bit/s) \| (\d+) \| (\d+) \| (\d+) ms \| (\d+) \|", table)
    if len(rows) < 8:
        yield "docs/PARAMETERS.md: the table of rates was not found"
    for number, unit, wanted, chosen, time, packets in rows:
        rate = int(number) * units[unit]
        limit_bytes = min(max(-(-rate // 40), limit), most)
        right = (rate * 15 // 8000, limit_bytes, round(limit_bytes * 8000 / rate), min(limit_bytes // 64, 2**20))
        if right != (int(wanted), int(chosen), int(time), int(packets)):
            yield f"docs/PARAMETERS.md: the table of limits at {number} {unit}"
    found = re.findall(r"default of ([\d,]+) bytes(?: is|, which is) 15 ms at ([\d.]+) Mbit/s", one_line(page))
    if len(found) != 2:
        yield "docs/LIBRARY.md: the rates at which the defaults are 15 ms were not found"
    for bytes_held, rate in found:
        if abs(int(bytes_held.replace(",", "")) * 8 / 0.015 / 10**6 / float(rate) - 1) > 0.01:
            yield f"docs/LIBRARY.md: {bytes_held} bytes are not 15 ms at {rate} Mbit/s"


def compare_versions(header, root):
    """Checks that each other place with a version has PIE_VERSION of include/pie.h."""
    version = header.defines.get("PIE_VERSION")
    sources = sorted((root / "crates").glob("*/src/**/*.rt"))
    program = [str(it.relative_to(root)) for it in sources if "const VERSION: &str" in it.read_text()]
    for path, pattern in (*((it, r'const VERSION: &str = "(.*?)"') for it in program), ("bindings/rust/Cargo.toml", r'^version = "(.*?)"'),
                          ("bindings/rust/Cargo.lock", r'^name = "juniperbowls"\nversion = "(.*?)"'), ("man/pie.1", r'^\.TH PIE 1 "" "pie (.*?)"'),
                          ("README.md", r"^Version (\d[\w.]*\w) has"), ("CHANGELOG.md", r"^## .*?(\d+\.\d+\.\d+)")):
        if (root / path).exists():
            found = re.search(pattern, (root / path).read_text(), re.M)
            if not found or found[1] != version:
                yield f"{path}: version {found and found[1]}, and in include/pie.h {version}"


def read_source(folder, pattern, but="tests"):
    """Returns the text of the files with these names, except those that begin with `but`."""
    return "\n".join(path.read_text() for path in sorted(folder.rglob(pattern)) if not path.stem.startswith(but))


def differences(root):
    header = Header((root / "include/pie.h").read_text())
    text = "\n".join(read_source(root / f"crates/{it}/src", "*.rt") for it in ("pie_params", "pie_abi", "pie_c", "pie_explain"))
    source = Rust(text, TYPES, r'pub extern "C" ')
    rust_text = read_source(root / "bindings/rust/src", "*.rs", "link")
    rust = Rust(rust_text, RUST_TYPES, r"(?<!pub )")
    if len(source.functions) < 10 or len(source.structs) != 11:
        yield "crates/pie_c/src: its functions and structs were not found"
    yield from compare_declarations("include/pie.h", header, source, True)
    yield from compare_declarations("bindings/rust", rust, source, False)
    yield from compare_constants(header, source)
    yield from compare_rust_enums(rust_text, header)
    yield from compare_methods(rust_text, source)
    formats = (root / "docs/FORMATS.md").read_text()
    yield from compare_ranges(header, rust, formats)
    yield from compare_rates(header, (root / "docs/PARAMETERS.md").read_text(), (root / "docs/LIBRARY.md").read_text())
    yield from compare_refusals(header, rust_text, source)
    yield from compare_numbers(header, source)
    yield from compare_limits(header)
    recorder = "".join((root / f"bindings/rust/src/{it}.rs").read_text() for it in ("flight", "flight_event"))
    yield from compare_flight((root / "include/pie_flight.h").read_text(), recorder)
    yield from compare_link(root)
    yield from compare_versions(header, root)
    yield from compare_names(root)


PROBES = """/* Written by tests/libraries/header.py: each number of the comments of include/pie.h, asked of the library. */
#include "pie.h"
#include <stdio.h>
#include <string.h>
#define CHECK(c) do { if (!(c)) { fprintf(stderr, "include/pie.h: not so: %%s\\n", #c); failed = 1; } } while (0)
static uint32_t param(uint64_t *field, struct pie_params *params, uint64_t number) {
    uint64_t before = *field;
    *field = number;
    uint32_t bad = pie_check_params(params);
    *field = before;
    return bad;
}
static uint32_t state(uint64_t *field, struct pie_state *pie, uint64_t number) {
    uint64_t before = *field;
    *field = number;
    uint32_t code = pie_check_state(pie);
    *field = before;
    return code;
}
static uint32_t opening(uint64_t *field, struct pie_opening *o, uint64_t number) {
    struct pie_state pie;
    uint64_t before = *field;
    *field = number;
    uint32_t code = pie_open(&pie, o);
    *field = before;
    return code;
}
static struct pie_state pie;
static uint32_t arrive(uint32_t size, uint32_t ecn, uint64_t queued) { return pie_arrive(&pie, queued, size, 1, ecn, 0, 0); }
static uint32_t read(const char *text) { uint64_t time; return pie_read_time(text, strlen(text), &time); }
int main(void) {
    int failed = 0;
    struct pie_params p;
    struct pie_opening o;
    pie_default_params(&p);
    pie_default_opening(&o, 0);
    struct pie_opening by_rate = o;
    by_rate.choices = PIE_USUAL;
    CHECK(pie_open(&pie, &by_rate) == PIE_DONE);
%s
    return failed;
}
"""


def probes(header):
    lines = []
    for number, (name, text) in enumerate(header.comments["pie_params"].items(), 1):
        least, most = (int(it) for it in bound(text))
        lines.append(f"p.{name} == {int(default(text))}u")
        lines += [f"param(&p.{name}, &p, {it}u) == 0" for it in (least, most)]
        lines += [f"param(&p.{name}, &p, {it}u) == {number}" for it in (least - 1, most + 1) if it >= 0]
        if "power of two" in text:
            lines += [f"param(&p.{name}, &p, {3 * least}u) == {number}", f"param(&p.{name}, &p, {2 * least}u) == 0"]
    for name, text in header.comments["pie_opening"].items():
        if default(text) is not None:
            lines.append(f"o.{name} == {int(default(text))}u")
        if bound(text):
            least, most = (int(it) for it in bound(text))
            lines += [f"opening(&o.{name}, &o, {it}u) == PIE_DONE" for it in (least, most)]
            lines += [f"opening(&o.{name}, &o, {it}u) != PIE_DONE" for it in (least - 1, most + 1) if it >= 0]
    for name, text in header.comments["pie_state"].items():
        if bound(text):
            most = int(bound(text)[1])
            lines += [f"state(&pie.{name}, &pie, {most}u) == PIE_DONE", f"state(&pie.{name}, &pie, {most + 1}u) == PIE_BAD_STATE"]
    told = {name: [int(it) for it in numbers(text)] for name, text in header.codes.items()}
    least, most = told["PIE_BAD_SIZE"]
    lines += [f"arrive({it}, 0, 0) < 100 && pie_depart(&pie, {it}, 0, 0) == PIE_DONE" for it in (least, most)]
    lines += [f"arrive({it}, 0, 0) == PIE_BAD_SIZE && pie_depart(&pie, {it}, 0, 0) == PIE_BAD_SIZE" for it in (least - 1, most + 1)]
    ecn, queued = told["PIE_BAD_ECN"][0], told["PIE_BAD_QUEUE"][0]
    lines += [f"arrive(1, {ecn}, 0) < 100", f"arrive(1, {ecn + 1}, 0) == PIE_BAD_ECN"]
    lines += [f"arrive(1, 0, {queued}u) < 100", f"arrive(1, 0, {queued + 1}u) == PIE_BAD_QUEUE"]
    lines += [f"pie_depart(&pie, 1, {queued}u, 0) == PIE_DONE", f"pie_depart(&pie, 1, {queued + 1}u, 0) == PIE_BAD_QUEUE"]
    for profile in (0, 1, 2, 3):
        lines.append(f"opening(&o.profile, &o, {profile}) == {'PIE_DONE' if profile in told['PIE_BAD_PROFILE'] else 'PIE_BAD_PROFILE'}")
    decimals, most = told["PIE_TOO_PRECISE"][-1], told["PIE_TOO_GREAT"][-1]
    lines += [f"read(\"0.{'0' * more}s\") == {code}" for more, code in ((decimals, "PIE_DONE"), (decimals + 1, "PIE_TOO_PRECISE"))]
    lines += [f"read(\"{it}ns\") == {code}" for it, code in ((most, "PIE_DONE"), (most + 1, "PIE_TOO_GREAT"))]
    moment = told["PIE_BAD_MOMENT"][-1]
    lines += [f"pie_empty(&pie, {moment + 1}u) == PIE_BAD_MOMENT", f"pie_empty(&pie, {moment}u) == PIE_DONE"]
    return PROBES % "\n".join(f"    CHECK({line});" for line in lines)


def main():
    words = sys.argv[1:]
    wants_probes = words[:1] == ["--probes"]
    root = Path((words[1:] if wants_probes else words) and words[-1] or Path(__file__).resolve().parents[2])
    if wants_probes:
        print(probes(Header((root / "include/pie.h").read_text())))
        return
    found = list(differences(root))
    print("\n".join(found) or "tests/libraries/header.py: include/pie.h and the Rust declarations are those of crates/pie_c/src")
    sys.exit(bool(found))


main()
