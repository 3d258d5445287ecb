#!/usr/bin/env python3
"""Compares docs/FORMATS.md with the table of records in crates/pie_trace/src/diagnosis/table.rt, which has the layout of `rt
fmt`, and with the bounds in bounds.rt beside it:

- Each form of a record has the fields of the page, with the same names in the same order, and their number.
- Each field of a number has the bits of the page, and each field of a keyword its keywords.
- Each parameter and each limit has the range of the page.
- The checks of a preamble have the order of the page, in bounds.rt and in crates/pie_aqm/src/soundness.rt.

tests/program/damaged_texts.py compares the program's lines with a table of its own.

usage: tests/documents/records.py
needs: nothing
"""
import os
import re
import sys

sys.path.insert(0, f"{os.path.dirname(os.path.abspath(__file__))}/../shared")
from checks import ROOT, check, finish  # noqa: E402

CRATE = ROOT / "crates/pie_trace/src/diagnosis"
PAGE = (ROOT / "docs/FORMATS.md").read_text()
FLAT = " ".join(PAGE.split())
# The numbers that the page names in words, or with more than one range.
BITS = {16: 2**16 - 1, 32: 2**32 - 1, 64: 2**64 - 1, 128: 2**128 - 1}
# The fields of `resume` that have other bits than the other fields of their names.
BITS_OF_STATE = {"packets": 64}
# The words of the page for a register of the code.
REGISTERS = {
    "Params": "a parameter in force", "Moment": "a moment above", "Prob": "`<prob>`", "OldDelay": "`<old>`", "Accu": "`<accu>`", "Burst": "`<burst>`",
    "Last": "`<last>`", "Average": "`<average>`", "CycleStart": "`<start>`", "CycleCount": "`<counted>`", "Waited": "field 44", "Active": "`<active>`",
}


def numbers(text):
    """Returns the value of a number such as 65536, 1 << 20, 10^12 or 1_000."""
    text = text.replace("_", "").strip()
    base, mark, power = re.fullmatch(r"(\d+)(?: ?(<<|\^) ?(\d+))?", text).groups()
    return int(base) << int(power) if mark == "<<" else int(base) ** int(power) if mark else int(base)


def table():
    """Returns the forms of table.rt: by place and kind, the list of their fields, each with its name and its content."""
    code = (CRATE / "table.rt").read_text()
    constants = {name: numbers(value) for name, value in re.findall(r"^(?:pub\(crate\) )?const (\w+): u128 = ([\d_]+);", code, re.M)}
    fields, parts = {}, {}

    def field(text):
        kind, name, content = re.fullmatch(r'Field::(\w+)\("(\w+)"(?:, ([^()]+))?\)', text).groups()
        if kind in ("Parameter", "Threshold"):
            return name, (kind, constants["U64"])
        return name, content.removeprefix("Keywords::") if kind == "Keyword" else (kind, constants.get(content) or int(content))

    one = r'Field::\w+\("\w+"(?:, [^()]+)?\)'
    for name, value in re.findall(rf"^const (\w+): Field =\s+({one});", code, re.M):
        fields[name] = field(value)
    for name, count, value in re.findall(r"^(?:pub\(crate\) )?const (\w+): \[Field; (\d+)\] =\s+\[(.*?)\];", code, re.M | re.S):
        parts[name] = [fields.get(it) or field(it) for it in re.findall(rf"{one}|\b[A-Z]+\b", value)]
        check(len(parts[name]) == int(count), f"{name} has {count} fields, and not", parts[name])
    forms = {}
    for place, kind, names in re.findall(r"Form::(\w+)\(\s*(?:Kind::(\w+),\s*)?&\[(.*?)\]", code.partition("FORMS: ")[2], re.S):
        kind = (kind or place).lower()
        forms.setdefault((place, kind), []).append([it for name in re.findall(r"&(\w+)", names) for it in parts[name]])
    return forms


def names(fields):
    return [name for name, _ in fields]


def rows(heading):
    """Returns the cells of each row of the first table below a heading of the page."""
    section = PAGE.partition(f"\n## {heading}\n")[2].partition("\n## ")[0]
    return [[cell.strip() for cell in re.split(r"(?<!\\)\|", line)[1:-1]] for line in section.splitlines() if line.startswith("|")]


def named(text, nine):
    """Returns the names in angle brackets, with those of the nine parameters for <nine>."""
    return [it for name in re.findall(r"<(\w+)>", text) for it in (nine if name == "nine" else [name])]


def check_openings(forms, nine):
    cells = {row[0]: row[1:] for row in rows("Three versions")}
    for number, kinds in enumerate((["open", "rolling"], ["open2"], ["open3"])):
        wanted = named(cells["first record"][number], nine)
        counts = [int(it) for it in re.findall(r"\d+", cells["number of fields, and with `<nine>` at the end"][number])]
        for kind in kinds:
            has = [names(form) for form in forms["First", kind]]
            with_decay = wanted[: wanted.index("mode")] + ["decay"] + wanted[wanted.index("mode") :] if kind == "open3" else None
            short = [wanted, with_decay] if with_decay else [wanted]
            check(has == short + [form + nine for form in short], f"the fields of {kind}", has)
            check(counts == [len(form) + 1 for form in has if "decay" not in form], f"the numbers of fields of {kind}", counts)


def check_traces(forms, nine):
    seen = set()
    for record, meaning in rows("Trace records"):
        found = re.fullmatch(r"`(\w+)(?:,[<>\w,]+)?`", record)
        if not found:
            continue
        kind = found[1]
        form = (forms.get(("Trace", kind)) or forms.get(("FromThree", kind)) or [[]])[0]
        count = int(re.match(r"(\d+) fields?", meaning)[1])
        check(names(form) == named(record, nine), f"the fields of {kind} in a trace", names(form))
        check(count == len(form) + 1, f"the number of fields of {kind} in a trace", count)
        seen.add(kind)
    check(seen == {kind for place, kind in forms if place in ("Trace", "FromThree")}, "the kinds of a trace", seen)


def check_histories(forms, nine, statistics):
    known = {kind: form for (place, kind), form in forms.items() if place == "History"}
    trace = {kind: names(form[0]) for (place, kind), form in forms.items() if place == "Trace"}
    seen = set()
    for record, text in rows("History records"):
        kinds = re.findall(r"`(\w+)`", record)
        if text.startswith("its fields and"):
            said = [name or ("verdict" if word == "verdict" else "answer") for word, name in re.findall(r"(verdict|`(?:empty|left|done)\b)|<(\w+)>", text)]
            counts = [int(it) for it in re.findall(r"\d+", text)]
            has = [len(form) + 1 for kind in kinds for form in known[kind]]
            check(counts == has, f"the numbers of fields of {kinds} in a history", has)
            for kind in kinds:
                answers = [names(form)[len(trace[kind]) :] for form in known[kind]]
                check(all(names(form)[: len(trace[kind])] == trace[kind] for form in known[kind]), f"the fields of {kind} in a history")
                check([it for answer in answers for it in answer] == said, f"the answers of {kind}", answers)
            seen.update(kinds)
        elif kinds == ["show"]:
            early, later = (names(forms[place, "shown"][0]) for place in ("HistoryOfOne", "HistoryFromTwo"))
            check(early + ["active"] == later == named(text, nine), "the fields of shown", later)
            seen.add("shown")
        elif kinds == ["tally"]:
            check(names(known["tallied"][0]) == statistics and "16 fields" in text, "the fields of tallied", known["tallied"])
            seen.add("tallied")
        elif found := re.match(r"`(\w+),", text):
            check(names(known[found[1]][0]) == named(text, nine), f"the fields of {found[1]}", known[found[1]])
            seen.add(found[1])
    check(seen == {kind for place, kind in forms if place.startswith("History")}, "the kinds of a history", seen)


def check_excerpts(forms, nine, statistics):
    plain, decayed = (names(form) for form in forms["Resume", "resume"])
    check(decayed == plain[: plain.index("mode")] + ["decay"] + plain[plain.index("mode") :], "the fields of resume with the decay", decayed)
    check("`resume` has 60 fields. With `<decay>` it has 61" in FLAT and len(plain) == 59, "the number of fields of resume", len(plain) + 1)
    opening = next(names(form) for form in forms["First", "open3"] if len(form) == 19)
    expected = {}
    for cells in rows("Excerpts"):
        if re.match(r"\d", cells[0]):
            ends = [int(it) for it in re.findall(r"\d+", cells[0])]
            content = opening if ends[0] == 1 else statistics if ends[-1] == 60 else named(cells[1].partition(":")[0], nine)
            places = range(max(ends[0], 2), ends[-1] + 1)
            check(len(content) == len(places), "the fields", cells[0], content)
            expected.update(zip(places, content))
    check([expected.get(place) for place in range(2, 61)] == plain, "the fields of resume", expected, plain)
    found = re.search(r"^\| `queued,(\S+)` \| (\d+) fields", PAGE, re.M)
    form = forms["Queued", "queued"][0]
    check(names(form) == named(found[1], nine) and int(found[2]) == len(form) + 1, "the fields of queued", form)


def check_contents(forms):
    sentence = FLAT.partition("The field `caller` has")[2].partition("every other number has 64")[0]
    check("`packets` (except field 32 of `resume`)" in sentence, "the bits of field 32 of resume", sentence)
    bits = {"caller": int(re.match(r" (\d+) bits", sentence)[1])}
    for part in sentence.split(";")[1:]:
        if found := re.search(r"ha(?:s|ve) (\d+)", part):
            bits.update({name: int(found[1]) for name in re.findall(r"`(\w+)`", part.partition(" ha")[0])})
    keywords = keyword_sets()
    for (place, kind), its in forms.items():
        for form in its:
            for number, (name, content) in enumerate(form):
                if isinstance(content, str):
                    check(content in keywords, f"{kind}: the keywords of {name}", content)
                    continue
                is_state = place == "Resume" and number > names(form).index("dq_threshold")
                wanted = BITS[BITS_OF_STATE[name] if is_state and name in BITS_OF_STATE else bits.get(name, 64)]
                if name in ("measuring", "active"):
                    wanted = 1
                if kind == "clock" and name == "moment":
                    wanted = 2**60 - 1
                check(content[0] == "OfCycle" or content[1] == wanted, f"{kind}: the greatest number of {name}", content, wanted)


def keyword_sets():
    """Compares the sets of keywords with the page, and returns their names."""
    code, words = (CRATE / "keywords.rt").read_text(), (ROOT / "crates/pie_record/src/words.rt").read_text()
    spelt = dict(re.findall(r'\b(\w+::\w+) => b?"(\w+)"', words))
    sets = {}
    for name, word in re.findall(r"\(Keywords::(\w+), \d\) =>\s+\{?\s*\w*?[\w:]*?\(?(\w+::\w+)\)?[.,\n]", code):
        sets.setdefault(name, []).append(spelt[word])
    cells = {re.sub(r"\W", "", row[0]).capitalize(): [re.match(r"`(\w+)`", cell)[1] for cell in row[1:]] for row in rows("Three versions") if row[0].startswith("`<")}
    for name, its in cells.items():
        check(sets.get(name) == its, f"the keywords of {name}", sets.get(name), its)
    ecn = re.findall(r"`(\w+)`", FLAT.partition("The ECN keywords are")[2].partition("(RFC 3168)")[0])
    check(sorted(sets["Ecn"]) == sorted(ecn), "the ECN keywords", sets["Ecn"])
    decisions = [row[0].strip("`") for row in rows("Records, numbers, words") if len(row) == 2][2:]
    check(decisions == [it for name in ("Verdict", "Left", "Empty", "Done") for it in sets[name]], "the keywords of a decision", decisions)
    check(sets["Profile"] == ["1", "2"] and sets["Mode"] == ["bounded", "rolling"], "the profiles and modes", sets["Profile"], sets["Mode"])
    return sets


def check_ranges(nine):
    code = (CRATE / "bounds.rt").read_text()
    has = [(name, numbers(least), numbers(most)) for name, least, most in re.findall(r'Field::Parameter\("(\w+)", ([^,]+), ([^,)]+)\)', (CRATE / "table.rt").read_text())]
    wanted = []
    for row in rows("Records, numbers, words"):
        if len(row) == 4 and (found := re.match(r"(\d+) to ([\d^]+)", row[1])):
            wanted += [(name, int(found[1]), numbers(found[2])) for name in re.findall(r"`(\w+)`", row[0].partition(", the")[0])]
    check(has == wanted and nine == [name for name, *_ in has] + ["dq_threshold"], "the ranges of the parameters", has, wanted)
    limits = re.search(r"is_of_version_three \{\s+\(([^,]+), ([^)]+)\)\s+\} else \{\s+\(([^,]+), ([^)]+)\)", code).groups()
    cells = next(row for row in rows("Three versions") if row[0].startswith("range of"))
    found = [[numbers(it) for it in re.findall(r"1 to ([\d^]+)", cell)] for cell in cells[1:]]
    check(found == [[numbers(it) for it in limits[2:]]] * 2 + [[numbers(it) for it in limits[:2]]], "the ranges of the limits", limits, found)
    check('self.range("tail", 1, 1 << 20);' in code and "the event log holds (1 to 1048576)" in FLAT, "the range of `tail`")


def check_order():
    """Compares the order of the checks of a preamble with that of the code."""
    sound = re.findall(r"^    Register::(\w+),$", (ROOT / "crates/pie_aqm/src/soundness.rt").read_text(), re.M)
    listed = FLAT.partition("Impossible are, in this order:")[2].partition("6. Each statistic")[0]
    places = [listed.find(REGISTERS[register]) for register in sound]
    check(sound and min(places) >= 0 and places == sorted(places), f"docs/FORMATS.md lists the checks of a preamble in another order than {sound}")
    code = (CRATE / "bounds.rt").read_text().partition("fn check_registers")[2].partition("\n    }\n")[0]
    checked = re.findall(r'self\.(?:up_to|only)\("(\w+)"', code)
    words = [it.strip("`<>").replace("field 44", "last_wait").replace("a moment above", "moment") for it in (REGISTERS[register] for register in sound[1:])]
    check(checked == words, "the order of the checks of a preamble in bounds.rt", checked, words)


def main():
    forms = table()
    nine = names(forms["Trace", "params"][0])[2:]
    statistics = re.findall(r"`(\w+)`", FLAT.partition("The fifteen statistics are, in this order:")[2].partition(" A record is refused")[0])
    check_openings(forms, nine)
    check_traces(forms, nine)
    check_histories(forms, nine, statistics)
    check_excerpts(forms, nine, statistics)
    check_contents(forms)
    check_ranges(nine)
    check_order()
    finish()


main()
