"""Shared by the Python scripts: the contracts of crates/pie_guarantees."""
import re

from checks import ROOT

LAWS = ROOT / "crates/pie_guarantees"
WRAPPED = re.compile(r"^(?:AtEachEvent|AtEachHistory|BetweenAny) \(λ [^.]*\. (.*)\)$")


def spaced(text):
    """Returns a text with one space in place of each gap."""
    return " ".join(text.split())


def clauses():
    """Returns the clauses of each law: their texts by their names. A clause without a name has the name of its law."""
    found = {}
    for path in sorted((LAWS / "src").glob("*.rt")):
        for law, contract in re.findall(r"^pub fn (\w+)\(\)(.*?)^\{", path.read_text(), re.M | re.S):
            named = re.findall(r"ensures (?:(\w+) )?\{ (.*?) \}(?=\s*(?:ensures|$))", contract, re.S)
            found[law] = {name or law: spaced(text) for name, text in named}
    return found


def split(text):
    """Returns the parts of a text between the arrows that are in no parentheses."""
    found, depth = [""], 0
    for letter in text:
        depth += (letter in "({") - (letter in ")}")
        if letter == "→" and not depth:
            found.append("")
        else:
            found[-1] += letter
    return [part.strip() for part in found]


def parts(text):
    """Returns the conditions of a clause, without variables and IsLawful, and its conclusion."""
    *before, last = split(re.sub(r"^let .*? in (?=\()", "", text))
    conditions = [part for part in before if not re.match(r"^\([\w ]+ : [^≡≤<]*\)(?: \(\w+ : [^≡≤<]*\))*$", part) and not part.startswith("IsLawful ")]
    if wrapped := WRAPPED.match(last):
        more, last = parts(wrapped[1])
        conditions += more
    return conditions, last


def records():
    """Returns the fields of each record of the specifications: their texts by their names."""
    found = {}
    for path in sorted((LAWS / "specs").glob("*.antt")):
        for name, body in re.findall(r"^pub record (\w+) .* where\n((?:  .*\n)+)", path.read_text(), re.M):
            found[name] = {field: spaced(text) for field, text in re.findall(r"^  pub (\w+) : (.*(?:\n      .*)*)", body, re.M)}
    return found
