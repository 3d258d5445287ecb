#!/usr/bin/env python3
"""Checks what comments, pages and proofs cite. The exit status is 1 if a check fails.

No crate may cite another crate's proofs: the lower crate should have a clause or a law. LEFT has the number of lines of
a crate that still do; their sum may only shrink, and no crate may be added.

A name in backticks must exist: in a comment of crates/, on one of PAGES, and in docs/MODEL.md. The script compares
whole words. A comment may cite
- what its crate declares, imports or calls: a clause, function, type, field, variant, definition, lemma, module;
- what a lower crate declares, if the crate uses it;
- a name of several words, or with a capital letter, that any crate declares;
- a keyword, that is, a text of one word in the code of any crate.

In parentheses, or after "clause", a function's comment may cite no other function's clause, and a file's head no
clause of another crate; a name that an item of the crate has too is accepted. A section of docs/MODEL.md about crates
may cite names of those crates, of crates that the paragraph names, and of lower crates. OTHERS has the names of other
languages and programs.

usage: tests/documents/citations.py
needs: nothing
"""
import os
import re
import sys

sys.path.insert(0, f"{os.path.dirname(os.path.abspath(__file__))}/../shared")
from checks import NAME, ROOT, lower_crates  # noqa: E402

CITED = re.compile(r"\bRattle\.(\w+)\.proofs\b")
LEFT = {"pie_aqm": 3, "pie_audit": 1, "pie_book": 3, "pie_cut": 6, "pie_excerpt": 2, "pie_explain": 5, "pie_guarantees": 5,
        "pie_storm": 2, "pie_trace": 5}

PAGES = ("ARCHITECTURE.md", "PROMISES.md", "GUARANTEES.md", "PROVING.md")
# of files whose names are on pages
ENDINGS = {"antt", "rt", "txt"}
OTHERS = {
    "Drop", "None", "MAX", "u16", "unsafe", "wrapping_sub",  # Rust
    "using", "requires", "Lts", "CRATE", "get_flag",  # the toolchain; a crate's name; clap
    "tc", "stab", "kbps", "tbit", "kibit", "kibps", "bytemode",  # Linux's tc, and its scheduler
    "pie_qdisc_enqueue", "pie_drop_early", "pie_process_dequeue", "pie_calculate_probability", "pie_timer", "pie_vars_init",
    "pie_change", "INET_ECN_set_ce", "skb_protocol", "eth_type_vlan", "fq_pie_classify", "qdisc_dequeue_internal",
    "sch_pie", "sch_fq_pie", "pie_init", "pie_stats", "pie_vars", "fq_pie_change", "fq_pie_hash", "fq_pie_init", "fq_pie_qdisc_enqueue", "fq_pie_reset",
    "fq_pie_timer", "ecn_prob", "ktime_get", "psched_get_time", "psched_mtu", "qdisc_qlen", "skb", "len", "PIE_SCALE", "MAX_PROB", "QUEUE_THRESHOLD",
    "DTIME_INVALID", "DQCOUNT_INVALID", "qdisc_pkt_len", "watch", "a_dq_tstamp",  # also pie-watch and its columns
    "u00",  # JSON
    "rte_pie",  # DPDK
}
COMMENT = re.compile(r"^\s*(?:(///|//!|//|--) ?)(.*)$")
# a name, with or without the names of its type or value before it, and with or without arguments
QUOTED = re.compile(r"`([A-Za-z_]\w*(?:(?:::|\.)\w+)*)(?:\([^`]*\))?`")
SPAN = re.compile(r"`([^`]+)`")
# text in parentheses, and a list of names after "clause"
ASIDE = re.compile(r"\([^()]*`[^()]*\)|\b[Cc]lauses? `\w+`(?:(?:, | and |, and )`\w+`)*")
CLAUSE = re.compile(r"\b(?:ensures|requires|invariant|decreases)\*? (\w+) \{")
FIELD = re.compile(r"^ +pub (\w+) :", re.M)
ITEM = re.compile(r"\b(?:fn|mod|struct|enum|union|trait|type|const|static|crate|record|data|"
                  r"abbrev pub|unfoldable pub|^pub(?= \w+ :)) (\w+)", re.M)
# the parts of a crate other than clauses and items
DECLARED = [re.compile(it, re.M) for it in (
    r"^ *(\w+)(?: ?[({].*)?,$",  # variants
    r"(?<![\w ])([\w ]+):(?!:)",  # fields, parameters, lemmas
    r"\b(?:let|ghost|for) (?:mut )?(\w+)|\b(\w+) = |λ ([\w ]+)\.",  # values
    r"\buse ([^;]*)",  # imports
    r"(?:\.|::)(\w+)(?:::<[^(]*>)?\(",  # functions that it calls
)]
KEYWORD = re.compile(r'"(\w+)"')
MUTATION = re.compile(r"^name: (\w+)", re.M)


class Crate:
    """A crate: its sources, and the comments in them; the words of its code; all names that it declares, and apart from them the names of its
    items and those of its clauses; its texts of one word; the names of its mutations."""

    def __init__(self, folder):
        self.name = folder.name
        self.sources = {path: path.read_text().splitlines() for path in sources(folder)}
        self.comments = [(path, *comment) for path, lines in self.sources.items() for comment in comments(lines)]
        code = "\n".join(code_of(line) for lines in self.sources.values() for line in lines)
        self.words = words_of(code)
        self.items = {self.name, *(path.stem for path in self.sources), *ITEM.findall(code)}
        self.clauses = {*CLAUSE.findall(code), *FIELD.findall(code)}
        self.others = set().union(*(words_of(str(it.findall(code))) for it in DECLARED))
        self.declared = self.items | self.clauses | self.others
        self.keywords = set(KEYWORD.findall(code))
        edits = folder / "mutations.txt"
        self.mutations = {"mutations", *MUTATION.findall(edits.read_text())} if edits.exists() else set()


def words_of(text):
    return set(re.findall(r"[A-Za-z_]\w*", text))


def sources(crate):
    """Returns the files of a crate with code, definitions and proofs, except those that the toolchain writes."""
    return sorted(path for kind in ("antt", "rt") for path in crate.rglob(f"*.{kind}") if "out" not in path.relative_to(crate).parts)


def code_of(line):
    """Returns a line of a source without its comment."""
    return "" if COMMENT.match(line) else line if '"' in line else re.sub(r"(?://|--) .*", "", line)


def comments(lines):
    """Yields the comments of a source: the number of the first line, the mark, the text, and the number of the line
    after it."""
    start, mark, texts = 0, "", []
    for number, line in enumerate([*lines, ""], 1):
        found = COMMENT.match(line)
        if texts and not (found and found[1] == mark):
            yield start, mark, "\n".join(texts), number
            texts = []
        if found:
            start, mark = (start, mark) if texts else (number, found[1])
            texts.append(found[2])


def own_clauses(lines, number):
    """Returns the names of the clauses of the function whose head begins at this line, or None if no head does."""
    head = []
    for line in lines[number - 1 :]:
        if re.match(r"\s*(?:[{}]|$)|.*;$|.*\{\}$", line):
            break
        head.append(line)
    is_function = re.search(r"^ *(?:pub(?:\(\w+\))? )?(?:const |unsafe )*(?:extern \"C\" )?fn ", "\n".join(head), re.M)
    return set(CLAUSE.findall("\n".join(head))) if is_function else None


def quoted(text, first, form=QUOTED):
    """Yields each text in backticks that has this form in a text that begins at line `first`, with the number of its line."""
    for found in form.finditer(text):
        yield first + text[: found.start()].count("\n"), found[1]


def distinctive(names):
    """Returns the names of several words or with a capital letter, which hardly mean two things in the repository."""
    return {name for name in names if "_" in name or not name.islower()}


def everywhere(crates):
    """Returns the names that any comment and page may cite."""
    return OTHERS.union(crates, *(crate.keywords for crate in crates.values()))


def names_in(crate, crates, below):
    """Returns the names that a crate declares, and those of lower crates that it uses."""
    return crate.declared | crate.words & set().union(*(crates[it].declared for it in below.get(crate.name, ()) if it in crates))


def unknown_names(crates):
    """Yields the names in comments that do not exist."""
    below, shared = lower_crates(), everywhere(crates).union(*(distinctive(crate.declared) for crate in crates.values()))
    for crate in crates.values():
        known = shared | names_in(crate, crates, below)
        for path, start, _, text, _ in crate.comments:
            for number, name in quoted(text, start):
                if not words_of(name) <= known:
                    yield f"{path.relative_to(ROOT)}:{number}: nothing has the name `{name}`"


def unknown_in_expressions(crates):
    """Yields the words in expressions in comments, except paths, that the code does not have."""
    shared = everywhere(crates).union(*(distinctive(crate.declared) for crate in crates.values()))
    for crate in crates.values():
        known = crate.words | crate.declared | shared
        for path, start, _, text, _ in crate.comments:
            for number, expression in quoted(text, start, SPAN):
                is_expression = not QUOTED.fullmatch(f"`{expression}`") and "/" not in expression
                if is_expression and (missing := words_of(expression) - known):
                    yield f"{path.relative_to(ROOT)}:{number}: nothing has the name `{min(missing)}`"


def unknown_clauses(crates):
    """Yields the names in comments of functions and of files that should be those of clauses, and are not."""
    shared = OTHERS.union(crates, *(distinctive(crate.items) for crate in crates.values()))
    for crate in crates.values():
        for path, start, mark, text, after in crate.comments:
            clauses = own_clauses(crate.sources[path], after) if mark == "///" else crate.clauses if mark == "//!" else None
            for aside in ASIDE.finditer(text) if clauses is not None else ():
                for number, name in quoted(aside[0], start + text[: aside.start()].count("\n")):
                    if name.isidentifier() and not any(name in names for names in (clauses, crate.items, shared)):
                        yield f"{path.relative_to(ROOT)}:{number}: no clause has the name `{name}`"


def names_on_pages(crates):
    """Returns the names that a page may cite."""
    files = [*(ROOT / "include").glob("*.h"), ROOT / "bindings/kernel/Kbuild", ROOT / "crates.txt"]
    return everywhere(crates).union(*(crate.declared | crate.mutations for crate in crates.values()), *(words_of(it.read_text()) for it in files))


def unknown_on_pages(crates):
    """Yields the names on the pages that do not exist."""
    known = names_on_pages(crates)
    for page in PAGES:
        for number, name in quoted((ROOT / "docs" / page).read_text(), 1):
            if not words_of(name) - ENDINGS <= known:
                yield f"docs/{page}:{number}: nothing has the name `{name}`"


def unknown_in_model(crates):
    """Yields the names in docs/MODEL.md that do not exist: below a heading with crates, in those crates, those that the
    paragraph names, and the lower crates that they use."""
    number, text, below = 1, (ROOT / "docs/MODEL.md").read_text(), lower_crates()
    of_all, shared, own = names_on_pages(crates), everywhere(crates), {name: names_in(crate, crates, below) for name, crate in crates.items()}
    for section in re.split(r"(?m)^(?=## )", text):
        heads = [it for _, it in quoted(section.partition("\n")[0], 0) if it in crates]
        for paragraph in re.split(r"(?m)^(?=- |\n)", section):
            about = heads and heads + [it for _, it in quoted(paragraph, 0) if it in crates]
            known = shared.union(*(own[it] for it in about)) if about else of_all
            for place, name in quoted(paragraph, number):
                if not words_of(name) - ENDINGS <= known:
                    yield f"docs/MODEL.md:{place}: nothing in {', '.join(about) or 'the crates'} has the name `{name}`"
            number += paragraph.count("\n")


def citing(crate, own):
    """Yields the lines of a crate that cite the proofs of another of the repository."""
    for path, lines in crate.sources.items():
        for number, line in enumerate(lines, 1):
            if any(name in own and name != crate.name for name in CITED.findall(line)):
                yield f"{path.relative_to(ROOT)}:{number}: {line.strip()}"


def main():
    crates = {path.name: Crate(path) for path in sorted((ROOT / "crates").iterdir()) if (path / "src").is_dir()}
    failed = False
    for crate in crates.values():
        lines, most = list(citing(crate, crates)), LEFT.get(crate.name, 0)
        if len(lines) > most:
            failed = True
            print("\n".join([f"{NAME}: {crate.name} cites others' proofs in {len(lines)} lines, and not in {most}:", *lines]))
        elif len(lines) < most:
            print(f"{NAME}: {crate.name} cites others' proofs in {len(lines)} lines: lower its {most} in LEFT")
    checks = (unknown_names, unknown_in_expressions, unknown_clauses, unknown_on_pages, unknown_in_model)
    unknown = dict.fromkeys(line for check in checks for line in check(crates))
    if unknown:
        print("\n".join([f"{NAME}: comments and pages cite names that do not exist:", *unknown]))
    sys.exit(failed or bool(unknown))


main()
