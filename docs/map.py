#!/usr/bin/env python3
"""Draws the map of the crates, docs/crates.svg, from crates.txt: a box for each group, an arrow from each crate to
its dependencies, without the arrows that others imply, and in colour the three paths of a packet. It also writes
the list of crates in docs/ARCHITECTURE.md. It needs graphviz (Debian's package).

usage: docs/map.py           draws and writes
       docs/map.py --check   draws nothing (needs no graphviz): the exit status is 1 if picture or list are not those of
                             crates.txt
"""
import hashlib
import html
import re
import subprocess
import sys
import textwrap
from pathlib import Path

DOCS = Path(__file__).resolve().parent
PICTURE = DOCS / "crates.svg"
PAGE = DOCS / "ARCHITECTURE.md"
BEGIN, END = "<!-- by docs/map.py from crates.txt -->", "<!-- to here -->"
# the crate at which packets enter, the colour, and the path of each: each crate depends on the next
WAYS = {"a trace": ("#c07000", ["pie", "pie_commands", "pie_trace", "pie_book", "pie_aqm", "pie_early"]),
        "a call from C": ("#6a3fb5", ["pie_c", "pie_aqm", "pie_early"]),
        "a thread at a link": ("#b0305c", ["pie_link", "pie_book", "pie_aqm", "pie_early"])}
COLOURS = {"rules": "#e8f1e4", "types": "#f4f4ec", "controller": "#cfe5c4", "book": "#dce6f5", "text": "#f5f0d8", "threads": "#f3dfe6", "laws": "#f6e9d8", "C": "#e3ddf0",
           "program": "#e6eaec", "tests and measures": "#ffffff"}


def groups():
    """Returns the line of each group and its crates: each with its dependencies here, and its description."""
    found = []
    for line in (DOCS.parent / "crates.txt").read_text().splitlines():
        words, _, said = line.partition("#")
        if line.startswith("## "):
            name, _, meaning = line[3:].partition(": ")
            found.append((name, meaning, {}))
        elif ":" in words:
            head, _, below = words.partition(":")
            found[-1][2][head.split()[0]] = (below.split(), said.strip())
    return found


def arrows(crates):
    """Returns each crate with its direct dependencies, without those that another of these implies."""
    def under(crate):
        return {it for low in crates[crate][0] if low in crates for it in {low, *under(low)}}
    for crate, (below, _) in crates.items():
        direct = [it for it in below if it in crates]
        implied = {low for it in direct for low in under(it)}
        yield from ((crate, it) for it in direct if it not in implied)


def all_crates():
    return {name: it for _, _, crates in groups() for name, it in crates.items()}


def steps():
    """Returns each step of each path: the crate, the one below it, and the path's colour."""
    return [(*step, colour) for colour, way in WAYS.values() for step in zip(way, way[1:])]


def drawing():
    """Returns the input of `dot`."""
    lines = ["digraph crates {", 'rankdir=TB; newrank=true; compound=true; nodesep=0.18; ranksep=0.42; fontname="Helvetica"; fontsize=15;',
             'node [shape=box, style="filled,rounded", fillcolor=white, fontname="Helvetica", fontsize=13, margin="0.09,0.05", height=0.3];',
             'edge [arrowsize=0.6, color="#555555"];']
    for number, (name, _, crates) in enumerate(groups()):
        lines.append(f'subgraph cluster_{number} {{ label="{name}"; labeljust=r; style="filled,rounded"; color="#888888"; '
                     f'fillcolor="{COLOURS.get(name, "#eeeeee")}";')
        lines += [f'{crate} [label=<<b>{crate}</b><br/><font point-size="11">{said}</font>>];' for crate, (_, said) in crates.items()]
        lines.append("}")
    for door, (colour, way) in WAYS.items():
        lines.append(f'"{door}" [shape=cds, fillcolor="{colour}", fontcolor=white]; "{door}" -> {way[0]} [color="{colour}", penwidth=2.4];')
    lines += [f'{crate} -> {below} [color="{colour}", penwidth=2.4];' for crate, below, colour in steps()]
    on_a_way = {step[:2] for step in steps()}
    lines += [f"{crate} -> {below};" for crate, below in arrows(all_crates()) if (crate, below) not in on_a_way]
    return "\n".join([*lines, "}"]) + "\n"


def mark():
    return f"<!-- of the drawing {hashlib.sha256(drawing().encode()).hexdigest()[:16]} -->"


def listing():
    """Returns a line for each layer, with its crates and a description of each."""
    lines = [f"- **{name}** ({meaning}): " + "; ".join(f"{crate}: {said}" for crate, (_, said) in crates.items()) for name, meaning, crates in groups()]
    return "\n".join(textwrap.fill(line, 100, subsequent_indent="  ", break_on_hyphens=False) for line in lines)


def page_with(text):
    before, _, rest = PAGE.read_text().partition(BEGIN)
    return before + BEGIN + "\n" + text + "\n" + END + rest.partition(END)[2]


def wrong():
    """Yields the differences of picture and page from crates.txt."""
    crates, picture = all_crates(), PICTURE.read_text()
    drawn = {html.unescape(it) for it in re.findall(r"<title>(.*?)</title>", picture)}
    yield from (f"docs/map.py: {one} does not depend on {other}" for one, other, _ in steps() if other not in crates.get(one, [[]])[0])
    ways = [(door, way[0]) for door, (_, way) in WAYS.items()]
    wanted = {*crates, *(f"{it[0]}->{it[1]}" for it in [*arrows(crates), *ways, *steps()])}
    yield from (f"docs/crates.svg lacks {it}" for it in sorted(wanted - drawn))
    yield from (f"docs/crates.svg has {it}" for it in sorted(drawn - wanted - {*WAYS, "crates"}) if not it.startswith("cluster_"))
    if mark() not in picture:
        yield "docs/crates.svg was drawn from other lines"
    if page_with(listing()) != PAGE.read_text():
        yield "docs/ARCHITECTURE.md has another list of crates"


def main():
    if sys.argv[1:] == ["--check"]:
        found = list(wrong())
        print("\n".join([*found, "docs/map.py makes them anew"] if found else ["docs/map.py: map and list are those of crates.txt"]))
        sys.exit(bool(found))
    drawn = subprocess.run(["dot", "-Tsvg"], input=drawing(), capture_output=True, text=True, check=True).stdout
    PICTURE.write_text(drawn.replace("<!-- Title", mark() + "\n<!-- Title", 1))
    PAGE.write_text(page_with(listing()))


if __name__ == "__main__":
    main()
