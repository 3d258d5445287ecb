#!/usr/bin/env python3
"""Counts the lines of crates/ by crate and by layer, and compares the table of docs/DEVELOPING.md with them. The page has hundreds of lines, so that
an edit of a few lines does not change it. A layer is a group of crates.txt.

usage: tests/documents/lines.py           prints the lines of each crate, and compares the page
       tests/documents/lines.py --write   writes the table of the page
needs: nothing"""
import os
import re
import subprocess
import sys

sys.path.insert(0, f"{os.path.dirname(os.path.abspath(__file__))}/../shared")
from checks import NAME, ROOT, check, finish  # noqa: E402

PAGE = ROOT / "docs/DEVELOPING.md"
FROM, TO = "<!-- by tests/documents/lines.py -->\n", "<!-- to here -->\n"
PARTS = ("src", "specs", "proofs")


def layers():
    """Returns the names of the crates of each layer."""
    found, names = {}, None
    for line in (ROOT / "crates.txt").read_text().splitlines():
        if line.startswith("## "):
            names = found.setdefault(line[3:].partition(":")[0], [])
        elif match := re.match(r"(\w+)[\w= +]*:", line):
            names.append(match[1])
    return found


def tracked():
    listed = subprocess.run(["git", "ls-files", "-co", "--exclude-standard", "-z"], cwd=ROOT, capture_output=True, text=True, check=True).stdout
    return [path for path in listed.split("\0") if path and (ROOT / path).is_file()]


def lines_of(paths):
    """Returns the lines of code, definitions and proofs of each crate."""
    found = {}
    for path in paths:
        parts = path.split("/")
        if parts[0] == "crates" and len(parts) > 3 and parts[2] in PARTS and path.endswith((".rt", ".antt")):
            counts = found.setdefault(parts[1], dict.fromkeys(PARTS, 0))
            counts[parts[2]] += len((ROOT / path).read_text().splitlines())
    return found


def rounded(number):
    return f"{round(number, -2):,}"


def table(found, files):
    rows = ["| layer | crates | code | definitions | proofs |", "|---|---|---|---|---|"]
    totals = dict.fromkeys(PARTS, 0)
    for layer, names in layers().items():
        sums = {part: sum(found[name][part] for name in names) for part in PARTS}
        totals = {part: totals[part] + sums[part] for part in PARTS}
        rows.append(f"| {layer} | {len(names)} | " + " | ".join(rounded(sums[part]) for part in PARTS) + " |")
    rows.append(f"| all, {rounded(sum(totals.values()))} lines | {len(found)} | " + " | ".join(rounded(totals[part]) for part in PARTS) + " |")
    return "\n".join(rows) + f"\n\nThe repository has some {rounded(len(files))} files.\n"


def main():
    files = tracked()
    found = lines_of(files)
    for name, counts in sorted(found.items()):
        print(f"{name}: {counts['src']} {counts['specs']} {counts['proofs']}, {sum(counts.values())} in all")
    print(f"{NAME}: {sum(sum(it.values()) for it in found.values())} lines in {len(found)} crates; {len(files)} files")
    text = PAGE.read_text()
    before, _, rest = text.partition(FROM)
    now, _, after = rest.partition(TO)
    wanted = table(found, files)
    if sys.argv[1:] == ["--write"]:
        PAGE.write_text(before + FROM + wanted + TO + after)
    else:
        check(bool(after), f"{PAGE.name} has no part {FROM.strip()}")
        near = [int(it.replace(",", "")) for it in re.findall(r"\d[\d,]*", now)]
        right = [int(it.replace(",", "")) for it in re.findall(r"\d[\d,]*", wanted)]
        check(len(near) == len(right) and all(abs(a - b) <= 100 for a, b in zip(near, right)), f"{PAGE.name}: the table of lines is old; {NAME} --write makes it anew")


main()
finish()
