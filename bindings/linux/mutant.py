#!/usr/bin/env python3
"""Prints the C of the kernel's sch_pie with the faults of mutants.txt. The module has the one that its parameter `fault` names at the moment. The blocks of
mutants.txt, separated by a blank line, are lines `name:`, `says:` (the fault), `queue:` (words of tc), `traffic:` (a command of mutants.sh), `differ:`, `old:`
and `new:`. The text of `old:` occurs once in the C; \\n in it is a line feed and \\t a tab. FAULT in the text of `new:` is 1 if the module has this fault.

`differ:` is the Python condition of a step that the fault changes. Its names are MAX_PROB and columns of pie-watch's CSV; `target` is the queue's. It is true
at the first such step, and may be false at later ones.

With --list, prints a line for each fault: its name, its traffic, and the words of tc, separated by tabs.
With --differ, prints the number of steps in a CSV of one queue for which the condition of the fault NAME is true, and the `seq` of the first, or `none`.

usage: bindings/linux/mutant.py SOURCE | --list | --differ NAME CSV"""
import csv
import sys
from pathlib import Path

LAST_INCLUDE = "#include <net/pie.h>\n"
PARAMETER = """
static char *fault = "";
module_param(fault, charp, 0644);
#define IS_FAULT(name) (!strcmp(fault, name))
"""
MAX_PROB = 2**56 - 1
TEXT = (Path(__file__).parent / "mutants.txt").read_text().split("\n\n")[1:]
BLOCKS = [dict(line.split(": ", 1) for line in block.strip().split("\n")) for block in TEXT]


def mutated(code):
    code = code.replace(LAST_INCLUDE, LAST_INCLUDE + PARAMETER)
    for fields in BLOCKS:
        old, new = (fields[key].replace("\\n", "\n").replace("\\t", "\t") for key in ("old", "new"))
        if code.count(old) != 1:
            sys.exit(f"mutant.py: the text of {fields['name']} occurs {code.count(old)} times in the C")
        code = code.replace(old, new.replace("FAULT", f'IS_FAULT("{fields["name"]}")'))
    return code


def differing(name, path):
    """Returns the numbers of the steps in the CSV for which the condition of the fault is true."""
    condition = compile(next(fields["differ"] for fields in BLOCKS if fields["name"] == name), name, "eval")
    found, target = [], 0
    with open(path) as rows:
        for row in csv.DictReader(rows):
            target = int(row["target"]) or target
            names = {"MAX_PROB": MAX_PROB, "type": row["type"], "l3": int(row["l3"], 16), "target": target}
            names |= {column: int(row[column]) for column in condition.co_names if column not in names}
            if eval(condition, names):
                found.append(row["seq"])
    return found


if sys.argv[1] == "--list":
    for fields in BLOCKS:
        print(*(fields[key] for key in ("name", "traffic", "queue")), sep="\t")
elif sys.argv[1] == "--differ":
    steps = differing(*sys.argv[2:])
    print(len(steps), steps[0] if steps else "none")
else:
    print(mutated(Path(sys.argv[1]).read_text()), end="")
