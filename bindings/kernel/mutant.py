#!/usr/bin/env python3
"""Prints the module's C with the faults of mutants.txt. The module has the one that its parameter `fault` names. The blocks of mutants.txt, separated by
a blank line, are lines `name:`, `says:` (the fault), `old:` and `new:`. A fault with `survives:` in place of `says:` is one that the module must
survive, and one with `alone:` has a part of boot_init.sh of its own. The text of `old:` occurs once in the C; \\n in it is a line feed and \\t a tab.
FAULT in the text of `new:` is the condition that the module has this fault.

usage: bindings/kernel/mutant.py"""
import sys
from pathlib import Path

HERE = Path(__file__).resolve().parent
LAST_INCLUDE = '#include "pie_flows.h"\n'
PARAMETER = """
static char *fault = "";
module_param(fault, charp, 0444);
"""


def main():
    code = (HERE / "sch_pie_recorded_main.c").read_text().replace(LAST_INCLUDE, LAST_INCLUDE + PARAMETER)
    for block in (HERE / "mutants.txt").read_text().split("\n\n"):
        fields = dict(line.split(": ", 1) for line in block.strip().split("\n"))
        old, new = (fields[key].replace("\\n", "\n").replace("\\t", "\t") for key in ("old", "new"))
        if code.count(old) != 1:
            sys.exit(f"mutant.py: the text of {fields['name']} occurs {code.count(old)} times in the C")
        code = code.replace(old, new.replace("FAULT", f'!strcmp(fault, "{fields["name"]}")'))
    print(code, end="")


main()
