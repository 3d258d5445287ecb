#!/usr/bin/env python3
"""Writes the faults of a file: copies the BPF programs and dist/bpf/pie_c.ll to FOLDER/NAME for each, with its change, and prints the names.

usage: bindings/bpf/mutant.py FOLDER [FILE]      FILE: mutants.txt, or fq_mutants.txt"""
import sys
from pathlib import Path

HERE = Path(__file__).parent
SOURCES = {"pie_c.ll": HERE / "../../dist/bpf/pie_c.ll", "pie_qdisc.bpf.c": HERE / "pie_qdisc.bpf.c", "fq_qdisc.bpf.h": HERE / "fq_qdisc.bpf.h"}
TEXT = (HERE / (sys.argv[2] if len(sys.argv) > 2 else "mutants.txt")).read_text()
BLOCKS = [dict(line.split(": ", 1) for line in block.strip().split("\n")) for block in TEXT.split("\n\n")[1:]]

for fields in BLOCKS:
    folder = Path(sys.argv[1]) / fields["name"]
    folder.mkdir(parents=True)
    for name, path in SOURCES.items():
        text = path.read_text()
        if name == fields["file"]:
            old, new = (fields[it].replace("\\n", "\n") for it in ("old", "new"))
            if text.count(old) != 1:
                sys.exit(f"mutant.py: the text of {fields['name']} occurs {text.count(old)} times")
            text = text.replace(old, new)
        (folder / name).write_text(text)
    print(fields["name"])
