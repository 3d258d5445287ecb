#!/usr/bin/env python3
"""Compares the binary interface of the shared library with dist/abi.txt: each function with its
declaration, each struct with its size, each field with its offset and size, and each constant with
its value. If the headers lack a line of dist/abi.txt, programs that were linked before would break,
and another soname is needed. An additional line is a new function, struct or constant; --write adds
it.

dist/abi.txt is also the list of the functions that the shared library exports (Makefile). On other processors with 64-bit words the
list is the same, except that struct pie_link_shared is as long as two of their cache lines.

usage: tests/libraries/abi.py [--write | ROOT]      ROOT: another folder with include/ and bindings/python/native/
       CC=COMPILER RUN=EMULATOR tests/libraries/abi.py      for another processor
needs: nothing
"""
import os
import re
import shutil
import subprocess
import sys
import tempfile
from pathlib import Path

sys.path.insert(0, f"{os.path.dirname(os.path.abspath(__file__))}/../shared")
from checks import NAME, ROOT, check, finish  # noqa: E402

HEADERS = ["include/pie.h", "include/pie_link.h", "bindings/python/native/pie_arrays.h"]
LIST = ROOT / "dist/abi.txt"
# (sleepers, patience and hints belong to the functions that pie_link.h defines, which are compiled into the caller)
INLINE = ("pie_link_sleepers", "pie_link_patience", "pie_link_hint")
FUNCTION = re.compile(r"^((?:const )?(?:void|char|size_t|uint\d+_t|struct \w+) \*?)(pie_\w+)\(([^)]*)\);", re.M)


def one_line(text):
    return " ".join(text.split())


def declared(root):
    """Returns the lines of the list for functions, and for structs and constants the names to ask a compiler for."""
    functions, structs, constants = [], [], []
    for header in HEADERS:
        bare = re.sub(r"/\*.*?\*/", " ", (root / header).read_text(), flags=re.S)
        functions += [f"function {name}: {one_line(result)} ({one_line(inside)})" for result, name, inside in FUNCTION.findall(bare)]
        for name, body in re.findall(r"^struct (\w+) \{(.*?)^\};", bare, re.S | re.M):
            if name not in INLINE:
                structs.append((name, re.findall(r"(\w+)(?:\[\w+\])?\s*[,;]", body)))
        for body in re.findall(r"^enum \{(.*?)\};", bare, re.S | re.M):
            constants += re.findall(r"(PIE_\w+) =", body)
        constants += re.findall(r"^#define (PIE_\w+) (?:UINT\d+_C\()?\d", bare, re.M)
    return functions, structs, constants


def measured(root, structs, constants):
    """Returns the lines of the list for structs and constants, by a program that a C compiler makes."""
    lines = ["#include <stdio.h>", *[f'#include "{root / it}"' for it in HEADERS], "int main(void) {"]
    for name, fields in structs:
        lines.append(f'    printf("struct {name}: %zu bytes", sizeof(struct {name}));')
        lines += [f'    printf(", {it} %zu+%zu", offsetof(struct {name}, {it}), sizeof(((struct {name} *)0)->{it}));' for it in fields]
        lines.append("    puts(\"\");")
    lines += [f'    printf("constant {it}: %llu\\n", (unsigned long long)({it}));' for it in constants]
    with tempfile.TemporaryDirectory() as work:
        source = Path(work) / "abi.c"
        source.write_text("\n".join([*lines, "    return 0;", "}", ""]))
        subprocess.run([os.environ.get("CC", "cc"), f"-I{root}/include", "-D_GNU_SOURCE", "-o", f"{work}/abi", source], check=True)
        return subprocess.run([*os.environ.get("RUN", "").split(), f"{work}/abi"], check=True, capture_output=True, text=True).stdout.splitlines()


def main():
    words = sys.argv[1:]
    root = Path(words[0]).resolve() if words and words[0] != "--write" else ROOT
    if not shutil.which(os.environ.get("CC", "cc")):
        print(f"NOT RUN: {NAME}: no C compiler here, so no struct was measured")
        return
    functions, structs, constants = declared(root)
    found = sorted([*functions, *measured(root, structs, constants)])
    listed = LIST.read_text().splitlines() if LIST.exists() else []
    if os.environ.get("RUN"):
        found, listed = ([it for it in lines if not it.startswith("struct pie_link_shared")] for lines in (found, listed))
    for line in sorted(set(listed) - set(found)):
        check(False, f"programs that were linked before break, since the headers do not have this of dist/abi.txt: {line}")
    if "--write" in words and set(listed) <= set(found):
        LIST.write_text("\n".join([*found, ""]))
        listed = found
    for line in sorted(set(found) - set(listed)):
        check(False, f"dist/abi.txt lacks this (tests/libraries/abi.py --write adds it): {line}")
    check(listed == sorted(listed) and len(listed) > 100, "dist/abi.txt is not sorted, or too short")
    finish()


main()
