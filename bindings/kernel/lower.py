#!/usr/bin/env python3
"""Lowers the LLVM module of the proved crate pie_c to assembly for the Linux kernel. The functions are those of the module; only these things change:

- for arm64 and riscv64, the lines that dist/lower.py changes
- the linkage of functions that the kernel's module does not call: they become internal, and those that nobody calls vanish
- the attributes of the functions: general registers alone, so no SSE, MMX or 80387 on x86-64, no vector and no floating-point registers on the others;
  no red zone; on arm64 no register x18, which the kernel's shadow call stack uses
- the options of the compiler: the kernel's code model, no position-independent code, no jump tables, and 128-bit division without a library
- the names of sections and of internal functions, and on x86-64 `ret`, which is the kernel's macro RET
- the labels and sizes of functions, which are the kernel's macros SYM_FUNC_START and SYM_FUNC_END: a kernel with call padding has instructions before
  each function

usage: bindings/kernel/lower.py CLANG MODULE OUT TARGET      MODULE: bitcode, as bindings/c/library.py writes it to crates/pie_c/out/pie_c.bc
                                                             TARGET: x86, arm64 or riscv, as the kernel names its folders of processors"""
import os
import re
import subprocess
import sys

sys.path.insert(0, f"{os.path.dirname(os.path.abspath(__file__))}/../../dist")
sys.dont_write_bytecode = True
import lower  # noqa: E402

CALLS = """pie_arrive_event pie_depart_event pie_update_event pie_reset_event pie_set_params_event pie_default_opening pie_check_params pie_open
pie_due""".split()
# the options of the toolchain's own call, but -fPIC and the sections
OPTIONS = """--no-default-config -Werror -O3 -fno-pic -fno-addrsig -fno-verbose-asm -mllvm -no-trap-after-noreturn -mllvm -trap-unreachable -mllvm
-disable-machine-licm -mllvm -disable-postra-machine-licm -mllvm -sink-common-insts=false -mllvm -min-jump-table-entries=2147483647 -mllvm
-expand-div-rem-bits=64""".split()
# for each processor: dist/lower.py's name, the attributes of functions here, and the options
TARGETS = {
    "x86": ("x86_64", 'noredzone "target-cpu"="x86-64" "target-features"="-sse,-sse2,-mmx,-x87"', "-mcmodel=kernel -mllvm -no-x86-call-frame-opt"),
    "arm64": ("aarch64", '"target-cpu"="generic" "target-features"="-fp-armv8,-neon,+reserve-x18,+v8a"', "-mcmodel=small -mgeneral-regs-only -ffixed-x18"),
    "riscv": ("riscv64", '"target-cpu"="generic-rv64" "target-features"="+64bit,+a,+c,+i,+m,+relax,+zaamo,+zalrsc,+zca,+zmmul,+unaligned-scalar-mem"',
                "-march=rv64imac -mabi=lp64 -mcmodel=medany"),
}
HEAD = """/* SPDX-License-Identifier: MIT OR Apache-2.0 */
/* Written by bindings/kernel/make.sh from the proved crate pie_c. Do not edit. */
#ifdef __KERNEL__
#include <linux/linkage.h>
#else
#define RET ret
#define SYM_FUNC_START_LOCAL(name) .p2align 4; .type name, @function; name:
#define SYM_FUNC_START(name) .globl name; SYM_FUNC_START_LOCAL(name)
#define SYM_FUNC_END(name) .size name, . - name
#endif
"""


def framed(text):
    """Replaces the labels and sizes of functions by the kernel's macros, which paste names: these become identifiers."""
    names = set(re.findall(r'^\t\.type\t"([^"\n]+)",@function$', text, re.M))
    plain = {name: re.sub(r"\W+", "__", name) for name in names}
    if len(set(plain.values())) != len(names):
        sys.exit("bindings/kernel/lower.py: two functions would have one name")
    text = re.sub(r'"([^"\n]+)"', lambda it: plain.get(it[1], it[0]), text)
    text = re.sub(r"^\t\.globl\t(\w+)\n\t\.p2align\t.*\n\t\.type\t\1,@function\n\1:$", r"SYM_FUNC_START(\1)", text, flags=re.M)
    text = re.sub(r"^\t\.p2align\t.*\n\t\.type\t(\w+),@function\n\1:$", r"SYM_FUNC_START_LOCAL(\1)", text, flags=re.M)
    text = re.sub(r"^\.Lfunc_end\d+:\n\t\.size\t(\w+), .*$", r"SYM_FUNC_END(\1)", text, flags=re.M)
    if "@function" in text or text.count("SYM_FUNC_START") != text.count("SYM_FUNC_END"):
        sys.exit("bindings/kernel/lower.py: a function has another frame")
    return text


def main():
    clang, module, out, name = sys.argv[1:]
    name, cpu, options = TARGETS[name]
    target = lower.TARGETS[name]
    text = lower.disassembled(module)
    exported = re.findall(r"^define (?!internal)[^@\n]*@(pie_\w+)\(", text, re.M)
    missing = set(CALLS) - set(exported)
    if missing or lower.CPU not in text:
        sys.exit(f"bindings/kernel/lower.py: {module} has no {', '.join(missing) or lower.CPU}")
    text = lower.lowered(text, target)
    for it in set(exported) - set(CALLS):
        text = re.sub(rf"^define (?!internal)([^@\n]*@{it}\()", r"define internal \1", text, flags=re.M)
    text = re.sub(r"^(attributes #\d+ = .*)" + re.escape(target.cpu), lambda it: it[1] + cpu, text, flags=re.M)
    words = [clang, f"--target={target.triple}", *OPTIONS, *options.split(), "-x", "ir", "-", "-S", "-o", "-"]
    made = lower.tidy(subprocess.run(words, input=text.encode(), stdout=subprocess.PIPE, check=True).stdout.decode())
    made = re.sub(r'^\t\.section\t"?\.text[.\w:"<> ]*,.*$', "\t.text", made, flags=re.M)
    made = re.sub(r"^\tretq$", "\tRET", made, flags=re.M)
    made = re.sub(r'^\t\.file\t.*\n', "", made, flags=re.M)
    with open(out, "w", encoding="utf-8") as file:
        file.write(HEAD + framed(made))


main()
