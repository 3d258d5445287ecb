#!/usr/bin/env python3
"""Compares dist/ with the proved code. The checksums of dist/MANIFEST must hold, and its commit must have its tree
of crates/. dist/'s assembly of the libraries must be byte for byte the output of bindings/c/library.py from the
proved crates, for x86-64, and of dist/lower.py from the same modules, for the other processors; assembled and
linked by the toolchain, dist/'s program for x86-64 must be the one that `rt ci` built. The programs for other
processors are compared if crates/pie/out/pie.bc is here, which dist/make.sh leaves. The assembly of the kernel's queue
must be the output of bindings/kernel/lower.py from the module of pie_c, dist/bpf/pie_c.ll that of dist/lower.py, and dist/wasm/pie_c.wasm and
pie.wasm those of dist/lower.py from the modules of pie_c and pie. If crates/ is no longer the manifest's tree, a
difference is printed, with the number of commits by which dist/ is older, and is no failure.
Then `make check` runs in a new folder, with clang if it is installed: with cc, tests/documents/pages.py runs it, as
the README has it. tests/libraries/processors.py checks what is built for the other processors.

The assembly must have one meaning for every assembler: it consists of labels, instructions, and directives of a
short list, without macros, conditions, included files or preprocessor lines.

usage: tests/libraries/dist.py                      holds dist/ to the proofs
       tests/libraries/dist.py --read TARGET FILE..  reads assembly, and prints the stack that each exported function uses, with all that it
                                                    calls. TARGET: a folder of dist/
needs: library, program
"""
import hashlib
import lzma
import os
import re
import shutil
import subprocess
import sys
import tempfile
from pathlib import Path

sys.path.insert(0, f"{os.path.dirname(os.path.abspath(__file__))}/../shared")
from checks import NAME, ROOT, check, finish  # noqa: E402

DIST = ROOT / "dist"
DIRECTIVES = {".file", ".section", ".text", ".data", ".bss", ".globl", ".hidden", ".local", ".comm", ".type", ".size", ".p2align", ".byte", ".short", ".long",
              ".quad", ".zero", ".ascii", ".asciz", ".ident", ".set", ".weak"}
# the directives of one processor alone
MORE = {"x86_64": set(), "aarch64": {".hword", ".word", ".xword"}, "riscv64": {".half", ".word", ".option"},
        "armv7": {".syntax", ".code", ".fnstart", ".fnend", ".cantunwind", ".save", ".pad", ".setfp", ".vsave", ".word", ".hword"},
        "mipsel": {".ent", ".end", ".frame", ".mask", ".fmask", ".abicalls", ".cpload", ".cprestore", ".word", ".hword", ".4byte", ".8byte", ".2byte", ".insn", ".reloc", ".gpword"}}
# the characters of operands, beside letters and digits
MARKS = {"x86_64": r"-.$%@(),*+ ", "aarch64": r"-.,*+ #:!\[\]{}", "riscv64": r"-.%(),+ ", "armv7": r"-.,+ #:!\[\]{}()^", "mipsel": r"-.$%(),+ "}
NAME_OF = r'(?:"[^"]+"|[\w.$]+)'


def line_of(target):
    """Returns the pattern of a line: a label, a directive, an instruction, or a mark around an instruction that the source states."""
    prefix = r"(?:(?:lock|rep|notrack)\t\t)?" if target == "x86_64" else ""
    return re.compile(rf'{NAME_OF}:|\t(\.\w+)(?:[\t ].*)?|\t{prefix}[\w.]+(?:\t(?:[{MARKS[target]}\w]|"[^"]+")*)?|\t(?:#|//|@)(?:NO_)?APP')


# functions of the C library and of libgcc, whose stack is not counted
OUTSIDE = {"memcpy", "memmove", "memset", "memcmp", "bcmp", "__divti3", "__udivti3", "__umodti3", "__modti3", "rattle_alloc", "rattle_realloc", "rattle_dealloc",
           "__aeabi_memcpy", "__aeabi_memmove", "__aeabi_memset", "__aeabi_memclr", "__aeabi_memcpy4", "__aeabi_memcpy8", "__aeabi_memmove8", "__aeabi_memset8",
           "__aeabi_memclr4", "__aeabi_memclr8", "__aeabi_uldivmod", "__aeabi_uidiv", "__aeabi_uidivmod", "__udivdi3", "__umoddi3", "__muldi3", "__aeabi_llsl", "__aeabi_llsr",
           "__multi3", "__ashlti3", "__lshrti3", "abort"}

# the files of each folder of dist/: links and the program need 64-bit words
PROGRAMS = {"pie"}
WHOLE = {"pie_c", "pie_link_c", *PROGRAMS}
PARTS = {"x86_64": WHOLE, "aarch64": WHOLE, "riscv64": WHOLE, "armv7": {"pie_c"}, "mipsel": {"pie_c"}}

# functions that call themselves, and the greatest depth: a row of 512 bytes has room for 24 numbers (crates/pie_record/src/put_field.rt), and one of 1280 bytes
# for 60 (crates/pie_record/src/long_row.rt); an interval has 9 answers (crates/pie_explain/src/summary_record.rt)
ROUNDS = {"pie_record::put_field::put_numbers": 25, "pie_record::long_row::push_numbers": 61, "pie_explain::summary_record::together": 10}
# (with plain names, as in the assembly for MIPS)
ROUNDS |= {re.sub(r"\W", "_", name): rounds for name, rounds in ROUNDS.items()}


def read(path):
    """Returns the text of an assembly file, which ends in .xz if it is compressed."""
    raw = path.read_bytes()
    return (lzma.decompress(raw) if path.suffix == ".xz" else raw).decode()


def unknown(text, target):
    """Returns the lines that are neither a label, nor a directive of the list, nor an instruction."""
    found, pattern, directives = [], line_of(target), DIRECTIVES | MORE[target]
    for number, line in enumerate(text.splitlines(), 1):
        match = pattern.fullmatch(line)
        if line and (not match or match[1] and match[1] not in directives):
            found.append(f"{number}: {line}")
    return found


class Function:
    """A function's own stack in bytes, and the functions that it calls or ends in."""

    def __init__(self):
        self.frame, self.calls, self.ends, self.unknown, self.named = 0, set(), set(), False, 0


def functions(text, target="x86_64"):
    """Returns the functions of assembly by their names."""
    found, current = {}, Function()
    for line in text.splitlines():
        label = re.fullmatch(f"({NAME_OF}):", line)
        if label:
            if not label[1].startswith((".", "$")):
                current = found[label[1].strip('"')] = Function()
            continue
        words = line.strip().replace('"', "").split("\t")
        to = words[1].removesuffix("@PLT") if len(words) > 1 else ""
        (of_x86 if target == "x86_64" else of_others)(current, words[0], to)
    return found


def of_x86(current, word, to):
    """Adds the stack and the calls of an instruction of x86-64 to a function."""
    if word == "pushq":
        current.frame += 8
    elif word == "subq" and to.endswith(", %rsp"):
        number = re.match(r"\$(-?\d+),", to)
        current.frame += int(number[1]) if number else 0
        current.unknown |= not number
    elif word == "andq" and to.endswith(", %rsp"):
        current.frame += -int(re.match(r"\$(-\d+),", to)[1])
    elif word in ("callq", "call"):
        if to.startswith("*") and not re.fullmatch(r"\*(\w+)@GOTPCREL\(%rip\)", to):
            current.unknown = True
        else:
            current.calls.add(re.sub(r"^\*|@GOTPCREL\(%rip\)", "", to))
    elif word.startswith("j") and to and not to.startswith((".L", "*")):
        current.ends.add(to)


def of_others(current, word, to):
    """Adds the stack and the calls of an instruction of another processor to a function."""
    step = re.fullmatch(r"(?:sp, sp|sp|\$sp, \$sp), #?-?(\d+)(, lsl #12)?", to)
    stored = re.search(r"\[sp, #-(\d+)\]!$", to)
    if word == "sub" and step or word in ("addi", "addiu") and step and ", -" in to:
        current.frame += int(step[1]) << (12 if step[2] else 0)
    elif word in ("sub", "addi", "addiu", "subu") and to.startswith(("sp, sp", "$sp, $sp")) and not step:
        current.unknown = True
    elif stored and word in ("stp", "str"):
        current.frame += int(stored[1])
    elif word in ("push", "vpush"):
        current.frame += (8 if word == "vpush" else 4) * len(to.split(","))
    elif word in ("bl", "call", "b", "tail"):
        if not to.startswith((".L", "$")):
            (current.calls if word in ("bl", "call") else current.ends).add(to)
    elif word.startswith(".reloc ") and "R_MIPS_JALR" in word:
        # (MIPS calls every function by a register; this line names the function)
        current.calls.add(word.split(", ")[-1])
        current.named += 1
    elif word in ("blr", "blx", "jalr"):
        current.named -= 1
        current.unknown |= current.named < 0


def stack(name, found, known, above=()):
    """Returns the bytes of stack that a call of the function uses, including its return address;
    None if it calls an unknown function or is recursive."""
    if name in OUTSIDE:
        return 8
    if name not in known:
        function = found.get(name)
        if function is None or function.unknown or name in above:
            return None
        rounds = ROUNDS.get(name, 1)
        inside = [stack(it, found, known, (*above, name)) for it in function.calls if rounds == 1 or it != name]
        last = [stack(it, found, known, (*above, name)) for it in function.ends]
        if None in inside or None in last:
            return None
        known[name] = max(rounds * (8 + function.frame) + max(inside, default=0), *last, 0)
    return known[name]


def exported(text):
    return re.findall(r"^\t\.globl\t(pie_\w+)$", text, re.M)


def stacks(text, target="x86_64"):
    found, known = functions(text, target), {}
    return {name: stack(name, found, known) for name in sorted(exported(text))}


def git(*words):
    done = subprocess.run(["git", *words], cwd=ROOT, capture_output=True, text=True, check=False)
    return done.stdout.strip() if done.returncode == 0 else None


def tree_of_crates():
    """Returns the tree of crates/ in the folder, committed or not."""
    with tempfile.TemporaryDirectory() as work:
        index = {**os.environ, "GIT_INDEX_FILE": f"{work}/index"}
        for words in (["read-tree", "HEAD"], ["add", "-A", "crates"]):
            if subprocess.run(["git", *words], cwd=ROOT, env=index, capture_output=True, check=False).returncode:
                return None
        written = subprocess.run(["git", "write-tree"], cwd=ROOT, env=index, capture_output=True, text=True, check=False).stdout.strip()
        return git("rev-parse", f"{written}:crates")


def differs(target, name, text, work):
    """Returns the parts of the proved code that differ from dist/; prints a line and returns None if they cannot be
    compared."""
    out = ROOT / f"crates/{name}/out"
    if target != "x86_64":
        module, made = out / f"{name}.bc", Path(f"{work}/{target}-{name}.S")
        if not module.exists():
            if name not in PROGRAMS:
                print(f"NOT RUN: {NAME}: {module.relative_to(ROOT)} is not here (bindings/c/library.py writes it), so {target}/{name}.S was not compared")
            return None
        subprocess.run([DIST / "lower.py", target, module, made], check=True)
        return "" if made.read_text() == text else f"{target}/{name}.S is not the assembly of crates/{name}"
    if name not in PROGRAMS:
        made = out / f"{name}.S"
        if not made.exists():
            print(f"NOT RUN: {NAME}: {made.relative_to(ROOT)} is not here (bindings/c/library.py writes it), so {name}.S was not compared")
            return None
        return "" if made.read_text() == text else f"{name}.S is not the assembly of crates/{name}"
    made, kit = out / name, Path(shutil.which("rt") or "/").resolve().parent.parent
    if not made.exists() or not (kit / "bin/rattle-link").exists():
        print(f"NOT RUN: {NAME}: no {made.relative_to(ROOT)} or toolchain here, so {name}.S was not compared")
        return None
    Path(f"{work}/{name}.s").write_text(text)
    triple = "x86_64-unknown-linux-gnu"
    subprocess.run([kit / "toolchain/bin/clang", f"--target={triple}", "--no-default-config", "-march=x86-64-v2", "-x", "assembler", "-c", f"{work}/{name}.s",
        "-o", f"{work}/{name}.o"], check=True)
    # (as rt links the program)
    done = subprocess.run([kit / "bin/rattle-link", "--target", triple, "--toolchain", kit / "toolchain", "-o", f"{work}/{name}", f"{work}/{name}.o",
        kit / "c/libos_c.a", kit / "c/liblibc_c.a"], capture_output=True, text=True, check=False)
    if done.returncode:
        return f"{name}.S can't be linked: {done.stderr}"
    return "" if Path(f"{work}/{name}").read_bytes() == made.read_bytes() else f"{name}.S is not the assembly of the program that was built"


def compare(manifest, work):
    """Compares each file of dist/ with the proved code. Returns the texts by target and name."""
    texts = {(path.parent.name, path.name.partition(".")[0]): read(path) for path in sorted(DIST.glob("*/*")) if path.parent.name not in ("bpf", "wasm")}
    for target, names in PARTS.items():
        has = {name for it, name in texts if it == target}
        check(has == names, f"dist/{target} has {', '.join(sorted(has)) or 'no file'}, and not {', '.join(sorted(names))}")
    found = {it: differs(*it, text, work) for it, text in texts.items()}
    if manifest["crates"] == tree_of_crates():
        for why in filter(None, found.values()):
            check(False, f"dist/ was made from these crates, and {why}")
        if not any(found.values()):
            print(f"{NAME}: dist/ is what was proved: {', '.join('/'.join(it) for it in found if found[it] == '')}")
    else:
        count = git("rev-list", "--count", f"{manifest['commit']}..HEAD", "--", "crates")
        which = ["/".join(it) for it in found if found[it]]
        print(f"{NAME}: dist/ is {count or 'an unknown number of'} commits of crates/ older than this tree: "
              f"{', '.join(which) + ' differ' if which else 'the code is the same'}. dist/make.sh makes it anew")
    for (target, name), text in texts.items():
        for line in unknown(text, target)[:5]:
            check(False, f"{target}/{name}.S has a line that assemblers may take otherwise: {line}")
    return texts


def compare_bpf(manifest, work):
    """Compares the module for BPF with that of pie_c."""
    module, made = ROOT / "crates/pie_c/out/pie_c.bc", Path(f"{work}/bpf.ll")
    if not module.exists() or not shutil.which("clang-19"):
        print(f"NOT RUN: {NAME}: no {module.relative_to(ROOT)} or clang-19 here, so bpf/pie_c.ll was not compared")
        return
    subprocess.run([DIST / "lower.py", "bpf", module, made], check=True)
    is_same = made.read_text() == (DIST / "bpf/pie_c.ll").read_text()
    if manifest["crates"] == tree_of_crates():
        check(is_same, "dist/ was made from these crates, and bpf/pie_c.ll is not the module of crates/pie_c")
    print(f"{NAME}: bpf/pie_c.ll is {'what was proved' if is_same else 'another module: dist/make.sh makes it anew'}")


def compare_wasm(manifest, work):
    """Compares the program and the library for WebAssembly with the modules of their crates."""
    for name in ("pie", "pie_c"):
        module, made = ROOT / f"crates/{name}/out/{name}.bc", Path(f"{work}/{name}.wasm")
        if not module.exists():
            print(f"NOT RUN: {NAME}: {module.relative_to(ROOT)} is not here (dist/make.sh leaves it), so wasm/{name}.wasm was not compared")
            continue
        subprocess.run([DIST / "lower.py", "wasm", module, made], check=True)
        is_same = made.read_bytes() == lzma.decompress((DIST / f"wasm/{name}.wasm.xz").read_bytes())
        if manifest["crates"] == tree_of_crates():
            check(is_same, f"dist/ was made from these crates, and wasm/{name}.wasm is not the module of crates/{name}")
        print(f"{NAME}: wasm/{name}.wasm is {'what was proved' if is_same else 'another module: dist/make.sh makes it anew'}")


def compare_unpacker(work):
    """Compares the unpacking of xz with what unxz.sh compiles."""
    if not Path("/usr/src/linux-source-6.1.tar.xz").exists() or not shutil.which("rt"):
        print(f"NOT RUN: {NAME}: no linux-source-6.1 or toolchain here, so wasm/unxz.wasm was not compared")
        return
    subprocess.run([DIST / "wasm/unxz.sh", f"{work}/unxz.wasm"], check=True)
    check(Path(f"{work}/unxz.wasm").read_bytes() == lzma.decompress((DIST / "wasm/unxz.wasm.xz").read_bytes()), "wasm/unxz.wasm is not what unxz.sh makes")


def compare_kernels(work):
    """Compares the assembly of the kernel's queue with that of the module of pie_c."""
    kernel, module = ROOT / "bindings/kernel", ROOT / "crates/pie_c/out/pie_c.bc"
    clang = Path(shutil.which("rt") or "/").resolve().parent.parent / "toolchain/bin/clang"
    if not module.exists() or not clang.exists():
        print(f"NOT RUN: {NAME}: no {module.relative_to(ROOT)} or toolchain here, so the assembly of the kernel's queue was not compared")
        return
    names, different = ("x86", "arm64", "riscv"), []
    for name in names:
        made, stored = Path(f"{work}/kernel.S"), kernel / f"pie_kernel_{name}.S{'' if name == 'x86' else '.xz'}"
        subprocess.run([kernel / "lower.py", clang, module, made, name], check=True)
        if made.read_text() != read(stored):
            different.append(f"pie_kernel_{name}.S")
    if f"crates {tree_of_crates()}" in (kernel / "MANIFEST").read_text().splitlines():
        check(not different, f"bindings/kernel was made from these crates, and is not their assembly: {', '.join(different)}")
        if not different:
            print(f"{NAME}: the assembly of the kernel's queue is what was proved: {', '.join(names)}")
    else:
        print(f"{NAME}: bindings/kernel is older than this tree: {', '.join(different) + ' differ' if different else 'the code is the same'}. bindings/kernel/make.sh "
              "makes it anew")


def stated(texts):
    """Compares the stack in pie.h with the use of the calls: `A call uses at most N bytes of stack, pie_x at most
    M, pie_y_* at most L.`"""
    text = re.sub(r"\n \* ?", " ", (ROOT / "include/pie.h").read_text())
    sentence = re.search(r"A call uses at most (\d+) bytes of stack([^.]*)\.", text)
    check(sentence, "include/pie.h does not state the stack of the calls")
    if not sentence:
        return
    of_one = {(target, name): int(limit) for target, one, two, limit in re.findall(r"On (\w+), (pie_\w+) and (pie_\w+) use at most (\d+)", text) for name in (one, two)}
    limits = {name.replace("*", r"\w+"): int(limit) for name, limit in re.findall(r"(pie_[\w*]+) at most (\d+)", sentence[2])}
    for (target, name), text in texts.items():
        for call, used in stacks(text, target).items() if name not in PROGRAMS else ():
            limit = of_one.get((target, call)) or limits.get(call, next((limits[it] for it in limits if re.fullmatch(it, call)), int(sentence[1])))
            check(used is not None and used <= limit, f"include/pie.h states at most {limit} bytes of stack for {call}, which uses {used} on {target}")


def main():
    if sys.argv[1:2] == ["--read"]:
        target, files = sys.argv[2], sys.argv[3:]
        for path in map(Path, files):
            text = read(path)
            for line in unknown(text, target)[:20]:
                check(False, f"{path}: {line}")
            for name, used in stacks(text, target).items():
                print(f"{used if used is not None else 'unknown':>8}  {name}")
        sys.exit(1 if any(unknown(read(Path(it)), target) for it in files) else 0)
    lines = [line.split(None, 1) for line in (DIST / "MANIFEST").read_text().splitlines()]
    manifest = {key: value for key, value in lines if len(key) < 64}
    sums = {value: key for key, value in lines if len(key) == 64}
    check(set(sums) == {f"{it.parent.name}/{it.name}" for it in DIST.glob("*/*")}, "dist/MANIFEST lists other files than the folders of dist/ have")
    for name, wanted in sums.items():
        check(hashlib.sha256((DIST / name).read_bytes()).hexdigest() == wanted, f"dist/{name} is not the file that dist/MANIFEST lists")
    version = re.search(r'#define PIE_VERSION "(.*)"', (ROOT / "include/pie.h").read_text())[1]
    check(manifest["version"] == version, f"dist/ is of version {manifest['version']}, and include/pie.h of {version}")
    if git("cat-file", "-e", manifest["commit"]) is None:
        print(f"NOT RUN: {NAME}: git does not know the manifest's commit here, so its tree was not compared")
    else:
        check(git("rev-parse", f"{manifest['commit']}:crates") == manifest["crates"], "the manifest's commit has another tree of crates/")
    with tempfile.TemporaryDirectory() as work:
        stated(compare(manifest, work))
        compare_bpf(manifest, work)
        compare_wasm(manifest, work)
        compare_unpacker(work)
        compare_kernels(work)
        compiler = "clang" if shutil.which("clang") else "cc"
        if compiler == "cc":
            print(f"NOT RUN: {NAME}: no clang here, so make check did not run over what it builds")
        words = ["make", "-s", "check", f"CC={compiler}", f"BUILD={work}/{compiler}"]
        done = subprocess.run(words, cwd=ROOT, stdout=subprocess.PIPE, stderr=subprocess.STDOUT, text=True, check=False)
        told = [line for line in done.stdout.splitlines() if line.startswith("NOT RUN")]
        print(*told, sep="\n", end="\n" if told else "")
        check(done.returncode == 0, f"make check CC={compiler} fails:\n{done.stdout[-3000:]}")
    finish()


main()
