#!/usr/bin/env python3
"""Lowers the LLVM module of a proved crate to assembly for one processor. The module is written for Linux on x86-64; only
the following lines of it change, and tests/libraries/processors.py compares the rest:

- the triple, the data layout, and the attribute that names the processor
- functions that C calls, and C functions that the module calls: `sret` for the hidden pointer of a returned struct;
  `signext` and `zeroext` for integers of 32 bits or less, if the processor's calling convention has them
- the program: the number of the system call futex; the instruction `pause`; the test of the processor's features; `open`,
  whose flags have other numbers (dist/process.c has the function that replaces it)
- on processors with 32-bit words: a pointer in memory keeps its 64 bits, of which the upper 32 are 0. A load or a store
  of a pointer, or of a struct with a pointer, becomes one for each of its fields, at the offset of the module's layout.
  A `size_t` of a C function, as dist/abi.txt lists it, has 32 bits

A line that none of these rules covers, and whose meaning depends on the layout, is an error.

usage: dist/lower.py TARGET MODULE OUT      TARGET: x86_64, aarch64, riscv64, armv7, mipsel, bpf or wasm
                                            MODULE: bitcode, as bindings/c/library.py writes it to crates/CRATE/out/CRATE.bc
                                            OUT: assembly; for wasm a program or a library, linked with the functions of dist/wasm/; if the name ends in
                                            .ll, as for bpf, the changed module as text"""
import os
import re
import shutil
import subprocess
import sys
import tempfile

ROOT = os.path.dirname(os.path.dirname(os.path.abspath(__file__)))
ME = "dist/lower.py"
# the options of the toolchain's own call
OPTIONS = """-no-canonical-prefixes --no-default-config -Werror -O3 -fPIC -ffunction-sections -fdata-sections -fno-addrsig -fno-verbose-asm -mllvm
-no-trap-after-noreturn -mllvm -trap-unreachable -mllvm -disable-machine-licm -mllvm -disable-postra-machine-licm -mllvm
-sink-common-insts=false""".split()
CPU = '"target-cpu"="x86-64-v2"'
# the number of the system call futex on x86-64
FUTEX = 202


class Stop(Exception):
    """A part of the module that no rule covers."""


class Target:
    """A processor: its triple; the function attributes and the options of the compiler that select its instructions; the bits of a
    pointer; the attributes of integers of 8, 16 and 32 bits in calls from and to C; the instruction of a waiting loop; the
    number of the system call futex; the compiler, if it is not the toolchain's."""

    def __init__(self, triple, cpu, options="", bits=64, small=(), pause="", futex=None, compiler=None):
        self.triple, self.cpu, self.options, self.bits = triple, cpu, options.split(), bits
        self.small, self.pause, self.futex, self.compiler = dict(small), pause, futex, compiler


NARROW = {"i1": "zeroext", "i8": "zeroext", "i16": "zeroext"}
TARGETS = {
    "x86_64": Target("x86_64-unknown-linux-gnu", CPU, "-march=x86-64 -mllvm -no-x86-call-frame-opt"),
    # (without +outline-atomics, which calls functions of libgcc)
    "aarch64": Target("aarch64-unknown-linux-gnu", '"target-cpu"="generic" "target-features"="+fp-armv8,+neon,+v8a"', pause="isb", futex=98),
    # (pause is a hint of the base instruction set: processors without Zihintpause execute it as a fence that orders nothing. The copies of structs
    # have no alignment in the module. They are aligned to 8 bytes, and Linux supports other addresses too, so they are no copies of single bytes. The two
    # -mllvm options save an eighth of an update's instructions: a saved register costs less than a spill, and a constant of three instructions is loaded)
    "riscv64": Target("riscv64-unknown-linux-gnu", '"target-cpu"="generic-rv64" "target-features"="+64bit,+a,+c,+d,+f,+i,+m,+relax,+zaamo,+zalrsc,+zca,+zcd,+zicsr,+zifencei,+zmmul,+unaligned-scalar-mem"',
                      "-march=rv64gc -mabi=lp64d -mllvm -regalloc-csr-first-time-cost=0 -mllvm -riscv-max-build-ints-cost=2", small={**NARROW, "i32": "signext"}, pause=".4byte 0x0100000f", futex=98),
    "armv7": Target("armv7-unknown-linux-gnueabihf", '"target-cpu"="generic" "target-features"="+armv7-a,+vfp3d16,-neon,-thumb-mode"',
                    "-march=armv7-a -mfpu=vfpv3-d16 -mllvm -expand-div-rem-bits=64", 32, NARROW),
    "mipsel": Target("mipsel-unknown-linux-gnu", '"target-cpu"="mips32r2" "target-features"="+mips32r2,+fpxx,+nooddspreg,-noabicalls"',
                     "-march=mips32r2 -mllvm -expand-div-rem-bits=64", 32, NARROW, compiler="clang-19"),
    "bpf": Target("bpf", '"target-cpu"="v4"', compiler="clang-19"),
    # (one thread: the compiler makes plain operations of atomic ones)
    "wasm": Target("wasm32-unknown-unknown", '"target-cpu"="generic" "target-features"="+bulk-memory,+bulk-memory-opt,+mutable-globals,+nontrapping-fptoint,+sign-ext"',
                   "-fno-PIC", 32, futex=FUTEX),
}
# the functions that BPF programs call
CALLS = "pie_open pie_arrive_event pie_depart_event pie_empty_event pie_update_event pie_reset_event pie_set_params_event pie_due pie_check_params".split()


def toolchain():
    """Returns the clang of the toolchain that has the command rt."""
    rt = shutil.which("rt")
    if rt is None:
        raise Stop("no command rt here, so the toolchain's clang was not found")
    return os.path.join(os.path.dirname(os.path.dirname(os.path.realpath(rt))), "toolchain/bin/clang")


def output(words, text=""):
    return subprocess.run(words, input=text.encode(), stdout=subprocess.PIPE, check=True).stdout.decode()


def disassembled(module):
    """Returns the text of a module, which no pass has changed."""
    words = [toolchain(), "--target=x86_64-unknown-linux-gnu", "--no-default-config", "-x", "ir", module, "-S", "-emit-llvm"]
    return output([*words, "-Xclang", "-disable-llvm-passes", "-o", "-"])


def compiler(target):
    return target.compiler or toolchain()


def layout_of(target):
    """Returns the target's line `target datalayout`, as its compiler has it."""
    words = [compiler(target), f"--target={target.triple}", "--no-default-config", "-x", "c", "/dev/null", "-S", "-emit-llvm", "-o", "-"]
    return re.search(r"^target datalayout = .*$", output(words), re.M)[0]


# ---- Types

NAME = r'(?:"[^"]*"|[\w.$-]+)'


def parts(text):
    """Splits a list at the commas that are outside of brackets, and returns its parts."""
    found, depth, begin, quoted = [], 0, 0, False
    for at, it in enumerate(text):
        quoted ^= it == '"'
        depth += 0 if quoted else (it in "([{<") - (it in ")]}>")
        if it == "," and depth == 0 and not quoted:
            found.append(text[begin:at].strip())
            begin = at + 1
    return [*found, text[begin:].strip()] if text.strip() else []


def type_before(text):
    """Returns the type at the beginning of `text`, and the rest."""
    if text[0] in "{[<":
        depth = 0
        for at, it in enumerate(text):
            depth += (it in "{[<") - (it in "}]>")
            if depth == 0:
                return text[:at + 1], text[at + 1:].strip()
    match = re.match(r"(ptr|i\d+|void|float|double)\b", text)
    if not match:
        raise Stop(f"a type that is not known: {text[:60]}")
    return match[1], text[match.end():].strip()


def fields(kind):
    """Returns the types of the fields of a struct type, and whether it is packed."""
    packed = kind.startswith("<{")
    return parts(kind.strip("<>").strip()[1:-1]), packed


def measured(kind, bits):
    """Returns the size and the alignment of a type in bytes, if pointers have so many bits. Integers of 64 bits have an alignment of 8 on all targets."""
    if kind == "ptr":
        return bits // 8, bits // 8
    if kind[0] == "i":
        size = 1 << max(0, (int(kind[1:]) - 1) // 8).bit_length()
        # (of 128 bits: 16 where pointers have 64 bits, otherwise 8)
        return size, min(size, 16 if bits == 64 else 8)
    if kind in ("float", "double"):
        return (4, 4) if kind == "float" else (8, 8)
    if kind[0] == "[":
        count, inside = re.fullmatch(r"\[(\d+) x (.*)\]", kind).groups()
        size, alignment = measured(inside, bits)
        return int(count) * size, alignment
    if kind.startswith("{") or kind.startswith("<{"):
        places = offsets(kind, bits)
        _, packed = fields(kind)
        alignment = 1 if packed else max([1, *[measured(it, bits)[1] for it in fields(kind)[0]]])
        end = places[-1] + measured(fields(kind)[0][-1], bits)[0] if places else 0
        return -(-end // alignment) * alignment, alignment
    count, inside = re.fullmatch(r"<(\d+) x (.*)>", kind).groups()
    size = int(count) * measured(inside, bits)[0]
    return size, size


def offsets(kind, bits):
    """Returns the offset of each field of a struct type."""
    found, end = [], 0
    inside, packed = fields(kind)
    for it in inside:
        size, alignment = measured(it, bits)
        end = end if packed else -(-end // alignment) * alignment
        found.append(end)
        end += size
    return found


def is_same(kind, bits):
    """Returns true if the type has no pointer or pointers have 64 bits, and if the type has the module's layout."""
    if bits == 64:
        return True
    if kind == "ptr":
        return False
    if kind[0] == "[":
        return is_same(re.fullmatch(r"\[\d+ x (.*)\]", kind)[1], bits)
    if kind.startswith("{") or kind.startswith("<{"):
        return offsets(kind, 64) == offsets(kind, bits) and all(is_same(it, bits) for it in fields(kind)[0])
    return measured(kind, 64)[0] == measured(kind, bits)[0]


# ---- Pointers in memory, on processors with 32-bit words

def leaves(kind, path=(), at=0):
    """Yields each scalar of a type: its type, its path for extractvalue, and its offset in the module's layout."""
    if kind.startswith("{") or kind.startswith("<{"):
        for number, (it, offset) in enumerate(zip(fields(kind)[0], offsets(kind, 64))):
            yield from leaves(it, (*path, number), at + offset)
    elif kind[0] == "[":
        count, inside = re.fullmatch(r"\[(\d+) x (.*)\]", kind).groups()
        for number in range(int(count)):
            yield from leaves(inside, (*path, number), at + number * measured(inside, 64)[0])
    else:
        yield kind, path, at


def aligned(alignment, at):
    """Returns the alignment of a field at this offset in a place of that alignment."""
    return min(alignment, at & -at) if at else alignment


def loaded(result, kind, place, alignment):
    """Returns the lines that load a value of the type field by field into `result`."""
    lines, whole = [], "poison"
    every = list(leaves(kind))
    for number, (it, path, at) in enumerate(every):
        name = f"{result}.{number}"
        lines += [f"  {name}.at = getelementptr i8, ptr {place}, i64 {at}"]
        field = name if kind != "ptr" else result
        if it == "ptr":
            lines += [f"  {name}.long = load i64, ptr {name}.at, align {aligned(alignment, at)}", f"  {field} = inttoptr i64 {name}.long to ptr"]
        else:
            lines += [f"  {field} = load {it}, ptr {name}.at, align {aligned(alignment, at)}"]
        if kind != "ptr":
            whole_now = result if number == len(every) - 1 else f"{name}.with"
            lines += [f"  {whole_now} = insertvalue {kind} {whole}, {it} {field}, {', '.join(map(str, path))}"]
            whole = whole_now
    return lines


def stored(prefix, kind, value, place, alignment):
    """Returns the lines that store a value of the type field by field."""
    lines = []
    for number, (it, path, at) in enumerate(leaves(kind)):
        name = f"{prefix}.{number}"
        lines += [f"  {name}.at = getelementptr i8, ptr {place}, i64 {at}"]
        field = value
        if kind != "ptr":
            field = name
            lines += [f"  {name} = extractvalue {kind} {value}, {', '.join(map(str, path))}"]
        if it == "ptr":
            lines += [f"  {name}.long = ptrtoint ptr {field} to i64"]
            it, field = "i64", f"{name}.long"
        lines += [f"  store {it} {field}, ptr {name}.at, align {aligned(alignment, at)}"]
    return lines


class Words:
    """The rules for processors with 32-bit words."""

    def __init__(self, has_atomics):
        self.stores, self.has_atomics = 0, has_atomics

    def line(self, line):
        """Returns the lines that replace a line of a function."""
        if re.search(r"(?: = load|^  store) atomic (?!ptr\b)i\d+[, ]", line):
            return [line]
        load = re.fullmatch(rf"  (%{NAME}) = load (?:volatile )?(.*)", line)
        if load:
            kind, rest = type_before(load[2])
            if is_same(kind, 32):
                return [line]
            if " load volatile " in line:
                raise Stop(f"a volatile load of a pointer: {line}")
            match = re.fullmatch(rf", ptr ([%@]{NAME}), align (\d+)(?:, ![\w.]+ !\d+)*", rest if rest.startswith(",") else f" {rest}")
            if not match:
                raise Stop(f"a load of a pointer that is not known: {line}")
            return loaded(load[1], kind, match[1], int(match[2]))
        store = re.fullmatch(r"  store (.*)", line)
        if store:
            kind, rest = type_before(store[1])
            if is_same(kind, 32):
                return [line]
            match = re.fullmatch(rf"([%@]{NAME}|null), ptr ([%@]{NAME}), align (\d+)", rest)
            if not match:
                raise Stop(f"a store of a pointer that is not known: {line}")
            self.stores += 1
            return stored(f"%stored.{self.stores}", kind, match[1], match[2], int(match[3]))
        alloca = re.fullmatch(rf"  (%{NAME}) = alloca (.*?), align (\d+)", line)
        if alloca and not is_same(alloca[2], 32):
            return [f"  {alloca[1]} = alloca [{measured(alloca[2], 64)[0]} x i8], align {alloca[3]}"]
        if re.match(rf"  (%\S+ = )?({'va_arg' if self.has_atomics else 'cmpxchg|atomicrmw|fence|va_arg'})\b", line):
            raise Stop(f"an atomic instruction, which processors with 32-bit words may lack: {line}")
        step = re.search(r"= getelementptr (?:inbounds |nuw |nusw )*(.*)", line)
        if step and not is_same(type_before(step[1])[0], 32):
            raise Stop(f"a step over a type with a pointer: {line}")
        return [line.replace(" = ptrtoaddr ptr ", " = ptrtoint ptr ")]

    def constant(self, line):
        """Returns the line of a global with 64 bits for each pointer."""
        match = re.fullmatch(rf"(@{NAME} = (?:[a-z_]+ )*(?:constant|global) )(.*?)((?:, align \d+)?)", line)
        if not match:
            raise Stop(f"a global that is not known: {line}")
        kind, value = type_before(match[2])
        if is_same(kind, 32):
            return line
        if not kind.startswith("<{") or not value.startswith("<{"):
            raise Stop(f"a constant with a pointer that is not a packed struct: {line}")
        kinds, values = [], []
        for it, inside in zip(fields(kind)[0], fields(value)[0]):
            if it != "ptr" and not is_same(it, 32):
                raise Stop(f"a constant with a pointer in a field: {line}")
            kinds += [it] + ["i32"] * (it == "ptr")
            values += [inside] + ["i32 0"] * (it == "ptr")
        return f"{match[1]}<{{ {', '.join(kinds)} }}> <{{ {', '.join(values)} }}>{match[3]}"


# ---- BPF, which has no products and quotients of 128 bits

class Verified:
    """The rules for BPF."""

    def used(self, lines):
        """Returns the lines of the functions, declarations and constants that CALLS use, each kind in the order of the names. Numbers of attributes, metadata and
        constants are given anew, so that the functions that are left out change nothing."""
        text = "\n".join(lines) + "\n"
        found = {it[1]: it[0] for it in re.finditer(rf"^define [^@\n]*@({NAME})\([^\n]*\n(?:(?!\}}).*\n)*\}}\n", text, re.M)}
        found |= {it[1]: it[0] for it in re.finditer(rf"^(?:@|declare [^@\n]*@)({NAME})(?: = |\().*\n", text, re.M)}
        kept, open_names = set(), list(CALLS)
        while open_names:
            name = open_names.pop()
            if name in found and name not in kept:
                kept.add(name)
                open_names += re.findall(rf"@({NAME})", found[name])
        body = "\n".join(found[name] for name in sorted(kept, key=lambda it: (found[it][:1] != "@", found[it][:3] != "def", it.strip('"'))))
        head = [line for line in lines if line.startswith("target ")]
        ends = dict(re.findall(r"^(attributes #\d+|!\d+) = (.*)$", text, re.M))
        for pattern, form, line in ((r"(?<= )#\d+\b", "#{}", "attributes {}"), (r"(?<![\w!])!\d+\b", "!{}", "{}"), (r"@static\.\d+\b", "@static.{}", "")):
            order = list(dict.fromkeys(re.findall(pattern, body)))
            body = re.sub(pattern, lambda it: form.format(order.index(it[0])), body)
            body += "".join(f"\n{line.format(form.format(number))} = {ends[line.format(it)]}\n" for number, it in enumerate(order) if line)
        return [*head, "", *body.splitlines()]

    def head(self, line, name):
        """Returns the first line of a function, which C programs call or do not."""
        return line if name in CALLS else re.sub(r"^define (?!internal )", "define internal ", line)

    def outside(self, line):
        """Returns the line that replaces a line outside of functions."""
        if line.startswith("attributes ") and '"target-cpu"' in line:
            line = re.sub(r" (?:alwaysinline|noinline)\b", "", line).replace("{ nounwind", "{ alwaysinline nounwind")
            return re.sub(r' "(?:probe-stack|stack-probe-size)"="[^"]*"', "", line)
        if line.startswith("declare void @llvm.trap()"):
            return f"{line}\ndeclare i64 @pie_div_low(i64, i64, i64)"
        return line

    def function(self, lines):
        """Returns the lines that replace those of a function."""
        return [it for at, line in enumerate(lines) for it in self.line(line, lines[:at])]

    def line(self, line, before):
        """Returns the lines that replace a line; `before` are the lines of the function before it."""
        if line == "  call void @llvm.trap()":
            return ["  ; call void @llvm.trap()"]
        match = re.fullmatch(r"  (%\S+) = (mul|udiv) i128 (\S+), (\S+)", line)
        if not match:
            if re.search(r"= (?:mul|[us]div|[us]rem) .*i128|\.i128\(", line):
                raise Stop(f"an operation of 128 bits that is not known: {line}")
            return [line]
        name, kind, one, two = match.groups()
        if kind == "mul":
            return product(name, one, two)
        if two.isdigit():
            if int(two) & (int(two) - 1):
                raise Stop(f"a divisor that is no power of two: {line}")
            return [line]
        if not has_64_bits(two, before):
            raise Stop(f"a divisor that may have more than 64 bits: {line}")
        return quotient(name, one, two)


def has_64_bits(value, before):
    """Returns true if the value was loaded from a place to which the lines before last stored a converted number of 64 or 32 bits."""
    text = "\n".join(before)
    place = re.search(rf"^  {re.escape(value)} = load i128, ptr (%\S+), ", text, re.M)
    stored = place and re.findall(rf"^  store i128 (%\S+), ptr {re.escape(place[1])}, ", text[:place.start()], re.M)
    return bool(stored and re.search(rf'^  {re.escape(stored[-1])} = call i128 @"core::convert::wide::U128FromU(?:32|64)::from"\(', text, re.M))


def halves(name, value, letter):
    """Returns the lines that split a number of 128 bits into two of 64 bits."""
    return [f"  {name}.{letter}l = trunc i128 {value} to i64", f"  {name}.{letter}s = lshr i128 {value}, 64", f"  {name}.{letter}h = trunc i128 {name}.{letter}s to i64"]


def joined(name, high, low):
    """Returns the lines that join two numbers of 64 bits."""
    return [f"  {name}.jh = zext i64 {high} to i128", f"  {name}.js = shl i128 {name}.jh, 64", f"  {name}.jl = zext i64 {low} to i128",
            f"  {name} = or i128 {name}.js, {name}.jl"]


def product(name, one, two):
    """Returns the lines of the product modulo 2^128. Of the lower halves, each with the digits h and l of 32 bits, it is computed from four products."""
    steps = """adl = and i64 .al, 4294967295; adh = lshr i64 .al, 32; bdl = and i64 .bl, 4294967295; bdh = lshr i64 .bl, 32
        ll = mul i64 .adl, .bdl; lh = mul i64 .adl, .bdh; hl = mul i64 .adh, .bdl; hh = mul i64 .adh, .bdh
        c1 = lshr i64 .ll, 32; m1 = add i64 .hl, .c1; m2 = and i64 .m1, 4294967295; m3 = add i64 .lh, .m2
        c2 = lshr i64 .m1, 32; c3 = lshr i64 .m3, 32; u1 = add i64 .hh, .c2; u2 = add i64 .u1, .c3
        low = mul i64 .al, .bl; x1 = mul i64 .ah, .bl; x2 = mul i64 .al, .bh; u3 = add i64 .u2, .x1; high = add i64 .u3, .x2"""
    made = [f"  {name}.{re.sub(r'(?<= )[.]', name + '.', it.strip())}" for it in re.split(r"[;\n]", steps)]
    return [*halves(name, one, "a"), *halves(name, two, "b"), *made, *joined(name, f"{name}.high", f"{name}.low")]


def quotient(name, one, two):
    """Returns the lines of the quotient by a number of 64 bits."""
    return [*halves(name, one, "a"), f"  {name}.by = trunc i128 {two} to i64", f"  {name}.high = udiv i64 {name}.ah, {name}.by",
            f"  {name}.rest = urem i64 {name}.ah, {name}.by", f"  {name}.low = call i64 @pie_div_low(i64 {name}.rest, i64 {name}.al, i64 {name}.by)",
            *joined(name, f"{name}.high", f"{name}.low")]


# ---- Calls from and to C

def signatures():
    """Returns each function of dist/abi.txt: its result and its arguments, as C declares them."""
    with open(f"{ROOT}/dist/abi.txt", encoding="utf-8") as file:
        return {name: (result, parts(inside)) for name, result, inside in re.findall(r"^function (\w+): (.*) \((.*)\)$", file.read(), re.M)}


def with_small(argument, target):
    """Adds the attribute of an integer of 32 bits or less to an argument, or to a result: `i32 noundef %a` becomes `i32 noundef signext %a`."""
    match = re.match(r"(i1|i8|i16|i32)\b((?: noundef)*)", argument)
    word = match and target.small.get(match[1])
    return f"{match[0]} {word}{argument[match.end():]}" if word else argument


def result_with_small(line, target):
    """Adds the attribute to the result of a definition, a declaration or a call."""
    match = re.match(rf"(.*?\b(?:define|declare|call)(?: noundef)?) (i1|i8|i16|i32)( .*)", line)
    word = match and target.small.get(match[2])
    return f"{match[1]} {word} {match[2]}{match[3]}" if word else line


def border(line, name, target):
    """Adds the attributes of small integers to the result and the arguments of C function `name`."""
    at = line.index(f"@{name}(") + len(name) + 2
    depth = 1
    end = at
    while depth:
        depth += {"(": 1, ")": -1}.get(line[end], 0)
        end += 1
    arguments = [with_small(it, target) for it in parts(line[at:end - 1])]
    return result_with_small(f"{line[:at]}{', '.join(arguments)}{line[end - 1:]}", target)


class Lowering:
    """The lowering of one module for one target."""

    def __init__(self, text, target):
        self.target, self.lines = target, text.splitlines()
        self.words = Words(target is TARGETS["wasm"]) if target.bits == 32 else None
        self.verified = Verified() if target is TARGETS["bpf"] else None
        if self.verified:
            self.lines = self.verified.used(self.lines)
        self.foreign = set(re.findall(rf"^declare [^@\n]*@((?!llvm\.)\w+)\(", text, re.M))
        # syscall, and functions that pass their first argument to it
        self.through = {"syscall", *re.findall(r'^define [^@\n]*@"?([^"(\n]*)"?\(i64 [^{]*\{\nstart:\n(?:(?!\}).*\n)*?.*@syscall\(i64 %a0,', text, re.M)}
        self.known = signatures()
        with open(f"{ROOT}/dist/abi.txt", encoding="utf-8") as file:
            self.sizes = dict(re.findall(r"^(struct \w+): (\d+) bytes", file.read(), re.M))

    def text(self):
        """Returns the text of the changed module."""
        made, at = [], 0
        while at < len(self.lines):
            line = self.lines[at]
            if line.startswith("define "):
                end = self.lines.index("}", at)
                made += self.function(self.lines[at:end + 1])
                at = end + 1
                continue
            made += [self.outside(line)]
            at += 1
        return "\n".join(made) + "\n"

    def outside(self, line):
        """Returns the line that replaces a line outside of functions."""
        if line.startswith("target datalayout"):
            return layout_of(self.target)
        if line.startswith("target triple"):
            return f'target triple = "{self.target.triple}"'
        if line.startswith("attributes "):
            if "target-features" in line:
                raise Stop(f"features of the processor: {line}")
            line = self.verified.outside(line) if self.verified else line
            # (main, which tests the processor, is for any x86-64)
            return line.replace(CPU, self.target.cpu).replace('"target-cpu"="x86-64"', self.target.cpu)
        if line.startswith("declare "):
            name = re.match(rf"declare [^@]*@({NAME})\(", line)[1]
            if self.target.compiler:
                # (the name of this attribute in LLVM 19)
                line = line.replace(" captures(none)", " nocapture")
            line = self.verified.outside(line) if self.verified else line
            return border(line, name, self.target) if name in self.foreign else line
        if line.startswith("@") and self.words:
            return self.words.constant(line)
        return line

    def function(self, lines):
        """Returns the lines that replace a function."""
        head = re.match(rf"define ((?:[a-z_]+ )*)(.*?) ?@({NAME})\((.*)\) (.*)\{{", lines[0])
        made = lines
        if self.verified:
            made = self.verified.function([self.verified.head(lines[0], head[3]), *lines[1:]])
            head = re.match(rf"define ((?:[a-z_]+ )*)(.*?) ?@({NAME})\((.*)\) (.*)\{{", made[0])
        is_ours = "internal" not in head[1].split()
        if is_ours:
            made = self.export(head[3], made)
        return [made[0], *[it for line in made[1:] for it in self.inside(line)]]

    def export(self, name, lines):
        """Returns the lines of a function that C calls, with the calling convention of C."""
        head, body = lines[0], lines[1:]
        result, arguments = self.known.get(name, ("", []))
        if re.match(rf"define (?:\w+ )*ptr @{name}\(ptr noundef %a0\b", head):
            if any(line.startswith("  ret ") and line != "  ret ptr %a0" for line in body) or result not in self.sizes:
                raise Stop(f"{name} returns a pointer, and no struct of dist/abi.txt")
            head = re.sub(rf"(?:noundef )?ptr @{name}\(ptr noundef %a0\b", f"void @{name}(ptr sret([{self.sizes[result]} x i8]) align 8 %a0", head)
            body = [line.replace("  ret ptr %a0", "  ret void") for line in body]
            arguments = ["struct", *arguments]
        elif result in self.sizes:
            raise Stop(f"{name} returns {result} otherwise than by a hidden pointer")
        if self.words and name in self.known:
            head, body = self.with_sizes(name, head, body, result, arguments)
        return [border(head, name, self.target), *body]

    def with_sizes(self, name, head, body, result, arguments):
        """Returns the head and the body of a function with 32 bits for each size_t."""
        at = head.index(f"@{name}(") + len(name) + 2
        given = parts(head[at:head.rindex(") ")])
        if len(given) != len([it for it in arguments if it != "void"]):
            raise Stop(f"{name} has other arguments than dist/abi.txt")
        longer = []
        for number, (it, declared) in enumerate(zip(given, arguments)):
            if re.match(r"size_t \w+$", declared):
                place = it.split()[-1]
                given[number] = f"i32 noundef {place}.size"
                longer += [f"  {place} = zext i32 {place}.size to i64"]
            elif "size_t" in declared:
                raise Stop(f"{name} has a pointer to size_t, which has 64 bits in the module")
        head = head[:at] + ", ".join(given) + head[head.rindex(") "):]
        if result == "size_t":
            head = re.sub(rf"i64 @{name}\(", f"i32 @{name}(", head)
            body = [part for line in body for part in self.short(line)]
        return head, [body[0], *longer, *body[1:]]

    def short(self, line):
        """Returns the lines for a `ret` of a size_t."""
        match = re.fullmatch(r"  ret i64 (.*)", line)
        if not match:
            return [line]
        self.words.stores += 1
        name = f"%size.{self.words.stores}"
        return [f"  {name} = trunc i64 {match[1]} to i32", f"  ret i32 {name}"]

    def inside(self, line):
        """Returns the lines that replace a line in a function."""
        call = re.search(rf"\bcall\b[^@]*@({NAME})\(", line)
        name = call[1] if call else ""
        if name.strip('"') in self.through and (name != "syscall" or "@syscall(i64 %a0," not in line):
            if f"@{name}(i64 {FUTEX}," not in line:
                raise Stop(f"a system call other than futex: {line}")
            line = line.replace(f"@{name}(i64 {FUTEX},", f"@{name}(i64 {self.target.futex},")
        if name.startswith("llvm.x86."):
            if name != "llvm.x86.sse2.pause":
                raise Stop(f"an instruction of x86-64: {line}")
            line = re.sub(r"call void @llvm.x86.sse2.pause\(\)", f'call void asm sideeffect "{self.target.pause}", ""()', line)
        if name in self.foreign:
            line = border(line, name, self.target)
        return self.words.line(line) if self.words else [line]


def lowered(text, target):
    """Returns the text of the module for this target."""
    return text if target is TARGETS["x86_64"] else Lowering(text, target).text()


def assembly(text, target, options=()):
    """Returns the assembly of a module."""
    words = [compiler(target), f"--target={target.triple}", *OPTIONS, *target.options, *options, "-x", "ir", "-", "-S", "-o", "-"]
    made = tidy(output(words, text))
    return made if target.compiler is None else renamed(made)


def renamed(made):
    """Gives functions plain names, because GNU's assembler for MIPS has no labels in quotation marks."""
    names = {it: re.sub(r"\W", "_", it) for it in re.findall(r'^"([^"\n]+)":$', made, re.M)}
    if len(set(names.values())) != len(names):
        raise Stop("two functions with one plain name")
    made = re.sub(r"^(\t\.(?:ent|end)\t)(.*)$", lambda it: it[1] + names.get(it[2], it[2]), made, flags=re.M)
    return re.sub(r'"([^"\n]+)"', lambda it: names.get(it[1], it[0]), made)


def linked(text, target, out):
    """Writes a module for WebAssembly: the program, with the functions of dist/wasm/, which the toolchain's compiler and linker make too; or a library, which
    exports the functions of dist/abi.txt, and has no use for memory or files."""
    include = output(["gcc", "-print-file-name=include"]).strip()
    words = [compiler(target), f"--target={target.triple}", *OPTIONS, *target.options]
    defined = set(re.findall(rf"^define [^@\n]*@({NAME})\(", text, re.M))
    with tempfile.TemporaryDirectory() as work:
        os.symlink(os.path.join(os.path.dirname(os.path.realpath(toolchain())), "ld.lld"), f"{work}/wasm-ld")
        objects = [f"{work}/{name}.o" for name in ("module", *["runtime"] * ("main" in defined), "wide")]
        output([*words, "-x", "ir", "-", "-c", "-o", objects[0]], text)
        for it in objects[1:]:
            source = f"{ROOT}/dist/wasm/{os.path.basename(it)[:-2]}.c"
            output([*words, "-std=c11", "-ffreestanding", "-Wall", "-Wextra", "-isystem", include, "-mbulk-memory", "-c", source, "-o", it])
        options = "--no-entry --gc-sections --fatal-warnings --strip-all --export-memory --stack-first --max-memory=4294967296".split()
        options += ["-z", f"stack-size={8388608 if 'main' in defined else 65536}", *[f"--export={it}" for it in signatures() if it in defined]]
        output([f"{work}/wasm-ld", *options, *objects, "-o", out])


def tidy(made):
    """Removes the directives that Debian's assemblers do not know, or that name properties of the whole program, which its C compiler selects."""
    return re.sub(r"^\t\.(?:attribute|module|nan|eabi_attribute|fpu|cpu)\b.*\n", "", made, flags=re.M)


def main():
    name, module, out = sys.argv[1:]
    if name not in TARGETS:
        sys.exit(f"{ME}: no target {name}; there are {', '.join(TARGETS)}")
    target = TARGETS[name]
    text = lowered(disassembled(module), target)
    if out.endswith(".wasm"):
        linked(text, target, out)
        return
    with open(out, "w", encoding="utf-8") as file:
        file.write(text if out.endswith(".ll") else assembly(text, target))


if __name__ == "__main__":
    try:
        main()
    except Stop as why:
        sys.exit(f"{ME}: {why}")
