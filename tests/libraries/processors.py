#!/usr/bin/env python3
"""Checks the libraries and the program for other processors than this one, with Debian's cross compilers under qemu's user mode.

Lowering: for each crate whose module bindings/c/library.py left, dist/lower.py lowers it, and this script compares the changed module
with the module, by function. It undoes each change that is allowed, and each line must then be the module's. A change that is necessary
must have been made: `sret` for a returned struct, `signext` on riscv64, the number of the system call futex, 64 bits for a pointer in memory.
The rules are written here a second time, and share no code with lower.py.

Results: from dist/, for each processor, `make` and `make check` by the emulator; random calls of pie.h (calls.c), whose checksums must be
those of x86-64; structs and constants (abi.py). For processors with the program also: random traces, whose histories, audits and
explanations must be those of x86-64; a storm of threads, whose history must be clean. A machine that dist/ lacks is an error of make. The
crate for Rust and the wheel for Python take the assembly of their target.

usage: tests/libraries/processors.py [--calls N] [--traces N] [TARGET..]      the gate makes 20000 calls, and runs 12 traces
       tests/libraries/processors.py --faults       plants faults in the lowering: each must be found
needs: library, program
"""
import os
import re
import shutil
import subprocess
import sys
import tempfile
from concurrent.futures import ThreadPoolExecutor
from pathlib import Path

sys.path.insert(0, f"{os.path.dirname(os.path.abspath(__file__))}/../shared")
from checks import NAME, ROOT, check, finish  # noqa: E402

# each target: the prefix of Debian's cross compiler, and the emulator
TARGETS = {"aarch64": ("aarch64-linux-gnu", "qemu-aarch64"), "riscv64": ("riscv64-linux-gnu", "qemu-riscv64"),
           "armv7": ("arm-linux-gnueabihf", "qemu-arm"), "mipsel": ("mipsel-linux-gnu", "qemu-mipsel")}
LONG = {"aarch64", "riscv64"}
CRATES = ("pie_c", "pie_link_c", "pie")
HEAD = re.compile(r'define [^@]*@("[^"]*"|[\w.]+)\(')


# ---- The lowering

def clang():
    return Path(shutil.which("rt") or "/").resolve().parent.parent / "toolchain/bin/clang"


def module_text(module):
    """Returns the text of a module."""
    words = [clang(), "--target=x86_64-unknown-linux-gnu", "--no-default-config", "-x", "ir", module, "-S", "-emit-llvm", "-Xclang", "-disable-llvm-passes", "-o", "-"]
    return subprocess.run(words, stdout=subprocess.PIPE, check=True).stdout.decode()


def by_function(text):
    """Returns the lines of each function, and of what is outside of functions."""
    found, name = {"": []}, ""
    for line in text.splitlines():
        head = HEAD.match(line)
        name = head[1] if head else name
        found.setdefault(name, []).append(line)
        name = "" if line == "}" else name
    return found


def structs():
    """Returns the functions of dist/abi.txt that return a struct, with its size; and for each function with a size_t the places of these arguments,
    with -1 for the result."""
    text = (ROOT / "dist/abi.txt").read_text()
    size = dict(re.findall(r"^(struct \w+): (\d+) bytes", text, re.M))
    returned, lengths = {}, {}
    for name, result, arguments in re.findall(r"^function (\w+): (.*?) \((.*)\)$", text, re.M):
        if result in size:
            returned[name] = size[result]
        lengths[name] = [-1] * (result == "size_t") + [at for at, it in enumerate(arguments.split(", ")) if re.fullmatch(r"size_t \w+", it)]
    return returned, lengths


def leaves(kind, at=0):
    """Returns the scalars of a type with their offsets, where a pointer has 8 bytes."""
    if not kind.startswith("{"):
        return [(at, kind)], at + width(kind)
    found = []
    for it in re.findall(r"\{[^{}]*\}|[^,{} ]+", kind[1:-1]):
        at += -at % alignment(it)
        inside, at = leaves(it, at)
        found += inside
    return found, at


def width(kind):
    return 8 if kind in ("ptr", "double") else -(-int(kind[1:]) // 8)


def alignment(kind):
    return max(map(alignment, re.findall(r"ptr|double|i\d+", kind))) if kind.startswith("{") else width(kind)


class Compared:
    """The comparison of a changed module with the module, for one target."""

    def __init__(self, target, before, after):
        self.target, self.problems = target, []
        self.returned, self.lengths = structs()
        self.foreign = set(re.findall(r"^declare [^@\n]*@((?!llvm\.)\w+)\(", before, re.M))
        self.before, self.after = by_function(before), by_function(after)

    def say(self, name, what):
        self.problems.append(f"{name or 'outside of functions'}: {what}")

    def all(self):
        """Returns the lines that should not be as they are."""
        if list(self.before) != list(self.after):
            self.say("", "other functions, or in another order")
        for name in self.before.keys() & self.after.keys():
            was = [line.replace('"target-cpu"="x86-64"', '"target-cpu"="x86-64-v2"') for line in self.before[name]]
            now = [self.undone(name, line) for line in self.short(name, self.grouped(name, self.after[name]))]
            for one, two in zip(was, now):
                if not self.equal(one, two) and not (name == "" and one.split(" = ")[0] in ("target datalayout", "target triple")):
                    self.say(name, f"{one.strip()} became {two.strip()}")
            if len(was) != len(now):
                self.say(name, f"{len(was)} lines became {len(now)}")
            for line in self.after[name]:
                self.needed(name, line)
        return self.problems

    def undone(self, name, line):
        """Returns the module's line for a changed line."""
        line = re.sub(r' "target-features"="[^"]*"', "", line)
        if self.target not in LONG and line.startswith("@"):
            line = re.sub(r"\bptr, i32\b", "ptr", line)
            line = re.sub(r"(\bptr (?:@[\w.]+|getelementptr (?:inbounds )?\([^)]*\))), i32 0", r"\1", line)
        line = re.sub(r'(noredzone )?"target-cpu"="(?:generic|generic-rv64|mips32r2)"', '"target-cpu"="x86-64-v2"', line)
        line = re.sub(r'call void asm sideeffect "(?:isb|\.4byte 0x0100000f|)", ""\(\)', "call void @llvm.x86.sse2.pause()", line)
        line = re.sub(r'(@(?:syscall|"\+threads::[\w:]+"))\(i64 98,', r"\1(i64 202,", line)
        if name in self.returned:
            line = line.replace(f"void @{name}(ptr sret([{self.returned[name]} x i8]) align 8 %a0", f"noundef ptr @{name}(ptr noundef %a0")
            line = "  ret ptr %a0" if line == "  ret void" else line
        if self.is_border(name, line):
            line = re.sub(r" (?:signext|zeroext)\b", "", line)
        return line

    def is_border(self, name, line):
        """Returns true if the line is the head of a function that C calls, or declares or calls a C function."""
        called = re.search(r"\b(?:call|declare)\b[^@]*@(\w+)\(", line)
        return bool(called and called[1] in self.foreign or line.startswith("define ") and not line.startswith("define internal "))

    def grouped(self, name, lines):
        """Returns the lines, with the module's line for each group that a change for 32-bit words made of it."""
        if self.target in LONG:
            return lines
        made, at = [], 0
        while at < len(lines):
            group = re.match(r"  (%(?:stored\.\d+|r\d+))\.\d", lines[at])
            if not group:
                made.append(lines[at])
                at += 1
                continue
            end = at + 1
            while end < len(lines) and re.search(rf"{re.escape(group[1])}(?:\.\d| = )", lines[end]):
                end += 1
                if lines[end - 1].startswith(f"  {group[1]} = "):
                    break
            made.append(self.one(name, group[1], lines[at:end]))
            at = end
        return made

    def one(self, name, value, group):
        """Returns the load or the store of which the lines were made, or the first line if they do not do what it does."""
        places = [re.fullmatch(r"  \S+ = getelementptr i8, ptr (\S+), i64 (\d+)", line) for line in group]
        places = [it for it in places if it]
        is_store = value.startswith("%stored")
        pattern = r"  store (\w+) (\S+), ptr (\S+)\.at, align (\d+)" if is_store else r"  (\S+) = load (\S+), ptr (\S+)\.at, align (\d+)"
        moved = [it for it in (re.fullmatch(pattern, line) for line in group) if it]
        pointers = [it for it in (re.fullmatch(r"  (\S+) = (?:inttoptr i64 \S+ to ptr|ptrtoint ptr (\S+) to i64)", line) for line in group) if it]
        taken = [it for it in (re.fullmatch(r"  \S+ = (?:insert|extract)value (\{.*\}) (\S+)(?:,.*), (\d+)|  \S+ = (?:insert|extract)value (\{.*\}) (\S+), (\d+)", line) for line in group) if it]
        kind = (taken[0][1] or taken[0][4]) if taken else "ptr"
        scalars, _ = leaves(kind)
        wanted = [(at, "i64" if it == "ptr" else it) for at, it in scalars]
        found = [(int(place[2]), it[1 if is_store else 2]) for place, it in zip(places, moved)]
        if found != wanted or len({it[1] for it in places}) != 1 or len(pointers) != sum(it == "ptr" for _, it in scalars) or len(taken) != (kind != "ptr") * len(scalars):
            return group[0]
        alignment_of_all = moved[0][4]
        if not is_store:
            return f"  {value} = load {kind}, ptr {places[0][1]}, align {alignment_of_all}"
        what = (taken[0][2] or taken[0][5]) if taken else pointers[0][2]
        return f"  store {kind} {what}, ptr {places[0][1]}, align {alignment_of_all}"

    def equal(self, one, two):
        """Returns true if the lines are equal, or the second has 8 bytes for each pointer of an `alloca`."""
        if self.target == "mipsel" and one.startswith("declare "):
            # (the name of this attribute in LLVM 19)
            one = one.replace(" captures(none)", " nocapture")
        if one == two:
            return True
        if self.target in LONG:
            return False
        one = re.sub(r"(, align \d+)(?:, ![\w.]+ !\d+)+$", r"\1", one) if " = load " in one else one
        one, two = one.replace(" = ptrtoaddr ", " = ptrtoint "), two.replace(" = ptrtoaddr ", " = ptrtoint ")
        was = re.fullmatch(r"(  %\S+ = alloca )(ptr|\{.*\})(, align \d+)", one)
        return one == two or bool(was) and two == f"{was[1]}[{leaves(was[2])[1]} x i8]{was[3]}"

    def short(self, name, lines):
        """Returns the lines of a function with 64 bits for each size_t."""
        lengths = self.lengths.get(name, []) if self.target not in LONG else []
        if not lengths or not lines[0].startswith("define "):
            return lines
        head, made = lines[0], []
        shift = name in self.returned
        for at in lengths:
            if at >= 0:
                head = head.replace(f"i32 noundef %a{at + shift}.size", f"i64 noundef %a{at + shift}")
        head = head.replace(f"i32 @{name}(", f"i64 @{name}(") if -1 in lengths else head
        long = {f"  %a{at + shift} = zext i32 %a{at + shift}.size to i64" for at in lengths if at >= 0}
        for line in lines[1:]:
            cut = re.fullmatch(r"  %size\.\d+ = trunc i64 (\S+) to i32", line)
            if cut:
                made.append(f"  ret i64 {cut[1]}")
            elif line not in long and not re.fullmatch(r"  ret i32 %size\.\d+", line):
                made.append(line)
        if any(re.search(rf"i64 noundef %a{at + shift}\b", lines[0]) for at in lengths if at >= 0):
            self.say(name, "a size_t with 64 bits")
        return [head, *made]

    def needed(self, name, line):
        """Notes a line that had to be changed and was not."""
        if self.target == "riscv64" and self.is_border(name, line):
            head, _, rest = line.partition("@")
            if re.search(r"\bi32\b(?! (?:noundef )?signext)", rest.split(")")[0]) or re.search(r"(?<!signext )\bi32 (?:\([^)]*\) )?$", head):
                self.say(name, f"an integer of 32 bits without signext: {line.strip()}")
        if re.search(r"\bptr @\w+\(ptr noundef %a0", line) and line.startswith("define ") and not line.startswith("define internal"):
            self.say(name, f"a returned struct without sret: {line.strip()}")
        if self.target != "wasm" and re.search(r"@\"?[\w+:]*(?:syscall|wake)\"?\(i64 202,", line):
            self.say(name, f"the number of futex on x86-64: {line.strip()}")
        if self.target not in LONG and re.search(r" = (?:load|alloca) (?:ptr|\{[^}]*ptr)|  store (?:ptr|\{[^}]*ptr)|ptrtoaddr", line):
            self.say(name, f"a pointer in memory with 32 bits: {line.strip()}")
        if self.target not in LONG and line.startswith("@") and re.search(r" <\{ (?:[^{}]*, )?ptr(?:, (?!i32\b)| \}>)", line):
            self.say(name, f"a table with 32 bits for a pointer: {line[:120]}")
        if re.search(r"call .*@llvm\.x86\.", line):
            self.say(name, f"an instruction of x86-64: {line.strip()}")


def compare_lowerings(targets, work):
    """Compares each module that is here with what lower.py makes of it."""
    modules = {name: ROOT / f"crates/{name}/out/{name}.bc" for name in CRATES}
    modules = {name: module for name, module in modules.items() if module.exists()}
    if not modules or not clang().exists():
        print(f"NOT RUN: {NAME}: no module of bindings/c/library.py or no toolchain here, so no lowering was compared")
        return
    for name, module in modules.items():
        before = module_text(module)
        for line in re.findall(r"^.*\b(?:cmpxchg|atomicrmw|load atomic|store atomic|fence)\b.*$", before, re.M):
            # (so the code is right on processors with a weaker order of memory too)
            check("arithmetic.fence" in line or re.search(r"\bseq_cst\b(?! monotonic| acquire)", line), f"the module of {name} has an access with a weaker order: {line.strip()}")
        for target in [*targets, "wasm"]:
            if target not in LONG and name not in ({"pie_c", "pie"} if target == "wasm" else {"pie_c"}):
                continue
            after = Path(f"{work}/{target}-{name}.ll")
            subprocess.run([ROOT / "dist/lower.py", target, module, after], check=True)
            found = Compared(target, before, after.read_text()).all()
            for why in found[:5]:
                check(False, f"the module of {name} for {target}: {why}")
    print(f"{NAME}: the lowering of {', '.join(modules)} for {', '.join(targets)} and WebAssembly changes the lines that it may change")


# ---- Results

def run(words, **how):
    return subprocess.run(list(map(str, words)), stdout=subprocess.PIPE, stderr=subprocess.STDOUT, text=True, cwd=ROOT, check=False, **how)


class Built:
    """The files that make builds from dist/ for one processor."""

    def __init__(self, target, work, count, traces):
        self.target, self.count, self.traces = target, count, traces
        self.folder = Path(f"{work}/{target}")
        prefix, self.emulator = TARGETS.get(target, (None, None))
        self.cc = f"{prefix}-gcc" if prefix else "cc"
        self.run_by = [self.emulator, "-L", f"/usr/{prefix}"] if prefix else []

    def missing(self):
        return [it for it in (self.cc, self.emulator) if it and not shutil.which(it)]

    def make(self, *more):
        return run(["make", "-s", f"CC={self.cc}", f"BUILD={self.folder}", *([f"RUN={self.emulator}"] if self.emulator else []), *more])

    def calls(self):
        """Builds calls.c, and returns its output."""
        program = self.folder / "calls"
        done = run([self.cc, "-O1", "-std=c11", "-Wall", "-Wextra", "-Werror", "-Iinclude", "-o", program, "tests/libraries/calls.c", self.folder / "libpie_c.a"])
        if done.returncode:
            return done.stdout
        return run([*self.run_by, program, "1", self.count]).stdout

    def pie(self, *words, text=None):
        done = subprocess.run([*self.run_by, self.folder / "pie", *words], input=text, stdout=subprocess.PIPE, stderr=subprocess.STDOUT, check=False)
        return done.returncode, done.stdout

    def outputs(self, traces):
        """Returns what the program writes for each trace."""
        found = []
        for trace in traces:
            history = self.pie("run", text=trace)
            found += [history, self.pie("audit", text=history[1]), self.pie("explain", "--all", "--csv", text=history[1]),
                      self.pie("cut", "--every", "7", text=history[1]), self.pie("explain", "--every", "10ms", text=history[1])]
        return found


def random_traces(count, work):
    """Returns random traces (tests/shared/reference.py)."""
    found = []
    for seed in range(1, count + 1):
        trace, history = f"{work}/trace", f"{work}/history"
        subprocess.run([sys.executable, ROOT / "tests/shared/reference.py", trace, history, str(seed), "80"], check=True)
        found.append(Path(trace).read_bytes())
    return found


def check_results(built, wanted, traces, outputs):
    """Checks what make built for one processor beside what it built for x86-64."""
    target = built.target
    done = built.make("check")
    if done.returncode:
        check(False, f"make check for {target} fails:\n{done.stdout[-3000:]}")
        return
    found = built.calls()
    check(found == wanted, f"random calls of pie.h have other results on {target}:\n{found}\nand on x86-64:\n{wanted}")
    if target not in LONG:
        print(f"{NAME}: {target}: rows, traps, events and example; {built.count} random calls as on x86-64")
        return
    done = run([ROOT / "tests/libraries/abi.py"], env={**os.environ, "CC": built.cc, "RUN": " ".join(built.run_by)})
    check(done.returncode == 0, f"abi.py for {target} fails: {done.stdout}")
    for number, (one, two) in enumerate(zip(outputs, built.outputs(traces))):
        check(one == two, f"random trace {number // 5 + 1}, command {number % 5 + 1}: the program has another output or status on {target}")
    for words in (["--senders", "4", "--packets", "25"], ["--senders", "8", "--packets", "8", "--seed", "7"]):
        status, history = built.pie("storm", *words)
        found = built.pie("audit", text=history)[1]
        check(status == 0 and found.startswith(b"clean,"), f"a storm of threads on {target}: status {status}, {found!r}")
    print(f"{NAME}: {target}: make check, {built.count} random calls, {len(traces)} random traces and two storms as on x86-64")


# each target: its triple, its architecture and its width, as cargo names them; the machine in the name of a wheel, and in the head of an object file
NAMES = {"aarch64": ("aarch64-unknown-linux-gnu", "aarch64", "64", "aarch64", "AArch64"), "riscv64": ("riscv64gc-unknown-linux-gnu", "riscv64", "64", "riscv64", "RISC-V"),
         "armv7": ("armv7-unknown-linux-gnueabihf", "arm", "32", "armv7l", "ARM"), "mipsel": ("mipsel-unknown-linux-gnu", "mips", "32", "mipsel", "MIPS R3000")}


def machine(path):
    found = re.search(r"^ *Machine: +(.*)$", run(["readelf", "-h", path]).stdout, re.M)
    return found[1] if found else None


def check_crate(builder, built, out):
    """Checks that the script that builds the crate for Rust takes the assembly of its target, by the target's compiler."""
    triple, arch, width, _, head = NAMES[built.target]
    variables = {"ARCH": arch, "POINTER_WIDTH": width, "ENDIAN": "little", "OS": "linux"}
    about = {f"CARGO_CFG_TARGET_{key}": value for key, value in variables.items()}
    about |= {"OUT_DIR": str(out), "CARGO_MANIFEST_DIR": str(ROOT / "bindings/rust"), "HOST": "x86_64-unknown-linux-gnu", "TARGET": triple, "PIE_C_PREFIX": ""}
    without = {name: value for name, value in os.environ.items() if name not in ("CC", "AR")}
    for what, more in (("by default", {}), ("with a compiler for the target", {"CC": "false", f"CC_{triple.replace('-', '_')}": built.cc})):
        done = run([builder], env={**without, **about, **more})
        check(done.returncode == 0 and machine(out / "pie_c.o") == head, f"build.rs for {built.target} {what}: {machine(out / 'pie_c.o')}, {done.stdout[-500:]}")
        for it in out.iterdir():
            it.unlink()
    for what, more in (("the assembly is for", {"CARGO_CFG_TARGET_ENDIAN": "big"}), ("64-bit words", {"CARGO_FEATURE_LINK": "1"})):
        done = run([builder], env={**without, **about, **more})
        wanted = what == "64-bit words" and built.target in LONG
        check((done.returncode == 0) == wanted and (wanted or what in done.stdout), f"build.rs for {built.target} with {more}: status {done.returncode}, {done.stdout[-300:]}")


def check_wheel(python, built, out, work):
    """Checks that a wheel that is built by a cross compiler has the name and the library of its target."""
    _, _, _, name, head = NAMES[built.target]
    words = [python, "-m", "pip", "wheel", "--quiet", "--no-build-isolation", "--no-deps", "--no-index", "--wheel-dir", out, f"{work}/copy/bindings/python"]
    done = run(words, env={**os.environ, "CC": built.cc})
    found = [it.name for it in out.glob("*.whl")]
    check(len(found) == 1 and found[0].endswith(f"-py3-none-linux_{name}.whl"), f"the wheel for {built.target}: {found}, {done.stdout[-500:]}")
    if found:
        shutil.unpack_archive(out / found[0], out, "zip")
        check(machine(out / "juniperbowls/libpie.so.0") == head, f"the wheel for {built.target} has a library for {machine(out / 'juniperbowls/libpie.so.0')}")


def check_bindings(ready, work):
    """Checks that the crate for Rust and the wheel for Python take the assembly of their target."""
    builder = Path(f"{work}/build")
    has_rust = shutil.which("rustc") and run(["rustc", "--edition", "2021", "-o", builder, "bindings/rust/build.rs"]).returncode == 0
    pythons = [it for it in ("python3", "/usr/bin/python3") if shutil.which(it) and run([it, "-c", "import setuptools, wheel, pip"]).returncode == 0]
    if not has_rust or not pythons:
        print(f"NOT RUN: {NAME}: no rustc, or no python3 with setuptools, wheel and pip here, so not every binding took the assembly of its target")
    # (a copy, because a wheel is built in its folder)
    for name in ("bindings/python", "include", "dist"):
        shutil.copytree(ROOT / name, f"{work}/copy/{name}", ignore=shutil.ignore_patterns("out", "pie.S.xz"))
    for name in ("Makefile", "LICENSE-MIT", "LICENSE-APACHE"):
        shutil.copy(ROOT / name, f"{work}/copy")
    for built in ready:
        out = Path(f"{work}/{built.target}/out")
        out.mkdir()
        if has_rust:
            check_crate(builder, built, out)
        if pythons and built.target in LONG:
            check_wheel(pythons[0], built, out, work)
        shutil.rmtree(out)


def check_refusals(work):
    """Checks that make names the processors if dist/ lacks the machine of the compiler."""
    names = sorted(it.parent.name for it in (ROOT / "dist").glob("*/pie_c.S*"))
    for machine in ("mips-linux-gnu", "s390x-linux-gnu", "armeb-linux-gnueabihf", "aarch64_be-linux-gnu", "powerpc64le-linux-gnu", "x86_64-linux-gnux32", "x86_64-apple-darwin", ""):
        compiler = Path(f"{work}/cc")
        compiler.write_text(f"#!/bin/sh\necho {machine}\n")
        compiler.chmod(0o755)
        done = run(["make", f"CC={compiler}", f"BUILD={work}/none"])
        check(done.returncode == 2 and all(it in done.stdout for it in names) and "big-endian" in done.stdout and not Path(f"{work}/none").exists(),
              f"make for the machine {machine!r}: status {done.returncode}, {done.stdout}")
    check_headers(work)
    if shutil.which("arm-linux-gnueabihf-gcc"):
        for target, reason in (("libpie_link.a", "64-bit words"), ("pie", "no program for armv7")):
            done = run(["make", "-s", "CC=arm-linux-gnueabihf-gcc", f"BUILD={work}/none", f"{work}/none/{target}"])
            check(done.returncode == 2 and reason in done.stdout, f"make {target} for armv7: status {done.returncode}, {done.stdout}")


def check_headers(work):
    """Checks that the headers reject a processor with another byte order or alignment, and links on 32-bit words, and name the reason."""
    for header in ("pie.h", "pie_link.h"):
        Path(f"{work}/{header}.c").write_text(f'#include "{header}"\nint it;\n')
    for compiler, options, header, reason in (
            ("mips-linux-gnu-gcc", [], "pie.h", "little-endian"), ("s390x-linux-gnu-gcc", [], "pie.h", "little-endian"),
            ("powerpc64-linux-gnu-gcc", [], "pie.h", "little-endian"), ("gcc", ["-m32"], "pie.h", "PIE_ALIGNMENT(uint64_t) == 8"),
            ("gcc", ["-m32", "-std=c99"], "pie.h", "PIE_ALIGNMENT(uint64_t) == 8"), ("arm-linux-gnueabihf-gcc", [], "pie_link.h", "64-bit words")):
        if shutil.which(compiler):
            done = run([compiler, *options, "-ffreestanding", "-Iinclude", "-fsyntax-only", f"{work}/{header}.c"])
            check(done.returncode != 0 and f"error: {'#error' if '==' not in reason else 'static assertion'}" in done.stdout and reason in done.stdout,
                  f"{header} by {compiler} {' '.join(options)}: status {done.returncode}, {done.stdout[:300]}")


# ---- Planted faults

# each: its name, the target, the crate, and a change of the lowered module as a pattern and its replacement
FAULTS = [
    ("a returned struct without sret", "aarch64", "pie_c", r"void @pie_update\(ptr sret\(\[40 x i8\]\) align 8 %a0(.*\n(?:(?!\}).*\n)*?)  ret void", r"noundef ptr @pie_update(ptr noundef %a0\1  ret ptr %a0"),
    ("sret at the second argument", "aarch64", "pie_c", r"ptr (sret\(\[40 x i8\]\) align 8) %a0, ptr noundef %a1", r"ptr noundef %a0, ptr \1 %a1"),
    ("a result without signext", "riscv64", "pie_c", r"define noundef signext i32 @pie_arrive\(", "define noundef i32 @pie_arrive("),
    ("an argument without signext", "riscv64", "pie_c", r"(define [^@\n]*@pie_arrive\(.*?i32 noundef) signext", r"\1"),
    ("an argument of a C function without signext", "riscv64", "pie", r"(call [^@\n]*@isatty\(i32) signext", r"\1"),
    ("the number of futex left at 202", "aarch64", "pie", r"\(i64 98,", "(i64 202,"),
    ("the number of futex left at 202", "riscv64", "pie", r"\(i64 98,", "(i64 202,"),
    ("a pointer at its offset for 32 bits", "armv7", "pie_c", r"(%r\d+\.1\.at = getelementptr i8, ptr \S+, i64) 8", r"\1 4"),
    ("a pointer that is stored with 32 bits", "armv7", "pie_c", r"  store i64 (%stored\.\d+\.0)\.long, ptr", r"  store ptr \1, ptr"),
    ("a table without 64 bits for each pointer", "mipsel", "pie_c", r"<\{ ptr, i32, (.*)\}> <\{ (ptr (?:@[\w.]+|getelementptr \([^)]*\))), i32 0, ", r"<{ ptr, \1}> <{ \2, "),
    ("a size_t with 64 bits", "mipsel", "pie_c", r"i32 noundef (%a2)\.size(.*\nstart:\n)  .* = zext .*\n", r"i64 noundef \1\2"),
    ("another instruction", "aarch64", "pie_c", r" = add i64 ", " = sub i64 "),
    ("a returned struct without sret", "wasm", "pie_c", r"void @pie_update\(ptr sret\(\[40 x i8\]\) align 8 %a0(.*\n(?:(?!\}).*\n)*?)  ret void", r"noundef ptr @pie_update(ptr noundef %a0\1  ret ptr %a0"),
    ("a pointer at its offset for 32 bits", "wasm", "pie_c", r"(%r\d+\.1\.at = getelementptr i8, ptr \S+, i64) 8", r"\1 4"),
    ("a pointer that is stored with 32 bits", "wasm", "pie_c", r"  store i64 (%stored\.\d+\.0)\.long, ptr", r"  store ptr \1, ptr"),
    ("a table without 64 bits for each pointer", "wasm", "pie_c", r"<\{ ptr, i32, (.*)\}> <\{ (ptr (?:@[\w.]+|getelementptr \([^)]*\))), i32 0, ", r"<{ ptr, \1}> <{ \2, "),
    ("a size_t with 64 bits", "wasm", "pie_c", r"i32 noundef (%a2)\.size(.*\nstart:\n)  .* = zext .*\n", r"i64 noundef \1\2"),
    ("another instruction", "wasm", "pie_c", r" = add i64 ", " = sub i64 "),
    ("another instruction", "wasm", "pie", r" = add i64 ", " = sub i64 "),
]


def faults():
    """Plants each fault in the lowered module. The comparison with the module must find it; for a struct that is not returned by sret, random calls must
    have other results too."""
    found, missing = 0, set()
    with tempfile.TemporaryDirectory() as work:
        texts = {}
        for what, target, name, pattern, replacement in FAULTS:
            module = ROOT / f"crates/{name}/out/{name}.bc"
            if not module.exists():
                missing.add(name)
                continue
            if (name, target) not in texts:
                after = Path(f"{work}/after.ll")
                subprocess.run([ROOT / "dist/lower.py", target, module, after], check=True)
                texts[name, target] = module_text(module), after.read_text()
            before, after = texts[name, target]
            wrong, count = re.subn(pattern, replacement, after, count=1)
            check(count == 1, f"{what}: the lowered module of {name} for {target} has no such line")
            problems = Compared(target, before, wrong).all()
            check(problems, f"{what} ({name}, {target}) is not found")
            found += bool(problems)
            print(f"{NAME}: {what} ({name}, {target}): {problems[0][:140] if problems else 'NOT FOUND'}")
            if "without sret" in what and target in TARGETS:
                check(other_results(target, wrong, work), f"{what}: random calls have the same results")
    for name in sorted(missing):
        print(f"NOT RUN: {NAME}: no module of {name} here (dist/make.sh leaves it), so its faults were not planted")
    print(f"{NAME}: {found} planted faults are found")
    finish()


def other_results(target, text, work):
    """Returns true if the library made of the changed module has other results than dist/'s, or ends otherwise."""
    sys.path.insert(0, str(ROOT / "dist"))
    import lower
    assembly = Path(f"{work}/wrong.S")
    assembly.write_text(lower.assembly(text, lower.TARGETS[target]))
    right, wrong = Built(target, f"{work}/right", 5000, 0), Built(target, f"{work}/wrong", 5000, 0)
    for built, more in ((right, []), (wrong, [f"PIE_C_S={assembly}"])):
        done = built.make(f"{built.folder}/libpie_c.a", *more)
        check(done.returncode == 0, f"make fails: {done.stdout}")
    return right.calls() != wrong.calls()


def number_after(word, default):
    return int(sys.argv.pop(sys.argv.index(word) + 1)) if word in sys.argv else default


def main():
    if "--faults" in sys.argv:
        return faults()
    count, traces = number_after("--calls", 20000), number_after("--traces", 12)
    targets = [it for it in sys.argv[1:] if it in TARGETS] or list(TARGETS)
    with tempfile.TemporaryDirectory() as work:
        check_refusals(work)
        compare_lowerings(targets, work)
        here = Built("x86_64", work, count, traces)
        done = here.make()
        check(done.returncode == 0, f"make fails: {done.stdout}")
        texts = random_traces(traces, work)
        wanted, outputs = here.calls(), here.outputs(texts)
        check(f"calls {count} checksum" in wanted, f"calls.c was not run: {wanted}")
        ready = []
        for built in (Built(it, work, count, traces) for it in targets):
            if built.missing():
                print(f"NOT RUN: {NAME}: no {' and '.join(built.missing())} here, so nothing was built for {built.target}")
            else:
                ready.append(built)
        with ThreadPoolExecutor(2) as pool:
            for it in [pool.submit(check_results, built, wanted, texts, outputs) for built in ready]:
                it.result()
        check_bindings(ready, work)
    finish()


if __name__ == "__main__":
    main()
