#!/usr/bin/env python3
"""Checks dist/bpf, the module of pie_c for BPF programs.

Lowering: dist/lower.py lowers crates/pie_c/out/pie_c.bc, and this script compares the result with the module, by function. It undoes each change that
is allowed, and each line must then be the module's. The functions that are left out must be those that the exported ones do not use. The rules are
written here a second time, and share no code with lower.py.

Numbers of 128 bits: the lines of dist/bpf/pie_c.ll that compute a product and a quotient, and pie_div_low of dist/bpf/division.h, are compiled for this
processor, and wide_numbers.c compares their results with gcc's __int128: 20 million random cases, and all pairs of odd ones.

Decisions: bpf_calls.c makes 10 million random calls of dist/bpf/pie_c.ll, compiled for this processor, and of dist/'s assembly, over the ranges of all
parameters, with each profile and all choices. The results must be equal. bpf_decides.c makes random histories of 10 million enqueues, and decides each
event again by rules of its own (bpf_rules.h). bpf_qdisc.c runs pie_qdisc.bpf.c of bindings/bpf in the same way, as a kernel would, with 2.5 million
packets, and bpf_fq.c its queue with flows, with 2 million.

Faults are planted in each: they must be found.

usage: tests/libraries/bpf.py [CASES [CALLS]]
needs: library
"""
import re
import shutil
import subprocess
import sys
import tempfile
from pathlib import Path

sys.path.insert(0, f"{__file__.rsplit('/', 1)[0]}/../shared")
from checks import NAME, ROOT, check, finish  # noqa: E402

CALLS = {"pie_open", "pie_arrive_event", "pie_depart_event", "pie_empty_event", "pie_update_event", "pie_reset_event", "pie_set_params_event", "pie_due", "pie_check_params"}
WORD = r'(?:"[^"]*"|[\w.$-]+)'
SPLIT = """$.al = trunc i128 ONE to i64
$.as = lshr i128 ONE, 64
$.ah = trunc i128 $.as to i64
"""
JOIN = """$.jh = zext i64 $.high to i128
$.js = shl i128 $.jh, 64
$.jl = zext i64 $.low to i128
$ = or i128 $.js, $.jl
"""
# the products of the 32-bit halves, with the carries into the upper 64 bits
PRODUCT = SPLIT + SPLIT.replace("$.a", "$.b").replace("ONE", "TWO") + """$.adl = and i64 $.al, 4294967295
$.adh = lshr i64 $.al, 32
$.bdl = and i64 $.bl, 4294967295
$.bdh = lshr i64 $.bl, 32
$.ll = mul i64 $.adl, $.bdl
$.lh = mul i64 $.adl, $.bdh
$.hl = mul i64 $.adh, $.bdl
$.hh = mul i64 $.adh, $.bdh
$.c1 = lshr i64 $.ll, 32
$.m1 = add i64 $.hl, $.c1
$.m2 = and i64 $.m1, 4294967295
$.m3 = add i64 $.lh, $.m2
$.c2 = lshr i64 $.m1, 32
$.c3 = lshr i64 $.m3, 32
$.u1 = add i64 $.hh, $.c2
$.u2 = add i64 $.u1, $.c3
$.low = mul i64 $.al, $.bl
$.x1 = mul i64 $.ah, $.bl
$.x2 = mul i64 $.al, $.bh
$.u3 = add i64 $.u2, $.x1
$.high = add i64 $.u3, $.x2
""" + JOIN
QUOTIENT = SPLIT + """$.by = trunc i128 TWO to i64
$.high = udiv i64 $.ah, $.by
$.rest = urem i64 $.ah, $.by
$.low = call i64 @pie_div_low(i64 $.rest, i64 $.al, i64 $.by)
""" + JOIN
# the faults: a pattern in the lowered module, and its replacement. Those after None are not in a product or a quotient
FAULTS = [(r"(\.c2 = lshr i64 \S+), 32", r"\1, 31"), (r"\.m3 = add", ".m3 = sub"), (r"(\.u3 = add i64 \S+), (\S+)\.x1", r"\1, \2.x2"),
          (r"(\.rest = )urem", r"\1udiv"), (r"(@pie_div_low\(i64 \S+), (i64 \S+)\.al,", r"\1, \2.ah,"), None,
          (r" = add i64 (%r\d+), (%r\d+)\n", r" = sub i64 \1, \2\n"), (r"icmp ult", "icmp ule"), (r"alwaysinline nounwind", "nounwind"),
          (r"  ; call void @llvm.trap\(\)\n", ""), (r"define internal (noundef i64 @\"pie_aqm::raw::wait\")", r"define \1")]

# faults of decisions: a line of the module, and its replacement
DECISIONS = [("%r13 = shl i128 %r12, 64", "%r13 = shl i128 %r12, 63"), ("  %r13 = mul i64 %r12, 98\n", "  %r13 = mul i64 %r12, 97\n")]


def run(words, text=None):
    return subprocess.run(list(map(str, words)), input=text, cwd=ROOT, stdout=subprocess.PIPE, stderr=subprocess.STDOUT, text=True, check=False)


def module_text(module):
    clang = Path(shutil.which("rt") or "/").resolve().parent.parent / "toolchain/bin/clang"
    return run([clang, "--target=x86_64-unknown-linux-gnu", "--no-default-config", "-x", "ir", module, "-S", "-emit-llvm", "-Xclang", "-disable-llvm-passes", "-o", "-"]).stdout


def by_function(text):
    """Returns the lines of each function, declaration and target. Instead of a number of attributes, metadata or a constant, a line has its text."""
    numbered = dict(re.findall(r"^(?:attributes )?([#!@][\w.]+) = (.*)$", text, re.M))
    found, name = {}, ""
    for line in text.splitlines():
        line = line.split(" ; preds = ")[0].rstrip()
        if not line or line.startswith((";", "source_filename", "attributes ", "!", "@")):
            continue
        line = re.sub(r"(?<= )#\d+|(?<![\w!])!\d+|@static\.\d+", lambda it: numbered[it[0]], line)
        head = re.match(rf"(?:define|declare) [^@]*@({WORD})\(|target (\w+)", line)
        name = head and (head[1] or head[2]) or name
        found.setdefault(name, []).append(line)
    return found


def used(functions):
    """Returns the names of the functions that CALLS use."""
    found, left = set(), sorted(CALLS)
    while left:
        name = left.pop()
        if name in functions and name not in found:
            found.add(name)
            left += re.findall(rf"@({WORD})", "\n".join(functions[name]))
    return found


def undone(lines):
    """Returns the module's lines for those of a lowered function."""
    made, at = [], 0
    while at < len(lines):
        begin = re.fullmatch(r"  (%\S+)\.al = trunc i128 (\S+) to i64", lines[at])
        if begin:
            name, one = begin.groups()
            for form, kind, other in ((PRODUCT, "mul", r"\.bl = trunc i128 (\S+) to"), (QUOTIENT, "udiv", r"\.by = trunc i128 (\S+) to")):
                count = form.count("\n")
                two = re.search(other, "\n".join(lines[at:at + count]))
                wanted = two and [f"  {it}" for it in form.replace("ONE", one).replace("TWO", two[1]).replace("$", name).splitlines()]
                if wanted and wanted == lines[at:at + count]:
                    made.append(f"  {name} = {kind} i128 {one}, {two[1]}")
                    at += count
                    break
            else:
                made.append(lines[at])
                at += 1
            continue
        made.append(lines[at].replace("  ; call void @llvm.trap()", "  call void @llvm.trap()"))
        at += 1
    return made


def lowered_head(name, line):
    """Returns the first line of a function or a declaration as it should be."""
    if name not in CALLS:
        line = re.sub(r"^define (?!internal )", "define internal ", line)
    return re.sub(r'\{ [^{}]*"target-cpu"="x86-64-v2" \}', '{ alwaysinline nounwind "target-cpu"="v4" }', line).replace(" captures(none)", " nocapture")


def differences(before, after):
    """Returns the lines of the lowered module that should not be as they are."""
    was, now, found = by_function(before), by_function(after), []
    wanted = used(was) | {"triple", "datalayout", "pie_div_low"}
    was |= {"triple": ['target triple = "bpf"'], "datalayout": ['target datalayout = "e-m:e-p:64:64-i64:64-i128:128-n32:64-S128"'],
            "pie_div_low": ["declare i64 @pie_div_low(i64, i64, i64)"]}
    if wanted != now.keys():
        found.append(f"without {sorted(wanted - now.keys())}, and with {sorted(now.keys() - wanted)}")
    for name in sorted(wanted & now.keys()):
        one, two = [lowered_head(name, was[name][0]), *was[name][1:]], undone(now[name])
        found += [f"{name}: {a.strip()} became {b.strip()}" for a, b in zip(one, two) if a != b]
        found += [f"{name}: {len(one)} lines became {len(two)}"] * (len(one) != len(two))
    return found


def group(text, kind):
    """Returns the lines of the first product or quotient of the text, for values %one and %two and the result %it."""
    last = {"mul": r"\.bl = trunc i128", "udiv": r"\.by = trunc i128"}[kind]
    for match in re.finditer(r"^  (%\S+)\.al = trunc i128 (\S+) to i64\n(?:.*\n)*?  \1 = or .*\n", text, re.M):
        if re.search(last, match[0]):
            two = re.search(last + r" (\S+) to", match[0])[1]
            return re.sub(rf"{re.escape(match[1])}(?=[.,\s])", "%it", re.sub(rf"{re.escape(match[2])} to", "%one to", match[0]).replace(f"i128 {match[2]},", "i128 %one,")
                          .replace(f"i128 {two} to", "i128 %two to").replace(f"i128 {two},", "i128 %two,"))
    return ""


def numbers(text, work, cases):
    """Compares products and quotients with those of __int128. Returns what wide_numbers.c prints, or the error."""
    made = 'target triple = "x86_64-unknown-linux-gnu"\ndeclare i64 @pie_div_low(i64, i64, i64)\n'
    for name, kind in (("product", "mul"), ("quotient", "udiv")):
        made += f"define void @{name}(ptr %a, ptr %b, ptr %to) {{\n  %one = load i128, ptr %a, align 16\n  %two = load i128, ptr %b, align 16\n{group(text, kind)}"
        made += "  store i128 %it, ptr %to, align 16\n  ret void\n}\n"
    done = run(["clang-19", "-O2", "-x", "ir", "-", "-c", "-o", f"{work}/numbers.o"], made)
    if done.returncode:
        return done.stdout
    done = run(["gcc", "-O2", "-Wall", "-Wextra", "-Werror", "-Idist/bpf", "-o", f"{work}/numbers", "tests/libraries/wide_numbers.c", f"{work}/numbers.o"])
    return done.stdout or run([f"{work}/numbers", cases]).stdout


def calls(text, work, program, count, qdisc="bindings/bpf/pie_qdisc.bpf.c"):
    """Runs a program with the module, compiled for this processor, and the file of the queue discipline. Returns what it prints, or the error."""
    text = re.sub(r"^target datalayout = .*$", "", text.replace('target triple = "bpf"', 'target triple = "x86_64-unknown-linux-gnu"'), flags=re.M)
    text = re.sub(r"@(pie_(?!div_low)\w+)", r"@bpf_\1", text.replace('"target-cpu"="v4"', ""))
    done = run(["clang-19", "-O2", "-w", "-x", "ir", "-", "-c", "-o", f"{work}/calls.o"], text)
    if done.returncode:
        return done.stdout
    words = ["gcc", "-O2", "-Wall", "-Wextra", "-Werror", "-Iinclude", "-Idist/bpf"]
    if program in ("bpf_qdisc", "bpf_fq"):
        words += ["-I.", "-Ibindings/bpf", f'-DQDISC="{qdisc}"', "-Wno-unknown-pragmas", "-Wno-attributes", "-Wno-unused-parameter"]
    done = run([*words, "-o", f"{work}/calls", f"tests/libraries/{program}.c", f"{work}/calls.o", "dist/x86_64/pie_c.S"])
    if done.stdout:
        return done.stdout
    done = run([f"{work}/calls", count])
    return done.stdout if done.returncode == 0 or not done.stdout.startswith("equal: ") else f"too few of a kind: {done.stdout}"


def main():
    cases = sys.argv[1] if len(sys.argv) > 1 else "20000000"
    module = ROOT / "crates/pie_c/out/pie_c.bc"
    missing = [it for it in ("clang-19", "gcc") if not shutil.which(it)]
    if missing:
        print(f"NOT RUN: {NAME}: no {' and '.join(missing)} here (tests/install.sh)")
        return
    text = (ROOT / "dist/bpf/pie_c.ll").read_text()
    with tempfile.TemporaryDirectory() as work:
        found = numbers(text, work, cases)
        check(found.startswith("equal: "), f"numbers of 128 bits: {found}")
        print(f"{NAME}: products and quotients: {found.strip()}")
        for pattern, replacement in FAULTS[:FAULTS.index(None)]:
            wrong = re.sub(pattern, replacement, text)
            check(wrong != text and not numbers(wrong, work, "100000").startswith("equal: "), f"wide_numbers.c does not find the fault {pattern}")
        for program, share in (("bpf_calls", 1), ("bpf_decides", 1), ("bpf_qdisc", 4), ("bpf_fq", 5)):
            found = calls(text, work, program, int(sys.argv[2] if len(sys.argv) > 2 else 10_000_000) // share)
            check(found.startswith("equal: "), f"{program}: {found}")
            print(f"{NAME}: {program}: {found.strip()}")
            for old, new in DECISIONS:
                check(text.count(old) == 1 and not calls(text.replace(old, new), work, program, 200_000).startswith("equal: "), f"{program}.c does not find {new}")
        for program, file in (("bpf_qdisc", "mutants.txt"), ("bpf_fq", "fq_mutants.txt")):
            for name in run(["bindings/bpf/mutant.py", f"{work}/{file}", file]).stdout.split():
                found = calls(text, work, program, 200_000, f"{work}/{file}/{name}/pie_qdisc.bpf.c")
                check(name == "decision" or re.match(r"after \d+ events: ", found), f"{program}.c does not find {name} of {file}: {found}")
        if not module.exists():
            print(f"NOT RUN: {NAME}: no {module.relative_to(ROOT)} here (bindings/c/library.py writes it), so the lowering was not compared")
            finish()
            return
        after = Path(f"{work}/after.ll")
        done = run(["dist/lower.py", "bpf", module, after])
        check(done.returncode == 0, f"dist/lower.py: {done.stdout}")
        before, now = module_text(module), after.read_text()
        problems = differences(before, now)
        check(not problems, f"the lowered module: {problems[:5]}")
        for pattern, replacement in filter(None, FAULTS):
            wrong = re.sub(pattern, replacement, now, count=1)
            check(wrong != now and differences(before, wrong), f"the comparison does not find the fault {pattern}")
        print(f"{NAME}: {sum(it[0].startswith('define') for it in by_function(now).values())} functions are the module's; {len(FAULTS) - 1} planted faults are found")
    finish()


main()
