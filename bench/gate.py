#!/usr/bin/env python3
"""Measures the gate: runs .ci/run, and prints the processor seconds and the memory of the proof, the tests, the mutations, the building and the
running of each crate; then those of each script, and the sum. It reads the processes below the gate a few times a second, and assigns each to a
part. The time of a process after the last reading is missed, some tenths of a second each. The total is exact, and time without an assigned row
has a row of its own.

usage: bench/gate.py [LOG]           LOG receives the output of .ci/run; the default is /tmp/pie-gate.log
       bench/gate.py --beside PID    follows a .ci/run or an rt ci that is already running, from now on"""
import importlib.machinery
import importlib.util
import os
import re
import resource
import shutil
import subprocess
import sys
import time

sys.dont_write_bytecode = True
ROOT = os.path.dirname(os.path.dirname(os.path.abspath(__file__)))
TICK = os.sysconf("SC_CLK_TCK")
PAUSE = 0.2
KINDS = ["proof", "tests", "edits", "build and run"]


def read(path):
    try:
        with open(path, "rb") as it:
            return it.read()
    except OSError:
        return b""


def processes():
    """Returns for each process its parent, and the processor seconds of it and of its waited-for children."""
    found = {}
    for name in os.listdir("/proc"):
        if name.isdigit():
            said = read(f"/proc/{name}/stat").rpartition(b")")[2].split()
            if len(said) > 20:
                found[int(name)] = int(said[1]), sum(map(int, said[11:15])) / TICK, int(said[19])
    return found


def words_of(pid):
    return [it.decode(errors="replace") for it in read(f"/proc/{pid}/cmdline").split(b"\0")[:-1]]


def task_of(pid):
    """Returns the purpose of a process that rt ci started, as a crate and a kind, or nothing if it is not known
    yet."""
    words = words_of(pid)
    name = os.path.basename(words[0]) if words else ""
    if name == "rattle" and "--crate-name" in words:
        crate = words[words.index("--crate-name") + 1]
        try:
            folder = os.readlink(f"/proc/{pid}/cwd")
        except OSError:
            folder = ""
        kind = "edits" if "/rt-edit-" in folder else "tests" if "--test" in words else "build and run" if "--crate-checked" in words else "proof"
        return crate, kind
    program = next((it for it in words if re.search(r"/rt-run-[^/]+/bin/|^out/", it)), None)
    if program:
        crate = os.path.basename(program).partition(".")[0]
        is_tests = crate.endswith("_tests") and not os.path.isdir(f"{ROOT}/crates/{crate}")
        return (crate[: -len("_tests")], "tests") if is_tests else (crate, "build and run")
    return None


def most_memory(pid):
    found = re.search(rb"VmHWM:\s+(\d+)", read(f"/proc/{pid}/status"))
    return int(found[1]) * 1024 if found else 0


class Follower:
    """The readings of each process below the gate."""

    def __init__(self, gate):
        self.gate, self.begun = gate, time.monotonic()
        self.seen, self.times = {}, {}

    def look(self):
        """Measures each process of the gate. Returns true while the gate runs."""
        known = processes()
        if self.gate not in known:
            return False
        below = {}
        for pid, (parent, *_) in known.items():
            below.setdefault(parent, []).append(pid)

        def whole(pid):
            return known[pid][1] + sum(map(whole, below.get(pid, [])))

        self.whole = whole(self.gate)
        is_rt = words_of(self.gate)[-1:] == ["ci"]
        for part in [self.gate] if is_rt else self.parts(below):
            words = words_of(part)
            if words[-1:] != ["ci"]:
                self.note(part, known, ("", self.script(words)), whole(part))
                continue
            for pid in below.get(part, []):
                task = task_of(pid)
                if task:
                    self.note(pid, known, task, whole(pid), most_memory(pid))
        return True

    def parts(self, below):
        """Yields the processes that the gate started; in place of tests/run.py the scripts that it started."""
        for part in below.get(self.gate, []):
            yield from below.get(part, []) if self.script(words_of(part)) == "tests/run.py" else [part]

    def script(self, words):
        return next((os.path.relpath(it, ROOT) if it.startswith("/") else it for it in words if it.endswith((".sh", ".py"))), "")

    def note(self, pid, known, task, seconds, memory=0):
        """Keeps the most that a process was seen to have taken, and when it was seen."""
        key, now = (pid, known[pid][2]), time.monotonic() - self.begun
        _, before, held, first = self.seen.get(key, (task, 0, 0, now))
        self.seen[key] = task, max(seconds, before), max(memory, held), first
        begun, _ = self.times.get(task, (first, now))
        self.times[task] = begun, now

    def sums(self):
        seconds, memory = {}, {}
        for task, took, held, _ in self.seen.values():
            seconds[task] = seconds.get(task, 0) + took
            memory[task] = max(memory.get(task, 0), held)
        return seconds, memory


def reckoned():
    """Returns the memory that rt ci estimates for a task of each crate and for its mutations, if
    the toolchain still has the expected layout."""
    try:
        loader = importlib.machinery.SourceFileLoader("rt", os.path.realpath(shutil.which("rt")))
        rt = importlib.util.module_from_spec(importlib.util.spec_from_loader("rt", loader))
        loader.exec_module(rt)
        crates = rt.rtlib.crates_below(ROOT)
        return {it.name: rt.need(it) for it in crates}, {it.name: len(rt.edits_of(it)[0]) for it in crates}
    except (AttributeError, ImportError, OSError, TypeError, ValueError):
        return {}, {}


def minutes(task, times):
    return f"{times[task][0] / 60:.0f} to {times[task][1] / 60:.0f}" if task in times else ""


def table(follower, total):
    seconds, memory = follower.sums()
    needs, edits = reckoned()
    names = [line.split()[0].rstrip(":") for line in open(f"{ROOT}/crates.txt") if ":" in line and not line.startswith("#")]
    crates = sorted({it for it, _ in seconds if it}, key=lambda it: names.index(it) if it in names else 99)
    print("| crate | " + " | ".join(KINDS) + " | together | memory, of it reckoned | minutes: proof, tests, edits |")
    print("|---|" + "---|" * (len(KINDS) + 3))
    for crate in crates:
        of = [seconds.get((crate, kind), 0) for kind in KINDS]
        cells = [f"{it:.0f}" if it else "" for it in of]
        cells[2] += f" ({edits.get(crate, '?')})" if of[2] else ""
        held = max(memory.get((crate, kind), 0) for kind in KINDS) / 1e9
        when = "; ".join(filter(None, (minutes((crate, kind), follower.times) for kind in KINDS[:3])))
        print(f"| {crate} | {' | '.join(cells)} | {sum(of):.0f} | {held:.1f} of {needs.get(crate, 0) / 1e9:.1f} GB | {when} |")
    sums = [sum(took for (crate, it), took in seconds.items() if crate and it == kind) for kind in KINDS]
    print(f"| all crates | {' | '.join(f'{it:.0f}' for it in sums)} | {sum(sums):.0f} | | |")
    print()
    for (crate, script), took in sorted(seconds.items(), key=lambda it: -it[1]):
        if not crate and script:
            print(f"{script}: {took:.0f} s, minutes {minutes((crate, script), follower.times)}")
    rest = total - sum(took for (crate, kind), took in seconds.items() if crate or kind)
    print(f"in no row above, rt ci itself among it: {rest:.0f} s")


def main(words):
    if words and words[0].startswith("-") and (words[0] != "--beside" or len(words) != 2):
        print(__doc__)
        sys.exit(words[0] != "--help")
    load = os.getloadavg()[0]
    if words[:1] == ["--beside"]:
        ran, follower = None, Follower(int(words[1]))
    else:
        log = words[0] if words else "/tmp/pie-gate.log"
        with open(log, "wb") as out:
            ran = subprocess.Popen([f"{ROOT}/.ci/run"], cwd=ROOT, stdin=subprocess.DEVNULL, stdout=out, stderr=subprocess.STDOUT)
        print(f"the gate runs, and {log} takes what it prints", flush=True)
        follower = Follower(ran.pid)
    while ran is None or ran.poll() is None:
        if not follower.look() and ran is None:
            break
        time.sleep(PAUSE)
    took, total = time.monotonic() - follower.begun, follower.whole
    if ran is not None:
        used = resource.getrusage(resource.RUSAGE_CHILDREN)
        total = used.ru_utime + used.ru_stime
    table(follower, total)
    machine = f"{len(os.sched_getaffinity(0))} processors; load at the start {load:.1f}"
    print(f"the whole: {took / 60:.1f} minutes, {total / 60:.1f} processor minutes, on {machine}")
    if ran is not None:
        print(f"the gate's last line: {read(log).decode(errors='replace').rstrip().rpartition(chr(10))[2]}; status {ran.returncode}")
        sys.exit(ran.returncode)


main(sys.argv[1:])
