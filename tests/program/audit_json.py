#!/usr/bin/env python3
"""Compares `pie audit --json` with the lines of `pie audit` for the same files: clean ones, one that differs, one with
parameters out of range, segments that follow, leave a gap, repeat events or differ at the joint, a file with a fault and a
missing one, standard input, and files whose names have quotes, backslashes, control characters and letters beyond ASCII.
Python's json and jq, if it is installed, read each line. The status and standard error must be equal. The records of an event
that differs, and the reason why the rules allow none, must be those of standard error; so must the numbers of a step of pie-watch.

usage: tests/program/audit_json.py [PROGRAM]      PROGRAM: crates/pie/out/pie by default
needs: program
"""
import json
import os
import re
import shutil
import subprocess
import sys
import tempfile
from pathlib import Path

sys.path.insert(0, f"{os.path.dirname(os.path.abspath(__file__))}/../shared")
from checks import NAME, ROOT, check, finish  # noqa: E402
from excerpts import segments_of  # noqa: E402
from running import PROGRAM, TRACE, run  # noqa: E402

JQ = shutil.which("jq")
NAMES = ("plain", "a\"quote", "back\\slash", "new\nline", "bell\x07", "\u00fc\u4e2d", "-5", "12")


def objects_of(output, errors):
    """Returns the objects for the lines of an audit without --json."""
    found = []
    for line in output.splitlines():
        name, _, what = line.rpartition(": ")
        kind, *numbers = what.split(",")
        numbers = list(map(int, numbers))
        if kind in ("clean", "differs"):
            found.append({"file": name, "finding": kind, "events" if kind == "clean" else "event": numbers[0]})
            for key, words in (("recorded", rf"event {numbers[0]} is recorded as"), ("right", "the rules give"), ("reason", "the rules allow no such event:")):
                record = re.search(rf"^pie: {re.escape(name)}: {words} (.*)$", errors, re.M)
                if kind == "differs" and record:
                    found[-1][key] = record[1]
        else:
            found[-1].update({"joint": kind, **dict(zip(("last", "first"), numbers))})
    return found


def audited(folder, words, text=b""):
    ran = subprocess.run([PROGRAM, "audit", *words], cwd=folder, input=text, capture_output=True, check=False)
    return ran.returncode, ran.stdout.decode(), ran.stderr.decode()


def hold(what, folder, words, text=b""):
    status, output, errors = audited(folder, words, text)
    other, lines, other_errors = audited(folder, ["--json", *words], text)
    check((other, other_errors) == (status, errors), what, "status or standard error", other, other_errors)
    wanted = objects_of(output, errors)
    check([json.loads(line) for line in lines.splitlines()] == wanted, what, "wanted", wanted, "got", lines)
    check(lines.count("\n") == len(wanted), what, "lines", lines)
    if JQ:
        read = subprocess.run([JQ, "--compact-output", "."], input=lines, capture_output=True, check=True, encoding="utf-8").stdout
        check([json.loads(line) for line in read.splitlines()] == wanted, what, "jq read", read)
    return wanted


def main():
    history = run(["run"], TRACE)[1]
    parts = segments_of(run(["cut", "--every", "4"], history)[1].decode())
    check(len(parts) > 3, "segments", len(parts))
    wrong = history.replace(b",500,not,0,early", b",500,not,0,enqueue", 1)
    check(wrong != history, "no event was changed")
    with tempfile.TemporaryDirectory() as folder:
        files = {"clean": history, "wrong": wrong, "range": history + b"params,5,1001009,0,1,50,850000,0,1,100000,1000000000000,1024,done\n",
                 "refused": history + b"arrive,5,1001009,9,0,not,0,enqueue\n", "fault": history + b"x\n",
                 "other": parts[1].replace(",100,2,1,", ",100,3,1,", 1).encode(),
                 **{f"part{place}": part.encode() for place, part in enumerate(parts)}, **{name: history for name in NAMES}}
        for name, text in files.items():
            (Path(folder) / name).write_bytes(text)
        for name in ("clean", "wrong", "range", "refused", "fault", "missing"):
            hold(name, folder, [name])
        check("right" in hold("a difference", folder, ["wrong"])[0], "no right record")
        out = hold("parameters out of range", folder, ["range"])[0]
        check(out["reason"] == "the parameter target is out of its range" and out["recorded"].startswith("params,5,1001009,0,1,50,"), "parameters out of range", out)
        check(hold("a refusal", folder, ["refused"])[0]["reason"] == "packet size out of range", "a refusal")
        steps = (ROOT / "tests/rows/linux_steps.csv").read_text().splitlines(keepends=True)
        at = 8
        for name, text in (("steps", "".join(steps)), ("skipped", "".join([*steps[:at], *steps[at + 1 :]]))):
            (Path(folder) / name).write_text(text)
            _, output, errors = audited(folder, ["--json", name])
            one, told = json.loads(output), errors.splitlines()[0].partition(f"pie: {name}: ")[2]
            if name == "steps":
                check(one["finding"] == "clean" and told == f"steps that were lost when the text was recorded: {one['lost']}", "lost steps", one, told)
            else:
                check(one["finding"] == "differs" and told == one["reason"] and told.endswith(f" is recorded as {one['recorded']}, the rules give {one['right']}"), "a step", one, told)
        check(len(hold("files", folder, ["clean", "missing", "wrong", "fault", "clean"])) == 3, "files")
        joined = [f"part{place}" for place in range(len(parts))]
        for what, names in (("follow", joined), ("a gap", [joined[0], *joined[2:]]), ("both", [*joined[:2], joined[1]]), ("unlike", [joined[0], "other"])):
            wanted = hold(what, folder, ["--joined", *names])
            check({one.get("joint") for one in wanted[1:]} - {"follows"} == {"follow": set(), "a gap": {"gap"}, "both": {"gap"}, "unlike": {"unlike"}}[what], what, wanted)
        for name in NAMES:
            status, output, errors = audited(folder, ["--json", "--", name])
            one = json.loads(output)
            check((status, one["file"], one["finding"], output.count("\n"), errors) == (0, name, "clean", 1, ""), "a name", repr(name), output)
        events = json.loads(audited(folder, ["--json", "clean"])[1])["events"]
        for words in ([], ["-"]):
            got = audited(folder, ["--json", *words], history)
            check(got == (0, f'{{"file":"-","finding":"clean","events":{events}}}\n', ""), "standard input", got)
        hold("standard input behind a file", folder, ["clean", "-", "-"], wrong)
        with open("/dev/full", "wb") as full:
            ran = subprocess.run([PROGRAM, "audit", "--json", "clean"], cwd=folder, stdout=full, stderr=subprocess.PIPE, check=False)
        check((ran.returncode, ran.stderr) == (1, b"pie: No space left on device (os error 28)\npie: cannot write the output\n"), "a full device", ran)
    if not JQ:
        print(f"NOT RUN: {NAME}: jq did not read the objects")
    finish()


main()
