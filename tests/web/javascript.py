#!/usr/bin/env python3
"""Tests the package for JavaScript (bindings/javascript): the calls of pie.h in WebAssembly. Random openings, and more than 100,000 random events with
sensible and wrong arguments, must have the results of the library in C: verdicts, errors by name, numbers of updates, states, and the history
byte for byte, in Node and in Chromium. `pie audit` must accept the history. Planted faults must be found by this comparison. The archive of
`npm pack` must have the files, and its types must name what the module exports.

usage: tests/web/javascript.py [PROGRAM]      PROGRAM: crates/pie/out/pie by default
needs: program
"""
import ctypes
import functools
import hashlib
import http.server
import importlib.util
import json
import os
import random
import re
import shutil
import subprocess
import sys
import tarfile
import tempfile
import threading
from pathlib import Path

sys.path[:0] = [f"{os.path.dirname(os.path.abspath(__file__))}/../shared", os.path.dirname(os.path.abspath(__file__))]
from checks import NAME, ROOT, check, finish, program, with_selenium  # noqa: E402

PACKAGE = ROOT / "bindings/javascript"
CONTROLLERS, EVENTS = 60, 2000
ABI = (ROOT / "dist/abi.txt").read_text()
CODES = {int(value): name for name, value in re.findall(r"^constant (PIE_\w+): (\d+)$", ABI, re.M) if int(value) > 100 and "MAX" not in name}
FIELDS = {struct: [it.split()[0] for it in fields.split(", ")] for struct, fields in re.findall(r"^struct (\w+): \d+ bytes, (.*)$", ABI, re.M)}
VERDICTS = ["enqueue", "mark", "early", "bytes", "packets"]


# ---- The same events in C, by the library of dist/

class Params(ctypes.Structure):
    _fields_ = [(it, ctypes.c_uint64) for it in FIELDS["pie_params"]]


class Opening(ctypes.Structure):
    _fields_ = [(it, Params if it == "params" else ctypes.c_uint64) for it in FIELDS["pie_opening"]]


class State(ctypes.Structure):
    _fields_ = [(it, Params if it == "params" else ctypes.c_uint64) for it in FIELDS["pie_state"]]


class Event(ctypes.Structure):
    _fields_ = [(it, {"size": ctypes.c_uint32, "answer": ctypes.c_uint32, "caller": ctypes.c_uint16, "kind": ctypes.c_uint8, "ecn": ctypes.c_uint8,
                      "reserved": ctypes.c_uint32}.get(it, ctypes.c_uint64)) for it in FIELDS["pie_event"]]


class InC:
    """A controller by the library in C, with the lines that a command of the test prints."""

    def __init__(self, library, opening):
        self.library, self.state, self.event, self.out = library, State(), Event(), ctypes.create_string_buffer(2048)
        self.history, self.code = b"", library.pie_open(ctypes.byref(self.state), ctypes.byref(opening))
        if self.code == 0:
            self.written(library.pie_write_opening(ctypes.byref(opening), self.out, 2048))

    def written(self, length):
        self.history += self.out.raw[:length]

    def decide(self, call, before=(), after=(), params=None, **fields):
        self.event = Event(**fields)
        code = call(ctypes.byref(self.state), *before, *([ctypes.byref(params)] if params else []), *after, ctypes.byref(self.event))
        if code > 100:
            return CODES[code]
        write = self.library.pie_write_params if params else self.library.pie_write_event
        self.written(write(ctypes.byref(self.event), *([ctypes.byref(params)] if params else []), self.out, ctypes.c_size_t(2048)))
        return code

    def due(self):
        return self.library.pie_due(ctypes.byref(self.state))

    def run(self, words):
        """Returns the line of a command."""
        u64, library, (kind, *numbers) = ctypes.c_uint64, self.library, words
        if kind == "arrive":
            moment, size, queued, room, ecn, word, tag, caller = numbers
            code = self.decide(library.pie_arrive_event, (u64(queued), ctypes.c_uint32(room)), moment=moment, size=size, ecn=ecn, word=word, tag=tag, caller=caller)
            return code if isinstance(code, str) else VERDICTS[code]
        if kind == "depart":
            moment, size, left, arrived, ecn, tag, caller = numbers
            return self.decide(library.pie_depart_event, (u64(left), u64(arrived)), moment=moment, size=size, ecn=ecn, tag=tag, caller=caller) or "done"
        if kind == "empty":
            return {5: "done"}.get(code := self.decide(library.pie_empty_event, moment=numbers[0], caller=numbers[1]), code)
        if kind == "update":
            code = self.decide(library.pie_update_event, (u64(numbers[1]),), moment=numbers[0], caller=numbers[2])
            return code or f"{self.due()} {self.event.delay} {self.event.prob} {self.event.burst}"
        if kind == "reset":
            return self.decide(library.pie_reset_event, moment=numbers[0], caller=numbers[1]) or "done"
        if kind == "params":
            params = Params.from_buffer_copy(self.state.params)
            setattr(params, numbers[1], numbers[2])
            return self.decide(library.pie_set_params_event, params=params, moment=numbers[0], caller=numbers[3]) or "done"
        return " ".join(str(getattr(self.state, it)) if it != "params" else " ".join(str(getattr(self.state.params, name)) for name in FIELDS["pie_params"]) for it in FIELDS["pie_state"])


def library(work):
    """Returns the library in C of dist/."""
    subprocess.run(["make", "-s", "shared", f"BUILD={work}/build"], cwd=ROOT, check=True)
    found = ctypes.CDLL(f"{work}/build/libpie.so")
    found.pie_due.restype = ctypes.c_uint64
    for name in ("pie_write_opening", "pie_write_event", "pie_write_params"):
        getattr(found, name).restype = ctypes.c_size_t
    return found


class Odd:
    """Replaces an argument at times: in an orderly queue by a number that is refused, otherwise by any number of its bits."""

    def __init__(self, chance, is_wild):
        self.chance, self.is_wild = chance, is_wild

    def __call__(self, value, refused, bits):
        way = self.chance.randrange(150)
        if way > 2 or way > 0 and not self.is_wild:
            return value
        return refused if way == 0 else self.chance.getrandbits(bits)


def opened(chance):
    """Returns the fields of a random opening."""
    params = {"target": chance.choice((2, 1_000_000, 5_000_000, 15_000_000)), "t_update": chance.choice((1_000_000, 15_000_000)), "max_burst": chance.choice((0, 10**7, 15 * 10**7)),
              "alpha": chance.choice((0, 125, 10**6)), "beta": chance.choice((0, 1250, 10**6)), "mean_pkt": chance.choice((1, 1024, 1500)),
              "limit_bytes": chance.choice((40_000, 262144, 2**30 + 1 if chance.random() < 0.2 else 10**6)), "mark_ecnth": chance.choice((0, 10**11, 10**12)), "dq_threshold": chance.choice((1024, 16384, 65536))}
    chosen = dict(chance.sample(list(params.items()), chance.randrange(len(params) + 1)))
    return {"rate": chance.choice((0, 10**6, 10**9)), "params": chosen, "moment": chance.choice((0, 10**9)), "profile": chance.choice((1, 1, 2, 3 if chance.random() < 0.1 else 1)),
            "choices": chance.sample(["delayStamp", "pickRandom", "stepUncapped", "sizeScaled", "decayHalf"], chance.randrange(4)), "packets": 100}


def opening_in_c(library, fields):
    made = Opening()
    library.pie_default_opening(ctypes.byref(made), ctypes.c_uint64(fields["rate"]))
    flags = {"delayStamp": 1, "pickRandom": 2, "stepUncapped": 4, "sizeScaled": 8, "decayHalf": 16}
    for name, value in fields["params"].items():
        setattr(made.params, name, value)
    made.moment, made.profile, made.packets, made.choices = fields["moment"], fields["profile"], fields["packets"], sum(flags[it] for it in fields["choices"])
    return made


def commands(chance, controller, now, is_wild):
    """Yields random commands of a queue, and receives the line of each. Without wild arguments the commands that are not refused make a history."""
    waiting, queued, tag, odd = [], 0, 0, Odd(chance, is_wild)
    for _ in range(EVENTS):
        now += chance.choice((0, 1000, 100_000, 900_000))
        way, moment = chance.random(), odd(now, 2**60, 60)
        if now >= controller.due() and way < 0.9:
            yield ("update", moment, odd(queued, 2**30 + 1, 30), 3)
        elif way < 0.5:
            tag += 1
            size, ecn = chance.choice((64, 500, 1250, 1500)), chance.randrange(4)
            words = ("arrive", moment, odd(size, 65536, 16), odd(queued, 2**30 + 1, 30), odd(max(0, 100 - len(waiting)), 0, 32) if is_wild else 100 - len(waiting), odd(ecn, 4, 8), chance.getrandbits(64), tag, 1)
            verdict = yield words
            if verdict in ("enqueue", "mark") and words[1:3] == (now, size):
                waiting.append((tag, size, controller.state.moment, 3 if verdict == "mark" else ecn))
                queued += size
        elif way < 0.9 and waiting:
            name, size, since, ecn = waiting[0]
            words = ("depart", moment, odd(size, 0, 16), odd(queued - size, 2**30 + 1, 30), odd(since, 2**63, 60), ecn, name, 2)
            if (yield words) == "done":
                queued -= size
                del waiting[0]
        elif way < 0.92:
            if is_wild or not waiting:
                yield ("empty", moment, 2)
        elif way < 0.98:
            yield ("update", moment, odd(queued, 2**30 + 1, 30), 3)
        elif way < 0.982:
            yield ("reset", moment, 4)
        elif way < 0.985:
            yield ("params", moment, *chance.choice((("target", 5_000_000), ("alpha", 10**6 + 1), ("limit_bytes", 20_000), ("dq_threshold", 4097))), 4)
        else:
            yield ("state",)


def made(found, controllers):
    """Returns the commands of so many controllers, and the lines and histories that the library in C gives. Every second history is one of wild arguments."""
    chance, asked, lines, texts = random.Random(7), [], [], []
    while len(texts) < controllers:
        fields = opened(chance)
        controller = InC(found, opening_in_c(found, fields))
        asked.append(["open", fields])
        lines.append(CODES.get(controller.code, "open"))
        if controller.code:
            continue
        steps = commands(chance, controller, fields["moment"], len(texts) % 2 == 1)
        answer = None
        while True:
            try:
                words = steps.send(answer)
            except StopIteration:
                break
            answer = controller.run(words)
            # (numbers above 2^53 are texts, of which JavaScript makes bigints)
            asked.append([it if isinstance(it, str) or it < 2**53 else f"{it}n" for it in words])
            lines.append(answer)
        texts.append(controller.history.decode())
    return asked, lines, texts


# ---- The same events in JavaScript

RUN = """
import { Controller, PieError, defaultParams, version } from "juniperbowls";
export function results(asked) {
    const lines = [], texts = [], names = ["not", "ect1", "ect0", "ce"], beside = new Controller();
    let controller = null;
    const number = (it) => (typeof it === "string" && it.endsWith("n") ? BigInt(it.slice(0, -1)) : it);
    const calls = {
        open: (fields) => { texts.push(""); controller = new Controller(fields, { write: (record) => (texts[texts.length - 1] += record) }); return "open"; },
        arrive: (moment, size, queued, room, ecn, word, tag, caller) => controller.arrive({ moment, size, queued, room, ecn: names[ecn] ?? ecn, word, tag, caller }),
        depart: (moment, size, left, arrived, ecn, tag, caller) => controller.depart({ moment, size, left, arrived, ecn, tag, caller }),
        empty: (moment, caller) => controller.empty({ moment, caller }),
        update: (moment, queued, caller) => Object.values(controller.update({ moment, queued, caller })).join(" "),
        reset: (moment, caller) => controller.reset({ moment, caller }),
        params: (moment, name, value, caller) => controller.setParams({ moment, params: { [name]: value }, caller }),
        state: () => Object.values(controller.state).flatMap((it) => (typeof it === "object" ? Object.values(it) : [it])).join(" "),
    };
    for (const [kind, ...words] of asked) {
        if (beside.due !== 15000000n) throw new Error("another controller has changed");
        try {
            lines.push(calls[kind](...words.map(number)) ?? "done");
        } catch (why) {
            lines.push(why instanceof PieError ? why.name : String(why.stack));
            if (kind === "open") texts.pop();
        }
    }
    // a state as bits, and arguments that are no whole numbers
    const copy = Controller.of(controller.bits);
    const wrong = [() => copy.arrive({ moment: 1.5, size: 1, queued: 0, word: 0 }), () => copy.empty({ moment: -1 }), () => copy.empty({ moment: 2n ** 64n }), () => copy.empty({}), () => copy.empty({ moment: 2 ** 53 }),
        () => copy.arrive({ moment: 0, size: 2 ** 32, queued: 0, word: 0 }), () => new Controller({ nonsense: 1 }), () => copy.setParams({ moment: 0, params: { nonsense: 1 } }), () => copy.depart({ moment: 0, size: 1, left: 0, arrived: 0, ecn: "none" }),
        () => Controller.of(new Uint8Array(184)), () => Controller.of(new Uint8Array(3))];
    const refused = wrong.map((it) => { try { it(); return "none"; } catch (why) { return why.name; } });
    const same = JSON.stringify([copy.state, copy.due], (_, it) => String(it)) === JSON.stringify([controller.state, controller.due], (_, it) => String(it));
    return { lines, texts, refused, same, version, limit: String(defaultParams(10 ** 9).limit_bytes) };
}
"""
IN_NODE = """
import { readFileSync, writeFileSync } from "node:fs";
import { results } from "./results.mjs";
writeFileSync(process.argv[3], JSON.stringify(results(JSON.parse(readFileSync(process.argv[2])))));
"""
REFUSED = ["RangeError"] * 9 + ["PIE_BAD_STATE"] * 2
FAULTS = [("ect1: 1, ect0: 2", "ect1: 2, ect0: 1"), ('["enqueue", "mark", "early"', '["enqueue", "early", "mark"'), ("        this.#state.set(state);\n        this.#write?.(", "        this.#write?.("),
          ("        state.set(this.#state);\n        const found", "        const found"), ("exports.pie_update_event(STATE, bytes, EVENT)", "exports.pie_update_event(STATE, bytes & 0xffffn, EVENT)"),
          ("pie_write_params(EVENT", "pie_write_params(STATE"), ("delay, prob, burst } = read", "delay: prob, prob: delay, burst } = read"), ("if (code > 100)", "if (code > 110)"),
          ("made >> BigInt(bits)", "made >> BigInt(bits + 8)"), ("sum | code(CHOICES", "sum ^ 1 | code(CHOICES"), ("!Number.isSafeInteger(value)", "!Number.isInteger(value)"), ('"left"), long(arrived', '"left"), long(left')]


def in_node(package, work, asked):
    """Returns the results of the commands in Node."""
    folder = Path(work, "node")
    shutil.rmtree(folder, ignore_errors=True)
    shutil.copytree(package, folder / "node_modules/juniperbowls")
    (folder / "results.mjs").write_text(RUN)
    (folder / "run.mjs").write_text(IN_NODE)
    done = subprocess.run(["node", folder / "run.mjs", asked, folder / "out"], capture_output=True, text=True, check=False)
    return json.loads((folder / "out").read_text()) if done.returncode == 0 else {"lines": [done.stderr[-600:]]}


def in_chromium(package, work, asked):
    """Returns the results of the commands in Chromium, which loads the package from a server."""
    import web
    folder = Path(work, "site")
    shutil.copytree(package, folder / "juniperbowls")
    shutil.copy(asked, folder / "asked.json")
    (folder / "results.mjs").write_text(RUN.replace('"juniperbowls"', '"./juniperbowls/index.js"'))
    (folder / "index.html").write_text("<!DOCTYPE html><title>package</title>")

    class Quiet(http.server.SimpleHTTPRequestHandler):
        extensions_map = {**http.server.SimpleHTTPRequestHandler.extensions_map, ".mjs": "text/javascript"}

        def log_message(self, *words):
            pass

    server = http.server.ThreadingHTTPServer(("127.0.0.1", 0), functools.partial(Quiet, directory=folder))
    threading.Thread(target=server.serve_forever, daemon=True).start()
    browser = web.Chromium(work)
    try:
        browser.open(f"http://127.0.0.1:{server.server_port}/index.html")
        return browser.run("const end = arguments[0]; import('./results.mjs').then(async (it) => end(it.results(await (await fetch('asked.json')).json())), (why) => end({ lines: [String(why)] }));")
    finally:
        browser.close()
        server.shutdown()


def compare(where, found, lines, texts):
    wrong = next((at for at, (one, two) in enumerate(zip(found["lines"], lines)) if one != two), None)
    check(found["lines"] == lines, f"{where}: command {wrong} has {found['lines'][wrong or 0]!r}, and not {lines[wrong or 0]!r}")
    check(found.get("texts") == texts, f"{where}: the history is another one")
    check(found.get("refused") == REFUSED and found.get("same"), f"{where}: wrong arguments: {found.get('refused')}, a copy of a state: {found.get('same')}")
    check(found.get("limit") == "25000000" and found.get("version") == "0.1.0", f"{where}: {found.get('limit')}, {found.get('version')}")


def check_archive(package, work):
    """Checks the archive of npm, and that the types name what the module exports."""
    exported = set(re.findall(r"^export (?:class|function|const) (\w+)", (package / "index.js").read_text(), re.M))
    declared = set(re.findall(r"^export (?:class|function|const) (\w+)", (package / "index.d.ts").read_text(), re.M))
    members = [set(re.findall(r"^    (?:static |get )?([a-z]\w*)\(", text[text.index("export class Controller"):], re.M)) for text in ((package / "index.js").read_text(), (package / "index.d.ts").read_text())]
    check(exported == declared and members[0] == members[1], f"the types name {exported ^ declared} and {members[0] ^ members[1]} otherwise than the module")
    if not shutil.which("npm"):
        print(f"NOT RUN: {NAME}: no npm here, so no archive was made")
        return
    done = subprocess.run(["npm", "pack", "--offline", "--silent", "--pack-destination", work], cwd=package, capture_output=True, text=True, check=False, env={**os.environ, "HOME": work})
    archive = Path(work, done.stdout.strip() or "none")
    check(archive.exists(), f"npm pack: {done.stdout} {done.stderr[-500:]}")
    if archive.exists():
        with tarfile.open(archive) as it:
            names = {name.removeprefix("package/") for name in it.getnames()}
        check(names == {it.name for it in package.iterdir()}, f"the archive has {names}")
        print(f"{NAME}: an archive of {archive.stat().st_size} bytes for npm")


def main():
    with tempfile.TemporaryDirectory(ignore_cleanup_errors=True) as work:
        package = Path(work, "package")
        subprocess.run([PACKAGE / "package.py", package], check=True)
        found = library(work)
        asked, lines, texts = made(found, CONTROLLERS)
        path = Path(work, "asked.json")
        path.write_text(json.dumps(asked))
        for number, text in enumerate(texts[::2]):
            done = subprocess.run([PROGRAM, "audit"], input=text, capture_output=True, text=True, check=False)
            check(done.returncode == 0 and done.stdout.startswith("clean,"), f"history {number}: {done.stdout} {done.stderr[-300:]}")
        codes = {it for it in lines if it.startswith("PIE_")}
        check(len(asked) > 100_000 and len(codes) >= 8, f"{len(asked)} commands with only {codes}")
        check_archive(package, work)
        if not shutil.which("node"):
            print(f"NOT RUN: {NAME}: no node here, so the package did not run in it")
        else:
            compare("Node", in_node(package, work, path), lines, texts)
            few, lines_of_few, texts_of_few = made(found, 6)
            path_of_few = Path(work, "few.json")
            path_of_few.write_text(json.dumps(few))
            check((it := in_node(package, work, path_of_few))["lines"] == lines_of_few and it["texts"] == texts_of_few, "Node: a few controllers have other results")
            for old, new in FAULTS:
                wrong = Path(work, "wrong")
                shutil.copytree(package, wrong, dirs_exist_ok=True)
                source = (package / "index.js").read_text()
                (wrong / "index.js").write_text(source.replace(old, new, 1))
                it = in_node(wrong, work, path_of_few)
                check(old in source and (it["lines"], it.get("texts"), it.get("refused")) != (lines_of_few, texts_of_few, REFUSED), f"the fault {new} is not found")
            print(f"{NAME}: Node: {len(asked)} commands with {len(codes)} kinds of errors as by the library in C; {len(FAULTS)} planted faults are found")
        if shutil.which("chromium") and shutil.which("chromedriver") and importlib.util.find_spec("selenium"):
            compare("Chromium", in_chromium(package, work, path), lines, texts)
            print(f"{NAME}: Chromium: the same results, of a history with checksum {hashlib.sha256(''.join(texts).encode()).hexdigest()[:12]}")
        else:
            print(f"NOT RUN: {NAME}: no Chromium here, so the package did not run in it (tests/install.sh report)")
    finish()


PROGRAM = program()
if __name__ == "__main__":
    with_selenium()
    main()
