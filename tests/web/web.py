#!/usr/bin/env python3
"""Tests the program for WebAssembly (dist/wasm/) and the page with it (web/).

Numbers: products, quotients, rests and shifts of 128 bits of dist/wasm/wide.c, over ten million random pairs, must be those of gcc on x86-64.
Node: the output, the messages and the status of commands, also about damaged texts, must be those of the native program; an audit of two million
events has a memory of at most 64 MB. Planted faults in wide.c and in web/pie.js must be found by these comparisons.
Chromium and Firefox open the page from its file. The same commands must have the same results there. Every example must be shown with its finding and
its numbers, and a click, a search, a zoom, other parameters, advice and files to save must be answered by the program. The page must end a request that is
cancelled, fit windows of 1280, 768 and 390 pixels, and write nothing on its console. No request may leave it: a server counts them.

usage: tests/web/web.py [PROGRAM [PICTURES]]      PROGRAM: crates/pie/out/pie by default; PICTURES: a folder for the pictures
needs: program
"""
import base64
import gzip
import http.server
import importlib.util
import json
import lzma
import os
import random
import re
import shutil
import socket
import subprocess
import sys
import tempfile
import threading
import time
from pathlib import Path

sys.path.insert(0, f"{os.path.dirname(os.path.abspath(__file__))}/../shared")
from checks import NAME, ROOT, check, finish, program, with_selenium  # noqa: E402

PROGRAM = program()
PICTURES = sys.argv[2] if len(sys.argv) > 2 else None
EXAMPLES = sorted((ROOT / "examples").glob("*.history"))
CASES = 1_200_000  # of each of nine operations


def native(words, text=b"", folder=ROOT):
    done = subprocess.run([PROGRAM, *words], cwd=folder, input=text, capture_output=True, check=False)
    return done.returncode, done.stdout, done.stderr


# ---- Texts and commands

def texts():
    """Returns texts by name: examples, an excerpt, traces, steps of Linux, and damaged ones."""
    found = {it.name: it.read_bytes() for it in [*EXAMPLES, ROOT / "examples/burst.trace", ROOT / "examples/reset.trace"]}
    lines = found["overload.history"].splitlines(keepends=True)
    found["excerpt"] = native(["cut", "--from", "200ms", "--to", "600ms"], found["overload.history"])[1]
    found["differs"] = b"".join([*lines[:349], lines[349].replace(b"early", b"enqueue"), *lines[350:]])
    found["fault"] = b"".join([*lines[:700], b"nonsense\n"])
    found["empty"] = b""
    found["letters"] = b"".join([*lines[:20], "arrive,1,ä,1\n".encode()])
    found["short"] = found["overload.history"][:20001]
    found["two words"] = found["burst.history"]
    return found


COMMANDS = """--version;--help;run --help;help audit;explain -h;nonsense;audit --nonsense;audit missing;params --rate 20mbit;params --rate 0
audit overload.history;audit marks.history burst.history;audit --json overload.history;audit differs;audit fault;audit empty;audit letters;audit short
audit missing overload.history differs;audit --joined overload.history excerpt;audit excerpt;audit <overload.history;audit <differs;audit - <fault
explain overload.history;explain --tag 200 overload.history;explain --event 349 overload.history;explain --lost marks.history;explain --marked marks.history
explain --all --csv burst.history;explain --all --json off_and_on.history;explain --summary --csv ignored_marks.history;explain --every 100ms overload.history
explain --every 100ms --csv --wall reset.history;explain --flows 5 --csv marks.history;explain --digest --every 200ms overload.history;explain --event 9999 overload.history
explain --from 265ms --to 300ms --all overload.history;explain --every 1ns overload.history;explain --lost fault;explain --all --csv <differs;explain --summary excerpt
explain "two words";explain --tag x overload.history;explain --from 1h overload.history
cut --from 200ms --to 300ms overload.history;cut --event 349 --around 20 overload.history;cut --last 50 marks.history;cut --every 200 overload.history;cut --from 0 differs
migrate overload.history;migrate fault;run burst.trace;run --count reset.trace;run <burst.trace;run overload.history;run excerpt
what-if --from 0 --target 5ms overload.history;what-if --from 400ms --target 5ms --csv ignored_marks.history;what-if --from 0 --limit 30000 -o - overload.history
what-if --from 0 --alpha 33 overload.history;what-if --from 0 --target 5ms fault;advise --rate 20mbit --rtt 10ms-50ms --flows 4-16 --ecn;advise --rate 1kbit --rtt 1s --flows 1
advise --rate 20mbit;cut overload.history;explain --csv --json overload.history"""


def commands():
    """Returns the commands: words, and the name of the text of standard input or None."""
    found = []
    for line in re.split(r"[;\n]", COMMANDS):
        *words, last = re.findall(r'"[^"]*"|\S+', line)
        is_input = last.startswith("<")
        found.append(([it.strip('"') for it in (words if is_input else [*words, last])], last[1:] if is_input else None))
    return found


def same(name, command, got, wanted):
    """Returns true if a command has the native result, and notes a difference."""
    if got == wanted:
        return True
    check(False, f"{name}: pie {' '.join(command)}: status {got[0]}, {got[1][-300:]!r}, {got[2][-300:]!r}, and not {wanted[0]}, {wanted[1][-300:]!r}, {wanted[2][-300:]!r}")
    return False


# ---- Numbers of 128 bits, by the toolchain's compiler and linker

NODE_SUMS = """const { exports } = new WebAssembly.Instance(new WebAssembly.Module(require("fs").readFileSync(process.argv[1])));
for (let operation = 0; operation < 9; operation++) console.log(String(BigInt.asUintN(64, exports.sum_of(operation, BigInt(process.argv[2])))));"""
WIDE_FAULTS = [("low >> (64 - places), low << places", "low >> (63 - places), low << places"), ("high << (64 - places))", "high << (63 - places))"),
               ("(other >> 32)", "(middle >> 33)"), ("quotient <<= 1", "quotient <<= 2"), ("number < 0) != (by < 0)", "number < 0) == (by < 0)")]


def sums(kit, work, source, count):
    """Returns the sums of tests/web/wide.c in Node, with this source of wide.c."""
    include = subprocess.run(["gcc", "-print-file-name=include"], stdout=subprocess.PIPE, text=True, check=True).stdout.strip()
    Path(work, "changed.c").write_text(source.replace('"../bpf/division.h"', f'"{ROOT}/dist/bpf/division.h"'))
    linker = Path(work, "wasm-ld")
    if not linker.exists():
        linker.symlink_to(kit / "ld.lld")
    for name, path in (("changed", f"{work}/changed.c"), ("wide", ROOT / "tests/web/wide.c")):
        subprocess.run([kit / "clang", "--target=wasm32-unknown-unknown", "--no-default-config", "-std=c11", "-ffreestanding", "-O3", "-mbulk-memory", "-isystem", include,
                        "-c", path, "-o", f"{work}/{name}.o"], check=True)
    subprocess.run([linker, "--no-entry", "--export=sum_of", f"{work}/changed.o", f"{work}/wide.o", "-o", f"{work}/wide.wasm"], check=True)
    done = subprocess.run(["node", "-e", NODE_SUMS, f"{work}/wide.wasm", str(count)], capture_output=True, text=True, check=False)
    return done.stdout


def check_numbers(work):
    kit = Path(shutil.which("rt") or "/").resolve().parent.parent / "toolchain/bin"
    if not (kit / "clang").exists():
        print(f"NOT RUN: {NAME}: no toolchain here, so numbers of 128 bits were not compared")
        return
    subprocess.run(["gcc", "-O2", "-o", f"{work}/wide", ROOT / "tests/web/wide.c"], check=True)
    source = (ROOT / "dist/wasm/wide.c").read_text()
    wanted = {count: subprocess.run([f"{work}/wide", str(count)], stdout=subprocess.PIPE, text=True, check=True).stdout for count in (CASES, 20000)}
    check(sums(kit, work, source, CASES) == wanted[CASES], "numbers of 128 bits differ from gcc's")
    for old, new in WIDE_FAULTS:
        check(old in source and sums(kit, work, source.replace(old, new, 1), 20000) != wanted[20000], f"the fault {new} in dist/wasm/wide.c is not found")
    print(f"{NAME}: {9 * CASES} numbers of 128 bits as by gcc; {len(WIDE_FAULTS)} planted faults are found")


# ---- Node

ENGINE = """import { readFileSync, writeSync } from "node:fs";
const { run } = await import(process.argv[2]);
const program = new WebAssembly.Module(readFileSync(process.argv[3]));
const { texts, commands } = JSON.parse(readFileSync(0));
const files = Object.fromEntries(Object.entries(texts).map(([name, text]) => [name, new Uint8Array(Buffer.from(text, "base64"))]));
for (const [words, input] of commands) {
    const outputs = [null, [], []];
    let status;
    try {
        ({ status } = run(program, words, { files, input: input === null ? undefined : files[input], write: (file, bytes) => outputs[file].push(bytes) }));
    } catch (why) {
        status = why.message;
    }
    const line = JSON.stringify([status, ...outputs.slice(1).map((it) => Buffer.concat(it).toString("base64"))]) + "\\n";
    for (let at = 0; at < line.length; ) at += writeSync(1, line.slice(at, at + 65536));
}
"""
PIE_FAULTS = [("write(file, bytes(buffer, length).slice())", "write(3 - file, bytes(buffer, length).slice())"), ("it.at += part.length;", "it.at += Math.min(part.length, 4096);"),
              ("source.subarray(at, at + room)", "source.subarray(at, Math.min(at + room, source.length - source.length % 4096))"), ("return text.length;", "return text.length - 1;")]


def in_node(work, wasm, given, asked, engine=ROOT / "web/pie.js"):
    """Returns the results of commands in Node."""
    script = Path(work, "engine.mjs")
    script.write_text(ENGINE)
    text = json.dumps({"texts": {name: base64.b64encode(it).decode() for name, it in given.items()}, "commands": asked})
    done = subprocess.run(["node", script, engine, wasm], input=text.encode(), capture_output=True, check=False, timeout=600)
    check(done.returncode == 0, f"node: {done.stderr.decode()[-500:]}")
    return [(status, base64.b64decode(out), base64.b64decode(errors)) for status, out, errors in map(json.loads, done.stdout.decode().splitlines())]


def damaged(text, count):
    """Returns damaged copies of a text."""
    made, chance = [], random.Random(1)
    for _ in range(count):
        changed = bytearray(text)
        for _ in range(chance.choice((1, 1, 3))):
            at = chance.randrange(len(changed))
            how = chance.randrange(3)
            if how == 0:
                changed[at] = chance.choice(b"0123456789,\n-x")
            elif how == 1:
                del changed[at : at + chance.choice((1, 1, 200))]
            else:
                changed[at:at] = chance.choice((b",", b"9", b"\n", b"resume,1\n"))
        made.append(bytes(changed))
    return made


def check_node(work, wasm, given, wanted):
    asked = commands()
    found = in_node(work, wasm, given, asked)
    count = sum(same("Node", words, got, right) for (words, _), got, right in zip(asked, found, wanted))
    wrong = damaged(given["burst.history"], 200)
    broken = {f"damaged{number}": it for number, it in enumerate(wrong)}
    asked = [(words, name) for name in broken for words in (["audit"], ["explain", "--all", "--csv"])]
    right = [native(words, broken[name]) for words, name in asked]
    same_count = sum(same("Node", [*words, name], got, it) for (words, name), got, it in zip(asked, in_node(work, wasm, broken, asked), right))
    for number, (old, new) in enumerate(PIE_FAULTS):
        source = (ROOT / "web/pie.js").read_text()
        engine = Path(work, f"fault{number}.mjs")
        engine.write_text(source.replace(old, new, 1))
        some = commands()[10:24]
        got = in_node(work, wasm, given, some, engine)
        check(old in source and got != wanted[10:24], f"the fault {new} in web/pie.js is not found")
    print(f"{NAME}: Node: {count} of {len(wanted)} commands and {same_count} of {len(asked)} about damaged texts as the native program; {len(PIE_FAULTS)} planted faults are found")
    done = subprocess.run(["node", ROOT / "web/run.mjs", wasm, "audit"], cwd=ROOT, input=given["overload.history"].decode(), capture_output=True, text=True, check=False)
    check((done.returncode, done.stdout) == (0, "clean,1033\n"), f"web/run.mjs: {done}")


# ---- Two million events

LARGE = """import { readFileSync } from "node:fs";
const { run } = await import(process.argv[2]);
const program = new WebAssembly.Module(readFileSync(process.argv[3]));
const input = new Uint8Array(readFileSync(0));
for (const words of [["audit"], ["explain", "--summary", "--csv"], ["explain", "--every", "1s", "--csv"]]) {
    let length = 0;
    const { status, memory } = run(program, words, { input, write: (file, bytes) => (length += bytes.length) });
    console.log(JSON.stringify([words, status, memory, length]));
}
"""


def large(count):
    """Returns a history of a queue at its limit with so many events."""
    trace = ["open3,1,stamp,derandomized,capped,unscaled,rolling,0,4096,4096,140737488355328\n"]
    update = 0
    for at in range(count // 2):
        now = at * 100_000
        trace.append(f"arrive,1,{now},{at},1250,ect0,{at * 0x9E3779B97F4A7C15 % 2**64}\ndepart,2,{now + 50_000}\n")
        if now >= update + 15_000_000:
            update = now + 60_000
            trace.append(f"update,3,{update}\n")
    return native(["run"], "".join(trace).encode())[1]


def check_large(work, wasm, text):
    script = Path(work, "large.mjs")
    script.write_text(LARGE)
    begun = time.monotonic()
    done = subprocess.run(["node", script, ROOT / "web/pie.js", wasm], input=text, capture_output=True, check=False)
    found = [json.loads(line) for line in done.stdout.decode().splitlines()]
    check(len(found) == 3 and all(status == 0 and memory <= 64 << 20 for _, status, memory, _ in found), f"two million events: {found} {done.stderr[-300:]}")
    most = max([memory for _, _, memory, _ in found] or [0])
    print(f"{NAME}: {len(text)} bytes of two million events in Node: {time.monotonic() - begun:.1f} s for {len(found)} commands, at most {most / 2**20:.1f} MB of memory")


# ---- Browsers

class Chromium:
    name = "Chromium"

    def __init__(self, work):
        from selenium import webdriver
        from selenium.webdriver.chrome.service import Service
        options = webdriver.ChromeOptions()
        options.binary_location = shutil.which("chromium")
        for word in ("--headless=new", "--no-sandbox", "--disable-gpu", "--disable-dev-shm-usage", f"--user-data-dir={work}/chromium"):
            options.add_argument(word)
        options.set_capability("goog:loggingPrefs", {"browser": "ALL"})
        self.driver = webdriver.Chrome(service=Service(shutil.which("chromedriver")), options=options)
        self.driver.set_script_timeout(600)

    def open(self, url):
        self.driver.get(url)

    def run(self, script, *words):
        return self.driver.execute_async_script(script, *words)

    def size(self, width, height):
        self.driver.execute_cdp_cmd("Emulation.setDeviceMetricsOverride", {"width": width, "height": height, "deviceScaleFactor": 1, "mobile": False})

    def shot(self):
        return base64.b64decode(self.driver.execute_cdp_cmd("Page.captureScreenshot", {"captureBeyondViewport": True})["data"])

    def act(self, sources):
        self.driver.execute("actions", {"actions": sources})

    def choose(self, path):
        """Chooses a file in the page's dialog."""
        self.driver.find_element("css selector", "#file").send_keys(str(path))

    def memory(self):
        """Returns the most bytes that a process of the page has had."""
        parents = {}
        for it in Path("/proc").glob("[0-9]*"):
            try:
                parents.setdefault(int((it / "stat").read_text().rpartition(")")[2].split()[1]), []).append(it)
            except OSError:
                pass
        found, left = [0], [self.driver.service.process.pid]
        while left:
            for it in parents.get(left.pop(), []):
                left.append(int(it.name))
                if b"--type=renderer" in (it / "cmdline").read_bytes():
                    found.append(int(re.search(r"VmHWM:\s+(\d+)", (it / "status").read_text())[1]) << 10)
        return max(found)

    def schemes(self):
        """Yields the colour schemes, each once it is set."""
        for scheme in ("dark", "light"):
            self.driver.execute_cdp_cmd("Emulation.setEmulatedMedia", {"features": [{"name": "prefers-color-scheme", "value": scheme}]})
            yield scheme

    def check_alone(self, page):
        """Checks the names that the browser gives to controls, and the page without scripts."""
        nodes = self.driver.execute_cdp_cmd("Accessibility.getFullAXTree", {})["nodes"]
        named = [it for it in nodes if not it.get("ignored") and {"name": "focusable", "value": {"type": "booleanOrUndefined", "value": True}} in it.get("properties", [])]
        silent = [it["role"]["value"] for it in named if not it.get("name", {}).get("value") and it["role"]["value"] != "RootWebArea"]
        page.says(len(named) > 30 and not silent, f"controls without a name: {silent} of {len(named)}")
        self.driver.execute_cdp_cmd("Emulation.setScriptExecutionDisabled", {"value": True})
        self.open(page.place_of_file)
        shown = [it["name"]["value"] for it in self.driver.execute_cdp_cmd("Accessibility.getFullAXTree", {})["nodes"] if it.get("name")]
        page.says(any("needs JavaScript and WebAssembly" in it for it in shown), f"without scripts the page says {shown[:12]}")
        self.driver.execute_cdp_cmd("Emulation.setScriptExecutionDisabled", {"value": False})
        self.open(page.place_of_file)
        page.js("await ready();")

    def console(self):
        return self.driver.get_log("browser")

    def close(self):
        self.driver.quit()


class Firefox:
    """Firefox by its own protocol, Marionette: a length, a colon, and JSON."""

    name = "Firefox"

    def __init__(self, work):
        profile = Path(work, "firefox")
        profile.mkdir()
        with socket.socket() as free:
            free.bind(("127.0.0.1", 0))
            port = free.getsockname()[1]
        names = {"marionette.port": port, "datareporting.policy.dataSubmissionEnabled": False, "app.update.enabled": False, "browser.shell.checkDefaultBrowser": False,
                 "toolkit.legacyUserProfileCustomizations.stylesheets": True}
        # (a window narrower than Firefox's own least width)
        (profile / "chrome").mkdir()
        (profile / "chrome/userChrome.css").write_text(":root { min-width: 0 !important; }")
        (profile / "user.js").write_text("".join(f"user_pref({json.dumps(key)}, {json.dumps(value)});\n" for key, value in names.items()))
        words = [shutil.which("firefox-esr") or shutil.which("firefox"), "--headless", "--marionette", "--no-remote", "--profile", str(profile)]
        self.process = subprocess.Popen(words, stdout=subprocess.DEVNULL, stderr=subprocess.DEVNULL, env={**os.environ, "HOME": str(work), "MOZ_HEADLESS_WIDTH": "1280", "MOZ_HEADLESS_HEIGHT": "900"})
        while True:
            try:
                self.socket = socket.create_connection(("127.0.0.1", port))
                break
            except OSError:
                if self.process.poll() is not None:
                    raise
                time.sleep(0.2)
        self.file, self.number = self.socket.makefile("rb"), 0
        self.receive()
        self.send("WebDriver:NewSession", {"capabilities": {"alwaysMatch": {}}})
        self.send("WebDriver:SetTimeouts", {"script": 600000, "pageLoad": 600000})

    def receive(self):
        length = b""
        while (it := self.file.read(1)) != b":":
            length += it
        return json.loads(self.file.read(int(length)))

    def send(self, name, parameters):
        self.number += 1
        text = json.dumps([0, self.number, name, parameters])
        self.socket.sendall(f"{len(text.encode())}:{text}".encode())
        _, _, error, result = self.receive()
        if error:
            raise RuntimeError(f"{name}: {error}")
        return result.get("value") if isinstance(result, dict) else result

    def open(self, url):
        self.send("WebDriver:Navigate", {"url": url})

    def run(self, script, *words):
        return self.send("WebDriver:ExecuteAsyncScript", {"script": script, "args": list(words)})

    def size(self, width, height):
        self.send("WebDriver:SetWindowRect", {"width": width, "height": height})

    def shot(self):
        return base64.b64decode(self.send("WebDriver:TakeScreenshot", {"full": True}))

    def act(self, sources):
        self.send("WebDriver:PerformActions", {"actions": sources})

    def schemes(self):
        return ["light"]

    def check_alone(self, page):
        pass

    def console(self):
        return []

    def close(self):
        try:
            self.send("Marionette:Quit", {"flags": ["eForceQuit"]})
        finally:
            self.process.wait()


HEAD = """const end = arguments[arguments.length - 1], given = [...arguments].slice(0, -1);
const element = (id) => document.getElementById(id);
const until = async (holds, what) => {
    for (let count = 0; !holds(); count++) {
        if (count > 6000) throw new Error(`never ${what ?? holds}`);
        await new Promise((go) => setTimeout(go, 10));
    }
};
const ready = () => until(() => document.documentElement.dataset.state !== "busy" && document.documentElement.dataset.state !== undefined, "ready");
const fields = () => Object.fromEntries([...document.querySelectorAll("#headline [data-field]")].map((it) => [it.dataset.field, it.textContent]));
const rows = (id) => [...element(id).querySelectorAll("tr")].map((row) => [...row.children].map((it) => it.textContent));
const letters = (buffer) => { let text = ""; for (const it of new Uint8Array(buffer)) text += String.fromCharCode(it); return btoa(text); };
const blobOf = (text) => new Blob([Uint8Array.from(atob(text), (it) => it.charCodeAt(0))]);
(async () => { %s })().then(end, (why) => end({ error: `${why} ${why.stack}` }));"""
RUN = """const [texts, commands] = given;
const files = Object.fromEntries(Object.entries(texts).map(([name, text]) => [name, blobOf(text)]));
const found = [];
for (const [words, input] of commands) {
    const { status, out, errors } = await ask(words, { files, input: input === null ? undefined : files[input] });
    found.push([status, letters(await out.arrayBuffer()), letters(new TextEncoder().encode(errors))]);
}
return found;"""


NAMED = {"Enter": "\ue007", "Tab": "\ue004", "Backspace": "\ue003"}


def number(text):
    """Returns the digits of a number in a page."""
    return re.sub(r"[, ]|ms$", "", text)


class Page:
    def __init__(self, browser, place):
        self.browser, self.place_of_file = browser, place.as_uri()
        browser.open(self.place_of_file)
        self.js("await ready();")

    def js(self, script, *words):
        found = self.browser.run(HEAD % script, *words)
        if isinstance(found, dict) and "error" in found:
            check(False, f"{self.browser.name}: {found['error'][:600]}")
            return None
        return found

    def says(self, holds, what):
        check(holds, f"{self.browser.name}: {what}")

    def press(self, *places, kind="mouse", times=1):
        """Presses a mouse's button or a finger at the first place of the window, moves to the others, and releases."""
        moves = [{"type": "pointerMove", "duration": 0, "x": round(x), "y": round(y)} for x, y in places]
        once = [{"type": "pointerDown", "button": 0}, *moves[1:], {"type": "pointerUp", "button": 0}]
        self.browser.act([{"type": "pointer", "id": kind, "parameters": {"pointerType": kind}, "actions": [moves[0], *(once * times)]}])

    def type(self, *keys):
        """Presses keys: letters, or names of NAMED."""
        self.browser.act([{"type": "key", "id": "keys", "actions": [{"type": how, "value": NAMED.get(it, it)} for it in keys for how in ("keyDown", "keyUp")]}])

    def place(self, selector, x=0.5, y=0.5):
        """Returns a place of an element in the window, after scrolling to it: a share of its width and height, or pixels above 1."""
        return self.js("""const it = document.querySelector(given[0]); it.scrollIntoView({ block: 'center' });
            const box = it.getBoundingClientRect(), at = (part, size) => (part > 1 ? part : part * size);
            return [box.left + at(given[1], box.width), box.top + at(given[2], box.height)];""", selector, x, y)

    def in_chart(self, number, time, y=8):
        """Returns the place in the window of a time in ms in a chart, by two labels of its axis."""
        chart = f".chart:nth-child({number + 1})"
        self.place(f"{chart} .graph")
        (one, left), (two, right) = self.js("""return [...document.querySelectorAll(`${given[0]} .dygraph-axis-label-x`)].slice(0, 2).map((it) => {
            const box = it.getBoundingClientRect();
            return [parseFloat(it.textContent), box.left + box.width / 2];
        });""", chart)
        return left + (time - one) * (right - left) / (two - one), self.place(f"{chart} .graph", 0.5, y)[1]

    def commands(self, given, asked, wanted):
        packed = {name: base64.b64encode(it).decode() for name, it in given.items()}
        found = self.js(RUN, packed, asked) or []
        return sum(same(self.browser.name, words, (got[0], base64.b64decode(got[1]), base64.b64decode(got[2])), right)
                   for (words, _), got, right in zip(asked, found, wanted))

    def show(self, name, text):
        """Opens a text, and holds the page to the program's numbers."""
        self.js("await openText(given[0], blobOf(given[1])); await ready();", name, base64.b64encode(text).decode())
        status, found, _ = native(["audit"], text)
        line = self.js("return [element('finding').textContent, element('fault').textContent, element('main').hidden]")
        self.says(found.decode().strip() in line[0] and (status == 0) == ("Clean." in line[0]), f"{name}: the finding is {line}, and not {found}")
        fields = self.js("return fields()")
        summary = [it.split(",") for it in native(["explain", "--summary", "--csv"], text)[1].decode().splitlines()]
        wanted = dict(zip(*summary))
        for field in ("arrivals", "arrived_bytes", "left", "mark", "bytes", "packets"):
            if field in fields:
                self.says(number(fields[field]) == wanted[field], f"{name}: {field} is {fields[field]}, and not {wanted[field]}")
        self.says(abs(float(number(fields["greatest_wait"])) - int(wanted["greatest_wait"]) / 1e6) < 0.00051, f"{name}: the greatest wait is {fields['greatest_wait']}")
        listed = self.js("return rows('list').slice(1).map((it) => it[0])")
        lost = [line.split(",")[0] for which in ("--lost", "--marked") for line in native(["explain", which, "--csv"], text)[1].decode().splitlines()[1:]]
        self.says(listed == sorted(lost, key=int)[:500], f"{name}: {len(listed)} packets are listed, and not {len(lost)}")
        return wanted


def check_page(page, given):
    """Holds each part of the page to the program."""
    for path in EXAMPLES:
        page.show(path.name, given[path.name])
    for name in ("excerpt", "differs", "fault"):
        page.show(name, given[name])
    page.js("await openText('burst.trace', blobOf(given[0])); await ready();", base64.b64encode(given["burst.trace"]).decode())
    line = page.js("return element('finding').textContent")
    page.says("This is a trace" in line and "Clean" in line, f"a trace: {line}")
    packed = base64.b64encode(gzip.compress(given["marks.history"])).decode()
    page.js("await openText('marks.history.gz', blobOf(given[0])); await ready();", packed)
    page.says("Clean" in page.js("return element('finding').textContent"), "a gzip file")
    # xz: two streams with zeros between them make an excerpt of two histories; cut off and damaged ones
    xz = lzma.compress(given["marks.history"], preset=6)
    wrong = bytearray(xz)
    wrong[len(xz) // 2] ^= 1
    for name, packed, wanted in (("two streams", lzma.compress(given["marks.history"][:9000]) + bytes(8) + lzma.compress(given["marks.history"][9000:], preset=9), "Clean"), ("xz", xz, "Clean"),
                                 ("a cut", xz[:-40], "is cut off"), ("damage", bytes(wrong), "is damaged")):
        page.js("await openText('marks.history.xz', blobOf(given[0])); await ready();", base64.b64encode(packed).decode())
        page.says(wanted in (found := page.js("return element('finding').textContent")), f"xz, {name}: {found}")
    text = given["overload.history"]
    page.show("overload.history", text)
    # a search by tag, as a user types it, and a click in the list
    page.js("element('tag').value = '200'; await fill(); element('list').tBodies[0].rows[0].click(); await until(() => element('words').textContent.startsWith('event 349'));")
    words = page.js("return [element('words').textContent, element('explain').textContent]")
    page.says(words[0] == native(["explain", "--event", "349"], text)[1].decode() and "--event 349" in words[1], f"the words of packet 200: {words}")
    page.js("element('tag').value = ''; element('cause').value = 'picked_by_word_not_capable'; await fill();")
    page.says(page.js("return rows('list').length") == 64, "the list by cause")
    # a click on a drop in the chart
    page.js("""element('cause').value = ''; await fill(); element('words').textContent = '';
        const place = document.querySelectorAll('.graph')[3].querySelector('canvas:last-of-type').getBoundingClientRect();
        await chooseNear(265.333333); await until(() => element('words').textContent !== '');""")
    page.says(page.js("return element('words').textContent").startswith("event 349"), "a click on a drop")
    # a zoom
    page.js("await look({ from: 200, to: 300 });")
    wanted = dict(zip(*[it.split(",") for it in native(["explain", "--summary", "--csv", "--from", "200ms", "--to", "300ms"], text)[1].decode().splitlines()]))
    fields = page.js("return fields()")
    page.says(number(fields["arrivals"]) == wanted["arrivals"] and number(fields["left"]) == wanted["left"], f"the sums of a zoom: {fields['arrivals']}, and not {wanted['arrivals']}")
    # files to save
    saved = page.js("""const made = []; window.offer = (blob, name) => made.push([blob, name]);
        for (const what of ['excerpt', 'csv', 'json', 'picture']) { element('saves').querySelector(`[value=${what}]`).click(); await until(() => made.length === 1 + ['excerpt', 'csv', 'json', 'picture'].indexOf(what)); }
        return Promise.all(made.map(async ([blob, name]) => [name, letters(await blob.arrayBuffer())]));""") or []
    times = ["--from", "200ms", "--to", "300ms"]
    for (name, got), words in zip(saved, (["cut", *times], ["explain", "--all", "--csv", *times], ["explain", "--all", "--json", *times])):
        page.says(base64.b64decode(got) == native(words, text)[1], f"the saved {name}")
    page.says(len(saved) == 4 and base64.b64decode(saved[3][1])[:4] == b"\x89PNG", "the saved picture")
    # other parameters, from the beginning
    page.js("""await look(whole()); element('list').tBodies[0].rows[0].click(); const slider = document.querySelector('#sliders input[name=target]'); slider.value = 5; slider.dispatchEvent(new Event('input'));
        await until(() => element('deciding').textContent.startsWith('decided') && element('fate').textContent !== '', 'a fate of the packet that was chosen at the same time');""")
    columns = page.js("return Object.fromEntries([...element('columns').querySelectorAll('[data-field]')].map((row) => [row.dataset.field, [...row.children].slice(1).map((it) => it.textContent)]))")
    for line in native(["what-if", "--from", "0", "--target", "5ms", "--csv"], text)[1].decode().splitlines()[1:]:
        name, *values = line.split(",")
        shown = columns.get(name)
        if shown and name in ("arrivals", "enqueue", "early", "left", "mark"):
            page.says([number(it) for it in shown] == values, f"what if: {name} is {shown}, and not {values}")
    page.says({"early", "enqueue", "mean_wait"} <= set(columns), f"what if: {list(columns)}")
    page.says("what if" in page.js("return document.querySelector('.legend').textContent"), "the other curve")
    # advice
    page.js("element('link').requestSubmit(); await until(() => element('advised').textContent !== '');")
    advice = native(["advise", "--rate", "20mbit", "--rtt", "10ms-50ms", "--flows", "4-16"])[1].decode()
    page.says(page.js("return element('advised').textContent") == advice, "advice")
    tc = re.findall(r"tc qdisc .*", advice)
    page.says(page.js("return [...document.querySelectorAll('#commands code')].map((it) => it.textContent)") == tc, "the commands of the advice")
    # a command
    page.js("element('command').value = 'explain --tag 200'; element('ask').requestSubmit(); await until(() => element('output').textContent !== '');")
    page.says(page.js("return element('output').textContent") == native(["explain", "--tag", "200"], text)[1].decode(), "a command")
    # keys
    page.js("element('charts').focus(); element('charts').dispatchEvent(new KeyboardEvent('keydown', { key: '+', bubbles: true })); await until(() => element('span').textContent !== '');")
    page.js("document.body.dispatchEvent(new KeyboardEvent('keydown', { key: '?', bubbles: true }));")
    page.says(page.js("const open = element('keys').open; element('keys').close(); return open"), "the keys")


def check_hands(page, text):
    """Asks as a new user does, with keys and a pointer: why was packet 200 lost, and what would a target of 5 ms have changed? Returns the seconds of each answer."""
    page.browser.open(page.place_of_file)
    begun = time.monotonic()
    page.js("await ready(); element('example').focus();")
    page.type(*"over")
    page.js("await until(() => element('name').textContent === 'overload.history'); await ready();")
    seconds = [time.monotonic() - begun]
    page.press(page.place("#tag"))
    page.type(*"200", "Enter")
    page.js("await until(() => element('words').textContent.startsWith('event'), 'an explanation');")
    seconds.append(time.monotonic() - begun)
    page.says(page.js("return element('words').textContent") == native(["explain", "--tag", "200"], text)[1].decode(), "the words of packet 200, by keys")
    page.press(page.place("#target"))
    page.type(*"5", "Enter")
    page.js("await until(() => element('deciding').textContent.startsWith('decided'));")
    seconds.append(time.monotonic() - begun)
    other = native(["what-if", "--from", "0", "--target", "5ms", "-o", "-"], text)[1]
    verdict = dict(zip(*[it.split(",") for it in native(["explain", "--tag", "200", "--csv"], other)[1].decode().splitlines()[:2]]))["verdict"]
    found = page.js("return element('fate').textContent")
    page.says(verdict == "enqueue" and found == "With these parameters packet 200 is queued.", f"packet 200 with a target of 5 ms: {found}, and not {verdict}")
    # a click on a drop explains it, and one beside it explains nothing
    page.press(page.place("#unchanged"))
    page.js("await until(() => element('deciding').textContent === ''); element('words').textContent = '';")
    at = page.in_chart(3, 265.333333)
    page.press((at[0] - 40, at[1]))
    time.sleep(0.5)
    page.says(page.js("return element('words').textContent") == "", "a click beside a drop explains one")
    for x, y in ((0, 8), (3, 60)):
        at = page.in_chart(3, 265.333333, y)
        page.press((at[0] + x, at[1]))
        page.js("await until(() => element('words').textContent.startsWith('event 349'), 'the words of a click'); element('words').textContent = '';")
    # a drag zooms to its ends, and a double click shows the whole time
    ends = [page.in_chart(0, it, 90) for it in (200, 300)]
    page.press(ends[0], ((ends[0][0] + ends[1][0]) / 2, ends[0][1]), ends[1])
    page.js("await until(() => fields().arrivals !== '525', 'a zoom');")
    wanted = dict(zip(*[it.split(",") for it in native(["explain", "--summary", "--csv", "--from", "200ms", "--to", "300ms"], text)[1].decode().splitlines()]))
    found = page.js("return fields()")["arrivals"]
    page.says(abs(int(found) - int(wanted["arrivals"])) <= 4, f"a drag from 200 to 300 ms shows {found} arrivals, and not {wanted['arrivals']}")
    page.press(page.in_chart(0, 250, 90), times=2)
    page.js("await until(() => fields().arrivals === '525', 'the whole time');")
    return seconds


def check_touch(page):
    """Taps on a drop, at a telephone's width."""
    page.js("await look(whole()); element('words').textContent = '';")
    page.press(page.in_chart(3, 265.333333), kind="touch")
    page.js("await until(() => element('words').textContent.startsWith('event 349'), 'the words of a tap');")


ACCESS = """const shown = (it) => it.checkVisibility({ visibilityProperty: true }) && it.getClientRects().length > 0;
const parts = (text) => { const made = text.match(/[\\d.]+/g).map(Number); return made.length < 4 ? [...made, 1] : made; };
const over = (top, below) => [0, 1, 2].map((at) => top[at] * top[3] + below[at] * (1 - top[3]));
const light = (color) => color.map((it) => it / 255).map((it) => (it <= 0.03928 ? it / 12.92 : ((it + 0.055) / 1.055) ** 2.4)).reduce((sum, it, at) => sum + it * [0.2126, 0.7152, 0.0722][at], 0);
const behind = (it) => { const color = it ? parts(getComputedStyle(it).backgroundColor) : [...given[0], 1]; return color[3] === 1 ? color.slice(0, 3) : over(color, behind(it.parentElement)); };
const problems = [];
const compared = (what, it, color, style) => {
    const below = behind(it), [one, two] = [light(over(parts(color), below)), light(below)].sort((a, b) => b - a);
    const isLarge = parseFloat(style.fontSize) >= 24 || (parseFloat(style.fontSize) >= 18.66 && style.fontWeight >= 700);
    if ((one + 0.05) / (two + 0.05) < (isLarge ? 3 : 4.5)) problems.push(`${what}: a contrast of ${((one + 0.05) / (two + 0.05)).toFixed(2)}`);
};
const texts = document.createTreeWalker(document.body, NodeFilter.SHOW_TEXT);
let count = 0;
for (let text = texts.nextNode(); text; text = texts.nextNode()) {
    const it = text.parentElement;
    if (!text.data.trim() || !shown(it)) continue;
    count++;
    compared(text.data.trim().slice(0, 30), it, getComputedStyle(it).color, getComputedStyle(it));
}
const controls = [...document.querySelectorAll("button, input, select, textarea, a[href], [tabindex='0']")].filter((it) => shown(it) && !it.disabled);
for (const it of controls) {
    if (it.placeholder) compared(`${it.id}: ${it.placeholder}`, it, getComputedStyle(it, "::placeholder").color, getComputedStyle(it));
    const labels = [...(it.labels ?? [])].map((label) => label.textContent).join("");
    const isText = it.matches("button, a");
    if (!(it.getAttribute("aria-label") || labels.trim() || (isText && it.textContent.trim()))) problems.push(`${it.outerHTML.slice(0, 60)} has no name`);
    if (!it.matches("button, input, select, textarea, a") && !it.getAttribute("role") && !it.matches("pre")) problems.push(`${it.outerHTML.slice(0, 60)} has no role`);
}
if (document.getAnimations().length > 0) problems.push("something moves");
const ids = [...document.querySelectorAll("[id]")].map((it) => it.id);
if (new Set(ids).size !== ids.length) problems.push("an id occurs twice");
window.focused = [];
document.addEventListener("focusin", ({ target }) => focused.push([target, target.matches(":focus-visible"), getComputedStyle(target).outlineStyle, parseFloat(getComputedStyle(target).outlineWidth)]));
window.reached = () => [controls.filter((it) => !focused.some(([target]) => target === it)).map((it) => it.outerHTML.slice(0, 80)),
    focused.filter(([, isVisible, style, width]) => !isVisible || style === "none" || width < 2).map(([it]) => it.outerHTML.slice(0, 80))];
return [count, controls.length, problems];"""


def check_access(page, text):
    """Checks contrasts, names and roles, that each control is reached by the key Tab and shows it, and that a page without scripts says what is needed."""
    page.show("burst.history", text)
    page.js("element('link').requestSubmit(); element('list').tBodies[0].rows[0]?.click(); element('target').value = 5; element('target').dispatchEvent(new Event('change')); "
            "await until(() => element('advised').textContent !== '' && element('deciding').textContent.startsWith('decided')); document.activeElement.blur();")
    for scheme in page.browser.schemes():
        count, controls, problems = page.js(ACCESS, [255, 255, 255]) or (0, 0, ["no answer"])
        page.says(not problems and count > 100, f"{scheme}: {problems[:8]} of {count} texts and {controls} controls")
    page.type(*["Tab"] * (controls + 12))
    missing, plain = page.js("return reached();")
    page.says(not missing, f"the key Tab does not reach {missing[:5]}")
    page.says(not plain, f"no visible focus: {plain[:5]}")
    page.browser.check_alone(page)


def check_cancel(page, text):
    """Cancels a request about many events. The next text must be shown."""
    found = page.js("""const opening = openText('large', blobOf(given[0])); await until(() => !element('working').hidden && element('doing').textContent.startsWith('deciding'));
        element('cancel').click(); await opening; return element('finding').textContent;""", base64.b64encode(text).decode())
    page.says(found == "Cancelled.", f"a cancelled request: {found}")
    page.show("burst.history", (ROOT / "examples/burst.history").read_bytes())


def check_stream(page, large):
    """Opens a file of two million events, which the page must stream: five passes over it, and little memory. Returns the seconds until the finding."""
    before, size = page.browser.memory(), large.stat().st_size
    page.js("element('file').hidden = false; window.number = pool.number;")
    begun = time.monotonic()
    page.browser.choose(large)
    page.js("await until(() => !element('finding').hidden);")
    seconds = time.monotonic() - begun
    page.js("await ready();")
    finding, count = page.js("return [element('finding').textContent, pool.number - window.number]")
    grown = page.browser.memory() - before
    page.says("Clean. Each of 2,0" in finding and count <= 5, f"two million events: {finding}, by {count} requests")
    page.says(grown < 64 << 20 < size, f"two million events of {size >> 20} MB take {grown >> 20} MB more memory")
    return f"{size >> 20} MB: a finding after {seconds:.1f} s, {page.browser.memory() >> 20} MB of memory, {count} passes"


LEAVE = """const [url] = given, tried = [];
const ended = (what, promise) => promise.then(() => tried.push(what), () => tried.push(`no ${what}`));
const load = (name, key) => new Promise((go, fail) => { const it = document.createElement(name); it.onload = go; it.onerror = fail; it[key] = `${url}${name}`; if (name === 'link') it.rel = 'stylesheet'; document.body.append(it); setTimeout(fail, 1500); });
const source = `fetch("${url}worker", { mode: "no-cors" }).then(() => postMessage(1), () => postMessage(0))`;
await Promise.all([ended('fetch', fetch(`${url}fetch`, { mode: 'no-cors' })),
    ...[['img', 'src'], ['script', 'src'], ['link', 'href'], ['iframe', 'src'], ['video', 'src'], ['object', 'data']].map(([name, key]) => ended(name, load(name, key))),
    ended('beacon', new Promise((go, fail) => { try { navigator.sendBeacon(`${url}beacon`, 'x') ? setTimeout(fail, 300) : fail(); } catch { fail(); } })),
    ended('socket', new Promise((go, fail) => { try { const it = new WebSocket(url.replace('http', 'ws')); it.onopen = go; it.onerror = fail; } catch { fail(); } })),
    ended('events', new Promise((go, fail) => { try { const it = new EventSource(`${url}events`); it.onopen = go; it.onerror = fail; } catch { fail(); } })),
    ended('worker', new Promise((go, fail) => { const it = new Worker(URL.createObjectURL(new Blob([source]))); it.onmessage = ({ data }) => (data ? go() : fail()); it.onerror = fail; }))]);
return tried;"""


def check_policy(page):
    """Tries to send requests out of the page, also from a worker. None may reach a server."""
    reached = []

    class Server(http.server.BaseHTTPRequestHandler):
        def do_GET(self):
            reached.append(self.path)
            self.send_response(200)
            self.end_headers()

        do_POST = do_GET

        def log_message(self, *words):
            pass

    server = http.server.ThreadingHTTPServer(("127.0.0.1", 0), Server)
    threading.Thread(target=server.serve_forever, daemon=True).start()
    tried = page.js(LEAVE, f"http://127.0.0.1:{server.server_port}/") or []
    server.shutdown()
    page.says(not reached and len(tried) == 11, f"requests that left the page: {reached}, of {tried}")
    return len(tried)


def check_widths(page, text):
    """Checks that the page fits each width, and takes pictures of it."""
    page.show("overload.history", text)
    for width, height in ((1280, 900), (768, 1024), (390, 844)):
        page.browser.size(width, height)
        page.js("await new Promise((go) => setTimeout(go, 300)); await look(whole());")
        wide = page.js("return [document.documentElement.scrollWidth, innerWidth]")
        page.says(wide[0] <= wide[1] == width, f"at {width} pixels the page is {wide[0]} wide, in a window of {wide[1]}")
        if width == 390:
            check_touch(page)
        if PICTURES:
            Path(PICTURES, f"{page.browser.name}-{width}.png").write_bytes(page.browser.shot())
    page.browser.size(1280, 900)


def check_browsers(work, wasm, given, wanted, text, large):
    place = Path(work, "juniperbowls.html")
    done = subprocess.run([ROOT / "web/make.py", place, "--program", wasm], capture_output=True, text=True, check=False)
    if done.returncode:
        print(f"NOT RUN: {NAME}: {done.stderr.strip()}")
        return
    is_here = {Chromium: shutil.which("chromium") and shutil.which("chromedriver") and importlib.util.find_spec("selenium"), Firefox: shutil.which("firefox-esr") or shutil.which("firefox")}
    for kind, found in is_here.items():
        if not found:
            print(f"NOT RUN: {NAME}: no {kind.name} here, so the page was not opened by it (tests/install.sh report)")
            continue
        browser = kind(work)
        try:
            page = Page(browser, place)
            if kind is Chromium:
                # (first: it measures the memory of a new page)
                print(f"{NAME}: {kind.name}: {check_stream(page, large)}")
            count = page.commands(given, commands(), wanted)
            check_page(page, given)
            seconds = check_hands(page, given["overload.history"])
            check_widths(page, given["overload.history"])
            check_access(page, given["burst.history"])
            check_cancel(page, text)
            told = browser.console()
            page.says(not told, f"on its console: {told}")
            attempts = check_policy(page)
        finally:
            browser.close()
        print(f"{NAME}: {kind.name}: {count} of {len(wanted)} commands as the native program; {len(EXAMPLES)} examples; none of {attempts} kinds of requests left the page; "
              f"answers of a trial after {', '.join(f'{it:.1f}' for it in seconds)} s")


def main():
    with tempfile.TemporaryDirectory(ignore_cleanup_errors=True) as work:
        wasm = Path(work, "pie.wasm")
        wasm.write_bytes(lzma.decompress((ROOT / "dist/wasm/pie.wasm.xz").read_bytes()))
        given = texts()
        folder = Path(work, "texts")
        folder.mkdir()
        for name, it in given.items():
            (folder / name).write_bytes(it)
        wanted = [native(words, given[name] if name else b"", folder) for words, name in commands()]
        if shutil.which("node"):
            check_numbers(work)
            check_node(work, wasm, given, wanted)
        else:
            print(f"NOT RUN: {NAME}: no node here, so the program did not run in it")
        text, path = large(2_000_000), Path(work, "large.history")
        path.write_bytes(text)
        if shutil.which("node"):
            check_large(work, wasm, text)
        check_browsers(work, wasm, given, wanted, text[: 8 << 20], path)
    finish()


if __name__ == "__main__":
    with_selenium()
    main()
