#!/usr/bin/env python3
"""Compares the pages of `pie-watch serve`, the screen of `pie-watch top` and the rows of `pie-watch --drops` with what they must be, for the queues of
watch_made.c. bindings/linux/summed.sh compares them with the kernel's queues.

- Each metric of a queue and of the host, by the rates of the queues; at most 12 series a queue; the worst queues and the sums of all queues, for each
  number of them; `promtool check metrics` if it is there.
- /queues in each order, by a text in any case, and at most as many as asked for; /health, also if no reading is possible; other paths, methods and orders.
- The server listens at 127.0.0.1 alone, and has no privileges.
- The labels of a class come before those of its device; wrong lines are refused.
- The screen in tmux at 80 by 24: orders, filter, last drops with their causes, an empty page, and 10,000 queues.
- Each row of --drops has each column.
- The BPF programs of watch_sums.bpf.c, in user space: watch_sums.c.

With --mutants, each wrong line of watch_mutants.txt must be noticed; FIRST is the number of the first one.

usage: tests/libraries/watch.py [--mutants [FIRST]]
needs: nothing"""
import calendar
import contextlib
import csv
import http.client
import json
import os
import re
import shutil
import signal
import socket
import subprocess
import sys
import tempfile
import time
from pathlib import Path

ME = "tests/libraries/watch.py"
ROOT = Path(__file__).resolve().parent.parent.parent
LINUX = ROOT / "bindings/linux"
SOURCES = ["watch_names.c", "watch_serve.c", "watch_serve_text.c", "watch_top.c", "watch_drops.c", "watch_output.c", "watch_text.c", "watch_load.c"]
SHARED = [ROOT / "examples/shared/output.c", ROOT / "examples/shared/segments.c"]
BEGUN, PATIENCE = 1000, 30
# Of watch_made.c: ms waited; packets, early drops, drops by the limit and marks in a second; the probability
RATES = [(12.5, 1000, 10, 0, 4, 0.015), (3.25, 2000, 200, 50, 0, 0.0025), (40, 300, 0, 0, 30, 0.12), (0.5, 4000, 0, 40, 0, 0), (7, 500, 5, 0, 1, 0.03)]
NAMES = [("eth0", "1:10"), ("eth1", "1:11"), ("eth0", "1:12"), ("eth1", "root"), ("4026539999/eth0", "1:14")]
LABELS = """# comments and empty lines

eth0 1:10 subscriber=4711 plan=gold
eth0 * plan=none site="west\\
eth1 root  subscriber=4712
"""
BOUNDS = [0.00025 * 2**number for number in range(12)]
faults = []
is_planted = False  # the first fault ends the comparison


class Noticed(Exception):
    """A planted fault was noticed."""


def fault(text):
    faults.append(text)
    if is_planted:
        raise Noticed


def expect(what, ours, right):
    if ours != right:
        fault(f"{what}: {ours!r}, right is {right!r}")


class Server:
    """A server with made queues, on a free port."""

    def __init__(self, program, labels="", most=1000, **environment):
        with socket.socket() as free:
            free.bind(("127.0.0.1", 0))
            self.port = free.getsockname()[1]
        words = [program, "serve", f":{self.port}", str(labels), str(most)]
        self.process = subprocess.Popen(words, stderr=subprocess.PIPE, env={**os.environ, **environment}, text=True)
        self.said = self.process.stderr.readline()

    def __enter__(self):
        return self

    def __exit__(self, kind, *_):
        children = Path(f"/proc/{self.process.pid}/task/{self.process.pid}/children").read_text().split()
        self.process.send_signal(signal.SIGTERM)
        with contextlib.suppress(subprocess.TimeoutExpired):
            self.process.wait(PATIENCE)
        if self.process.poll() is None:
            self.process.kill()
            for child in children:
                os.kill(int(child), signal.SIGKILL)
            if kind is None:
                fault("the server does not end")

    def get(self, path, method="GET"):
        connection = http.client.HTTPConnection("127.0.0.1", self.port, timeout=PATIENCE)
        connection.request(method, path)
        answer = connection.getresponse()
        return answer.status, answer.getheader("Content-Type"), answer.read().decode()

    def json(self, path):
        status, kind, text = self.get(path)
        expect(f"{path}: status and type", (status, kind), (200, "application/json"))
        return json.loads(text)


def metrics_of(text):
    values = {}
    for line in text.splitlines():
        if not line.startswith("#"):
            name, value = line.rsplit(" ", 1)
            expect(f"{name}: once", name in values, False)
            values[name] = float(value)
    return values


def right_metrics(number, seconds):
    """Returns the metrics of a made queue after `seconds`."""
    wait, arrived, early, over, marked, probability = (0,) * 6 if number >= len(RATES) else RATES[number]
    waiting = 0 if number >= len(RATES) else number + 1
    departed = (arrived - early - over) * seconds - waiting
    departed = max(departed, 0)
    return {"arrived_packets_total": arrived * seconds, "marked_packets_total": marked * seconds, "early_drops_total": early * seconds,
            "packet_limit_drops_total": over * seconds, "departed_bytes_total": 1000 * departed, "wait_seconds_sum": round(wait / 1000 * departed, 3),
            "wait_seconds_count": departed, "probability_ratio": probability, "delay_seconds": wait / 1000, "target_seconds": 0.015,
            "byte_limit_drops_total": 0, "queue_bytes": 1500 * waiting}


def labels_of(number):
    device, parent = NAMES[number]
    more = {0: ',subscriber="4711",plan="gold",site="\\"west\\\\"', 2: ',plan="none",site="\\"west\\\\"', 3: ',subscriber="4712"'}
    return f'{{link="{device}",queue="{parent}"{more.get(number, "")}}}'


def compare_metrics(values, listed, queues):
    """Compares the metrics of `queues` made queues, of which those of the list have series."""
    seconds = round(values["pie_host_arrived_packets_total"] - 11) / sum(rate[1] for rate in RATES)
    expect("whole seconds", seconds % 1, 0)
    right = [right_metrics(number, int(seconds)) for number in range(len(RATES))]
    series = [name for name in values if 'link="' in name]
    expect("series", len(series), 12 * len(listed))
    for number in listed:
        for name, value in right[number].items():
            at = f"pie_{name}{labels_of(number)}" if number < len(RATES) else f'pie_{name}{{link="eth{number % 2}",queue="1:{number + 16:x}"}}'
            expect(at, abs(values.get(at, -1) - value) <= 0.01 * (name == "wait_seconds_sum") + 6.4e-8 * ("seconds" in name) + 1e-12, True)
    gone = {"arrived_packets_total": 11, "early_drops_total": 5, "departed_bytes_total": 600}
    for name in ("arrived_packets_total", "early_drops_total", "packet_limit_drops_total", "marked_packets_total", "departed_bytes_total"):
        expect(f"pie_host_{name}", values[f"pie_host_{name}"], sum(it[name] for it in right) + gone.get(name, 0))
    expect("pie_host_packets", values["pie_host_packets"], 15)
    expect("pie_host_bytes", values["pie_host_bytes"], 1500 * 15)
    expect("pie_host_queues", values["pie_host_queues"], queues)
    expect("pie_host_unlisted_queues", values["pie_host_unlisted_queues"], queues - len(listed))
    expect("pie_host_removed_queues_total", values["pie_host_removed_queues_total"], 2)
    waits = [(0.0001, 6)] + [(rate[0] / 1000, it["wait_seconds_count"] - 7) for rate, it in zip(RATES, right, strict=True)]
    for bound in BOUNDS:
        expect(f"waits up to {bound}", values[f'pie_host_wait_seconds_bucket{{le="{bound:g}"}}'], sum(count for wait, count in waits if wait <= bound))
    every = sum(it["wait_seconds_count"] for it in right) + 6
    expect("all waits", (values['pie_host_wait_seconds_bucket{le="+Inf"}'], values["pie_host_wait_seconds_count"]), (every, every))
    expect("the sum of waits", round(values["pie_host_wait_seconds_sum"], 2), round(sum(it["wait_seconds_sum"] for it in right) + 0.001, 2))


def lint(text):
    if shutil.which("promtool"):
        done = subprocess.run(["promtool", "check", "metrics"], input=text, capture_output=True, text=True)
        expect("promtool check metrics", (done.returncode, done.stdout + done.stderr), (0, ""))
    else:
        print(f"NOT RUN: {ME}: no promtool here: its check of the metrics")


def check_server(program, work):
    labels = work / "labels"
    labels.write_text(LABELS)
    with Server(program, labels) as server:
        expect("the first line", server.said, f"pie-watch: serving http://127.0.0.1:{server.port}/metrics\n")
        status, kind, text = server.get("/metrics")
        expect("/metrics", (status, kind), (200, "text/plain; version=0.0.4; charset=utf-8"))
        compare_metrics(metrics_of(text), range(5), 5)
        lint(text)
        check_orders(server)
        expect("/health", server.json("/health"), {"status": "ok", "queues": 5, "removed_queues": 2, "missed_queues": 0, "reading_ms": 1.5})
        expect("/", server.get("/")[0:2], (200, "text/html"))
        expect("/other", server.get("/other")[0], 404)
        expect("POST", server.get("/metrics", "POST")[0], 405)
        for wrong in ("sort=x", "most=0", "most=", "most=5x", "sort=wait&most=x"):
            expect(f"/queues?{wrong}", server.get(f"/queues?{wrong}")[0], 400)
        check_process(server)
    with Server(program, labels, 2) as server:
        compare_metrics(metrics_of(server.get("/metrics")[2]), [1, 3], 5)
    with Server(program, "", 3, MADE_QUEUES="0") as server:
        text = server.get("/metrics")[2]
        lint(text)
        expect("no queue", ("link=" in text, server.json("/queues")["all"]), (False, 0))
    with Server(program, "", 5000, MADE_QUEUES="10000") as server:
        text = server.get("/metrics")[2]
        expect("series of 5,000 queues", sum("link=" in line for line in text.splitlines()), 12 * 5000)
        lint(text)
    with Server(program, "", 5, MADE_BROKEN="1") as server:
        expect("the first reading", server.get("/metrics")[0], 200)
        time.sleep(2)
        expect("no reading", (server.get("/metrics")[0], server.get("/health")[0], json.loads(server.get("/health")[2])["status"]), (503, 503, "no reading"))
    for address in ("9464", "localhost:9464", ":", ":0", ":70000x", "192.0.2.1:", "[::1:9464", ":-1"):
        done = subprocess.run([program, "serve", address, "", "5"], capture_output=True, text=True, timeout=PATIENCE)
        expect(f"the address {address}", (done.returncode, done.stderr.count("\n")), (1, 1))


def check_orders(server):
    every = server.json("/queues")["queues"]
    expect("fields of a queue", set(every[0]), {"link", "queue", "handle", "kind", "labels", "arrived", "early_drops", "limit_drops", "marked", "departed",
                                                "departed_bytes", "mean_wait_ms", "wait_99_ms", "longest_wait_ms", "probability", "delay_ms", "target_ms",
                                                "packets", "bytes", "limit"})
    for order, right in {"drops": [1, 3, 0, 4, 2], "wait": [2, 0, 4, 1, 3], "longest": [2, 0, 4, 1, 3], "probability": [2, 4, 0, 1, 3], "name": [0, 1, 2, 3, 4]}.items():
        for most in (1, 3, 9):
            page = server.json(f"/queues?sort={order}&most={most}")
            expect(f"the order {order} of {most}", [(it["link"], it["queue"]) for it in page["queues"]], [NAMES[at] for at in right][:most])
            expect("found", (page["found"], page["all"]), (5, 5))
    for match, right in {"ETH1": [1, 3], "1:1": [0, 1, 2, 4], "4712": [3], "gold": [0], "Eth0%201:12": [2], "nothing": []}.items():
        page = server.json(f"/queues?sort=name&match={match}")
        expect(f"match {match}", [(it["link"], it["queue"]) for it in page["queues"]], [NAMES[at] for at in right])
        expect(f"found {match}", page["found"], len(right))
    first = next(it for it in every if it["labels"].get("plan") == "gold")
    expect("labels", first["labels"], {"subscriber": "4711", "plan": "gold", "site": '"west\\'})
    for number, (wait, *_, probability) in enumerate(RATES):
        it = next(it for it in every if (it["link"], it["queue"]) == NAMES[number])
        expect(f"numbers of {number}", (round(it["mean_wait_ms"], 3), it["wait_99_ms"], round(it["longest_wait_ms"], 3), it["probability"], it["kind"], it["handle"]),
               (wait, min(bound * 1000 for bound in BOUNDS if bound * 1000 >= wait), 2 * wait, probability, "fq_pie" if number == 2 else "pie",
                f"{0x8001 + number:x}:"))


def check_process(server):
    """The process that answers has no privileges, and listens at 127.0.0.1 alone."""
    children = Path(f"/proc/{server.process.pid}/task/{server.process.pid}/children").read_text().split()
    status = Path(f"/proc/{children[0]}/status").read_text()
    expect("privileges", re.findall(r"(?:CapEff|CapPrm|NoNewPrivs):\t(\w+)", status), ["0" * 16, "0" * 16, "1"])
    if os.geteuid() == 0:
        expect("users", re.search(r"Uid:\t(.*)", status)[1], "\t".join(["65534"] * 4))
    places = [line.split()[1] for line in Path("/proc/net/tcp").read_text().splitlines()[1:] if line.split()[3] == "0A"]
    expect("the address", [it for it in places if it.endswith(f":{server.port:04X}")], [f"0100007F:{server.port:04X}"])


def check_labels(program, work):
    for text, right in {"eth0": "a class, or \\*, is missing", "eth0 1:1": "a label NAME=VALUE is missing", "eth0 1:1 a": "a label is NAME=VALUE",
                        "eth0 1:1 1a=2": "a name of a label has letters", "eth0 1:1 queue=2": "and is not link, queue or le", "eth0 1:1 a-b=2": "letters",
                        "eth0 1:1 " + " ".join(f"n{it}=1" for it in range(9)): "more than 8 labels"}.items():
        file = work / "wrong"
        file.write_text(f"eth0 * a=1\n{text}\n")
        done = subprocess.run([program, "labels", file], capture_output=True, text=True)
        expect(f"labels {text!r}", (done.returncode, bool(re.fullmatch(f"pie-watch: {file}: line 2: .*{right}.*\n", done.stderr))), (1, True))


class Screen:
    """The page in a terminal of tmux, at 80 by 24."""

    def __init__(self, program, labels, queues=5):
        self.folder = tempfile.mkdtemp()
        self.tmux("-f", "/dev/null", "new-session", "-d", "-x", "80", "-y", "24", f"MADE_QUEUES={queues} {program} top {labels}; sleep 60")

    def tmux(self, *words):
        return subprocess.run(["tmux", "-S", f"{self.folder}/socket", *words], capture_output=True, text=True, check=True).stdout

    def __enter__(self):
        return self

    def __exit__(self, *_):
        self.tmux("kill-server")
        shutil.rmtree(self.folder)

    def press(self, *keys):
        for key in keys:
            self.tmux("send-keys", *(["-l", key] if len(key) == 1 else [key]))
            time.sleep(0.1)

    def lines(self):
        return self.tmux("capture-pane", "-p").split("\n")[:24]

    def until(self, what, condition):
        """Returns the lines of the screen when they meet a condition."""
        until = time.monotonic() + PATIENCE
        while time.monotonic() < until:
            lines = self.lines()
            if condition(lines):
                return lines
            time.sleep(0.2)
        fault(f"the screen never shows {what}: {self.lines()}")
        return [""] * 24

    def order(self, what, right):
        """Waits until the queues are shown in an order."""
        self.until(what, lambda lines: [int(at) for at in places(lines)] == right)


def places(lines):
    """Returns the numbers of the shown queues with traffic."""
    shown = [tuple(line.split()[:2]) for line in lines[3:23] if line.strip()]
    short = [(device[:16], parent) for device, parent in NAMES]
    return [short.index(it) for it in shown if it in short]


def check_screen(program, work):
    if not shutil.which("tmux"):
        print(f"NOT RUN: {ME}: no tmux here: the screen of `pie-watch top`")
        return
    labels = work / "labels"
    labels.write_text(LABELS)
    with Screen(program, labels) as screen:
        lines = screen.until("rates", lambda lines: "7.80k arrived/s" in lines[0])
        expect("the head", lines[0].rstrip(), "5 of 5 queues: 60.0Mbit/s, 7.80k arrived/s, 305 dropped/s, 35.0 marked/s")
        expect("the order", lines[1].rstrip(), "by wait")
        expect("the columns", lines[2].split(), "DEVICE CLASS KIND BIT/S WAIT ms LONGEST PROB % DROP/S MARK/S".split())
        expect("a queue", lines[3].split()[:9], ["eth0", "1:12", "fq_pie", "2.40M", "40.00", "80.00", "12.000", "0", "30.0"])
        expect("a queue", lines[4].split()[:9], ["eth0", "1:10", "pie", "7.92M", "12.50", "25.00", "1.500", "10.0", "4.00"])
        expect("a width of 80", max(map(len, lines)) <= 80, True)
        expect("the keys", lines[23].startswith("w d p n: by wait"), True)
        screen.order("the order of waits", [2, 0, 4, 1, 3])
        for key, right in {"d": [1, 3, 0, 4, 2], "p": [2, 4, 0, 1, 3], "n": [4, 0, 2, 1, 3], "w": [2, 0, 4, 1, 3]}.items():
            screen.press(key)
            screen.order(f"the order of {key}", right if key != "n" else [0, 2, 4, 1, 3])
        screen.press("/", "E", "T", "H", "1")
        screen.order("the filter", [1, 3])
        screen.until("the filter", lambda lines: "filter: ETH1_" in lines[1] and lines[0].startswith("2 of 5 queues: 45.7M"))
        screen.press("BSpace", "Enter")
        screen.order("the shorter filter", [2, 0, 4, 1, 3])
        screen.press("/", "1", "Enter", "Enter")
        lines = screen.until("the last drops", lambda lines: "AGO s" in lines[3])
        expect("the queue", lines[0].rstrip(), "eth1 1:11: pie 8002:")
        expect("its state", "2 of 1000 packets, 3000 bytes, delay 3.2 ms (target 15.0), probability 0.250%" in lines[1], True)
        right = ["early at 0.250%; ecn is off", "early at 20.000%, too high to mark", "marked at 0.250%", "limit: 1000 of 1000 packets", "early at 0.250%; Not-ECT"]
        expect("causes", [line[11:45].rstrip() for line in lines[4:9]], right)
        expect("ECN and packets", [line[53:].split(maxsplit=1) for line in lines[4:9]],
               [["ect0", "-"], ["ect1", "udp 2001:db8::1:443 >"], ["ce", "tcp 192.0.2.7:443 > 19"], ["ect0", "tcp 192.0.2.7:443 > 19"], ["not", "tcp 192.0.2.7:443 > 19"]])
        expect("no sixth row", lines[9].strip(), "")
        screen.press("Escape", "Escape")
        screen.order("all queues again", [2, 0, 4, 1, 3])
        screen.press("Home", "Down", "Enter")
        screen.until("labels", lambda lines: lines[0].startswith('eth0 1:10: pie 8001:, subscriber=4711, plan=gold, site="west'))
        screen.press("Escape", "Down", "Enter")
        screen.until("the third queue without drops", lambda lines: "1:14: pie" in lines[0] and "no packet was dropped or marked" in lines[4])
        screen.press("Escape", "/", "x", "x")
        screen.until("no queue", lambda lines: "no queue has this text" in lines[3])
        screen.press("Escape", "q")
        screen.until("the end", lambda lines: not any("DEVICE" in line for line in lines))
    with Screen(program, labels, 0) as screen:
        screen.until("the empty page", lambda lines: "no queue of pie or fq_pie" in lines[3])
        screen.press("Enter", "Down", "End", "d")
        screen.until("the empty page", lambda lines: "by drops" in lines[1])
    with Screen(program, labels, 10000) as screen:
        screen.until("many queues", lambda lines: "5 of 10000" not in lines[0] and lines[0].startswith("10000 of 10000 queues: 60.0Mbit/s"))
        screen.press("NPage", "End")
        screen.until("the last queue", lambda lines: lines[22].split()[:2] == ["eth1", "1:271f"])
        screen.press("Home")
        screen.until("the first queue", lambda lines: places(lines) == [2, 0, 4, 1, 3])


def check_drops(program, work):
    file = work / "drops.csv"
    done = subprocess.run([program, "drops", file], capture_output=True, text=True, timeout=PATIENCE)
    expect("status of --drops", done.returncode, 0)
    expect("lines of --drops", [line.split(":", 1)[1].strip() for line in done.stderr.splitlines()][:3],
           ["recording drops and marks of all devices", "eth1 1:11: pie", "eth1 1:11: removed"])
    expect("the last line", bool(re.search(r"7 queues, \d+ arrived, \d+ dropped, \d+ marked; 4 rows of drops, 1 of marks, 0 lost$", done.stderr.strip())), True)
    names, *rows = csv.reader(file.open())
    for row in rows:
        expect(f"columns of {row[:8]}", len(row), len(names))
    rows = [dict(zip(names, row, strict=False)) for row in rows]
    expect("events", [row["event"] for row in rows], ["created", "drop", "drop", "mark", "drop", "drop", "removed", "sums"] + ["sums"] * 5)
    expect("causes", [row["cause"] for row in rows][1:6], ["early", "limit", "random", "early", "early"])
    expect("names", {(row["device"], row["class"], row["handle"], row["kind"]) for row in rows[:8]}, {("eth1", "1:11", "8002:", "pie")})
    expect("a packet", [rows[1][it] for it in ("probability_percent", "delay_ms", "target_ms", "packets", "bytes", "limit", "size", "ecn", "protocol", "source",
                                               "source_port", "destination", "destination_port", "flow", "arrived", "early", "over", "marked", "departed")],
           ["0.250000", "20.000", "15.000", "77", "115500", "1000", "1500", "not", "6", "192.0.2.7", "443", "198.51.100.9", "51234", "", "130", "20", "10", "4", ""])
    expect("IPv6", (rows[4]["source"], rows[4]["destination"], rows[4]["protocol"]), ("2001:db8::1", "2001:db8::2", "17"))
    expect("no addresses", (rows[5]["source"], rows[5]["source_port"], rows[5]["ecn"]), ("", "", "ect0"))
    expect("sums", [rows[7][it] for it in ("arrived", "early", "over", "marked", "departed", "departed_bytes", "waited_ms", "packets", "limit", "size")],
           ["2000000", "200000", "50000", "0", "1749998", "1749998000", "5687493.500", "2", "1000", ""])
    now = time.time()
    offsets = {round((calendar.timegm(time.strptime(row["time"].split(".")[0], "%Y-%m-%dT%H:%M:%S")) - int(row["ns"]) / 1e9) / 10) for row in rows}
    expect("wall-clock time", offsets <= {round((now - time.monotonic()) / 10) + it for it in (-1, 0, 1)}, True)
    moments = [int(row["ns"]) for row in rows[:7]]
    expect("moments", moments, [4 * 10**9] + [5 * 10**9] * 5 + [6 * 10**9])
    expect("a file that exists", subprocess.run([program, "drops", file], capture_output=True, timeout=PATIENCE).returncode, 1)


def build(work, planted=None):
    """Builds the program. A planted file takes the place of the source with its name."""
    program, objects = work / "watch_made", []
    for source in [ROOT / "tests/libraries/watch_made.c", *(LINUX / it for it in SOURCES), *SHARED]:
        is_other = planted is not None and planted.name == source.name
        objects.append((work if is_other else OBJECTS) / f"{source.stem}.o")
        if is_other or not objects[-1].exists():
            warnings = "-w" if is_other else "-Werror"
            subprocess.run(["cc", "-std=gnu11", "-O1", "-Wall", "-Wextra", warnings, "-DHAS_MICROHTTPD", "-DHAS_NCURSES", f"-I{LINUX}", f"-I{ROOT}/include",
                            "-c", "-o", objects[-1], planted if is_other else source], check=True)
    subprocess.run(["cc", "-o", program, *objects, "-lmicrohttpd", "-lncursesw", "-ltinfo", "-lpthread"], check=True)
    return program


def check_sums(work, planted=None):
    """Runs the BPF programs of watch_sums.bpf.c in user space, with queues that watch_sums.c makes."""
    program, place = work / "watch_sums", planted.parent if planted is not None else LINUX
    subprocess.run(["cc", "-std=gnu11", "-O1", "-w", f"-I{ROOT}/tests/libraries/watch_bpf", f"-I{place}", f"-I{LINUX}", "-o", program,
                    ROOT / "tests/libraries/watch_sums.c"], check=True)
    for seed in range(1, 5):
        done = subprocess.run([program, str(seed)], capture_output=True, text=True)
        expect(f"watch_sums {seed}", (done.returncode, "" if done.returncode == 0 else done.stdout), (0, ""))


def check(planted=None):
    """Builds the program, and compares all."""
    faults.clear()
    with tempfile.TemporaryDirectory() as name:
        work = Path(name)
        os.chmod(work, 0o755)
        is_bpf = planted is not None and planted.name.endswith(".bpf.c")
        program = build(work, planted) if not is_bpf else None
        try:
            if planted is None or is_bpf:
                check_sums(work, planted)
            if is_bpf:
                return list(faults)
            check_labels(program, work)
            check_drops(program, work)
            check_server(program, work)
            check_screen(program, work)
        except (Noticed, subprocess.TimeoutExpired) as found:
            if not is_planted:
                raise
            faults.append(str(found))
    return list(faults)


def mutants(first=1):
    """Plants each wrong line from this number on, and prints those that are not noticed."""
    global is_planted, PATIENCE
    is_planted, PATIENCE = True, 12
    missed, number = 0, 0
    for line in (ROOT / "tests/libraries/watch_mutants.txt").read_text().splitlines():
        if not line or line.startswith("#"):
            continue
        number += 1
        if number < first:
            continue
        file, old, new = line.split("\t")
        with tempfile.TemporaryDirectory() as name:
            text = (LINUX / file).read_text()
            assert text.count(old) == 1, f"{file} has {text.count(old)} times: {old}"
            planted = Path(name) / file
            planted.write_text(text.replace(old, new))
            found = check(planted)
        print(f"  {file}: {new.strip()}: {found[0] if found else 'NOT NOTICED'}", flush=True)
        missed += not found
    print(f"{ME}: {number} wrong lines, {missed} not noticed")
    return missed != 0


def main():
    lacking = [it for it in ("/usr/include/microhttpd.h", "/usr/include/ncurses.h", "/usr/include/bpf/libbpf.h") if not Path(it).exists()]
    if lacking:
        print(f"NOT RUN: {ME}: no {lacking[0]} here (bindings/linux/install.sh)")
        return
    with tempfile.TemporaryDirectory() as name:
        global OBJECTS
        OBJECTS = Path(name)
        if sys.argv[1:2] == ["--mutants"]:
            sys.exit(mutants(*map(int, sys.argv[2:])))
        for it in check():
            print(f"{ME}: {it}", file=sys.stderr)
    print(f"{ME}: {len(faults)} faults")
    sys.exit(bool(faults))


main()
