#!/usr/bin/env python3
"""Runs pie-fwd between a null port and a ring, several instances at once, and tests:

- errors, and its end by an interrupt;
- its files, and its telemetry with changes of parameters;
- its history: at full speed, on a full device, in segments, and of the last events;
- its interval records, compared with the history;
- the flows of a capture.

No mbuf may be lost. The tests do not depend on the machine's speed: they wait for conditions. With --real-time it
runs only one instance, at raised priority, whose mean wait must be near the target. This needs a free processor.

usage: bindings/dpdk/fwd_test.py PIE_FWD PIE [--real-time]"""
import contextlib
import ipaddress
import json
import os
import re
import shutil
import signal
import socket
import struct
import subprocess
import sys
import tempfile
import threading
import time
from concurrent.futures import ThreadPoolExecutor
from datetime import datetime, timezone
from pathlib import Path

PIE_FWD, PIE = (str(Path(it).resolve()) for it in sys.argv[1:3])
CPUS = f"(0-{os.cpu_count() - 1})"
EAL = ["--no-huge", "-m", "256", "--no-pci", "--no-shconf", "--no-telemetry", "--log-level=lib.eal:error", "--lcores", f"(0-2)@{CPUS}"]
RING = ["--vdev=net_null0", "--vdev=net_ring0"]
PACED = ["--vdev=net_null0,size=1000", "--vdev=net_ring0"]
NEWLINE = b"\n"
FIRST = 1 << 20  # bytes of a long history that are audited
PATIENCE = 1000  # seconds after which what does not come about is a failure, on however slow a machine
LINE = re.compile(r"([\d.]+) Mbit/s, (\d+) packets/s, wait ([\d.]+) ms, probability [\d.]+, \d+ dropped, \d+ marked, \d+ waiting")


def command(ports, *words):
    return [PIE_FWD, *EAL, *ports, "--", *words]


def run(ports, *words, **settings):
    done = subprocess.run(command(ports, *words), capture_output=True, text=True, check=False, timeout=PATIENCE, **settings)
    return done.returncode, done.stdout, done.stderr


def until(holds, process):
    """Waits until this holds, while a process runs."""
    end = time.monotonic() + PATIENCE
    while not holds():
        assert process.poll() is None and time.monotonic() < end, "it does not come about"
        time.sleep(0.02)


@contextlib.contextmanager
def running(ports, *words):
    """Runs pie-fwd until an interrupt ends it, at the latest at the end of the block."""
    with subprocess.Popen(command(ports, *words), stdout=subprocess.PIPE, stderr=subprocess.PIPE, text=True) as process:
        try:
            yield process
        finally:
            process.kill()


def interrupted(process):
    """Ends the program. Returns its status, and its output since the last call."""
    process.send_signal(signal.SIGINT)
    printed, errors = process.communicate(timeout=PATIENCE)
    return process.returncode, printed, errors


def totals(printed):
    """Returns the numbers of the last line, by their keywords."""
    last = printed.splitlines()[-1]
    assert last.startswith("pie-fwd: ") and last.endswith(" 0 mbufs missing"), printed
    return {words: int(number) for number, words in re.findall(r"(\d+) ([a-z ]+)", last)}


def refused():
    for ports, words, said in (
        (RING, ["--rate", "5"], "--rate 5: refused: not a number with a unit"),
        (RING, ["--history", "/nowhere/history"], "the file of --history: No such file"),
        (RING, ["--history", "/dev/null", "--total-num-mbufs", "4194304", "--limit", "1048577p"], "--limit: out of its range"),
        (RING, ["--limit", "4097p"], "--limit: out of its range"),
        (RING, ["--limit", "2049p", "--queues", "2"], "--limit: out of its range"),
        (RING, ["--queues", "9"], "--queues: out of its range"),
        (RING, ["--queues", "0"], "--queues: out of its range"),
        (RING, ["--limit", "1000"], "--limit 1000: a unit has to say of what it is"),
        (RING, ["--flight-events", "16777217"], "--flight-events: out of its range"),
        (RING, ["--history", "/dev/null", "--rotate", "1kb"], "--rotate: out of its range"),
        (RING, ["--records", "/nowhere/records"], "the file of --records: No such file"),
        (RING, ["--records", "/dev/null", "--every", "0s"], "--every: out of its range"),
        (RING, ["--flows", "/nowhere/flows"], "the file of --flows: No such file"),
        (RING, ["--flight-wait", "5"], "--flight-wait 5: refused: not a number with a unit"),
        (RING[:1], [], "there are 1 ports"),
    ):
        status, _, errors = run(ports, *words)
        assert status == 1 and said in errors, (words, status, errors)
    status, printed, _ = run(RING, "--help")
    assert status == 0 and "--history FILE" in printed
    outputs()
    return "refused"


def outputs():
    """Checks that no output is another output or replaces an existing file unasked: nothing is opened then."""
    with tempfile.TemporaryDirectory() as work:
        for name in ("there", "there-1", "pieces.07"):
            Path(work, name).write_text("kept")
        Path(work, "link").symlink_to("there")
        before, exists, two = sorted(os.listdir(work)), "the file exists; --force replaces it", "two outputs have this name"
        for words, said in (
            (["--history", "there"], f"there: {exists}"),
            (["--records", "link"], f"link: {exists}"),
            (["--flows", "there"], f"there: {exists}"),
            (["--metrics", "there"], f"there: {exists}"),
            (["--json", "there"], f"there: {exists}"),
            (["--history", "there", "--force", "--queues", "2", "--records", "link"], f"link: {two}"),
            (["--history", "new", "--queues", "2", "--json", "new-1"], f"new-1: {two}"),
            (["--history", "pieces", "--rotate", "64kb"], f"pieces.07: {exists}"),
            (["--history", "pieces", "--rotate", "64kb", "--records", "./pieces.1", "--force"], f"./pieces.1: {two}"),
            (["--flight", "new", "--history", "new.before"], f"new.before: {two}"),
        ):
            status, _, errors = run(RING, *words, cwd=work)
            assert status == 1 and f"pie-fwd: {said}\n" in errors, (words, status, errors)
            assert sorted(os.listdir(work)) == before and Path(work, "there").read_text() == "kept", words
        status, _, errors = run(PACED, "--receive", "20mbit", "--for", "1s", "--history", "there", "--force", cwd=work)
        assert status == 0 and Path(work, "there").read_text().startswith("open"), (status, errors)


def interrupt():
    """Checks its files while it runs, and its end, after which the metrics file is gone."""
    with tempfile.TemporaryDirectory() as work:
        words = ["--total-num-mbufs", "8192", "--rate=100mbit", "--limit", "100p", "--metrics", f"{work}/pie.prom", "--json", f"{work}/json"]
        process = subprocess.Popen(command(RING, *words), stdout=subprocess.PIPE, text=True)
        lines = [process.stdout.readline(), process.stdout.readline()]
        while not files(Path(work, "pie.prom").read_text(), json.loads(Path(work, "json").read_text())):
            lines.append(process.stdout.readline())  # (one of them was of the second before, or no packet has left)
            assert lines[-1] and len(lines) < PATIENCE, "the files never agree"
        process.send_signal(signal.SIGINT)
        rest = process.communicate(timeout=PATIENCE)[0]
        assert process.returncode == 0 and all(LINE.match(line) for line in lines), (process.returncode, lines, rest)
        totals(rest)
        assert os.listdir(work) == ["json"]
    return "interrupt"


def files(metrics, queues):
    """Checks both; False if they are not of the same moment, or nothing was dropped at the limit yet."""
    family, kinds, numbers = "", {}, {}
    for line in metrics.splitlines():  # each number stands under its family, whose type and help are told
        if line.startswith("# "):
            word, family, rest = line[2:].split(" ", 2)
            kinds.setdefault(family, set()).add(word)
            kind = rest if word == "TYPE" else ""
        else:
            name, number = line.rsplit(" ", 1)
            numbers[name] = float(number)
            assert re.fullmatch(r'pie_\w+\{link="net_ring0",queue="0"(,le="[\w.+]+")?\}', name), name
            ending = name.split("{")[0].removeprefix(family)
            assert ending in ({"_bucket", "_count", "_sum"} if kind == "histogram" else {""}), line
            assert kind != "counter" or family.endswith("_total"), line
    assert all(words == {"TYPE", "HELP"} for words in kinds.values()), kinds
    waits = [number for name, number in numbers.items() if name.startswith("pie_wait_seconds_bucket")]
    of = {name.partition("{")[0].removeprefix("pie_"): number for name, number in numbers.items() if "le=" not in name}
    assert len(waits) == 13 and waits == sorted(waits) and waits[-1] == of["wait_seconds_count"] == of["departed_packets_total"]
    assert of["updated_probability_ratio_count"] == of["updates_total"] and {"pie_late_updates_total", "pie_burst_allowance_seconds"} <= set(kinds)
    early, over_bytes, over_packets = (of[f"{which}_drops_total"] for which in ("early", "byte_limit", "packet_limit"))
    assert of["arrived_packets_total"] == of["enqueued_packets_total"] + of["marked_packets_total"] + early + over_bytes + over_packets
    lint(metrics)
    (queue,) = queues
    if queue["packets"] != of["departed_packets_total"] or queue["packets"] == 0 or queue["overlimit"] == 0:
        return False
    assert queue["kind"] == "pie" and queue["options"]["target"] == 15000 and queue["options"]["alpha"] == 2
    assert queue["backlog"] == of["queue_bytes"] and queue["prob"] == of["probability_ratio"]
    drops = sum(count for name, count in of.items() if name.endswith("_drops_total"))
    assert queue["overlimit"] == over_bytes + over_packets and queue["dropped"] == early + queue["overlimit"]  # (as in sch_pie.c)
    assert queue["drops"] == drops and queue["pkts_in"] - queue["packets"] == queue["qlen"] == of["queue_packets"]
    return True


def lint(metrics):
    """Checks the metrics as node_exporter's textfile collector would: promtool must accept them."""
    if shutil.which("promtool") is not None:
        done = subprocess.run(["promtool", "check", "metrics"], input=metrics, capture_output=True, text=True, check=False)
        assert (done.returncode, done.stdout, done.stderr) == (0, "", ""), done


def audited(path):
    """Audits a history; one with gaps must end with a fault at the first of them. Returns the number of the event
    before the text, and of its last event."""
    text = Path(path).read_bytes()
    first = text.split(NEWLINE, 1)[0].split(b",")
    before = int(first[-31]) if first[0] == b"resume" else 0
    last = before + text.count(NEWLINE) - 1 - len(re.findall(rb"^(?:queued|clock),", text, re.M))
    gap = re.search(rb"^lost,", text, re.M)
    wanted = f"pie: {path}: record {1 + text.count(NEWLINE, 0, gap.start())}: unknown kind\n" if gap else f"{path}: clean,{last}\n"
    done = subprocess.run([PIE, "audit", path], stdout=subprocess.PIPE, stderr=subprocess.STDOUT, text=True, check=False)
    # one more line names the field of a fault
    cause = f'pie: line {1 + text.count(NEWLINE, 0, gap.start())} of {path}, field 1 (kind): "lost"; allowed are ' if gap else ""
    said = done.stdout.splitlines(keepends=True)
    assert "".join(said[:1]) == wanted and ([line.startswith(cause) for line in said[1:]] == ([True] if gap else [])), (done.stdout, wanted)
    return before, None if gap else last


def now():
    return f"{datetime.now(timezone.utc):%Y-%m-%dT%H:%M:%S.%f}"


def tells_time(path, since, has_events=True):
    """Checks that each event of a text has a wall-clock time between this one and now, and that each text has one
    clock record."""
    done = subprocess.run([PIE, "explain", "--all", "--csv", "--wall", path], stdout=subprocess.PIPE, text=True, check=True)
    times = [line.rpartition(",")[2] for line in done.stdout.splitlines()[1:]]
    assert bool(times) == has_events and all(since <= it <= now() for it in times), (since, times[:1], times[-1:], now())
    assert len(re.findall(rb"^clock,", Path(path).read_bytes(), re.M)) == 1


def holds_records(records, history, every):
    """Checks that the records are those of the history, or that a line has the number of missing intervals, and
    that only these are missing."""
    done = subprocess.run([PIE, "explain", "--every", every, "--csv", "--wall", history], stdout=subprocess.PIPE, text=True, check=True)
    wanted = iter(done.stdout.splitlines())
    found = Path(records).read_text().splitlines()
    assert len(found) > 1, found
    for line in found:
        if line.startswith("lost,"):
            assert all(next(wanted, None) for _ in range(int(line[5:])))
        else:
            other = next(wanted, None)
            assert line == other, (line, other)
    assert next(wanted, None) is None


def events_of(numbers):
    words = ("packets queued", "dropped early", "for want of bytes", "of room", "left", "updates", "changes of parameters")
    return sum(numbers[word] for word in words)


@contextlib.contextmanager
def with_telemetry(*words, **settings):
    """Runs pie-fwd, with its telemetry."""
    prefix = f"pie-fwd-test-{os.getpid()}-{threading.get_ident()}"
    places = [Path(base, "dpdk", prefix) for base in ("/var/run", os.environ.get("XDG_RUNTIME_DIR", "/tmp"))]
    full = [word for word in command(PACED, *words) if word != "--no-telemetry"]
    full[1:1] = ["--file-prefix", prefix]
    with subprocess.Popen(full, stdout=subprocess.PIPE, text=True, **settings) as process, socket.socket(socket.AF_UNIX, socket.SOCK_SEQPACKET) as one:
        try:
            assert LINE.search(process.stdout.readline())
            one.connect(str(next(place / "dpdk_telemetry.v2" for place in places if place.exists())))
            one.recv(1 << 16)
            yield process, one
        finally:
            process.kill()
            for place in places:
                shutil.rmtree(place, ignore_errors=True)


def ask(telemetry, command):
    """Returns the answer of DPDK's telemetry."""
    telemetry.send(command.encode())
    return json.loads(telemetry.recv(1 << 16))[command.partition(",")[0]]


def telemetry():
    """Checks the telemetry of a running stage, and new parameters, which must be in force from then on and be in
    the history."""
    with tempfile.TemporaryDirectory() as work:
        path = f"{work}/history"
        words = ("--rate", "20mbit", "--receive", "24mbit", "--history", path, "--records", f"{work}/records", "--every", "100ms")
        with with_telemetry(*words, stderr=subprocess.DEVNULL) as (process, one):
            assert ask(one, "/pie/list") == ["pie-fwd"]
            before = ask(one, "/pie/params,0")
            stats = ask(one, "/pie/stats,0")
            while stats["departed"] == 0 or stats["updates"] == 0:
                assert LINE.match(process.stdout.readline())
                stats = ask(one, "/pie/stats,0")
            assert stats["name"] == "pie-fwd" and sum(stats["waits"]) == stats["departed"] and sum(stats["probs"]) == stats["updates"]
            wanted = before | {"target": 3000000, "t_update": 5000000, "limit_bytes": 50 << 10, "alpha": 250}
            assert before["target"] == 15000000 and ask(one, "/pie/set,0,target=3ms,t_update=5ms,limit_bytes=50k,alpha=250") == wanted
            for wrong in ("/pie/set,0,target=1ms,beta=1000001", "/pie/set,0,target=1", "/pie/set,0,colour=1", "/pie/set,0,target=", "/pie/set,0",
                          "/pie/set,1,target=1ms", "/pie/set,0,target=1ms,alpha", "/pie/params,1", "/pie/params,", "/pie/stats", "/pie/stats,0,1",
                          "/pie/stats,18446744073709551616"):
                assert not ask(one, wrong), wrong
            assert ask(one, "/pie/params,0") == wanted
            while not is_updated_within(path, 15000000):
                assert LINE.match(process.stdout.readline())
            after = ask(one, "/pie/stats,0")
            assert (after["changes"], after["target"]) == (1, 3000000) and after["updates"] > stats["updates"], (stats, after)
            process.send_signal(signal.SIGHUP)
            printed = process.communicate(timeout=PATIENCE)[0]
        assert process.returncode == 0 and totals(printed)["changes of parameters"] == 1, printed
        text = Path(path).read_text()
        assert re.findall(r"^params,.*$", text, re.M)[0].split(",")[3:] == [*map(str, wanted.values()), "done"]
        assert audited(path)[1] == events_of(totals(printed))
        holds_records(f"{work}/records", path, "100ms")
    return "telemetry"


def is_updated_within(path, time_between):
    """Returns true if two updates after new parameters took less time than this."""
    moments = [int(moment) for moment in re.findall(r"^update,\d+,(\d+),", Path(path).read_text().partition("\nparams,")[2], re.M)]
    return any(other - one < time_between for one, other in zip(moments, moments[1:]))


def full_speed():
    """Runs null ports at full speed with a history: each event is in it or counted as lost, and the text before a
    gap is clean."""
    with tempfile.TemporaryDirectory() as work:
        pipe, first = f"{work}/history", Path(work, "first")
        os.mkfifo(pipe)
        forward = subprocess.Popen(command(RING, "--total-num-mbufs=8192", "--rate", "1gbit", "--limit", "4000p", "--for", "1s", "--history", pipe),
                                   stdout=subprocess.PIPE, text=True)
        lines, gaps, lost, size = 0, 0, 0, 0
        with open(pipe, "rb") as history, first.open("wb") as kept:
            for chunk in history_lines(history):
                lines += chunk.count(NEWLINE)
                size += len(chunk) if size >= FIRST else kept.write(chunk)
                if b"lost," in chunk:
                    found = re.findall(rb"^lost,(\d+)$", chunk, re.M)
                    gaps += len(found)
                    lost += sum(map(int, found))
        printed = forward.communicate(timeout=PATIENCE)[0]
        numbers = totals(printed)
        events = events_of(numbers)
        assert forward.returncode == 0 and numbers["events lost to the history"] == lost, printed
        assert lines == 2 + events - lost + gaps, (lines, events, lost, gaps)
        audited(str(first))
        return f"{events} events at full speed, {lost} of them told as lost"


def history_lines(history):
    """Returns the output read so far, in whole lines."""
    rest = b""
    while chunk := history.read(1 << 20):
        whole, newline, after = (rest + chunk).rpartition(NEWLINE)
        if newline:
            yield whole + newline
        rest = after
    assert rest == b""


def queues():
    """Runs two queues; packets without an IP header use the first: lines, metrics, JSON, histories and flight
    recorders of each."""
    with tempfile.TemporaryDirectory() as work:
        words = ["--rate", "20mbit", "--receive", "24mbit", "--queues", "2", "--limit", "400p", "--history", f"{work}/history", "--flight", f"{work}/flight",
                 "--metrics", f"{work}/pie.prom", "--json", f"{work}/json", "--records", f"{work}/records", "--every", "150ms", "--profile", "2"]
        with with_telemetry(*words, stderr=subprocess.PIPE) as (process, one):
            lines = [process.stdout.readline() for _ in range(4)]
            assert ask(one, "/pie/list") == ["pie-fwd", "pie-fwd-1"]
            assert [ask(one, f"/pie/stats,{it}")["name"] for it in (0, 1)] == ["pie-fwd", "pie-fwd-1"]
            ask(one, "/pie/set,1,target=20ms")
            assert [ask(one, f"/pie/params,{it}")["target"] for it in (0, 1)] == [15000000, 20000000]
            process.send_signal(signal.SIGUSR1)
            said = []
            while len(said) < 2:  # (DPDK says something too)
                line = process.stderr.readline()
                assert line, said
                said += [line] if line.startswith("pie-fwd: --flight") else []
            metrics, two = Path(work, "pie.prom").read_text(), json.loads(Path(work, "json").read_text())
            while not re.search(r'^pie_departed_packets_total{link="net_ring0",queue="0"} [1-9]', metrics, re.M) or two[0]["packets"] == 0:
                assert process.stdout.readline()
                metrics, two = Path(work, "pie.prom").read_text(), json.loads(Path(work, "json").read_text())
            process.send_signal(signal.SIGTERM)
            printed = process.communicate(timeout=PATIENCE)[0]
        assert process.returncode == 0 and said == [f"pie-fwd: --flight {work}/flight{it}: written\n" for it in ("", "-1")], (printed, said)
        assert [line.partition(": ")[0] for line in lines] == ["queue 1", "queue 0", "queue 1", "queue 0"], lines
        assert all(LINE.match(line.partition(": ")[2]) for line in lines)
        lint(metrics)
        assert len(set(re.findall(r"^# TYPE .*$", metrics, re.M))) == metrics.count("# TYPE ")
        departed = dict(re.findall(r'^pie_departed_packets_total\{link="net_ring0",queue="(\d)"\} (\d+)$', metrics, re.M))
        assert set(departed) == {"0", "1"} and int(departed["0"]) > 0 and departed["1"] == "0", departed
        assert [queue["packets"] > 0 for queue in two] == [True, False], two
        ends = [audited(f"{work}/history{it}")[1] for it in ("", "-1")]
        assert sum(ends) == events_of(totals(printed)) and ends[1] > 0, (ends, printed)
        assert all(audited(f"{work}/flight{it}")[1] <= end for it, end in zip(("", "-1"), ends))
        for it in ("", "-1"):
            holds_records(f"{work}/records{it}", f"{work}/history{it}", "150ms")
    return "queues"


FLOOD = ("udp", "192.0.2.66", 9, "198.51.100.1", 53)
FLOWS = {1000: FLOOD, 1001: ("tcp", "192.0.2.1", 40000, "198.51.100.1", 443), 1002: ("tcp", "192.0.2.2", 40001, "198.51.100.1", 443),
         1003: ("tcp", "2001:db8::1", 40002, "2001:db8::2", 443), 1004: ("tcp", "192.0.2.3", 40003, "198.51.100.1", 443)}  # by the frame's size


def frame(size):
    """Returns a frame of this flow; the last flow has a VLAN tag."""
    protocol, source, source_port, destination, destination_port = FLOWS[size]
    one, other = ipaddress.ip_address(source).packed, ipaddress.ip_address(destination).packed
    number = {"tcp": 6, "udp": 17}[protocol]
    if len(one) == 4:
        kind, head = 0x0800, struct.pack(">BBHHHBBH", 0x45, 2, size - 14, 0, 0, 64, number, 0) + one + other
    else:
        kind, head = 0x86DD, struct.pack(">IHBB", 6 << 28 | 2 << 20, size - 54, number, 64) + one + other
    tag = struct.pack(">HH", 0x8100, 7) if size == max(FLOWS) else b""
    return (bytes(12) + tag + struct.pack(">H", kind) + head + struct.pack(">HH", source_port, destination_port)).ljust(size, b"x")


def flows():
    """Checks a capture of four TCP connections beside a UDP flood, received without end: the flow with the most bytes is the flood, by its addresses,
    and each packet has its flow in its tag."""
    with tempfile.TemporaryDirectory() as work:
        sizes = [*FLOWS, *[1000] * 7]
        packets = b"".join(struct.pack("<IIII", 0, 0, size, size) + frame(size) for size in sizes)
        Path(work, "capture").write_bytes(struct.pack("<IHHiIII", 0xA1B2C3D4, 2, 4, 0, 0, 65535, 1) + packets)
        ports = [f"--vdev=net_pcap0,rx_pcap={work}/capture,infinite_rx=1", "--vdev=net_ring0"]
        words = ["--rate", "20mbit", "--receive", "30mbit", "--history", f"{work}/history", "--flows", f"{work}/flows"]
        words += ["--limit", "90p", "--rotate", "64kb", "--flight", f"{work}/flight", "--flight-wait", "5ms", "--ecn"]
        with running(ports, *words) as process:
            until(lambda: Path(work, "history.4").exists() and Path(work, "flight").exists(), process)
            status, printed, errors = interrupted(process)
        assert status == 0, (status, printed, errors)
        events_of(totals(printed))
        header, *rows = [line.split(",") for line in Path(work, "flows").read_text().splitlines()]
        assert header[0] == "flow" and len(rows) == len(FLOWS), rows
        numbers = {tuple(row[1:]): int(row[0], 16) for row in rows}
        parts = sorted(Path(work).glob("history.*"), key=lambda it: int(it.suffix[1:]))
        assert len(parts) > 3, parts
        packets = 0
        for path in [*parts, Path(work, "flight")]:
            audited(str(path))
            found = re.findall(r"^(?:arrive,\d+,\d+|depart,\d+,\d+,left|queued),(\d+),(\d+),", path.read_text(), re.M)
            assert all(int(tag) >> 32 == numbers[tuple(map(str, FLOWS[int(size)]))] for tag, size in found), path
            packets += len(found)
        longest = max(parts, key=lambda it: it.stat().st_size)  # (64 KB: more than a thousand records)
        assert packets > 1000 and longest.stat().st_size >= 64 << 10, (packets, parts)
        done = subprocess.run([PIE, "explain", "--summary", "--flows", "10", "--csv", longest], stdout=subprocess.PIPE, text=True, check=True)
        first = dict(zip(*(line.split(",") for line in done.stdout.splitlines()[:2])))
        assert int(first["flow"], 16) == numbers[tuple(map(str, FLOOD))], done.stdout
    return "flows"


def device_full():
    """Checks that the program continues, reports the error once, and ends with status 1; and that it ends with
    everything freed if its output is closed."""
    status, printed, errors = run(PACED, "--total-num-mbufs=2048", "--receive", "20mbit", "--for", "1s", "--history", "/dev/full")
    assert status == 1 and errors.count("--history /dev/full: No space left on device") == 1, (status, errors)
    totals(printed)
    status, _, errors = run(PACED, "--receive", "20mbit", "--for", "1s", "--records", "/dev/full")
    assert status == 1 and errors.count("--records /dev/full: No space left on device") == 1, (status, errors)
    process = subprocess.Popen(command(PACED, "--total-num-mbufs=2048", "--receive", "20mbit"), stdout=subprocess.PIPE, text=True)
    process.stdout.close()
    assert process.wait(timeout=PATIENCE) == 0
    return "a device that is full"


def paced():
    """Checks that the history of a second of real time is complete."""
    with tempfile.TemporaryDirectory() as work:
        path = f"{work}/history"
        since = now()
        status, printed, errors = run(PACED, "--rate", "40mbit", "--receive", "48mbit", "--for", "1s", "--history", path)
        events = events_of(totals(printed))
        assert status == 0 and Path(path).read_bytes().count(NEWLINE) == events + 2, (status, printed, errors)
        audited(path)
        tells_time(path, since)
        return f"{events} events in real time"


def flight():
    """Runs null ports at full speed with the flight recorder, whose text is requested by signals; and with one that
    is requested by a long wait."""
    with tempfile.TemporaryDirectory() as work:
        path, kept = f"{work}/flight", 30000
        process = subprocess.Popen(command(RING, "--total-num-mbufs=8192", "--rate", "10gbit", "--flight", path, "--flight-events", str(kept)),
                                   stdout=subprocess.PIPE, stderr=subprocess.PIPE, text=True)
        texts = []
        assert "are under rate x target" in process.stderr.readline()
        while len(texts) < 3:
            assert LINE.match(process.stdout.readline())
            process.send_signal(signal.SIGUSR1)
            said = process.stderr.readline()
            if "overwritten" in said:  # (it was kept from a processor while it copied)
                continue
            assert said == f"pie-fwd: --flight {path}: written\n", said
            texts.append(audited(path))
        process.send_signal(signal.SIGINT)
        printed = process.communicate(timeout=PATIENCE)[0]
        totals(printed)
        assert process.returncode == 0 and len(texts) == 3 and all(last > before > 0 for before, last in texts), (printed, texts)
        assert texts[0][1] <= texts[1][1] <= texts[2][1] and audited(f"{path}.before") == texts[1], texts
        words = ["--rate", "20mbit", "--receive", "40mbit", "--flight-wait", "30ms", "--flight", path, "--limit", "400p"]
        since = now()
        with running(PACED, *words) as process:
            said = process.stderr.readline()
            status, printed, errors = interrupted(process)
        assert status == 0 and said == f"pie-fwd: --flight {path}: written\n", (printed, said, errors)
        audited(path)
        tells_time(path, since)
        status, printed, errors = run(PACED, *words, "--for", "1s", "--flight-events", "0")
        assert status == 0 and errors == "", (printed, errors)
        return f"the last {min(last - before for before, last in texts)} events or more at full speed"


def segments():
    """Checks a history in segments, the last of which are kept: each can be audited alone, and begins where the one
    before ends."""
    with tempfile.TemporaryDirectory() as work:
        path, since = Path(work, "history"), now()
        words = ["--rate", "100mbit", "--receive", "120mbit", "--history", str(path), "--rotate", "64kb", "--segments", "3"]
        with running(PACED, *words) as process:
            until(path.with_name("history.5").exists, process)
            status, printed, errors = interrupted(process)
        events = events_of(totals(printed))
        names = sorted(os.listdir(work), key=lambda name: int(name.rpartition(".")[2]))
        assert status == 0 and len(names) == 3 and names[0] != "history.1", (names, printed, errors)
        ends = [audited(str(path.with_name(name))) for name in names]
        assert all(one[1] == other[0] for one, other in zip(ends, ends[1:])) and ends[-1][1] == events, (ends, events)
        # (if the program was interrupted just after a segment began, the last segment has no event)
        for name, (before, last) in zip(names, ends):
            tells_time(path.with_name(name), since, last > before)
        assert all(64 << 10 <= path.with_name(name).stat().st_size for name in names[:-1])
        return f"{names[-1].rpartition('.')[2]} segments"


def first_of_all():
    """Raises the priority; where sessions share the processors (autogroup), also that of a session of its own."""
    os.setsid()
    os.nice(-20)
    group = Path("/proc/self/autogroup")
    if group.exists():
        group.write_text("-20")


def real_time():
    """Checks 100 Mbit/s with 1.2 times its load: from the fifth second on the mean wait is within 10 per cent of 15 ms, and the rate within one."""
    status, printed, _ = run(PACED, "--rate", "100mbit", "--receive", "120mbit", "--for", "14s", preexec_fn=first_of_all)
    lines = [[float(it) for it in LINE.match(line).groups()] for line in printed.splitlines()[4:-1]]
    packets = sum(count for _, count, _ in lines)
    wait = sum(count * wait for _, count, wait in lines) / packets
    rate = sum(rate for rate, _, _ in lines) / len(lines)
    totals(printed)
    waits = [it[2] for it in lines]
    print(f"mean wait {wait:.3f} ms at {rate:.3f} Mbit/s in {len(lines)} s; of each second {min(waits)} to {max(waits)} ms")
    assert status == 0 and 13.5 <= wait <= 16.5 and 99 <= rate <= 101, printed


def main():
    if sys.argv[3:] == ["--real-time"]:
        real_time()
        return
    if shutil.which("promtool") is None:
        print("NOT RUN: bindings/dpdk/fwd_test.py: no promtool here, so nothing else than this script read the metrics (tests/install.sh bindings/dpdk)")
    with ThreadPoolExecutor(max_workers=3) as pool:
        print("; ".join(pool.map(lambda it: it(), (full_speed, flight, interrupt, paced, segments, telemetry, queues, flows, device_full, refused))))


main()
