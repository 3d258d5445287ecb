#!/usr/bin/env python3
"""Tests the capture of histories in Wireshark (report/pie-extcap) with tshark. Each arrival must be one packet. This
script reads its time, size, bytes, verdict and probability from the history's records, and its cause and delay from
`pie explain` over the whole history. Two examples are complete. Two histories grow while tshark captures them, with
wall-clock times that change, flows, and lost events. A pie that writes another number or word must be found. Then
faults, and the answers to Wireshark's questions.

usage: tests/report/extcap.py [PROGRAM]      PROGRAM: crates/pie/out/pie by default
needs: program
"""
import csv
import gzip
import io
import os
import re
import shutil
import signal
import subprocess
import sys
import tempfile
import threading
from pathlib import Path

sys.path.insert(0, f"{os.path.dirname(os.path.abspath(__file__))}/../shared")
from checks import NAME, ROOT, check, finish, program  # noqa: E402

PROGRAM = program()
EXTCAP = ROOT / "report/pie-extcap"
PATIENCE = 600  # seconds after which a capture hangs, on however slow a machine
FIELDS = ["frame.time_epoch", "frame.len", "frame.comment", "data", "ip.src", "ip.dst", "ipv6.src", "ipv6.dst", "ip.proto", "ipv6.nxt", "tcp.srcport",
          "tcp.dstport", "udp.srcport", "udp.dstport", "ip.dsfield.ecn", "ipv6.tclass.ecn"]
PRINT = ["-n", "-T", "fields", "-E", "separator=|", *(word for field in FIELDS for word in ("-e", field))]
ECN = {"not": "0", "ect1": "1", "ect0": "2", "ce": "3"}
# Flows by number: protocol, source, port, destination, port; and the number of the protocol.
FLOWS = {1: ("tcp", "10.0.0.1", "51234", "10.0.0.2", "443", "6"), 2: ("udp", "2001:db8::1", "5000", "2001:db8::2", "5001", "17"),
         3: ("icmp", "192.0.2.1", "", "192.0.2.2", "", "1"), 4: ("47", "2001:db8::7", "", "2001:db8::8", "", "47")}
CLOCKS = {0: "clock,0,1795550400000000000\n", 30: "clock,5,1795554000000000005\n", 60: "clock,0,1795550400123456789\n"}


def headers(flow, size, tag, ecn):
    """Returns the fields of a packet's bytes. Flow 5 is one that the file of flows does not have."""
    if flow not in FLOWS:
        return {"data": f"{tag:016x}{size:08x}"}
    protocol, source, port, destination, other, number = FLOWS[flow]
    ip, names = ("ipv6", ("ipv6.nxt", "ipv6.tclass.ecn")) if ":" in source else ("ip", ("ip.proto", "ip.dsfield.ecn"))
    found = {f"{ip}.src": source, f"{ip}.dst": destination, names[0]: number, names[1]: ECN[ecn]}
    return found | ({f"{protocol}.srcport": port, f"{protocol}.dstport": other} if port else {})


def wanted(text, whole):
    """Returns the packets of a history's arrivals: time in ns, size, comment, and the fields of the bytes. `whole` is
    the whole history without lost events."""
    done = subprocess.run([PROGRAM, "explain", "--all", "--csv"], input=whole, capture_output=True, text=True, check=True)
    told = {int(row["number"]): row for row in csv.DictReader(io.StringIO(done.stdout))}
    packets, number, now, probability, clock, lost = [], 0, 0, 0, (0, 0), ""
    for line in text.splitlines():
        kind, *row = line.split(",")
        if kind == "resume":
            number, now, probability = (int(row[place]) for place in (-31, -27, -26))
        elif kind == "clock":
            clock = (int(row[0]), int(row[1]))
        elif kind == "lost":
            lost = f" lost_before={row[0]}"
        if kind not in ("arrive", "depart", "update", "reset", "params"):
            continue
        number, now = number + 1, max(now, int(row[1]))
        if kind == "update":
            probability = int(row[3])
        elif kind == "arrive":
            tag, size, ecn, verdict = int(row[2]), int(row[3]), row[4], row[6]
            comment = (f"verdict={verdict} cause={told[number]['cause']} delay={int(told[number]['delay']) / 1e6:.6f}ms "
                       f"probability={probability / 1e10:.10f}% event={number} tag={tag} ecn={ecn}{lost}")
            packets.append((clock[1] + now - clock[0], size, comment, headers(tag >> 32, size, tag, ecn)))
            lost = ""
    return packets


def differences(lines, packets):
    """Returns the differences between tshark's lines and the packets that are wanted."""
    if len(lines) != len(packets):
        return [f"{len(lines)} packets, wanted {len(packets)}"]
    different = []
    for line, (time, size, comment, fields) in zip(lines, packets):
        found = dict(zip(FIELDS, line.rstrip("\n").split("|")))
        fields = {"frame.time_epoch": f"{time // 10**9}.{time % 10**9:09d}", "frame.len": str(size), "frame.comment": comment, **fields}
        different += [f"{field}: {found.get(field)!r}, wanted {fields.get(field, '')!r}" for field in FIELDS if found.get(field) != fields.get(field, "")]
    return different


def extcap_to(out, history, *words, using=PROGRAM):
    """Captures a history to its end in a new file. Returns the status and standard error."""
    every = [EXTCAP, "--capture", "--extcap-interface", "pie", "--extcap-version=4.0", "--fifo", out, "--history", history, "--once", "--pie", using]
    done = subprocess.run([*every, *words], capture_output=True, text=True, check=False)
    return done.returncode, done.stderr


def extcap(history, out, *words, using=PROGRAM):
    """Captures a history to its end in a file that may exist. Returns the status and standard error."""
    return extcap_to(out, history, "--force", *words, using=using)


def reason(history):
    """Returns the reason of `pie audit` for a history, without its name, but with that in a command."""
    told = subprocess.run([PROGRAM, "audit", history], capture_output=True, text=True, check=False).stderr.rstrip("\n")
    told = told.replace(f"pie: {history} is", f"pie: {history}: {history} is")
    return re.sub(f"^pie: (?:{re.escape(str(history))}: )?", "", told, flags=re.M).replace(f" of {history}", "")


def read(out):
    return subprocess.run(["tshark", "-r", out, *PRINT], capture_output=True, text=True, check=False).stdout.splitlines()


def hold_stored(folder):
    """Two complete histories, and programs that lie about one: each changes a field of the explanations of drops."""
    for name in ("marks", "overload"):
        history = ROOT / f"examples/{name}.history"
        packets, out = wanted(history.read_text(), history.read_text()), folder / f"{name}.pcapng"
        check(extcap(history, out) == (0, ""), f"{name}: the capture failed")
        found = differences(read(out), packets)
        check(packets and not found, f"{name}:", found[:3])
    lies = {"number": "$1 = 7", "time": "$5 = 7", "tag": "$6 = 7", "size": "$7 = 7", "verdict": '$8 = "enqueue"', "cause": '$9 = "picked_by_sum"',
            "delay": "$12 = 7", "probability": "$13 = 7", "field": '$16 = "ce"', "packet": "next", "nothing": "$1 = $1"}
    for name, script in lies.items():
        liar, out = folder / "liar", folder / "lie.pcapng"
        liar.write_text(f"""#!/bin/sh\n'{PROGRAM}' "$@" | if [ "$1" = explain ]; then awk -F, -v OFS=, '$8 == "early" {{ {script} }} 1'; else cat; fi\n""")
        liar.chmod(0o755)
        extcap(history, out, using=liar)
        check(bool(differences(read(out), packets)) == (name != "nothing"), f"a pie that lies about the {name}")


def flowing():
    """Returns a history with flows, and wall-clock times that change."""
    trace = "open3,1,stamp,derandomized,capped,unscaled,rolling,0,50,64,100000\n"
    for at in range(90):
        tag = (1 + at % 5 if at > 30 else 1) << 32 | at + 1
        trace += CLOCKS.get(at, "") + f"arrive,1,{at * 10**6},{tag},{1500 - at},{('not', 'ect0', 'ect1')[at % 3]},{at}\n"
        trace += f"depart,2,{at * 10**6 + 5}\nshow\n" if at % 2 else ""
        trace += f"update,3,{at * 10**6 + 7}\n" if at % 15 == 14 else ""
    return subprocess.run([PROGRAM, "run"], input=trace, capture_output=True, text=True, check=True).stdout


def with_lost(text):
    """Returns a history with notes in whose middle events were lost: an excerpt from a later event on follows."""
    events = [line for line in text.splitlines(True) if line.startswith(("arrive,", "depart,", "update,"))]
    before = text[:text.index(events[400])]
    rest = subprocess.run([PROGRAM, "cut", "--event", "700", "--around", "200"], input=text, capture_output=True, text=True, check=True).stdout
    noted = before.replace("\nupdate,", "\nshown,1,2,3,4,5,6,7,8,9,10,0\nfolded,3\nrefused,7,1\nupdate,")
    return f"{noted}lost,99\n{rest}"


def user(folder):
    """Returns the words before a tshark that asks the copy of pie-extcap in this folder: it does not ask a folder of
    the environment for root. Returns None if nobody can capture."""
    place = folder / "extcap"
    place.mkdir()
    shutil.copy(EXTCAP, place)
    shutil.copy(PROGRAM, folder / "pie")
    (folder / "home").mkdir()
    folder.chmod(0o755)
    words = ["env", f"HOME={folder}/home", f"PATH={folder}:/usr/bin:/bin", f"WIRESHARK_EXTCAP_DIR={place}"]
    if os.getuid() == 0:
        (folder / "home").chmod(0o777)
        words = ["setpriv", "--reuid=65534", "--regid=65534", "--clear-groups", *words]
    done = subprocess.run([*words, "dumpcap", "-v"], capture_output=True, check=False)
    return words if done.returncode == 0 else None


def hold_growing(name, text, whole, folder, words):
    """Captures a history that grows: it is written in pieces that end within a line or after a `clock` record, and
    tshark must print the packets of each piece before the next is written."""
    history, flows = folder / f"{name}.history", folder / f"{name}.flows"
    rows = [f"0x{number:08x},{','.join(flow[:5])}\n" for number, flow in FLOWS.items()]
    history.touch()
    flows.write_text("flow,protocol,source,source_port,destination,destination_port\n" + rows[0] + rows[1][:9])
    ends = sorted({*(len(text) * part // 7 for part in range(1, 8)), *(found.end() for found in re.finditer("^clock.*\n", text, re.M))})
    options = [word for option, value in (("history", history), ("flows", flows)) for word in ("-o", f"extcap.pie.{option}:{value}")]
    packets, read_before = wanted(text, whole), 0
    with subprocess.Popen([*words, "tshark", "-l", "-i", "pie", *options, *PRINT], stdout=subprocess.PIPE, stderr=subprocess.PIPE, text=True) as tshark:
        watch = threading.Timer(PATIENCE, tshark.kill)
        watch.start()
        with open(history, "a", encoding="ascii") as out:
            for begin, end in zip([0, *ends], ends):
                if begin == ends[1]:
                    with open(flows, "a", encoding="ascii") as more:  # (each flow is there before its first packet)
                        more.write("".join(rows)[len(rows[0]) + 9:])
                out.write(text[begin:end])
                out.flush()
                there = text[:text.rfind("\n", 0, end) + 1].count("\narrive,")
                lines = [tshark.stdout.readline() for _ in range(there - read_before)]
                found = differences([line for line in lines if line], packets[read_before:there])
                check(not found, f"{name}, at byte {end}:", found[:3])
                read_before = there
        tshark.send_signal(signal.SIGINT)
        check(tshark.stdout.read() == "" and tshark.wait() == 0, f"{name}: more packets, or the status is {tshark.returncode}")
        watch.cancel()
    check(read_before == len(packets) and read_before > 80, f"{name}: {read_before} packets")


def hold_answers(words):
    """Wireshark's questions, and faults."""
    listed = subprocess.run([*words, "tshark", "-D"], capture_output=True, text=True, check=False).stdout
    check("pie (Arrivals of a PIE queue)" in listed, "the interfaces are", listed)
    links = subprocess.run([*words, "tshark", "-i", "pie", "-L"], capture_output=True, text=True, check=False)
    check("USER0" in links.stdout + links.stderr, "the link types are", links.stdout, links.stderr)


def hold_failures(folder, words):
    """A capture that cannot begin: tshark waits for its pipe, so it must end and have the reason. A name that begins with
    a dash is a mistake in the arguments."""
    for history, says in (("-x", "argument --history: expected one argument"), (folder / "none", "No such file or directory"), (folder, "Is a directory")):
        done = subprocess.run(["timeout", str(PATIENCE), *words, "tshark", "-i", "pie", "-o", f"extcap.pie.history:{history}"], capture_output=True, text=True,
                              check=False)
        check(done.returncode != 124 and says in done.stderr, f"a capture of {history} ends with", done.returncode, done.stderr)


def hold_faults(folder):
    history, out = ROOT / "examples/overload.history", folder / "fault.pcapng"
    text = history.read_text()
    packets = wanted(text, text)
    early = next(place for place, packet in enumerate(packets) if "early" in packet[2])
    number = int(re.search(r"event=(\d+)", packets[early][2])[1])
    for name, changed, status, last, count in (("differs", text.replace(",early\n", ",enqueue\n", 1), 2, number - 1, early),
                                               ("fault", text.replace("\ndepart", "\ndep", 1), 1, 2, 2), ("no history", "a,b\n", 1, 0, 0)):
        (folder / "changed").write_text(changed)
        done = extcap(folder / "changed", out)
        check(done == (status, f"pie-extcap: {folder}/changed: the capture ends after event {last}: {reason(folder / 'changed')}\n"), f"{name}: {done}")
        found = differences(read(out), packets[:count])
        check(not found, f"{name}: packets before it:", found[:3])
    # the reason has two lines; a fault in a note is one too; the number of a line after lost events is that of the part
    (folder / "gzip").write_bytes(gzip.compress(text.encode()))
    (folder / "note").write_text(f"{text}shown,x\n")
    before, _, after = with_lost(text).partition("lost,99\n")
    (folder / "later").write_text(f"{before}lost,99\n" + after.replace("\nupdate,3,", "\nupdate,x,", 1))
    (folder / "steps").write_text((ROOT / "tests/rows/linux_steps.csv").read_text())
    for name, says in (("gzip", f"the capture ends after event 0: the first record is not an open record\n{folder}/gzip is compressed by gzip; "
                                f"zcat {folder}/gzip | pie audit .. reads it"),
                       ("note", f"record {text.count(chr(10)) + 1}: wrong number of fields\nline {text.count(chr(10)) + 1}: 2 fields; shown has 12"),
                       ("steps", "a text of pie-watch; a capture needs a history")):
        done = extcap(folder / name, out)
        check(done == (1, f"pie-extcap: {folder}/{name}: {says}\n"), f"{name}: {done}")
    status, told = extcap(folder / "later", out)
    lines = (folder / "later").read_text().splitlines()
    at = lines.index("lost,99") + 1
    bad = next(place for place, line in enumerate(lines) if line.startswith("update,x,")) + 1 - at
    check(status == 1 and f"\nline {bad}, field 2 (" in told and told.endswith(f"(from line {at + 1} on, which is line 1 and record 1 here)\n"), f"after lost events: {told}")
    for words, says in (([folder / "none", out], f"{folder}/none: No such file or directory"), ([history, folder / "none/a"], f"{folder}/none/a: No such file or directory"),
                        (["", out], "name the history"), ([history, out, "--extcap-capture-filter", "tcp"], "there are no capture filters; use a display filter"),
                        ([history, out, "--flows", folder / "none"], f"{folder}/none: No such file or directory"),
                        ([history, out, "--flows", folder / "changed"], f"{folder}/changed: a row is not a flow"),
                        ([history, out, "--pie", folder / "none"], f"{folder}/none: No such file or directory"),
                        ([history, out, "--extcap-interface", "eth0"], "there is no interface eth0, only pie"),
                        ([history, out, "--every"], "unrecognized arguments: --every; see --help")):
        done = extcap(*words)
        check(done == (1, f"pie-extcap: {says}\n"), done)
    # without --force no file is replaced; a pipe, a device and a new file are written
    kept, link, new = folder / "capture", folder / "dangling", folder / "new"
    kept.write_text("a capture")
    link.symlink_to(folder / "missing")
    for to in (kept, link):
        done = extcap_to(to, history)
        check(done == (1, f"pie-extcap: {to}: the file exists; --force replaces it\n"), f"{to}: {done}")
    check(kept.read_text() == "a capture" and not (folder / "missing").exists(), "a capture was overwritten")
    check(extcap_to(new, history) == (0, "") and extcap_to("/dev/null", history) == (0, ""), "a new file and a device are outputs")
    check(extcap(history, kept) == (0, "") and kept.read_bytes() == new.read_bytes(), "--force replaces a file")
    # an output never replaces an input
    kept = folder / "kept"
    kept.write_text(text)
    for words in ((kept, kept), (history, kept, "--flows", kept)):
        done = extcap(*words)
        check(done == (1, f"pie-extcap: {kept}: an input cannot be the output\n") and kept.read_text() == text, f"{words}: {done}")


def main():
    if shutil.which("tshark") is None:
        print(f"NOT RUN: {NAME}: no tshark here, so no capture was read (tests/install.sh report)")
        return finish()
    with tempfile.TemporaryDirectory() as place:
        folder = Path(place)
        hold_stored(folder)
        hold_faults(folder)
        words = user(folder)
        if words is None:
            print(f"NOT RUN: {NAME}: dumpcap does not run for other users here, so tshark asked no pie-extcap")
            return finish()
        hold_answers(words)
        hold_failures(folder, words)
        history, overload = flowing(), (ROOT / "examples/overload.history").read_text()
        hold_growing("flows", history, history, folder, words)
        hold_growing("lost", with_lost(overload), overload, folder, words)
    return finish()


main()
