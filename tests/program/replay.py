#!/usr/bin/env python3
"""Replays captures that the script makes (examples/replay): pcap and pcapng, each link type, IPv4 and IPv6, VLAN
tags, super-packets. Each history must be clean, its arrivals must be the packets of the capture, and the capture
with comments must have the same frames. A broken capture must end with one line, after the output of the frames
before it. No output may be the capture or another output, or replace an existing file unasked. Prints a line NOT RUN
if libpcap or a C compiler is missing.

usage: tests/program/replay.py [PIE]      PIE: crates/pie/out/pie by default
needs: program, library"""
import ipaddress
import os
import random
import shutil
import struct
import subprocess
import sys
import tempfile
import time
from collections import Counter
from pathlib import Path

ME = "tests/program/replay.py"
TOP = Path(__file__).resolve().parent.parent.parent
PIE = Path(sys.argv[1]).resolve() if len(sys.argv) > 1 else TOP / "crates/pie/out/pie"
FOLDER = TOP / "examples/replay"
START = 1_700_000_000_123_456_789  # ns since 1970
ECN = ["not", "ect1", "ect0", "ce"]
ETHERNET, RAW, SLL, SLL2, IPV4, IPV6, BLUETOOTH = 1, 101, 113, 276, 228, 229, 201


def ipv4(size, ecn, protocol=17, total=None):
    hosts = bytes([192, 0, 2, 1, 198, 51, 100, 1])
    head = struct.pack(">BBHHHBBH8s", 0x45, ecn, size if total is None else total, 1, 0, 64, protocol, 0, hosts)
    return (head + transport(protocol)).ljust(size, b"x")[:size]


def ipv6(size, ecn, protocol=17, total=None):
    length = size - 40 if total is None else total
    head = struct.pack(">IHBB16s16s", 6 << 28 | ecn << 20, length, protocol, 64, bytes(15) + b"\1", bytes(15) + b"\2")
    return (head + transport(protocol)).ljust(size, b"x")[:size]


def transport(protocol):
    """Returns the header of UDP, or that of TCP with 12 bytes of options."""
    return struct.pack(">HHHH", 1000, 2000, 8, 0) if protocol == 17 else struct.pack(">HHIIBBHHH", 1, 2, 3, 4, 8 << 4, 16, 100, 0, 0) + bytes(12)


def frame(link, packet, tags=0):
    kind = struct.pack(">H", 0x86DD if packet[0] >> 4 == 6 else 0x0800)
    if link == ETHERNET:
        vlans = b"".join(struct.pack(">HH", 0x88A8 if i == 0 and tags > 1 else 0x8100, 7) for i in range(tags))
        return bytes(12) + vlans + kind + packet
    return {SLL: bytes(14) + kind, SLL2: kind + bytes(18)}.get(link, b"") + packet


def pcap(link, frames, snap=262144, order="<", nano=True):
    """Returns the bytes of a pcap file: frames are moments in ns from the start, and bytes."""
    out = struct.pack(order + "IHHiIII", 0xA1B23C4D if nano else 0xA1B2C3D4, 2, 4, 0, 0, snap, link)
    for moment, data in frames:
        second, rest = divmod(START + moment, 10**9)
        out += struct.pack(order + "IIII", second, rest if nano else rest // 1000, min(len(data), snap), len(data)) + data[:snap]
    return out


def block(kind, body):
    size = 12 + len(body)
    return struct.pack("<II", kind, size) + body + struct.pack("<I", size)


def pcapng(links, frames):
    """Returns a pcapng file with one interface for each of these link types, used in turn. The first interface has
    times in ns, the others in us."""
    out = block(0x0A0D0D0A, struct.pack("<IHHq", 0x1A2B3C4D, 1, 0, -1))
    for number, link in enumerate(links):
        option = struct.pack("<HHB3xHH", 9, 1, 9, 0, 0) if number == 0 else b""
        out += block(1, struct.pack("<HHI", link, 0, 262144) + option)
    for number, (moment, data) in enumerate(frames):
        interface = number % len(links)
        stamp = START + moment if interface == 0 else (START + moment) // 1000
        words = struct.pack("<IIIII", interface, stamp >> 32, stamp & 0xFFFFFFFF, len(data), len(data))
        out += block(6, words + data + bytes(-len(data) % 4))
    return out


def comments(data):
    """Returns the frames of a pcapng file in this machine's byte order, each with its moment, bytes and comment."""
    found, at = [], 0
    while at < len(data):
        kind, size = struct.unpack_from("=II", data, at)
        assert struct.unpack_from("=I", data, at + size - 4)[0] == size and size % 4 == 0
        if kind == 6:
            _, high, low, caught, _ = struct.unpack_from("=IIIII", data, at + 8)
            body, option, text = data[at + 28 : at + 28 + caught], at + 28 - caught // -4 * 4, ""
            if option < at + size - 4:
                code, length = struct.unpack_from("=HH", data, option)
                assert code == 1
                text = data[option + 4 : option + 4 + length].decode()
            found.append(((high << 32 | low) - START, body, text))
        at += size
    return found


def fail(why):
    sys.exit(f"{ME}: {why}")


def expect(is_so, why):
    if not is_so:
        fail(why)


class Tool:
    def __init__(self, work):
        self.work = work
        made = subprocess.run(["make", "-s", "-C", FOLDER, f"OUT={work}/out"], capture_output=True, text=True, check=False)
        expect(made.returncode == 0, f"examples/replay isn't built: {made.stdout}{made.stderr}")

    def run(self, data, *words, filter_words=(), stdin=False):
        """Replays a capture. Returns the status, the lines of its history, its audit, the frames with comments, and
        standard error."""
        for name in ("capture", "history", "commented"):
            (self.work / name).unlink(missing_ok=True)
        (self.work / "capture").write_bytes(data)
        place = "-" if stdin else self.work / "capture"
        line = [self.work / "out/replay", "-o", self.work / "history", "-w", self.work / "commented", *words, place, *filter_words]
        done = subprocess.run(line, input=data if stdin else None, capture_output=True, check=False)
        history, commented = self.work / "history", self.work / "commented"
        found = subprocess.run([PIE, "audit", history], capture_output=True, text=True, check=False).stdout.strip() if history.exists() else ""
        lines = history.read_text().splitlines() if history.exists() else []
        frames = comments(commented.read_bytes()) if commented.exists() else []
        return done.returncode, lines, found.rpartition(": ")[2].rpartition(":")[2].strip(), frames, done.stderr.decode()


def is_clean(lines, found):
    events = sum(line.split(",")[0] in ("arrive", "depart", "update") for line in lines)
    return found == f"clean,{events}"


def traffic(count, seed=5):
    """Returns packets of 48 to 1500 bytes at some 16.5 Mbit/s, with periods above and below that
    rate, as moments, bytes, sizes and ECN fields."""
    random_of, moment = random.Random(seed), 0
    for number in range(count):
        size, ecn = random_of.randrange(48, 1501), random_of.randrange(4)
        yield moment, (ipv4 if number % 3 else ipv6)(size, ecn, random_of.choice((6, 17)) if size > 100 else 17), size, ecn
        moment += size * (350 if number // 40 % 2 else 620) // 1000 * 1000


def arrivals(lines):
    return [line.split(",") for line in lines if line.startswith("arrive,")]


def each_kind(tool):
    """Checks each file and link type: the arrivals are the packets, at their moments; the history is clean."""
    packets = list(traffic(3000))
    first = None
    for name, make in {
        "Ethernet": lambda: pcap(ETHERNET, [(m, frame(ETHERNET, p)) for m, p, _, _ in packets]),
        "VLAN tags": lambda: pcap(ETHERNET, [(m, frame(ETHERNET, p, i % 3) + bytes(4)) for i, (m, p, _, _) in enumerate(packets)], order=">"),
        "cooked": lambda: pcap(SLL, [(m, frame(SLL, p)) for m, p, _, _ in packets], snap=120),
        "cooked, version two": lambda: pcap(SLL2, [(m, frame(SLL2, p)) for m, p, _, _ in packets]),
        "raw": lambda: pcap(RAW, [(m, p) for m, p, _, _ in packets]),
        "pcapng": lambda: pcapng([ETHERNET], [(m, frame(ETHERNET, p)) for m, p, _, _ in packets]),
        "pcapng of three interfaces": lambda: pcapng([ETHERNET] * 3, [(m, frame(ETHERNET, p)) for m, p, _, _ in packets]),
    }.items():
        exact = name != "pcapng of three interfaces"
        status, lines, found, frames, said = tool.run(make(), "--rate", "10mbit", "--ecn")
        expect(status == 0 and is_clean(lines, found), f"{name}: status {status}, {found}, {said}")
        told = [(int(it[2]), int(it[3]), int(it[4]), it[5]) for it in arrivals(lines)]
        wanted = [(m, i, size, ECN[ecn]) for i, (m, _, size, ecn) in enumerate(packets, 1)]
        if exact:
            expect(told == wanted, f"{name}: other arrivals than the capture's packets")
            expect(lines[1] == f"clock,0,{START}", f"{name}: another time of day: {lines[1]}")
            first = first or lines
            expect(lines == first, f"{name}: another history of the same packets")
        else:
            expect([it[1:] for it in told] == [it[1:] for it in wanted], f"{name}: other arrivals")
            expect(all(abs(a[0] - b[0]) < 1000 for a, b in zip(told, wanted)), f"{name}: arrivals at other moments")
        verdicts = {int(it[3]): it[7] for it in arrivals(lines)}
        expect(len(frames) == len(packets), f"{name}: not all frames come out")
        for number, (moment, _, text) in enumerate(frames, 1):
            expect((text != "") == (verdicts[number] != "enqueue"), f"{name}: frame {number}: the comment '{text}' at {verdicts[number]}")
            expect(abs(moment - packets[number - 1][0]) < 1000, f"{name}: frame {number} at another time")
        counted = Counter(verdicts.values())
        expect(counted["mark"] > 0 and counted["early"] > 0, f"{name}: {counted}")
    lost = tool.run(pcap(RAW, [(m, p) for m, p, _, _ in packets]), "--rate", "10mbit", "--seed", "2", stdin=True)
    expect(lost[0] == 0 and is_clean(lost[1], lost[2]) and lost[1] != first, "another seed from standard input")
    return len(first)


def flow_number(protocol, source, destination, ports=b""):
    """Returns the number of a flow as examples/README.md defines it: MurmurHash3 (x86, 32 bits)."""
    data, value = source + destination + ports, protocol
    for word in struct.unpack(f"<{len(data) // 4}I", data):
        word = word * 0xCC9E2D51 % 2**32
        value ^= (word << 15 | word >> 17) % 2**32 * 0x1B873593 % 2**32
        value = ((value << 13 | value >> 19) % 2**32 * 5 + 0xE6546B64) % 2**32
    value ^= len(data)
    value = (value ^ value >> 16) * 0x85EBCA6B % 2**32
    value = (value ^ value >> 13) * 0xC2B2AE35 % 2**32
    return value ^ value >> 16


def one_flow(version, protocol, hosts, ports, extensions=(), fragment=None, options=0):
    """Returns a packet of 200 bytes with these extension headers, or a fragment at this offset with or without more
    fragments, and the line that names its flow."""
    size, head = 4 if version == 4 else 16, struct.pack(">HH", *ports)
    source, destination = (bytes([10 if size == 4 else 0xFD]) + bytes(size - 2) + bytes([host]) for host in hosts)
    if version == 4:
        flags = 0 if fragment is None else 0x2000 if fragment == 0 else fragment // 8
        packet = struct.pack(">BBHHHBBH", 0x45 + options, 0, 200, 1, flags, 64, protocol, 0) + source + destination + bytes(4 * options) + head
    else:
        kinds, body = [*extensions, protocol], b""
        for kind, follows in zip(kinds, kinds[1:]):
            body += {44: struct.pack(">BBHI", follows, 0, (fragment or 0) & ~7 | 1, 5), 51: bytes([follows, 2]) + bytes(14)}.get(
                kind, bytes([follows, 1]) + bytes(14))
        packet = struct.pack(">IHBB", 6 << 28, 160, kinds[0], 64) + source + destination + body + head
    has_ports = protocol in (6, 17, 33, 132, 136) and fragment is None and 44 not in extensions
    number = flow_number(protocol, source, destination, head if has_ports else b"")
    texts = [str(ipaddress.ip_address(it)) for it in (source, destination)]
    name = {1: "icmp", 6: "tcp", 17: "udp", 50: "esp", 58: "ipv6-icmp", 132: "sctp"}.get(protocol, protocol)
    shown = ports if has_ports else ("", "")
    return packet.ljust(200, b"x"), number, f"0x{number:08x},{name},{texts[0]},{shown[0]},{texts[1]},{shown[1]}"


def flows(tool):
    """Checks --flows: a tag is the flow's number and the frame's below it, and the file has each flow once, in the order of their first packets."""
    made = [one_flow(4, 17, (1, 2), (5000, 53)), one_flow(4, 17, (2, 1), (53, 5000)), one_flow(4, 6, (1, 2), (5000, 53)),
            one_flow(4, 6, (1, 2), (5000, 53), options=3), one_flow(4, 17, (1, 2), (5000, 53), fragment=0),
            one_flow(4, 17, (1, 2), (7, 9), fragment=1480), one_flow(4, 1, (1, 2), (8, 0)), one_flow(4, 47, (1, 2), (1, 2)),
            one_flow(6, 17, (1, 2), (5000, 53)), one_flow(6, 132, (1, 2), (1, 65535)), one_flow(6, 17, (1, 2), (5000, 53), (0, 60, 43)),
            one_flow(6, 17, (1, 2), (5000, 53), (51,)), one_flow(6, 17, (1, 2), (5000, 53), (0, 44)), one_flow(6, 17, (3, 2), (4, 5), (44,), 800),
            one_flow(6, 58, (1, 2), (128, 0)), one_flow(6, 59, (1, 2), (0, 0))]
    random_of = random.Random(7)
    order = [*range(len(made)), *(random_of.randrange(len(made)) for _ in range(300))]
    frames = [(i * 10**6, frame(ETHERNET, made[it][0], i % 2)) for i, it in enumerate(order)]
    told = tool.work / "flows"
    _, lines, found, _, said = tool.run(pcap(ETHERNET, frames), "--flows", told, "--force")
    expect(is_clean(lines, found), f"flows: {found}, {said}")
    tags = [int(it[3]) for it in arrivals(lines)]
    expect(tags == [made[it][1] << 32 | i for i, it in enumerate(order, 1)], f"flows: other tags than {[hex(it) for it in tags[:20]]}")
    wanted = list(dict.fromkeys(it[2] for it in made))
    expect(len(wanted) == len(made) - 4 and told.read_text().splitlines() == ["flow,protocol,source,source_port,destination,destination_port", *wanted],
           f"flows: the file has {told.read_text()}")
    # cut before the ports: flows by addresses and protocol only, with one line for each
    _, lines, _, _, _ = tool.run(pcap(ETHERNET, frames[:1], snap=35), "--flows", told, "--force")
    expect(int(arrivals(lines)[0][3]) >> 32 == flow_number(17, made[0][0][12:16], made[0][0][16:20]), "flows: of a packet that is cut before its ports")
    flood = [(i * 10**5, frame(ETHERNET, made[0 if i % 4 else 2][0])) for i in range(400)]
    tool.run(pcap(ETHERNET, flood), "--flows", told, "--force", "--rate", "10mbit")
    words = subprocess.run([PIE, "explain", "--summary", "--flows", "1", tool.work / "history"], capture_output=True, text=True, check=False).stdout
    top = words.splitlines()[2]
    expect(top.startswith(f"  flow 0x{made[0][1]:08x}: 300 arrivals, 60000 bytes, 75.0000 % of all; "), f"flows: of a flood {words}")


def choices(tool):
    data = pcap(RAW, [(m, p) for m, p, _, _ in traffic(1500)])
    words = ["--dq_rate_estimator", "--no_derandomization", "--no_cap_drop_adjustment", "--bytemode", "--decay=half"]
    for number in range(32):
        for profile in "12":
            # (at this rate and threshold cycles of the departure rate open and end all the time)
            chosen = [it for i, it in enumerate(words) if number >> i & 1]
            swing = ["--rate", "16500kbit", "--dq_threshold", "1kb", "--tupdate", "2ms", "--limit", "9kb", "--ecn"]
            status, lines, found, _, said = tool.run(data, "--profile", profile, *swing, *chosen)
            expect(status == 0 and is_clean(lines, found), f"choices {number} of profile {profile}: {found}, {said}")


def filters(tool):
    arp = bytes(12) + struct.pack(">H", 0x0806) + bytes(28)
    mixed = [(i * 10**6, frame(ETHERNET, (ipv4 if i % 2 else ipv6)(200, 0))) for i in range(20)] + [(20 * 10**6, arp)]
    _, lines, found, frames, said = tool.run(pcap(ETHERNET, mixed), filter_words=["ip6", "and", "udp"])
    expect([int(it[3]) for it in arrivals(lines)] == list(range(1, 21, 2)) and is_clean(lines, found), "ip6 and udp")
    expect(len(frames) == 21 and "11 frames that the filter passed over" in said, said)
    said = tool.run(pcap(ETHERNET, mixed))[4]
    expect("1 frames without an IP packet" in said, said)
    status, _, _, _, said = tool.run(pcap(ETHERNET, mixed), filter_words=["no such filter"])
    expect(status == 1 and said.count("\n") == 1, said)


def super_packets(tool):
    """Checks a TCP packet of 4396 bytes with headers of 52, and an IPv6 one of 3000 with 72: split at 1500 they have 3 and 3 segments."""
    frames = [(0, ipv4(4396, 2, 6)), (10**6, ipv6(3000, 2, 6)), (2 * 10**6, ipv4(1500, 0, 6)), (3 * 10**6, ipv4(2000, 0, 6, total=0))]
    _, lines, found, _, said = tool.run(pcap(RAW, frames), "--split", "1500b")
    sizes = [(int(it[3]), int(it[4])) for it in arrivals(lines)]
    wanted = [(1, 1500), (1, 1500), (1, 1500), (2, 1500), (2, 1500), (2, 144), (3, 1500), (4, 1500), (4, 552)]
    expect(sizes == wanted and is_clean(lines, found) and "above 1500" not in said, f"super-packets: {sizes}")
    said = tool.run(pcap(RAW, frames))[4]
    expect("3 frames with packets above 1500 bytes" in said, said)


def broken(tool):
    good = [(m, frame(ETHERNET, p)) for m, p, _, _ in traffic(200)]
    whole = pcap(ETHERNET, good)
    ends = {
        "cut in a frame": whole[:-5],
        "cut in a frame's header": whole + b"\1\2\3",
        "a wrong length": whole + struct.pack("<IIII", START // 10**9 + 5, 0, 1 << 30, 1 << 30) + bytes(100),
        "a time stamp far ahead": whole + pcap(ETHERNET, [(3 * 86400 * 10**9, good[0][1])])[24:],
        "pcapng, cut": pcapng([ETHERNET], good)[:-7],
        "pcapng, two link types": pcapng([ETHERNET], good) + block(1, struct.pack("<HHI", SLL, 0, 262144)),
    }
    for name, data in ends.items():
        status, lines, found, frames, said = tool.run(data)
        expect(status == 1 and len(said.splitlines()) == 2, f"{name}: status {status}: {said}")
        least = 199 if "cut" in name else 200
        expect(is_clean(lines, found) and len(arrivals(lines)) >= least and len(frames) >= least, f"{name}: {found}, {len(arrivals(lines))} arrivals")
    for name, data in {"an unknown link type": pcap(BLUETOOTH, good), "no capture": b"no capture at all, but text", "nothing": b""}.items():
        status, lines, _, _, said = tool.run(data)
        expect(status == 1 and lines == [] and said.count("\n") == 1, f"{name}: status {status}: {said}")
    odd = [ipv4(100, 0, total=10), ipv4(100, 0, total=101), ipv6(100, 0, total=61), bytes([0x42]) + ipv4(100, 0)[1:], ipv4(19, 0), bytes([0x45])]
    status, lines, found, _, said = tool.run(pcap(ETHERNET, [(i, frame(ETHERNET, p)) for i, p in enumerate(odd)] + [(9, b"short")]))
    expect(status == 0 and arrivals(lines) == [] and "6 frames with lengths that can't be" in said, said)
    expect("1 frames that were captured too short" in said, said)
    late = [(5 * 10**6, ipv4(99, 0)), (10**6, ipv4(98, 0)), (6 * 10**6, ipv4(97, 0))]
    _, lines, found, _, said = tool.run(pcap(RAW, late))
    expect(is_clean(lines, found) and [it[2] for it in arrivals(lines)] == ["0", "0", "1000000"] and "1 frames earlier" in said, said)


def random_bytes(tool, rounds=150):
    """Tries captures with changed bytes: the program must end by itself, and its output must be clean."""
    random_of = random.Random(3)
    for number in range(rounds):
        kind = random_of.choice((lambda it: pcap(ETHERNET, it), lambda it: pcapng([ETHERNET] * 2, it)))
        data = bytearray(kind([(m, frame(ETHERNET, p)) for m, p, _, _ in traffic(30, number)]))
        for _ in range(random_of.randrange(1, 20)):
            data[random_of.randrange(len(data))] = random_of.randrange(256)
        status, lines, found, _, said = tool.run(bytes(data))
        expect(status in (0, 1) and (lines == [] or is_clean(lines, found)), f"changed bytes {number}: status {status}, {found}, {said}")


def outputs(tool):
    """Checks the rule about outputs: none is the capture or another output, under whatever name; an existing file is
    replaced with --force only, and keeps its mode; a file has its name when it is complete."""
    folder = tool.work / "outputs"
    folder.mkdir()
    data = pcap(ETHERNET, [(m, frame(ETHERNET, p)) for m, p, _, _ in traffic(200)])
    capture = folder / "capture"
    capture.write_bytes(data)
    (folder / "link").symlink_to(capture)
    (folder / "other").hardlink_to(capture)
    (folder / "there").write_text("kept")
    os.chmod(folder / "there", 0o640)
    (folder / "nowhere").symlink_to("missing")
    before = sorted(os.listdir(folder))

    def run(*words, source=None):
        return subprocess.run([tool.work / "out/replay", *words], cwd=folder, stdin=source, capture_output=True, text=True, check=False)

    def refused(why, *words, source=None):
        done = run(*words, source=source)
        expect(done.returncode == 1 and done.stderr.count("\n") == 1 and why in done.stderr, f"outputs {words}: {done.returncode}, {done.stderr}")
        expect(capture.read_bytes() == data and sorted(os.listdir(folder)) == before and (folder / "there").read_text() == "kept",
               f"outputs {words}: a file was changed")

    for name in ("capture", "./capture", capture, "link", "other", "../outputs/capture"):
        for option in ("-w", "-o", "--flows"):
            refused("also an input", option, name, "--force", "capture")
    with open(capture, "rb") as source:
        refused("also an input", "-w", "capture", "--force", "-", source=source)
    for one, other in (("-o", "-w"), ("-o", "--flows"), ("-w", "--flows")):
        refused("two outputs", one, "new", other, "./new", "capture")
        refused("two outputs", one, "there", other, "there", "--force", "capture")
    for option in ("-o", "-w", "--flows"):
        refused("exists", option, "there", "capture")
        refused("exists", option, "nowhere", "capture")
        refused("No such file", option, "no/folder", "capture")
    done = run("-o", "/dev/null", "-w", "/dev/null", "--flows", "/dev/null", "capture")
    expect(done.returncode == 0 and sorted(os.listdir(folder)) == before, f"outputs to a device: {done.stderr}")
    done = run("-o", "there", "--force", "capture")
    expect(done.returncode == 0 and (folder / "there").read_text().startswith("open") and sorted(os.listdir(folder)) == before,
           f"outputs: an existing file with --force: {done.stderr}")
    expect((folder / "there").stat().st_mode & 0o777 == 0o640, "outputs: a replaced file has another mode")
    with open("/dev/full", "w", encoding="utf-8") as full:
        done = subprocess.run([tool.work / "out/replay", "capture"], cwd=folder, stdout=full, stderr=subprocess.PIPE, text=True, check=False)
    expect(done.returncode == 1 and "No space left" in done.stderr, f"outputs: a full device: {done.stderr}")
    # while the capture is read, the outputs have other names
    names = ("new", "new.pcapng", "new.flows")
    line = [tool.work / "out/replay", "-o", names[0], "-w", names[1], "--flows", names[2], "-"]
    with subprocess.Popen(line, cwd=folder, stdin=subprocess.PIPE, stderr=subprocess.PIPE) as process:
        process.stdin.write(data[:-1])
        process.stdin.flush()
        while not all((folder / f"{name}.partial").exists() for name in names) and process.poll() is None:
            time.sleep(0.01)
        expect(not any((folder / name).exists() for name in names), "outputs: an incomplete file has its name")
        (folder / names[1]).write_text("mine")
        process.stdin.write(data[-1:])
        process.stdin.close()
        said = process.stderr.read().decode()
        expect(process.wait() == 1 and "File exists; the incomplete output is in new.pcapng.partial" in said, f"outputs: a name that appeared: {said}")
    expect((folder / names[1]).read_text() == "mine" and (folder / names[0]).exists() and (folder / names[2]).exists(), "outputs: other names")


def main():
    if not shutil.which(os.environ.get("CC", "cc")) or not shutil.which("make") or not Path("/usr/include/pcap/pcap.h").exists():
        print(f"NOT RUN: {ME}: no C compiler, make and libpcap here (tests/install.sh examples/replay)")
        return
    with tempfile.TemporaryDirectory() as folder:
        tool = Tool(Path(folder))
        records = each_kind(tool)
        flows(tool)
        choices(tool)
        filters(tool)
        super_packets(tool)
        broken(tool)
        random_bytes(tool)
        outputs(tool)
    print(f"{ME}: histories of replayed captures are clean ({records} records each, of 7 kinds of capture), and broken captures end with one line")


main()
