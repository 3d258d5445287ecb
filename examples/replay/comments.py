#!/usr/bin/env python3
"""Writes a capture as pcapng, with the explanation of `pie explain` as the comment of each packet
that was lost or marked. Wireshark shows the comments, and `tshark -T fields -e frame.comment`
prints them.

usage: examples/replay/comments.py [--force] PIE HISTORY CAPTURE FILE
  PIE      the built program;  FILE: the new capture;  --force: replace FILE if it exists
  HISTORY  a history of replay, whose tags are the frames' numbers; or of examples/link, whose tags count the arrivals
  CAPTURE  pcap or pcapng: the capture that replay read, or one by `tcpdump --direction=out -i DEVICE -w CAPTURE` at the
           link's first device from its start on"""
import re
import shlex
import struct
import subprocess
import sys
from pathlib import Path

sys.dont_write_bytecode = True
sys.path.insert(0, str(Path(__file__).resolve().parents[2] / "report"))
from outputs import OutputError, check_outputs, output_file  # noqa: E402

MAGIC = {0xA1B2C3D4: 1000, 0xA1B23C4D: 1}       # ns of a unit of the time stamps
SECTION, INTERFACE, OLD_PACKET, SIMPLE_PACKET, PACKET = 0x0A0D0D0A, 1, 2, 3, 6  # blocks of pcapng
SECTION_MAGIC = 0x1A2B3C4D
END, COMMENT, RESOLUTION, NANOSECONDS = 0, 1, 9, 9  # options


def padded(data):
    return data + bytes(-len(data) % 4)


def option(order, code, data=b""):
    return struct.pack(order + "HH", code, len(data)) + padded(data)


def block(order, kind, body):
    size = len(body) + 12
    return struct.pack(order + "II", kind, size) + body + struct.pack(order + "I", size)


def order_of(data, magics):
    """Returns the byte order in which the first four bytes are one of these numbers, or None."""
    return next((order for order in "<>" if len(data) >= 4 and struct.unpack(order + "I", data[:4])[0] in magics), None)


def blocks_of_pcap(data):
    """Yields the byte order, kind and body of the blocks of pcapng that represent a pcap."""
    order = order_of(data, MAGIC)
    unit, link = MAGIC[struct.unpack(order + "I", data[:4])[0]], struct.unpack(order + "I", data[20:24])[0] & 0xFFFF
    yield "<", SECTION, struct.pack("<IHHq", SECTION_MAGIC, 1, 0, -1)
    yield "<", INTERFACE, struct.pack("<HHI", link, 0, 0) + option("<", RESOLUTION, bytes([NANOSECONDS])) + option("<", END)
    place = 24
    while place + 16 <= len(data):
        seconds, part, caught, length = struct.unpack(order + "IIII", data[place:place + 16])
        frame, moment = data[place + 16:place + 16 + caught], seconds * 10**9 + part * unit
        yield "<", PACKET, struct.pack("<IIIII", 0, moment >> 32, moment & 0xFFFFFFFF, len(frame), length) + padded(frame)
        place += 16 + caught


def blocks_of_pcapng(data):
    """Yields the byte order, kind and body of each whole block. A section may have another byte order than the one
    before."""
    place, order = 0, "<"
    while place + 12 <= len(data):
        if data[place:place + 4] == struct.pack("<I", SECTION):  # (the same bytes in both orders)
            order = order_of(data[place + 8:place + 12], {SECTION_MAGIC}) or "<"
        kind, size = struct.unpack(order + "II", data[place:place + 8])
        if size < 12 or size % 4 or place + size > len(data):
            return
        yield order, kind, data[place + 8:place + size - 4]
        place += size


def commented(order, kind, body, comment, most):
    """Returns the kind and the body of a packet's block with this comment, before the options that it has. A simple
    packet has no options, so it becomes a packet at moment 0; its first `most` bytes were captured."""
    if kind == SIMPLE_PACKET:
        length = struct.unpack(order + "I", body[:4])[0]
        caught = min(length, most, len(body) - 4)
        kind, body = PACKET, struct.pack(order + "IIIII", 0, 0, 0, caught, length) + padded(body[4:4 + caught])
    end = 20 + len(padded(bytes(struct.unpack(order + "I", body[12:16])[0])))
    return kind, body[:end] + option(order, COMMENT, comment.encode()) + (body[end:] or option(order, END))


def reason(told, history):
    """Returns the lines of pie about its standard input as lines about a history."""
    lines = re.sub("^(pie: )?(/dev/stdin: )?", "", told.strip(), flags=re.M).replace(" of /dev/stdin,", ",").replace(" of /dev/stdin:", ":")
    return lines.replace("/dev/stdin", shlex.quote(history))


def explanations(program, history):
    """Returns the explanation of each packet that was lost or marked, by the lower 32 bits of its
    tag."""
    said = {}
    with open(history, "rb") as file:
        if file.read(7).removeprefix(b"\xef\xbb\xbf").startswith(b"qid,"):
            raise OutputError(f"{history}: a text of pie-watch does not have the numbers of frames; take a history of replay or of the link")
    for which in ("--lost", "--marked"):
        with open(history, "rb") as file:
            done = subprocess.run([program, "explain", which, "/dev/stdin"], stdin=file, capture_output=True, text=True, check=False)
        if done.returncode:
            raise OutputError(f"{history}: {reason(done.stderr, history)}")
        parts = re.split(r"^(?=event )", done.stdout, flags=re.M)
        said |= {int(re.match(r"event \d+: packet (\d+),", part)[1]) & 0xFFFFFFFF: part.rstrip("\n") for part in parts if part.startswith("event ")}
    return said


def write(program, history, capture, to, is_forced):
    """Writes the new capture. Returns a message if the capture lacks frames, and otherwise None."""
    check_outputs([to], [history, capture], lambda name: is_forced)
    said = explanations(program, history)
    with open(capture, "rb") as file:
        data = file.read()
    if order_of(data, MAGIC) is None and order_of(data, {SECTION}) is None:
        raise OutputError(f"{capture}: neither pcap nor pcapng")
    number, most = 0, 0
    with output_file(to, is_forced) as out:
        for order, kind, body in blocks_of_pcap(data) if order_of(data, MAGIC) else blocks_of_pcapng(data):
            if kind == INTERFACE:
                most = struct.unpack(order + "I", body[4:8])[0] or 0xFFFFFFFF
            if kind in (OLD_PACKET, SIMPLE_PACKET, PACKET):
                number += 1
                if number in said:
                    kind, body = commented(order, kind, body, said[number], most)
            out.write(block(order, kind, body))
    missing = sorted(set(said) - set(range(1, number + 1)))
    return f"the capture has {number} frames, and the history lost or marked packet {missing[0]}" if missing else None


def main():
    words = [word for word in sys.argv[1:] if word != "--force"]
    if len(words) != 4:
        sys.exit(__doc__.split("\n\n")[1])
    try:
        fault = write(*words, "--force" in sys.argv[1:])
    except (OutputError, OSError) as why:
        fault = why
    if fault:
        sys.exit(f"examples/replay/comments.py: {fault}")


main()
