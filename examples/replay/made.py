#!/usr/bin/env python3
"""Makes a capture for a first replay: three seconds of UDP from 198.51.100.1 to 192.0.2.1 at 60
Mbit/s on average, with periods above and below that rate, and some answers. Packets have 100 to
1500 bytes, and half of them are ECT(0).

usage: examples/replay/made.py FILE"""
import random
import struct
import sys

START = 1_700_000_000  # seconds since 1970
HERE, THERE = bytes([198, 51, 100, 1]), bytes([192, 0, 2, 1])


def packet(source, target, size, ecn):
    """Returns an Ethernet frame with an IPv4 packet of UDP that has this number of bytes."""
    ip = struct.pack(">BBHHHBBH", 0x45, ecn, size, 0, 0, 64, 17, 0) + source + target
    return bytes(12) + b"\x08\x00" + (ip + struct.pack(">HHHH", 1000, 2000, size - 20, 0)).ljust(size, b"x")


def main():
    draw, moment = random.Random(1), 0.0
    with open(sys.argv[1], "wb") as file:
        file.write(struct.pack("<IHHiIII", 0xA1B23C4D, 2, 4, 0, 0, 262144, 1))  # pcap with nanoseconds, of Ethernet
        while moment < 3:
            size, is_answer = draw.randrange(100, 1501), draw.random() < 0.1
            frame = packet(THERE, HERE, 60, 0) if is_answer else packet(HERE, THERE, size, draw.choice((0, 2)))
            file.write(struct.pack("<IIII", START + int(moment), int(moment % 1 * 1e9), len(frame), len(frame)) + frame)
            if not is_answer:
                moment += draw.expovariate(1) * size * 8 / (80e6 if moment % 1 < 0.6 else 30e6)


main()
