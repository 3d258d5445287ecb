#!/usr/bin/env python3
"""Compares columns of pie-watch's texts that follow from other rows, without the rules of the controller: packets and bytes with those that the device
returned, the memory of fq_pie, the flow of a packet, the state before a step, the limit, and the packets that a change dropped. It has no code in common
with `pie audit`.

Prints a line for each queue with the number of its rows, of rows with returned packets, of drops by a change, and the first difference.

usage: bindings/linux/columns.py FILE.."""
import csv
import sys
from collections import deque
from pathlib import Path

VARS = ["qdelay", "qdelay_old", "burst_time", "dq_tstamp", "prob", "accu_prob", "dq_count", "avg_dq_rate", "backlog_old"]
COUNTERS = ["packets_in", "dropped", "overlimit", "ecn_mark", "maxq"]
UNSET = 2**64 - 1
NEW = dict(zip(VARS, [0, 0, 150_000_000 // 64, UNSET, 0, 0, UNSET, 0, 0]))
TAGS = ("8100", "88a8")


class Row:
    def __init__(self, fields):
        self.fields = fields

    def __getattr__(self, name):
        return int(self.fields[name])

    def state(self, letter):
        return {name: int(self.fields[f"{letter}_{name}"]) for name in VARS}


class Queue:
    """A queue after a row: its packets (length, memory, moment of arrival), its bytes and memory, and the states of its flows."""

    def __init__(self, name, kind):
        self.flows_of_fq = kind == "fq_pie"
        handle = name.split("/")[1].rstrip(":")
        self.handle = 0 if handle == "-" else int(handle, 16) << 16
        self.packets, self.states, self.fault = {}, {}, None
        self.own = self.bytes = self.memory = self.rows = self.returned = self.drops = self.dropped = 0
        self.limit = self.flows = self.waiting = None
        self.counters = dict.fromkeys(COUNTERS, 0)

    def differ(self, row, what, recorded, right):
        if recorded != right and self.fault is None:
            self.fault = f"step {row.seq}: {row.fields['type']}: {what} is recorded as {recorded}, right is {right}"

    def compare(self, row, **right):
        for name, value in right.items():
            self.differ(row, name, int(row.fields[name]), value)

    def lengths(self, row):
        """Compares the lengths after a row."""
        self.compare(row, qlen1=self.own + row.rq, bl1=self.bytes + row.rqb)
        if row.rq == 0:
            self.compare(row, rqb=0)
        self.returned += row.rq != 0

    def state(self, flow):
        return self.states.get(flow, NEW)

    def restart(self):
        for flow, state in self.states.items():
            self.states[flow] = {**state, "burst_time": NEW["burst_time"], "dq_tstamp": UNSET, "accu_prob": 0, "dq_count": UNSET, "avg_dq_rate": 0}

    def add(self, row):
        self.rows += 1
        kind = row.fields["type"]
        if self.waiting is not None and kind not in ("flow", "wait"):
            self.differ(row, "packets of the resumed queue", self.waiting, [self.own, self.bytes, self.back, self.back_bytes])
            self.waiting = None
        getattr(self, f"add_{kind}")(row)

    def begin(self, row):
        self.limit, self.flows = row.limit, row.x1
        self.packets, self.states = {}, {} if self.flows_of_fq else {-1: row.state("a")}
        self.own = self.bytes = self.dropped = 0
        self.counters = {name: getattr(row, name) for name in COUNTERS}

    def add_init(self, row):
        self.begin(row)
        self.memory = 0
        self.lengths(row)

    def add_resume(self, row):
        self.begin(row)
        self.memory, self.back, self.back_bytes = row.t2, 0, 0
        self.waiting = [row.qlen1 - row.rq, row.bl1 - row.rqb, row.rq, row.rqb]

    def add_flow(self, row):
        self.states[row.flow] = row.state("a")

    def add_wait(self, row):
        if row.x0 == 1:
            self.back += 1
            self.back_bytes += row.pktlen
            return
        self.queue(row)
        self.memory = (self.memory + row.truesize) % 2**32 if self.flows_of_fq else 0

    def queue(self, row):
        self.packets.setdefault(row.flow, deque()).append((row.size, row.pktlen, row.enq, row.truesize))
        self.own += 1
        self.bytes += row.pktlen

    def add_enq(self, row):
        self.compare(row, qlen0=self.own + row.rq, bl0=self.bytes + row.rqb, limit=self.limit)
        if row.fields["proto"] in TAGS:
            self.differ(row, "proto", row.fields["proto"], "no tag")
        is_queued = row.ret == 0
        if is_queued:
            self.queue(row)
            self.counters["packets_in"] += 1
        else:
            self.counters["dropped"] += 1
            self.counters["overlimit"] += row.early == 255
        self.lengths(row)
        self.compare(row, packets_in=self.counters["packets_in"], dropped=self.counters["dropped"], overlimit=self.counters["overlimit"])
        self.counters = {name: getattr(row, name) for name in COUNTERS}
        if self.flows_of_fq:
            self.enqueue_of_fq(row, is_queued)
        self.differ(row, "the state before", row.state("b"), self.state(row.flow))
        self.states[row.flow] = row.state("a")

    def enqueue_of_fq(self, row, is_queued):
        self.compare(row, x0=self.memory, x1=(self.memory + row.truesize * is_queued) % 2**32)
        self.memory = row.x1
        minor = row.prio % 65536
        is_named = row.prio - minor == self.handle and 0 < minor <= self.flows
        self.compare(row, flow=minor - 1 if is_named else row.hash * self.flows // 2**32)

    def add_deq(self, row):
        packets = self.packets.get(row.flow)
        if not packets:
            self.differ(row, "packets of the flow", 0, 1)
            return
        size, length, enqueued, truesize = packets.popleft()
        self.own -= 1
        self.bytes -= length
        self.compare(row, size=size, pktlen=length, enq=enqueued)
        self.lengths(row)
        self.drops += row.drop
        self.dropped += row.drop
        if self.flows_of_fq:
            self.memory = (self.memory - truesize) % 2**32
            self.compare(row, x1=self.memory)
        self.differ(row, "the state before", row.state("b"), self.state(row.flow))
        self.states[row.flow] = row.state("a")

    def add_calc(self, row):
        self.lengths(row)
        self.differ(row, "the state before", row.state("b"), self.state(row.flow))
        self.states[row.flow] = row.state("a")

    def add_timer(self, row):
        pass

    def add_change(self, row):
        self.limit = row.plimit
        if self.flows_of_fq:
            own = self.dropped
            self.dropped = 0
            if row.size == 0:
                self.dropped = own
            else:
                self.compare(row, size=own + row.moved)
        else:
            total = self.own + row.rq + row.moved
            self.compare(row, size=max(total - self.limit, 0))
            bytes_before = self.bytes
            for _ in range(row.size - row.moved):
                _, length, _, _ = self.packets[-1].popleft()
                self.own -= 1
                self.bytes -= length
                self.drops += 1
            if row.moved == 0:
                self.compare(row, backlog=bytes_before - self.bytes)
            if row.moved < row.size:
                self.compare(row, rq=0)
            self.differ(row, "the state", row.state("a"), self.state(-1))
        self.drops += row.moved
        self.compare(row, limit=self.limit)
        self.lengths(row)
        self.compare_counters(row)

    def compare_counters(self, row):
        self.differ(row, "counters", {name: getattr(row, name) for name in COUNTERS}, self.counters)

    def add_reset(self, row):
        if self.flows_of_fq:
            self.lengths(row)
        else:
            self.compare(row, qlen1=0, bl1=self.bytes + row.rqb)
        self.compare_counters(row)
        self.packets, self.own, self.bytes = {}, 0, 0
        self.restart()

    def add_destroy(self, row):
        self.compare(row, qlen1=0, bl1=0, tupdate=0)
        self.compare_counters(row)


def main():
    failed = False
    for path in map(Path, sys.argv[1:]):
        queues = {}
        for fields in csv.DictReader(path.open()):
            name = fields["qid"]
            if name == "lost":
                queues.pop(fields["type"], None)
                continue
            if fields["type"] in ("init", "resume") and name not in queues:
                queues[name] = Queue(name, fields["kind"])
            if name in queues and queues[name].fault is None:
                queues[name].add(Row(fields))
        for name, queue in queues.items():
            print(f"  {path.name} {name}: {queue.rows} rows, {queue.returned} with returned packets, {queue.drops} drops by changes",
                  f"DIFFERENT: {queue.fault}" if queue.fault is not None else "")
            failed |= queue.fault is not None
    sys.exit(failed)


main()
