#!/usr/bin/env python3
"""Sends a scenario's traffic through its queues, within a Linux in a process: beside.py writes the scenario and calls this. A run is one block of
the scenario and one queue; its files are in FOLDER/BLOCK-QUEUE.

Three namespaces: senders, the bottleneck, receivers. The bottleneck is examples/link, or a router of which one device has htb and the kernel's queue
below it. Both hand a packet on when its transmission begins. netem at the receivers' device delays what goes back, by its destination, so that flows
differ in their round trip.

usage: bench/uml/network.py FOLDER/BLOCK.json"""
import contextlib
import ctypes
import json
import math
import os
import shlex
import socket
import subprocess
import sys
import time
from pathlib import Path

HERE = Path(__file__).resolve().parent
LINK = HERE.parents[1] / "examples/link/out/link"
TRAFFIC = HERE / "out/traffic"
LEAD = 3.0      # seconds from the bottleneck's start to the traffic's; the kernel's pie makes its first update half a second after it was made
REST = 1.0      # seconds after the traffic, in which its last packets arrive
MOST_BY_DEFAULT = 100e6     # bits a second that Linux's usual bound of a TCP flow's memory allows
USUAL_MEMORY = 6 << 20      # bytes: the usual bound of a receiving TCP flow's memory
TCP_MEMORY = 1 << 26        # bytes of a TCP flow above that rate
BUCKET = 4e-6               # seconds: htb's least bucket
PORT = 5201
RECEIVER = "10.2.0.1"
SPACES = ("senders", "bottleneck", "receivers")
RULES = Path("/sys/module/sch_pie/parameters/rules")     # of a Linux whose pie exchanges rules


@contextlib.contextmanager
def within(space):
    """Moves this process into that namespace for a while. (`ip netns exec` would be one more program each time, and a Linux in a process starts
    programs slowly.)"""
    if not space:
        yield
        return
    with open("/proc/self/ns/net") as here, open(f"/run/netns/{space}") as there:
        enter(there)
        try:
            yield
        finally:
            enter(here)


def enter(namespace):
    if ctypes.CDLL(None, use_errno=True).setns(namespace.fileno(), 0):
        raise RuntimeError(f"setns: {os.strerror(ctypes.get_errno())}")


def do(words, space=None):
    """Runs a command, and raises what it said if it failed."""
    words = shlex.split(words) if isinstance(words, str) else words
    with within(space):
        found = subprocess.run(words, capture_output=True, text=True)
    if found.returncode:
        raise RuntimeError(f"{shlex.join(words)}: {found.stderr.strip()}")
    return found.stdout


def set_number(space, name, number):
    with within(space):
        Path(f"/proc/sys/net/ipv4/{name}").write_text(str(number))


def wait_for(is_there, what):
    for _ in range(400):
        if is_there():
            return
        time.sleep(0.01)
    raise RuntimeError(f"this did not come about: {what}")


class Run:
    """One block of a scenario by one queue."""

    def __init__(self, scenario, queue, block, folder):
        self.scenario, self.queue, self.folder = scenario, queue, folder
        self.delays, self.plan = block["delays"], block["plan"]
        self.rates = scenario["rates"]          # pairs of a moment of the traffic, in seconds, and bits a second
        self.started, self.files, self.counters, self.watchers = [], [], [], []

    def start(self, words, name, space=None):
        file = open(self.folder / name, "w")
        self.files.append(file)
        with within(space):
            begun = subprocess.Popen(words, stdout=file, stderr=subprocess.STDOUT, stdin=subprocess.DEVNULL)
        self.started.append(begun)
        return begun

    def set_up(self):
        for space in SPACES:
            do(f"ip netns add {space}")
            do("ip link set lo up", space)
            set_number(space, "tcp_ecn", self.queue.get("ecn", self.scenario["ecn"]))
            set_number(space, "tcp_no_metrics_save", 1)
            self.set_memory(space)
        (self.set_up_link if self.is_ours() else self.set_up_router)()
        for place in range(len(self.delays)):
            do(f"ip addr add 10.1.0.{place + 1}/24 dev senders", "senders")
        do(f"ip addr add {RECEIVER}/24 dev receivers", "receivers")
        for space in ("senders", "receivers"):
            do(f"ip link set {space} up txqueuelen 10000 {'' if self.scenario['offload'] else 'gso_max_segs 1'}", space)
        ways = ("via 10.1.0.254", "via 10.2.0.254") if not self.is_ours() else ("dev senders", "dev receivers")
        do(f"ip route add 10.2.0.0/24 {ways[0]}", "senders")
        do(f"ip route add 10.1.0.0/24 {ways[1]}", "receivers")
        self.set_up_delays()

    def set_memory(self, space):
        """Sets the memory of TCP flows. A receiver has the greatest memory from the beginning. Otherwise Linux would enlarge its window step by step.
        The steps, and with them the moments of ACKs, depend on the memory of a queued packet, which is 2304 bytes if it comes from the link's TUN
        device, and fewer if it comes through the router."""
        is_fast = max(rate for _, rate in self.rates) > MOST_BY_DEFAULT
        most = TCP_MEMORY if is_fast else USUAL_MEMORY
        set_number(space, "tcp_rmem", f"4096 {most} {most}")
        if is_fast:
            set_number(space, "tcp_wmem", f"4096 131072 {most}")

    def is_ours(self):
        return self.queue["kind"] == "ours"

    def set_up_link(self):
        """The link and its two devices. Its rate changes by its own clock, which starts now."""
        rates = ",".join(f"{LEAD + moment:.6f}s:{rate}bit" if moment else f"{rate}bit" for moment, rate in self.rates)
        lasts = LEAD + self.scenario["seconds"] + 20
        words = [str(LINK), "--from", "senders", "--to", "receivers", "--rtt", "0s", "--history", str(self.folder / "history"), "--force", "--delivery", "start",
                 "--for", f"{lasts:.0f}s", "--rate", rates, "--limit", f"{self.scenario['packets']}p", "--limit", "1gb", *self.queue["words"]]
        self.begun = time.time()
        self.link = self.start(words, "link", "bottleneck")
        for device in ("senders", "receivers"):
            wait_for(lambda name=device: device_is_there("bottleneck", name), f"device {device}")
            do(f"ip -n bottleneck link set {device} netns {device}")

    def set_up_router(self):
        """A router: htb has the rate, without the 14 bytes of an Ethernet header and with a small bucket, and below it is the queue. A size table
        (stab) counts the headers of a super-packet once. If senders pass super-packets, there is none, and the rate grows by the Ethernet headers
        of full packets."""
        for space, device in (("senders", "near"), ("receivers", "far")):
            do(f"ip link add {space} netns {space} type veth peer name {device} netns bottleneck")
        do("ip addr add 10.1.0.254/24 dev near", "bottleneck")
        do("ip addr add 10.2.0.254/24 dev far", "bottleneck")
        set_number("bottleneck", "ip_forward", 1)
        do("ip link set near up", "bottleneck")
        do("ip link set far up", "bottleneck")
        table = "" if self.scenario["offload"] else "stab overhead -14 linklayer ethernet"
        do(f"tc qdisc add dev far root handle 1: {table} htb default 1", "bottleneck")
        self.set_rate(self.rates[0][1], "add")
        if RULES.exists() or self.queue.get("rules"):
            RULES.write_text(str(self.queue.get("rules", 0)))
        words = [str(word).format(packets=self.scenario["packets"]) for word in self.queue["words"]]
        do(["tc", "qdisc", "add", "dev", "far", "parent", "1:1", "handle", "10:", *words], "bottleneck")
        self.begun = time.time()

    def set_rate(self, rate, verb):
        rate = round(rate * 1514 / 1500) if self.scenario["offload"] else rate
        # (the bucket makes up for timers that end late; tc drops fractions of a microsecond)
        bucket = max(self.scenario["bucket"], math.ceil(rate / 8 * BUCKET))
        words = f"rate {rate}bit ceil {rate}bit burst {bucket}b cburst {bucket}b quantum 1514"
        do(f"tc class {verb} dev far parent 1: classid 1:1 htb {words}", "bottleneck")

    def set_up_delays(self):
        """Delays the packets to each address of the senders by its own time. If the way back has a rate, one delay holds for all."""
        if self.scenario["reverse"]:
            rate, packets = self.scenario["reverse"], self.scenario["packets"]
            do(f"tc qdisc add dev receivers root netem delay {self.delays[0]}us rate {rate}bit limit {packets}", "receivers")
            return
        do(f"tc qdisc add dev receivers root handle 1: prio bands {max(len(self.delays), 2)} priomap {' '.join(['0'] * 16)}", "receivers")
        for place, delay in enumerate(self.delays, 1):
            do(f"tc qdisc add dev receivers parent 1:{place:x} netem delay {delay}us limit 100000", "receivers")
            do(f"tc filter add dev receivers parent 1: protocol ip prio 1 u32 match ip dst 10.1.0.{place}/32 flowid 1:{place:x}", "receivers")

    def go(self):
        self.set_up()
        # (in real time the machine may have been slow until here)
        begin = round(max(self.begun + LEAD, time.time() + LEAD / 2) * 1e9)
        # (TCP's time stamps count milliseconds of the monotonic clock; all runs begin with a new one)
        begin += (time.time_ns() - time.monotonic_ns() - begin) % 1_000_000
        ends = [("senders", "10.1.0.1", "back", self.plan["back"])] if self.plan["back"] else []
        ends.append(("receivers", RECEIVER, "there", self.plan["there"]))
        receivers, senders = [], []
        self.watch(begin)
        for space, address, name, _ in ends:
            receivers.append(self.start([str(TRAFFIC), "receive", address, str(begin), str(self.folder / f"{name}.received")], name, space))
            wait_for(lambda there=space: listens(there, PORT), f"a receiver of {name}")
        # (neighbours are looked for now, and not by the first packet of the traffic)
        with within("senders"):
            subprocess.run(["ping", "-c", "1", "-W", "2", RECEIVER], stdout=subprocess.DEVNULL)
        for space, address, name, plan in ends:
            (self.folder / f"{name}.plan").write_text("".join(f"{line}\n" for line in plan))
            words = [str(TRAFFIC), "send", address, str(begin), str(self.folder / f"{name}.plan"), str(self.folder / f"{name}.sent")]
            senders.append(self.start(words, f"{name}.sender", "senders" if name == "there" else "receivers"))
        for moment, rate in self.moments():
            time.sleep(max(0.0, begin / 1e9 + moment - time.time()))
            if rate and moment and not self.is_ours():
                self.set_rate(rate, "change")
            if not self.is_ours():
                self.counters.append((moment, json.loads(do("tc -s -j qdisc show dev far", "bottleneck"))))
        time.sleep(max(0.0, begin / 1e9 + self.scenario["seconds"] + REST - time.time()))
        for it in senders:
            # a sender ends with its last flow; one that waits for short flows which never arrive is ended
            if self.scenario["short"]:
                it.terminate()
            if it.wait(timeout=600):
                raise RuntimeError(f"a sender failed: {(self.folder / 'there.sender').read_text().strip()}")
        for it in receivers + self.watchers:
            it.terminate()
            if it.wait() and it in self.watchers:
                raise RuntimeError("a watcher failed")
        if self.is_ours():
            self.link.terminate()
            self.link.wait()
        else:
            (self.folder / "queue.json").write_text(json.dumps(self.counters))
        (self.folder / "run.json").write_text(json.dumps({"begin": begin, "linux": os.uname().release}))

    def watch(self, begin):
        """Starts the watchers of the bottleneck: of its packets to the receiver, one notes those that the senders' device sends, the other those that the
        receivers' device receives."""
        for space, name in (("senders", "arrivals"), ("receivers", "departures")) if self.scenario.get("watch") else ():
            self.watchers.append(self.start([str(TRAFFIC), "watch", space, str(begin), RECEIVER, str(self.folder / name)], f"{name}.watcher", space))

    def moments(self):
        """When a kernel's queue is changed or read: at the changes of the rate, and at the bounds of the table's rows."""
        rates = dict(self.rates)
        return [(moment, rates.get(moment)) for moment in sorted({*rates, *self.scenario["bounds"]})]

    def clean_up(self):
        for it in self.started:
            if it.poll() is None:
                it.terminate()
        for it in self.started:
            try:
                it.wait(timeout=5)
            except subprocess.TimeoutExpired:
                it.kill()
                it.wait()
        for file in self.files:
            file.close()
        for space in SPACES:
            subprocess.run(["ip", "netns", "del", space], stderr=subprocess.DEVNULL)


def device_is_there(space, device):
    with within(space):
        return device in [name for _, name in socket.if_nameindex()]


def listens(space, port):
    with within(space):
        return any(f":{port:04X} " in line and " 0A " in line for line in Path("/proc/net/tcp").read_text().splitlines())


def main():
    scenario = json.loads(Path(sys.argv[1]).read_text())
    folder = Path(sys.argv[1]).parent
    failed = 0
    for name in scenario["order"]:
        number, queue = name.split("-", 1)
        place = folder / name
        place.mkdir(exist_ok=True)
        run = Run(scenario, scenario["queues"][queue], scenario["blocks"][number], place)
        try:
            run.go()
        except (RuntimeError, subprocess.TimeoutExpired) as why:
            failed = 1
            print(f"bench/uml/network.py: {name}: {why}", file=sys.stderr, flush=True)
        finally:
            run.clean_up()
        print(f"{name}: done", file=sys.stderr, flush=True)
    return failed


if __name__ == "__main__":
    sys.exit(main())
