"""The timer of the measurements of the built program: time and memory of one run over files."""
import os
import subprocess
import sys
import time
from collections import namedtuple

Took = namedtuple("Took", "seconds processor_seconds user_seconds")


def took(words, source, target):
    """Returns the times of one run, by the clock and of a processor; its files are opened, and the earlier output is dropped, before."""
    with open(source, "rb") as reader, open(target, "wb") as writer:
        begin = time.perf_counter()
        child = subprocess.Popen(words, stdin=reader, stdout=writer)
        _, child.returncode, used = os.wait4(child.pid, 0)
        seconds = time.perf_counter() - begin
    if child.returncode != 0:
        sys.exit(f"{' '.join(words)}: status {child.returncode}")
    return Took(seconds, used.ru_utime + used.ru_stime, used.ru_utime)


def resident(words, source, target):
    """Returns the greatest resident memory of one run in KiB, by the system's record of the process
    shortly before its end."""
    with open(source, "rb") as reader, open(target, "wb") as writer:
        child, most = subprocess.Popen(words, stdin=reader, stdout=writer), 0
    while child.poll() is None:
        with open(f"/proc/{child.pid}/status") as status:
            lines = [line for line in status if line.startswith("VmHWM")]
        most = max([most] + [int(line.split()[1]) for line in lines])
        time.sleep(0.005)
    return most
