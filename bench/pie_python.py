"""Measures a million arrivals by Queue.offer: processor time for an event, in ns, and a checksum of the answers.
Writes the arrivals to the given file."""
import sys
import time

import numpy as np

import juniperbowls as jb

RATE, COUNT = 100_000_000, 1_000_000
random = np.random.default_rng(1)
sizes = random.integers(64, 1501, COUNT)
moments = np.cumsum(random.exponential(782 * 8e9 / RATE / 1.08, COUNT)).astype(np.uint64)
words = random.integers(1 << 64, size=COUNT, dtype=np.uint64)
jb.events(int(jb.Kind.ARRIVE), moments, size=sizes, word=words, tag=np.arange(COUNT), caller=1).tofile(sys.argv[1])
queue = jb.Queue(jb.Opening.for_rate(RATE))
begun = time.thread_time()
events = queue.offer(moments, sizes, RATE, words=words)
took = time.thread_time() - begun
print(f"offer_python {took / len(events) * 1e9} ns")
print(f"answers_python {int((events['answer'] * np.arange(1, len(events) + 1)).sum())} sum")
print(f"events_python {len(events)} events")
