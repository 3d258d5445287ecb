"""A notebook of cells, which VS Code, Spyder and Jupytext can open. A link is overloaded for
four seconds; the cells show what its queue did, and what another target would have done. Run it
from the top of the repository, with `pie` on the path: python3 examples/notebook.py"""
# %% A link of 10 Mbit/s, and its arrivals: 8 Mbit/s, between the first second and the fifth 13
import numpy as np

import juniperbowls as jb

random, history, period = np.random.default_rng(1), "notebook.history", "20ms"
time = np.cumsum(random.exponential(np.repeat([1.0e6, 0.615e6, 1.0e6], [1000, 6500, 4000]))).astype("u8")
arrivals = {"moments": time, "sizes": 1000, "ecn": random.choice([0, 1], len(time)), "words": random.integers(2**64, size=len(time), dtype="u8")}
opening = jb.Opening.for_rate("10mbit", choices=jb.Choices.DELAY_STAMP | jb.Choices.DECAY_HALF)
with jb.Queue(opening, history, force=True) as queue:  # (a cell may run again)
    events = queue.offer(**arrivals, rate="10mbit", until="12s")
print(jb.audit(history), jb.frame(events).groupby("answer").size().to_dict())

# %% The first chart of a report
import matplotlib.pyplot as plt  # noqa: E402
rows = jb.explain(history, "--every", period)
rows.index = rows.first_moment / 1e9
chart = plt.figure(figsize=(11, 4)).add_subplot(title="Queueing delay and waits, ms", xlabel="s")
for name, column, counts in [("queueing delay at updates", "greatest_delay", "updates"), ("mean wait of departed packets", "mean_wait", "left"),
                             ("greatest wait", "greatest_wait", "left"), ("burst allowance", "last_burst_allowance", "events"),
                             ("target", "last_target", "events")]:
    chart.plot(rows[column][rows[counts] > 0] / 1e6, label=name)
chart.legend()

# %% The same arrivals with other targets
for target in ("5ms", "15ms", "50ms"):
    other = jb.frame(jb.Queue(opening.replace(target=target)).offer(**arrivals, rate="10mbit", until="12s"))
    print(f"target {target}: {(other.answer == 'early').sum()} dropped early, {(other.answer == 'mark').sum()} marked, "
          f"a mean delay of {other.delay.mean() / 1e6:.1f} ms")
plt.show()
