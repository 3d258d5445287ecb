"""examples/notebook.py, as a script: its first chart is the report's, from the same numbers."""
import re
import runpy

import numpy as np
from shared import PIE, ROOT

import juniperbowls as jb

NOTEBOOK = ROOT / "examples/notebook.py"


def test_the_notebook(tmp_path, monkeypatch):
    import matplotlib
    matplotlib.use("Agg")
    import matplotlib.pyplot as plt
    monkeypatch.chdir(tmp_path)
    monkeypatch.setenv("PIE", PIE)
    found = runpy.run_path(str(NOTEBOOK))
    chart = found["chart"]
    told = {line.get_label(): line for line in chart.lines}
    assert list(told) == re.findall(r'name: "([^"]*)"', (ROOT / "web/page.js").read_text().split("Queueing delay and waits")[1].split("isOther")[0])[:-1]
    rows = jb.explain(found["history"], "--every", found["period"], pie=PIE)
    left = rows[rows.left > 0]
    assert np.allclose(told["mean wait of departed packets"].get_ydata(), left.mean_wait / 1e6)
    assert np.allclose(told["target"].get_ydata(), rows.last_target / 1e6) and len(left) > 50
    assert chart.get_title() in (ROOT / "web/page.js").read_text()
    assert jb.audit(found["history"], PIE).is_clean
    plt.savefig(tmp_path / "chart.png")
    assert (tmp_path / "chart.png").stat().st_size > 10_000
    cells = NOTEBOOK.read_text().split("# %%")
    first = next(it for it in cells if "chart" in it)
    assert len([it for it in first.splitlines()[1:] if it.strip()]) <= 10
