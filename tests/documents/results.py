#!/usr/bin/env python3
"""Checks docs/RESULTS.md, docs/comparisons.csv and docs/ellipses.svg: docs/results.py computes them from the stored runs. docs/RESULTS.in has no
figure of its own, and README.md and docs/PARAMETERS.md repeat figures of the runs. A page with a changed figure fails.

Each row of the table of scenarios averages the blocks that all its queues ran, computed here again from the stored rows. Each `same` of a difference
has its margin beside it. The stored A/A runs hold: each comparison of a PIE with itself, and of tail drop here with pfifo, is `same`. 84 % of the 90 %
intervals of a PIE with itself contain 0. In each scenario but reno, three of four starts agree within 0.15 ms at both bottlenecks, and of all starts 24 of 25 within 0.1 % of
goodput. The margins can fail: queues that are known to differ are `different`. The page contains every scenario that was run, and all runs of RFC
7928's suite are stored. Runs of two versions are in no table together.
needs: nothing"""
import os
import re
import subprocess
import sys

HERE = os.path.dirname(os.path.abspath(__file__))
sys.path[:0] = [f"{HERE}/../shared", f"{HERE}/../../docs"]
sys.dont_write_bytecode = True
from checks import ROOT, check, finish  # noqa: E402

done = subprocess.run([ROOT / "docs/results.py", "--check"], capture_output=True, text=True, check=False)
check(done.returncode == 0, f"docs/results.py --check:\n{done.stdout}{done.stderr[-2000:]}")
import results  # noqa: E402

page = results.page()
figures = [found.span() for found in re.finditer(r"(?<![\w.])\d+\.\d+(?![\w.])", page)]
check(len(figures) > 200, f"the page has {len(figures)} figures only")
for begin, end in figures[::7]:
    changed = page[:end - 1] + str((int(page[end - 1]) + 1) % 10) + page[end:]
    check(results.differences({"docs/RESULTS.md": changed}), f"another figure than {page[begin:end]} passes")
for name in (it for it in ("docs/comparisons.csv", "docs/ellipses.svg") if it in results.MADE):
    text = (ROOT / name).read_text()
    begin, end = re.search(r"\d+\.\d+", text).span()
    check(results.differences({name: text[:begin] + "7" + text[begin:]}), f"{name}: another figure than {text[begin:end]} passes")
for name, sentence in results.elsewhere():
    text = " ".join((ROOT / name).read_text().split())
    begin, end = re.search(r"(?<= )\d+(?= )", sentence).span()
    place = text.find(sentence)
    changed = text[:place + begin] + "1" + text[place + begin:]
    check(place >= 0 and results.differences({name: changed}), f"{name}: another figure than {sentence[begin:end]} passes")

# the rows of the table of scenarios, by the stored rows alone
for name, it in results.SCENARIOS.items():
    line = next((line for line in page.splitlines() if line.startswith(f"|`{name}`|{it['words']}|")), None)
    if line is None:
        continue
    begin, end = results.RUNS.part(name, "after")
    rows = {}
    for row in results.ROWS:
        if row["scenario"] == name and row["queue"] in it["queues"] and (float(row["from"]), float(row["to"])) == (begin, end):
            rows.setdefault(row["queue"], {})[row["block"]] = float(row["goodput"])
    common = set.intersection(*map(set, rows.values()))
    cells = line.split("|")
    check(cells[5] == str(len(common)), f"{name}: {cells[5]} blocks on the page, and all queues ran {len(common)}")
    for queue, cell in zip(results.FIVE_NAMES, cells[6:11]):
        wanted = sum(rows[queue][block] for block in common) / len(common) if queue in rows else None
        found = float(cell.split("/")[0]) if cell else None
        check((wanted is None) == (found is None) and (wanted is None or abs(wanted - found) <= (0.0051 if wanted < 100 else 0.051)),
              f"{name}: the goodput of {queue} is {found} on the page, and {wanted} in the common blocks")
for line in re.sub(r"^## Limits.*?(?=^## )", "", page, flags=re.M | re.S).splitlines():     # (its margins are flat, and stated once)
    if "±" in line:
        check(len(re.findall(r" same \([\d.]+ %\)", line)) == len(re.findall(r" same\b", line)), f"a difference is `same` without its margin: {line}")
check(len(re.findall(r", `same` \(margin", " ".join(page.split()))) == len(re.findall(r"\) (?:ms|Mbit/s), `same`", " ".join(page.split()))),
      "a sentence has a difference that is `same` without its margin")


# each printed difference is a row of comparisons.csv
listed = [(float(row["difference"]), row["verdict"]) for row in results.read("docs/comparisons.csv")]
VERDICT = "(same|different|open|better|worse)"
printed = [found for source in results.SOURCES for found in re.findall(rf"(-?[\d.]+)(?:±[\d.]+ | \([^()]* to [^()]*\) (?:ms|Mbit/s), `){VERDICT}\b",
                                                                         " ".join((ROOT / source).read_text().split()))]
check(len(printed) > (100 if results.HAS_OLDER else 50), f"only {len(printed)} comparisons were found on the pages")
for text, verdict in printed:
    half = 0.51 * 10 ** -len(text.partition(".")[2])
    check(any(abs(float(text) - number) <= half and verdict == it for number, it in listed), f"comparisons.csv has no difference {text} that is {verdict}")


for name, one, other, field, part, it in results.equal_queues():
    check(it[3] == "same", f"{name}, {part}: {one} and {other} are equal queues, but {it[3]}: {field}: {results.interval(it, field, 3)}")
compared = {name for name, *_ in results.equal_queues()}
for name, it in results.SCENARIOS.items():
    check(name in compared or not it["again"] and not {"tail", "pfifo"} <= it["queues"].keys(), f"scenario {name}: no queue is compared with its equal")
for name, one, other, field, part in results.CONTROLS:
    it = results.test(name, one, other, field, part)
    check(it[3] == "different", f"{name}, {part}: {one} and {other} are known to differ, and are {it[3]}: {field}: {results.interval(it, field)}")
wide = results.test("four", "wide", "stamp", "probe")
margin = results.margin_of("four", "wide", "stamp", "probe", "after", list(results.RUNS.values("four", "stamp", "probe").values()))
check(margin < wide[1], f"the margin of waits, {margin}, does not tell targets of 15 and 20 ms apart")
for name in dict.fromkeys(name for name, *_ in results.pairs_of("tail", "pfifo")):
    waits = [wait for wait, _, _ in results.starts(name)]
    near, least = sum(wait <= results.NEAR for wait in waits), 0.75 if name != "reno" else 0.3    # (Reno's starts lose many packets, and some probes)
    check(near >= least * len(waits), f"{name}: only {near} of {len(waits)} starts are alike at both bottlenecks")
far = sum(goodput >= results.NEAR_GOODPUT for _, goodput, _ in results.starts())
check(25 * far <= len(results.starts()), f"the goodput of {far} of {len(results.starts())} starts differs at both bottlenecks")
inside = [it[-1][1] <= 0 <= it[-1][2] for it in results.equal_queues(*results.PAIRS[2:])]
check(sum(inside) >= 0.84 * len(inside), f"of {len(inside)} intervals of 90 per cent for no difference only {sum(inside)} contain 0")
# the criterion of PLAN.md, over made results of each comparison: the longest limit that is nowhere worse, and shorter in half of the starts
results.not_run_limits = lambda question: []


def chosen(made, question="the rule"):
    """Returns the limit that the criterion chooses if comparisons are `same`, except those of `made`: by scenario, queue, measure and part."""
    same, better, wide = (0, -1, 1, "same", 2), (-9, -10, -8, "better", 2), (0, -3, 3, "open", 2)
    results.limit_test = lambda *it: {"better": better, "open": wide}.get(made.get(it), same)
    return results.chosen_limit(question)[0]


starts = {(name, queue, "wait99", "start"): "better" for name in ("limits", "farlimits") for queue in ("limit100", "limit50")}
check(chosen({}) == "200 ms" and chosen({}, "the least limit") == "48448 bytes", "a limit is chosen that shortens nothing")
check(chosen(starts) == "100 ms", "the longest limit that meets the criterion is not chosen")
check(chosen({**starts, ("farlimits", "limit100", "goodput", "whole"): "open"}) == "50 ms", "a limit is chosen whose goodput may be worse")
check(chosen({**starts, ("burstlimits", "limit100", "wait", "after"): "open", ("limits", "limit50", "wait", "start"): "open"}) == "200 ms",
      "a limit is chosen whose wait may be worse")
check(chosen({key: verdict for key, verdict in starts.items() if key[0] == "limits"}) == "200 ms", "a limit is chosen that shortens one start of four")

# a table has runs of one version
for rows, count in ((results.ROWS, 2), (results.LIMIT_ROWS or results.ROWS[:1], 4)):
    try:
        results.version_of([*rows, dict(rows[0], version="00000000.00000000.00000000.00000000")], count)
        check(False, "runs of two versions share a table")
    except SystemExit:
        pass
runs, stored, _ = results.estimate(results.ROWS)
check(runs == stored, f"{stored} of {runs} runs of the suite of RFC 7928 are stored")
for name, it in results.SCENARIOS.items():
    shown = f"|`{name}`|{it['words']}|" in page
    check(shown == (results.was_run(name) and results.HAS_OLDER), f"scenario {name}: {'shown' if shown else 'not shown'}, and {'' if results.was_run(name) else 'not '}run")
finish()
