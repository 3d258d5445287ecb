#!/usr/bin/env python3
"""Checks the alerting rules (report/alerts.yml) with `promtool test rules`: over an hour of a queue as in the measured
scenario `four` no alert fires, and with one number changed exactly the alert of that number fires, at the minute at
which it is due and not a minute before. Each metric of a rule is one that dashboard.py finds in the writers, or the
status of an audit. After a link died, so that its metrics end, exactly PieStale and PieNoUpdates fire, for two days if
nobody acts, and until the metrics are there again.

usage: tests/report/alerts.py
needs: nothing
"""
import json
import os
import re
import shutil
import subprocess
import sys
import tempfile
from pathlib import Path

sys.path.insert(0, f"{os.path.dirname(os.path.abspath(__file__))}/../shared")
from checks import NAME, ROOT, check, finish  # noqa: E402

RULES = ROOT / "report/alerts.yml"
LABELS = 'link="north",queue="0"'
# The metrics of a minute, each with its samples of an hour: 10 Mbit/s, waits of 16 ms, one early drop in 400 packets.
QUIET = {
    "pie_target_seconds": "0.015x60",
    "pie_probability_ratio": "0.003x60",
    "pie_period_wait_99_seconds": "0.025x60",
    "pie_updates_total": "0+4000x60",
    "pie_arrived_packets_total": "0+50000x60",
    "pie_marked_packets_total": "0+0x60",
    "pie_early_drops_total": "0+125x60",
    "pie_byte_limit_drops_total": "0+0x60",
    "pie_packet_limit_drops_total": "0+0x60",
    "pie_unseen_events_total": "0+0x60",
    "pie_lost_periods_total": "0+0x60",
    "pie_lost_events_total": "0+0x60",
    "pie_audit_status": "0x60",
}
# The waits of a histogram: 98 of 100 packets up to 16 ms, and the others up to 32 ms, or up to 64 ms.
BOUNDS = ("0.016", "0.032", "0.064", "+Inf")
SHORT = {f'pie_wait_seconds_bucket{{{LABELS},le="{bound}"}}': f"0+{49000 if bound == '0.016' else 50000}x60" for bound in BOUNDS}
LONG = {f'pie_wait_seconds_bucket{{{LABELS},le="{bound}"}}': f"0+{50000 if bound in BOUNDS[2:] else 49000}x60" for bound in BOUNDS}
WITHOUT_PERIODS = {"pie_period_wait_99_seconds": None}
# The alert, its severity, the changed metrics, and the minute at which it begins to fire.
CASES = [
    ("PieLongWaits", "warning", {"pie_period_wait_99_seconds": "0.025x9 0.031x50"}, 15),
    ("PieLongWaits", "warning", {**WITHOUT_PERIODS, **LONG}, 6),
    ("PieLongMeanWaits", "warning", {**WITHOUT_PERIODS, "pie_wait_seconds_sum": "0+1600x60", "pie_wait_seconds_count": "0+50000x60"}, 6),
    ("PieTailDrops", "warning", {"pie_byte_limit_drops_total": "0+0x9 0+600x50"}, 20),
    ("PieTailDrops", "warning", {"pie_packet_limit_drops_total": "0+0x9 0+600x50"}, 20),
    ("PieDropsForMarks", "info", {"pie_probability_ratio": "0.11x60", "pie_marked_packets_total": "0+10x60"}, 6),
    ("PieProbabilityAtEnd", "critical", {"pie_probability_ratio": "0.003x9 1x50"}, 11),
    ("PieNoUpdates", "critical", {"pie_updates_total": "0+4000x10 40000x50"}, 20),
    ("PieEventsLost", "warning", {"pie_lost_events_total": "0x9 1x50"}, 10),
    ("PieEventsLost", "warning", {"pie_lost_periods_total": "0x9 1x50"}, 10),
    ("PieEventsLost", "warning", {"pie_unseen_events_total": "0x9 1x50"}, 10),
    ("PieStale", "critical", {"pie_target_seconds": "0.015x9 stale"}, 12),
    ("PieNoUpdates", "critical", {"pie_updates_total": "0+4000x9 stale"}, 19),
    ("PieWatchStale", "critical", {"pie_host_queues": "5x9 stale"}, 12),
    ("PieWatchMissesQueues", "warning", {"pie_host_missed_queues_total": "0x9 2x50"}, 10),
    ("PieAuditDiffers", "critical", {"pie_audit_status": "0x9 2x50"}, 10),
    ("PieAuditFailed", "warning", {"pie_audit_status": "0x9 1x50"}, 10),
]
SILENT = [("as in `four`", {}), ("with a histogram of short waits", {**WITHOUT_PERIODS, **SHORT}), ("with marks below the threshold", {"pie_marked_packets_total": "0+125x60"}),
          ("with a removed queue of pie-watch", {"pie_host_queues": "5x60", "pie_target_seconds": "0.015x9 stale"}),
          ("with the mean of short waits", {**WITHOUT_PERIODS, "pie_wait_seconds_sum": "0+1450x60", "pie_wait_seconds_count": "0+50000x60"}),
          ("with few tail drops", {"pie_byte_limit_drops_total": "0+400x60"}), ("at twice the target", {"pie_period_wait_99_seconds": "0.03x60"})]


# The alerts of a link that died, and minutes at which they fire; then the minutes after the metrics came back.
DEAD = [("PieNoUpdates", "critical"), ("PieStale", "critical")]
DEAD_MINUTES, ALIVE_MINUTES = (20, 70, 75, 120, 1439, 1441, 1600, 2880), (2895, 2940)


def died():
    """Returns the series of a link whose metrics end at minute 10 and begin again at minute 2881, each with the samples of
    an hour."""
    return {name: f"{values.replace('x60', 'x9')} stale _x2870 {values}" for name, values in QUIET.items()}


def series(changes):
    """Returns the series of an hour with these changes; a metric with None is left out."""
    named = {(name if "{" in name else f"{name}{{{LABELS}}}"): values for name, values in {**QUIET, **changes}.items()}
    return [{"series": name, "values": values} for name, values in named.items() if values is not None]


def firing(minute, *alerts):
    """Returns the test that exactly these alerts, each with its severity, fire at this minute."""
    samples = [{"labels": f'ALERTS{{alertname="{name}",alertstate="firing",{LABELS},severity="{severity}"}}', "value": 1} for name, severity in alerts]
    return {"expr": 'ALERTS{alertstate="firing"}', "eval_time": f"{minute}m", "exp_samples": samples}


def main():
    text = RULES.read_text()
    names = set(re.findall(r"^      - alert: (\w+)$", text, re.M))
    check(names == {name for name, *_ in CASES}, "alerts without a case, or cases without an alert:", names ^ {name for name, *_ in CASES})
    expressions = re.findall(r"^        expr: ((?:.*\n)(?:          .*\n)*)", text, re.M)
    metrics = {re.sub("_(bucket|sum|count)$", "", name) for expr in expressions for name in re.findall(r"\bpie_\w+", expr)}
    written = (ROOT / "examples/shared/metrics.c").read_text() + (ROOT / "report/pie-metrics").read_text() + (ROOT / "docs/OPERATING.md").read_text()
    written += (ROOT / "bindings/linux/watch_serve_text.c").read_text()
    for name in sorted(metrics):
        check(re.search(rf"\b(pie_)?{name.removeprefix('pie_')}\b", written), f"nobody writes {name}")
    if shutil.which("promtool") is None:
        print(f"NOT RUN: {NAME}: no promtool here, so no alert fired (tests/install.sh report)")
        return finish()
    tests = [{"interval": "1m", "name": what, "input_series": series(changes), "promql_expr_test": [firing(minute) for minute in range(60)]} for what, changes in SILENT]
    for name, severity, changes, minute in CASES:
        tests.append({"interval": "1m", "name": name, "input_series": series(changes),
                      "promql_expr_test": [firing(minute - 1), firing(minute, (name, severity)), firing(minute + 3, (name, severity))]})
    tests.append({"interval": "1m", "name": "a link that died", "input_series": series(died()),
                  "promql_expr_test": [*(firing(minute, *DEAD) for minute in DEAD_MINUTES), *(firing(minute) for minute in ALIVE_MINUTES)]})
    with tempfile.TemporaryDirectory() as folder:
        file = Path(folder, "tests.json")  # (YAML has JSON's forms)
        file.write_text(json.dumps({"rule_files": [str(RULES)], "evaluation_interval": "1m", "tests": tests}))
        done = subprocess.run(["promtool", "test", "rules", file], capture_output=True, text=True, check=False)
    told = re.sub(r"\n\s*\n+", "\n", done.stdout + done.stderr)
    check(done.returncode == 0 and "SUCCESS" in told, "promtool:", told)
    print(f"{NAME}: {len(names)} alerts fire in {len(CASES)} cases when they are due, and none in {len(SILENT)} others")
    return finish()


main()
