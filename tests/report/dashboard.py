#!/usr/bin/env python3
"""Checks the Grafana dashboard (report/grafana.json), because Debian has no Grafana to draw it:

- Panels have unique ids. Their places do not overlap and fill whole rows. Their units fit their queries.
- The C code (examples/shared/metrics.c) or report/pie-metrics writes each metric of a query, with both labels.
- A query has a rate for each counter and for nothing else.
- Each metric except those of errors has a panel.
- The C code and pie-metrics have equal names, except those of which only one of them has the numbers.
- One panel lists the alerts of report/alerts.yml that fire or are pending. Each number to which an alert compares a
  metric is a threshold, or a line, of the panel of that metric, and no panel has another threshold.

If promtool is installed, it parses each query.

usage: tests/report/dashboard.py
needs: nothing
"""
import json
import os
import re
import shutil
import subprocess
import sys
import tempfile
from pathlib import Path

sys.path.insert(0, f"{os.path.dirname(os.path.abspath(__file__))}/../shared")
from checks import NAME, ROOT, check, finish  # noqa: E402

# The reason why each is not shown, or only for one of the two.
TROUBLE = {"pie_oversized_drops_total", "pie_refused_drops_total", "pie_late_updates_total", "pie_lost_events_total"}
UNSEEN = {"pie_unseen_events_total"}
PERIOD = {f"pie_period_{name}" for name in ("wait_99_seconds", "greatest_wait_seconds", "greatest_delay_seconds", "greatest_probability_ratio")}
LEFT_OUT = TROUBLE | UNSEEN | {"pie_updates_total", "pie_updated_probability_ratio", "pie_departed_packets_total", "pie_queue_packets",
                               "pie_period_greatest_wait_seconds", "pie_period_greatest_delay_seconds"}
UNITS = {"s", "percentunit", "bps", "pps", "bytes"}
SELECTOR = '{link=~"$link",queue=~"$queue"}'
# The panel that shows the bound of each alert. The bounds of the other alerts are 0, or their metrics have no panel.
BOUNDS = {"PieLongWaits": "Delay", "PieTailDrops": "Tail drops", "PieDropsForMarks": "Probability", "PieProbabilityAtEnd": "Probability"}


def written():
    """Returns the kind and help of each metric of the C code, and of pie-metrics, from their tables and calls."""
    c = (ROOT / "examples/shared/metrics.c").read_text()
    found = {}
    for kind, table in re.findall(r"^static const struct family (counter|gauge)s\[\] = \{\n(.*?)^\};", c, re.M | re.S):
        found |= {f"pie_{name}": (kind, what) for name, what in re.findall(r'\{"(\w+)", "([^"]+)", AT', table)}
    found |= {f"pie_{name}": ("histogram", what) for name, what in re.findall(r'write_head\(file, "(\w+)", "histogram", "([^"]+)"\)', c)}
    own, names = (ROOT / "report/pie-metrics").read_text(), {}
    for kind, table in re.findall(r"^(COUNTER|GAUGE)S = \(\n(.*?)^\)", own, re.M | re.S):
        names |= {f"pie_{name}": (kind.lower(), what) for name, what in re.findall(r'^    \("(\w+)", .*?"([^"]+)"\),$', table, re.M)}
    names |= {f"pie_{name}": ("histogram", what) for name, what in re.findall(r'histogram\("(\w+)", "([^"]+)"', own)}
    return found, names


def hold_names(c, own):
    check(len(c) == 22 and len(own) == 23, f"{len(c)} metrics of the C code, {len(own)} of pie-metrics")
    check(set(c) - set(own) == TROUBLE, "of the C code alone:", set(c) - set(own))
    check(set(own) - set(c) == UNSEEN | PERIOD, "of pie-metrics alone:", set(own) - set(c))
    for name in set(c) & set(own):
        check(c[name] == own[name], f"{name}: {c[name]} of the C code, {own[name]} of pie-metrics")


def hold_query(title, query, kinds):
    """Checks that a query's metrics are written, with both labels. Returns them."""
    names = set()
    for found in re.finditer(r"(rate|increase)?(\(?)pie_(\w+)(.*?)(?=[ ,)\[]|$)", query.replace(SELECTOR, "#")):
        sample = f"pie_{found[3]}"
        name = re.sub("_(bucket|sum|count)$", "", sample)
        check(name in kinds, f"{title}: nobody writes {sample}")
        kind = kinds.get(name, ("", ""))[0]
        check((kind == "histogram") == (name != sample), f"{title}: {sample} of a {kind}")
        check((kind != "gauge") == bool(found[1]), f"{title}: {sample}, a {kind}, {'without' if not found[1] else 'in'} a rate")
        check(found[4].startswith("#"), f"{title}: {sample} without its labels")
        names.add(name)
    check(names, f"{title}: a query without a metric: {query}")
    return names


def unit_of(query):
    """Returns the unit of a query's first metric."""
    name = re.search(r"pie_(\w+)", query)[1]
    if "/" in query and "seconds" not in query:
        return "percentunit"
    if "bytes_total" in name:
        return "bps" if query.startswith("8 * ") else "Bps"
    if name.endswith("_total"):
        return "pps"
    return "s" if "seconds" in name else "percentunit" if name.endswith("ratio") else "bytes" if name.endswith("bytes") else "short"


def hold_panel(panel, kinds):
    title = panel.get("title")
    check(title and panel.get("description"), f"a panel without a title or description: {panel.get('id')}")
    check(panel.get("type") in ("timeseries", "stat", "heatmap"), f"{title}: its type is {panel.get('type')}")
    unit = panel["fieldConfig"]["defaults"].get("unit")
    check(unit in UNITS, f"{title}: its unit is {unit}")
    check(panel["datasource"] == {"type": "prometheus", "uid": "${source}"}, f"{title}: its source")
    letters = [target["refId"] for target in panel["targets"]]
    check(letters == [chr(65 + place) for place in range(len(letters))] and letters, f"{title}: its queries are {letters}")
    shown = set()
    for target in panel["targets"]:
        shown |= hold_query(title, target["expr"], kinds)
        check(target.get("legendFormat"), f"{title}: a query without a legend")
        wanted = "s" if panel["type"] == "heatmap" else unit_of(target["expr"])
        check(unit == wanted, f"{title}: {unit}, and {target['expr']} is in {wanted}")
    return shown


def hold_alerts(listing, panels):
    """Checks the list of alerts, and the thresholds of the other panels, against the rules."""
    rules = dict(re.findall(r"^      - alert: (\w+)\n        expr: (.*)$", (ROOT / "report/alerts.yml").read_text(), re.M))
    options = listing["options"]
    check(listing["title"] and listing.get("description") and "targets" not in listing, "the list of alerts has no title or a query")
    check(rules and all(options["alertName"] in name for name in rules), f"the list of alerts selects {options['alertName']}")
    check(options["alertInstanceLabelFilter"] == SELECTOR.replace("$link", "${link:regex}").replace("$queue", "${queue:regex}"), "the labels of alerts")
    shown = {state for state, is_shown in options["stateFilter"].items() if is_shown}
    check(shown == {"firing", "pending", "error"} and not options["dashboardAlerts"], f"the list has alerts that are {shown}")
    wanted = {title: set() for title in panels}
    for alert, title in BOUNDS.items():
        queries = [target["expr"].replace(SELECTOR, "") for target in panels[title]["targets"]]
        metric, bound = re.match(r"(.*?) (?:>=|>) ([^>]*?)(?: and .*)?$", rules[alert]).groups()
        names = set(re.findall(r"\bpie_\w+", metric))
        check(names <= {name for query in queries for name in re.findall(r"\bpie_\w+", query)}, f"{title}: its queries are not those of {alert}: {names}")
        if re.fullmatch(r"[0-9.]+", bound):
            wanted[title].add(float(bound))
        else:
            check(bound in queries, f"{title}: no query is the bound of {alert}, {bound}")
    for title, panel in panels.items():
        steps = panel["fieldConfig"]["defaults"].get("thresholds", {"steps": []})["steps"]
        check([step["value"] for step in steps] == ([None, *sorted(wanted[title])] if wanted[title] else []), f"{title}: its thresholds are {steps}")
        style = panel["fieldConfig"]["defaults"].get("custom", {}).get("thresholdsStyle")
        check((style == {"mode": "line"}) == (bool(steps) and panel["type"] == "timeseries"), f"{title}: the style of its thresholds is {style}")


def hold_places(panels):
    """Checks that no two panels overlap, none is outside, and each row is full."""
    taken = {}
    for panel in panels:
        x, y, w, h = (panel["gridPos"][letter] for letter in "xywh")
        check(x >= 0 and y >= 0 and w > 0 and h > 0 and x + w <= 24, f"{panel['title']}: its place {panel['gridPos']}")
        for place in ((column, row) for column in range(x, x + w) for row in range(y, y + h)):
            check(place not in taken, f"{panel['title']} overlaps {taken.get(place)}")
            taken[place] = panel["title"]
    rows = max(row for _, row in taken) + 1
    check(len(taken) == 24 * rows, f"places that no panel has: {24 * rows - len(taken)}")


def parse(queries):
    """Checks that promtool accepts each query, with values for Grafana's variables."""
    if shutil.which("promtool") is None:
        print(f"NOT RUN: {NAME}: no promtool here, so nothing else than this script read the queries (tests/install.sh report)")
        return
    rules = [{"record": f"it:{place}", "expr": query.replace("$__rate_interval", "1m").replace("$link", ".*").replace("$queue", ".*")}
             for place, query in enumerate(queries)]
    with tempfile.TemporaryDirectory() as folder:
        file = Path(folder, "rules.json")  # (YAML has JSON's forms)
        file.write_text(json.dumps({"groups": [{"name": "dashboard", "rules": rules}]}))
        done = subprocess.run(["promtool", "check", "rules", file], capture_output=True, text=True, check=False)
    check(done.returncode == 0 and f"{len(rules)} rules found" in done.stdout, "promtool:", done.stdout, done.stderr)


def main():
    board = json.loads((ROOT / "report/grafana.json").read_text())
    c, own = written()
    hold_names(c, own)
    check(board["title"] and board["uid"] and board["schemaVersion"] >= 30 and "__inputs" not in board, "the head of the dashboard")
    variables = {it["name"]: it for it in board["templating"]["list"]}
    check(set(variables) == {"source", "link", "queue"} and variables["source"]["type"] == "datasource", f"variables: {set(variables)}")
    for name in ("link", "queue"):
        found = re.fullmatch(r'label_values\((pie_\w+)(?:\{link=~"\$link"\})?, (\w+)\)', variables[name]["query"]["query"])
        check(found and found[1] in set(c) & set(own) and found[2] == name, f"the variable {name}: {variables[name]['query']}")
    panels = board["panels"]
    numbers = [panel["id"] for panel in panels]
    check(len(set(numbers)) == len(numbers) and all(isinstance(it, int) and it > 0 for it in numbers), f"ids: {numbers}")
    listings = [panel for panel in panels if panel["type"] == "alertlist"]
    queried = [panel for panel in panels if panel not in listings]
    check(len(listings) == 1, f"{len(listings)} lists of alerts")
    for listing in listings:
        hold_alerts(listing, {panel["title"]: panel for panel in queried})
    shown = set().union(*(hold_panel(panel, c | own) for panel in queried))
    check(set(c | own) - shown == LEFT_OUT, "metrics that no panel shows:", set(c | own) - shown)
    hold_places(panels)
    parse([target["expr"] for panel in queried for target in panel["targets"]])
    finish()


main()
