#!/usr/bin/env python3
"""Writes a run of beside.py as a data file of flent (version 4), under flent's test `tcp_nup`: the goodput of each TCP flow, their sum and average,
and the probe's wait as the ping. `flent -p totals FILE` plots it.

usage: bench/uml/flent_file.py FOLDER/BLOCK-QUEUE FILE.flent.gz      a folder that beside.py kept; flent's own name for FILE ends with .flent.gz"""
import gzip
import json
import sys
from datetime import datetime, timezone
from pathlib import Path

HERE = Path(__file__).resolve().parent
sys.path.insert(0, str(HERE))
sys.dont_write_bytecode = True
from beside import PROBE, Found, is_tcp  # noqa: E402

STEP = 0.2      # seconds between two points
PING = "Ping (ms) ICMP"


def mean(values):
    return sum(values) / len(values) if values else None


def main():
    folder, to = Path(sys.argv[1]).resolve(), sys.argv[2]
    block, queue = folder.name.split("-", 1)
    scenario = json.loads((folder.parent / f"{block}.json").read_text())
    found = Found(scenario, block, folder, None)
    begin = json.loads((folder / "run.json").read_text())["begin"] / 1e9
    flows = [flow for group, numbers in zip(scenario["groups"], scenario["blocks"][block]["groups"]) if is_tcp(group) for flow in numbers]
    points = [round(place * STEP, 3) for place in range(round(scenario["seconds"] / STEP))]
    results, raw = {}, {}
    for place, flow in enumerate(flows, 1):
        name = f"TCP upload::{place}"
        results[name] = [found.bits(flow, point, point + STEP) / STEP / 1e6 for point in points]
        raw[name] = [{"t": begin + point, "val": value} for point, value in zip(points, results[name])]
    results["TCP upload sum"] = [sum(values) for values in zip(*results.values())]
    results["TCP upload avg"] = [it / max(1, len(flows)) for it in results["TCP upload sum"]]
    results[PING] = [mean(found.delays(PROBE, point, point + STEP)) for point in points]
    raw[PING] = [{"t": begin + moment, "val": delay - found.base} for moment, delay in found.probes.get(PROBE, [])]
    moment = datetime.fromtimestamp(begin, timezone.utc).strftime("%Y-%m-%dT%H:%M:%S.%fZ")
    metadata = {"NAME": "tcp_nup", "TITLE": f"{scenario['name']}, block {block}, {queue}", "TIME": moment, "T0": moment, "STEP_SIZE": STEP,
                "LENGTH": scenario["seconds"], "TOTAL_LENGTH": scenario["seconds"], "HOST": "10.2.0.1", "HOSTS": ["10.2.0.1"],
                "LOCAL_HOST": "senders",
                "IP_VERSION": 4, "DATA_FILENAME": Path(to).name, "TEST_PARAMETERS": {"upload_streams": str(len(flows))},
                "SERIES_META": {name: {"MEAN_VALUE": mean([it for it in values if it is not None]), "UNITS": "ms" if name == PING else "Mbits/s"}
                                for name, values in results.items()}}
    with gzip.open(to, "wt") as out:
        json.dump({"version": 4, "metadata": metadata, "x_values": points, "results": results, "raw_values": raw}, out, sort_keys=True)


main()
