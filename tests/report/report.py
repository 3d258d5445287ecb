#!/usr/bin/env python3
"""Tests reports (report/pie-report). The page must contain the history byte for byte, and be otherwise the page of `make web`. With --flows it must have the
names of the flows. Hostile texts must stay text. The status and the message of a history that differs or has a fault must be those of `pie explain`.
FILE must be written as `pie -o` writes it.

Then Debian's Chromium opens pages of an example, of a part of it, of damaged histories, of flows, of wall-clock times, of steps of Linux, and of a hostile
name. Each must show its finding, its time and its numbers by itself, and write nothing on the console. tests/web/web.py tests the page.

usage: tests/report/report.py [PROGRAM [PICTURES]]      PROGRAM: crates/pie/out/pie by default; PICTURES: a folder for the pictures
needs: program
"""
import base64
import csv
import gzip
import html
import io
import json
import os
import re
import shutil
import subprocess
import sys
import tempfile
from pathlib import Path

sys.path.insert(0, f"{os.path.dirname(os.path.abspath(__file__))}/../shared")
from checks import NAME, ROOT, check, finish, program, with_selenium  # noqa: E402

PROGRAM = program()
PICTURES = sys.argv[2] if len(sys.argv) > 2 else None
REPORT = ROOT / "report/pie-report"
HOSTILE = "<script>document.title='hurt'</script><img src=x onerror=\"document.title='hurt'\">&quot;'\\u003c"
PLACE = '<script type="text/plain" id="history"'


def explain(path, *words):
    done = subprocess.run([PROGRAM, "explain", *words, "--", path], capture_output=True, encoding="utf-8", check=False)
    return done.returncode, done.stdout, done.stderr


def table(text):
    return list(csv.DictReader(io.StringIO(text)))


class Reports:
    """Reports with one page and one program."""

    def __init__(self, folder):
        self.folder, self.page = Path(folder), Path(folder, "web.html")
        done = subprocess.run([ROOT / "web/make.py", self.page], capture_output=True, text=True, check=False)
        if done.returncode:
            print(f"NOT RUN: {NAME}: {done.stderr.strip()}")
            finish()

    def run(self, *words, using=PROGRAM):
        done = subprocess.run([REPORT, "--pie", using, "--page", self.page, *words], capture_output=True, encoding="utf-8", errors="replace", check=False)
        return done.returncode, done.stdout, done.stderr

    def inside(self, page):
        """Returns the history in a page, and its attributes. The rest must be the page of `make web`."""
        head, history, rest = re.search(rf"({re.escape(PLACE)}[^>]*>)([^<]*)(</script>)", page, re.S).groups()
        check(page.replace(head + history + rest, f"{PLACE}>{rest}") == self.page.read_text(), "a report differs from the page elsewhere")
        check(head.isascii(), f"letters that are not ASCII: {head}")
        return gzip.decompress(base64.b64decode(history)), {key: html.unescape(value) for key, value in re.findall(r'data-([a-z]+)="([^"]*)"', head)}


def texts(folder):
    """Returns histories with their status and a part of the message: name, path, status, message, options."""
    overload = ROOT / "examples/overload.history"
    lines = overload.read_text().splitlines(keepends=True)
    at = next(place for place in range(600, len(lines)) if lines[place].endswith(",enqueue\n"))
    made = {
        "differs": (2, "".join([*lines[:at], lines[at].replace(",enqueue\n", ",early\n"), *lines[at + 1 :]]), f"event {at}"),
        "fault": (1, "".join([*lines[:700], "nonsense\n"]), "record 701: unknown kind; line 701, field 1 (kind): \"nonsense\"; allowed are "),
        "hostile words": (1, "".join([*lines[:700], f"arrive,1,999999999,1,1250,{HOSTILE},7,{HOSTILE}\n"]), "record 701"),
        "no events": (0, lines[0], ""),
        f"a 'quoted' {HOSTILE.replace('/', '-')}": (0, "".join(lines), ""),
    }
    for name, (status, text, told) in made.items():
        path = Path(folder, f"{name}.history")
        path.write_text(text)
        yield name, path, status, told, ()
    clock, trace = Path(folder, "clock.history"), Path(folder, "trace")
    trace.write_text("open3,1,rate,derandomized,capped,unscaled,rolling,0,1,32,100000\nclock,0,1795550400000000000\n"
                     + "".join(f"arrive,1,{moment},1,1250,not,0\ndepart,2,{moment + 1}\n" for moment in range(0, 3 * 10**9, 10**7)))
    subprocess.run([PROGRAM, "run", "-o", clock, trace], check=True)
    packed = Path(folder, "packed.history.gz")
    packed.write_bytes(gzip.compress(overload.read_bytes()))
    yield from (("overload", overload, 0, "", ()), ("a part", overload, 0, "", ("--from", "300ms", "--to", "0.5s")), ("clock", clock, 0, "", ()),
                ("packed", packed, 0, "", ()), ("steps", ROOT / "tests/rows/linux_steps.csv", 0, "", ()))


def hold_pages(reports):
    """Holds each page to its history: yields its name, its place, the status, the summary of its events, and true if an audit has messages."""
    for name, path, status, told, words in texts(reports.folder):
        got, page, errors = reports.run(*words, path)
        check(got == status and told in errors and errors.count("\n") == bool(status), f"{name}: status {got}, {errors}")
        if not page:
            check(False, f"{name}: no page")
            continue
        text, attributes = reports.inside(page)
        raw = path.read_bytes()
        plain = gzip.decompress(raw) if raw[:2] == b"\x1f\x8b" else raw
        check(text == plain, f"{name}: another history is inside")
        readable = path if plain == raw else ROOT / "examples/overload.history"
        row = table(explain(readable, "--summary", "--csv", *words)[1])[0]
        wanted = {"name": path.name} | ({"from": row["first_moment"], "to": row["last_moment"]} if words else {})
        check(attributes == wanted, f"{name}: attributes {attributes}, and not {wanted}")
        place = Path(reports.folder, f"{re.sub('[^a-z ]', '-', name)[:20]}.html")
        place.write_text(page)
        yield name, place, status, row, subprocess.run([PROGRAM, "audit", readable], capture_output=True, check=False).stderr != b""


def flows(reports):
    """Tests the names of flows, and files that name none. Returns the page."""
    path, named = reports.folder / "flows.history", reports.folder / "flows.csv"
    lines = (ROOT / "examples/overload.history").read_text().splitlines(keepends=True)
    for at, line in enumerate(lines):
        fields = line.split(",")
        place = 3 if fields[0] == "arrive" else 4 if fields[0] == "depart" and fields[3] == "left" else None
        if place is not None:
            fields[place] = str((int(fields[place]) % 4 + 1) << 32 | int(fields[place]))
        lines[at] = ",".join(fields)
    path.write_text("".join(lines))
    header = "flow,protocol,source,source_port,destination,destination_port\n"
    named.write_text(header + "".join(f"0x{flow:08x},udp,10.0.0.{flow},53,fd00::{flow},9\n" for flow in (2, 3)) + "0x00000001,47,::1,,::2,\n0x00000002,tcp,10.0.0.2,1,10.0.0.3,2\n")
    status, page, errors = reports.run("--flows", named, path)
    check(status == 0, f"flows: status {status}, {errors}")
    names = json.loads(reports.inside(page)[1]["flows"])
    wanted = {"0x00000002": "udp 10.0.0.2:53 > [fd00::2]:9 or tcp 10.0.0.2:1 > 10.0.0.3:2", "0x00000003": "udp 10.0.0.3:53 > [fd00::3]:9", "0x00000001": "47 ::1 > ::2"}
    check(names == wanted, f"flows: names {names}")
    for text in ("0x1,udp,10.0.0.1,53,10.0.0.2,9\n", f"0x00000001,{HOSTILE},10.0.0.1,53,10.0.0.2,9\n", "0x00000001,udp,10.0.0.1,53,10.0.0.2,9"):
        named.write_text(header + text)
        status, wrong, errors = reports.run("--flows", named, path)
        check(status == 1 and not wrong and "line 2: not a flow" in errors, f"flows: of {text!r}: {status}, {errors}")
    place = reports.folder / "flows.html"
    place.write_text(page)
    return place, path, names


def files(reports):
    """Checks that FILE has its name once all of it was written, that an existing one is kept, and each message."""
    folder, history, place = reports.folder, reports.folder / "burst.history", reports.folder / "page.html"
    shutil.copy(ROOT / "examples/burst.history", history)
    check(reports.run(history, "-o", place)[0] == 0 and place.read_text().endswith("</html>\n"), "-o: no page")
    place.write_text("kept")
    place.chmod(0o600)
    status, _, errors = reports.run(history, "-o", place)
    check(status == 1 and "--force" in errors and place.read_text() == "kept", "-o: a file that was there is not kept")
    check(reports.run(history, "-o", place, "--force")[0] == 0 and place.stat().st_mode & 0o777 == 0o600, "--force: not replaced, or another mode")
    check(not list(folder.glob("*.partial*")), "a partial file is left")
    for words, told in ((("-o", history, "--force"), "the input file"), (("-o", folder), "folder"), (("-o", f"{folder}/no/page"), "No such"), (("--from", "soon"), "--from"),
                        (("--from", "2s", "--to", "1s"), "--from"), (("--pie", f"{folder}/none"), "cannot run"), (("--page", f"{folder}/none"), "none: No such file"),
                        (("--page", history), "no place for a history"), (("--unknown",), "--unknown"), ((history,), "unrecognized"), (("--flows", f"{folder}/none"), "No such file")):
        status, page, errors = reports.run(history, *words)
        check(status == 1 and told in errors and not page and errors.startswith("pie-report: ") and errors.count("\n") == 1, f"{words}: {status}, {errors}")
    for path, told in (("-", "-: No such file or directory"), (folder, f"{folder}: not a file"), (f"{folder}/a\x1b[1m\nb", f"{folder}/a\\x1b[1m\\x0ab: No such file or directory")):
        check(reports.run(path) == (1, "", f"pie-report: {told}\n"), f"{path}: {reports.run(path)}")
    version = re.search(r'^#define PIE_VERSION "(.*)"$', (ROOT / "include/pie.h").read_text(), re.M)[1]
    for word in ("--version", "-V"):
        check(reports.run(word) == (0, f"pie-report {version}\n", ""), f"{word}: {reports.run(word)}")
    odd = os.fsencode(folder) + b"/\xff\xfe.history"
    shutil.copy(history, odd)
    check(reports.run(odd)[0] == 0, "a name that is no text")
    installed, shared = folder / "prefix/bin", folder / "prefix/share/pie"
    for it in (installed, shared):
        it.mkdir(parents=True)
    shutil.copy(REPORT, installed)
    shutil.copy(ROOT / "report/outputs.py", shared)
    shutil.copy(reports.page, shared / "juniperbowls.html")
    (installed / "pie").symlink_to(PROGRAM)
    done = subprocess.run([installed / "pie-report", history], capture_output=True, encoding="utf-8", check=False, env={"PATH": "/usr/bin:/bin"})
    check((done.returncode, done.stderr) == (0, "") and PLACE in done.stdout, f"an installed pie-report: {done.returncode}, {done.stderr!r}")


# ----- In the browser

def browser():
    """Returns Chromium without a window, or prints the missing program and returns nothing."""
    try:
        from selenium import webdriver
        from selenium.webdriver.chrome.service import Service
    except ImportError:
        webdriver = None
    chromium, driver = shutil.which("chromium"), shutil.which("chromedriver")
    if not (webdriver and chromium and driver):
        print(f"NOT RUN: {NAME}: no page was opened, for want of chromium, chromium-driver or python3-selenium (tests/install.sh report)")
        return None
    options = webdriver.ChromeOptions()
    options.binary_location = chromium
    for word in "--headless=new --no-sandbox --disable-gpu --disable-dev-shm-usage --window-size=1400,1000 --disable-component-update".split():
        options.add_argument(word)
    options.set_capability("goog:loggingPrefs", {"browser": "ALL"})
    return webdriver.Chrome(service=Service(driver), options=options)


READY = """const end = arguments[0]; const wait = () => ["ready", "failed"].includes(document.documentElement.dataset.state) ? end() : setTimeout(wait, 20); wait();"""
SEEN = """return { title: document.title, name: document.getElementById("name").textContent, finding: document.getElementById("finding").textContent, fault: document.getElementById("fault").textContent,
    fields: Object.fromEntries([...document.querySelectorAll("[data-field]")].map((it) => [it.dataset.field, it.textContent])), images: document.images.length,
    flows: [...document.querySelectorAll("#flows tr[data-flow]")].map((it) => [it.dataset.flow, it.cells[0].textContent, it.cells[1].textContent]),
    axis: [...document.querySelectorAll(".dygraph-axis-label-x")].map((it) => it.textContent) };"""


def opened(driver, name, place):
    """Opens a page, and returns what it shows."""
    driver.get(place.as_uri())
    driver.set_script_timeout(600)
    driver.execute_async_script(READY)
    seen = driver.execute_script(SEEN)
    check(seen["title"].startswith("PIE: ") and seen["images"] == 0, f"{name}: its title is {seen['title']}, with {seen['images']} pictures")
    told = driver.get_log("browser")
    check(not told, f"{name}: on its console: {told}")
    if PICTURES:
        Path(PICTURES, f"report {place.stem}.png").write_bytes(driver.get_screenshot_as_png())
    return seen


def hold_seen(driver, name, place, status, row, has_messages):
    """Holds a page that opens by itself to the summary of its events."""
    seen = opened(driver, name, place)
    check(("Clean." in seen["finding"]) == (status == 0) and bool(seen["fault"]) == has_messages, f"{name}: {seen['finding']}, {seen['fault']}")
    for field in ("arrivals", "left", "mark") if row["events"] != "0" else ():
        found = seen["fields"].get(field, row[field]).replace(",", "")
        check(found == row[field], f"{name}: {field} is {found}, and not {row[field]}")
    if name == "clock":
        check(seen["axis"] and all(re.fullmatch(r"20:00:0\d\.\d{3}", it) for it in seen["axis"]), f"{name}: the times at the bottom are {seen['axis'][:9]}")


def main():
    with tempfile.TemporaryDirectory() as folder:
        reports = Reports(folder)
        made = list(hold_pages(reports))
        files(reports)
        place, path, names = flows(reports)
        driver = browser()
        if driver:
            try:
                for it in made:
                    hold_seen(driver, *it)
                rows = table(explain(path, "--flows=10", "--csv")[1])
                wanted = [[row["flow"], {"others": "all others"}.get(row["flow"], names.get(row["flow"], row["flow"])), row["arrivals"]] for row in rows]
                check(opened(driver, "flows", place)["flows"] == wanted, f"flows: not {wanted}")
            finally:
                driver.quit()
    finish()


if __name__ == "__main__":
    with_selenium()
    main()
