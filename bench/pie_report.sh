#!/usr/bin/env bash
# Measures the report of a history, compared with its audit: the seconds of both, the bytes of the
# page, and, if Chromium is installed, the time until the page is displayed.
# usage: bench/pie_report.sh PROGRAM [RECORDS RUNS]     PROGRAM: crates/pie/out/pie; a million records and 5 runs by default; the least time
set -eu
program=$(realpath "$1") records=${2:-1000000} runs=${3:-5}
here=$(cd "$(dirname "$0")/.." && pwd)
work=$(mktemp -d)
trap 'rm -rf "$work"' EXIT
"$here/bench/trace.py" "$records" 1 mixed > "$work/trace"
"$program" run -o "$work/history" "$work/trace"

# spent COMMAND..: its wall and processor seconds
TIMEFORMAT='%R %U %S'
spent() { { time "$@" > /dev/null; } 2>&1 | awk '{ print $1, $2 + $3 }'; }

# (in turn, and the least of each)
for _ in $(seq "$runs"); do
    echo "$(spent "$program" audit "$work/history") $(spent "$here/report/pie-report" --pie "$program" "$work/history" -o "$work/page.html" --force)"
done | awk '
    { for (i = 1; i <= 4; i++) if (NR == 1 || $i < least[i]) least[i] = $i }
    END { printf "audit %.2f s (processor %.2f), report %.2f s (processor %.2f): %.2f times (processor %.2f)\n",
        least[1], least[2], least[3], least[4], least[3] / least[1], least[4] / least[2] }'
echo "page of $(stat -c %s "$work/page.html") bytes"
command -v chromium > /dev/null && command -v chromedriver > /dev/null || { echo "NOT RUN: no chromium, so no page was opened" && exit 0; }
/usr/bin/python3 - "$work/page.html" "$runs" <<'END'
import pathlib
import sys
from selenium import webdriver
from selenium.webdriver.chrome.service import Service
options = webdriver.ChromeOptions()
for word in ("--headless=new", "--no-sandbox", "--disable-gpu", "--window-size=1400,1000"):
    options.add_argument(word)
driver = webdriver.Chrome(service=Service("/usr/bin/chromedriver"), options=options)
times = []
for _ in range(int(sys.argv[2])):
    driver.get(pathlib.Path(sys.argv[1]).as_uri())
    times.append(driver.execute_script("return performance.getEntriesByType('navigation')[0].loadEventEnd"))
redrawn = driver.execute_script("const from = performance.now(); redraw(); return performance.now() - from")
driver.quit()
print(f"drawn {min(times):.0f} ms after it was opened (at first {times[0]:.0f} ms); drawn anew in {redrawn:.0f} ms")
END
