"""The table as an HTML page: a row for each link, with a link to its report."""
import html
import os
import re
from urllib.parse import quote

from outputs import output_file

from .table import number

SHOWN = ["finding", "event", "note", "arrivals", "loss_percent", "marks_percent", "mean_wait", "wait_99", "greatest_wait", "time_above_target",
         "greatest_probability", "turned_on", "turned_off"]
TIMES = {"mean_wait", "wait_99", "greatest_wait", "time_above_target"}
STYLE = """
body { font: 15px/1.4 sans-serif; margin: 1.5em; color: #222; background: #fff }
table { border-collapse: collapse } th, td { padding: .2em .6em; text-align: right; border-bottom: 1px solid #ddd }
th { text-align: left; position: sticky; top: 0; background: #eee } td.text { text-align: left }
tr.bad td { background: #fde8e8 } code { font-size: 12px; color: #555 }
@media (prefers-color-scheme: dark) { body { color: #ddd; background: #1b1b1b } th { background: #333 } th, td { border-color: #444 }
tr.bad td { background: #4a2020 } a { color: #8ab4f8 } code { color: #aaa } }
"""


def report_name(link):
    """Returns the name of a link's report: its own name, with characters that a file name cannot contain replaced,
    and a number of its letters that makes it unique."""
    mark = 0
    for letter in link:
        mark = (mark * 1_000_003 + ord(letter)) % 2 ** 32
    return f"{re.sub(r'[^A-Za-z0-9._-]+', '_', link).strip('_')[-80:]}-{mark:08x}.html"


def _shown(row, column):
    text = row.get(column, "")
    if column in TIMES and number(row, column) is not None:
        return f"{number(row, column) / 1e6:.3f}"
    return html.escape(str(text))


def write(path, rows, reports, force=False):
    """Writes the page. A row links to its report if the folder `reports` has it, and otherwise shows the command
    that makes it. An existing page is replaced only with `force`."""
    columns = [column for column in SHOWN if any(row.get(column, "") != "" for row in rows)]
    lines = ["<!DOCTYPE html>", '<html lang="en"><head><meta charset="utf-8">',
             "<meta http-equiv=\"Content-Security-Policy\" content=\"default-src 'none'; style-src 'unsafe-inline'\">",
             f"<title>{len(rows)} links</title><style>{STYLE}</style></head><body>", f"<h1>{len(rows)} links</h1>",
             "<p>Waits and times are in milliseconds. Probabilities are in units of 10<sup>-12</sup>.</p><table><tr><th>link</th>"]
    lines += [f"<th>{column.replace('_', ' ')}</th>" for column in columns] + ["<th>report</th></tr>"]
    for row in rows:
        name = report_name(row["link"])
        report = os.path.join(reports, name)
        where = f"{row['host']}: " if row.get("host") else ""
        if os.path.exists(report):
            way = f'<a href="{quote(os.fsencode(os.path.relpath(report, os.path.dirname(os.path.abspath(path)))))}">report</a>'
        else:
            way = f"<code>{html.escape(where)}pie-report {html.escape(quoted(row['path']))} -o {html.escape(quoted(report))}</code>"
        lines.append("<tr>" if str(row["status"]) == "0" else '<tr class="bad">')
        lines.append(f'<td class="text">{html.escape(row["link"])}</td>')
        lines += [f'<td{" class=text" if column in ("finding", "note") else ""}>{_shown(row, column)}</td>' for column in columns]
        lines.append(f'<td class="text">{way}</td></tr>')
    lines.append("</table></body></html>")
    with output_file(path, force) as out:
        # (bytes of a name that are no text become U+FFFD)
        out.write(os.fsencode("\n".join(lines) + "\n").decode(errors="replace").encode())


def quoted(text):
    """Returns a word quoted for a shell; for bash if it has bytes that cannot be printed."""
    if re.fullmatch(r"[A-Za-z0-9._/=:@%+-]+", text):
        return text
    if text.isprintable():
        return "'" + text.replace("'", "'\\''") + "'"
    return "$'" + "".join(chr(it) if 32 <= it < 127 and it not in b"'\\" else f"\\x{it:02x}" for it in os.fsencode(text)) + "'"
