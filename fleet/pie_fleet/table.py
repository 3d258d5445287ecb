"""The table: one row for each link, with the columns of the file, percentages, and the fields of `pie explain --summary --csv` under their names."""
import csv
import sys

from outputs import output_file

from .work import KNOWN

# Files with names of histories have the bytes of the names, which may be no text.
NAMES = {"encoding": sys.getfilesystemencoding(), "errors": sys.getfilesystemencodeerrors()}

SHARES = ["loss_percent", "marks_percent"]


def number(row, field):
    """Returns a field as a number, or None if it is empty or not a number."""
    try:
        return float(row.get(field, ""))
    except (TypeError, ValueError):
        return None


def with_shares(row):
    """Adds the percentages of lost and marked arrivals to a row."""
    arrivals = number(row, "arrivals")
    if arrivals:
        lost = sum(number(row, verdict) or 0 for verdict in ("early", "bytes", "packets"))
        row["loss_percent"] = f"{100 * lost / arrivals:.4f}"
        row["marks_percent"] = f"{100 * (number(row, 'mark') or 0) / arrivals:.4f}"
    return row


def columns(rows):
    """Returns the names of all columns: those of the file, the percentages, and the summary's fields in its order."""
    summary = {}
    for row in rows:
        for name in row:
            if name not in KNOWN and name not in SHARES:
                summary[name] = None
    return KNOWN + SHARES + list(summary)


def write(path, rows, force=False):
    """Writes the table, which has its name when all of it is on the disk. An existing table is replaced only with `force`."""
    with output_file(path, force, "w", newline="", **NAMES) as out:
        to = csv.DictWriter(out, columns(rows), restval="", lineterminator="\n")
        to.writeheader()
        to.writerows(rows)


def read(path):
    """Returns the rows of a table, by link."""
    with open(path, newline="", **NAMES) as table:
        return {row["link"]: row for row in csv.DictReader(table)}


def worst(rows, column, most=10):
    """Returns the rows with the greatest values in a column, the greatest first."""
    known = [row for row in rows if number(row, column) is not None]
    return sorted(known, key=lambda row: (-number(row, column), row["link"]))[:most]


def status_of(rows):
    """Returns the status of the whole, as `pie audit` does: 1 if a history could not be audited; otherwise 2 if one differs; otherwise 0."""
    met = {int(row["status"]) for row in rows}
    return 1 if met - {0, 2} else 2 if 2 in met else 0
