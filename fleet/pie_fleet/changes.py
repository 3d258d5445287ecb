"""The changes since an earlier table."""
import re

from .table import number


class Bound:
    """The bound for the rise of a column: 'COLUMN=5' is five of its units, 'COLUMN=20%' a fifth."""

    def __init__(self, words):
        found = re.fullmatch(r"(\w+)=(\d+(?:\.\d+)?)(%?)", words)
        if not found:
            raise ValueError(f"{words}: a bound is COLUMN=NUMBER or COLUMN=NUMBER%")
        self.column, self.by, self.share = found[1], float(found[2]), bool(found[3])
        self.words = found[2] + found[3]

    def is_passed(self, before, now):
        return now > before * (1 + self.by / 100) if self.share else now > before + self.by


def changes(before, rows, bounds):
    """Yields a line for each link that differs for the first time, and for each column of a link that rose by more than its bound."""
    lines = []
    for row in rows:
        old = before.get(row["link"])
        if row["finding"] == "differs" and (old is None or old["finding"] != "differs"):
            lines.append(f"{row['link']}: differs for the first time, at event {row['event']}")
        for bound in bounds if old else ():
            was, now = number(old, bound.column), number(row, bound.column)
            if was is not None and now is not None and bound.is_passed(was, now):
                lines.append(f"{row['link']}: {bound.column} rose from {old[bound.column]} to {row[bound.column]}, by more than {bound.words}")
    return lines
