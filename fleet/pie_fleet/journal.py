"""Finished rows, stored beside the table until it is complete, so that an interrupted run can continue."""
import json
import os

from outputs import OutputError

BEGINS = b'{"link": '  # of each row


class Journal:
    """A file with one line of JSON for each row, created with the first row. An incomplete last line is ignored."""

    def __init__(self, path):
        self.path = path
        self.rows = {}
        self.file = None
        if os.path.exists(path):
            with open(path, "rb") as kept:
                if not BEGINS.startswith(kept.read(len(BEGINS))):
                    raise OutputError(f"{path}: this is not the journal of an interrupted run")
            with open(path, errors="replace") as kept:
                for line in kept:
                    try:
                        row = json.loads(line)
                        self.rows[row["link"]] = row
                    except (ValueError, KeyError, TypeError):
                        continue

    def add(self, rows):
        if self.file is None:
            self.file = open(self.path, "a")
            if self.file.tell():
                self.file.write("\n")
        for row in rows:
            self.file.write(json.dumps(row) + "\n")
        self.file.flush()

    def end(self):
        """Removes the journal, after the table was written."""
        if self.file:
            self.file.close()
        if os.path.exists(self.path):
            os.unlink(self.path)
