"""pie-fleet: audits and summarizes the histories of many links, and writes one table."""
import argparse
import difflib
import gc
import subprocess
import sys
from pathlib import Path

sys.path.insert(0, str(Path(__file__).resolve().parents[2] / "report"))
from outputs import OutputError, check_outputs  # noqa: E402

from . import changes, page, table, work  # noqa: E402
from .journal import Journal  # noqa: E402

HELP = """The status is the first that applies: 1 if a history could not be audited; 2 if one differs; 3 if, with --since, a column of a link
rose by more than its bound of --worse; otherwise 0."""


def arguments(words):
    parser = argparse.ArgumentParser(prog="python3 -m pie_fleet", description=__doc__, epilog=HELP)
    parser.add_argument("histories", nargs="*", metavar="PATTERN", help="histories on storage that all workers see, as shell patterns ('**' too)")
    parser.add_argument("--list", metavar="FILE", help="a file with histories that only one machine has, as lines 'host: path'")
    parser.add_argument("--scheduler", metavar="ADDRESS", help="the Dask scheduler, such as tcp://10.0.0.1:8786 (default: run in this process)")
    parser.add_argument("-o", "--output", metavar="TABLE", required=True, help="the table, as CSV; finished rows are in TABLE.journal until it is complete")
    parser.add_argument("--force", action="store_true", help="replace an existing table, and an existing page")
    parser.add_argument("--since", metavar="TABLE", help="an earlier table: audit only new and changed files, and print the changes")
    parser.add_argument("--worse", metavar="COLUMN=BY", action="append", default=[], type=changes.Bound,
                        help="with --since: print each link with a column that rose by more than this, in its unit or in per cent ('mean_wait=20%%')")
    parser.add_argument("--worst", metavar="COLUMN", action="append", default=[], help="print the ten links with the greatest values of a column")
    parser.add_argument("--page", metavar="HTML", help="also write the table as a page, with links to the reports")
    parser.add_argument("--reports", metavar="FOLDER", default="reports", help="the folder with the reports (default: reports)")
    parser.add_argument("--pie", metavar="PROGRAM", default="pie", help="the program on the workers (default: pie)")
    parser.add_argument("--patience", metavar="SECONDS", type=int, default=60, help="the time that a history waits for a worker of its host (default: 60)")
    parser.add_argument("--quiet", action="store_true", help="show no progress bar")
    asked = parser.parse_args(words)
    if not asked.histories and not asked.list:
        parser.error("no histories: name patterns, or a list")
    if asked.worse and not asked.since:
        parser.error("--worse goes with --since")
    return asked


class Bar:
    """Shows the progress on standard error, if it is a terminal."""

    def __init__(self, of, quiet):
        self.of, self.done, self.shows = of, 0, not quiet and sys.stderr.isatty()

    def add(self, more):
        self.done += more
        if self.shows:
            filled = 40 * self.done // max(1, self.of)
            print(f"\r[{'#' * filled}{' ' * (40 - filled)}] {self.done} of {self.of} histories", end="", file=sys.stderr, flush=True)

    def end(self):
        if self.shows:
            print(f"\r{' ' * 80}\r", end="", file=sys.stderr, flush=True)


def plain(line):
    """Returns a line without control characters, which names of files may have: a terminal would obey them."""
    return "".join(f"\\x{ord(it):02x}" if ord(it) < 32 or ord(it) == 127 else it for it in line)


def report_line(line):
    print(plain(f"pie-fleet: {line}"), file=sys.stderr)


def listed(path):
    """Yields the histories of a list: (link, path, host) of each line 'host: path'."""
    with open(path, **table.NAMES) as lines:
        for number, line in enumerate(lines, 1):
            line = line.rstrip("\n")
            if line.strip() and not line.startswith("#"):
                host, mark, name = line.partition(": ")
                if not mark or not host.strip() or not name.strip():
                    raise SystemExit(f"pie-fleet: {path}: line {number}: not 'host: path'")
                yield f"{host.strip()}: {name.strip()}", name.strip(), host.strip()


def known_of(row):
    """Returns the size and modification time from which a row was made, if the row has a
    finding."""
    if row and row.get("finding") in work.FOUND and row.get("size") not in ("", None):
        return int(row["size"]), int(row["changed"])
    return None


def client_of(scheduler):
    """Returns a client of the scheduler. Importing Dask takes most of a run's start: garbage collection is off
    meanwhile, and the imported objects are not scanned later."""
    gc.disable()
    from distributed import Client
    gc.freeze()
    gc.enable()
    return Client(scheduler)


def check_files(asked, inputs):
    """Raises `OutputError` if an output is one of these inputs or another output, or if it exists and must not be replaced."""
    journal = f"{asked.output}.journal"  # (of an interrupted run, which continues)
    check_outputs([asked.output, journal, *([asked.page] if asked.page else [])], inputs, lambda name: asked.force or name == journal)


def check_columns(asked, fields):
    """Raises `ValueError` if --worst or --worse name no column of numbers. `fields` are those of the summary."""
    known = set(work.KNOWN + table.SHARES + fields) - set(work.WORDS)
    for column in [*asked.worst, *(bound.column for bound in asked.worse)]:
        if column not in known:
            near = difflib.get_close_matches(column, known, 1)
            raise ValueError(f"{column}: not a column of numbers{f'; the nearest is {near[0]}' if near else ''}")


def gather(asked, rows, add):
    """Finds the histories and has their rows made. Returns the links in order."""
    client = workers = None
    if asked.scheduler:
        client = client_of(asked.scheduler)
        from . import cluster
        workers = cluster.Workers(client, asked.pie, report_line)
        if workers.wanted is None:
            raise SystemExit(f"pie-fleet: no worker has {asked.pie}")
        fit = workers.fit(None)
        check_columns(asked, client.submit(work.fields_of, asked.pie, workers=fit, pure=False).result())
        found, missing = client.submit(work.expand, asked.histories, workers=fit, pure=False).result() if asked.histories else ([], [])
    else:
        found, missing = work.expand(asked.histories)
        if work.version_of(asked.pie) is None:
            raise SystemExit(f"pie-fleet: there is no program {asked.pie} here")
        check_columns(asked, work.fields_of(asked.pie))
    if missing:
        raise SystemExit(f"pie-fleet: no file is named {missing[0]}")
    sizes = dict(found)
    check_files(asked, sizes)
    files = [(name, name, None) for name, _ in found] + (list(listed(asked.list)) if asked.list else [])
    files = [(link, path, host, known_of(rows.get(link))) for link, path, host in dict.fromkeys(files)]
    bar = Bar(len(files), asked.quiet)

    def done(made):
        add(made)
        bar.add(len(made))

    if client:
        cluster.run(client, workers, files, sizes, done, asked.patience)
        client.close()
    else:
        for each in files:
            done([work.row_of(*each, asked.pie)])
    bar.end()
    return [file[0] for file in files]


def print_worst(rows, column):
    chosen = table.worst(rows, column)
    print(f"the greatest {column}:")
    for row in chosen:
        print(plain(f"  {row[column]:>16}  {row['link']}"))


def main(words):
    asked = arguments(words)
    for stream in (sys.stdout, sys.stderr):
        stream.reconfigure(errors="surrogateescape")  # (the bytes of a name are written as they are)
    check_files(asked, [name for name in (asked.since, asked.list) if name])
    before = table.read(asked.since) if asked.since else {}
    journal = Journal(f"{asked.output}.journal")
    rows = {**before, **journal.rows}

    def add(made):
        new = [table.with_shares(row) for row in made if not row.get("same")]
        rows.update((row["link"], row) for row in new)
        journal.add(new)

    links = gather(asked, rows, add)
    ended = [rows[link] for link in links]
    table.write(asked.output, ended, asked.force)
    journal.end()
    if asked.page:
        page.write(asked.page, ended, asked.reports, asked.force)
    found = changes.changes(before, ended, asked.worse) if asked.since else []
    for line in found:
        print(plain(line))
    for column in asked.worst:
        print_worst(ended, column)
    for row in ended:
        if int(row["status"]) == 1:
            report_line(f"{row['link']}: {row['finding']}: {row['note']}")
    status = table.status_of(ended)
    return status or (3 if any(": differs for" not in line for line in found) else 0)


if __name__ == "__main__":
    try:
        sys.exit(main(sys.argv[1:]))
    except (OSError, ValueError, OutputError, subprocess.SubprocessError) as fault:
        report_line(fault)
        sys.exit(1)
    except KeyboardInterrupt:
        report_line("stopped: the same command continues")
        sys.exit(130)
