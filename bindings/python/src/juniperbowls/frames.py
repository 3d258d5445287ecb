"""The output of the program `pie` for a history, and a history's events, as pandas frames. Whole numbers stay
whole: a column with missing numbers has the type UInt64; keywords are categories, wall-clock times datetimes."""
from __future__ import annotations

import contextlib
import io
import os
import re
import subprocess
import tempfile
from collections.abc import Generator, Iterator
from typing import IO, TYPE_CHECKING, Any, NamedTuple

import numpy as np
import numpy.typing as npt

from .controller import Kind
from .history import EVENT, Events, Place, as_events, column
from .opening import Choices, Mode, Opening, Params, Profile

if TYPE_CHECKING:
    import pandas as pd

ECN = ("not", "ect1", "ect0", "ce")
VERDICTS = ("enqueue", "mark", "early", "bytes", "packets")
ANSWERS = (*VERDICTS, "left", "empty", "updated", "done", "refused")
_WORDS = ("kind", "verdict", "cause", "ecn", "flow")


class Fault(RuntimeError):
    """A history that `pie` cannot read to its end, or an event in it that differs. The text is the
    message of `pie`."""

    def __init__(self, text: str, status: int):
        super().__init__(text)
        #: the program's: 1 for a fault, 2 for an event that differs
        self.status = status

    def __reduce__(self) -> tuple[type[Fault], tuple[str, int]]:
        return type(self), (str(self), self.status)


class Finding(NamedTuple):
    """The finding of an audit: `clean` with the number of the last event, or `differs` with that of the first event
    that differs."""
    word: str
    event: int

    @property
    def is_clean(self) -> bool:
        """True if no event differs from the rules."""
        return self.word == "clean"


def _program(pie: str | None) -> str:
    """Returns the program: the argument, otherwise $PIE, otherwise `pie` on the path."""
    return pie or os.environ.get("PIE") or "pie"


def audit(history: Place, pie: str | None = None) -> Finding:
    """Audits a history by `pie audit`. `pie` names the program; the default is $PIE, or else `pie`
    on the path."""
    with open(history, "rb") as text:
        done = subprocess.run([_program(pie), "audit"], stdin=text, capture_output=True, text=True, errors="replace", check=False)
    if done.returncode not in (0, 2):
        raise Fault(done.stderr.strip(), done.returncode)
    word, _, event = done.stdout.strip().partition(",")
    return Finding(word, int(event))


def explain(history: Place, *options: str, pie: str | None = None) -> pd.DataFrame:
    """Returns the output of `pie explain` for a history with these options (`--all` by default),
    for example `explain(place, "--every", "100ms")`. The columns are those of docs/FORMATS.md,
    "Explanations". With `--wall` the column `wall` has texts if a time is later than 2262-04-11,
    the last day of pandas. Raises `Fault` if the history has a fault or an event that differs, and
    `ValueError` for options that print no table (`-o`, `--help`)."""
    import pandas as pd

    parts = list(_explained(history, options, 500_000, pie))
    if not parts:
        raise ValueError(f"pie explain prints no table with the options {options}")
    if len(parts) == 1:
        return _timed(parts[0])
    every = {name: pd.api.types.union_categoricals([part[name] for part in parts]) for name in _WORDS if name in parts[0]}
    whole = pd.concat([part.drop(columns=list(every)) for part in parts], ignore_index=True)
    return _timed(whole.assign(**every)[list(parts[0])])


def explain_parts(history: Place, *options: str, rows: int = 500_000, pie: str | None = None) -> Iterator[pd.DataFrame]:
    """Yields the frame in parts of about `rows` rows, for histories that are larger than the memory."""
    with contextlib.closing(_explained(history, options, rows, pie)) as parts:
        yield from map(_timed, parts)


def _timed(rows: pd.DataFrame) -> pd.DataFrame:
    """Returns a frame with its wall-clock times as datetimes, unless they are out of the range of pandas's
    nanoseconds."""
    import pandas as pd

    if "wall" not in rows:
        return rows
    try:
        return rows.assign(wall=pd.to_datetime(rows["wall"], utc=True).array)
    except pd.errors.OutOfBoundsDatetime:
        return rows


def _explained(history: Place, options: tuple[str, ...], rows: int, pie: str | None) -> Generator[pd.DataFrame, None, None]:
    elsewhere = [it for it in options if re.fullmatch(r"-[oh].*|--(output|help)(=.*)?", it, re.S)]
    if elsewhere:
        raise ValueError(f"pie explain prints no table with the option {elsewhere[0]}")
    # (the history is the standard input: its name may be no text)
    words = [_program(pie), "explain", *(options or ("--all",)), "--csv"]
    with tempfile.TemporaryFile() as errors, open(history, "rb") as text:
        with subprocess.Popen(words, stdin=text, stdout=subprocess.PIPE, stderr=errors) as process:
            assert process.stdout is not None
            try:
                yield from _parts(process.stdout, rows)
            except GeneratorExit:
                process.kill()
                raise
        if process.returncode:
            errors.seek(0)
            raise Fault(errors.read().decode(errors="replace").strip(), process.returncode)


def _parts(stream: IO[bytes], rows: int) -> Iterator[pd.DataFrame]:
    names, most, count, rest = stream.readline().decode().rstrip("\n").split(","), 0, 0, b""
    while names != [""]:
        # (the first part has few rows; they give the length of a row)
        block = stream.read(most or 1 << 16)
        if not block and count and not rest:
            return
        whole, line_feed, rest = (rest + block).rpartition(b"\n") if block else (rest, b"", b"")
        part = _table(names, whole + line_feed, count)
        count += len(part)
        most = most or max(len(whole) // max(len(part), 1), 1) * rows
        yield part
        if not block:
            return


def _table(names: list[str], body: bytes, first: int) -> pd.DataFrame:
    """Returns rows of comma-separated fields as a frame. The fields are whole numbers and words
    without commas, and may be empty. By default pandas reads a column with empty fields as floating
    point, which cannot represent a random word."""
    import pandas as pd

    text = np.frombuffer(body, np.uint8)
    ends = np.flatnonzero((text == ord(",")) | (text == ord("\n")))
    empty = (np.diff(ends, prepend=-1) == 1).reshape(-1, len(names))
    filled = body.replace(b",,", b",0,").replace(b",,", b",0,").replace(b",\n", b",0\n")
    kinds = {name: "category" if name in _WORDS else "string" if name == "wall" else "uint64" for name in names}
    found = pd.read_csv(io.BytesIO(filled), names=names, dtype=kinds, na_filter=False, index_col=False)
    columns: dict[str, Any] = {}
    for name, missing in zip(names, empty.T):
        column = found[name]
        if name == "wall":
            columns[name] = column.mask(missing).array
        elif name in _WORDS:
            columns[name] = column.cat.remove_categories([it for it in column.cat.categories if it == "0"]).array
        else:
            columns[name] = _numbers(column.to_numpy(), missing)
    return pd.DataFrame(columns, index=pd.RangeIndex(first, first + len(found)))


def _numbers(values: npt.NDArray[Any], missing: npt.NDArray[np.bool_]) -> Any:
    """Returns whole numbers, some of which may be missing."""
    import pandas as pd

    return pd.arrays.IntegerArray(values.astype(np.uint64), missing.copy()) if missing.any() else values


def frame(events: Events, first: int = 1) -> pd.DataFrame:
    """Returns events as a frame with a row for each event, in the words of a history. The events
    are those of `Queue.decide`, `Queue.offer` or `read_events`. `first` is the number of the first
    event; a refused event has no number."""
    import pandas as pd

    events = as_events(events)
    kind, is_refused = events["kind"], events["answer"] > 100
    arrives, departs, updates = ((kind == it) & ~is_refused for it in (Kind.ARRIVE, Kind.DEPART, Kind.UPDATE))
    left = departs & (events["answer"] == 0)
    answer = np.full(len(events), ANSWERS.index("done"))
    answer[arrives] = events["answer"][arrives]
    answer[left], answer[departs & ~left] = ANSWERS.index("left"), ANSWERS.index("empty")
    answer[updates], answer[is_refused] = ANSWERS.index("updated"), ANSWERS.index("refused")
    columns: dict[str, Any] = {
        "number": _numbers(np.cumsum(~is_refused).astype(np.uint64) + np.uint64(first - 1), is_refused),
        "kind": pd.Categorical.from_codes(kind.astype(int) - 1, [it.name.lower() for it in Kind]),
        "caller": events["caller"],
        "moment": events["moment"],
        "answer": pd.Categorical.from_codes(answer, ANSWERS),
    }
    has_packet = arrives | left
    columns["ecn"] = pd.Categorical.from_codes(np.where(has_packet, events["ecn"], -1), ECN)
    for name, has in (("tag", has_packet), ("size", has_packet), ("word", arrives), ("delay", updates), ("prob", updates), ("burst", updates)):
        columns[name] = _numbers(events[name], ~has)
    return pd.DataFrame(columns)


def read_history(history: Place) -> pd.DataFrame:
    """Returns the events of a history as a frame, in the form of `frame`. The history is not
    audited; use `audit`. Raises `ValueError` if the file is no history."""
    events = read_events(history)
    with open(history, "rb") as text:
        beginning = text.readline().removeprefix(b"\xef\xbb\xbf").decode("latin-1").rstrip("\r\n").split(",")
    try:
        return frame(events, _number(beginning[_count_at(beginning)]) + 1 if beginning[0] == "resume" else 1)
    except IndexError:
        raise ValueError(f"{_shown(history)}: its first record lacks fields") from None


def _count_at(fields: list[str]) -> int:
    """Returns the position of the number of events in a `resume` record: 29, or 30 if the record has the decay."""
    return 29 + (fields[6] in ("zero", "half"))


def _number(text: str) -> int:
    """Returns the number of a field: decimal digits, below 2^64."""
    if not re.fullmatch("[0-9]+", text) or len(text) > 20 or int(text) >= 1 << 64:
        raise ValueError(f"{text[:30]!r} is no number of a history")
    return int(text)


def _shown(history: Place) -> str:
    return os.fsdecode(history)


def read_opening(history: Place) -> Opening:
    """Returns the opening of a history or a trace. Raises `ValueError` if its first record is not an opening."""
    with open(history, encoding="utf-8-sig") as text:
        kind, *fields = text.readline().rstrip("\r\n").split(",")
    profile, choices = Profile.ALWAYS_ON, Choices.USUAL
    try:
        if kind in ("open2", "open3", "resume"):
            profile = Profile(_number(fields.pop(0)))
        if kind in ("open3", "resume"):
            words = [fields.pop(0) for _ in range(5 if fields[4] in ("zero", "half") else 4)]
            choices = Choices(sum(_CHOSEN[at].index(word) << at for at, word in enumerate(words)))
        mode = _MODES[kind if kind in ("open", "rolling") else fields.pop(0)]
        if len(fields) not in ((53,) if kind == "resume" else (4, 13)):
            raise ValueError(f"{len(fields)} fields")
        numbers = [_number(it) for it in fields[:13]]
        params = Params(*numbers[4:]) if len(numbers) > 4 else Params.default()
        moment, packets, tail, events = numbers[:4]
    except (KeyError, IndexError, TypeError, ValueError):
        raise ValueError(f"{_shown(history)}: its first record says no opening") from None
    return Opening(params, moment, profile, choices, mode, packets, tail, events)


_MODES = {"open": Mode.BOUNDED, "bounded": Mode.BOUNDED, "rolling": Mode.ROLLING}
_CHOSEN = (("rate", "stamp"), ("derandomized", "random"), ("capped", "uncapped"), ("unscaled", "scaled"), ("zero", "half"))


# for each kind of record and number of fields: the fields after caller and moment
_FIELDS: dict[tuple[bytes, int], tuple[str, ...]] = {
    (b"arrive", 8): ("tag", "size", "ecn", "word", "answer"),
    (b"depart", 7): ("answer", "tag", "size", "ecn"),
    (b"depart", 4): ("answer",),
    (b"update", 6): ("delay", "prob", "burst"),
    (b"reset", 4): ("answer",),
    (b"params", 13): (*(f"parameter {it}" for it in range(9)), "answer"),
}
_CODES = {"enqueue": 0, "mark": 1, "early": 2, "bytes": 3, "packets": 4, "left": 0, "empty": 5, "done": 0}
# digits become 0, letters a, commas and line feeds stay, and all other bytes become ?
_SORTS = bytes(it if it in b",\n" else ord("0") if chr(it) in "0123456789" else ord("a") if 97 <= it <= 122 else ord("?") for it in range(256))
_NOTES = frozenset((b"", b"refused", b"folded", b"shown", b"tallied", b"clock", b"queued"))


def read_events(history: Place) -> Events:
    """Returns the events of a history as a numpy array, without notes. The file was written by
    `pie` or the library. A `Queue` with another opening can decide the events again. New parameters
    are events of kind 5 without the parameters. Raises `ValueError` if the file is no history, or if
    a number is out of its range."""
    read_opening(history)
    with open(history, "rb") as text:
        lines = text.read().replace(b"\r\n", b"\n").split(b"\n")
    lines[0] = b""  # (the opening)
    places: dict[tuple[bytes, int], list[int]] = {it: [] for it in _FIELDS}
    known, wrong = {kind for kind, _ in _FIELDS}, 0
    for n, line in enumerate(lines):
        kind = line.partition(b",")[0]
        if kind in known:
            at = places.get((kind, line.count(b",") + 1))
            if at is None:
                wrong += 1
            else:
                at.append(n)
        elif kind not in _NOTES:
            raise ValueError(f"{_shown(history)}: line {n + 1} is no record of a history")
    if wrong:
        raise ValueError(f"{_shown(history)}: {wrong} records have a wrong number of fields")
    found = [_events_of(kind, names, [lines[n] for n in places[kind, count]]) for (kind, count), names in _FIELDS.items()]
    return np.concatenate(found)[np.argsort(np.concatenate([np.array(at, np.int64) for at in places.values()]))]


def _events_of(kind: bytes, names: tuple[str, ...], lines: list[bytes]) -> Events:
    """Returns the events of the records of one kind."""
    import pandas as pd

    made = np.zeros(len(lines), EVENT)
    made["kind"] = Kind[kind.decode().upper()]
    if not lines:
        return made
    text = b"\n".join(lines)
    kinds = text.translate(_SORTS)
    if b"?" in kinds or b"0a" in kinds:  # (pandas would read signs, spaces, quotes, fractions and exponents)
        raise ValueError("a field is neither a number nor a word of a history")
    types = {name: "category" if name in ("ecn", "answer", "kind") else "uint64" for name in ("kind", "caller", "moment", *names)}
    try:
        table = pd.read_csv(io.BytesIO(text), names=list(types), dtype=types, na_filter=False)
    except OverflowError:
        raise ValueError("a number does not fit in 64 bits without a sign") from None
    for name in types:
        if name in ("ecn", "answer"):
            codes = {word: code for code, word in enumerate(ECN)} if name == "ecn" else _CODES
            strange = [it for it in table[name].cat.categories if it not in codes]
            if strange:
                raise ValueError(f"{strange[0]!r} is no word of a history")
            made[name] = np.array([codes[it] for it in table[name].cat.categories], np.uint32)[table[name].cat.codes]
        elif name in (EVENT.names or ()) and name != "kind":
            made[name] = column(name, table[name].to_numpy(), EVENT[name].str)
    return made
