"""Exact matrix profiles from Python: a client of the program `mprof`, over its pipes.

    from mprof import Session

    with Session(12, scale=3) as session:
        session.load(0, "elnino.csv", [1], header=True)
        print(session.discords(0, 3).start)

A session has eight slots of up to eight channels, each a series of samples, and a method for each command of the
program. It needs Python's standard library alone. Where numpy is there, columns are arrays, and else lists.

Units: samples are decimal numbers with at most `scale` digits behind the point, and nothing is rounded. A distance is
Euclidean, over the samples of two windows. The program computes its square as a whole number, in units of
10^(-2 * scale). `square` and `squares` are this number, as Python's whole numbers, which have no greatest one;
`distance` and `distances` are its root in the unit of the samples, as a float.

Where there is none: -1 in columns of indices, `None` in columns of squares, and infinity in those of distances.

Windows are named by their start, and samples, channels and slots by their number: all are counted from 0.
"""

from __future__ import annotations

import json
import math
import operator
import os
import subprocess
from dataclasses import dataclass
from decimal import ROUND_HALF_EVEN, Decimal, localcontext
from fractions import Fraction
from typing import Any, Dict, Iterable, Iterator, List, Optional, Protocol, Sequence, Tuple, Type, TypeVar, Union

try:
    import numpy
except ImportError:
    numpy = None  # type: ignore[assignment]

__version__ = "1.0.0"
__all__ = [
    "Advanced",
    "Chains",
    "Channel",
    "Column",
    "Consensus",
    "Distance",
    "Ended",
    "Entries",
    "Entry",
    "Found",
    "InputTooLong",
    "Length",
    "Made",
    "Matches",
    "Motif",
    "MprofError",
    "OutOfMemory",
    "Pair",
    "Part",
    "Profile",
    "Ranks",
    "ReadFailed",
    "Refused",
    "Sample",
    "Segment",
    "Session",
    "Words",
    "WordsRefused",
    "WriteFailed",
    "generate",
    "rounded",
    "spell",
]

# the most bytes of a line
_LINE = 1_048_576

Sample = Union[Decimal, float, int, str, None]
"""A sample: a number, its text, or `None` or NaN for a missing one. Those of numpy are samples too."""

Channel = Union[int, Tuple[int, int]]
"""A channel of a slot: `(slot, channel)`, or the slot alone for its channel 0."""

Words = Union[str, "os.PathLike[str]", Sequence[str]]
"""The program: its name or path, or the words that start it, such as `["ssh", "host", "mprof"]`."""

Value = TypeVar("Value", covariant=True)


class Column(Protocol[Value]):
    """A list, or an array of numpy where the session gives arrays."""

    def __len__(self) -> int: ...

    def __iter__(self) -> Iterator[Value]: ...

    def __getitem__(self, place: int) -> Value: ...


# ---- what may go wrong


class MprofError(Exception):
    """What the program says no to, and what ends it."""


# why a line is refused, for people; `{at}` is the item or the record
_REASONS = {
    "long": "the line has more than 1,048,576 bytes",
    "version": "the version of a session is said before all commands",
    "unknown": "there is no such command",
    "fields": "the command has another number of fields",
    "number": "a number is outside its limit",
    "slot": "there is no such slot, or it is closed",
    "kept": "the slot keeps its last samples alone, and the command isn't for such slots",
    "channel": "the slot has another number of channels",
    "sample": "item {at} has a value that is no number, or is too fine or too large, or has another number of values",
    "full": "the slot has no room for so many samples",
    "file": "there is no such file",
    "file-size": "the file has more than 67,108,864 bytes",
    "record": "record {at} has a field that is no sample, or too few fields",
    "rows": "the file has more than 262,144 records",
    "index": "no window starts there",
    "missing": "the window has a missing sample",
}


class Refused(MprofError):
    """A line was refused. It changed nothing, and the session goes on.

    `line` is its number, counted from 1. `word` says why: `index`, `sample` and so on, as docs/FORMAT.md lists them.
    `at` is the item or the record that is meant, counted from 1, where the word names one, and else `None`.
    """

    def __init__(self, line: int, word: str, at: Optional[int] = None) -> None:
        super().__init__(line, word, at)
        self.line = line
        self.word = word
        self.at = at

    def __str__(self) -> str:
        word = self.word if self.at is None else "%s %d" % (self.word, self.at)
        reason = _REASONS.get(self.word, "docs/FORMAT.md says why").format(at=self.at)
        return "line %d is refused: %s (%s)" % (self.line, word, reason)


class Ended(MprofError):
    """The program ended before it answered. `status` is its exit status, below 0 where a signal ended it."""

    meaning = "it ended before it answered"

    def __init__(self, status: int) -> None:
        super().__init__(status)
        self.status = status

    def __str__(self) -> str:
        meaning = "signal %d ended it" % -self.status if self.status < 0 else self.meaning
        return "mprof ended with status %d: %s" % (self.status, meaning)


class WordsRefused(Ended):
    """Status 2: a setting of the session is outside its limits."""

    meaning = "the window isn't 3 to 16,384, or another setting is outside its limits"


class ReadFailed(Ended):
    """Status 3: the input or a file can't be read. A path that leads to no file is `Refused` in place of this."""

    meaning = "a read of the input or of a file failed"


class WriteFailed(Ended):
    """Status 4: the reports can't be written."""

    meaning = "a write or a flush failed"


class InputTooLong(Ended):
    """Status 5: a session reads at most 4,294,967,296 bytes of lines."""

    meaning = "the input is longer than 4,294,967,296 bytes"


class OutOfMemory(Ended):
    """Status 6: the program got no memory."""

    meaning = "out of memory"


_ENDS: Dict[int, Type[Ended]] = {2: WordsRefused, 3: ReadFailed, 4: WriteFailed, 5: InputTooLong, 6: OutOfMemory}


def _ended(status: int) -> Ended:
    return _ENDS.get(status, Ended)(status)


# ---- samples as texts


def spell(sample: Any) -> str:
    """The text of a sample, with all its digits and without an exponent, and `?` for a missing one.

    A float has the fewest digits that name it: 0.1 is `0.1`. A text stays as it is; whether it is a sample says the
    program. A `ValueError` comes of an infinity, and of a text with a blank or a comma.
    """
    if sample is None:
        return "?"
    if isinstance(sample, str):
        text = sample.strip(" \t")
        if "," in text or any(mark.isspace() for mark in text):
            raise ValueError("no sample: %r" % sample)
        return text or "?"
    if isinstance(sample, Decimal):
        if sample.is_nan():
            return "?"
        if sample.is_finite():
            return format(sample, "f")
    elif isinstance(sample, float):
        if math.isnan(sample):
            return "?"
        if math.isfinite(sample):
            text = float.__repr__(sample)
            return format(Decimal(text), "f") if "e" in text else text
    elif numpy is not None and isinstance(sample, numpy.floating):
        if numpy.isnan(sample):
            return "?"
        if numpy.isfinite(sample):
            return numpy.format_float_positional(sample, trim="-")
    elif not isinstance(sample, bool):
        return str(operator.index(sample))
    raise ValueError("no sample: %r" % (sample,))


def rounded(samples: Iterable[Any], scale: int) -> List[Optional[Decimal]]:
    """Samples with so many digits behind the point, rounded to the nearest, of two as near to the even one.

    The program rounds nothing, and refuses a sample with a digit past the scale. So what is measured as floats is
    rounded here, where it is seen: `session.append(0, rounded(values, 3))`.
    """
    unit = Decimal(1).scaleb(-scale)
    with localcontext() as context:
        # more digits than the greatest float has before its point and behind it
        context.prec = 800
        texts = (spell(sample) for sample in samples)
        return [None if text in _MISSING else Decimal(text).quantize(unit, ROUND_HALF_EVEN) for text in texts]


# how a missing sample is written
_MISSING = ("?", "nan", "NaN", "NA")


def _is_array(value: Any) -> bool:
    return numpy is not None and isinstance(value, numpy.ndarray)


def _items(samples: Any) -> Iterator[str]:
    """The items of an `append`: a text for each moment, with commas where a moment has several samples."""
    if _is_array(samples) and (samples.dtype == float or samples.dtype.kind in "iu"):
        # Python's own numbers have the same digits, and are quicker
        samples = samples.tolist()
    for moment in samples:
        several = isinstance(moment, (list, tuple)) or _is_array(moment)
        yield ",".join(map(spell, moment)) if several else spell(moment)


def _lines_of(head: str, fields: Iterable[str]) -> Iterator[Tuple[str, int]]:
    """Lines that begin so, with as many of the fields as each can hold, and how many these are. There is always one."""
    parts = [head]
    length = len(head)
    for field in fields:
        # an LF doesn't count
        if len(parts) > 1 and length + 1 + len(field) > _LINE:
            yield " ".join(parts), len(parts) - 1
            parts = [head]
            length = len(head)
        parts.append(field)
        length += 1 + len(field)
    yield " ".join(parts), len(parts) - 1


# ---- what is reported


@dataclass(frozen=True)
class Distance:
    """A distance: the exact square, in units of 10^(-2 * scale), and its root, in the unit of the samples."""

    square: int
    distance: float


@dataclass(frozen=True)
class Entry:
    """A window and the windows that are nearest to it: anywhere (`index`), before it (`left`), behind it (`right`).

    `square` and `distance` are those of `index`.
    """

    start: int
    square: Optional[int]
    index: int
    left: int
    right: int
    distance: float


@dataclass(frozen=True, eq=False)
class Matches:
    """Windows that match one: K squares, K starts, K distances."""

    squares: Column[int]
    index: Column[int]
    distances: Column[float]

    def __len__(self) -> int:
        return len(self.index)


@dataclass(frozen=True, eq=False)
class Entries:
    """Windows, and the nearest one of each: W starts, W squares, W starts of the nearest ones, W distances."""

    start: Column[int]
    squares: Column[Optional[int]]
    index: Column[int]
    distances: Column[float]

    def __len__(self) -> int:
        return len(self.start)

    def table(self) -> Any:
        """W rows of four columns as STUMPY has them: distance, index, left, right, with -1 in the last two of a join.

        It is an array of objects where columns are arrays, as that of `stumpy.aamp`, and else a list of rows.
        """
        none = [-1] * len(self)
        return _rows(self.distances, self.index, getattr(self, "left", none), getattr(self, "right", none))


@dataclass(frozen=True, eq=False)
class Profile(Entries):
    """A matrix profile: `left` and `right` are W starts of the nearest window before and behind."""

    left: Column[int]
    right: Column[int]


@dataclass(frozen=True, eq=False)
class Part(Profile):
    """The profile of the pairs of windows whose diagonals are covered. `uncovered` is how many diagonals aren't."""

    uncovered: int


@dataclass(frozen=True)
class Advanced:
    """How many diagonals were covered, and how many are left."""

    done: int
    left: int


@dataclass(frozen=True, eq=False)
class Ranks:
    """The K nearest windows of each of W windows, by rising distance: W starts, and W rows of K columns each.

    Rows with fewer are filled up with what stands where there is none.
    """

    start: Column[int]
    squares: Column[Column[Optional[int]]]
    index: Column[Column[int]]
    distances: Column[Column[float]]

    def __len__(self) -> int:
        return len(self.start)


@dataclass(frozen=True)
class Found:
    """A window, and the one that is nearest to it: its start, the square and the distance, and the start of the other."""

    start: int
    square: int
    distance: float
    index: int


@dataclass(frozen=True)
class Length:
    """A window length: how many windows there are, the nearest pair and the most unusual window, `None` where there is none."""

    length: int
    windows: int
    best: Optional[Found]
    discord: Optional[Found]


@dataclass(frozen=True)
class Motif:
    """A pattern: the window at `start`, and the windows that match it, itself as the first."""

    start: int
    matches: Matches


@dataclass(frozen=True)
class Chains:
    """All chains, each the starts of its windows, and which of them is the longest, `None` where there is none."""

    chains: List[List[int]]
    longest: Optional[int]


@dataclass(frozen=True)
class Segment:
    """A change of regime, and the corrected arc count there, num / den."""

    place: int
    num: int
    den: int

    @property
    def value(self) -> Fraction:
        return Fraction(self.num, self.den)


@dataclass(frozen=True)
class Consensus:
    """A window that has another within `radius` in each channel.

    `series` is its place in the list of channels, and `nearest` has one window for each place.
    """

    square: int
    radius: float
    series: int
    start: int
    nearest: Matches


@dataclass(frozen=True)
class Pair:
    """A window and its nearest one."""

    square: int
    start: int
    index: int


@dataclass(frozen=True)
class Made:
    """The summary of a made series: its nearest pair, its first discord, its first change of regime."""

    samples: int
    windows: int
    best: Optional[Pair]
    discord: Optional[Pair]
    segment: Optional[Segment]


def _rows(*columns: Any) -> Any:
    """Columns as rows: an array of objects where they are arrays, and else a list of lists."""
    if isinstance(columns[0], list):
        return [list(row) for row in zip(*columns)]
    table = numpy.empty((len(columns[0]), len(columns)), dtype=object)
    for place, column in enumerate(columns):
        table[:, place] = column if isinstance(column, list) else column.tolist()
    return table


def _index(value: Optional[int]) -> int:
    """An index as a column has it."""
    return -1 if value is None else value


def _square_in(found: Dict[str, Any]) -> Optional[int]:
    """The square of a window that was found. It comes as a text, since it has up to 35 digits."""
    return None if found["dist"] is None else int(found["dist"])


class _Shape:
    """How the reports of a session are given: at its scale, as arrays or as lists."""

    def __init__(self, scale: int, arrays: bool) -> None:
        self.unit: int = 10**scale
        self.arrays = arrays

    def root(self, square: Optional[int]) -> float:
        return math.inf if square is None else math.sqrt(square) / self.unit

    def column(self, values: List[Any], kind: Any) -> Any:
        return numpy.array(values, dtype=kind) if self.arrays else values

    def block(self, values: List[List[Any]], width: int, kind: Any) -> Any:
        """Rows of so many columns. An array has so many also where it has no row."""
        return numpy.array(values, dtype=kind).reshape(len(values), width) if self.arrays else values

    def starts(self, found: List[Dict[str, Any]]) -> Any:
        return self.column([it["start"] for it in found], "int64")

    def indices(self, found: List[Dict[str, Any]], key: str) -> Any:
        return self.column([_index(it[key]) for it in found], "int64")

    def near(self, found: List[Dict[str, Any]]) -> Tuple[Any, Any, Any]:
        """The columns of squares, of indices and of distances."""
        squares = [_square_in(it) for it in found]
        distances = [self.root(square) for square in squares]
        return self.column(squares, object), self.indices(found, "index"), self.column(distances, float)

    def distance(self, square: Optional[str]) -> Optional[Distance]:
        return None if square is None else Distance(int(square), self.root(int(square)))

    def entry(self, found: Dict[str, Any]) -> Entry:
        square = _square_in(found)
        index, left, right = (_index(found[key]) for key in ("index", "left", "right"))
        return Entry(found["start"], square, index, left, right, self.root(square))

    def found(self, found: Optional[Dict[str, Any]]) -> Optional[Found]:
        if found is None:
            return None
        square = int(found["dist"])
        return Found(found["start"], square, self.root(square), found["index"])

    def matches(self, found: List[Dict[str, Any]]) -> Matches:
        return Matches(*self.near(found))

    def entries(self, found: List[Dict[str, Any]]) -> Entries:
        return Entries(self.starts(found), *self.near(found))

    def profile(self, found: List[Dict[str, Any]]) -> Profile:
        left, right = self.indices(found, "left"), self.indices(found, "right")
        return Profile(self.starts(found), *self.near(found), left, right)

    def part(self, found: List[Dict[str, Any]], uncovered: int) -> Part:
        left, right = self.indices(found, "left"), self.indices(found, "right")
        return Part(self.starts(found), *self.near(found), left, right, uncovered)

    def ranks(self, found: List[Dict[str, Any]], count: int) -> Ranks:
        none = {"dist": None, "index": None}
        filled = [it["nearest"] + [none] * (count - len(it["nearest"])) for it in found]
        squares = [[_square_in(near) for near in row] for row in filled]
        index = [[_index(near["index"]) for near in row] for row in filled]
        distances = [[self.root(square) for square in row] for row in squares]
        return Ranks(
            self.starts(found),
            self.block(squares, count, object),
            self.block(index, count, "int64"),
            self.block(distances, count, float),
        )

    def consensus(self, found: Dict[str, Any]) -> Consensus:
        square = int(found["radius"])
        nearest = self.matches(found["nearest"])
        return Consensus(square, self.root(square), found["series"], found["start"], nearest)


# ---- the fields of a line, and the words of the program


def _number(value: Any) -> str:
    """A whole number, also one of numpy."""
    return str(operator.index(value))


def _ref(channel: Channel) -> str:
    """A channel as a line names it."""
    if isinstance(channel, tuple):
        slot, place = channel
        return "%s.%s" % (_number(slot), _number(place))
    return _number(channel)


def _file_name(file: Union[str, "os.PathLike[str]"]) -> bytes:
    name = os.fsencode(file)
    if not name or any(mark in name for mark in b" \t\n"):
        raise ValueError("a name of a file without a space, a tab and an LF is wanted: %r" % os.fspath(file))
    return name


def _words_of(program: Words) -> List[str]:
    """The words that start the program. A path counts from here, also where it is started in another folder."""
    words = [os.fspath(program)] if isinstance(program, (str, os.PathLike)) else list(program)
    return [os.path.abspath(words[0]) if os.path.dirname(words[0]) else words[0], *words[1:]]


def _options(**settings: Optional[int]) -> List[str]:
    """The words of those settings that are given."""
    return [word for name, value in settings.items() if value is not None for word in ("--" + name, _number(value))]


# ---- the session


class Session:
    """A run of the program, which answers one line at a time.

    It is a context manager. A session is used by one thread at a time, and several sessions side by side don't mind
    each other. A line is sent when the report to the one before it was read to its end, so neither waits for the other.

    `window`   the number of samples in a window, 3 to 16,384
    `scale`    the most digits of a sample behind its point, 0 to 9
    `workers`  how many threads compute a profile, 1 to 32, and 4 where it isn't given
    `wide`     samples have 48 bits in place of 32: up to 140737488355327 units of 10^-scale in place of 2147483647
    `program`  the program, sought in PATH where it is a name alone
    `tile`     how many diagonals are one piece of work, 1 to 65,536. It changes no result
    `folder`   where the program is started, from which the names of files count
    `arrays`   whether columns are arrays of numpy. They are where numpy is there, unless this says otherwise

    The session has the attributes `window_length` and `scale`.

    `WordsRefused` comes of a setting outside its limits, `FileNotFoundError` where there is no such program. Each
    method may raise `Refused`, behind which the session goes on, or `Ended`, behind which it doesn't.
    """

    def __init__(
        self,
        window: int,
        scale: int = 0,
        workers: Optional[int] = None,
        wide: bool = False,
        program: Words = "mprof",
        *,
        tile: Optional[int] = None,
        folder: Optional[Union[str, "os.PathLike[str]"]] = None,
        arrays: Optional[bool] = None,
    ) -> None:
        if arrays and numpy is None:
            raise ValueError("there is no numpy")
        words = _words_of(program) + _options(window=window, scale=scale, workers=workers, tile=tile)
        self.window_length = window
        self.scale = scale
        self._shape = _Shape(scale, numpy is not None if arrays is None else arrays)
        self._is_unread = False
        self._status: Optional[int] = None
        self._process = subprocess.Popen(words, cwd=folder, stdin=subprocess.PIPE, stdout=subprocess.PIPE)
        try:
            self.ask("session 2 wide json" if wide else "session 2 json")
        except BaseException:
            self._kill()
            raise

    def __enter__(self) -> Session:
        return self

    def __exit__(self, kind: Any, error: Any, trace: Any) -> None:
        if kind is None:
            self.close()
        else:
            self._kill()

    # -- lines and reports

    def ask(self, command: Union[str, bytes]) -> Dict[str, Any]:
        """Sends one line, such as `profile 0`, and gives its report as it comes, with the keys that FORMAT.md lists."""
        line = command.encode() if isinstance(command, str) else command
        if b"\n" in line or not line.strip(b" \t\r") or line.strip(b" \t").startswith(b"#"):
            raise ValueError("not one command: a blank line and a comment have no report")
        if self._status is not None:
            raise MprofError("the session is closed")
        if self._is_unread:
            raise MprofError("a call before was broken off, and its report wasn't read: the session can't go on")
        self._is_unread = True
        answer = self._answer(line)
        self._is_unread = False
        if not answer.startswith(b"{"):
            raise MprofError("the program doesn't write JSON, it is older than this client: %r" % answer[:80])
        report: Dict[str, Any] = json.loads(answer)
        if report["kind"] == "refused":
            word, _, at = report["word"].partition(" ")
            raise Refused(report["line"], word, int(at) if at else None)
        return report

    def _answer(self, line: bytes) -> bytes:
        """The line that answers one. It is read when that one is written whole, as the program reads it whole, too."""
        assert self._process.stdin is not None and self._process.stdout is not None
        try:
            self._process.stdin.write(line + b"\n")
            self._process.stdin.flush()
        except BrokenPipeError:
            raise _ended(self._wait()) from None
        answer = self._process.stdout.readline()
        if not answer.endswith(b"\n") or answer.startswith(b"mprof:"):
            raise _ended(self._wait())
        return answer

    def _wait(self) -> int:
        """Ends the input, and gives the exit status. All reports were read, or the program has ended."""
        if self._status is None:
            assert self._process.stdin is not None and self._process.stdout is not None
            try:
                self._process.stdin.close()
            except BrokenPipeError:
                pass
            self._process.stdout.close()
            self._status = self._process.wait()
        return self._status

    def _kill(self) -> None:
        """Ends the program without waiting for what it computes. It leaves nothing behind."""
        if self._status is None:
            self._process.kill()
            self._wait()

    def close(self) -> int:
        """Ends the session, and gives the exit status: 0, or 1 where a line was refused.

        `Ended` tells of another one, if no call before did.
        """
        if self._status is not None:
            return self._status
        if self._is_unread:
            self._kill()
        status = self._wait()
        if status not in (0, 1):
            raise _ended(status)
        return status

    def end(self) -> int:
        """Sends `end`, and closes the session."""
        self.ask("end")
        return self.close()

    # -- samples

    def open(self, slot: int, channels: int = 1) -> int:
        """Gives a slot, 0 to 7, so many channels without a sample, 1 to 8, in place of what stood there. Gives 0."""
        return self._samples("open %s %s" % (_number(slot), _number(channels)))

    def keep(self, slot: int, count: int) -> int:
        """Makes a slot keep the last `count` samples of one channel, in place of what stood there. Gives 0.

        Samples can be appended to it without an end. `profile`, `entry` and `discords` then speak of the windows in the
        last `count` samples, by the starts that they had from the first sample on; other reports are refused `kept`.
        """
        return self._samples("keep %s %s" % (_number(slot), _number(count)))

    def load(
        self,
        slot: int,
        file: Union[str, "os.PathLike[str]"],
        columns: Union[int, Iterable[int]],
        header: bool = False,
    ) -> int:
        """Puts columns of a file of comma-separated values in place of a slot's samples, and gives how many they are.

        There is a column for each channel of the slot. `header` says that the first record names them. Of an absent
        file `Refused` tells, of one that can't be read `ReadFailed`.
        """
        chosen = columns if isinstance(columns, Iterable) else [columns]
        fields = [b"load", _number(slot).encode(), _file_name(file), ",".join(map(_number, chosen)).encode()]
        return self._samples(b" ".join(fields + [b"header"] * header))

    def lazy(self, slot: int, file: Union[str, "os.PathLike[str]"], column: int, header: bool = False) -> int:
        """Puts a column of a file into a slot, in place of what stood there, and gives how many samples it has.

        Its profile is made in parts, by `advance`, and `partial` gives what there is of it. Other reports are refused
        `lazy`.
        """
        fields = [b"lazy", _number(slot).encode(), _file_name(file), _number(column).encode()]
        return self._samples(b" ".join(fields + [b"header"] * header))

    def append(self, slot: int, samples: Iterable[Any]) -> int:
        """Adds samples behind those of a slot, and gives how many there are then, or were ever in a kept slot.

        `samples` has one sample for each moment, or for a slot of several channels a list, a tuple or the row of an
        array with one for each channel. What a sample may be says `spell`.

        Samples that one line can't hold are sent in several. Where `Refused` comes, the lines before stay: `at` counts
        from the first sample of the call.
        """
        sent = 0
        total = 0
        for line, count in _lines_of("append " + _number(slot), _items(samples)):
            try:
                total = self._samples(line)
            except Refused as refused:
                if refused.at is None or not sent:
                    raise
                raise Refused(refused.line, refused.word, refused.at + sent) from None
            sent += count
        return total

    def stream(self, channel: Channel, samples: Iterable[Any]) -> Iterator[Entry]:
        """Adds samples as they come, one by one, and gives the entry of the newest window behind each.

        The first entry comes with the first window, behind `window` samples. The samples may come without an end; use
        `keep` first where they do.
        """
        slot = channel[0] if isinstance(channel, tuple) else channel
        for sample in samples:
            start = self.append(slot, [sample]) - self.window_length
            if start >= 0:
                yield self.entry(channel, start)

    def advance(self, slot: int, count: int) -> Advanced:
        """Covers `count` more diagonals of a lazy slot, 1 to 262,144, or all that are left."""
        report = self.ask("advance %s %s" % (_number(slot), _number(count)))
        return Advanced(report["done"], report["left"])

    def _samples(self, line: Union[str, bytes]) -> int:
        samples: int = self.ask(line)["samples"]
        return samples

    # -- reports

    def window(self, channel: Channel, start: int) -> List[Optional[Decimal]]:
        """The samples of a window, `None` for a missing one."""
        texts = self.ask("window %s %s" % (_ref(channel), _number(start)))["samples"]
        return [None if text == "?" else Decimal(text) for text in texts]

    def profile(self, channel: Channel = 0) -> Profile:
        """The matrix profile of a channel: for each window the nearest one, and the nearest before and behind it."""
        return self._shape.profile(self.ask("profile %s" % _ref(channel))["windows"])

    def partial(self, slot: int) -> Part:
        """The profile of a lazy slot, over the diagonals that are covered. It is the whole where `uncovered` is 0."""
        report = self.ask("partial %s" % _number(slot))
        return self._shape.part(report["windows"], report["left"])

    def parts(self, slot: int, count: int) -> Iterator[Part]:
        """Covers `count` diagonals of a lazy slot at a time, and gives its profile behind each, until none is left."""
        while True:
            left = self.advance(slot, count).left
            yield self.partial(slot)
            if left == 0:
                return

    def entry(self, channel: Channel, start: int) -> Entry:
        """The profile's entry of one window."""
        return self._shape.entry(self.ask("entry %s %s" % (_ref(channel), _number(start)))["window"])

    def join(self, channel: Channel, other: Channel) -> Entries:
        """For each window of a channel the nearest window of the other one. None is too near."""
        return self._shape.entries(self.ask("join %s %s" % (_ref(channel), _ref(other)))["windows"])

    def multi(self, slot: int, count: int) -> Entries:
        """The profile of all channels of a slot together, of the `count` channels that are nearest for each pair."""
        return self._shape.entries(self.ask("multi %s %s" % (_number(slot), _number(count)))["windows"])

    def nearest(self, channel: Channel, count: int) -> Ranks:
        """The `count` nearest windows of each window, 1 to 4."""
        return self._shape.ranks(self.ask("nearest %s %s" % (_ref(channel), _number(count)))["windows"], count)

    def pan(self, channel: Channel, lo: int, hi: int) -> List[Length]:
        """The nearest pair of windows and the most unusual window at each window length from `lo` to `hi`.

        There are 256 lengths at most, each from 3 to 16,384 samples. The window of the session plays no part in it.
        """
        found = self.ask("pan %s %s %s" % (_ref(channel), _number(lo), _number(hi)))["lengths"]
        return [
            Length(it["length"], it["windows"], self._shape.found(it["best"]), self._shape.found(it["discord"]))
            for it in found
        ]

    def match(self, channel: Channel, query: Channel, start: int, radius: int, most: int = 262_144) -> Matches:
        """The windows of a channel that match the window of `query` at `start`, the nearest first.

        `radius` is the greatest square of a match: `square_of` makes one of a distance. `most` is how many there are at
        most. Matches are apart by more than a quarter of the window.
        """
        fields = (_ref(channel), _ref(query), _number(start), _number(radius), _number(most))
        return self._shape.matches(self.ask("match " + " ".join(fields))["matches"])

    def motifs(
        self, channel: Channel, count: int, cutoff: int, radius: int, neighbours: int = 1, matches: int = 1024
    ) -> List[Motif]:
        """The patterns that repeat, `count` of them at most, 1 to 1,024.

        `cutoff` is the greatest square of a pattern's entry, and `radius` that of a match. A pattern has at least
        `neighbours` matches beside itself, and of these `matches` are given at most, itself among them.
        """
        fields = (_ref(channel), *map(_number, (count, cutoff, radius, neighbours, matches)))
        found = self.ask("motifs " + " ".join(fields))["motifs"]
        return [Motif(it["start"], self._shape.matches(it["matches"])) for it in found]

    def discords(self, channel: Channel, count: int) -> Entries:
        """The windows whose nearest one is furthest away, the furthest first, `count` of them at most."""
        return self._shape.entries(self.ask("discords %s %s" % (_ref(channel), _number(count)))["discords"])

    def chain(self, channel: Channel, start: int) -> List[int]:
        """The chain from a window on: the starts of its windows."""
        chain: List[int] = self.ask("chain %s %s" % (_ref(channel), _number(start)))["chain"]
        return chain

    def chains(self, channel: Channel = 0) -> Chains:
        """All chains, by rising first start."""
        report = self.ask("chains %s" % _ref(channel))
        return Chains(report["chains"], report["longest"])

    def segments(self, channel: Channel, count: int, factor: int = 5) -> List[Segment]:
        """The places where a channel changes its regime, `count` of them at most.

        Around each and at both ends `factor` windows are left out, 0 to 100.
        """
        found = self.ask("segments %s %s %s" % (_ref(channel), _number(count), _number(factor)))["segments"]
        return [Segment(it["place"], it["num"], it["den"]) for it in found]

    def mpdist(self, channel: Channel, other: Channel) -> Optional[Distance]:
        """How far two channels are apart, whatever the order of their patterns, `None` where there is no distance."""
        return self._shape.distance(self.ask("mpdist %s %s" % (_ref(channel), _ref(other)))["dist"])

    def consensus(self, channels: Iterable[Channel]) -> Optional[Consensus]:
        """The window that 2 to 64 channels have in common, by the least radius, or `None` where there is none."""
        centre = self.ask("consensus " + " ".join(map(_ref, channels)))["centre"]
        return None if centre is None else self._shape.consensus(centre)

    def square_of(self, distance: Union[Decimal, Fraction, float, int, str]) -> int:
        """The square of a distance in the unit of the samples, as radii and limits are given, rounded down."""
        units = Fraction(str(distance)) * self._shape.unit
        if units < 0:
            raise ValueError("a distance is at least 0: %s" % distance)
        return math.floor(units * units)


# ---- made series


def generate(window: int, number: int, count: int, workers: Optional[int] = None, program: Words = "mprof") -> Made:
    """The summary of a series that the program makes of a number, 0 to 2^64 - 1, with `count` samples, to 262,144.

    It is there to try the program, on a series that needs no file. `Ended` tells of another status than 0.
    """
    words = _words_of(program) + _options(window=window, generate=number, count=count, workers=workers)
    run = subprocess.run(words, stdin=subprocess.DEVNULL, stdout=subprocess.PIPE, check=False)
    if run.returncode != 0:
        raise _ended(run.returncode)
    fields = [line.split()[1:] for line in run.stdout.decode().splitlines()]
    (samples, windows), best, discord, segment = fields
    return Made(int(samples), int(windows), _pair_in(best), _pair_in(discord), _segment_in(segment))


def _pair_in(fields: List[str]) -> Optional[Pair]:
    return None if fields == ["-"] else Pair(*map(int, fields))


def _segment_in(fields: List[str]) -> Optional[Segment]:
    return None if fields == ["-"] else Segment(int(fields[0]), *map(int, fields[1].split("/")))
