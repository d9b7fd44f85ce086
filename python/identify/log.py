"""Reads a flight's log: CSV with a header line and the columns dt, rate and moment, or those of two axes."""
from __future__ import annotations

import csv
import io
import sys
from collections.abc import Callable, Iterable, Iterator, Mapping
from dataclasses import dataclass, field
from pathlib import Path

from .columns import ONE_AXIS, USUAL, Layout, layout_in, one_axis, plain, two_axes

OTHER_DELIMITERS = {";": "semicolons", "\t": "tabs", "|": "bars", " ": "spaces"}
"""Delimiters that a log may have and that are not read."""
COLUMNS_NAMED = 12
"""How many columns of a wrong header line are named."""
STANDARD_INPUT = "-"


class BadLog(ValueError):
    """The log cannot be read; the message names the file, the line and the rule."""


@dataclass
class Log:
    """The three columns, and the line on which each call stands."""

    name: str
    dt: list[float] = field(default_factory=list)
    rate: list[float] = field(default_factory=list)
    moment: list[float] = field(default_factory=list)
    lines: list[int] = field(default_factory=list)
    axis: str = ""
    """What the axis is called where the log has two: by its rate's column or, where that has the usual name, by its number."""


LayoutOf = Callable[[list[str]], Layout]
"""The layout of a log with this header line."""


def read_log(path: str | Path, columns: Mapping[str, str] = USUAL) -> Log:
    """Reads a log of one axis from a file, or from standard input where the path is `-`.

    `columns` names columns that are not called dt, rate and moment: `{"rate": "roll_rate", "moment": "roll_moment"}`.

    Raises BadLog where the log cannot be read so, and BadColumns for names that none can have.
    """
    (log,) = read_axes(path, lambda header: one_axis(columns))
    return log


def read_two_axis_log(path: str | Path, columns: Mapping[str, str] = USUAL) -> tuple[Log, Log]:
    """Reads a log of two axes: two logs with one clock. Their dt and their lines are the same.

    `columns` names columns that are not called dt, rate1, moment1, rate2 and moment2. Raises what `read_log` raises.
    """
    first, second = read_axes(path, lambda header: two_axes(columns))
    return first, second


def read_any_log(path: str | Path, columns: Mapping[str, str] = USUAL) -> tuple[Log, ...]:
    """Reads a log of as many axes as its header line or these names have. Raises what `read_log` raises."""
    return read_axes(path, lambda header: layout_in(header, columns))


def read_axes(path: str | Path, layout_of: LayoutOf) -> tuple[Log, ...]:
    """Reads a log of one axis or of two."""
    name = "standard input" if str(path) == STANDARD_INPUT else str(path)
    try:
        return parse_bytes(name, read_bytes(path), layout_of)
    except OSError as error:
        raise BadLog(f"{name}: {error.strerror or error}") from error


def read_bytes(path: str | Path) -> bytes:
    """The bytes of a file, or of standard input."""
    if str(path) != STANDARD_INPUT:
        return Path(path).read_bytes()
    if sys.stdin is None:
        raise OSError("closed")
    return sys.stdin.buffer.read()


def parse_bytes(name: str, data: bytes, layout_of: LayoutOf) -> tuple[Log, ...]:
    """Reads a log from the bytes of a file."""
    try:
        text = data.decode("utf-8-sig")
    except UnicodeDecodeError as error:
        line = data.count(b"\n", 0, error.start) + 1
        raise BadLog(f"{name}:{line}: not UTF-8 text") from error
    return parse(name, io.StringIO(text, newline=""), layout_of)


def parse(name: str, lines: Iterable[str], layout_of: LayoutOf) -> tuple[Log, ...]:
    """Reads a log from its lines. Empty lines are passed over."""
    reader = csv.reader(lines)
    layout: Layout = {}
    places: dict[str, int] = {}
    values: dict[str, list[float]] = {}
    numbers: list[int] = []
    try:
        for row in reader:
            if not any(cell.strip() for cell in row):
                continue
            where = f"{name}:{reader.line_num}"
            if not layout:
                layout = layout_of(row)
                places = find_columns(where, row, layout)
                values = {key: [] for key in layout}
                continue
            for key, place in places.items():
                values[key].append(read_cell(where, layout[key], row, place))
            numbers.append(reader.line_num)
    except csv.Error as error:
        raise BadLog(f"{name}:{reader.line_num}: not a CSV line: {error}") from error
    if not layout:
        raise BadLog(f"{name}:1: no header line; it must name the columns {', '.join(ONE_AXIS)}")
    return tuple(axis_logs(name, layout, values, numbers))


def axis_logs(name: str, layout: Layout, values: dict[str, list[float]], lines: list[int]) -> Iterator[Log]:
    """A log of each axis."""
    if "rate" in layout:
        yield Log(name, values["dt"], values["rate"], values["moment"], lines)
        return
    for number in (1, 2):
        rate, moment = f"rate{number}", f"moment{number}"
        axis = f"axis {number}" if plain(layout[rate]) == rate else layout[rate]
        yield Log(name, values["dt"], values[rate], values[moment], lines, axis)


def find_columns(where: str, header: list[str], layout: Layout) -> dict[str, int]:
    """The places of a layout's columns in the header line."""
    names = [plain(cell) for cell in header]
    for key, column in layout.items():
        count = names.count(plain(column))
        if count != 1:
            found = "no" if count == 0 else f"{count} times the"
            asked = "" if column == key else f", which --columns names as {key}"
            raise BadLog(
                f"{where}: {found} column {column}{asked}; the header line must name {', '.join(layout.values())} once each "
                f"(--columns takes other names), and {header_words(header)}"
            )
    return {key: names.index(plain(column)) for key, column in layout.items()}


def header_words(header: list[str]) -> str:
    """What a header line has instead, split at the delimiter."""
    more = f" and {len(header) - COLUMNS_NAMED} more" if len(header) > COLUMNS_NAMED else ""
    found = f"split at commas it has {', '.join(repr(cell.strip()) for cell in header[:COLUMNS_NAMED])}{more}"
    other = next((name for mark, name in OTHER_DELIMITERS.items() if len(header) == 1 and mark in header[0].strip()), None)
    return f"{found}: it looks split at {other}, write commas" if other else found


def read_cell(where: str, column: str, row: list[str], place: int) -> float:
    """The number in one place of a row."""
    if place >= len(row):
        raise BadLog(f"{where}: the line ends before column {column}; each line must have a number there")
    text = row[place].strip()
    try:
        # float() also takes 1_000 and the digits of other scripts, which no logger writes on purpose.
        if "_" in text or not text.isascii():
            raise ValueError
        return float(text)
    except ValueError:
        raise BadLog(f"{where}: {column} is {text!r}; it must be a number, nan or inf") from None
