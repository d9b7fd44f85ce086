"""Which columns of a log are read: dt, rate and moment of one axis, or dt and two pairs of readings for two axes."""
from __future__ import annotations

from collections.abc import Iterable, Mapping
from types import MappingProxyType

from .wire import listed

ONE_AXIS = ("dt", "rate", "moment")
TWO_AXES = ("dt", "rate1", "moment1", "rate2", "moment2")
FIRST_AXIS = {"rate": "rate1", "moment": "moment1"}
"""Of two axes the first may be called as one axis is."""

USUAL: Mapping[str, str] = MappingProxyType({})
"""No other names: each column has its usual one."""

Layout = dict[str, str]
"""The name in the log of each column that is read, by the words of ONE_AXIS or of TWO_AXES, its keys."""


class BadColumns(ValueError):
    """Names of columns that no log can have; the message names the key."""


def parse_columns(text: str) -> dict[str, str]:
    """Names of columns as they are typed: rate=roll_rate,moment=roll_moment. Raises BadColumns."""
    columns: dict[str, str] = {}
    for part in text.split(","):
        key, _, name = (word.strip() for word in part.partition("="))
        if not key or not name:
            raise BadColumns(f"{part.strip()!r} is no KEY=COLUMN, as rate=roll_rate is")
        if key in columns:
            raise BadColumns(f"{key} is given twice")
        columns[key] = name
    if unknown := [key for key in columns if key not in ONE_AXIS + TWO_AXES]:
        raise BadColumns(f"no key {unknown[0]}; the keys are {listed(ONE_AXIS)}, for two axes {listed(TWO_AXES)}")
    return columns


def one_axis(columns: Mapping[str, str]) -> Layout:
    """The layout of one axis with these names. Raises BadColumns."""
    return layout(ONE_AXIS, columns)


def two_axes(columns: Mapping[str, str]) -> Layout:
    """The layout of two axes with these names. Raises BadColumns."""
    if both := [key for key, first in FIRST_AXIS.items() if key in columns and first in columns]:
        raise BadColumns(f"{both[0]} and {FIRST_AXIS[both[0]]} are one column; give one of them")
    return layout(TWO_AXES, {FIRST_AXIS.get(key, key): name for key, name in columns.items()})


def layout(keys: Iterable[str], columns: Mapping[str, str]) -> Layout:
    """A name for each key: the one that is given, or the key itself. Raises BadColumns."""
    if unknown := [key for key in columns if key not in keys]:
        raise BadColumns(f"no key {unknown[0]}; the keys are {listed(keys)}")
    found = {key: columns.get(key, key) for key in keys}
    keys_of: dict[str, str] = {}
    for key, name in found.items():
        other = keys_of.setdefault(plain(name), key)
        if other != key:
            raise BadColumns(f"{other} and {key} are both {name}; each is a column of its own")
    return found


def layout_in(header: Iterable[str], columns: Mapping[str, str]) -> Layout:
    """The layout that the names call for or, where they call for none, the header line: that of two axes where it has a column
    of theirs and neither rate nor moment. Raises BadColumns."""
    present = {plain(cell) for cell in header}
    if calls_for_two(columns):
        return two_axes(columns)
    calls_for_one = not FIRST_AXIS.keys().isdisjoint(columns.keys() | present)
    return two_axes(columns) if calls_for_two(present) and not calls_for_one else one_axis(columns)


def calls_for_two(names: Iterable[str]) -> bool:
    """Whether a name is one of two axes alone."""
    return not set(TWO_AXES[1:]).isdisjoint(names)


def plain(name: str) -> str:
    """A column's name as it is compared: without regard to case and to spaces around it."""
    return name.strip().lower()
