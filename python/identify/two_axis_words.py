"""A report of two axes in words for a person, and in JSON for a program."""
from __future__ import annotations

from collections.abc import Sequence
from typing import Any

from . import words
from .checks import Warned
from .flight import Flight
from .reasons import reason
from .records import Ending
from .two_axis import TwoAxisFlight, TwoAxisWarnings
from .words import (
    ENDINGS, axis_lines, calls_words, ending_words, reason_lines, refusal_lines, row, steady_words, warning_lines,
)


def text(flight: TwoAxisFlight, found: TwoAxisWarnings) -> str:
    """The report for a person, with a newline at the end: what both axes share, then each axis."""
    shared, report = flight.axes[0], flight.report
    lines = [f"{shared.log.name}: {heading(flight)}"]
    lines += reason_lines(running_reason(flight))
    lines += warning_lines(found.clock)
    lines.append(row("calls", calls_words(shared)))
    lines += refusal_lines(shared)
    lines.append(row("counts", f"ticks {report.ticks}, rows {report.rows}, both axes added up"))
    for axis, warned in zip(flight.axes, found.axes):
        lines.append(f"{axis.log.axis}: {ending_words(axis)}")
        lines += reason_lines(axis_reason(axis))
        lines += axis_lines(axis, warned)
    return "\n".join(lines) + "\n"


def heading(flight: TwoAxisFlight) -> str:
    """How the flight ended, in a line."""
    return endings_words(flight) + extension_words(flight) + full_words(flight) + steady_words(flight.axes[0], "pair")


def endings_words(flight: TwoAxisFlight) -> str:
    """How both axes ended."""
    first, second = (ENDINGS[axis.report.ending] for axis in flight.axes)
    if is_running(flight):
        return "both axes still running"
    return f"both axes {first}" if first == second else f"{flight.axes[0].log.axis} {first}, {flight.axes[1].log.axis} {second}"


def extension_words(flight: TwoAxisFlight) -> str:
    """The extension, where it was taken, and the axis that asked for it."""
    shared = flight.axes[0]
    if not shared.extended:
        return ""
    asked = "both, whose windows were" if len(flight.asked) > 1 else f"{flight.asked[0].log.axis}, whose window was"
    return f", extended from {shared.config.duration_s:g} s to {shared.config.extension.duration_s:g} s for {asked} noisy"


def full_words(flight: TwoAxisFlight) -> str:
    """Where the windows, which have the same ticks, were full."""
    full_s = flight.axes[0].full_s
    return "" if full_s is None else f", windows full at {full_s:.4g} s"


def is_running(flight: TwoAxisFlight) -> bool:
    """Whether the axes still run; both do, or neither."""
    return flight.report.first.ending is Ending.RUNNING


def running_reason(flight: TwoAxisFlight) -> str | None:
    """Why no axis has ended, which is the same for both."""
    return reason(flight.axes[0]) if is_running(flight) else None


def axis_reason(axis: Flight) -> str | None:
    """Why an axis that has ended has no model."""
    return None if axis.report.ending is Ending.RUNNING else reason(axis)


def as_json(flight: TwoAxisFlight, found: TwoAxisWarnings) -> str:
    """The report as one JSON object, with a newline at the end. A number that is not finite is null."""
    return words.json_text(as_dict(flight, found))


def as_dict(flight: TwoAxisFlight, found: TwoAxisWarnings) -> dict[str, Any]:
    """The report as plain values: what both axes share, as one axis has it, and of each axis the rest."""
    shared = words.as_dict(flight.axes[0], found.clock)
    return {
        "file": shared["file"],
        "running": is_running(flight),
        "reason": running_reason(flight),
        **{key: shared[key] for key in ("steady", "warnings", "elapsed_s", "extended")},
        "extension_asked_by": [axis.log.axis for axis in flight.asked],
        "window_full_s": shared["window_full_s"],
        "axes": [axis_dict(axis, warned) for axis, warned in zip(flight.axes, found.axes)],
        "sums": {"ticks": flight.report.ticks, "rows": flight.report.rows},
        **{key: shared[key] for key in ("calls", "turned_back", "config")},
        "report_hex": flight.report.raw.hex(),
    }


def axis_dict(axis: Flight, found: Sequence[Warned]) -> dict[str, Any]:
    """One axis as plain values."""
    whole = {**words.as_dict(axis, found), "reason": axis_reason(axis)}
    own = ("ending", "reason", "warnings", "model", "quality", "counts", "report_hex")
    return {"axis": axis.log.axis, **{key: whole[key] for key in own}}
