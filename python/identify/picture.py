"""Draws a flight: rate with the model run over it, moment, and the probe's offset, of each axis. Needs matplotlib."""
from __future__ import annotations

import importlib.util
import io
import math
import os
import shutil
import subprocess
import sys
import warnings
from collections.abc import Callable, Iterator, Sequence
from pathlib import Path
from typing import Any

from .checks import Warned
from .flight import Flight
from .quality import HORIZON_S, simulated_stretches
from .two_axis import TwoAxisFlight, TwoAxisWarnings
from .two_axis_words import heading
from .window import LIMIT_MOMENT, at_limit, began, held_stretches
from .words import ENDINGS, delay_words, quality_words, steady_words

SUFFIXES = (".png", ".svg")
PACKAGE = "python3-matplotlib"
SYSTEM_PYTHON = "/usr/bin/python3"
"""The interpreter for which Debian's package is made."""
MEASURED, MODEL, MOMENT, OFFSET = "#333333", "#e07b1a", "#1b6ca8", "#2a7f3f"
LIMIT, HELD, MARK, PALE = "#b3261e", "#c2185b", "#888888", 0.35
WIDTH, HEIGHT = 10, 6.5
"""Of one axis's panels, in inches."""
LEGEND = {"loc": "upper left", "ncols": 5, "edgecolor": "none", "borderpad": 0.1}


class PictureError(ValueError):
    """The picture cannot be drawn or written."""


def check_name(path: str) -> None:
    """Raises PictureError where the name is not that of a picture, so that it is known before the run."""
    if Path(path).suffix.lower() not in SUFFIXES:
        raise PictureError(f"--plot {path}: the name must end in {' or '.join(SUFFIXES)}")


def draw(path: str, flight: Flight, found: Sequence[Warned]) -> None:
    """Writes the picture of a flight, with the codes of its warnings."""
    save(path, HEIGHT, lambda figure: draw_panels(figure, flight, found))


def draw_two_axes(path: str, flight: TwoAxisFlight, found: TwoAxisWarnings) -> None:
    """Writes the picture of a flight of two axes, one below the other."""
    save(path, 2 * HEIGHT, lambda figure: draw_axes(figure, flight, found))


def save(path: str, height: float, paint: Callable[[Any], None]) -> None:
    """Writes a picture of this height, in inches, as `paint` draws it on a figure."""
    if importlib.util.find_spec("matplotlib") is None:
        raise PictureError(f"--plot needs matplotlib, which {sys.executable} does not have; {where_matplotlib_is()}")
    try:
        from matplotlib import rc_context
        from matplotlib.figure import Figure
    except ImportError as error:
        raise PictureError(f"--plot: the matplotlib of {sys.executable} does not load: {error}") from error
    picture = io.BytesIO()
    kind = Path(path).suffix.lower().removeprefix(".")
    with rc_context({"svg.hashsalt": "identify", "font.size": 9}), warnings.catch_warnings():
        # A file name may have characters that the font lacks; they are drawn as boxes.
        warnings.simplefilter("ignore")
        figure = Figure(figsize=(WIDTH, height), layout="constrained")
        paint(figure)
        figure.savefig(picture, format=kind, dpi=100, metadata={"Date": None} if kind == "svg" else None)
    try:
        Path(path).write_bytes(picture.getvalue())
    except OSError as error:
        raise PictureError(f"--plot {path}: {error.strerror or error}") from error


def where_matplotlib_is() -> str:
    """An interpreter that has matplotlib, or the package that brings it."""
    for python in interpreters():
        found = subprocess.run((python, "-c", "import matplotlib"), capture_output=True, stdin=subprocess.DEVNULL)
        if found.returncode == 0:
            return f"{python} has it: run the command as {python} identify FLIGHT.csv --plot FILE"
    return f"the Debian package {PACKAGE} brings it for {SYSTEM_PYTHON}: apt-get install {PACKAGE}"


def interpreters() -> Iterator[str]:
    """The other interpreters of this machine: those on the PATH, and the system's."""
    for folder in os.get_exec_path():
        python = shutil.which("python3", path=folder)
        if python and python != sys.executable:
            yield python
    if os.path.exists(SYSTEM_PYTHON):
        yield SYSTEM_PYTHON


def draw_axes(figure, flight: TwoAxisFlight, found: TwoAxisWarnings) -> None:
    """The panels of both axes, under a line about the flight."""
    words = f"{shown(flight.axes[0].log.name)}: {heading(flight)}{warned_words(found.clock)}"
    figure.suptitle(words, x=0.01, horizontalalignment="left", fontsize="medium", parse_math=False)
    panels = make_panels(figure, 2)
    draw_axis(panels[:3], flight.axes[0], found.axes[0])
    draw_axis(panels[3:], flight.axes[1], found.axes[1])


def draw_panels(figure, flight: Flight, found: Sequence[Warned]) -> None:
    """The panels of one axis."""
    draw_axis(make_panels(figure, 1), flight, found)


def make_panels(figure, axes: int) -> Sequence[Any]:
    """Three panels for each axis, all over one time axis."""
    return figure.subplots(3 * axes, 1, sharex=True, gridspec_kw={"height_ratios": (3, 2, 1.3) * axes})


def draw_axis(panels: Sequence[Any], flight: Flight, found: Sequence[Warned]) -> None:
    """Rate, moment and offset of an axis."""
    draw_rate(panels[0], flight)
    draw_moment(panels[1], flight)
    draw_series(panels[2], flight, [sample.offset for sample in flight.taken], color=OFFSET, linewidth=1)
    panels[2].set_ylabel("offset, rad/s")
    panels[2].set_xlabel("time since the excitation began, s")
    panels[2].tick_params(labelbottom=True)
    # File names are drawn as they are: a $ in one begins no formula.
    panels[0].set_title(title(flight, found), loc="left", parse_math=False)
    for panel in panels:
        draw_marks(panel, flight)
        panel.grid(color="#dddddd", linewidth=0.6)
        panel.margins(x=0.01)
    panels[0].legend(**LEGEND)


def title(flight: Flight, found: Sequence[Warned]) -> str:
    """File, or axis of a flight of two, and ending; then, of a model, its delay and its quality; then the warnings."""
    words = f"{shown(flight.log.axis or flight.log.name)}: {ENDINGS[flight.report.ending]}"
    model = flight.report.model
    if model:
        words += f", delay {delay_words(model)}"
    if not flight.log.axis:
        words += steady_words(flight, "probe")
    return words + (f"\n{quality_words(flight.quality)}" if model else "") + warned_words(found)


def warned_words(found: Sequence[Warned]) -> str:
    """A line with the codes of warnings."""
    return f"\nwarnings: {', '.join(warned.code for warned in found)}" if found else ""


def shown(name: str) -> str:
    """A name with odd bytes and control characters written out."""
    text = name.encode("utf8", "surrogateescape").decode("utf8", "backslashreplace")
    return "".join(c if c.isprintable() else c.encode("unicode_escape").decode("ascii") for c in text)


def draw_rate(panel, flight: Flight) -> None:
    """The measured rate and, where there is a model, what it comes to by itself from the start of each stretch."""
    rates = [sample.rate for sample in flight.taken]
    draw_series(panel, flight, rates, color=MEASURED, linewidth=0.8, label="measured rate")
    if flight.quality:
        times, simulated = joined(simulated_stretches(flight.report.model, flight.samples, flight.quality))
        label = f"model, run by itself for {HORIZON_S:g} s at a time"
        panel.plot(times, simulated, color=MODEL, linewidth=1.5, label=label)
    panel.set_ylabel("rate, rad/s")
    leave_room(panel, rates)


def joined(stretches: Iterator[tuple[list[float], list[float]]]) -> tuple[list[float], list[float]]:
    """Stretches as one line with breaks between them, and where the model runs away."""
    times: list[float] = []
    values: list[float] = []
    for stretch_times, stretch_values in stretches:
        times += [*stretch_times, stretch_times[-1]]
        values += [*(value if math.isfinite(value) else math.nan for value in stretch_values), math.nan]
    return times, values


def draw_moment(panel, flight: Flight) -> None:
    """The commanded moment, and the limit with the share of the samples that are at it."""
    moments = [sample.moment for sample in flight.taken]
    draw_series(panel, flight, moments, color=MOMENT, linewidth=0.9)
    share = at_limit(flight.samples) / max(len(flight.samples), 1)
    label = f"limit, ±{LIMIT_MOMENT:.3f}: {share:.1%} of the window at it"
    style = {"color": LIMIT, "linestyle": ":", "linewidth": 1, "label": label}
    upper, _ = panel.axhline(LIMIT_MOMENT, **style), panel.axhline(-LIMIT_MOMENT, **style)
    panel.legend(handles=[upper], **LEGEND)
    panel.set_ylabel("moment, 1 is the limit")
    leave_room(panel, [*moments, -LIMIT_MOMENT, LIMIT_MOMENT])


def draw_series(panel, flight: Flight, values: Sequence[float], **style) -> None:
    """A value of each tick: as the window has it, and pale where the window was full."""
    stored = flight.report.stored
    times = [sample.time_s for sample in flight.taken]
    panel.plot(times[:stored], values[:stored], **style)
    style.pop("label", None)
    panel.plot(times[stored:], values[stored:], **style, alpha=PALE)


def draw_marks(panel, flight: Flight) -> None:
    """Held stretches, where the extension began, and where the window was full."""
    label = "held"
    for first, last in held_stretches(flight.samples):
        times = began(flight.samples, first), flight.samples[last].time_s
        panel.axvspan(*times, color=HELD, alpha=0.25, linewidth=1.2, label=label)
        label = None
    if flight.extended:
        draw_time(panel, flight.config.duration_s, "--", "extension begins")
    if flight.full_s is not None:
        draw_time(panel, flight.full_s, "-.", "window full")


def draw_time(panel, time_s: float, style: str, label: str) -> None:
    """A line at a time."""
    panel.axvline(time_s, color=MARK, linestyle=style, linewidth=1, label=label)


def leave_room(panel, values: Sequence[float]) -> None:
    """Room above the curves for the legend."""
    least, most = min(values, default=0.0), max(values, default=0.0)
    span = (most - least) or abs(most) or 1.0
    panel.set_ylim(least - 0.08 * span, most + 0.3 * span)
