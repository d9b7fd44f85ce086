"""A report in words for a person, and in JSON for a program."""
from __future__ import annotations

import json
import math
import textwrap
from collections import Counter
from collections.abc import Sequence
from dataclasses import asdict
from typing import Any

from .checks import Warned
from .flight import Flight
from .quality import HORIZON_S, SHIFT_TICKS, Quality, in_percent
from .reasons import reason
from .records import RULES, Config, Ending, Model, Report

WIDTH = 100
"""Columns to which a reason's sentences are broken."""
LINES_NAMED = 5
"""How many lines of the log the text names for one rule."""

ENDINGS = {Ending.RUNNING: "running", Ending.DONE: "done", Ending.UNEXCITED: "unexcited", Ending.SATURATED: "saturated"}


def text(flight: Flight, found: list[Warned]) -> str:
    """The report for a person, with a newline at the end."""
    lines = [f"{flight.log.name}: {ending_words(flight, window_words(flight))}{steady_words(flight, 'probe')}"]
    lines += reason_lines(reason(flight))
    lines += axis_lines(flight, found)
    lines.append(row("calls", calls_words(flight)))
    lines += refusal_lines(flight)
    return "\n".join(lines) + "\n"


def reason_lines(why: str | None) -> list[str]:
    """A reason, broken into lines."""
    return textwrap.wrap(why or "", WIDTH, initial_indent="  ", subsequent_indent="  ", break_on_hyphens=False)


def axis_lines(flight: Flight, found: Sequence[Warned]) -> list[str]:
    """What there is to say of one axis: warnings, model and counts."""
    lines = warning_lines(found)
    if flight.report.model:
        lines += model_lines(flight.report.model, flight.quality)
    return [*lines, row("counts", counts_words(flight.report))]


def warning_lines(found: Sequence[Warned]) -> list[str]:
    """A line for each warning."""
    return [row("warning", warned.text) for warned in found]


def row(name: str, value: str) -> str:
    """One named line of the text."""
    return f"  {name:<15} {value}"


def ending_words(flight: Flight, window: str = "") -> str:
    """How the probe ended, in a line; of a model with these words about its window."""
    report = flight.report
    if report.ending is Ending.RUNNING:
        return "still running, no model"
    if report.model is None:
        return f"gave up: {ENDINGS[report.ending]}"
    fit = "integrated fit (a noisy" if report.model.integrated else "fit on the recorded rates (a quiet"
    return f"done, by the {fit} window{window})"


def steady_words(flight: Flight, name: str) -> str:
    """That the probe, or the pair, was steady."""
    return f"; the {name} was steady" if flight.report.steady else ""


def window_words(flight: Flight) -> str:
    """Where the window was extended, and where it was full."""
    extended = f", extended from {flight.config.duration_s:g} s" if flight.has_extension else ""
    if flight.full_s is not None:
        return f"{extended}, full at {flight.full_s:.4g} s"
    return f"{extended} to {flight.config.extension.duration_s:g} s" if extended else ""


def model_lines(model: Model, quality: Quality | None) -> list[str]:
    """Delay, lag, push, quality, weights and tick of a model."""
    d = model.whole_ticks
    return [
        row("delay", delay_words(model)),
        *units_lines(model),
        row("fit", quality_words(quality)),
        row("rate weights", f"{weights(model.rate_weights)}  of y[k-1], y[k-2]"),
        row("moment weights", f"{weights(model.moment_weights)}  of u[k-{d}], u[k-{d + 1}], u[k-{d + 2}]"),
        row("dt", f"{model.dt_s:.6g} s"),
    ]


def delay_words(model: Model) -> str:
    """The delay in ticks and in ms."""
    noun = "tick" if model.delay_ticks == 1 else "ticks"
    return f"{model.delay_ticks:g} {noun}, {1000 * model.delay_s:.2f} ms"


def units_lines(model: Model) -> list[str]:
    """Lag and push of a model, or why it has neither."""
    if model.lag_s is None:
        pole = -model.rate_weights[1]
        return [row("lag, push", f"none: a model settles only with a pole below 1, and here it is {pole:.7g}")]
    no_lag = ", the fit sees no lag" if model.lag_s == 0 else ""
    return [
        row("lag", f"{1000 * model.lag_s:.2f} ms{no_lag}"),
        row("push", f"{unsigned_zero(f'{model.accel_radps2:.2f}')} rad/s² per unit moment"),
    ]


def quality_words(quality: Quality | None) -> str:
    """What share of the rate's change a model explains."""
    if quality is None:
        return f"not tried, no good stretch of {HORIZON_S:g} s"
    return (
        f"explains {in_percent(quality.explained)} of the rate's change over {HORIZON_S:g} s, the gyro's noise "
        f"{in_percent(quality.noise)}; {SHIFT_TICKS} ticks earlier {in_percent(quality.earlier)}, "
        f"later {in_percent(quality.later)}"
    )


def weights(values: tuple[float, ...]) -> str:
    """Weights with the seven digits that a single has."""
    return "  ".join(unsigned_zero(f"{value:.7g}") for value in values)


def unsigned_zero(number: str) -> str:
    """A number in words, without the minus of one that is rounded to 0."""
    return number.removeprefix("-") if float(number) == 0 else number


def counts_words(report: Report) -> str:
    """The counts of the library's report."""
    return (
        f"ticks {report.ticks}, stored {report.stored}, held {report.held}, warm {report.warm}, rows {report.rows}, "
        f"gain fits {report.gain_fits}"
    )


def after_end(report: Report) -> int:
    """Calls that came after the end: answered with offset 0, and used for nothing."""
    return len(report.offsets) - report.ticks - len(report.refusals)


def calls_words(flight: Flight) -> str:
    """What became of the log's lines."""
    report = flight.report
    words = [f"{len(flight.log.lines)} in the log", f"{len(report.refusals) or 'none'} turned back"]
    if after_end(report):
        words.append(f"{after_end(report)} after the end, unused")
    if report.stored < report.ticks:
        words.append(f"{report.ticks - report.stored} after the window was full")
    return ", ".join(words)


def refusal_lines(flight: Flight) -> list[str]:
    """One line for each rule that turned calls back, with the log's lines."""
    refusals = flight.report.refusals
    lines = []
    for rule, count in sorted(Counter(refusal.rule for refusal in refusals).items()):
        places = [flight.log.lines[refusal.call] for refusal in refusals if refusal.rule == rule]
        named = ", ".join(map(str, places[:LINES_NAMED]))
        more = f" and {count - LINES_NAMED} more" if count > LINES_NAMED else ""
        noun = "line" if count == 1 else "lines"
        lines.append(row(f"rule {rule}", f"{RULES[rule]}: {count} turned back ({noun} {named}{more})"))
    return lines


def as_json(flight: Flight, found: list[Warned]) -> str:
    """The report as one JSON object, with a newline at the end. A number that is not finite is null."""
    return json_text(as_dict(flight, found))


def json_text(values: dict[str, Any]) -> str:
    """Plain values as JSON, with a newline at the end. A number that is not finite is null."""
    return json.dumps(finite(values), indent=2, allow_nan=False) + "\n"


def as_dict(flight: Flight, found: Sequence[Warned]) -> dict[str, Any]:
    """The report as plain values."""
    log, report = flight.log, flight.report
    return {
        "file": log.name,
        "ending": ENDINGS[report.ending],
        "reason": reason(flight),
        "steady": report.steady,
        "warnings": [asdict(warned) for warned in found],
        "elapsed_s": report.elapsed_s,
        "extended": flight.extended,
        "window_full_s": flight.full_s,
        "model": model_dict(report.model) if report.model else None,
        "quality": quality_dict(flight.quality) if flight.quality else None,
        "counts": {
            "ticks": report.ticks,
            "stored": report.stored,
            "held": report.held,
            "warm": report.warm,
            "rows": report.rows,
            "gain_fits": report.gain_fits,
        },
        "calls": {"in_log": len(log.lines), "turned_back": len(report.refusals), "after_end": after_end(report)},
        "turned_back": [
            {"line": log.lines[refusal.call], "call": refusal.call, "rule": refusal.rule, "why": RULES[refusal.rule]}
            for refusal in report.refusals
        ],
        "config": config_dict(flight.config),
        "report_hex": report.raw.hex(),
    }


def model_dict(model: Model) -> dict[str, Any]:
    """A model as plain values."""
    return {
        "fit": "integrated" if model.integrated else "recorded",
        "delay_ticks": model.delay_ticks,
        "delay_half_ticks": model.half_ticks,
        "delay_ms": 1000 * model.delay_s,
        "lag_s": model.lag_s,
        "accel_radps2": model.accel_radps2,
        "rate_weights": list(model.rate_weights),
        "moment_weights": list(model.moment_weights),
        "dt_s": model.dt_s,
    }


def quality_dict(quality: Quality) -> dict[str, Any]:
    """A quality as plain values."""
    return {"good": quality.is_good, "horizon_s": HORIZON_S, **asdict(quality), "unexplained": quality.unexplained}


def config_dict(config: Config) -> dict[str, Any]:
    """A configuration as plain values."""
    extension = config.extension
    return {
        "amplitude": config.amplitude,
        "duration_s": config.duration_s,
        "washout_tc_s": config.washout_tc_s,
        "extension": {"amplitude": extension.amplitude, "duration_s": extension.duration_s} if extension else None,
    }


def finite(value: Any) -> Any:
    """The value with every float that JSON has no word for replaced by None."""
    if isinstance(value, dict):
        return {key: finite(item) for key, item in value.items()}
    if isinstance(value, list):
        return [finite(item) for item in value]
    if isinstance(value, float) and not math.isfinite(value):
        return None
    return value
