"""The window as the probe stored it, worked out again from the calls, for pictures and for words.

The library reports counts and a model, not its window. Nothing here goes into a fit; the tests hold the counts against
the library's.
"""
from __future__ import annotations

import math
from collections.abc import Iterator, Sequence
from dataclasses import dataclass
from itertools import islice

from .records import Config, Ending, Report
from .wire import singles

CAPACITY = 2048
LIMIT_MOMENT = singles([0.999])[0]
"""A moment of this size or more counts as at the rate loop's limit."""


@dataclass(frozen=True)
class Sample:
    """One sample."""

    time_s: float
    """Seconds since the start, this tick's dt included."""
    rate: float
    moment: float
    offset: float
    held: bool


def taken_calls(report: Report) -> Iterator[int]:
    """The indices of the calls that the probe took while it ran."""
    refused = {refusal.call for refusal in report.refusals}
    left = report.ticks
    for call in range(len(report.offsets)):
        if left == 0:
            return
        if call not in refused:
            left -= 1
            yield call


def taken_samples(
    dt: Sequence[float], rate: Sequence[float], moment: Sequence[float], report: Report
) -> Iterator[Sample]:
    """A sample of each call that the probe took: a reading that is not finite takes the value before it, or 0."""
    rates, moments = singles(rate), singles(moment)
    time_s = last_rate = last_moment = 0.0
    for call in taken_calls(report):
        time_s += dt[call]
        good_rate, good_moment = math.isfinite(rates[call]), math.isfinite(moments[call])
        last_rate = rates[call] if good_rate else last_rate
        last_moment = moments[call] if good_moment else last_moment
        yield Sample(time_s, last_rate, last_moment, report.offsets[call], not (good_rate and good_moment))


def stored_window(dt: Sequence[float], rate: Sequence[float], moment: Sequence[float], report: Report) -> list[Sample]:
    """The samples in the probe's window: the first that it took, up to its capacity."""
    return list(islice(taken_samples(dt, rate, moment, report), CAPACITY))


def at_limit(samples: Sequence[Sample]) -> int:
    """How many of the samples have a moment at the limit."""
    return sum(abs(sample.moment) >= LIMIT_MOMENT for sample in samples)


def began(samples: Sequence[Sample], index: int) -> float:
    """When a sample's tick began: at the time of the sample before it."""
    return samples[index - 1].time_s if index else 0.0


def held_stretches(samples: Sequence[Sample]) -> list[tuple[int, int]]:
    """The first and the last index of each stretch of held samples."""
    stretches: list[tuple[int, int]] = []
    for index, sample in enumerate(samples):
        if not sample.held:
            continue
        if stretches and stretches[-1][1] == index - 1:
            stretches[-1] = (stretches[-1][0], index)
        else:
            stretches.append((index, index))
    return stretches


def extension_taken(config: Config, dt: Sequence[float], report: Report) -> bool:
    """Whether the probe went on past the configuration's duration: a window read noisy then, its own or that of its pair's
    other axis."""
    duration_s = singles([config.duration_s])[0]
    elapsed_s = 0.0
    for tick, call in enumerate(taken_calls(report), start=1):
        elapsed_s = singles([elapsed_s + singles([dt[call]])[0]])[0]
        if elapsed_s >= duration_s:
            return tick < report.ticks or report.ending is Ending.RUNNING
    return False
