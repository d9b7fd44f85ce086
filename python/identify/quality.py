"""How well a model holds over a horizon that shows a wrong delay.

One step ahead every model of a slow axis looks good: the rate hardly moves in a tick. So the model is run by itself over
stretches of a fifth of a second, from each tick of the window, and the change of the rate that it comes to is held against
the one that was read: against no change, and against the same model two ticks earlier and later.
"""
from __future__ import annotations

from collections.abc import Iterator, Sequence
from dataclasses import dataclass
from itertools import accumulate

from .records import Model
from .window import Sample

HORIZON_S = 0.2
SHIFT_TICKS = 2
"""How far the model is moved to either side, to see whether the flight puts the delay elsewhere."""
HISTORY_TICKS = 12
"""Ticks before a stretch that count as part of it where its held samples are counted: they move its first acceleration."""
HELD_SHARE = 0.1
"""The largest share of held samples in a stretch."""
LEAST_EXPLAINED = 0.5
MOST_UNEXPLAINED = 0.02
"""The largest share that may be left to something else than the model and the gyro's noise."""
CLEARLY_LESS = 0.5
"""A cost below this part of another one is clearly less."""
NORMAL_MEDIAN = 0.6745
"""The median of a normal error's size, in its standard deviations."""


@dataclass(frozen=True)
class Quality:
    """Shares of the change of the rate over a stretch: 1 is all of it, and 0 is what no change explains.

    Changes are taken about their mean: a steady drift, as a trim gives, is no part of the model.
    """

    explained: float
    """What the model explains."""
    earlier: float
    """What the same model explains two ticks earlier."""
    later: float
    """What the same model explains two ticks later."""
    noise: float
    """What the gyro's noise takes, by the rate's jumps from tick to tick: no model explains it."""
    drift_radps: float
    """The mean change that the model lacks, in rad/s over a stretch."""
    stretches: int
    """How many stretches were run."""

    @property
    def unexplained(self) -> float:
        """What neither the model nor the gyro's noise explains."""
        return 1 - self.explained - self.noise

    @property
    def explains_little(self) -> bool:
        """Whether the model explains less than half, or too much is left that neither it nor the noise explains."""
        return not (self.explained >= LEAST_EXPLAINED and self.unexplained <= MOST_UNEXPLAINED)

    @property
    def delay_off(self) -> int:
        """1 where the model's response, delay and lag together, comes too early for the flight, -1 where too late, else 0.

        Both moves should cost alike. Where one costs less than half of what the other does, the parabola through the three
        shares has its peak more than a third of a tick to that side.
        """
        cost_earlier, cost_later = self.explained - self.earlier, self.explained - self.later
        return is_less(cost_later, cost_earlier) - is_less(cost_earlier, cost_later)

    @property
    def is_good(self) -> bool:
        """Whether the model explains the flight, and best at its own delay."""
        return not self.explains_little and self.delay_off == 0


def in_percent(share: float) -> str:
    """A share in words: none where it is not above 0, or not a number."""
    return f"{share:.1%}" if share > 0 else "none"


def is_less(cost: float, other: float) -> bool:
    """Whether one cost is clearly less than the other."""
    return cost < (CLEARLY_LESS * other if other > 0 else other)


@dataclass(frozen=True)
class Reading:
    """A sample on the model's clock."""

    rate: float
    moment: float
    good: bool
    """Neither held nor in a gap."""


class Simulation:
    """A model that runs by itself from any tick: the rate begins at the reading, and its change per tick at what the
    readings before it lead to."""

    def __init__(self, model: Model, readings: Sequence[Reading], shift: int = 0) -> None:
        """Prepares the model with its delay moved by `shift` ticks."""
        self.readings = readings
        self.carried = -model.rate_weights[1]
        """The part of a change that goes on in the next tick: the pole."""
        self.damping = model.rate_weights[0] - 1 - self.carried
        """What the rate itself adds to its change."""
        self.pushes = pushes(model, [reading.moment for reading in readings], shift)
        steps = zip(readings, self.pushes[1:])
        self.changes = list(accumulate(
            steps, lambda change, step: self.next_change(step[0].rate, change, step[1]), initial=0.0
        ))

    def next_change(self, rate: float, change: float, push: float) -> float:
        """The model's equation: the change of the rate at a tick, from the rate and its change at the tick before."""
        return self.damping * rate + self.carried * change + push

    def rates(self, start: int, ticks: int) -> list[float]:
        """The rates of a stretch: the reading at its start, then the model's at each tick."""
        rate, change = self.readings[start].rate, self.changes[start]
        path = [rate]
        for push in self.pushes[start + 1 : start + 1 + ticks]:
            change = self.next_change(rate, change, push)
            rate += change
            path.append(rate)
        return path


def pushes(model: Model, moments: Sequence[float], shift: int) -> list[float]:
    """What the moments add to the rate's change at each tick; beyond the window's ends they stand still.

    A stored moment is the one commanded a tick earlier, so the model's u[k-d] is the moment of sample k+1-d.
    """
    newest, last = 1 - model.whole_ticks - shift, len(moments) - 1

    def push(tick: int) -> float:
        places = (max(0, min(tick + newest - back, last)) for back in range(len(model.moment_weights)))
        return sum(weight * moments[place] for weight, place in zip(model.moment_weights, places))

    return [push(tick) for tick in range(len(moments))]


def fit_quality(model: Model, samples: Sequence[Sample]) -> Quality | None:
    """The quality of a model over the window that it was fitted to; None where no stretch of it can be run."""
    ticks = horizon_ticks(model, len(samples))
    if ticks is None:
        return None
    readings = on_model_clock(samples, model.dt_s)
    starts = list(good_starts(readings, ticks))
    spread = variance([readings[start + ticks].rate - readings[start].rate for start in starts])
    if not spread > 0:
        return None

    def errors(shift: int) -> list[float]:
        simulation = Simulation(model, readings, shift)
        return [readings[start + ticks].rate - simulation.rates(start, ticks)[-1] for start in starts]

    own = errors(0)
    return Quality(
        explained=1 - variance(own) / spread,
        earlier=1 - variance(errors(-SHIFT_TICKS)) / spread,
        later=1 - variance(errors(SHIFT_TICKS)) / spread,
        noise=2 * noise_variance(readings) / spread,
        drift_radps=mean(own),
        stretches=len(starts),
    )


def simulated_stretches(
    model: Model, samples: Sequence[Sample], quality: Quality
) -> Iterator[tuple[list[float], list[float]]]:
    """Times and rates of stretches end to end, for a picture; the drift that the model lacks is spread over each."""
    ticks = horizon_ticks(model, len(samples))
    readings = on_model_clock(samples, model.dt_s)
    simulation = Simulation(model, readings)
    free = 0
    for start in good_starts(readings, ticks):
        if start >= free:
            free = start + ticks
            path = simulation.rates(start, ticks)
            times = [samples[0].time_s + (start + tick) * model.dt_s for tick in range(len(path))]
            yield times, [rate + quality.drift_radps * tick / ticks for tick, rate in enumerate(path)]


def horizon_ticks(model: Model, stored: int) -> int | None:
    """The horizon in ticks; None where it is shorter than two or longer than the window."""
    ticks = HORIZON_S / model.dt_s if model.dt_s > 0 else 0.0
    return round(ticks) if 2 <= ticks <= stored else None


def on_model_clock(samples: Sequence[Sample], dt_s: float) -> list[Reading]:
    """The window in ticks of the model's length: at each the sample nearest in time, not good if that is over a tick away.

    Where all dt are alike these are the samples themselves. Where they are not, the model's delay and lag in s are tried,
    as they are used, and not its counts of ticks.
    """
    readings: list[Reading] = []
    nearest = 0
    for tick in range(round((samples[-1].time_s - samples[0].time_s) / dt_s) + 1):
        time_s = samples[0].time_s + tick * dt_s
        while nearest + 1 < len(samples) and samples[nearest + 1].time_s - time_s <= time_s - samples[nearest].time_s:
            nearest += 1
        sample = samples[nearest]
        readings.append(Reading(sample.rate, sample.moment, not sample.held and abs(sample.time_s - time_s) <= dt_s))
    return readings


def good_starts(readings: Sequence[Reading], ticks: int) -> Iterator[int]:
    """The ticks from which a stretch can be run: its first and last reading are good, and few between them are not."""
    bad = list(accumulate((not reading.good for reading in readings), initial=0))
    for start in range(HISTORY_TICKS, len(readings) - ticks):
        first, last = start - HISTORY_TICKS, start + ticks
        few = bad[last + 1] - bad[first] <= HELD_SHARE * (last + 1 - first)
        if few and readings[start].good and readings[last].good:
            yield start


def noise_variance(readings: Sequence[Reading]) -> float:
    """The variance of a reading's noise, by the second differences of the rate: for white noise theirs is six times it."""
    threes = zip(readings, readings[1:], readings[2:])
    jumps = [abs(a.rate - 2 * b.rate + c.rate) for a, b, c in threes if a.good and b.good and c.good]
    deviation = median(jumps) / NORMAL_MEDIAN if jumps else 0.0
    return deviation * deviation / 6


def median(values: Sequence[float]) -> float:
    """The middle of the values in order, the upper one of two."""
    return sorted(values)[len(values) // 2]


def mean(values: Sequence[float]) -> float:
    """The mean; not a number where a value is."""
    return sum(values) / len(values)


def variance(values: Sequence[float]) -> float:
    """The mean square about the mean; 0 of no values, and no error where it is not finite."""
    if not values:
        return 0.0
    middle = mean(values)
    return mean([(value - middle) * (value - middle) for value in values])
