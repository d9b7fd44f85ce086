"""Flights for the tests of quality and warnings: altered ones that no fitter should use, and flights of many airframes.

    python3 python/tests/flights.py 600

flies that many airframes, in calm air and in gusts, and counts the models that are right and wrong, and those of them that
the quality doubts.
"""
from __future__ import annotations

import functools
import math
import random
import sys
from collections import Counter
from collections.abc import Iterator
from dataclasses import dataclass, replace

from support import DEMO, identify

sys.path.insert(0, str(DEMO))

import make_flights

NOISY = next(flight for flight in make_flights.FLIGHTS if flight.name == "noisy")
ROLL_PITCH = DEMO / "roll_pitch.csv"
ROLL_PITCH_COLUMNS = {"rate1": "roll_rate", "moment1": "roll_moment", "rate2": "pitch_rate", "moment2": "pitch_moment"}
TWO_AXES = ("dt", "rate1", "moment1", "rate2", "moment2")
DOUBTS = {"no-lag", "unchecked", "explains-little", "delay-off"}
"""The warnings that stand on how the model holds."""

Columns = tuple[list[float], list[float], list[float]]
"""dt, rate and moment."""
TwoAxisColumns = tuple[list[float], list[float], list[float], list[float], list[float]]
"""dt, and rate and moment of each axis."""


def demo_columns(name: str) -> Columns:
    """A flight of the demo. The answer of `noisy` is 3.5 ticks, 14 ms."""
    log = identify.read_log(DEMO / f"{name}.csv")
    return log.dt, log.rate, log.moment


def roll_pitch() -> TwoAxisColumns:
    """The demo's flight of two axes. Only pitch asks for the extension; the answers are 2 and 4.5 ticks."""
    roll, pitch = identify.read_two_axis_log(ROLL_PITCH, ROLL_PITCH_COLUMNS)
    return roll.dt, roll.rate, roll.moment, pitch.rate, pitch.moment


def paired(first: Columns, second: Columns) -> TwoAxisColumns:
    """Two flights as two axes, as long as the shorter one, with the first one's clock."""
    length = min(len(first[0]), len(second[0]))
    return tuple(column[:length] for column in (*first, *second[1:]))


def lengthened(columns: Columns, ticks: int) -> Columns:
    """A flight of more ticks: its readings come again from the start."""
    return tuple((column * (ticks // len(column) + 1))[:ticks] for column in columns)


def flown(flight: make_flights.Flight) -> Columns:
    """A flight flown with the default configuration."""
    log = flown_flight(flight).log
    return log.dt[:], log.rate[:], log.moment[:]


def every_third_dropped(columns: tuple[list[float], ...]) -> tuple[list[float], ...]:
    """The log of a logger that drops every third tick, and gives the next one the dt of both."""
    dt, *readings = columns
    kept = [tick for tick in range(len(dt)) if tick % 3 != 2]
    lengths = [dt[tick] + (dt[tick - 1] if tick % 3 == 0 and tick else 0.0) for tick in kept]
    return lengths, *([column[tick] for tick in kept] for column in readings)


def lost_samples() -> Columns:
    """900 samples on end without a number."""
    dt, rate, moment = demo_columns("noisy")
    rate[300:1200] = moment[300:1200] = [math.nan] * 900
    return dt, rate, moment


def moments_of_noise() -> Columns:
    """Moments that have nothing to do with the rates."""
    dt, rate, moment = demo_columns("noisy")
    draw = random.Random(2)
    return dt, rate, [draw.gauss(0, 0.1) for _ in moment]


def one_dt_of(seconds: float) -> Columns:
    """A tick that is much too long."""
    dt, rate, moment = demo_columns("noisy")
    dt[300] = seconds
    return dt, rate, moment


def scaled(dt: float = 1.0, rate: float = 1.0, moment: float = 1.0) -> Columns:
    """The noisy flight in other units."""
    factors = (dt, rate, moment)
    return tuple([factor * value for value in column] for factor, column in zip(factors, demo_columns("noisy")))


ALTERED = {
    "lost samples": lost_samples,
    "moments of noise": moments_of_noise,
    "one dt of 2 s": lambda: one_dt_of(2.0),
    "one dt of 3000 s": lambda: one_dt_of(3000.0),
    "a delay of 60 ms": lambda: flown(replace(NOISY, delay_s=0.06)),
    "400 Hz": lambda: flown(replace(NOISY, tick_s=0.0025, dropouts=())),
    "moment in percent": lambda: scaled(moment=100.0),
    "rate in deg/s": lambda: scaled(rate=math.degrees(1)),
}
"""Flights whose answer no fitter should use as it stands."""


def log_of(columns: Columns, axis: str = "") -> identify.Log:
    """A log of these columns. Its first call stands on line 2."""
    return identify.Log("flight.csv", *columns, list(range(2, len(columns[0]) + 2)), axis)


def identified(columns: Columns, config: identify.Config = identify.Config()) -> identify.Flight:
    """A flight with its report."""
    return identify.Flight(log_of(columns), config, identify.run(config, *columns))


def fly(flight: make_flights.Flight) -> identify.Flight:
    """A flight flown with the default configuration, with its report."""
    config = identify.Config()
    dt, loop, report = make_flights.fly(flight, config)
    return identify.Flight(log_of((dt, loop.rates, loop.moments)), config, report)


# These are made once for all tests, none of which changes them.
flown_flight = functools.cache(fly)


@functools.cache
def demo_flight(name: str) -> identify.Flight:
    """A flight of the demo, with its report."""
    return identified(demo_columns(name))


@functools.cache
def altered_flight(name: str) -> identify.Flight:
    """One of the altered flights, with its report."""
    return identified(ALTERED[name]())


def codes(flight: identify.Flight) -> list[str]:
    """The codes of a flight's warnings."""
    return [warned.code for warned in identify.find_warnings(flight)]


ODD = (
    math.nan, math.inf, -math.inf, 0.0, -0.0, 5e-324, 1e-45, -1e-40, 0.999, 1.0, -1.0, 4096.0, 1e10, 1e19, 3e38, -3e38, 1e39,
    1e308,
)
"""Readings that a broken log may have."""


def odd_columns(draw: random.Random) -> tuple[Columns, identify.Config]:
    """A log of any length with odd readings, and a configuration that fits its length or does not."""
    ticks = draw.choice((1, 2, 11, 12, 13, 30, 70, 120, 300, 600, 2048, 2049, 2300))
    tick_s = draw.choice((1e-4, 0.001, 0.004, 0.01, 0.05, 0.25, 60.0))
    duration_s = min(max(draw.choice((0.2, 0.9, 1.0, 1.5)) * ticks * tick_s, 1e-6), 3600.0)
    extension = draw.choice((None, identify.Extension(1.0, min(draw.choice((1.0, 1.5)) * duration_s, 3600.0))))
    columns = (
        odd_column(draw, [tick_s] * ticks, (0, 1, 5)),
        odd_column(draw, [draw.gauss(0, draw.choice((0.01, 0.3, 1e5))) for _ in range(ticks)], (0, 5, ticks)),
        odd_column(draw, [draw.gauss(0, draw.choice((0.1, 50.0))) for _ in range(ticks)], (0, 5, ticks)),
    )
    return columns, identify.Config(draw.choice((0.5, 1e30, 1e-30)), duration_s, draw.choice((0.2, 1e-3)), extension)


def odd_column(draw: random.Random, values: list[float], counts: tuple[int, ...]) -> list[float]:
    """A column with so many odd readings in it."""
    for _ in range(draw.choice(counts)):
        values[draw.randrange(len(values))] = draw.choice(ODD)
    return values


@dataclass(frozen=True)
class Trial:
    """A flight of a known airframe, with what came of it."""

    airframe: make_flights.Flight
    flight: identify.Flight

    @property
    def is_right(self) -> bool:
        """Whether the delay is within one and a half ticks of the airframe's, and the push within a tenth.

        A moment is read at the next tick, and held for one: it acts half a tick later in the mean, which the one gain of the
        integrated fit shows.
        """
        model = self.flight.report.model
        delay_ticks = self.airframe.delay_s / self.airframe.tick_s + (1.5 if model.integrated else 1.0)
        push = (model.accel_radps2 or 0.0) / self.airframe.gain
        return abs(model.delay_ticks - delay_ticks) <= 1.5 and abs(push - 1) <= 0.1

    @property
    def is_doubted(self) -> bool:
        """Whether the quality speaks against the model."""
        return not DOUBTS.isdisjoint(codes(self.flight))


def trials(count: int, gusts: float) -> Iterator[Trial]:
    """Flights of airframes drawn at random, in gusts of this size; those that end without a model are passed over."""
    draw = random.Random(1)
    for number in range(count):
        tick_s, gain = draw.choice((0.002, 0.0025, 0.004, 0.005, 0.01)), draw.choice((15.0, 40.0, 100.0))
        airframe = make_flights.Flight(
            "drawn",
            seed=number,
            noise=draw.choice((0.0, 0.0005, 0.003, 0.01, 0.02, 0.03, 0.05, 0.08)),
            p=draw.uniform(3, 20) / gain,
            gain=gain,
            lag_s=draw.choice((0.01, 0.02, 0.03, 0.05, 0.1)),
            delay_s=draw.uniform(0, 9) * tick_s,
            trim=draw.choice((0.0, 0.02)),
            gusts=gusts,
            tick_s=tick_s,
        )
        flight = fly(airframe)
        if flight.report.model:
            yield Trial(airframe, flight)


def count_trials(count: int, gusts: float = 0.0) -> Counter[tuple[bool, bool]]:
    """How many models are right, and how many doubted."""
    return Counter((trial.is_right, trial.is_doubted) for trial in trials(count, gusts))


if __name__ == "__main__":
    for size in (0.0, 0.2, 0.5, 1.0):
        found = count_trials(int(sys.argv[1]), size)
        words = ", ".join(
            f"{found[right, False] + found[right, True]} {name} of which {found[right, True]} doubted"
            for right, name in ((True, "right"), (False, "wrong"))
        )
        print(f"gusts of {size:g} rad/s2: {words}")
