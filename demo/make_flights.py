#!/usr/bin/env python3
"""Makes the four flights beside this file: python3 demo/make_flights.py [FOLDER].

Each flight simulates one axis in closed loop, or two. Within a tick the airframe is integrated in small steps: the moment
reaches it after a delay and through a motor lag, and its rate integrates gain x moment. The gyro adds noise; a P controller
turns setpoint minus measured rate into the next moment, limited to 1. The setpoint is the probe's offset, and the offsets are
the library's own (see `fly_axes`). The logged digits are those that the loop used, so a log is exact.

The same digits come out each time: the noise is a sum of uniform numbers from Python's generator with a fixed seed.
"""
from __future__ import annotations

import dataclasses
import math
import random
import sys
from collections import deque
from collections.abc import Sequence
from dataclasses import dataclass, field
from pathlib import Path

ROOT = Path(__file__).resolve().parent.parent
sys.path.insert(0, str(ROOT / "python"))

import identify

STEPS = 8
"""Steps of the airframe's simulation in a tick."""
DIGITS = 5
LAST_S = 8.4
"""Length of a log: a little past the extension's end."""
GUST_S = 0.5
"""How long a gust lasts."""


@dataclass(frozen=True)
class Flight:
    """What is simulated."""

    name: str
    seed: int
    noise: float
    """Standard deviation of the gyro's noise, in rad/s."""
    p: float
    """The controller's moment for one rad/s."""
    gain: float = 40.0
    """Angular acceleration for a full moment, in rad/s2."""
    lag_s: float = 0.03
    """Time constant of the motors."""
    delay_s: float = 0.009
    """From the command to the motors."""
    trim: float = 0.0
    """A constant moment from outside, as of a load off the centre."""
    gusts: float = 0.0
    """Standard deviation of the angular acceleration by gusts, in rad/s2."""
    dropouts: tuple[tuple[int, int], ...] = ()
    """First and last tick of each stretch in which the gyro gives nan."""
    seconds: float = LAST_S
    tick_s: float = 0.004


FLIGHTS = (
    Flight("clean", seed=1, noise=0.0, p=0.25, trim=0.01, seconds=6.2),
    Flight("noisy", seed=5, noise=0.03, p=0.3, dropouts=((700, 705), (1240, 1240))),
    Flight("saturated", seed=3, noise=0.03, p=3.0, seconds=6.2),
)
"""One airframe: quiet; with gyro noise; with gyro noise and the controller's gain ten times too high."""

ROLL_PITCH = (
    Flight("roll", seed=1, noise=0.0, p=0.2, gain=60.0, lag_s=0.02, delay_s=0.005, trim=0.01),
    Flight("pitch", seed=2, noise=0.03, p=0.3, gain=40.0, lag_s=0.04, delay_s=0.013),
)
"""Two axes of another airframe: roll quiet, pitch with gyro noise."""


@dataclass
class Airframe:
    """One axis: moment, delay, lag, rate."""

    flight: Flight
    rate: float = 0.0
    lagged: float = 0.0
    gust: float = 0.0
    pipe: deque[float] = field(default_factory=deque)

    def __post_init__(self) -> None:
        self.wind = random.Random(f"wind {self.flight.seed}")
        self.step_s = self.flight.tick_s / STEPS
        self.pole = math.exp(-self.step_s / self.flight.lag_s)
        self.pipe.extend([0.0] * round(self.flight.delay_s / self.step_s))

    def tick(self, moment: float) -> None:
        """Flies one tick with this command."""
        self.blow()
        for _ in range(STEPS):
            self.pipe.append(moment)
            self.lagged = self.pole * self.lagged + (1 - self.pole) * self.pipe.popleft()
            self.rate += self.flight.gain * (self.lagged + self.flight.trim) * self.step_s

    def blow(self) -> None:
        """The gust of a tick: what is left of the last one, and a new one."""
        kept = math.exp(-self.flight.tick_s / GUST_S)
        self.gust = kept * self.gust + self.flight.gusts * math.sqrt(1 - kept * kept) * normal(self.wind)
        self.rate += self.gust * self.flight.tick_s


def normal(draw: random.Random) -> float:
    """A random number of mean 0 and standard deviation 1: twelve uniform ones less six."""
    return sum(draw.random() for _ in range(12)) - 6


@dataclass
class Loop:
    """The airframe with its gyro and its controller, and the calls that it logs."""

    flight: Flight
    rates: list[float] = field(default_factory=list)
    moments: list[float] = field(default_factory=list)
    last_good: float = 0.0
    moment: float = 0.0

    def __post_init__(self) -> None:
        self.airframe = Airframe(self.flight)
        self.noise = random.Random(self.flight.seed)

    def gyro(self) -> float:
        """This tick's reading; nan in a dropout."""
        noise = normal(self.noise)
        tick = len(self.rates)
        if any(first <= tick <= last for first, last in self.flight.dropouts):
            return math.nan
        return round(self.airframe.rate + self.flight.noise * noise, DIGITS)

    def tick(self, offset: float) -> None:
        """Reads the gyro, logs, commands the next moment and flies it; in a dropout by the last reading."""
        rate = self.gyro()
        self.rates.append(rate)
        self.moments.append(self.moment)
        self.last_good = self.last_good if math.isnan(rate) else rate
        wanted = self.flight.p * (offset - self.last_good)
        self.moment = round(max(-1.0, min(1.0, wanted)), DIGITS)
        self.airframe.tick(self.moment)


def fly(flight: Flight, config: identify.Config) -> tuple[list[float], Loop, identify.Report]:
    """Flies one axis."""
    dt, (loop,), (report,) = fly_axes((flight,), config)
    return dt, loop, report


def fly_axes(
    flights: Sequence[Flight], config: identify.Config
) -> tuple[list[float], list[Loop], Sequence[identify.Report]]:
    """Flies one axis, or two at once, with the offsets that the library gives.

    An offset hangs on the readings only through one decision: at the configuration's duration the probe looks at the window
    and may take the extension. So the library is asked twice, with zeros for the readings that are still to come: before
    the start, and again once that window is flown. A third run over the whole flight must give the offsets that were flown.
    """
    ticks = round(flights[0].seconds / flights[0].tick_s)
    dt = [flights[0].tick_s] * ticks
    loops = [Loop(flight) for flight in flights]
    first_leg = run(dataclasses.replace(config, extension=None), dt, loops)
    fly_leg(loops, first_leg, 0, first_leg[0].ticks)
    second_leg = run(config, dt, loops)
    fly_leg(loops, second_leg, first_leg[0].ticks, ticks)
    reports = run(config, dt, loops)
    if [report.offsets for report in reports] != [report.offsets for report in second_leg]:
        raise AssertionError(f"{flights[0].name}: the flown offsets are not the probe's")
    return dt, loops, reports


def run(config: identify.Config, dt: list[float], loops: Sequence[Loop]) -> Sequence[identify.Report]:
    """The library's report of each axis, with zeros for the readings that are still to come."""
    rest = [0.0] * (len(dt) - len(loops[0].rates))
    readings = [column + rest for loop in loops for column in (loop.rates, loop.moments)]
    return (identify.run(config, dt, *readings),) if len(loops) == 1 else identify.run_two_axis(config, dt, *readings).axes


def fly_leg(loops: Sequence[Loop], reports: Sequence[identify.Report], first: int, end: int) -> None:
    """Flies each axis with its offsets from one tick to another."""
    for loop, report in zip(loops, reports):
        for offset in report.offsets[first:end]:
            loop.tick(offset)


def csv_text(dt: list[float], loops: Sequence[Loop], reports: Sequence[identify.Report]) -> str:
    """The log, with more columns than the identifier reads: time, and offset of each axis. Of two axes each has its name."""
    prefixes = [f"{loop.flight.name}_" if len(loops) > 1 else "" for loop in loops]
    names = [f"{prefix}{column}" for columns in (("rate", "moment"), ("offset",)) for prefix in prefixes for column in columns]
    lines = [",".join(["time", "dt", *names])]
    for tick, step in enumerate(dt):
        readings = [f"{value:.{DIGITS}f}" for loop in loops for value in (loop.rates[tick], loop.moments[tick])]
        offsets = [f"{report.offsets[tick]:.4f}" for report in reports]
        lines.append(",".join([f"{(tick + 1) * step:.3f}", f"{step:.3f}", *readings, *offsets]))
    return "\n".join(lines) + "\n"


def main() -> None:
    """Writes the logs and prints how each ends."""
    folder = Path(sys.argv[1]) if len(sys.argv) > 1 else Path(__file__).resolve().parent
    for flights in (*((flight,) for flight in FLIGHTS), ROLL_PITCH):
        name = "_".join(flight.name for flight in flights)
        flown = fly_axes(flights, identify.Config())
        (folder / f"{name}.csv").write_text(csv_text(*flown))
        print(f"{name}.csv: {'; '.join(ending(report) for report in flown[2])}")


def ending(report: identify.Report) -> str:
    """How an axis ended, in words."""
    return report.ending.name.lower() + (f", {report.model.delay_ticks:g} ticks" if report.model else "")


if __name__ == "__main__":
    main()
