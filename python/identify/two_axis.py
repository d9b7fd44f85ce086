"""A flight of two axes: a flight for each, and what ties them."""
from __future__ import annotations

from collections.abc import Sequence
from dataclasses import dataclass
from functools import cached_property

from .checks import CLOCK_CODES, Warned, find_warnings
from .flight import Flight
from .log import Log
from .probe import run, run_two_axis
from .records import Config, TwoAxisReport
from .window import extension_taken


@dataclass(frozen=True)
class TwoAxisFlight:
    """The flights of both axes, and the report of the pair. Both have one clock, one configuration and one end."""

    axes: tuple[Flight, Flight]
    report: TwoAxisReport

    @classmethod
    def of(cls, logs: Sequence[Log], config: Config, steady: bool = False) -> TwoAxisFlight:
        """Runs a pair over the logs of two axes. Raises what `run_two_axis` raises."""
        first, second = logs
        report = run_two_axis(config, first.dt, first.rate, first.moment, second.rate, second.moment, steady)
        return cls((Flight(first, config, report.first), Flight(second, config, report.second)), report)

    @cached_property
    def asked(self) -> tuple[Flight, ...]:
        """The axes that asked for the extension: their windows read noisy at the duration. None where it was not taken."""
        return tuple(axis for axis in self.axes if axis.extended and asks(axis))


def asks(axis: Flight) -> bool:
    """Whether an axis would have taken the extension by itself. A window reads as it does whatever the offsets were."""
    log, config = axis.log, axis.config
    return extension_taken(config, log.dt, run(config, log.dt, log.rate, log.moment, axis.report.steady))


@dataclass(frozen=True)
class TwoAxisWarnings:
    """The warnings of a flight of two axes."""

    clock: list[Warned]
    """About dt and the calls, which both axes share."""
    axes: tuple[list[Warned], list[Warned]]
    """About the readings and the model of each axis."""

    def __bool__(self) -> bool:
        """Whether there is any."""
        return bool(self.clock or any(self.axes))


def find_two_axis_warnings(flight: TwoAxisFlight) -> TwoAxisWarnings:
    """The warnings of both axes; those that both share once."""
    first, second = (find_warnings(axis) for axis in flight.axes)
    clock = [warned for warned in first if warned.code in CLOCK_CODES]
    return TwoAxisWarnings(clock, (own(first), own(second)))


def own(found: Sequence[Warned]) -> list[Warned]:
    """The warnings that are of one axis alone."""
    return [warned for warned in found if warned.code not in CLOCK_CODES]
