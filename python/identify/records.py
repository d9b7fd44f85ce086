"""What goes into a run and what comes out of it, with names."""
from __future__ import annotations

import enum
from dataclasses import dataclass, field

RULES = {
    1: "amplitude zero or not finite",
    2: "duration not positive and finite, or above 3,600 s",
    3: "washout not positive and finite",
    4: "extension amplitude zero or not finite",
    5: "extension duration not finite, below the duration, or above 3,600 s",
    6: "dt not positive and finite",
    7: "still running, and elapsed time + dt above 4,096 s",
    8: "still running, with 16,777,216 ticks",
    9: "configuration not 24 bytes, calls not a multiple of 12 (of two axes: of 20), or output too short",
    10: "still running, a steady probe, and dt more than a quarter off the first accepted dt",
}
"""The rules by which the library turns back a configuration (1 to 5), a call (6 to 8, and 10) or a byte run (9)."""


class ConfigRefused(ValueError):
    """The library turned the whole run back; `rule` is the number of the rule."""

    def __init__(self, rule: int) -> None:
        super().__init__(f"refused by rule {rule}: {RULES.get(rule, 'a rule that this package does not know')}")
        self.rule = rule


@dataclass(frozen=True)
class Extension:
    """How the probe goes on where the window reads noisy at the configuration's duration."""

    amplitude: float = 1.0
    """Height of the square wave from then on, in rad/s."""
    duration_s: float = 8.0
    """Length of the whole window, in s; not below the configuration's."""


@dataclass(frozen=True)
class Config:
    """What the probe was told before the flight. Give the values that the aircraft flew with."""

    amplitude: float = 0.5
    """Height of the square wave added to the rate setpoint, in rad/s."""
    duration_s: float = 6.0
    """How long the axis is excited and recorded, in s."""
    washout_tc_s: float = 0.2
    """Time constant, in s, with which each edge of the square wave decays."""
    extension: Extension | None = Extension()
    """More excitation for a noisy window; None fits it as it stands."""


class Ending(enum.Enum):
    """How a probe stands after the last call."""

    RUNNING = 0
    DONE = 1
    UNEXCITED = 2
    SATURATED = 3


@dataclass(frozen=True)
class Model:
    """The fitted axis.

    `y[k] = r1 y[k-1] + r2 y[k-2] + m0 u[k-d] + m1 u[k-d-1] + m2 u[k-d-2]`: y the rate in rad/s, u the moment commanded
    at a tick, r the rate weights, m the moment weights, d the whole ticks of delay.
    """

    half_ticks: int
    """The delay in half ticks: 7 is 3.5 ticks."""
    rate_weights: tuple[float, float]
    moment_weights: tuple[float, float, float]
    dt_s: float
    """Length of one tick, in s: the mean over the window."""
    integrated: bool
    """True for the fit of a noisy window, whose weights and dt_s are finite; False for the fit on the recorded rates of a
    quiet one."""
    lag_s: float | None = None
    """Time constant, in s, with which the acceleration follows the moment; 0 where the fit sees no lag. None where the
    pole, minus the second rate weight, is 1 or more, or NaN: then the model has neither lag nor push."""
    accel_radps2: float | None = None
    """The push: acceleration per unit moment, in rad/s², once the lag has settled. None where the lag is None."""

    @property
    def delay_ticks(self) -> float:
        """The delay in ticks, with its half."""
        return self.half_ticks / 2

    @property
    def whole_ticks(self) -> int:
        """The d of the equation: the delay's whole ticks. Of a half delay the first two moment weights share the gain."""
        return self.half_ticks // 2

    @property
    def delay_s(self) -> float:
        """The delay in s."""
        return self.delay_ticks * self.dt_s


@dataclass(frozen=True)
class Refusal:
    """A call that the probe turned back: it left the probe as it was and counted no tick."""

    call: int
    """Index of the call, from 0."""
    rule: int
    """6, 7, 8 or, of a steady probe, 10; see RULES."""


@dataclass(frozen=True)
class Report:
    """What one run gave."""

    ending: Ending
    model: Model | None
    """The fitted axis where the ending is DONE."""
    elapsed_s: float | None
    """Seconds since the start where the ending is RUNNING."""
    ticks: int
    """Calls that the probe took while it ran."""
    stored: int
    """Samples in the window, at most 2,048."""
    held: int
    """Stored samples whose rate or moment was not finite; the value before stands in its place."""
    warm: int
    """Good samples spent on filling a history: up to 11 after the start and after each held stretch."""
    rows: int
    """Rows of the fit on the recorded rates."""
    gain_fits: int
    """Fits that the search of a noisy window made; 0 where the window was quiet."""
    offsets: tuple[float, ...] = field(repr=False)
    """The offset to add to the rate setpoint, one a call; NaN for a call that was turned back."""
    refusals: tuple[Refusal, ...] = ()
    """The calls that were turned back."""
    raw: bytes = field(default=b"", repr=False)
    """The 36 bytes of the library's report."""
    steady: bool = False
    """Whether the probe was a steady one."""


@dataclass(frozen=True)
class TwoAxisReport:
    """What one run of two axes gave. Both axes take and turn back the same calls, and end in the same one."""

    first: Report
    """Axis 1, whose square wave starts high."""
    second: Report
    """Axis 2, whose square wave starts low."""
    ticks: int
    """The ticks of both axes added up."""
    rows: int
    """The rows of both axes added up."""
    raw: bytes = field(default=b"", repr=False)
    """The 77 bytes of the library's report."""

    @property
    def axes(self) -> tuple[Report, Report]:
        """Both reports, in order."""
        return self.first, self.second
