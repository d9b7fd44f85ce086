"""A flight: its log, the configuration that it was run with and what came out, and what follows from these three."""
from __future__ import annotations

from dataclasses import dataclass
from functools import cached_property

from .log import Log
from .quality import Quality, fit_quality
from .records import Config, Report
from .window import Sample, extension_taken, stored_window, taken_calls, taken_samples


@dataclass(frozen=True)
class Flight:
    """A log, its configuration and its report."""

    log: Log
    config: Config
    report: Report

    @cached_property
    def calls(self) -> list[int]:
        """The calls that the probe took, in order."""
        return list(taken_calls(self.report))

    @cached_property
    def taken(self) -> list[Sample]:
        """A sample of each of these calls."""
        return list(taken_samples(self.log.dt, self.log.rate, self.log.moment, self.report))

    @cached_property
    def samples(self) -> list[Sample]:
        """The samples in the probe's window: those of the first calls."""
        return stored_window(self.log.dt, self.log.rate, self.log.moment, self.report)

    @cached_property
    def quality(self) -> Quality | None:
        """How well the model holds; None where there is no model, or no stretch to run it over."""
        return fit_quality(self.report.model, self.samples) if self.report.model else None

    @cached_property
    def extended(self) -> bool:
        """Whether the probe took its extension."""
        return self.config.extension is not None and extension_taken(self.config, self.log.dt, self.report)

    @property
    def full_s(self) -> float | None:
        """When the window was full, in s since the start; None where it has every tick."""
        return self.samples[-1].time_s if self.report.stored < self.report.ticks else None

    @property
    def has_extension(self) -> bool:
        """Whether some of the extension is in the window: it was taken before the window was full."""
        return self.extended and (self.full_s is None or self.full_s > self.config.duration_s)

    @property
    def end_s(self) -> float:
        """When the last call was that the probe took, in s since the start."""
        return sum(self.log.dt[call] for call in self.calls)

    def line(self, sample: int) -> int:
        """The log's line on which a sample stands."""
        return self.log.lines[self.calls[sample]]
