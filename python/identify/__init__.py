"""The rate identifier in Python: from the log of one probe to how strongly, and how late, an axis follows its moment.

The fits, and the lag and push of a model, are those of the proved library. This package packs the calls into bytes, runs
`identify_byte_run` and `identify_plain_units`, and names the fields of what comes back. With `steady=True` a run flies a
steady probe, with the functions of a probe in flight.

    >>> import identify
    >>> report = identify.run(identify.Config(), dt, rate, moment)
    >>> report.ending
    <Ending.DONE: 1>
    >>> report.model.delay_ticks
    3.5
    >>> report.model.lag_s, report.model.accel_radps2
    (0.029891306534409523, 39.6057014465332)

A flight of two axes goes through `identify.run_two_axis(config, dt, rate1, moment1, rate2, moment2)`, whose report has one
for each axis. `identify.read_two_axis_log` reads two logs with one clock, and `identify.TwoAxisFlight.of(logs, config)` runs
them and tells which axis asked for the extension.

`identify.read_log("flight.csv")` reads the three sequences from a file; `identify.plain_units(report.raw)` gives the lag and
the push of a report that was kept as its 36 bytes. `identify.Flight(log, config, report)` has the model's `quality`, and
`identify.find_warnings` tells what makes its answer doubtful.
"""
from .checks import Warned, find_warnings
from .columns import BadColumns
from .flight import Flight
from .library import LibraryError
from .log import BadLog, Log, read_log, read_two_axis_log
from .probe import plain_units, run, run_bytes, run_two_axis, run_two_axis_bytes
from .quality import Quality, fit_quality, simulated_stretches
from .records import RULES, Config, ConfigRefused, Ending, Extension, Model, Refusal, Report, TwoAxisReport
from .two_axis import TwoAxisFlight, TwoAxisWarnings, find_two_axis_warnings
from .window import Sample, extension_taken, stored_window

__all__ = [
    "RULES", "BadColumns", "BadLog", "Config", "ConfigRefused", "Ending", "Extension", "Flight", "LibraryError", "Log", "Model",
    "Quality", "Refusal", "Report", "Sample", "TwoAxisFlight", "TwoAxisReport", "TwoAxisWarnings", "Warned", "extension_taken",
    "find_two_axis_warnings", "find_warnings", "fit_quality", "plain_units", "read_log", "read_two_axis_log", "run",
    "run_bytes", "run_two_axis", "run_two_axis_bytes", "simulated_stretches", "stored_window",
]
