"""Why a probe has no model, and what to do about it."""
from __future__ import annotations

from .checks import TERMS, moment_units, wild_rate_readings
from .flight import Flight
from .records import Ending
from .window import at_limit

SQUARABLE_RATE = 1.8e19
"""The square of a rate beyond this, in rad/s, is beyond single precision."""


def reason(flight: Flight) -> str | None:
    """Why there is no model; None where there is one."""
    return REASONS[flight.report.ending](flight) if flight.report.ending in REASONS else None


def running_reason(flight: Flight) -> str:
    """The log is shorter than the probe."""
    elapsed_s, duration_s = flight.report.elapsed_s, flight.config.duration_s
    end_s = flight.config.extension.duration_s if flight.extended else duration_s
    # With all its digits where it is short of the end by a hair.
    digits = 4 if float(f"{elapsed_s:.4g}") < end_s else 9
    at = f"the log ends after {elapsed_s:.{digits}g} s"
    if flight.extended:
        return (
            f"{at}: the window was noisy at {duration_s:g} s and goes on to {end_s:g} s. Log the extension to its end, or "
            "give --no-extension."
        )
    return (
        f"{at}, before the duration of {duration_s:g} s. Log the excitation to its end, or give the --duration that was "
        "flown."
    )


def saturated_reason(flight: Flight) -> str:
    """Too many moments at the limit in a noisy window."""
    count, stored = at_limit(flight.samples), flight.report.stored
    found = f"{count} of {stored} moments ({count / stored:.0%}) are at the limit, more than a fifth, and the window is noisy"
    if moment_units(flight):
        return f"{found}. See the warning about their unit."
    return f"{found}: a clipped moment is not the one that the airframe felt. Lower the rate loop's gains or the amplitude."


def unexcited_reason(flight: Flight) -> str:
    """No fit had an answer."""
    report, samples = flight.report, flight.samples
    if report.rows < TERMS:
        return (
            f"only {report.rows} rows to fit, fewer than the {TERMS} unknowns ({report.stored} samples, {report.held} held; "
            "a row needs 12 good samples on end). Check the log's length, its dt and its nan readings."
        )
    wild = [abs(rate) for _, rate in wild_rate_readings(flight)]
    if wild and report.gain_fits:
        return "the window is noisy, and no fit of it has a finite gain and a finite error. See the warning about its rates."
    if wild and max(wild) > SQUARABLE_RATE:
        return "no fit of the window has finite numbers. See the warning about its rates."
    least = min(sample.moment for sample in samples)
    most = max(sample.moment for sample in samples)
    return (
        f"the excitation did not move the moment enough to tell the terms apart (it lies between {least:.3g} and "
        f"{most:.3g}). Check that the moment is that of the probed axis, and raise the amplitude."
    )


REASONS = {Ending.RUNNING: running_reason, Ending.SATURATED: saturated_reason, Ending.UNEXCITED: unexcited_reason}
