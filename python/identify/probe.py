"""Runs the proved library: over a list of calls, as a plain or a steady probe, and over a report."""
from __future__ import annotations

import ctypes
import sys
from collections.abc import Callable, Sequence

from . import library, live
from .records import Config, ConfigRefused, Report, TwoAxisReport
from .wire import (
    CALL_BYTES, OFFSET_BYTES, REPORT_BYTES, TWO_AXIS_CALL_BYTES, TWO_AXIS_REPORT_BYTES, UNITS_BYTES, pack_calls, pack_config,
    pack_two_axis_calls, unpack_report, unpack_two_axis_report, unpack_units,
)


def run(
    config: Config, dt: Sequence[float], rate: Sequence[float], moment: Sequence[float], steady: bool = False
) -> Report:
    """Runs a probe of this configuration over a flight and reports how it ended.

    One call a tick, in order: `dt` the seconds since the last tick, `rate` the axis's rate at this tick in rad/s,
    `moment` the normalised moment commanded on the last tick. The first call is the first tick of the excitation. A
    reading that is NaN or infinite is allowed and counts as held. A steady probe turns back, by rule 10, the calls whose
    dt is more than a quarter off its first accepted one.

    Raises ConfigRefused where the configuration breaks one of the rules 1 to 5, ValueError where the sequences differ in
    length, and LibraryError where the library cannot be built or loaded, or has no steady probe and one is asked for. A
    call that breaks one of the rules 6 to 8, or 10, is listed in the report's `refusals`, and the run goes on.
    """
    output = (run_steady_bytes if steady else run_bytes)(pack_config(config), pack_calls(dt, rate, moment))
    return unpack_report(output, plain_units(output[:REPORT_BYTES]), steady)


def run_bytes(config: bytes, calls: bytes) -> bytes:
    """Runs `identify_byte_run` as include/identify.h describes it and returns the output: report, then offsets.

    Raises ConfigRefused with the number that the library answered where it is not 0.
    """
    length = REPORT_BYTES + OFFSET_BYTES * (len(calls) // CALL_BYTES)
    return filled(library.load().identify_byte_run, config, calls, length)


def run_steady_bytes(config: bytes, calls: bytes) -> bytes:
    """What `run_bytes` returns, of a steady probe. The configuration and the calls have their right lengths."""
    check_float_mode()
    return live.fly(config, calls)


def run_two_axis(
    config: Config, dt: Sequence[float], rate1: Sequence[float], moment1: Sequence[float], rate2: Sequence[float],
    moment2: Sequence[float], steady: bool = False,
) -> TwoAxisReport:
    """Runs a pair of probes of one configuration over a flight of two axes and reports how each ended.

    One call a tick, as for `run`, with the readings of both axes. Where either window reads noisy at the configuration's
    duration, both axes take the extension; both end in the same call. A call that breaks one of the rules 6 to 8, or of a
    steady pair 10, is turned back for both, and stands in the `refusals` of both reports.

    Raises what `run` raises, and LibraryError too where the library has no function for two axes.
    """
    fly = run_two_axis_steady_bytes if steady else run_two_axis_bytes
    output = fly(pack_config(config), pack_two_axis_calls(dt, rate1, moment1, rate2, moment2))
    reports = (output[:REPORT_BYTES], output[REPORT_BYTES : 2 * REPORT_BYTES])
    return unpack_two_axis_report(output, [plain_units(report) for report in reports], steady)


def run_two_axis_bytes(config: bytes, calls: bytes) -> bytes:
    """Runs `identify_two_axis_run` as include/identify.h describes it and returns the output: the report of the pair, then
    two offsets a call.

    Raises ConfigRefused with the number that the library answered where it is not 0.
    """
    length = TWO_AXIS_REPORT_BYTES + 2 * OFFSET_BYTES * (len(calls) // TWO_AXIS_CALL_BYTES)
    return filled(library.two_axis_run(), config, calls, length)


def run_two_axis_steady_bytes(config: bytes, calls: bytes) -> bytes:
    """What `run_two_axis_bytes` returns, of a steady pair. The configuration and the calls have their right lengths."""
    check_float_mode()
    return live.fly_pair(config, calls)


def filled(function: Callable[..., int], config: bytes, calls: bytes, length: int) -> bytes:
    """The output of this length that a run over bytes has filled."""
    check_float_mode()
    output = ctypes.create_string_buffer(length)
    answer = function(config, len(config), calls, len(calls), output, len(output))
    if answer != 0:
        raise ConfigRefused(answer)
    return output.raw


def plain_units(report: bytes) -> tuple[float, float] | None:
    """Runs `identify_plain_units` over a report's 36 bytes: the lag in s and the push in rad/s² per unit moment.

    None where the report has neither: its probe is not done, or the model's pole is 1 or more, or NaN. Raises ValueError
    where the report is not 36 bytes.
    """
    function = library.load().identify_plain_units
    check_float_mode()
    output = ctypes.create_string_buffer(UNITS_BYTES)
    if function(report, len(report), output, len(output)) != 0:
        raise ValueError(f"a report is {REPORT_BYTES} bytes, not {len(report)}")
    return unpack_units(output.raw)


def check_float_mode() -> None:
    """Refuses to run in a floating-point mode in which the library's promises do not hold.

    Some numeric extensions switch the processor to flush subnormals when they are loaded.
    """
    one, least = 1.0, sys.float_info.min
    half_unit = sys.float_info.epsilon / 2
    to_nearest = one + half_unit == one and -one - half_unit == -one and one + 3 * half_unit > one + 2 * half_unit
    if not to_nearest or least / 2 == 0.0:
        raise library.LibraryError("this process does not round to nearest with subnormals kept, which the library needs")
