"""Flies a steady probe, or a pair of them, with the library's functions of a probe in flight, as the inline functions of
include/identify.h do."""
from __future__ import annotations

import ctypes
import math
import struct
from types import SimpleNamespace

from . import library
from .records import ConfigRefused
from .wire import NAN_WORD, REPORT_BYTES, TWO_AXIS_REPORT_BYTES, pack_floats

STEADY = 1
"""The option of an opening: IDENTIFY_STEADY."""
SAMPLES = 2048
UNKNOWN_OPTION = 9

POINTER, WORD, FLOAT, LENGTH = ctypes.c_void_p, ctypes.c_uint32, ctypes.c_float, ctypes.c_size_t
CONFIG = struct.Struct(">3fI2f")
OPENING = [FLOAT, FLOAT, FLOAT, WORD, FLOAT, FLOAT, WORD]
"""The arguments of an opening that are no pointers: the configuration and the options."""
ONE_AXIS = {
    "open": (WORD, [POINTER] * 4 + OPENING),
    "ready": (None, [POINTER, POINTER, WORD, FLOAT, POINTER, FLOAT]),
    "step": (WORD, [POINTER, POINTER, WORD] + [POINTER] * 5 + [FLOAT] * 3 + [POINTER]),
    "report": (None, [POINTER] * 5 + [LENGTH]),
}
"""The functions of a probe in flight: what each answers and takes."""
TWO_AXES = {
    "open": (WORD, [POINTER] * 6 + OPENING),
    "ready": (None, [POINTER] * 6 + [WORD, FLOAT, FLOAT]),
    "step": (WORD, [POINTER] * 12 + [WORD, POINTER] + [FLOAT] * 5 + [POINTER] * 2),
    "report": (None, [POINTER] * 9 + [LENGTH]),
}
"""Those of a pair in flight."""


class Probe(ctypes.Structure):
    """The header's identify_probe."""

    _fields_ = [
        ("words", WORD * 8),
        ("floats", FLOAT * 14),
        ("rates", FLOAT * SAMPLES),
        ("moments", FLOAT * SAMPLES),
        ("offsets", FLOAT * SAMPLES),
        ("held", ctypes.c_uint8 * SAMPLES),
        ("steady", WORD),
        ("first_dt_s", FLOAT),
    ]


class Pair(ctypes.Structure):
    """The header's identify_pair."""

    _fields_ = [("first", Probe), ("second", Probe)]


def fly(config: bytes, calls: bytes) -> bytes:
    """Flies a steady probe over the configuration and the calls of `identify_byte_run`, and returns its report and its
    offsets in the same bytes. Raises ConfigRefused, and LibraryError where the library has no steady probe."""
    live = functions(library.LIVE, "identify_live_", ONE_AXIS, "a steady probe needs")
    probe, offset, report = Probe(), FLOAT(), ctypes.create_string_buffer(REPORT_BYTES)
    at = parts(probe)
    check_opening(live.open(at.words, at.floats, at.steady, at.first_dt_s, *CONFIG.unpack(config), STEADY))
    answers = []
    for dt, rate, moment in struct.iter_unpack(">3f", calls):
        live.ready(at.words, at.floats, probe.steady, probe.first_dt_s, at.held, dt)
        rule = live.step(
            at.words, at.floats, probe.steady, at.first_dt_s, at.rates, at.moments, at.offsets, at.held, dt, rate, moment,
            ctypes.byref(offset),
        )
        answers.append(answer(rule, offset.value))
    live.report(at.words, at.floats, at.rates, at.held, report, len(report))
    return report.raw + b"".join(answers)


def fly_pair(config: bytes, calls: bytes) -> bytes:
    """The same for a steady pair and `identify_two_axis_run`. Both axes have one clock, which stands in the first."""
    live = functions(library.PAIR, "identify_live_pair_", TWO_AXES, "a steady pair needs")
    pair, offset1, offset2, report = Pair(), FLOAT(), FLOAT(), ctypes.create_string_buffer(TWO_AXIS_REPORT_BYTES)
    clock, at1, at2 = pair.first, parts(pair), parts(pair, Pair.second.offset)
    check_opening(
        live.open(at1.words, at1.floats, at2.words, at2.floats, at1.steady, at1.first_dt_s, *CONFIG.unpack(config), STEADY)
    )
    answers = []
    for dt, *readings in struct.iter_unpack(">5f", calls):
        live.ready(
            at1.words, at1.floats, at1.held, at2.words, at2.floats, at2.held, clock.steady, clock.first_dt_s, dt
        )
        rule = live.step(
            at1.words, at1.floats, at1.rates, at1.moments, at1.offsets, at1.held,
            at2.words, at2.floats, at2.rates, at2.moments, at2.offsets, at2.held,
            clock.steady, at1.first_dt_s, dt, *readings, ctypes.byref(offset1), ctypes.byref(offset2),
        )
        answers += [answer(rule, offset1.value), answer(rule, offset2.value)]
    live.report(
        at1.words, at1.floats, at1.rates, at1.held, at2.words, at2.floats, at2.rates, at2.held, report, len(report)
    )
    return report.raw + b"".join(answers)


def functions(crate: str, prefix: str, types: dict[str, tuple], need: str) -> SimpleNamespace:
    """A crate's functions by their short names, with their types set."""
    found = {}
    for name, (restype, argtypes) in types.items():
        function = library.optional(prefix + name, crate, need)
        function.restype, function.argtypes = restype, argtypes
        found[name] = function
    return SimpleNamespace(**found)


def parts(whole: ctypes.Structure, start: int = 0) -> SimpleNamespace:
    """Where the parts of a probe are, which stands at `start` in a whole."""
    return SimpleNamespace(
        **{name: ctypes.byref(whole, start + getattr(Probe, name).offset) for name, _ in Probe._fields_}
    )


def check_opening(rule: int) -> None:
    """Raises what the answer of an opening says. A library from before the option takes it for none, and writes nothing."""
    if rule == UNKNOWN_OPTION:
        raise library.LibraryError(
            "the library is older than steady probes, and has none; build it from these sources, or set "
            f"{library.VARIABLE} to one that was"
        )
    if rule != 0:
        raise ConfigRefused(rule)


def answer(rule: int, offset: float) -> bytes:
    """A call's word, as the byte run writes it."""
    if rule or math.isnan(offset):
        return (NAN_WORD + rule).to_bytes(4, "big")
    return pack_floats([offset])
