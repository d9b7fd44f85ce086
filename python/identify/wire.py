"""The library's byte layout: all fields of 32 bits, big-endian; floats in single precision."""
from __future__ import annotations

import math
import struct
import sys
from array import array
from collections.abc import Iterable, Sequence

from .records import Config, Ending, Extension, Model, Refusal, Report, TwoAxisReport

CALL_BYTES = 12
TWO_AXIS_CALL_BYTES = 20
REPORT_BYTES = 36
TWO_AXIS_REPORT_BYTES = 77
UNITS_BYTES = 12
OFFSET_BYTES = 4
NAN_WORD = 0x7FC00000
CALL_RULES = (6, 7, 8, 10)

REPORT_BITS = (
    ("kind", 2), ("d", 4), ("half", 1), ("zero", 1), ("ticks", 25), ("stored", 12), ("held", 12), ("warm", 12),
    ("rows", 12), ("gain_fits", 12), ("end", 3),
)
"""The first 12 bytes of the report: names and widths, most significant bit first."""
SUM_BITS = (("ticks", 26), ("rows", 13), ("end", 1))
"""The last 5 bytes of the report of two axes: both axes' numbers added up."""


def singles(values: Iterable[float]) -> array:
    """The values in single precision, each the nearest; beyond its range infinite."""
    return array("f", values)


def pack_floats(values: Iterable[float]) -> bytes:
    """The values as big-endian singles."""
    words = singles(values)
    if sys.byteorder == "little":
        words.byteswap()
    return words.tobytes()


def pack_config(config: Config) -> bytes:
    """The configuration's 24 bytes."""
    extension = config.extension or Extension(0.0, 0.0)
    flag = 1 if config.extension else 0
    return (
        pack_floats((config.amplitude, config.duration_s, config.washout_tc_s))
        + struct.pack(">I", flag)
        + pack_floats((extension.amplitude, extension.duration_s))
    )


def pack_calls(dt: Sequence[float], rate: Sequence[float], moment: Sequence[float]) -> bytes:
    """Twelve bytes a call. The three sequences have one length."""
    return pack_columns(dt=dt, rate=rate, moment=moment)


def pack_two_axis_calls(
    dt: Sequence[float], rate1: Sequence[float], moment1: Sequence[float], rate2: Sequence[float], moment2: Sequence[float]
) -> bytes:
    """Twenty bytes a call. The five sequences have one length."""
    return pack_columns(dt=dt, rate1=rate1, moment1=moment1, rate2=rate2, moment2=moment2)


def pack_columns(**columns: Sequence[float]) -> bytes:
    """One value of each column a call. Raises ValueError where the columns differ in length."""
    lengths = [len(column) for column in columns.values()]
    if len(set(lengths)) > 1:
        raise ValueError(f"{listed(columns)} differ in length: {listed(lengths)}")
    return pack_floats(value for call in zip(*columns.values()) for value in call)


def listed(values: Iterable[object]) -> str:
    """Two values or more in words: a, b and c."""
    *others, last = map(str, values)
    return f"{', '.join(others)} and {last}"


def split_bits(head: bytes, layout: Sequence[tuple[str, int]] = REPORT_BITS) -> dict[str, int]:
    """The whole numbers of a report's part, by name."""
    bits = int.from_bytes(head, "big")
    fields: dict[str, int] = {}
    for name, width in reversed(layout):
        fields[name] = bits & ((1 << width) - 1)
        bits >>= width
    return fields


def unpack_report(output: bytes, units: tuple[float, float] | None, steady: bool = False) -> Report:
    """The report and the offsets of a finished run, with the model's lag and push where it has them."""
    fields = split_bits(output[:12])
    floats = struct.unpack(">6f", output[12:REPORT_BYTES])
    ending = Ending(fields["kind"])
    model = unpack_model(fields, floats, units) if ending is Ending.DONE else None
    offsets, refusals = unpack_offsets(output[REPORT_BYTES:])
    return Report(
        ending=ending,
        model=model,
        elapsed_s=floats[5] if ending is Ending.RUNNING else None,
        ticks=fields["ticks"],
        stored=fields["stored"],
        held=fields["held"],
        warm=fields["warm"],
        rows=fields["rows"],
        gain_fits=fields["gain_fits"],
        offsets=offsets,
        refusals=refusals,
        raw=output[:REPORT_BYTES],
        steady=steady,
    )


def unpack_two_axis_report(
    output: bytes, units: Sequence[tuple[float, float] | None], steady: bool = False
) -> TwoAxisReport:
    """The report and the offsets of a finished run of two axes, with each model's lag and push."""
    first, second = (unpack_report(axis_output(output, axis), units[axis], steady) for axis in (0, 1))
    sums = split_bits(output[2 * REPORT_BYTES : TWO_AXIS_REPORT_BYTES], SUM_BITS)
    return TwoAxisReport(first, second, sums["ticks"], sums["rows"], output[:TWO_AXIS_REPORT_BYTES])


def axis_output(output: bytes, axis: int) -> bytes:
    """What a run of two axes wrote for one of them, as a run of that axis has it: its report, then its offsets."""
    offsets = range(TWO_AXIS_REPORT_BYTES + OFFSET_BYTES * axis, len(output), 2 * OFFSET_BYTES)
    report = output[REPORT_BYTES * axis : REPORT_BYTES * (axis + 1)]
    return report + b"".join(output[place : place + OFFSET_BYTES] for place in offsets)


def unpack_model(fields: dict[str, int], floats: tuple[float, ...], units: tuple[float, float] | None) -> Model:
    """The model of a report that is done."""
    lag_s, accel_radps2 = units or (None, None)
    return Model(
        half_ticks=2 * fields["d"] + fields["half"],
        rate_weights=(floats[0], floats[1]),
        moment_weights=(floats[2], floats[3], floats[4]),
        dt_s=floats[5],
        integrated=fields["gain_fits"] > 0,
        lag_s=lag_s,
        accel_radps2=accel_radps2,
    )


def unpack_units(data: bytes) -> tuple[float, float] | None:
    """Lag and push; None where the model has neither."""
    known, lag_s, accel_radps2 = struct.unpack(">I2f", data)
    return (lag_s, accel_radps2) if known else None


def unpack_offsets(data: bytes) -> tuple[tuple[float, ...], tuple[Refusal, ...]]:
    """One offset a call, and the calls that were turned back, whose offset is NaN here."""
    offsets: list[float] = []
    refusals: list[Refusal] = []
    for call, (word,) in enumerate(struct.iter_unpack(">I", data)):
        rule = word - NAN_WORD
        if rule in CALL_RULES:
            refusals.append(Refusal(call, rule))
            offsets.append(math.nan)
        else:
            offsets.append(struct.unpack(">f", word.to_bytes(4, "big"))[0])
    return tuple(offsets), tuple(refusals)
