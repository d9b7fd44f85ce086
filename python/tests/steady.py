"""What 10 turns back, of a probe or a pair that was opened as steady: the tests' own account of it."""
from __future__ import annotations

import itertools
import math
import random
import struct
import unittest
from collections.abc import Iterable, Sequence

from support import identify

from identify import wire

PLAIN, STEADY = 0, 1
"""The options of an opening."""
TURNED_BACK = struct.pack(">I", 0x7FC00000 + 10)
"""What stands in an output for an offset of such a call."""
LATEST_S = 4096.0
MOST_TICKS = 1 << 24
UNEVEN_IN_EXTENSION = {1000: 0.0051, 1600: 0.008, 1601: 0.0051, 1602: 0.0029}
"""A dt each of calls before 6 s and after it."""


def single(x: float) -> float:
    """A number rounded as a float."""
    return struct.unpack(">f", struct.pack(">f", x))[0]


def bits_of(x: float) -> int:
    """The bits of a float."""
    return struct.unpack(">I", struct.pack(">f", x))[0]


def float_of(bits: int) -> float:
    """The float of some bits."""
    return struct.unpack(">f", struct.pack(">I", bits))[0]


FIRSTS = (
    *map(float_of, range(1, 10)), 1e-43, 1e-40, 5.8e-39, 8.8e-39, 9.4e-39, 1.17549421e-38, 1.17549435e-38, 1.5e-38, 1.6e-38,
    1e-30, 1e-6, 0.001, 0.0025, 1 / 300, 0.004, 0.005, 0.01, 1 / 60, 0.1, 0.25, 1.0, 5 / 3, 60.0, 1000.0, 3276.8, 3599.0,
    3600.0, 4095.5, 4096.0,
)
"""First dt from the least subnormal to the longest that a probe takes."""


def beside(x: float) -> list[float]:
    """The float next below a number's, its own, and the one next above, of a number above 0."""
    return [float_of(bits_of(x) + step) for step in (-1, 0, 1)]


def band(first: float) -> tuple[float, float]:
    """The least dt and the greatest that go with a first one. Three and five quarters of a float are exact in a double."""
    return single(0.75 * first), single(1.25 * first)


def edges(first: float) -> list[float]:
    """The ends of the band and their neighbours, and the first dt itself."""
    low, high = band(single(first))
    return [*beside(low), single(first), *beside(high)]


def is_time(dt: float) -> bool:
    """Whether 6 takes a dt."""
    return 0 < dt < math.inf


def answer(options: int, ticks: int, elapsed: float, first: float, dt: float) -> int:
    """The answer to a call of a probe that runs, whose first dt is 0 where it has none."""
    low, high = band(single(first))
    if not is_time(single(dt)):
        return 6
    if options == STEADY and first > 0 and not low <= single(dt) <= high:
        return 10
    if single(single(elapsed) + single(dt)) > LATEST_S:
        return 7
    return 8 if ticks >= MOST_TICKS else 0


def turned_back(dts: Iterable[float], ends_after: float = math.inf) -> list[bool]:
    """Which calls 10 turns back of a probe opened as steady that ends with so many ticks."""
    first = elapsed = 0.0
    ticks = 0
    turned = []
    for dt in map(single, dts):
        number = answer(STEADY, ticks, elapsed, first, dt) if ticks < ends_after else 0
        if number == 0 and ticks < ends_after:
            first, elapsed, ticks = first or dt, single(elapsed + dt), ticks + 1
        turned.append(number == 10)
    return turned


def without(columns: Sequence[Sequence[float]], turned: Sequence[bool]) -> tuple[list[float], ...]:
    """A list of calls without those that were turned back."""
    return tuple([value for value, is_turned in zip(column, turned, strict=True) if not is_turned] for column in columns)


def ending_ticks(report: bytes) -> float:
    """The ticks with which the probe of a report has ended; no number of them where it runs."""
    fields = wire.split_bits(report[:12])
    return fields["ticks"] if fields["kind"] else math.inf


def expected(columns, run, report_len: int) -> tuple[bytes, list[bool]]:
    """What a steady flight of these calls writes, and which of them 10 turns back. It is what the plain run writes over the
    others, with a number in each offset's place of those turned back. `run` makes the plain run of columns, over bytes."""
    turned = turned_back(columns[0])
    ends_after = ending_ticks(run(without(columns, turned)))
    turned = turned_back(columns[0], ends_after)
    output = run(without(columns, turned))
    width = 4 * (len(columns) // 2)
    offsets = iter([output[at : at + width] for at in range(report_len, len(output), width)])
    words = [TURNED_BACK * (width // 4) if is_turned else next(offsets) for is_turned in turned]
    return output[:report_len] + b"".join(words), turned


def every_third_lost(columns: Sequence[Sequence[float]]) -> tuple[list[float], ...]:
    """The log of a flight whose logger drops every third tick: the next one has its dt too."""
    dt = list(columns[0])
    for lost in range(2, len(dt) - 1, 3):
        dt[lost + 1] += dt[lost]
    return tuple([value for k, value in enumerate(column) if k % 3 != 2] for column in (dt, *columns[1:]))


def first_calls() -> list[list[float]]:
    """Short clocks: a first dt, and then one at an end of its band or beside it. Some have calls before the first that 6 or 7
    turns back, which are no first ones."""
    refused = itertools.cycle(([], [5000.0], [math.nan, math.inf, 0.0], [4096.5, -1.0]))
    return [[*next(refused), first, dt, first] for first in FIRSTS for dt in edges(first)]


def drawn_dts(draw: random.Random, count: int) -> list[float]:
    """A clock of which some ticks are turned back: around one length, at the ends of its band, beside them, and of any."""
    dt = single(draw.choice((0.004, 0.0025, 1 / 300, 0.0625, 0.3, 1e-40, 500.0)))
    start = [draw.choice((math.nan, math.inf, 0.0, -1.0, 5000.0)) for _ in range(draw.choice((0, 0, 1, 3)))]
    even = [dt, *(dt * draw.uniform(0.8, 1.2) for _ in range(8))]
    uneven = [*edges(dt), 0.5 * dt, 2 * dt, 3 * dt, math.nan, math.inf, -dt, 0.0, 5000.0, 1e-45]
    share = draw.choice((0.0, 0.1, 0.5))
    return start + [draw.choice(uneven if draw.random() < share else even) for _ in range(count)]


def within_band(draw: random.Random, count: int, first: float) -> list[float]:
    """A clock whose ticks all lie in the band of the first one, its ends among them."""
    low, high = band(first)
    return [first, low, high] + [single(draw.uniform(low, high)) for _ in range(count - 3)]


def drawn_flight(draw: random.Random, axes: int) -> tuple[identify.Config, tuple[list[float], ...]]:
    """A short flight that ends or does not, with its configuration."""
    dts = drawn_dts(draw, draw.choice((5, 30, 80)))
    duration_s = draw.choice((0.3, 0.7, 2.0)) * sum(dt for dt in dts if is_time(dt) and dt < 1000)
    duration_s = min(max(duration_s, 1e-6), 3000.0)
    extension = draw.choice((None, identify.Extension(1.0, 1.2 * duration_s)))
    readings = [[draw.gauss(0, 1) for _ in dts] for _ in range(2 * axes)]
    return identify.Config(0.5, duration_s, 0.2, extension), (dts, *readings)


def flights(
    columns: Sequence[list[float]], made: Sequence[list[float]]
) -> dict[str, tuple[identify.Config, Sequence[list[float]]]]:
    """Flights by name, with their configurations, of which 10 turns calls back, or none: a noisy one with other clocks, and a
    made one of ticks of 4 ms."""
    draw = random.Random(20261126)
    dt, *readings = columns
    uneven = [dt[0], *(seconds * draw.choice((1, 1, 1, 1, 0.7, 1.3, 2)) for seconds in dt[1:])]
    extended = [0.004] * len(dt)
    for call, seconds in UNEVEN_IN_EXTENSION.items():
        extended[call] = seconds
    return {
        "every third tick lost": (identify.Config(), every_third_lost(made)),
        "a long first tick": (identify.Config(), ([0.008, *[0.004, 0.008] * 900], *(column[:1801] for column in readings))),
        "uneven": (identify.Config(), (uneven, *readings)),
        "uneven in the extension": (identify.Config(), (extended, *readings)),
        "calls after the end": (identify.Config(0.5, 0.9, 0.2, None), (uneven, *readings)),
        "even": (identify.Config(), (within_band(draw, len(dt), single(0.004)), *readings)),
    }


def check_lines(test: unittest.TestCase, calls: Sequence[tuple], numbers: Sequence[int], lines: Sequence[str]) -> None:
    """The two lines of each call: its number, and that a call which was turned back has written nothing."""
    wanted = [f"{number} {'as it was' if number else 'changed'}" for number in numbers for _ in range(2)]
    test.assertEqual(len(lines), len(wanted))
    test.assertEqual([(calls[k // 2], line) for k, line in enumerate(lines) if line != wanted[k]][:5], [])


def check_turned(test: unittest.TestCase, flown: dict, turned: dict[str, list[bool]]) -> None:
    """Which calls 10 turns back of these flights, as far as it is plain."""
    long_ticks = [dt > 0.005 for dt in flown["every third tick lost"][1][0]]
    test.assertEqual(turned["every third tick lost"], long_ticks)
    test.assertGreater(sum(long_ticks), 900)
    test.assertEqual(turned["a long first tick"], [False] + [True, False] * 900)
    in_extension = [call for call, is_turned in enumerate(turned["uneven in the extension"]) if is_turned]
    test.assertEqual(in_extension, list(UNEVEN_IN_EXTENSION))
    test.assertGreater(sum(turned["uneven"]), 300)
    test.assertLess(sum(turned["calls after the end"]), sum(turned["uneven"]) / 2)
    test.assertEqual(sum(turned["even"]), 0)
