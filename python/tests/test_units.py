"""Lag and push: the library's function over reports made by hand, and the models of flights."""
import ctypes
import math
import random
import struct
import unittest

from support import DEMO, MOMENT_WEIGHTS, identify, made_flight

from identify import library
from identify.records import Config, Ending

DT = 0.25
NONE = bytes(12)


def word(value):
    """A float's 32 bits, big-endian."""
    return struct.pack(">f", value)


def report_bytes(pole, moments=(0.5, 0.25, 0.25), dt_s=DT, kind=1):
    """A report with this pole. Its d is 3 and its counts are 0."""
    return bytes([kind << 6 | 3 << 2]) + bytes(11) + struct.pack(">6f", 1 + pole, -pole, *moments, dt_s)


def answer(report, length=12):
    """What the function answers, and the output's bytes after it."""
    output = ctypes.create_string_buffer(b"\xa5" * length, length)
    return library.load().identify_plain_units(report, len(report), output, length), output.raw


class Function(unittest.TestCase):
    """The exported function."""

    def units(self, *values, **named):
        """Lag and push of a report that has them."""
        found = identify.plain_units(report_bytes(*values, **named))
        self.assertIsNotNone(found)
        return found

    def test_worked_lag(self):
        weights = bytes.fromhex("3FF005AE" "BF600B5C" "00000000" "00000000" "00000000" "3B83126F")
        expected = bytes.fromhex("00000001" "3CF5C291" "00000000")
        self.assertEqual(answer(bytes([0x4C]) + bytes(11) + weights), (0, expected))

    def test_lag_and_push_of_many_poles(self):
        for power in range(1, 24):
            for pole in (2.0**-power, 1 - 2.0**-power, 1.5 * 2.0**-power):
                with self.subTest(pole=pole):
                    lag_s, push = self.units(pole)
                    self.assertAlmostEqual(lag_s * math.log(pole) / -DT, 1, delta=2e-7)
                    self.assertAlmostEqual(push * (1 - pole) * DT, 1, delta=2e-7)

    def test_no_pole_has_lag_0_and_its_push(self):
        for pole in (0.0, -0.0, -0.5, -1.0, -3e38, -math.inf):
            with self.subTest(pole=pole):
                lag_s, push = self.units(pole)
                self.assertEqual((word(lag_s), push), (bytes(4), 4.0))

    def test_pole_of_1_or_more_or_nan_has_neither(self):
        for pole in (1.0, 1 + 2.0**-23, 2.0, math.inf, math.nan):
            with self.subTest(pole=pole):
                self.assertEqual(answer(report_bytes(pole)), (0, NONE))
                self.assertIsNone(identify.plain_units(report_bytes(pole)))

    def test_probe_that_is_not_done_has_neither(self):
        for kind in (0, 2, 3):
            with self.subTest(kind=kind):
                self.assertEqual(answer(report_bytes(0.5, kind=kind)), (0, NONE))

    def test_moment_weights_are_added_from_the_left_with_no_zero_before(self):
        self.assertEqual(word(self.units(0.5, (-0.0, -0.0, -0.0))[1]), word(-0.0))
        self.assertEqual(self.units(0.5, (1e38, -1e38, 1.0))[1], 8.0)
        self.assertEqual(self.units(0.5, (1.0, 1e38, -1e38))[1], 0.0)

    def test_divisor_that_underflows(self):
        least = 2.0**-149
        for moments, push in (((1.0, 0.0, 0.0), "7F800000"), ((-1.0, 0.0, 0.0), "FF800000"), ((0.0, 0.0, 0.0), "7FC00000")):
            found = answer(report_bytes(0.75, moments, least))
            self.assertEqual((found[0], found[1][:4], found[1][8:].hex().upper()), (0, bytes([0, 0, 0, 1]), push))

    def test_weight_that_is_nan(self):
        found = answer(report_bytes(0.5, (math.nan, 0.0, 0.0)))
        self.assertEqual((found[0], found[1][8:].hex().upper()), (0, "7FC00000"))

    def test_lag_is_never_negative_nor_nan(self):
        draw = random.Random(5)
        for _ in range(5000):
            pole = struct.unpack(">f", draw.randrange(0x3F800000).to_bytes(4, "big"))[0]
            dt_s = struct.unpack(">f", draw.randrange(1, 0x7F800000).to_bytes(4, "big"))[0]
            lag_s, _ = self.units(pole, dt_s=dt_s)
            self.assertTrue(lag_s >= 0, (pole, dt_s, lag_s))

    def test_wrong_sizes_write_nothing(self):
        good = report_bytes(0.5)
        for report, length in ((b"", 12), (good[:-1], 12), (good + b"\0", 12), (good, 0), (good, 11), (good, 13), (good, 36)):
            with self.subTest(report=len(report), output=length):
                self.assertEqual(answer(report, length), (9, b"\xa5" * length))

    def test_report_that_is_not_36_bytes(self):
        with self.assertRaisesRegex(ValueError, "a report is 36 bytes, not 35"):
            identify.plain_units(bytes(35))


class Models(unittest.TestCase):
    """The units of a run's model."""

    def test_made_flights(self):
        for pole in (0.5, 0.85, 0.9):
            with self.subTest(pole=pole):
                model = identify.run(Config(), *made_flight(3, pole=pole)).model
                self.assertAlmostEqual(model.lag_s, -0.004 / math.log(pole), delta=1e-4)
                self.assertAlmostEqual(model.accel_radps2, sum(MOMENT_WEIGHTS) / ((1 - pole) * 0.004), delta=0.5)

    def test_flight_without_lag(self):
        model = identify.run(Config(), *made_flight(3, pole=-0.2)).model
        self.assertEqual(model.lag_s, 0)
        self.assertAlmostEqual(model.accel_radps2, sum(MOMENT_WEIGHTS) / 0.004, delta=0.1)

    def test_flight_that_does_not_settle(self):
        report = identify.run(Config(duration_s=1.0), *made_flight(3, pole=1.01))
        self.assertIs(report.ending, Ending.DONE)
        self.assertGreaterEqual(-report.model.rate_weights[1], 1)
        self.assertEqual((report.model.lag_s, report.model.accel_radps2), (None, None))

    def test_demo_flights_come_near_what_was_flown(self):
        for name in ("clean", "noisy"):
            with self.subTest(name=name):
                log = identify.read_log(DEMO / f"{name}.csv")
                report = identify.run(Config(), log.dt, log.rate, log.moment)
                self.assertAlmostEqual(report.model.lag_s, 0.03, delta=0.003)
                self.assertAlmostEqual(report.model.accel_radps2, 40, delta=3)
                self.assertEqual(identify.plain_units(report.raw), (report.model.lag_s, report.model.accel_radps2))


if __name__ == "__main__":
    unittest.main()
