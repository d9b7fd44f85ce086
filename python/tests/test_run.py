"""The package over the real library: bytes, refusals, flights."""
import ctypes
import math
import struct
import unittest

from support import DEMO, M1_CONFIG, M1_REPORT, MOMENT_WEIGHTS, RATE_WEIGHTS, gainless_flight, identify, made_flight

from identify import library, wire
from identify.records import Config, ConfigRefused, Ending, Extension

M1_OUTPUT = bytes.fromhex(M1_REPORT + "3F0000003E8000003E000000BEE00000")


def zeros(dt):
    """A run of M1's configuration over calls with these dt and zero readings."""
    return identify.run(M1_CONFIG, dt, [0.0] * len(dt), [0.0] * len(dt))


def head(kind, d, half):
    """The first 12 bytes of a report, with some counts."""
    bits = 0
    for value, (_, width) in zip((kind, d, half, 0, 2000, 2001, 7, 33, 1960, 2604, 0), wire.REPORT_BITS, strict=True):
        bits = bits << width | value
    return bits.to_bytes(12, "big")


class Bytes(unittest.TestCase):
    """The byte run as 01 marks it."""

    def test_m1(self):
        calls = wire.pack_calls([0.25] * 4, [0.0] * 4, [0.0] * 4)
        self.assertEqual(identify.run_bytes(wire.pack_config(M1_CONFIG), calls), M1_OUTPUT)

    def test_m1_with_names(self):
        report = zeros([0.25] * 4)
        self.assertIs(report.ending, Ending.UNEXCITED)
        self.assertEqual((report.ticks, report.stored, report.held, report.warm, report.rows), (4, 4, 0, 4, 0))
        self.assertEqual(report.offsets, (0.5, 0.25, 0.125, -0.4375))
        self.assertIsNone(report.model)

    def test_config_bytes(self):
        packed = wire.pack_config(Config(0.5, 6.0, 0.25, Extension(1.0, 8.0)))
        self.assertEqual(packed.hex(), "3f000000" "40c00000" "3e800000" "00000001" "3f800000" "41000000")

    def test_beyond_single_precision_is_infinite(self):
        self.assertEqual(wire.pack_floats([1e39, -1e39]).hex(), "7f800000ff800000")

    def test_report_fields(self):
        floats = struct.pack(">6f", 1.875, -0.875, 0.5, 0.5, 0.0, 0.25)
        report = wire.unpack_report(head(1, 3, 1) + floats, (0.5, 32.0))
        counts = (report.ticks, report.stored, report.held, report.warm, report.rows, report.gain_fits)
        self.assertEqual(counts, (2000, 2001, 7, 33, 1960, 2604))
        self.assertEqual(report.model.delay_ticks, 3.5)
        self.assertEqual(report.model.delay_s, 0.875)
        self.assertEqual(report.model.rate_weights, (1.875, -0.875))
        self.assertEqual((report.model.lag_s, report.model.accel_radps2), (0.5, 32.0))


class Refusals(unittest.TestCase):
    """Each rule of 01's table."""

    def refused(self, rule, config):
        with self.assertRaises(ConfigRefused) as caught:
            identify.run(config, [0.25], [0.0], [0.0])
        self.assertEqual(caught.exception.rule, rule)

    def test_rule_1(self):
        for amplitude in (0.0, math.nan, math.inf, 1e39):
            self.refused(1, Config(amplitude=amplitude))

    def test_rule_2(self):
        for duration_s in (0.0, -1.0, math.nan, math.inf, 3601.0):
            self.refused(2, Config(duration_s=duration_s))

    def test_rule_3(self):
        for washout_tc_s in (0.0, -0.2, math.nan, math.inf):
            self.refused(3, Config(washout_tc_s=washout_tc_s))

    def test_rule_4(self):
        for amplitude in (0.0, math.nan, math.inf):
            self.refused(4, Config(extension=Extension(amplitude, 8.0)))

    def test_rule_5(self):
        for duration_s in (5.0, math.nan, math.inf, 3601.0):
            self.refused(5, Config(extension=Extension(1.0, duration_s)))

    def test_rules_4_and_5_need_an_extension(self):
        self.assertIs(identify.run(Config(duration_s=10.0, extension=None), [0.25], [0.0], [0.0]).ending, Ending.RUNNING)

    def test_rule_6(self):
        report = zeros([0.25, 0.0, -1.0, math.nan, math.inf, 0.25])
        self.assertEqual([(refusal.call, refusal.rule) for refusal in report.refusals], [(1, 6), (2, 6), (3, 6), (4, 6)])
        self.assertEqual(report.ticks, 2)
        self.assertTrue(math.isnan(report.offsets[1]))

    def test_rule_6_after_the_end(self):
        report = zeros([0.25] * 5 + [0.0])
        self.assertEqual([(refusal.call, refusal.rule) for refusal in report.refusals], [(5, 6)])
        self.assertEqual(report.offsets[4], 0.0)

    def test_rule_7(self):
        report = zeros([5000.0, 0.25])
        self.assertEqual([(refusal.call, refusal.rule) for refusal in report.refusals], [(0, 7)])
        self.assertEqual((report.ticks, report.elapsed_s), (1, 0.25))

    def test_rule_8(self):
        ticks = 16_777_216
        call = wire.pack_calls([1e-30], [0.0], [0.0])
        output = identify.run_bytes(wire.pack_config(M1_CONFIG), call * (ticks + 1))
        self.assertEqual(wire.split_bits(output[:12])["ticks"], ticks)
        self.assertEqual(output[-8:-4].hex(), "3f800000")
        self.assertEqual(output[-4:].hex(), "7fc00008")

    def test_rule_9(self):
        for config, calls in ((bytes(23), b""), (wire.pack_config(M1_CONFIG), bytes(13))):
            with self.assertRaises(ConfigRefused) as caught:
                identify.run_bytes(config, calls)
            self.assertEqual(caught.exception.rule, 9)

    def test_rule_9_for_a_short_output(self):
        output = ctypes.create_string_buffer(b"\xa5" * 39, 39)
        config, calls = wire.pack_config(M1_CONFIG), bytes(12)
        answer = library.load().identify_byte_run(config, len(config), calls, len(calls), output, len(output))
        self.assertEqual((answer, output.raw), (9, b"\xa5" * 39))

    def test_lengths_differ(self):
        with self.assertRaises(ValueError):
            identify.run(M1_CONFIG, [0.25, 0.25], [0.0], [0.0])


class Flights(unittest.TestCase):
    """Models of made flights."""

    def test_clean_delays_are_recovered(self):
        for delay in range(1, 11):
            with self.subTest(delay=delay):
                model = identify.run(Config(), *made_flight(delay)).model
                self.assertFalse(model.integrated)
                self.assertEqual(model.delay_ticks, delay)
                for found, true in zip(model.rate_weights + model.moment_weights, RATE_WEIGHTS + MOMENT_WEIGHTS):
                    self.assertAlmostEqual(found, true, delta=1e-4)
                self.assertAlmostEqual(model.dt_s, 0.004, delta=1e-6)

    def test_log_that_ends_early(self):
        report = identify.run(Config(), *made_flight(3, ticks=100))
        self.assertIs(report.ending, Ending.RUNNING)
        self.assertAlmostEqual(report.elapsed_s, 0.4, delta=1e-5)
        self.assertEqual((report.warm, report.rows), (0, 0))

    def test_demo_flights_end_as_their_names_say(self):
        expected = {
            "clean": (Ending.DONE, 3.0, False),
            "noisy": (Ending.DONE, 3.5, True),
            "saturated": (Ending.SATURATED, None, None),
        }
        for name, (ending, delay, integrated) in expected.items():
            with self.subTest(name=name):
                log = identify.read_log(DEMO / f"{name}.csv")
                report = identify.run(Config(), log.dt, log.rate, log.moment)
                self.assertIs(report.ending, ending)
                self.assertEqual(identify.extension_taken(Config(), log.dt, report), name == "noisy")
                if report.model:
                    self.assertEqual((report.model.delay_ticks, report.model.integrated), (delay, integrated))


class Held(unittest.TestCase):
    """Readings that are not finite."""

    def test_m12(self):
        rates = [0.0] * 12 + [math.nan] + [0.0] * 13
        report = identify.run(Config(1.0, 26.0, 0.5, None), [1.0] * 26, rates, [0.0] * 26)
        self.assertEqual((report.ticks, report.held, report.warm, report.rows), (26, 1, 22, 3))

    def test_each_kind_is_held(self):
        for bad in (math.nan, math.inf, -math.inf, 1e39):
            for rate, moment in ((bad, 0.0), (0.0, bad), (bad, bad)):
                report = identify.run(Config(), [0.004] * 3, [1.0, rate, 1.0], [0.5, moment, 0.5])
                self.assertEqual((report.stored, report.held), (3, 1))

    def test_the_window_worked_out_again_is_the_probe_s(self):
        log = identify.read_log(DEMO / "noisy.csv")
        report = identify.run(Config(), log.dt, log.rate, log.moment)
        samples = identify.stored_window(log.dt, log.rate, log.moment, report)
        self.assertEqual(len(samples), report.stored)
        self.assertEqual(sum(sample.held for sample in samples), report.held)
        self.assertEqual(report.held, 7)
        self.assertEqual(samples[700].rate, samples[699].rate)

    def test_a_full_window_stays_full(self):
        report = identify.run(Config(0.5, 12.0, 0.2, None), *made_flight(3, ticks=2500))
        self.assertEqual((report.ticks, report.stored), (2500, 2048))
        dt, rate, moment = made_flight(3, ticks=2500)
        self.assertEqual(len(identify.stored_window(dt, rate, moment, report)), 2048)


class Halves(unittest.TestCase):
    """The half tick is the report's bit, whatever the weights are."""

    def test_the_bit_alone_tells(self):
        for weights in ((0.01, 0.01, 0.0), (0.01, 0.0, 0.0), (0.0, 0.0, 0.0), (math.nan, math.nan, 0.0)):
            floats = struct.pack(">6f", 1.875, -0.875, *weights, 0.25)
            for half in (0, 1):
                with self.subTest(weights=weights, half=half):
                    model = wire.unpack_report(head(1, 3, half) + floats, None).model
                    self.assertEqual((model.half_ticks, model.delay_ticks), (6 + half, 3 + half / 2))

    def test_a_flight_whose_gain_is_0(self):
        for tick, delay in [(tick, 11.5 - tick) for tick in range(2, 11)] + [(11, 1.0), (20, 1.0)]:
            with self.subTest(tick=tick):
                model = identify.run(*gainless_flight(tick)).model
                self.assertEqual((model.delay_ticks, model.integrated), (delay, True))
                self.assertEqual(model.moment_weights, (0.0, 0.0, 0.0))

    def test_the_bit_is_where_01_and_02_put_it(self):
        log = identify.read_log(DEMO / "noisy.csv")
        first = identify.run(Config(), log.dt, log.rate, log.moment).raw[0]
        self.assertEqual(f"{first:08b}", "01" "0011" "1" "0")


def last_calls(*words):
    """A run over nine calls of zeros and then these rates and moments, as bits in hexadecimal, to the last call's end."""
    last = struct.unpack(f">{2 * len(words)}f", bytes.fromhex("".join(words)))
    rates, moments = [0.0] * 9 + list(last[::2]), [0.0] * 9 + list(last[1::2])
    return identify.run(Config(1.0, 0.25 * len(rates), 0.5, None), [0.25] * len(rates), rates, moments)


class NoFit(unittest.TestCase):
    """What counts as no fit, in the smallest windows that show it."""

    TWELVE = ("37800000 3d000000", "9a100000 3ee00000")
    """With one call more, twelve and so one row; solution and projected terms multiply beyond a single."""
    TINY = ("9b3d297c 1aad0f34", "9a90525c 9a0243e5", "43800000 9b0de315")
    """Twelve and one row of tiny squares: a noisy window."""

    def test_a_recorded_difference_of_minus_infinity_is_a_fit(self):
        words = "44000006 00600000 58008000 79b504f3 6600000c e0800000 60800000 00000000 3e800000"
        self.assertEqual(last_calls(*self.TWELVE, "5f400000 3e900000").raw.hex(" ", 4), words)

    def test_one_of_nan_is_none(self):
        """The square of the last rate is beyond a single too: infinity less infinity."""
        self.assertIs(last_calls(*self.TWELVE, "5fc00000 3e900000").ending, Ending.UNEXCITED)

    def test_a_gain_beyond_a_single_is_none(self):
        report = last_calls(*self.TINY, "5d800000 7fc00000")
        self.assertEqual((report.ending, report.held, report.gain_fits), (Ending.UNEXCITED, 1, 2580))

    def test_so_is_that_of_rates_further_apart_than_a_single_holds(self):
        report = last_calls(*self.TINY, "7f000000 7fc00000", "ff000000 7fc00000")
        self.assertEqual((report.ending, report.held, report.gain_fits), (Ending.UNEXCITED, 2, 2580))


if __name__ == "__main__":
    unittest.main()
