"""Two axes over the real library: bytes, refusals, and each axis held against a single probe."""
import ctypes
import math
import unittest

from flights import ROLL_PITCH, ROLL_PITCH_COLUMNS, demo_columns, lengthened, paired, roll_pitch
from support import M1_CONFIG, M1_PAIR_OUTPUT as M1_OUTPUT, identify, made_flight

from identify import library, wire
from identify.records import Config, ConfigRefused, Ending, Extension

M1_CALLS = wire.pack_two_axis_calls([0.25] * 4, *[[0.0] * 4] * 4)
LONG = Config(0.5, 8.0, 0.2, None)
"""What an extended axis comes to that did not ask: the fits of the whole window."""


def zeros(dt):
    """A run of M1's configuration as a pair over calls with these dt and zero readings."""
    return identify.run_two_axis(M1_CONFIG, dt, *[[0.0] * len(dt)] * 4)


def refused(report):
    """The calls that a report lists as turned back, and by which rules."""
    return [(refusal.call, refusal.rule) for refusal in report.refusals]


class Bytes(unittest.TestCase):
    """The byte run of two axes."""

    def run_into(self, output, config=wire.pack_config(M1_CONFIG), calls=M1_CALLS):
        """Answer and output of a run into this buffer."""
        buffer = ctypes.create_string_buffer(output, len(output))
        answer = library.two_axis_run()(config, len(config), calls, len(calls), buffer, len(buffer))
        return answer, buffer.raw

    def test_m1(self):
        self.assertEqual(identify.run_two_axis_bytes(wire.pack_config(M1_CONFIG), M1_CALLS), M1_OUTPUT)

    def test_m1_with_names(self):
        report = zeros([0.25] * 4)
        self.assertEqual([axis.ending for axis in report.axes], [Ending.UNEXCITED] * 2)
        self.assertEqual(report.first.offsets, (0.5, 0.25, 0.125, -0.4375))
        self.assertEqual(report.second.offsets, (0.0, 0.0, 0.0, 0.5))
        self.assertEqual((report.ticks, report.rows), (8, 0))
        self.assertEqual(report.raw, M1_OUTPUT[:77])
        self.assertEqual(report.first.raw, report.second.raw)

    def test_order_of_a_call(self):
        calls = wire.pack_two_axis_calls([0.5], [1.0], [2.0], [3.0], [4.0])
        self.assertEqual(calls.hex(" ", 4), "3f000000 3f800000 40000000 40400000 40800000")

    def test_later_bytes_stay(self):
        answer, output = self.run_into(b"\xa5" * (len(M1_OUTPUT) + 3))
        self.assertEqual((answer, output), (0, M1_OUTPUT + b"\xa5" * 3))

    def test_rule_9(self):
        good = b"\xa5" * len(M1_OUTPUT)
        short = good[:-1]
        for words in ({"output": short}, {"output": good, "config": bytes(23)}, {"output": good, "calls": bytes(79)},
                      {"output": good, "calls": bytes(12)}, {"output": b"\xa5" * 76, "calls": b""}):
            with self.subTest(words=list(words)):
                self.assertEqual(self.run_into(**words), (9, words["output"]))

    def test_rule_9_comes_first(self):
        answer, _ = self.run_into(b"\xa5" * 76, config=bytes(24), calls=b"")
        self.assertEqual(answer, 9)

    def test_no_call(self):
        answer, output = self.run_into(b"\xa5" * 77, calls=b"")
        self.assertEqual((answer, output), (0, bytes(77)))

    def test_a_configuration_that_is_refused_writes_nothing(self):
        bad = {1: Config(0.0), 2: Config(duration_s=-1.0), 3: Config(washout_tc_s=0.0),
               4: Config(extension=Extension(math.nan, 8.0)), 5: Config(extension=Extension(1.0, 5.0))}
        for rule, config in bad.items():
            with self.subTest(rule=rule):
                given = b"\xa5" * len(M1_OUTPUT)
                self.assertEqual(self.run_into(given, config=wire.pack_config(config)), (rule, given))
                with self.assertRaises(ConfigRefused) as caught:
                    identify.run_two_axis(config, [0.25], *[[0.0]] * 4)
                self.assertEqual(caught.exception.rule, rule)

    def test_sums(self):
        raw = bytes(72) + (((1 << 26) - 1) << 14 | 5 << 1).to_bytes(5, "big")
        report = wire.unpack_two_axis_report(raw, (None, None))
        self.assertEqual((report.ticks, report.rows), ((1 << 26) - 1, 5))

    def test_lengths_differ(self):
        with self.assertRaisesRegex(ValueError, "^dt, rate1, moment1, rate2 and moment2 differ in length: 2, 2, 2, 1 and 2$"):
            identify.run_two_axis(M1_CONFIG, [0.25] * 2, [0.0] * 2, [0.0] * 2, [0.0], [0.0] * 2)


class Calls(unittest.TestCase):
    """A call that is turned back is so for both axes."""

    def check(self, dt, rules, ticks):
        report = zeros(dt)
        self.assertEqual([refused(axis) for axis in report.axes], [rules, rules])
        self.assertEqual([axis.ticks for axis in report.axes], [ticks, ticks])
        for call, _ in rules:
            self.assertTrue(all(math.isnan(axis.offsets[call]) for axis in report.axes))
        return report

    def test_rule_6(self):
        self.check([0.25, 0.0, -1.0, math.nan, math.inf, 0.25], [(1, 6), (2, 6), (3, 6), (4, 6)], 2)

    def test_rule_6_after_the_end(self):
        report = self.check([0.25] * 5 + [0.0, 5000.0], [(5, 6)], 4)
        self.assertEqual([(axis.offsets[4], axis.offsets[6]) for axis in report.axes], [(0.0, 0.0)] * 2)

    def test_rule_7(self):
        report = self.check([5000.0, 0.25], [(0, 7)], 1)
        self.assertEqual([axis.elapsed_s for axis in report.axes], [0.25, 0.25])

    def test_the_calls_between_are_those_of_a_whole_list(self):
        dt, *readings = roll_pitch()
        kept = identify.run_two_axis(Config(), dt, *readings)
        places = range(0, len(dt), 100)
        more = [list(column) for column in (dt, *readings)]
        for place in reversed(places):
            for column, value in zip(more, (0.0, 9.0, 9.0, 9.0, 9.0)):
                column.insert(place, value)
        report = identify.run_two_axis(Config(), *more)
        self.assertEqual(report.raw, kept.raw)
        self.assertEqual(len(report.first.refusals), len(places))
        for axis, wanted in zip(report.axes, kept.axes):
            turned = {refusal.call for refusal in axis.refusals}
            self.assertEqual(tuple(o for call, o in enumerate(axis.offsets) if call not in turned), wanted.offsets)


class Axes(unittest.TestCase):
    """Each axis against a single probe over its readings."""

    def check(self, columns, config, configs):
        """Runs a pair; each axis's report is that of a single probe with its own one of these configurations."""
        dt, rate1, moment1, rate2, moment2 = columns
        report = identify.run_two_axis(config, *columns)
        alone = (identify.run(configs[0], dt, rate1, moment1), identify.run(configs[1], dt, rate2, moment2))
        self.assertEqual([axis.raw for axis in report.axes], [axis.raw for axis in alone])
        self.assertEqual(report.raw[:72], report.first.raw + report.second.raw)
        self.assertEqual(report.ticks, report.first.ticks + report.second.ticks)
        self.assertEqual(report.rows, report.first.rows + report.second.rows)
        self.assertEqual(report.first.ticks, report.second.ticks)
        return report

    def test_both_ask(self):
        columns = paired(demo_columns("noisy"), tuple(lengthened(demo_columns("noisy"), 2400))[:3])
        columns = (*columns[:3], [-rate for rate in columns[3]], [-moment for moment in columns[4]])
        report = self.check(columns, Config(), (Config(), Config()))
        self.assertEqual([axis.model.integrated for axis in report.axes], [True, True])

    def test_neither_asks(self):
        report = self.check(paired(demo_columns("clean"), made_flight(4)), Config(), (Config(), Config()))
        self.assertEqual([axis.model.delay_ticks for axis in report.axes], [3.0, 4.0])

    def test_one_asks(self):
        dt, rate1, moment1, rate2, moment2 = roll_pitch()
        report = self.check((dt, rate1, moment1, rate2, moment2), Config(), (LONG, Config()))
        self.assertEqual([axis.model.integrated for axis in report.axes], [False, True])
        swapped = self.check((dt, rate2, moment2, rate1, moment1), Config(), (Config(), LONG))
        self.assertEqual(swapped.raw[:72], report.raw[36:72] + report.raw[:36])

    def test_a_saturated_axis_goes_on_with_the_other_and_is_classified_again(self):
        saturated = lengthened(demo_columns("saturated"), 2100)
        report = self.check(paired(demo_columns("noisy"), saturated), Config(), (Config(), LONG))
        self.assertEqual([axis.ending for axis in report.axes], [Ending.DONE, Ending.SATURATED])
        calmed = (saturated[0], [*saturated[1][:1500], *[0.0] * 600], [*saturated[2][:1500], *[0.0] * 600])
        self.check(paired(demo_columns("noisy"), calmed), Config(), (Config(), LONG))

    def test_without_an_extension_each_ends_alone(self):
        config = Config(extension=None)
        for columns in (roll_pitch(), paired(demo_columns("noisy"), demo_columns("saturated"))):
            report = self.check(columns, config, (config, config))
            self.assertEqual(report.first.ticks, 1500)

    def test_an_extension_that_is_reached_already(self):
        """Both end in that tick, each by its first class, and the extension is used up."""
        dt, rate1, moment1, rate2, moment2 = roll_pitch()
        config = Config(extension=Extension(1.0, 6.0))
        plain = Config(extension=None)
        report = self.check((dt, rate1, moment1, rate2, moment2), config, (plain, plain))
        self.assertEqual([axis.model.integrated for axis in report.axes], [False, True])

    def test_a_log_that_ends_early(self):
        columns = tuple(column[:100] for column in roll_pitch())
        report = self.check(columns, Config(), (Config(), Config()))
        self.assertEqual([axis.ending for axis in report.axes], [Ending.RUNNING] * 2)
        self.assertEqual((report.ticks, report.rows), (200, 0))

    def test_a_full_window(self):
        config = Config(0.5, 9.0, 0.2, None)
        first = lengthened(demo_columns("noisy"), 2400)
        report = self.check(paired(first, lengthened(demo_columns("clean"), 2400)), config, (config, config))
        self.assertEqual([(axis.ticks > 2048, axis.stored) for axis in report.axes], [(True, 2048)] * 2)

    def test_a_lost_reading_is_its_axis_s_alone(self):
        dt, rate1, moment1, rate2, moment2 = roll_pitch()
        for place in range(300, 320):
            rate2[place] = math.nan
        moment2[900] = math.inf
        report = self.check((dt, rate1, moment1, rate2, moment2), Config(), (LONG, Config()))
        self.assertEqual([axis.held for axis in report.axes], [0, 21])

    def test_offsets(self):
        """The first axis has those of a single probe. Both squares together are the amplitude at each tick, so both offsets
        together are what the washout leaves of one step to it."""
        config = Config(extension=None)
        dt, rate, moment = demo_columns("clean")
        report = identify.run_two_axis(config, dt, rate, moment, rate, moment)
        self.assertEqual(report.first.offsets, identify.run(config, dt, rate, moment).offsets)
        self.assertEqual(set(report.second.offsets[:249]), {0.0})
        for tick in range(report.first.ticks):
            together = report.first.offsets[tick] + report.second.offsets[tick]
            self.assertAlmostEqual(together, 0.5 * (1 - 0.004 / 0.2) ** (tick + 1), delta=2e-6)

    def test_offsets_of_the_extension(self):
        """From the call after the one at which it is taken, both have its amplitude."""
        columns = roll_pitch()
        plain = identify.run_two_axis(Config(extension=None), *columns)
        raised = identify.run_two_axis(Config(extension=Extension(2.0, 8.0)), *columns)
        end = plain.first.ticks
        for axis, alone in zip(raised.axes, plain.axes):
            self.assertEqual(axis.offsets[:end], alone.offsets[:end])
            self.assertGreater(max(abs(offset) for offset in axis.offsets[end : axis.ticks]), 1.5)
            self.assertEqual(set(axis.offsets[axis.ticks :]), {0.0})

    def test_nan_offsets(self):
        """The axis that is high where an extension of the opposite sign is taken has them, and the other has none."""
        for duration_s, nans in ((0.9, [True, False]), (1.5, [False, True])):
            config = Config(3e38, duration_s, 0.001, Extension(-3e38, 8.0))
            output = identify.run_two_axis_bytes(wire.pack_config(config), wire.pack_two_axis_calls(*roll_pitch()))
            words = [output[place : place + 4].hex() for place in range(77, len(output), 4)]
            self.assertEqual(["7fc00000" in words[axis::2] for axis in (0, 1)], nans)


class Logs(unittest.TestCase):
    """A log of two axes is two logs with one clock."""

    def test_two_logs_with_one_clock(self):
        roll, pitch = identify.read_two_axis_log(ROLL_PITCH, ROLL_PITCH_COLUMNS)
        self.assertEqual((roll.dt, roll.lines), (pitch.dt, pitch.lines))
        self.assertEqual((roll.axis, pitch.axis), ("roll_rate", "pitch_rate"))
        self.assertNotEqual(roll.rate, pitch.rate)
        first, second = identify.read_two_axis_log(ROLL_PITCH, {**ROLL_PITCH_COLUMNS, "dt": " DT "})
        self.assertEqual((first.rate, second.moment), (roll.rate, pitch.moment))

    def test_one_axis_of_it(self):
        log = identify.read_log(ROLL_PITCH, {"rate": "pitch_rate", "moment": "pitch_moment"})
        self.assertEqual((log.rate, log.axis), (roll_pitch()[3], ""))

    def test_names_that_no_log_can_have(self):
        for columns, why in (({"rate2": "a"}, "no key rate2; the keys are dt, rate and moment"), ({"yaw": "a"}, "no key yaw")):
            with self.assertRaisesRegex(identify.BadColumns, why):
                identify.read_log(ROLL_PITCH, columns)
        with self.assertRaisesRegex(identify.BadColumns, "rate1 and rate2 are both Roll_rate"):
            identify.read_two_axis_log(ROLL_PITCH, {"rate1": "roll_rate", "rate2": "Roll_rate"})


if __name__ == "__main__":
    unittest.main()
