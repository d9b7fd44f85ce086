"""A pair in flight, from C: the header's functions for two axes, the README's lines and the example, over the real library."""
import functools
import json
import math
import random
import struct
import subprocess
import tempfile
import unittest
from pathlib import Path

from flights import demo_columns, lengthened, paired, roll_pitch
from programs import (
    EXAMPLES, STANDARDS, STATUS, MemoryTest, built, built_once, built_stack, defined, does_compile, logged, measured_stack, ran,
    readme_lines, said_of_run, stack, status_of, words_of,
)
import steady
from support import (
    HEADER, M1_CONFIG, M1_PAIR_OUTPUT, ROOT, byte_library, identify, live_library, made_flight, main, pair_library,
    two_axis_library,
)

from identify import probe, wire
from identify.records import Config, Ending, Extension

EXAMPLE = (EXAMPLES / "two_axis.c").read_text(encoding="utf8")
GARBAGE = 1400
SMALLEST_THREAD = 16384
"""The least stack that a thread can be given."""

README_CALLER = r"""
#include <stdio.h>

int main(void)
{
    float dt, rates[2], moments[2], offsets[2];
    identify_state roll, pitch;
    int ended = 0;
    if (!pair_start())
        return 1;
    while (!ended && scanf("%f,%f,%f,%f,%f", &dt, &rates[0], &moments[0], &rates[1], &moments[1]) == 5) {
        pair_tick(dt, rates, moments, offsets);
        ended = pair_ended(&roll, &pitch);
    }
    printf("%u %u %.9g %.9g\n", (unsigned)roll.half_ticks, (unsigned)pitch.half_ticks, (double)roll.lag_s, (double)pitch.lag_s);
    return 0;
}
"""

M1 = r"""
#include "identify.h"
#include <stdio.h>

int main(void)
{
    static const uint8_t config[24] = {0x3f, 0x80, 0, 0, 0x3f, 0x80, 0, 0, 0x3f, 0};
    static uint8_t calls[80], output[109];
    for (int k = 0; k < 4; k++) {
        calls[20 * k] = 0x3e;
        calls[20 * k + 1] = 0x80;
    }
    printf("%u ", (unsigned)identify_two_axis_run(config, sizeof config, calls, sizeof calls, output, sizeof output));
    for (int i = 0; i < 109; i++)
        printf("%02X", output[i]);
    return 0;
}
"""

ALL_LIBRARIES = r"""
#include "identify.h"
#include <stdio.h>

int main(void)
{
    static identify_probe probe;
    static identify_pair pair;
    static uint8_t bytes[24], report[77];
    const identify_config config = {0.5f, 6.0f, 0.2f, 0, 0.0f, 0.0f};
    float offset = 1.0f, offset1 = 1.0f, offset2 = 1.0f;
    identify_open(&probe, &config, 0);
    identify_pair_open(&pair, &config, 0);
    identify_step(&probe, 0.01f, 0.0f, 0.0f, &offset);
    identify_pair_step(&pair, 0.01f, 0.0f, 0.0f, 0.0f, 0.0f, &offset1, &offset2);
    printf("%d %g ", offset == offset1, (double)offset2);
    printf("%u ", (unsigned)identify_byte_run(bytes, 24, bytes, 0, report, 36));
    printf("%u\n", (unsigned)identify_two_axis_run(bytes, 24, bytes, 0, report, 77));
    return 0;
}
"""


def built_pair_program(test, source, *words, compiler="cc", standard="c11"):
    """A program that is linked with the library of a pair alone."""
    return built(test, [pair_library()], source, *words, compiler=compiler, standard=standard)


@functools.cache
def built_pair():
    """The program pair.c, which holds a pair against probes."""
    return built_once([pair_library(), live_library()], "pair.c")


def packed(config, columns):
    """A flight as the programs read it."""
    return wire.pack_config(config) + wire.pack_two_axis_calls(*columns)


def full_noisy_flight():
    """A configuration and a flight of two noisy axes of more ticks than a probe stores, up to the one at which the fits fall
    due."""
    config = Config(0.5, 8.3, 0.2, None)
    columns = paired(demo_columns("noisy"), demo_columns("noisy"))
    report = identify.run_two_axis(config, *columns)
    assert all(axis.ticks > axis.stored == 2048 and axis.model.integrated for axis in report.axes)
    return config, tuple(column[: report.first.ticks] for column in columns)


@functools.cache
def flights():
    """Flights by name, with their configurations and the endings of both axes."""
    columns = roll_pitch()
    dt, rate1, moment1, rate2, moment2 = map(list, columns)
    for tick in range(100, 2000, 97):
        (rate1, moment2)[tick % 2][tick] = (math.nan, math.inf, -math.inf)[tick % 3]
    turned = list(dt)
    for tick in range(0, len(turned), 50):
        turned[tick] = (0.0, -1.0, math.nan, math.inf, 5000.0)[tick // 50 % 5]
    done = (Ending.DONE, Ending.DONE)
    return {
        "only pitch asks": (Config(), columns, done),
        "both ask": (Config(), paired(demo_columns("noisy"), (*columns[:1], *columns[3:])), done),
        "neither asks": (Config(), paired(demo_columns("clean"), made_flight(4)), done),
        "full windows": (*full_noisy_flight(), done),
        "lost readings": (Config(), (dt, rate1, moment1, rate2, moment2), done),
        "calls turned back": (Config(), (turned, *columns[1:]), done),
        "one saturated": (Config(), paired(demo_columns("noisy"), lengthened(demo_columns("saturated"), 2100)),
                          (Ending.DONE, Ending.SATURATED)),
        "M1": (M1_CONFIG, ([0.25] * 6, *[[0.0] * 6] * 4), (Ending.UNEXCITED, Ending.UNEXCITED)),
        "cut off": (Config(), tuple(column[:1700] for column in columns), (Ending.RUNNING, Ending.RUNNING)),
        "no call": (Config(), ([], [], [], [], []), (Ending.RUNNING, Ending.RUNNING)),
        "offsets that are NaN": (Config(3e38, 1.5, 0.001, Extension(-3e38, 8.0)), columns, done),
    }


def plain_run(config):
    """The run of a plain pair over columns, over bytes."""
    return lambda columns: probe.run_two_axis_bytes(wire.pack_config(config), wire.pack_two_axis_calls(*columns))


@functools.cache
def steady_flights():
    """Flights by name, with their configurations, of which 10 turns calls back, or none."""
    return steady.flights(roll_pitch(), paired(made_flight(4, 3000), made_flight(6, 3000)))


@functools.cache
def output_of(name):
    """What the program writes of one of the flights."""
    config, columns, _ = flights()[name]
    return ran(built_pair(), "fly", given=packed(config, columns))


class Flights(unittest.TestCase):
    """A flight through the header's functions, the pair lying between guards."""

    @classmethod
    def setUpClass(cls):
        cls.pair = built_pair()

    def test_a_flight_answers_as_the_byte_run(self):
        for name, (config, columns, endings) in flights().items():
            with self.subTest(name):
                expected = probe.run_two_axis_bytes(wire.pack_config(config), wire.pack_two_axis_calls(*columns))
                output = output_of(name)
                self.assertEqual(output[: -2 * STATUS.size], expected)
                self.assertEqual((Ending(output[0] >> 6), Ending(output[36] >> 6)), endings)

    def test_the_status_of_an_axis_is_its_report_with_names(self):
        for name in flights():
            with self.subTest(name):
                output = output_of(name)
                self.assertEqual(output[-2 * STATUS.size:], status_of(output[:36]) + status_of(output[36:72]))

    def test_eight_threads_answer_as_one(self):
        config, columns = Config(), roll_pitch()
        reports = ran(self.pair, "threads", given=packed(config, columns))
        self.assertEqual(len(reports), 8 * 77)
        self.assertEqual(reports[:77], identify.run_two_axis(config, *columns).raw)
        self.assertEqual(len({reports[k:k + 77] for k in range(0, len(reports), 77)}), 8)


class Refusals(unittest.TestCase):
    """Rules 1 to 9, of a plain pair: the number, and nothing written."""

    @classmethod
    def setUpClass(cls):
        cls.pair = built_pair()

    def test_a_configuration(self):
        cases = [
            (Config(0.0), 0, 1), (Config(math.nan), 0, 1), (Config(duration_s=3600.5), 0, 2), (Config(washout_tc_s=-0.2), 0, 3),
            (Config(extension=Extension(0.0, 8.0)), 0, 4), (Config(extension=Extension(1.0, 5.0)), 0, 5),
        ]
        cases += [(config, steady.STEADY, rule) for config, _, rule in cases]
        cases += [(Config(), 1 << bit, 9) for bit in range(1, 32)]
        cases += [(Config(), 3, 9), (Config(), (1 << 32) - 1, 9), (Config(0.0), 2, 9), (Config(0.0), 3, 9)]
        records = b"".join(wire.pack_config(config) + struct.pack(">I", options) for config, options, _ in cases)
        lines = ran(self.pair, "open", given=records).decode().splitlines()
        self.assertEqual(lines, [f"{rule} as it was" for *_, rule in cases])

    def test_a_configuration_that_is_taken(self):
        without = wire.pack_config(Config(extension=None))[:16] + wire.pack_floats((math.nan, math.nan))
        records = b"".join(
            config + struct.pack(">I", options)
            for config in (wire.pack_config(Config()), without) for options in (steady.PLAIN, steady.STEADY)
        )
        self.assertEqual(ran(self.pair, "open", given=records).decode().splitlines(), ["0 changed"] * 4)

    def turned(self, *cases):
        """The lines for calls with a dt on plain pairs with these ticks and elapsed seconds of each axis."""
        without, *others = (turned_lines([(steady.PLAIN, first, second, first_dt_s, dt) for first, second, dt in cases])
                            for first_dt_s in (0.0, 1e-30, 0.004))
        self.assertEqual(others, [without] * 2)
        return without

    def test_a_call(self):
        """Each on memory that was zero before the pair was opened, and on memory that was not."""
        fresh, late, worn = (50, 0.2), (50, 4095.0), (1 << 24, 0.2)
        cases = [(fresh, fresh, dt, 6) for dt in (0.0, -0.0, -1.0, math.nan, math.inf, -math.inf)]
        cases += [(fresh, fresh, 4096.0, 7), (late, late, 1.5, 7), (worn, worn, 4096.0, 7), (worn, worn, 0.004, 8)]
        lines = self.turned(*(case[:3] for case in cases))
        self.assertEqual(lines, [f"{rule} as it was" for *_, rule in cases for _ in range(2)])

    def test_axes_at_odds(self):
        """The number of axis 1 comes before that of axis 2, and either turns the call back for both."""
        fresh, late, worn = (50, 0.2), (50, 4095.0), (1 << 24, 0.2)
        cases = [(late, fresh, 7), (fresh, late, 7), (worn, fresh, 8), (fresh, worn, 8), (worn, late, 8), (late, worn, 7)]
        lines = self.turned(*((first, second, 1.5) for first, second, _ in cases))
        self.assertEqual(lines, [f"{rule} as it was" for *_, rule in cases for _ in range(2)])

    def test_a_call_that_is_taken(self):
        last = ((1 << 24) - 1, 0.2)
        self.assertEqual(self.turned((last, last, 0.004)), ["0 changed"] * 2)


def turned_lines(calls):
    """The lines for calls on a pair in flight: its options, ticks and elapsed seconds of each axis and first dt, and the call's
    dt."""
    records = b"".join(
        struct.pack(">I", options) + struct.pack(">If", *first) + struct.pack(">If", *second)
        + wire.pack_floats((first_dt_s, dt, 0.5, 0.5, 0.5, 0.5))
        for options, first, second, first_dt_s, dt in calls
    )
    return ran(built_pair(), "turned", given=records).decode().splitlines()


class Steady(unittest.TestCase):
    """A pair that is opened as steady. The program holds each flight, call for call, against a plain one's bytes."""

    def check_calls(self, calls):
        """The answers are those worked out here, for axis 1 before axis 2, on memory that was zero and on memory that was
        not."""
        numbers = []
        for options, first, second, first_dt_s, dt in calls:
            both = [steady.answer(options, *axis, first_dt_s, dt) for axis in (first, second)]
            numbers.append(both[0] or both[1])
        steady.check_lines(self, calls, numbers, turned_lines(calls))
        return numbers

    def test_the_ends_of_a_band(self):
        axis, ends = (50, 0.2), ["3B449BA5", "3B449BA6", "3BA3D70B", "3BA3D70C"]
        calls = [(steady.STEADY, axis, axis, 0.004, steady.float_of(int(bits, 16))) for bits in ends]
        self.assertEqual(self.check_calls(calls), [10, 0, 0, 10])

    def test_the_ends_of_each_band(self):
        calls = [(options, (50, 0.0), (50, 0.0), first, dt) for options in (steady.STEADY, steady.PLAIN)
                 for first in steady.FIRSTS for dt in steady.edges(first)]
        self.assertEqual(set(self.check_calls(calls)), {0, 6, 7, 10})

    def test_the_order_of_the_rules(self):
        fresh, late, worn = (50, 0.2), (50, 4095.998), (1 << 24, 0.2)
        pairs = [(one, other) for one in (fresh, late, worn) for other in (fresh, late, worn)]
        cases = [(*axes, dt, 6) for axes in pairs for dt in (0.0, -0.004, -1.0, math.nan, math.inf, -math.inf)]
        cases += [(*axes, dt, 10) for axes in pairs for dt in (0.0051, 1.5, 4096.0, 0.0029, 1e-45)]
        cases += [(late, fresh, 0.004, 7), (fresh, late, 0.005, 7), (worn, late, 0.004, 8), (late, worn, 0.004, 7),
                  (fresh, worn, 0.004, 8), (fresh, fresh, 0.004, 0)]
        numbers = self.check_calls([(steady.STEADY, first, second, 0.004, dt) for first, second, dt, _ in cases])
        self.assertEqual(numbers, [rule for *_, rule in cases])

    def test_without_a_first_dt_any_is_taken(self):
        dts, axis = (1e-45, 0.004, 1.0, 4095.0), (50, 0.0)
        calls = [(steady.STEADY, axis, axis, first, dt) for first in (0.0, -0.0, -1.0, -math.inf) for dt in dts]
        self.assertEqual(set(self.check_calls(calls)), {0})
        late = (50, 4095.0)
        calls = [(steady.STEADY, *axes, 0.0, 1.5) for axes in ((late, axis), (axis, late), (late, late))]
        self.assertEqual(self.check_calls(calls), [7, 7, 7])

    def check_lists(self, lists):
        """Each steady flight is the plain one without the calls that 10 turned back, for both axes. Tells which they were."""
        given = b"".join(struct.pack(">I", len(columns[0])) + packed(config, columns) for config, columns in lists)
        output, all_turned = ran(built_pair(), "lists", "steady", given=given), []
        for config, columns in lists:
            expected, turned = steady.expected(columns, plain_run(config), 77)
            expected += status_of(expected[:36]) + status_of(expected[36:72])
            self.assertTrue(output.startswith(expected), (config, columns[0][:100]))
            output = output[len(expected):]
            all_turned.append(turned)
        self.assertEqual(output, b"")
        return all_turned

    def test_the_first_calls(self):
        config = Config(0.5, 3600.0, 0.2, None)
        turned = self.check_lists([(config, (dts, *[[0.25] * len(dts)] * 4)) for dts in steady.first_calls()])
        self.assertGreater(sum(map(sum, turned)), 60)

    def test_drawn_lists(self):
        draw = random.Random(20261126)
        turned = self.check_lists([steady.drawn_flight(draw, axes=2) for _ in range(150)])
        self.assertGreater(sum(map(sum, turned)), 150)

    def test_flights(self):
        turned = dict(zip(steady_flights(), self.check_lists(list(steady_flights().values()))))
        steady.check_turned(self, steady_flights(), turned)

    def test_a_clock_within_the_band_gives_the_plain_answers(self):
        config, columns = steady_flights()["even"]
        as_steady, as_plain = (ran(built_pair(), "fly", *words, given=packed(config, columns)) for words in (["steady"], []))
        self.assertEqual(as_steady, as_plain)
        self.assertEqual((Ending(as_plain[0] >> 6), Ending(as_plain[36] >> 6)), (Ending.DONE, Ending.DONE))

    def test_the_demos_flights_with_their_own_clocks(self):
        self.check_lists([(config, columns) for config, columns, _ in flights().values()])


class Garbage(unittest.TestCase):
    """Structs that nobody opened, or that stray writes have changed, with axes at odds."""

    def test_each_axis_answers_as_a_probe_that_the_other_may_ask(self):
        counts = ran(built_pair(), "garbage", str(GARBAGE)).decode().split()
        self.assertEqual(len(counts), 5)
        self.assertGreater(min(map(int, counts)), 5, "calls that 10 and other rules turned back, late and taken, and axes that "
                           "the other asked")


class Memory(MemoryTest):
    """The example, flights and garbage."""

    def test_the_example(self):
        self.check(built_pair_program(self, EXAMPLE, "-g"))

    def test_flights_and_garbage(self):
        flown = [flights()[name] for name in ("full windows", "lost readings")]
        given = b"".join(struct.pack(">I", len(columns[0])) + packed(config, columns) for config, columns, _ in flown)
        self.check(built_pair(), "memory", "60", given=given)

    def test_a_steady_flight(self):
        config, columns = steady_flights()["uneven"]
        self.check(built_pair(), "memory", "10", "steady", given=struct.pack(">I", len(columns[0])) + packed(config, columns))


class Stack(unittest.TestCase):
    """No function for two axes takes more stack than the header says."""

    @classmethod
    def setUpClass(cls):
        cls.program = built_stack(cls, [pair_library(), two_axis_library()], "stack_pair.c")
        cls.given = packed(*full_noisy_flight())
        cls.limit = defined("IDENTIFY_STACK")
        cls.run_limit = said_of_run("Runs a pair,")

    def test_measured(self):
        taken = measured_stack(self.program, self.given)
        run = taken.pop("run")
        self.assertEqual(set(taken), {"open", "step", "status", "report"})
        self.assertEqual(max(taken, key=taken.get), "step")
        self.assertLessEqual(taken["step"], self.limit)
        self.assertGreater(taken["step"], self.limit - 4096, "the header says a page more than the call takes")
        self.assertLessEqual(run, self.run_limit)
        self.assertGreater(run, self.run_limit - 4096, "the header says a page more than the run takes")

    def test_a_thread_with_just_that_much(self):
        self.assertEqual(stack(self.program, "exact", str(self.limit), given=self.given), ["done"])
        self.assertEqual(stack(self.program, "run", str(self.run_limit), given=self.given), ["done"])

    def test_a_thread_with_less_ends(self):
        taken = measured_stack(self.program, self.given)["step"]
        if taken < SMALLEST_THREAD:
            self.skipTest(f"a step takes {taken} bytes, and no thread has less")
        with self.assertRaisesRegex(subprocess.CalledProcessError, "SIGSEGV"):
            stack(self.program, "exact", str(taken - 256), given=self.given)

    def test_a_run_in_a_thread_with_less_ends(self):
        taken = measured_stack(self.program, self.given)["run"]
        with self.assertRaisesRegex(subprocess.CalledProcessError, "SIGSEGV"):
            stack(self.program, "run", str(taken - 256), given=self.given)


@functools.cache
def strict_answer(log):
    """What the command answers to a log with --strict. The example writes one log, whoever compiled it."""
    return main("-", "--json", "--strict", given=log)


class Example(unittest.TestCase):
    """examples/two_axis.c."""

    def test_it_answers_as_the_byte_run_over_its_log(self):
        for compiler, standard in STANDARDS:
            with self.subTest(standard), tempfile.TemporaryDirectory() as folder:
                path = Path(folder) / "log.csv"
                program = built_pair_program(self, EXAMPLE, compiler=compiler, standard=standard)
                *screen, last = ran(program, path).decode().splitlines()
                logs = identify.read_two_axis_log(path)
                flight = identify.TwoAxisFlight.of(logs, Config())
                self.assertEqual(last, flight.report.raw.hex().upper())
                self.assertEqual([logged(path, f"offset{axis}") for axis in (1, 2)],
                                 [axis.offsets for axis in flight.report.axes])
                roll, pitch = (words_of(axis.model) for axis in flight.report.axes)
                self.assertEqual(screen[-8:], [f"roll: {roll[0]}", *roll[1:], f"pitch: {pitch[0]}", *pitch[1:]])
                self.assertEqual([line.split()[0] for line in screen[:-8]], [f"{second}.0" for second in range(1, 8)])
                self.assertEqual(screen, ran(program).decode().splitlines()[:-1])
                result = strict_answer(path.read_text())
                found = json.loads(result.stdout)
                self.assertEqual((result.returncode, [axis["warnings"] for axis in found["axes"]]), (0, [[], []]))
                self.assertEqual((found["report_hex"].upper(), found["extension_asked_by"]), (last, ["axis 1", "axis 2"]))


class Sources(unittest.TestCase):
    """What a caller compiles: the header and the README's lines."""

    def test_the_readmes_lines_identify_a_flight(self):
        columns = roll_pitch()
        roll, pitch = (axis.model for axis in identify.run_two_axis(Config(), *columns).axes)
        lines = "\n".join(",".join(map(repr, call)) for call in zip(*columns))
        for compiler, standard in STANDARDS:
            with self.subTest(standard):
                source = readme_lines(1) + README_CALLER
                program = built_pair_program(self, source, "-Wconversion", compiler=compiler, standard=standard)
                *half_ticks, roll_lag_s, pitch_lag_s = ran(program, given=lines.encode()).decode().split()
                self.assertEqual(list(map(int, half_ticks)), [roll.half_ticks, pitch.half_ticks])
                self.assertAlmostEqual(float(roll_lag_s), roll.lag_s, delta=1e-8)
                self.assertAlmostEqual(float(pitch_lag_s), pitch.lag_s, delta=1e-8)

    def test_m1(self):
        for compiler, standard in STANDARDS:
            with self.subTest(standard):
                program = built(self, [two_axis_library()], M1, compiler=compiler, standard=standard)
                self.assertEqual(ran(program).decode(), f"0 {M1_PAIR_OUTPUT.hex().upper()}")

    def test_it_links_with_the_other_libraries(self):
        for compiler, standard in STANDARDS:
            with self.subTest(standard):
                archives = [byte_library(), two_axis_library(), live_library(), pair_library()]
                program = built(self, archives, ALL_LIBRARIES, compiler=compiler, standard=standard)
                self.assertEqual(ran(program).decode(), "1 0 1 1\n")

    def test_the_sizes_that_the_readme_says(self):
        text = (ROOT / "README.md").read_text(encoding="utf8")
        self.assertEqual(defined("IDENTIFY_PAIR_SIZE"), 2 * defined("IDENTIFY_PROBE_SIZE"))
        self.assertIn(f"a pair, a struct of {defined('IDENTIFY_PAIR_SIZE'):,} bytes", text)

    def test_a_pair_of_another_size_does_not_compile(self):
        header = HEADER.read_text(encoding="utf8")
        longer = header.replace("    identify_probe second; ", "    char gap[4];\n    identify_probe second; ")
        self.assertNotEqual(header, longer)
        for compiler, standard in STANDARDS:
            for text, compiles in ((header, True), (longer, False)):
                with self.subTest(standard, compiles=compiles):
                    found, said = does_compile(text, compiler, standard)
                    self.assertEqual(found, compiles)
                    self.assertEqual("identify_pair_has_its_size" in said, not compiles)


if __name__ == "__main__":
    unittest.main()
