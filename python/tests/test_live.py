"""A probe in flight, from C: the header's live functions, the README's lines and the example, over the real library."""
import functools
import math
import random
import struct
import subprocess
import tempfile
import unittest
from pathlib import Path

from flights import demo_columns
from programs import (
    EXAMPLES, HERE, STANDARDS, STATUS, MemoryTest, built, built_once, built_stack, defined, does_compile, logged,
    measured_stack, ran, readme_lines, said_of_run, stack, status_of, words_of,
)
import steady
from support import HEADER, M1_CONFIG, ROOT, byte_library, identify, live_library, made_flight

from identify import probe, wire
from identify.records import Config, Ending, Extension

EXAMPLE = (EXAMPLES / "autopilot.c").read_text(encoding="utf8")
COMPILERS = ("cc", "clang")
GARBAGE = 4000
MODES = ("default", "flush-to-zero", "denormals-are-zero", "down", "up", "to-zero")

README_CALLER = r"""
#include <stdio.h>

int main(void)
{
    float dt, rate, moment, delay_s, lag_s, accel_radps2;
    identify_kind kind = IDENTIFY_RUNNING;
    if (!probe_start())
        return 1;
    while (kind == IDENTIFY_RUNNING && scanf("%f,%f,%f", &dt, &rate, &moment) == 3) {
        probe_tick(dt, rate, moment);
        kind = probe_model(&delay_s, &lag_s, &accel_radps2);
    }
    printf("%d %.9g %.9g %.9g\n", (int)kind, (double)delay_s, (double)lag_s, (double)accel_radps2);
    return 0;
}
"""


def built_live_program(test, source, *words, compiler="cc", standard="c11"):
    """A program that is linked with the library of a probe in flight."""
    return built(test, [live_library()], source, *words, compiler=compiler, standard=standard)


@functools.cache
def built_live():
    """The program live.c."""
    return built_once([live_library()], "live.c")


def packed(config, flight):
    """A flight as the programs read it."""
    return wire.pack_config(config) + wire.pack_calls(*flight)


def full_noisy_flight():
    """A configuration and a noisy flight of more ticks than a probe stores, up to the one at which the fit falls due."""
    config = Config(0.5, 8.3, 0.2, None)
    flight = demo_columns("noisy")
    report = identify.run(config, *flight)
    assert report.ticks > report.stored == 2048 and report.model.integrated
    return config, tuple(column[: report.ticks] for column in flight)


@functools.cache
def flights():
    """Flights by name, with their configurations and endings."""
    noisy, clean = demo_columns("noisy"), demo_columns("clean")
    lost = [list(column) for column in made_flight(4)]
    for tick in range(100, 1600, 97):
        lost[1 + tick % 2][tick] = (math.nan, math.inf, -math.inf)[tick % 3]
    turned = [list(column) for column in clean]
    for tick in range(0, len(turned[0]), 50):
        turned[0][tick] = (0.0, -1.0, math.nan, math.inf, 5000.0)[tick // 50 % 5]
    return {
        "noisy, extended": (Config(), noisy, Ending.DONE),
        "noisy, a full window": (*full_noisy_flight(), Ending.DONE),
        "quiet": (Config(), clean, Ending.DONE),
        "lost readings": (Config(), lost, Ending.DONE),
        "calls turned back": (Config(), turned, Ending.DONE),
        "saturated": (Config(), demo_columns("saturated"), Ending.SATURATED),
        "M1": (M1_CONFIG, ([0.25] * 6, [0.0] * 6, [0.0] * 6), Ending.UNEXCITED),
        "cut off": (Config(), tuple(column[:1700] for column in noisy), Ending.RUNNING),
        "no call": (Config(), ([], [], []), Ending.RUNNING),
        "offsets that are NaN": (Config(3e38, 0.9, 0.001, Extension(-3e38, 8.0)), noisy, Ending.DONE),
    }


def plain_run(config):
    """The run of a plain probe over columns, over bytes."""
    return lambda columns: probe.run_bytes(wire.pack_config(config), wire.pack_calls(*columns))


@functools.cache
def steady_flights():
    """Flights by name, with their configurations, of which 10 turns calls back, or none."""
    return steady.flights(demo_columns("noisy"), made_flight(4, 3000))


@functools.cache
def output_of(name):
    """What the program writes of one of the flights."""
    config, flight, _ = flights()[name]
    return ran(built_live(), "fly", given=packed(config, flight))


class Flights(unittest.TestCase):
    """A flight through the header's functions, the probe lying between guards."""

    @classmethod
    def setUpClass(cls):
        cls.live = built_live()

    def test_a_flight_answers_as_the_byte_run(self):
        for name, (config, flight, ending) in flights().items():
            with self.subTest(name):
                expected = probe.run_bytes(wire.pack_config(config), wire.pack_calls(*flight))
                output = output_of(name)
                self.assertEqual(output[: -STATUS.size], expected)
                self.assertIs(Ending(output[0] >> 6), ending)

    def test_the_status_is_the_report_with_names(self):
        for name in flights():
            with self.subTest(name):
                output = output_of(name)
                self.assertEqual(output[-STATUS.size:], status_of(output[:36]))

    def test_eight_threads_answer_as_one(self):
        config, flight = Config(), demo_columns("noisy")
        reports = ran(self.live, "threads", given=packed(config, flight))
        self.assertEqual(len(reports), 8 * 36)
        self.assertEqual(reports[:36], identify.run(config, *flight).raw)
        self.assertEqual(len({reports[k:k + 36] for k in range(0, len(reports), 36)}), 8)


class Refusals(unittest.TestCase):
    """Rules 1 to 9, of a plain probe: the number, and nothing written."""

    @classmethod
    def setUpClass(cls):
        cls.live = built_live()

    def test_a_configuration(self):
        good, longer = (0.5, 6.0, 0.2), Extension(1.0, 8.0)
        bad = {
            1: [Config(x, *good[1:], longer) for x in (0.0, -0.0, math.nan, math.inf, -math.inf)],
            2: [Config(0.5, x, 0.2, longer) for x in (0.0, -1.0, 3600.5, math.nan, math.inf)],
            3: [Config(0.5, 6.0, x, longer) for x in (0.0, -0.2, math.nan, math.inf)],
            4: [Config(*good, Extension(x, 8.0)) for x in (0.0, math.nan, -math.inf)],
            5: [Config(*good, Extension(1.0, x)) for x in (5.0, 3600.5, math.nan, math.inf)],
        }
        cases = [(config, 0, rule) for rule, configs in bad.items() for config in configs]
        cases += [(config, steady.STEADY, rule) for rule, configs in bad.items() for config in configs]
        cases += [(Config(), 1 << bit, 9) for bit in range(1, 32)]
        cases += [(Config(), 3, 9), (Config(), (1 << 32) - 1, 9), (Config(0.0), 2, 9), (Config(0.0), 3, 9)]
        records = b"".join(wire.pack_config(config) + struct.pack(">I", options) for config, options, _ in cases)
        lines = ran(self.live, "open", given=records).decode().splitlines()
        self.assertEqual(lines, [f"{rule} as it was" for *_, rule in cases])

    def test_a_configuration_that_is_taken(self):
        without = wire.pack_config(Config(extension=None))[:16] + wire.pack_floats((math.nan, math.nan))
        flagged = wire.pack_config(Config())[:12] + b"\x80\0\0\0" + wire.pack_floats((1.0, 8.0))
        records = b"".join(
            config + struct.pack(">I", options)
            for config in (wire.pack_config(Config()), without, flagged) for options in (steady.PLAIN, steady.STEADY)
        )
        lines = ran(self.live, "open", given=records).decode().splitlines()
        self.assertEqual(lines, ["0 changed"] * 6)

    def test_a_call(self):
        """Each on memory that was zero before the probe was opened, and on memory that was not."""
        cases = [(50, 0.2, dt, 6) for dt in (0.0, -0.0, -1.0, math.nan, math.inf, -math.inf)]
        cases += [(50, 0.2, 4096.0, 7), (50, 4095.0, 1.5, 7), (1 << 24, 0.2, 4096.0, 7)]
        cases += [(1 << 24, 0.2, 0.004, 8), (1 << 24, 5.9, 0.5, 8)]
        for first in (0.0, 1e-30, 0.004):
            calls = [(steady.PLAIN, ticks, elapsed, first, dt) for ticks, elapsed, dt, _ in cases]
            self.assertEqual(turned_lines(calls), [f"{rule} as it was" for *_, rule in cases for _ in range(2)])

    def test_a_call_that_is_taken(self):
        for first in (0.0, 1e-30, 0.004):
            self.assertEqual(turned_lines([(steady.PLAIN, (1 << 24) - 1, 0.2, first, 0.004)]), ["0 changed"] * 2)


def turned_lines(calls):
    """The lines for calls on a probe in flight: its options, ticks, elapsed seconds and first dt, and the call's dt."""
    records = b"".join(
        struct.pack(">II", options, ticks) + wire.pack_floats((elapsed, first, dt, 0.5, 0.5))
        for options, ticks, elapsed, first, dt in calls
    )
    return ran(built_live(), "turned", given=records).decode().splitlines()


class Steady(unittest.TestCase):
    """A probe that is opened as steady. The program holds each flight, call for call, against a plain one's bytes."""

    def check_calls(self, calls):
        """The answers are those worked out here, on memory that was zero and on memory that was not."""
        numbers = [steady.answer(*call) for call in calls]
        steady.check_lines(self, calls, numbers, turned_lines(calls))
        return numbers

    def check_flight(self, config, columns):
        """A steady flight is the plain one without the calls that 10 turned back."""
        output = ran(built_live(), "fly", "steady", given=packed(config, columns))
        expected, turned = steady.expected(columns, plain_run(config), 36)
        self.assertTrue(output == expected + status_of(expected[:36]))
        return turned

    def test_the_ends_of_a_band(self):
        ends = ["3B449BA5", "3B449BA6", "3BA3D70B", "3BA3D70C"]
        calls = [(steady.STEADY, 50, 0.2, 0.004, steady.float_of(int(bits, 16))) for bits in ends]
        self.assertEqual(self.check_calls(calls), [10, 0, 0, 10])

    def test_the_ends_of_each_band(self):
        calls = [(options, 50, 0.0, first, dt) for options in (steady.STEADY, steady.PLAIN)
                 for first in steady.FIRSTS for dt in steady.edges(first)]
        self.assertEqual(set(self.check_calls(calls)), {0, 6, 7, 10})

    def test_a_first_dt_of_any_bits(self):
        draw = random.Random(10)
        firsts = [steady.float_of(draw.randrange(1, 0x45800000)) for _ in range(150)]
        self.check_calls([(steady.STEADY, 50, 0.0, first, dt) for first in firsts for dt in steady.edges(first)])

    def test_the_order_of_the_rules(self):
        late, worn = (50, 4095.998), (1 << 24, 0.2)
        cases = [(*probed, dt, 6) for probed in (late, worn) for dt in (0.0, -0.004, -1.0, math.nan, math.inf, -math.inf)]
        both = (1 << 24, 4095.998)
        cases += [(*probed, dt, 10) for probed in (late, worn, both) for dt in (0.0051, 1.5, 4096.0, 0.0029, 1e-45)]
        cases += [(*late, 0.004, 7), (*both, 0.004, 7), (*worn, 0.004, 8), (*worn, 0.005, 8)]
        numbers = self.check_calls([(steady.STEADY, ticks, elapsed, 0.004, dt) for ticks, elapsed, dt, _ in cases])
        self.assertEqual(numbers, [rule for *_, rule in cases])

    def test_without_a_first_dt_any_is_taken(self):
        dts = (1e-45, 0.004, 1.0, 4095.0)
        calls = [(steady.STEADY, 50, 0.0, first, dt) for first in (0.0, -0.0, -1.0, -math.inf) for dt in dts]
        self.assertEqual(set(self.check_calls(calls)), {0})
        numbers = self.check_calls([(steady.STEADY, 50, 0.2, 0.0, dt) for dt in (4096.0, math.nan, 0.0)])
        self.assertEqual(numbers, [7, 6, 6])

    def test_the_first_calls(self):
        config = Config(0.5, 3600.0, 0.2, None)
        lists = [(config, (dts, *[[0.25] * len(dts)] * 2)) for dts in steady.first_calls()]
        self.assertGreater(self.check_lists(lists), 60)

    def test_drawn_lists(self):
        draw = random.Random(20261126)
        self.assertGreater(self.check_lists([steady.drawn_flight(draw, axes=1) for _ in range(300)]), 300)

    def check_lists(self, lists):
        """As check_flight, of many flights. Tells how many calls were turned back."""
        given = b"".join(struct.pack(">I", len(columns[0])) + packed(config, columns) for config, columns in lists)
        output, count = ran(built_live(), "lists", "steady", given=given), 0
        for config, columns in lists:
            expected, turned = steady.expected(columns, plain_run(config), 36)
            expected += status_of(expected[:36])
            self.assertTrue(output.startswith(expected), (config, columns[0][:100]))
            output, count = output[len(expected):], count + sum(turned)
        self.assertEqual(output, b"")
        return count

    def test_flights(self):
        turned = {}
        for name, (config, columns) in steady_flights().items():
            with self.subTest(name):
                turned[name] = self.check_flight(config, columns)
        steady.check_turned(self, steady_flights(), turned)

    def test_a_clock_within_the_band_gives_the_plain_answers(self):
        config, columns = steady_flights()["even"]
        as_steady, as_plain = (ran(built_live(), "fly", *words, given=packed(config, columns)) for words in (["steady"], []))
        self.assertEqual(as_steady, as_plain)
        self.assertIs(Ending(as_plain[0] >> 6), Ending.DONE)

    def test_the_demos_flights_with_their_own_clocks(self):
        for name, (config, flight, _) in flights().items():
            with self.subTest(name):
                self.check_flight(config, flight)


class Garbage(unittest.TestCase):
    """Structs that nobody opened, or that stray writes have changed."""

    def test_each_call_ends_in_bounds_and_in_range(self):
        counts = ran(built_live(), "garbage", str(GARBAGE)).decode().split()
        self.assertEqual(len(counts), 5)
        self.assertGreater(min(map(int, counts)), 100, "calls that 10 and other rules turned back, late, taken and at an end")


class Memory(MemoryTest):
    """The example, flights and garbage."""

    def test_the_example(self):
        self.check(built_live_program(self, EXAMPLE, "-g"))

    def test_flights_and_garbage(self):
        flown = [flights()[name] for name in ("noisy, a full window", "lost readings")]
        given = b"".join(struct.pack(">I", len(flight[0])) + packed(config, flight) for config, flight, _ in flown)
        self.check(built_live(), "memory", "100", given=given)

    def test_a_steady_flight(self):
        config, flight = steady_flights()["uneven"]
        self.check(built_live(), "memory", "10", "steady", given=struct.pack(">I", len(flight[0])) + packed(config, flight))


class Stack(unittest.TestCase):
    """The call at which the fit of a full, noisy window falls due, and the run over its bytes, take no more than the header says."""

    @classmethod
    def setUpClass(cls):
        cls.program = built_stack(cls, [live_library(), byte_library()], "stack.c")
        cls.given = packed(*full_noisy_flight())
        cls.limit = defined("IDENTIFY_STACK")
        cls.run_limit = said_of_run("Runs a probe")

    def test_measured(self):
        taken = measured_stack(self.program, self.given)
        run = taken.pop("run")
        self.assertEqual(set(taken), {"open", "step", "status", "report"})
        self.assertEqual(max(taken, key=taken.get), "step")
        self.assertLessEqual(taken["step"], self.limit)
        self.assertGreater(taken["step"], self.limit - 4096, "the header says a page more than the call takes")
        self.assertLessEqual(run, self.run_limit)
        self.assertGreater(run, self.run_limit - 4096, "the header says a page more than the run takes")

    def test_a_thread_with_just_that_much(self):
        self.assertEqual(stack(self.program, "exact", str(self.limit), given=self.given), ["done"])
        self.assertEqual(stack(self.program, "run", str(self.run_limit), given=self.given), ["done"])

    def test_a_thread_with_less_ends(self):
        taken = measured_stack(self.program, self.given)
        for word, name in (("exact", "step"), ("run", "run")):
            with self.subTest(name), self.assertRaisesRegex(subprocess.CalledProcessError, "SIGSEGV"):
                stack(self.program, word, str(taken[name] - 256), given=self.given)


class Arithmetic(unittest.TestCase):
    """identify_arithmetic_ok in each mode of the processor, as different compilers make it."""

    def answers(self, *words, compiler="cc"):
        """The modes in which it answers 1: for floats and doubles alike, since one register sets the mode of both."""
        program = built_live_program(self, (HERE / "arithmetic.c").read_text(encoding="utf8"), *words, compiler=compiler)
        lines = dict(line.split() for line in ran(program).decode().splitlines())
        self.assertEqual(tuple(lines), MODES)
        self.assertLessEqual(set(lines.values()), {"000", "111"})
        return [mode for mode, answer in lines.items() if answer == "111"]

    def test_only_the_default_is_good(self):
        for compiler in COMPILERS:
            for level in ("-O0", "-O1", "-O2", "-O3"):
                with self.subTest(compiler=compiler, level=level):
                    self.assertEqual(self.answers(level, compiler=compiler), ["default"])

    def test_no_other_mode_is_good_where_the_compiler_takes_liberties(self):
        for compiler in COMPILERS:
            with self.subTest(compiler):
                self.assertLessEqual(set(self.answers("-O3", "-ffast-math", compiler=compiler)), {"default"})

    def test_excess_precision_is_not_good(self):
        self.assertEqual(self.answers("-O2", "-mfpmath=387", compiler="gcc"), [])

    @unittest.skipUnless("fma" in Path("/proc/cpuinfo").read_text().split(), "the processor has no fused multiply-add")
    def test_fused_is_not_good(self):
        for compiler in COMPILERS:
            with self.subTest(compiler):
                self.assertEqual(self.answers("-O2", "-mfma", "-ffp-contract=fast", compiler=compiler), [])


class Example(unittest.TestCase):
    """examples/autopilot.c."""

    def test_it_answers_as_the_byte_run_over_its_log(self):
        for compiler, standard in (("cc", "c11"), ("g++", "c++17")):
            with self.subTest(standard), tempfile.TemporaryDirectory() as folder:
                path = Path(folder) / "log.csv"
                program = built_live_program(self, EXAMPLE, compiler=compiler, standard=standard)
                *screen, last = ran(program, path).decode().splitlines()
                log = identify.read_log(path)
                report = identify.run(Config(), log.dt, log.rate, log.moment)
                self.assertEqual(last, report.raw.hex().upper())
                self.assertEqual(logged(path, "offset"), report.offsets)
                self.assertEqual(screen[-4:], words_of(report.model))
                self.assertEqual([line.split()[0] for line in screen[:-4]], [f"{second}.0" for second in range(1, 8)])
                self.assertEqual(screen[:-4], ran(program).decode().splitlines()[:-5])


class Sources(unittest.TestCase):
    """What a caller compiles: the header and the README's lines."""

    def test_the_readmes_lines_identify_a_flight(self):
        flight = demo_columns("noisy")
        model = identify.run(Config(), *flight).model
        lines = "\n".join(",".join(map(repr, call)) for call in zip(*flight))
        for compiler, standard in STANDARDS:
            with self.subTest(standard):
                source = readme_lines(0) + README_CALLER
                program = built_live_program(self, source, "-Wconversion", compiler=compiler, standard=standard)
                kind, *values = ran(program, given=lines.encode()).decode().split()
                self.assertEqual(kind, "1")
                expected = (model.delay_s, model.lag_s, model.accel_radps2)
                for value, wanted in zip(map(float, values), expected, strict=True):
                    self.assertAlmostEqual(value, wanted, delta=1e-6 * wanted)

    def test_the_sizes_that_the_readme_says(self):
        text = (ROOT / "README.md").read_text(encoding="utf8")
        self.assertIn(f"a struct of {defined('IDENTIFY_PROBE_SIZE'):,} bytes", text)
        self.assertIn(f"{math.ceil(defined('IDENTIFY_STACK') / 1024)} KB of stack", text)

    def test_a_struct_of_another_size_does_not_compile(self):
        header = HEADER.read_text(encoding="utf8")
        for compiler, standard in STANDARDS:
            for text, compiles in ((header, True), (header.replace("float floats[14];", "float floats[15];"), False)):
                with self.subTest(standard, compiles=compiles):
                    found, said = does_compile(text, compiler, standard)
                    self.assertEqual(found, compiles)
                    self.assertEqual("identify_probe_has_its_size" in said, not compiles)


if __name__ == "__main__":
    unittest.main()
