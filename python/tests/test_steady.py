"""Steady probes: `run` with steady=True, and the command with --steady, for one axis and for two."""
import json
import os
import random
import subprocess
import tempfile
import unittest
from pathlib import Path
from unittest import mock

from flights import (
    ROLL_PITCH, ROLL_PITCH_COLUMNS, TWO_AXES, codes, demo_columns, every_third_dropped, identified, log_of, odd_columns,
    roll_pitch,
)
from support import DEMO, M1_CONFIG, command, identify, log_text, main, main_once

from identify import library
from identify.records import Config, ConfigRefused

COLUMNS = ("--columns", ",".join(f"{key}={name}" for key, name in ROLL_PITCH_COLUMNS.items()))
NOISY, PAIR = (str(DEMO / "noisy.csv"),), (str(ROLL_PITCH), *COLUMNS)
BYTE_FUNCTIONS = ("identify_byte_run", "identify_plain_units", "identify_two_axis_run")
BYTES_ALONE = "".join(f"unsigned {name}(void) {{ return 0; }}\n" for name in BYTE_FUNCTIONS)


def rules(report):
    """The calls that were turned back, with their rules."""
    return [(refusal.call, refusal.rule) for refusal in report.refusals]


def without(columns, calls):
    """The columns without these calls."""
    return tuple([value for call, value in enumerate(column) if call not in calls] for column in columns)


def unsteady(report):
    """The calls that rule 10 turned back."""
    return {refusal.call for refusal in report.refusals if refusal.rule == 10}


class Runs(unittest.TestCase):
    """A steady probe is the plain one over the list without the calls that 10 turned back."""

    def test_an_even_log(self):
        columns = demo_columns("noisy")
        plain, steady = identify.run(Config(), *columns), identify.run(Config(), *columns, steady=True)
        self.assertEqual((plain.steady, steady.steady), (False, True))
        self.assertEqual((steady.raw, steady.offsets, steady.refusals), (plain.raw, plain.offsets, ()))
        self.assertEqual((steady.model, steady.ticks), (plain.model, plain.ticks))
        plain, steady = (identify.run_two_axis(Config(), *roll_pitch(), steady=steady) for steady in (False, True))
        self.assertEqual((steady.raw, steady.first.offsets, steady.second.offsets),
                         (plain.raw, plain.first.offsets, plain.second.offsets))

    def test_order_of_the_rules(self):
        """6, 10, 7; the first dt is the first accepted one, and an ended probe takes each dt."""
        dt = [5000.0, 0.25, 0.0, 5000.0, 0.4, 0.25, 0.3, 0.25, 0.25, 9.0, -1.0]
        report = identify.run(M1_CONFIG, dt, [0.0] * 11, [0.0] * 11, steady=True)
        self.assertEqual(rules(report), [(0, 7), (2, 6), (3, 10), (4, 10), (10, 6)])
        self.assertEqual((report.ticks, report.offsets[9]), (4, 0.0))

    def test_odd_logs(self):
        draw = random.Random(3)
        refused = 0
        for flight in range(60):
            columns, config = odd_columns(draw)
            columns = every_third_dropped(columns) if flight % 3 == 0 else columns
            steady = identify.run(config, *columns, steady=True)
            plain = identify.run(config, *without(columns, unsteady(steady)))
            self.assertEqual(plain.raw, steady.raw)
            kept = [str(offset) for call, offset in enumerate(steady.offsets) if call not in unsteady(steady)]
            self.assertEqual(kept, [str(offset) for offset in plain.offsets])
            refused += len(unsteady(steady))
        self.assertGreater(refused, 1000)

    def test_two_axes_that_drop_every_third_tick(self):
        columns = every_third_dropped(roll_pitch())
        steady = identify.run_two_axis(Config(duration_s=2.0, extension=None), *columns, steady=True)
        self.assertEqual(steady.first.refusals, steady.second.refusals)
        calls = unsteady(steady.first)
        self.assertEqual(calls, {call for call in range(2, 999, 2)})
        plain = identify.run_two_axis(Config(duration_s=2.0, extension=None), *without(columns, calls))
        self.assertEqual(steady.raw, plain.raw)

    def test_refused_configurations(self):
        columns = [0.25], [0.0], [0.0]
        for rule, config in ((1, Config(0.0)), (2, Config(duration_s=-1.0)), (5, Config(duration_s=9.0))):
            for run in (lambda: identify.run(config, *columns, steady=True),
                        lambda: identify.run_two_axis(config, *columns, *columns[1:], steady=True)):
                with self.assertRaises(ConfigRefused) as caught:
                    run()
                self.assertEqual(caught.exception.rule, rule)

    def test_no_call(self):
        self.assertEqual(identify.run(Config(), [], [], [], steady=True).raw, identify.run(Config(), [], [], []).raw)

    def test_a_steady_flight_warns_of_what_it_turned_back(self):
        columns = every_third_dropped(demo_columns("noisy"))
        config = Config(duration_s=2.0, extension=None)
        flight = identify.Flight(log_of(columns), config, identify.run(config, *columns, steady=True))
        self.assertIn("turned-back", codes(flight))
        self.assertTrue({"steady-clock", "uneven-dt"}.isdisjoint(codes(flight)))
        self.assertIn("steady-clock", codes(identified(columns, config)))


class Command(unittest.TestCase):
    """--steady."""

    def test_an_even_log_has_the_same_report(self):
        for words, said in ((NOISY, "; the probe was steady\n"), (PAIR, "; the pair was steady\n")):
            steady = command(*words, "--steady", "--strict")
            self.assertEqual((steady.returncode, steady.stderr), (0, ""))
            self.assertIn(said, steady.stdout)
            self.assertEqual(steady.stdout.replace(said, "\n"), main_once(*words).stdout)

    def test_calls_turned_back_are_counted_and_named(self):
        given = log_text(*every_third_dropped(demo_columns("noisy")))
        result = main("-", "--steady", "--duration", "2", "--no-extension", given=given)
        self.assertEqual((result.returncode, result.stderr), (0, ""))
        self.assertIn("1400 in the log, 499 turned back, 400 after the end, unused\n", result.stdout)
        self.assertIn(f"  rule 10         {identify.RULES[10]}: 499 turned back (lines 4, 6, 8, 10, 12 and 494 more)\n",
                      result.stdout)
        self.assertIn("warning         499 calls were turned back, the first on line 4: the fits take the ticks around a "
                      "missing one as neighbours. Log every tick, with its true dt.\n", result.stdout)
        self.assertNotIn("off the usual", result.stdout)

    def test_two_axes(self):
        given = log_text(*every_third_dropped(roll_pitch()), names=TWO_AXES)
        result = main("-", "--steady", "--duration", "2", "--no-extension", given=given)
        self.assertEqual(result.stdout.count("rule 10  "), 1)
        self.assertEqual(result.stdout.count("turned back, the first on line 4"), 1)
        plain = main("-", given=given)
        self.assertEqual(plain.stdout.count("666 of 1334 dt are more than a quarter off the first, 0.004 s, from line 4 on"), 1)

    def test_json(self):
        for words in (NOISY, PAIR):
            plain, steady = (json.loads(main_once(*words, "--json", *more).stdout) for more in ((), ("--steady",)))
            self.assertEqual((plain.pop("steady"), steady.pop("steady")), (False, True))
            self.assertEqual(plain, steady)
        given = log_text([0.25, 0.5, 0.25], [0.0] * 3, [0.0] * 3)
        found = json.loads(main("-", "--json", "--steady", given=given).stdout)
        self.assertEqual(found["turned_back"], [{"line": 3, "call": 1, "rule": 10, "why": identify.RULES[10]}])
        self.assertEqual(found["calls"], {"in_log": 3, "turned_back": 1, "after_end": 0})


class Library(unittest.TestCase):
    """A library without steady probes: one line and status 3 with --steady, and all else as before."""

    def check(self, source, expected):
        with tempfile.TemporaryDirectory() as folder:
            named = Path(folder) / "libidentify.so"
            subprocess.run(("cc", "-shared", "-x", "c", "-", "-o", str(named)), input=source, text=True, check=True)
            with mock.patch.dict(os.environ, {library.VARIABLE: str(named)}):
                for words, line in zip((NOISY, PAIR), expected, strict=True):
                    result = command(*words, "--steady")
                    self.assertEqual((result.returncode, result.stdout, result.stderr.count("\n")), (3, "", 1), result.stderr)
                    self.assertIn(f"identify: {line}", result.stderr)

    def test_lacking(self):
        self.check(BYTES_ALONE, (
            "the library has no function identify_live_open, which a steady probe needs; set IDENTIFY_LIBRARY to a ready "
            "libexports.a with liblive.a beside it, or to a libidentify.so made of both",
            "the library has no function identify_live_pair_open, which a steady pair needs; set IDENTIFY_LIBRARY to a ready "
            "libexports.a with libpair.a beside it, ",
        ))

    def test_of_before_the_option(self):
        """Its openings take fewer arguments, see the place of the clock where the option was, and turn it back."""
        live = "".join(
            f"unsigned identify_live_{name}(void) {{ return 9; }}\n"
            for name in ("open", "ready", "step", "report", "pair_open", "pair_ready", "pair_step", "pair_report")
        )
        self.check(BYTES_ALONE + live, 2 * ("the library is older than steady probes, and has none; ",))

    @unittest.skipUnless(os.environ.get(library.VARIABLE, "").endswith(".a"), "the library is not named as an archive")
    def test_the_others_are_taken_where_they_stand_beside_it(self):
        archive = Path(os.environ[library.VARIABLE])
        with tempfile.TemporaryDirectory() as folder:
            alone = Path(folder) / archive.name
            alone.write_bytes(archive.read_bytes())
            with mock.patch.dict(os.environ, {library.VARIABLE: str(alone)}):
                self.assertEqual(command(*NOISY).stdout, main_once(*NOISY).stdout)
                self.assertEqual(command(*NOISY, "--steady").returncode, 3)
                beside = library.archive_beside(archive, library.LIVE)
                (Path(folder) / beside.name).write_bytes(beside.read_bytes())
                self.assertEqual(command(*NOISY, "--steady").stdout, main_once(*NOISY, "--steady").stdout)


if __name__ == "__main__":
    unittest.main()
