"""The command ./identify: what it prints, its exit status, its messages."""
import contextlib
import json
import re
import tempfile
import unittest
from dataclasses import replace
from pathlib import Path

from flights import ALTERED, NOISY, flown
from support import DEMO, ROOT, command, gainless_flight, identify, log_text, made_flight, main, main_once, wild_log

from identify import checks
from identify.words import unsigned_zero

HEADER = "dt,rate,moment\n"
UNSETTLED = log_text(*made_flight(3, ticks=300, pole=1.01))
M1_OPTIONS = ("--amplitude", "1", "--duration", "1", "--washout", "0.5", "--no-extension")


class Good(unittest.TestCase):
    """Reports."""

    def test_noisy_flight_in_words(self):
        result = command(str(DEMO / "noisy.csv"))
        self.assertEqual((result.returncode, result.stderr), (0, ""))
        for words in (
            "done, by the integrated fit (a noisy window, extended from 6 s to 8 s)", "3.5 ticks, 14.00 ms", "rate weights",
            "moment weights", "dt ", "ticks 2000, stored 2000, held 7, warm 33, rows 1960, gain fits 2604",
            "2100 in the log, none turned back, 100 after the end, unused",
        ):
            self.assertIn(words, result.stdout)

    def test_lag_and_push_in_words(self):
        result = command("-", given=log_text(*made_flight(3)))
        self.assertRegex(result.stdout, r"\n  lag             24\.6\d ms\n  push            7[45]\.\d\d rad/s² per unit moment\n")

    def test_one_tick_in_words(self):
        self.assertIn("delay           1 tick, 4.00 ms\n", main("-", given=log_text(*made_flight(1))).stdout)

    def test_zeros_have_no_minus(self):
        result = main("-", given=log_text(*ALTERED["moments of noise"]()))
        self.assertIn("rate weights    1  0  of", result.stdout)
        self.assertIn("moment weights  -0.04459888  0  0  of", result.stdout)
        for number, shown in (("-0", "0"), ("-0.00", "0.00"), ("-0.01", "-0.01"), ("0", "0"), ("nan", "nan"), ("-inf", "-inf")):
            self.assertEqual(unsigned_zero(number), shown)

    def test_quality_in_words(self):
        self.assertIn("fit             explains 100.0% of the rate's change over 0.2 s, the gyro's noise 0.0%; 2 ticks "
                      "earlier 99.2%, later 99.2%\n", main_once(str(DEMO / "clean.csv")).stdout)
        self.assertIn("fit             not tried, no good stretch of 0.2 s\n",
                      main("-", given=log_text(*ALTERED["one dt of 3000 s"]())).stdout)

    def test_a_full_window_in_words(self):
        for ticks, words in ((400, "full at 5.12 s"), (300, "extended from 6 s, full at 6.827 s")):
            result = main("-", given=log_text(*flown(replace(NOISY, tick_s=1 / ticks, dropouts=()))))
            self.assertIn(f"done, by the integrated fit (a noisy window, {words})\n", result.stdout)
        result = main("-", "--duration", "11", "--no-extension", given=log_text(*made_flight(3, ticks=3000)))
        self.assertIn("done, by the fit on the recorded rates (a quiet window, full at 8.192 s)\n", result.stdout)

    def test_moments_in_percent_are_not_blamed_on_the_gains(self):
        result = main("-", given=log_text(*ALTERED["moment in percent"]()))
        words = " ".join(result.stdout.split())
        self.assertIn("1006 of 1500 moments (67%) are at the limit, more than a fifth, and the window is noisy. See the "
                      "warning about their unit. warning", words)
        self.assertNotIn("gains", words)

    def test_no_lag_in_words(self):
        result = main("-", given=log_text(*made_flight(3, pole=-0.2)))
        self.assertRegex(result.stdout, r"\n  lag             0\.00 ms, the fit sees no lag\n  push            11\.2\d rad/s² ")

    def test_neither_lag_nor_push_in_words(self):
        result = main("-", "--duration", "1", given=UNSETTLED)
        self.assertEqual((result.returncode, result.stderr), (0, ""))
        why = r"none: a model settles only with a pole below 1, and here it is 1\.0\d*\n"
        self.assertRegex(result.stdout, rf"\n  lag, push       {why}")
        self.assertNotIn("rad/s²", result.stdout)

    def test_whole_delay_in_words(self):
        result = main_once(str(DEMO / "clean.csv"))
        self.assertIn("done, by the fit on the recorded rates (a quiet window)", result.stdout)
        self.assertIn("3 ticks, 12.00 ms", result.stdout)

    def test_saturated_flight_says_what_to_do(self):
        result = main_once(str(DEMO / "saturated.csv"))
        self.assertEqual(result.returncode, 0)
        self.assertIn("gave up: saturated", result.stdout)
        self.assertIn("774 of 1500 moments (52%)", result.stdout)
        self.assertIn("Lower the rate loop's gains or the amplitude", result.stdout)

    def test_too_few_rows(self):
        result = main("-", *M1_OPTIONS, given=HEADER + "0.25,0,0\n" * 4)
        self.assertIn("gave up: unexcited", result.stdout)
        self.assertIn("only 0 rows to fit", result.stdout)

    def test_moment_that_does_not_move(self):
        result = main("-", *M1_OPTIONS, given=HEADER + "0.01,0,0\n" * 101)
        self.assertIn("gave up: unexcited", result.stdout)
        self.assertIn("did not move the moment enough", " ".join(result.stdout.split()))

    def test_log_that_ends_early(self):
        result = main("-", given=HEADER + "0.25,0,0\n" * 4)
        self.assertEqual(result.returncode, 0)
        self.assertIn("still running", result.stdout)
        self.assertIn("the log ends after 1 s, before the duration of 6 s", result.stdout)

    def test_log_that_ends_a_hair_early(self):
        result = main("-", "--duration", "12", "--no-extension", given=log_text(*made_flight(3, ticks=3000)))
        self.assertIn("the log ends after 11.9998598 s, before the duration of 12 s", result.stdout)

    def test_log_that_ends_in_the_extension(self):
        lines = (DEMO / "noisy.csv").read_text().splitlines(keepends=True)
        result = main("-", given="".join(lines[:1700]))
        self.assertIn("the window was noisy at 6 s and goes on to 8 s", " ".join(result.stdout.split()))

    def test_a_duration_longer_than_the_extension_that_nobody_typed(self):
        found = json.loads(main_once(str(DEMO / "clean.csv"), "--duration", "9", "--json").stdout)
        self.assertEqual((found["config"]["duration_s"], found["config"]["extension"]["duration_s"]), (9.0, 9.0))
        given = log_text(*(column[:] for column in flown(replace(NOISY, seconds=9.2))))
        result = main("-", "--duration", "9", given=given)
        self.assertIn("done, by the integrated fit (a noisy window, full at 8.192 s)\n", result.stdout)

    def test_no_extension(self):
        result = main_once(str(DEMO / "noisy.csv"), "--no-extension")
        self.assertIn("done, by the integrated fit (a noisy window)\n", result.stdout)
        self.assertIn("ticks 1500", result.stdout)

    def test_columns_in_any_order_and_others(self):
        given = "Note, moment ,t,rate,dt\n" + "x,nan,1,inf,0.25\n\n" + ",0,y,0,0.25\n" * 3
        result = main("-", *M1_OPTIONS, given=given)
        self.assertEqual((result.returncode, result.stderr), (0, ""))
        self.assertIn("ticks 4, stored 4, held 1", result.stdout)

    def test_refused_calls_are_counted_and_named(self):
        given = HEADER + "0.25,0,0\n0,0,0\n" + "nan,0,0\n" * 6 + "5000,0,0\n" + "0.25,0,0\n" * 3
        result = main("-", *M1_OPTIONS, given=given)
        self.assertEqual(result.returncode, 0)
        self.assertIn("12 in the log, 8 turned back", result.stdout)
        self.assertIn("dt not positive and finite: 7 turned back (lines 3, 4, 5, 6, 7 and 2 more)", result.stdout)
        self.assertIn("elapsed time + dt above 4,096 s: 1 turned back (line 10)", result.stdout)


class Wild(unittest.TestCase):
    """A short stretch of wild rates between two held samples: the fit on the recorded rates does not see it, the
    integrated fit does."""

    def model(self, given):
        return json.loads(main("-", "--json", given=given).stdout)["model"]

    def test_rates_further_apart_than_a_single_holds(self):
        result = main("-", given=wild_log("noisy.csv", 803, ["3e38", "-3e38"] * 3))
        self.assertEqual((result.returncode, result.stderr), (0, ""))
        words = " ".join(result.stdout.split())
        self.assertIn("gave up: unexcited the window is noisy, and no fit of it has a finite gain and a finite error. See "
                      "the warning about its rates. warning 6 rates are beyond 1,000 rad/s (lines 803 to 808, the first "
                      "3e+38). Write nan for such readings", words)
        self.assertIn("held 9, warm 50, rows 1941, gain fits 2580", words)
        self.assertNotIn("weights", words)

    def test_one_wild_reading(self):
        result = main("-", given=wild_log("noisy.csv", 803, ["-3.4e38"]))
        self.assertIn("1 rate is beyond 1,000 rad/s (line 803, the first -3.4e+38)", " ".join(result.stdout.split()))

    def test_wild_readings_that_rows_see(self):
        result = main("-", given=wild_log("noisy.csv", 803, ["3e38", "-3e38"], around="0"))
        words = " ".join(result.stdout.split())
        self.assertIn("gave up: unexcited no fit of the window has finite numbers. See the warning about its rates. warning "
                      "2 rates are beyond 1,000 rad/s (lines 803 to 804, the first 3e+38)", words)
        self.assertIn("gain fits 0", words)

    def test_a_wild_reading_beside_a_lost_moment(self):
        lines = (DEMO / "noisy.csv").read_text().splitlines()
        for number, rate in ((803, "3e38"), (804, "-3e38")):
            lines[number - 1] = f"0,0.004,{rate},nan,0"
        words = " ".join(main("-", given="\n".join(lines)).stdout.split())
        self.assertIn("2 rates are beyond 1,000 rad/s (lines 803 to 804, the first 3e+38)", words)

    def test_written_as_lost_they_are_held(self):
        found = self.model(wild_log("noisy.csv", 803, ["nan"] * 6))
        self.assertEqual((found["fit"], found["delay_ticks"]), ("integrated", 3.5))

    def test_a_model_of_the_integrated_fit_is_finite(self):
        for rates in (["1e10", "-1e10"], ["1e19", "-1e19"], ["1e30", "-1e30"], ["1e38", "-1e38"]):
            with self.subTest(rates=rates):
                found = self.model(wild_log("noisy.csv", 803, rates * 3))
                self.assertTrue(found is None or None not in (*found["rate_weights"], *found["moment_weights"], found["dt_s"]))


class Readme(unittest.TestCase):
    """The README shows what comes out."""

    def setUp(self):
        self.text = (ROOT / "README.md").read_text(encoding="utf8")

    def test_the_printed_report(self):
        printed = main_once(str(DEMO / "noisy.csv")).stdout.replace(f"{DEMO}/", "demo/")
        self.assertIn(f"```\n{printed}```\n", self.text)

    def test_the_codes(self):
        table = re.search(r"\| code \|.*?\n\n", self.text, re.DOTALL).group(0)
        self.assertEqual(re.findall(r"`([a-z-]+)`", table), [*checks.LOG_CHECKS, *checks.MODEL_CHECKS])

    def test_the_notebook(self):
        names = {}
        for part, count in zip(re.findall(r"```python\n(.*?)```", self.text, re.DOTALL), (5, 4), strict=True):
            lines = part.splitlines()
            with contextlib.chdir(ROOT):
                exec("\n".join(lines), names)
            shown = [line.split("#") for line in lines if "#" in line]
            self.assertEqual(len(shown), count)
            for expression, value in shown:
                self.assertEqual(repr(eval(expression, names)), value.strip())


class Json(unittest.TestCase):
    """The report for programs."""

    def test_noisy_flight(self):
        found = json.loads(command(str(DEMO / "noisy.csv"), "--json").stdout)
        self.assertEqual((found["ending"], found["reason"], found["extended"]), ("done", None, True))
        self.assertEqual((found["model"]["delay_ticks"], found["model"]["delay_half_ticks"]), (3.5, 7))
        self.assertEqual(found["model"]["fit"], "integrated")
        self.assertEqual(found["counts"]["gain_fits"], 2604)
        self.assertEqual(found["config"]["extension"], {"amplitude": 1.0, "duration_s": 8.0})
        self.assertEqual(len(bytes.fromhex(found["report_hex"])), 36)

    def test_the_half_tick_of_a_flight_whose_gain_is_0(self):
        for tick, half_ticks in ((10, 3), (11, 2)):
            config, *flight = gainless_flight(tick)
            words = ("-", "--json", "--no-extension", "--duration", str(config.duration_s))
            found = json.loads(main(*words, given=log_text(*flight)).stdout)["model"]
            self.assertEqual((found["delay_half_ticks"], found["moment_weights"]), (half_ticks, [0.0, 0.0, 0.0]))

    def test_lag_and_push(self):
        found = json.loads(main("-", "--json", given=log_text(*made_flight(3))).stdout)["model"]
        self.assertAlmostEqual(found["lag_s"], 0.02461, delta=1e-4)
        self.assertAlmostEqual(found["accel_radps2"], 75, delta=0.5)

    def test_neither_lag_nor_push(self):
        found = json.loads(main("-", "--json", "--duration", "1", given=UNSETTLED).stdout)
        self.assertEqual((found["ending"], found["model"]["lag_s"], found["model"]["accel_radps2"]), ("done", None, None))

    def test_refused_calls(self):
        found = json.loads(main("-", *M1_OPTIONS, "--json", given=HEADER + "0.25,0,0\n0,0,0\n" + "0.25,0,0\n" * 3).stdout)
        self.assertEqual(found["calls"], {"in_log": 5, "turned_back": 1, "after_end": 0})
        self.assertEqual(found["turned_back"], [{"line": 3, "call": 1, "rule": 6, "why": identify.RULES[6]}])
        self.assertEqual(found["ending"], "unexcited")
        self.assertIsNone(found["model"])

    def test_not_finite_is_null(self):
        from identify.words import finite

        self.assertEqual(finite({"a": [float("nan"), 1.0, float("inf")], "b": "nan"}), {"a": [None, 1.0, None], "b": "nan"})


class Bad(unittest.TestCase):
    """Bad input: one line that names file, line and rule; status 2."""

    def complains(self, *words, given="", expected=(), run=main):
        result = run(*words, given=given)
        self.assertEqual((result.returncode, result.stdout), (2, ""))
        self.assertEqual(result.stderr.count("\n"), 1, result.stderr)
        self.assertTrue(result.stderr.startswith("identify: "))
        for part in expected:
            self.assertIn(part, result.stderr)

    def test_no_such_file(self):
        self.complains("no-such-flight.csv", expected=("no-such-flight.csv", "No such file"), run=command)

    def test_folder(self):
        self.complains(str(DEMO), expected=("directory",))

    def test_empty(self):
        self.complains("-", expected=("standard input:1", "no header line"), run=command)

    def test_header_only(self):
        self.complains("-", given=HEADER + "\n", expected=("standard input: a header line and no line below it",))

    def test_no_call_accepted(self):
        self.complains("-", given=HEADER + "0,0,0\nnan,0,0\n", expected=(
            "standard input:2: none of 2 calls was accepted; the first breaks rule 6, dt not positive and finite. dt is the "
            "time since the last tick, in s.",))
        self.complains("-", given=HEADER + "20000,0,0\n", expected=("rule 7", "it looks like µs. Divide it by 1,000,000."))

    def test_column_missing(self):
        self.complains("-", given="dt,rate\n1,2\n", expected=(
            "standard input:1: no column moment", "split at commas it has 'dt', 'rate'\n"))

    def test_a_header_of_many_columns(self):
        header = ",".join(f"c{number}" for number in range(300))
        self.complains("-", given=f"{header}\n", expected=("no column dt", "'c10', 'c11' and 288 more\n"))

    def test_another_delimiter(self):
        for mark, name in ((";", "semicolons"), ("\t", "tabs"), (" ", "spaces"), ("|", "bars")):
            header = mark.join(("dt", "rate", "moment"))
            self.complains("-", given=f"{header}\n", expected=(f"it has {header!r}: it looks split at {name}, write commas",))

    def test_column_twice(self):
        self.complains("-", given="dt,rate,moment,rate\n", expected=("standard input:1", "2 times the column rate"))

    def test_no_number(self):
        for cell in ("fast", "", "1_0", "0x1p3", "1,5"):
            with self.subTest(cell=cell):
                given = HEADER + "1,2,3\n" + f'1,"{cell}",3\n'
                expected = ("standard input:3", f"rate is '{cell}'", "must be a number, nan or inf")
                self.complains("-", given=given, expected=expected)

    def test_short_line(self):
        self.complains("-", given=HEADER + "1,2\n", expected=("standard input:2", "ends before column moment"))

    def test_not_text(self):
        with tempfile.TemporaryDirectory() as folder:
            path = Path(folder) / "flight.csv"
            path.write_bytes(b"dt,rate,moment\n1,2,3\n\xff\xfe\n")
            self.complains(str(path), expected=("flight.csv:3", "not UTF-8"))

    def test_refused_configurations(self):
        flight = str(DEMO / "clean.csv")
        for rule, options in {
            1: ("--amplitude", "0"),
            2: ("--duration", "-1"),
            3: ("--washout", "nan"),
            4: ("--extension-amplitude", "inf"),
            5: ("--extension-duration", "5"),
        }.items():
            with self.subTest(rule=rule):
                self.complains(flight, *options, expected=(f"refused by rule {rule}: {identify.RULES[rule]}", options[0]))

    def test_a_default_that_was_not_typed(self):
        flight = str(DEMO / "clean.csv")
        self.complains(flight, "--extension-duration", "5", expected=("--extension-duration 5, --duration 6 (the default): ",))
        both = ("--duration", "9", "--extension-duration", "8")
        self.complains(flight, *both, expected=("--extension-duration 8, --duration 9: refused by rule 5",))

    def test_option_without_number(self):
        self.complains("x.csv", "--duration", "long", expected=("--duration", "long"), run=command)

    def test_extension_options_that_exclude_each_other(self):
        self.complains("x.csv", "--no-extension", "--extension-duration", "9", expected=("--no-extension excludes",))


if __name__ == "__main__":
    unittest.main()
