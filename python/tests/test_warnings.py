"""Warnings: each comes where it should, and not on a good flight; --strict and --json."""
import json
import math
import struct
import unittest
from dataclasses import replace

from flights import (
    ALTERED, NOISY, altered_flight, codes, demo_columns, demo_flight, every_third_dropped, flown_flight, identified, scaled,
)
from support import DEMO, command, gainless_flight, identify, log_text, made_flight, main, main_once, wild_log

from identify import checks
from identify.records import Config, Ending
from identify.wire import singles


def text_of(code, flight):
    """The text of the one warning with this code."""
    (found,) = (warned.text for warned in identify.find_warnings(flight) if warned.code == code)
    return found


def noisy_with(dt=None, rate=None, moment=None):
    """The noisy flight with some values replaced, by their places."""
    columns = demo_columns("noisy")
    for column, values in zip(columns, (dt, rate, moment)):
        for place, value in (values or {}).items():
            column[place] = value
    return identified(columns)


class Good(unittest.TestCase):
    """Good flights."""

    def test_the_demo_flights_have_no_warning(self):
        for name in ("clean", "noisy", "saturated"):
            with self.subTest(name=name):
                self.assertEqual(codes(demo_flight(name)), [])

    def test_other_noise_of_the_same_airframe_has_none(self):
        for seed in range(1, 8):
            with self.subTest(seed=seed):
                self.assertEqual(codes(flown_flight(replace(NOISY, seed=seed))), [])

    def test_clean_delays_have_none_but_at_the_ends(self):
        for delay in range(1, 11):
            with self.subTest(delay=delay):
                expected = {1: ["delay-first"], 10: ["delay-last"]}.get(delay, [])
                self.assertEqual(codes(identified(made_flight(delay))), expected)


class Altered(unittest.TestCase):
    """Flights that no fitter should use as they stand."""

    def test_codes(self):
        expected = {
            "lost samples": ["many-held", "gap", "explains-little"],
            "moments of noise": ["delay-first", "no-effect", "no-lag", "explains-little"],
            "one dt of 2 s": ["steady-clock", "explains-little", "delay-off"],
            "one dt of 3000 s": ["steady-clock", "delay-first", "no-lag", "unchecked"],
            "a delay of 60 ms": ["delay-last", "delay-off"],
            "400 Hz": ["window-full"],
            "moment in percent": ["moment-units"],
            "rate in deg/s": ["rate-units"],
        }
        self.assertEqual({name: codes(altered_flight(name)) for name in ALTERED}, expected)


class Units(unittest.TestCase):
    """Units that look like others."""

    def test_dt_in_ms_and_us(self):
        self.assertEqual(
            text_of("dt-units", identified(scaled(dt=1e3))),
            "dt is 4 on most lines, too long for s: it looks like ms. Divide it by 1,000.",
        )
        self.assertIn("looks like µs. Divide it by 1,000,000.", text_of("dt-units", identified(scaled(dt=1e6))))

    def test_rate_in_degrees(self):
        self.assertEqual(
            text_of("rate-units", altered_flight("rate in deg/s")),
            "the rate swings 50 times as far as the offset: it looks like deg/s. Multiply it by 0.0174533.",
        )

    def test_one_wild_rate_is_no_unit(self):
        self.assertNotIn("rate-units", codes(noisy_with(rate={800: 900.0})))

    def test_a_loop_that_rings_at_the_limit_is_no_unit(self):
        ringing = flown_flight(replace(NOISY, p=0.9, delay_s=0.12, lag_s=0.02))
        self.assertIs(ringing.report.ending, Ending.SATURATED)
        times = checks.swing([sample.rate for sample in ringing.samples]) / checks.swing([s.offset for s in ringing.samples])
        self.assertGreater(times, checks.MOST_SWING)
        self.assertEqual(codes(ringing), [])

    def test_moment_in_percent(self):
        flight = altered_flight("moment in percent")
        self.assertEqual(
            text_of("moment-units", flight),
            "1003 of 1500 moments are beyond the limit of 1, the largest 17.5: they look like percent. Divide them by 100.",
        )

    def test_moment_in_some_other_unit(self):
        found = text_of("moment-units", identified(scaled(moment=1e4)))
        self.assertIn("they are no shares of it. Divide them by the limit in their unit.", found)


class Log(unittest.TestCase):
    """What is wrong with a log."""

    def test_wild_rates(self):
        flight = noisy_with(rate={800: math.nan, 801: 1e10, 802: -1e10, 803: math.nan})
        self.assertEqual(
            text_of("wild-rate", flight),
            "2 rates are beyond 1,000 rad/s (lines 803 to 804, the first 1e+10). Write nan for such readings, and they count "
            "as held.",
        )
        self.assertIs(flight.report.ending, Ending.DONE)

    def test_one_wild_moment(self):
        found = text_of("wild-moment", noisy_with(moment={800: -7.0}))
        self.assertIn("1 moment is beyond the limit of 1 (line 802, the first -7).", found)

    def test_a_moment_just_beyond_the_limit_is_none(self):
        self.assertEqual(codes(noisy_with(moment={800: 1.005})), [])

    def test_uneven_dt(self):
        """Off the usual dt, and not off the first."""
        flight = noisy_with(dt={0: 0.0045, 700: 0.0055, 900: 0.0056})
        self.assertEqual(codes(flight), ["uneven-dt"])
        self.assertEqual(
            text_of("uneven-dt", flight),
            "2 of 2000 dt are more than a quarter off the usual 0.004 s, the worst 0.0056 s on line 902: the fits take all "
            "ticks as equally long. Log every tick, with its true dt.",
        )
        self.assertIn("1 of 2000 dt is more", text_of("uneven-dt", noisy_with(dt={0: 0.0045, 700: 0.0055})))

    def test_a_first_dt_that_ends_the_probe(self):
        self.assertIn("1 of 1 dt is more than a quarter off the usual 0.004 s, the worst 3000 s on line 2",
                      text_of("uneven-dt", noisy_with(dt={0: 3000.0})))

    def test_steady_clock_in_place_of_uneven_dt(self):
        flight = noisy_with(dt={700: 0.006, 900: 0.0029})
        self.assertEqual(codes(flight), ["steady-clock"])
        self.assertEqual(
            text_of("steady-clock", flight),
            "2 of 2000 dt are more than a quarter off the first, 0.004 s, from line 702 on, the worst 0.006 s on line 702: the "
            "fits take all ticks as equally long, and a steady probe (--steady) turns such calls back. Log every tick, with "
            "its true dt.",
        )
        self.assertIn("1 of 1501 dt is more", text_of("steady-clock", altered_flight("one dt of 2 s")))

    def test_a_logger_that_drops_every_third_tick(self):
        found = text_of("steady-clock", identified(every_third_dropped(demo_columns("noisy"))))
        self.assertIn("666 of 1334 dt are more than a quarter off the first, 0.004 s, from line 4 on,", found)
        self.assertTrue(found.endswith("Log every tick, with its true dt."), found)

    def test_a_first_dt_that_is_off_itself(self):
        found = text_of("steady-clock", noisy_with(dt={0: 0.008}))
        self.assertIn("1998 of 1999 dt are more than a quarter off the first, 0.008 s, from line 3 on,", found)
        self.assertTrue(found.endswith("Begin the log on a tick of the usual 0.004 s."), found)

    def test_the_first_dt_is_the_first_accepted_one(self):
        self.assertEqual(codes(noisy_with(dt={0: 0.0, 1: 5000.0, 700: 0.0051})), ["steady-clock", "turned-back"])

    def test_the_band_is_rounded_as_a_steady_probe_rounds_it(self):
        """A dt at either end, and the next single beyond it, beside the flights of steady probes."""
        for first in (0.004, 0.0041, 0.1, 1 / 3):
            for share, away in ((0.75, -1), (1.25, 1)):
                end = singles([share * singles([first])[0]])[0]
                word = struct.unpack("I", struct.pack("f", end))[0]
                for dt, refused in ((end, 0), (struct.unpack("f", struct.pack("I", word + away))[0], 1)):
                    columns = ([first, dt, first], [0.0] * 3, [0.0] * 3)
                    with self.subTest(first=first, dt=dt):
                        self.assertEqual(len(checks.unsteady_samples(identified(columns))), refused)
                        self.assertEqual(len(identify.run(Config(), *columns, steady=True).refusals), refused)

    def test_dt_within_a_quarter_is_even(self):
        self.assertEqual(codes(noisy_with(dt={700: 0.005, 900: 0.003})), [])

    def test_turned_back(self):
        self.assertEqual(
            text_of("turned-back", noisy_with(dt={700: 0.0, 900: -1.0})),
            "2 calls were turned back, the first on line 702: the fits take the ticks around a missing one as neighbours. "
            "Mend dt there.",
        )

    def test_turned_back_after_the_end_is_none(self):
        self.assertEqual(codes(noisy_with(dt={2050: 0.0})), [])

    def test_turned_back_at_the_end_of_a_short_log(self):
        dt, rate, moment = (column[:300] for column in demo_columns("noisy"))
        self.assertEqual(codes(identified((dt[:-1] + [0.0], rate, moment))), ["turned-back"])

    def test_many_held(self):
        few, many = (
            noisy_with(rate={place: math.nan for place in range(2000) if place % 150 < ticks}) for ticks in (13, 20)
        )
        self.assertNotIn("many-held", codes(few))
        self.assertIn("287 of 2000 samples (14%) are held, more than a tenth", text_of("many-held", many))

    def test_a_gap(self):
        for ticks, found in ((24, False), (26, True)):
            flight = noisy_with(moment={place: math.nan for place in range(900, 900 + ticks)})
            self.assertEqual("gap" in codes(flight), found)
        self.assertIn("for 0.104 s on end (lines 902 to 927) no sample is whole", text_of("gap", flight))

    def test_a_gap_at_the_start(self):
        flight = noisy_with(rate={place: math.nan for place in range(50)})
        self.assertIn("for 0.2 s on end (lines 2 to 51) no sample is whole", text_of("gap", flight))

    def test_a_full_window(self):
        at_400, at_300 = altered_flight("400 Hz"), flown_flight(replace(NOISY, tick_s=1 / 300, dropouts=()))
        self.assertEqual(
            text_of("window-full", at_400),
            "the window was full at 5.12 s, before the extension began at 6 s: what came later is in no fit. Fly at 255 "
            "ticks a second or fewer.",
        )
        self.assertIn("the window was full at 6.827 s, before the end at 8 s", text_of("window-full", at_300))


class Models(unittest.TestCase):
    """What is wrong with a model."""

    def test_few_rows(self):
        found = text_of("few-rows", identified(made_flight(3, ticks=200), Config(duration_s=0.5)))
        self.assertEqual(found, "only 114 rows to fit, fewer than 120. Fly longer, or with shorter ticks.")
        self.assertNotIn("few-rows", codes(identified(made_flight(3, ticks=200), Config(duration_s=0.6))))

    def test_the_ends_of_the_search(self):
        self.assertIn("1 tick is the shortest delay", text_of("delay-first", identified(made_flight(1))))
        self.assertIn("10 ticks is the longest delay", text_of("delay-last", identified(made_flight(10))))
        self.assertIn("10.5 ticks is the longest delay", text_of("delay-last", altered_flight("a delay of 60 ms")))

    def test_ten_ticks_are_not_the_last_of_the_integrated_fit(self):
        flight = flown_flight(replace(NOISY, delay_s=0.034))
        self.assertEqual((flight.report.model.delay_ticks, flight.report.model.integrated), (10.0, True))
        self.assertNotIn("delay-last", codes(flight))

    def test_no_effect(self):
        below = altered_flight("moments of noise")
        self.assertIn("the moment weights sum to -0.0446, not above 0", text_of("no-effect", below))
        config, *columns = gainless_flight(5)
        self.assertIn("sum to 0, not above 0", text_of("no-effect", identified(tuple(columns), config)))

    def test_no_settling(self):
        flight = identified(made_flight(3, ticks=300, pole=1.01), Config(duration_s=1.0))
        self.assertIn("the pole is not below 1", text_of("no-settling", flight))

    def test_no_lag(self):
        self.assertIn("the fit sees no lag", text_of("no-lag", identified(made_flight(3, pole=-0.2))))

    def test_unchecked(self):
        found = text_of("unchecked", altered_flight("one dt of 3000 s"))
        self.assertIn("no stretch of 0.2 s has enough good samples", found)

    def test_explains_little(self):
        found = text_of("explains-little", altered_flight("lost samples"))
        self.assertIn("the model explains 96.0% of the rate's change over 0.2 s, and the gyro's noise 1.0%: too much is "
                      "left", found)

    def test_delay_off(self):
        found = text_of("delay-off", altered_flight("a delay of 60 ms"))
        self.assertIn("the model's response comes too early: two ticks later it explains 98.3% of the rate's change, hardly "
                      "less than 98.8%.", found)
        found = text_of("delay-off", altered_flight("one dt of 2 s"))
        self.assertIn("the model's response comes too late: two ticks earlier it explains 87.4% of the rate's change, more "
                      "than 86.6%.", found)

    def test_a_quiet_window_with_some_noise(self):
        """The fit on the recorded rates takes gyro noise of 0.01 rad/s for a delay of 6 ticks; the flown delay is 9 ms."""
        flight = flown_flight(replace(NOISY, noise=0.01))
        self.assertEqual((flight.report.model.delay_ticks, flight.report.model.integrated), (6.0, False))
        self.assertEqual(codes(flight), ["no-lag", "explains-little", "delay-off"])


class Command(unittest.TestCase):
    """Warnings as the command gives them."""

    def test_one_line_each_before_the_numbers(self):
        result = main("-", given=log_text(*ALTERED["a delay of 60 ms"]()))
        self.assertEqual((result.returncode, result.stderr), (0, ""))
        names = [line.split()[0] for line in result.stdout.splitlines()[1:]]
        self.assertEqual(names[:4], ["warning", "warning", "delay", "lag"])

    def test_strict(self):
        lines = (DEMO / "noisy.csv").read_text().splitlines(keepends=True)
        for given, status, run in (
            ("".join(lines), 0, command),
            (log_text(*ALTERED["rate in deg/s"]()), 1, command),
            ((DEMO / "saturated.csv").read_text(), 1, main),
            ("dt,rate,moment\n" + "0.1,0,0\n" * 80, 1, main),
            ("".join(lines[:300]), 1, main),
        ):
            with self.subTest(status=status):
                plain, strict = main("-", given=given), run("-", "--strict", given=given)
                self.assertEqual((plain.returncode, plain.stderr), (0, ""))
                self.assertEqual((strict.returncode, strict.stderr), (status, ""))
                self.assertEqual(plain.stdout, strict.stdout)

    def test_json(self):
        found = json.loads(main("-", "--json", given=log_text(*ALTERED["lost samples"]())).stdout)
        self.assertEqual([warned["code"] for warned in found["warnings"]], ["many-held", "gap", "explains-little"])
        self.assertTrue(all(warned["text"].endswith(".") for warned in found["warnings"]))
        quality = found["quality"]
        self.assertEqual((quality["good"], quality["horizon_s"], quality["stretches"]), (False, 0.2, 980))
        self.assertAlmostEqual(quality["explained"] + quality["noise"] + quality["unexplained"], 1.0)
        self.assertAlmostEqual(quality["explained"], 0.96, delta=0.005)
        self.assertAlmostEqual(quality["noise"], 0.01, delta=0.005)
        self.assertGreater(quality["explained"], max(quality["earlier"], quality["later"]))

    def test_json_of_a_good_and_of_no_model(self):
        good, none = (json.loads(main_once(str(DEMO / f"{name}.csv"), "--json").stdout) for name in ("noisy", "saturated"))
        self.assertEqual((good["warnings"], good["window_full_s"], good["quality"]["good"]), ([], None, True))
        self.assertEqual((none["warnings"], none["quality"]), ([], None))

    def test_a_wild_window_gives_up_and_says_why(self):
        found = json.loads(main("-", "--json", given=wild_log("noisy.csv", 803, ["3e38", "-3e38"])).stdout)
        self.assertEqual([warned["code"] for warned in found["warnings"]], ["wild-rate"])


if __name__ == "__main__":
    unittest.main()
