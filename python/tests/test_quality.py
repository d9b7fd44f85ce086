"""How well a model holds: the figure that tells a good fit from nonsense."""
import math
import random
import unittest
from dataclasses import replace

from flights import ALTERED, NOISY, altered_flight, count_trials, demo_columns, demo_flight, flown_flight, identified
from support import MOMENT_WEIGHTS, RATE_WEIGHTS, identify, made_flight

from identify import quality
from identify.records import Config, Ending


def true_model(delay, dt_s=0.004):
    """The model of `made_flight`."""
    return identify.Model(2 * delay, RATE_WEIGHTS, MOMENT_WEIGHTS, dt_s, False)


def made_samples(delay, **named):
    """The window of `made_flight`."""
    dt, rate, moment = made_flight(delay, **named)
    return identify.stored_window(dt, rate, moment, identify.run(Config(), dt, rate, moment))


class Separates(unittest.TestCase):
    """Good flights from altered ones."""

    def test_the_demo_flights_are_good(self):
        for name, least in (("clean", 0.9999), ("noisy", 0.98)):
            with self.subTest(name=name):
                found = demo_flight(name).quality
                self.assertTrue(found.is_good)
                self.assertGreater(found.explained, least)
                self.assertLess(abs(found.unexplained), 0.002)

    def test_other_noise_of_the_same_airframe_is_good(self):
        for seed in range(1, 8):
            with self.subTest(seed=seed):
                self.assertTrue(flown_flight(replace(NOISY, seed=seed)).quality.is_good)

    def test_a_flight_that_lost_single_samples_is_good(self):
        draw = random.Random(3)
        dt, rate, moment = demo_columns("noisy")
        lost = identified((dt, [math.nan if draw.random() < 0.05 else value for value in rate], moment))
        self.assertGreater(lost.report.held, 80)
        self.assertTrue(lost.quality.is_good)

    def test_each_altered_flight(self):
        """By the figure: too little is explained, or the delay is off, or nothing can be tried. A share does not change
        with a unit, nor does a full window make a fit wrong: these are told by a warning, and the percents by the abort."""
        for name in ALTERED:
            with self.subTest(name=name):
                flight = altered_flight(name)
                if name == "moment in percent":
                    self.assertIs(flight.report.ending, Ending.SATURATED)
                elif name == "one dt of 3000 s":
                    self.assertIsNone(flight.quality)
                elif name in ("400 Hz", "rate in deg/s"):
                    self.assertTrue(flight.quality.is_good)
                else:
                    self.assertFalse(flight.quality.is_good)
                self.assertTrue(identify.find_warnings(flight))

    def test_how_each_altered_flight_shows(self):
        found = {name: altered_flight(name).quality for name in (
            "lost samples", "moments of noise", "one dt of 2 s", "a delay of 60 ms")}
        self.assertGreater(found["lost samples"].unexplained, 0.025)
        self.assertLess(found["moments of noise"].explained, 0.2)
        self.assertGreater(found["one dt of 2 s"].unexplained, 0.08)
        self.assertEqual(found["one dt of 2 s"].delay_off, -1)
        self.assertEqual(found["a delay of 60 ms"].delay_off, 1)

    def test_many_airframes(self):
        counts = count_trials(60)
        right, wrong = counts[True, False] + counts[True, True], counts[False, False] + counts[False, True]
        self.assertGreater(min(right, wrong), 15)
        self.assertLess(counts[True, True], 0.25 * right)
        self.assertGreater(counts[False, True], 0.8 * wrong)

    def test_gusts(self):
        """Calm to stormy: the delay goes wrong where more than the figure's bar is left unexplained."""
        for gusts, good in ((0.0, True), (0.1, True), (1.0, False), (2.0, False)):
            for seed in range(4):
                with self.subTest(gusts=gusts, seed=seed):
                    flight = flown_flight(replace(NOISY, gusts=gusts, seed=seed))
                    self.assertEqual(flight.quality.is_good, good)
                    self.assertEqual(abs(flight.report.model.delay_ticks - 3.5) <= 1.5, good)


class WrongDelay(unittest.TestCase):
    """The same model with another delay."""

    def test_the_true_delay_is_best(self):
        for delay in (1, 4, 10):
            with self.subTest(delay=delay):
                found = identify.fit_quality(true_model(delay), made_samples(delay))
                self.assertGreater(found.explained, 0.9999)
                self.assertLess(max(found.earlier, found.later), found.explained - 0.001)
                self.assertEqual(found.delay_off, 0)

    def test_four_ticks_off(self):
        samples = made_samples(6)
        for delay, side in ((2, 1), (10, -1)):
            with self.subTest(delay=delay):
                found = identify.fit_quality(true_model(delay), samples)
                self.assertEqual(found.delay_off, side)
                self.assertFalse(found.is_good)

    def test_the_side_by_the_costs(self):
        for earlier, later, side in (
            (0.97, 0.97, 0), (0.97, 0.974, 0), (0.97, 0.986, 1), (0.986, 0.97, -1), (0.97, 0.99, 1), (0.99, 0.985, -1),
            (0.985, 0.99, 1), (math.nan, 0.97, 0),
        ):
            with self.subTest(earlier=earlier, later=later):
                self.assertEqual(identify.Quality(0.98, earlier, later, 0.01, 0.0, 100).delay_off, side)


class Figures(unittest.TestCase):
    """What the figures stand for."""

    def test_bars(self):
        for explained, noise, little in (
            (0.98, 0.01, False), (0.97, 0.0, True), (0.6, 0.39, False), (0.49, 0.51, True), (math.nan, 0.0, True),
            (-math.inf, 0.0, True),
        ):
            with self.subTest(explained=explained, noise=noise):
                self.assertEqual(identify.Quality(explained, 0.0, 0.0, noise, 0.0, 100).explains_little, little)

    def test_the_noise_is_the_gyro_s(self):
        readings = quality.on_model_clock(demo_flight("noisy").samples, 0.004)
        self.assertAlmostEqual(math.sqrt(quality.noise_variance(readings)), NOISY.noise, delta=0.002)
        self.assertEqual(quality.noise_variance(readings[:2]), 0.0)

    def test_a_trim_is_drift_and_costs_nothing(self):
        found = demo_flight("clean").quality
        # The clean flight has a constant moment of 0.01 from outside, and its push is 40.
        self.assertAlmostEqual(found.drift_radps, 40 * 0.01 * quality.HORIZON_S, delta=0.001)

    def test_a_rate_that_stands_still_has_no_figure(self):
        samples = [identify.Sample(0.004 * k, 0.0, math.sin(k), 0.0, False) for k in range(200)]
        self.assertIsNone(identify.fit_quality(true_model(3), samples))

    def test_no_stretch(self):
        samples = made_samples(3)
        for dt_s in (0.15, 1e-30, 0.0, math.nan):
            with self.subTest(dt_s=dt_s):
                self.assertIsNone(identify.fit_quality(true_model(3, dt_s), samples))
        self.assertIsNone(identify.fit_quality(true_model(3), samples[:40]))
        self.assertIsNone(identify.fit_quality(true_model(3), [replace(sample, held=True) for sample in samples]))

    def test_a_model_that_runs_away_explains_nothing(self):
        samples = made_samples(3)
        for weights in ((4.0, -3.0), (1e30, -1e30), (math.nan, 0.0), (math.inf, -math.inf)):
            with self.subTest(weights=weights):
                model = replace(true_model(3), rate_weights=weights)
                self.assertTrue(identify.fit_quality(model, samples).explains_little)


class Clock(unittest.TestCase):
    """The window on the model's clock."""

    def test_even_ticks_are_the_samples(self):
        samples = demo_flight("noisy").samples
        readings = quality.on_model_clock(samples, 0.00400007)
        self.assertEqual([(r.rate, r.moment, r.good) for r in readings], [(s.rate, s.moment, not s.held) for s in samples])

    def test_a_gap_is_not_good(self):
        times = [0.125, 0.25, 0.375, 1.125, 1.25]
        samples = [identify.Sample(time_s, float(k), 0.0, 0.0, False) for k, time_s in enumerate(times)]
        readings = quality.on_model_clock(samples, 0.125)
        self.assertEqual([reading.rate for reading in readings], [0, 1, 2, 2, 2, 3, 3, 3, 3, 4])
        self.assertEqual([reading.good for reading in readings], [True] * 4 + [False] * 3 + [True] * 3)


class Simulated(unittest.TestCase):
    """The model by itself."""

    def test_the_equation(self):
        """A stretch from tick 3 with the weights of the model, against the equation written out."""
        model = identify.Model(5, (1.5, -0.4), (0.3, 0.2, 0.1), 0.1, True)
        rates, moments = [0.0, 1.0, 2.0, 3.0, 0.0, 0.0], [1.0, 2.0, 3.0, 4.0, 5.0, 6.0]
        readings = [quality.Reading(rate, moment, True) for rate, moment in zip(rates, moments)]
        simulation = quality.Simulation(model, readings)
        change = simulation.changes[3]
        before = rates[3] - change
        # d is 2, so u[k-2] is the moment of sample k-1.
        first = 1.5 * rates[3] - 0.4 * before + 0.3 * moments[3] + 0.2 * moments[2] + 0.1 * moments[1]
        second = 1.5 * first - 0.4 * rates[3] + 0.3 * moments[4] + 0.2 * moments[3] + 0.1 * moments[2]
        for found, expected in zip(simulation.rates(3, 2), (rates[3], first, second), strict=True):
            self.assertAlmostEqual(found, expected, places=12)

    def test_clean_flight_is_followed(self):
        flight = demo_flight("clean")
        stretches = list(identify.simulated_stretches(flight.report.model, flight.samples, flight.quality))
        self.assertEqual(len(stretches), 29)
        by_time = {round(sample.time_s, 3): sample.rate for sample in flight.samples}
        for times, rates in stretches:
            self.assertEqual(len(times), 51)
            for time_s, rate in zip(times, rates):
                self.assertAlmostEqual(rate, by_time[round(time_s, 3)], delta=0.001)

    def test_no_stretch_begins_in_a_gap(self):
        flight = altered_flight("lost samples")
        stretches = identify.simulated_stretches(flight.report.model, flight.samples, flight.quality)
        self.assertTrue(all(times[-1] < 1.3 or times[0] > 4.7 for times, _ in stretches))


if __name__ == "__main__":
    unittest.main()
