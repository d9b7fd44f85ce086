"""Pictures, where matplotlib is installed; and what is said where it is not."""
import functools
import importlib.util
import os
import random
import sys
import tempfile
import unittest
from pathlib import Path
from unittest import mock

from flights import ALTERED, altered_flight, demo_columns, demo_flight, identified, odd_columns
from support import DEMO, command, identify, main, render

from identify import picture
from identify.words import quality_words

HAS_MATPLOTLIB = importlib.util.find_spec("matplotlib") is not None
FLIGHT = str(DEMO / "clean.csv")


def paint(figure, flight):
    """Draws a flight on a figure."""
    picture.draw_panels(figure, flight, identify.find_warnings(flight))


def panels(flight):
    """The three panels of a flight."""
    from matplotlib.figure import Figure

    figure = Figure()
    paint(figure, flight)
    return figure.axes


@functools.cache
def demo_panels(name):
    """The panels of a demo flight, drawn once."""
    return panels(demo_flight(name))


def blank(figure, flight, found):
    """Draws nothing, for tests of what becomes of a picture."""


@unittest.skipUnless(HAS_MATPLOTLIB, "matplotlib is not installed (Debian package python3-matplotlib)")
@mock.patch.multiple(picture, WIDTH=4, HEIGHT=3)
class Pictures(unittest.TestCase):
    """What is drawn: on small figures, but by the command itself."""

    def labels(self, panel):
        """The words of a panel's legend."""
        return [text.get_text() for text in panel.get_legend().get_texts()]

    def test_each_kind_and_ending(self):
        starts = {".png": b"\x89PNG", ".svg": b"<?xml"}
        with tempfile.TemporaryDirectory() as folder:
            for name, suffix, run in (
                ("clean", ".png", command), ("noisy", ".svg", command), ("noisy", ".png", main), ("saturated", ".svg", main)
            ):
                with self.subTest(name=name, suffix=suffix):
                    path = Path(folder) / (name + suffix)
                    result = run(str(DEMO / f"{name}.csv"), "--plot", str(path))
                    self.assertEqual((result.returncode, result.stderr), (0, ""))
                    self.assertTrue(path.read_bytes().startswith(starts[suffix]))

    def test_each_altered_flight(self):
        for name in ALTERED:
            with self.subTest(name=name):
                render(lambda figure, name=name: paint(figure, altered_flight(name)))

    def test_short_and_wild_logs(self):
        dt, rate, moment = demo_columns("noisy")
        for change in ({0: 3e38, 1: -3e38}, {800: float("nan"), 801: 1e10, 802: float("nan")}):
            for place, value in change.items():
                rate[place] = value
            for length in (1, 2, len(dt)):
                panels(identified((dt[:length], rate[:length], moment[:length])))

    def test_odd_logs(self):
        draw = random.Random(1)
        for _ in range(15):
            flight = identified(*odd_columns(draw))
            if flight.report.ticks:
                render(lambda figure, flight=flight: paint(figure, flight))

    def test_units_on_each_axis(self):
        drawn = demo_panels("noisy")
        self.assertEqual([panel.get_ylabel() for panel in drawn], ["rate, rad/s", "moment, 1 is the limit", "offset, rad/s"])
        self.assertEqual(drawn[2].get_xlabel(), "time since the excitation began, s")

    def test_the_model_is_drawn_by_itself(self):
        panel = demo_panels("clean")[0]
        (line,) = (line for line in panel.get_lines() if line.get_label().startswith("model, run by itself for 0.2 s"))
        flight = demo_flight("clean")
        times, rates = next(identify.simulated_stretches(flight.report.model, flight.samples, flight.quality))
        self.assertEqual(list(line.get_xdata()[:51]), times)
        self.assertEqual(list(line.get_ydata()[:51]), rates)
        self.assertNotIn("model", " ".join(self.labels(demo_panels("saturated")[0])))

    def test_the_limit_and_the_share_at_it(self):
        panel = demo_panels("saturated")[1]
        limits = sorted(round(float(line.get_ydata()[0]), 3) for line in panel.get_lines() if len(line.get_ydata()) == 2)
        self.assertEqual(limits, [-0.999, 0.999])
        self.assertEqual(self.labels(panel), ["limit, ±0.999: 51.6% of the window at it"])

    def test_held_stretches_are_shaded(self):
        panel = panels(altered_flight("lost samples"))[0]
        boxes = [span.get_extents().transformed(panel.transData.inverted()) for span in panel.patches]
        edges = sorted((round(float(box.x0), 3), round(float(box.x1), 3)) for box in boxes)
        self.assertEqual(edges, [(1.2, 4.8), (4.96, 4.964)])
        self.assertEqual(self.labels(panel).count("held"), 1)

    def test_the_extension_is_marked_where_it_was_taken(self):
        self.assertIn("extension begins", self.labels(demo_panels("noisy")[0]))
        dt, rate, moment = demo_columns("clean")
        dt[-60] = 1.0
        panel = panels(identified((dt, rate, moment)))[0]
        self.assertGreater(panel.get_lines()[0].get_xdata()[-1], 6.5)
        self.assertNotIn("extension begins", self.labels(panel))

    def test_where_storing_stopped(self):
        panel = panels(altered_flight("400 Hz"))[0]
        self.assertLessEqual({"extension begins", "window full"}, set(self.labels(panel)))
        marks = {line.get_label(): float(line.get_xdata()[0]) for line in panel.get_lines()}
        self.assertAlmostEqual(marks["window full"], 5.12, places=6)
        stored, later = panel.get_lines()[:2]
        self.assertEqual((len(stored.get_xdata()), len(later.get_xdata())), (2048, 1152))
        self.assertLess(later.get_alpha(), 0.5)

    def test_the_quality_stands_in_the_title(self):
        self.assertIn(quality_words(demo_flight("noisy").quality), demo_panels("noisy")[0].get_title(loc="left"))

    def test_so_do_the_warnings(self):
        for drawn, codes in ((demo_panels("noisy"), None),
                             (panels(altered_flight("a delay of 60 ms")), "delay-last, delay-off"),
                             (panels(altered_flight("moment in percent")), "moment-units")):
            heading = drawn[0].get_title(loc="left")
            self.assertEqual(heading.partition("\nwarnings: ")[2] or None, codes)

    def test_odd_file_names(self):
        odd = os.fsdecode(b"a $b$ _{c \xff\n\xe2\x9c\x88.csv")
        self.assertEqual(picture.shown(odd), "a $b$ _{c \\xff\\n\u2708.csv")
        with tempfile.TemporaryDirectory() as folder:
            log, path = Path(folder) / odd, Path(folder) / "picture.svg"
            log.write_bytes((DEMO / "clean.csv").read_bytes())
            result = main(str(log), "--plot", str(path))
            self.assertEqual((result.returncode, result.stderr), (0, ""))
            self.assertTrue(path.exists())

    def test_a_dollar_begins_no_formula(self):
        panel = demo_panels("clean")[0]
        (heading,) = panel.findobj(lambda part: getattr(part, "get_text", str)() == panel.get_title(loc="left"))
        self.assertFalse(heading.get_parse_math())

    @mock.patch.object(picture, "draw_panels", blank)
    def test_a_path_that_cannot_be_written(self):
        for path, why in (("/nonexistent/x.png", "No such file"), ("/dev/full/x.png", "Not a directory")):
            result = main(FLIGHT, "--plot", path)
            self.assertEqual(result.returncode, 2)
            self.assertIn("delay           3 ticks", result.stdout)
            self.assertIn(f"identify: --plot {path}: {why}", result.stderr)
            self.assertEqual(result.stderr.count("\n"), 1)

    @mock.patch.object(picture, "draw_panels", blank)
    def test_a_full_disk(self):
        with tempfile.TemporaryDirectory() as folder:
            path = Path(folder) / "full.png"
            path.symlink_to("/dev/full")
            result = main(FLIGHT, "--plot", str(path))
        self.assertEqual(result.returncode, 2)
        self.assertIn("delay           3 ticks", result.stdout)
        self.assertIn("No space left on device", result.stderr)


class Without(unittest.TestCase):
    """No picture: the answer is printed all the same, with a line and status 2."""

    def complaint(self, path="/nonexistent"):
        with mock.patch("importlib.util.find_spec", return_value=None), mock.patch.dict(os.environ, {"PATH": path}):
            result = main(FLIGHT, "--plot", "x.png")
        self.assertEqual(result.returncode, 2)
        self.assertIn("delay           3 ticks", result.stdout)
        self.assertEqual(result.stderr.count("\n"), 1)
        self.assertIn(f"--plot needs matplotlib, which {sys.executable} does not have; ", result.stderr)
        return result.stderr

    def test_no_matplotlib(self):
        with mock.patch.object(picture, "SYSTEM_PYTHON", "/nonexistent/python3"):
            self.assertIn("apt-get install python3-matplotlib", self.complaint())

    def test_an_interpreter_that_has_it(self):
        with tempfile.TemporaryDirectory() as folder:
            for name, status in (("none", 1), ("has", 0)):
                python = Path(folder) / name / "python3"
                python.parent.mkdir()
                python.write_text(f"#!/bin/sh\nexit {status}\n")
                python.chmod(0o755)
            said = self.complaint(os.pathsep.join(str(Path(folder) / name) for name in ("none", "has")))
            self.assertIn(f"{folder}/has/python3 has it: run the command as {folder}/has/python3 identify", said)

    def test_a_matplotlib_that_does_not_load(self):
        with mock.patch("importlib.util.find_spec", return_value=True), mock.patch.dict(sys.modules, {"matplotlib": None}):
            result = main(FLIGHT, "--plot", "x.png")
        self.assertEqual(result.returncode, 2)
        self.assertIn("delay           3 ticks", result.stdout)
        self.assertIn(f"the matplotlib of {sys.executable} does not load", result.stderr)

    def test_a_name_that_is_no_picture_s_is_known_before(self):
        result = main(FLIGHT, "--plot", "x.pdf")
        self.assertEqual((result.returncode, result.stdout), (2, ""))
        self.assertIn("x.pdf: the name must end in .png or .svg", result.stderr)


if __name__ == "__main__":
    unittest.main()
