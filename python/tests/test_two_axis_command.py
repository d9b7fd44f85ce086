"""The command ./identify over a log of two axes: what it prints, its exit status, its messages; and --columns."""
import functools
import importlib.util
import json
import os
import random
import subprocess
import tempfile
import unittest
from pathlib import Path
from unittest import mock

from flights import (
    ALTERED, ROLL_PITCH, ROLL_PITCH_COLUMNS, TWO_AXES, demo_columns, flown, lengthened, make_flights, odd_column, odd_columns,
    paired, roll_pitch,
)
from support import DEMO, ROOT, command, identify, log_text, made_flight, main, main_once, render

from identify import picture, two_axis_words
from identify.records import Config, Ending

COLUMNS = ",".join(f"{key}={name}" for key, name in ROLL_PITCH_COLUMNS.items())
HAS_MATPLOTLIB = importlib.util.find_spec("matplotlib") is not None
ONE_AXIS_ALONE = "unsigned identify_byte_run(void) { return 0; }\nunsigned identify_plain_units(void) { return 0; }\n"


def two_axis_text(columns):
    """A flight of two axes as a log with the usual names."""
    return log_text(*columns, names=TWO_AXES)


def demo(*words, run=main_once):
    """The command over the demo's flight."""
    return run(str(ROLL_PITCH), "--columns", COLUMNS, *words)


def blocks(text):
    """The lines of a report: what both axes share, and each axis."""
    found = []
    for line in text.splitlines():
        if not line.startswith(" "):
            found.append([])
        found[-1].append(line)
    return found


def names(block):
    """The names at the lines of a block."""
    return [line.split()[0] for line in block[1:]]


def both_noisy():
    """Two noisy axes."""
    dt, rate, moment = demo_columns("noisy")
    return paired((dt, rate, moment), (dt, [-x for x in rate], [-x for x in moment]))


class Words(unittest.TestCase):
    """The report for a person."""

    def shown(self, columns, *words):
        """The blocks of a report."""
        result = main_once("-", *words, given=two_axis_text(columns))
        self.assertEqual((result.returncode, result.stderr), (0, ""))
        return blocks(result.stdout)

    def test_the_readmes_report(self):
        text = (ROOT / "README.md").read_text(encoding="utf8")
        result = demo(run=command)
        self.assertEqual((result.returncode, result.stderr), (0, ""))
        self.assertIn(f"```\n{result.stdout.replace(f'{DEMO}/', 'demo/')}```\n", text)
        self.assertIn(f"./identify demo/roll_pitch.csv --columns {COLUMNS}\n", text)
        self.assertIn(f"./identify demo/roll_pitch.csv --columns {COLUMNS}\n", (DEMO / "README.md").read_text(encoding="utf8"))

    def test_each_axis_has_the_lines_of_one(self):
        shared, roll, pitch = blocks(demo().stdout)
        alone = blocks(main_once(str(DEMO / "noisy.csv")).stdout)[0]
        self.assertEqual(names(shared), ["calls", "counts"])
        self.assertEqual(names(roll), names(alone)[:-1])
        self.assertEqual(names(pitch), names(alone)[:-1])

    def test_the_usual_names_need_no_option(self):
        shared, first, second = self.shown(roll_pitch())
        self.assertEqual(shared[0], "standard input: both axes done, extended from 6 s to 8 s for axis 2, whose window was "
                         "noisy")
        self.assertEqual(first[0], "axis 1: done, by the fit on the recorded rates (a quiet window)")
        self.assertEqual(second[0], "axis 2: done, by the integrated fit (a noisy window)")
        self.assertEqual((first[1:], second[1:]), tuple(block[1:] for block in blocks(demo().stdout)[1:]))

    def test_who_asked(self):
        self.assertIn("extended from 6 s to 8 s for both, whose windows were noisy", self.shown(both_noisy())[0][0])
        dt, *readings = roll_pitch()
        self.assertIn("for axis 1, whose window was noisy", self.shown((dt, *readings[2:], *readings[:2]))[0][0])
        self.assertEqual(self.shown(roll_pitch(), "--no-extension")[0][0], "standard input: both axes done")
        self.assertEqual(self.shown(paired(demo_columns("clean"), made_flight(4)))[0][0], "standard input: both axes done")

    def test_one_without_a_model(self):
        saturated = lengthened(demo_columns("saturated"), 2100)
        shared, first, second = self.shown(paired(demo_columns("noisy"), saturated))
        self.assertIn("axis 1 done, axis 2 saturated, extended from 6 s to 8 s for axis 1, whose window was noisy", shared[0])
        self.assertIn("delay", names(first))
        self.assertEqual(second[0], "axis 2: gave up: saturated")
        self.assertIn("moments (", second[1])
        self.assertEqual(names(second)[-1], "counts")

    def test_a_log_that_ends_early(self):
        for ticks, why in ((300, "the log ends after 1.2 s, before the duration of 6 s"),
                           (1700, "the window was noisy at 6 s and goes on to 8 s")):
            shared, first, second = self.shown(tuple(column[:ticks] for column in roll_pitch()))
            self.assertIn("both axes still running", shared[0])
            self.assertIn(why, " ".join(" ".join(shared).split()))
            self.assertEqual((first[0], names(first)), ("axis 1: still running, no model", ["counts"]))
            self.assertEqual((second[0], names(second)), ("axis 2: still running, no model", ["counts"]))

    def test_refused_calls_stand_once(self):
        dt, *readings = roll_pitch()
        dt[700], dt[2050] = 0.0, 5000.0
        shared, first, second = self.shown((dt, *readings))
        text = "\n".join(shared)
        self.assertIn("2100 in the log, 1 turned back, 99 after the end, unused", text)
        self.assertIn("rule 6          dt not positive and finite: 1 turned back (line 702)", text)
        self.assertIn("warning         1 call was turned back, the first on line 702", text)
        for block in (first, second):
            self.assertNotIn("turned back", "\n".join(block))

    def test_a_warning_stands_at_its_axis(self):
        dt, *readings = roll_pitch()
        shared, first, second = self.shown((dt, *readings[:2], [57.3 * rate for rate in readings[2]], readings[3]))
        self.assertEqual([names(block).count("warning") for block in (shared, first, second)], [0, 0, 1])
        self.assertIn("it looks like deg/s", second[1])

    def test_a_warning_about_the_clock_stands_once(self):
        dt, *readings = roll_pitch()
        dt[700] = 0.02
        shared, first, second = self.shown((dt, *readings))
        self.assertEqual([names(block).count("warning") for block in (shared, first, second)], [1, 0, 0])
        self.assertIn("1 of 1996 dt is more than a quarter off the first", shared[1])

    def test_full_windows(self):
        fast = [make_flights.Flight("axis", seed=seed, noise=0.03, p=0.3, tick_s=0.0025) for seed in (1, 2)]
        shared, first, second = self.shown(paired(flown(fast[0]), flown(fast[1])))
        self.assertIn("for both, whose windows were noisy, windows full at 5.12 s", shared[0])
        self.assertIn("warning         the window was full at 5.12 s", "\n".join(shared))
        self.assertNotIn("full", "\n".join((*first, *second)))


class Json(unittest.TestCase):
    """The report for programs."""

    def test_named_fields(self):
        found = json.loads(demo("--json").stdout)
        report = identify.run_two_axis(Config(), *roll_pitch())
        self.assertEqual((found["running"], found["reason"], found["warnings"]), (False, None, []))
        self.assertEqual((found["extended"], found["extension_asked_by"]), (True, ["pitch_rate"]))
        self.assertEqual([axis["axis"] for axis in found["axes"]], ["roll_rate", "pitch_rate"])
        self.assertEqual([axis["model"]["delay_ticks"] for axis in found["axes"]], [2.0, 4.5])
        self.assertEqual([axis["model"]["fit"] for axis in found["axes"]], ["recorded", "integrated"])
        self.assertEqual([axis["report_hex"] for axis in found["axes"]], [axis.raw.hex() for axis in report.axes])
        self.assertEqual(found["report_hex"], report.raw.hex())
        self.assertEqual(found["sums"], {"ticks": 4000, "rows": 3978})
        self.assertEqual(found["calls"], {"in_log": 2100, "turned_back": 0, "after_end": 100})
        self.assertTrue(all(axis["quality"]["good"] for axis in found["axes"]))

    def test_an_axis_has_the_fields_of_one_but_for_what_both_share(self):
        alone = json.loads(main_once(str(DEMO / "noisy.csv"), "--json").stdout)
        found = json.loads(demo("--json").stdout)
        axis = found["axes"][0]
        self.assertEqual(set(axis) - set(alone), {"axis"})
        self.assertEqual(set(alone) - set(axis) - set(found), set())

    def test_running_and_turned_back(self):
        dt, *readings = (column[:300] for column in roll_pitch())
        found = json.loads(main("-", "--json", given=two_axis_text(([0.0, *dt[1:]], *readings))).stdout)
        self.assertEqual((found["running"], found["extended"], found["extension_asked_by"]), (True, False, []))
        self.assertIn("the log ends after", found["reason"])
        self.assertEqual([axis["reason"] for axis in found["axes"]], [None, None])
        self.assertEqual([refused["line"] for refused in found["turned_back"]], [2])
        self.assertEqual([warned["code"] for warned in found["warnings"]], ["turned-back"])
        self.assertEqual([axis["warnings"] for axis in found["axes"]], [[], []])
        self.assertNotIn("turned_back", found["axes"][0])

    def test_warnings_by_axis(self):
        columns = paired(ALTERED["a delay of 60 ms"](), demo_columns("noisy"))
        found = json.loads(main("-", "--json", given=two_axis_text(columns)).stdout)
        codes = [[warned["code"] for warned in axis["warnings"]] for axis in found["axes"]]
        self.assertEqual(codes, [["delay-last", "delay-off"], []])


class Strict(unittest.TestCase):
    """--strict is 1 unless both axes have a model without a warning."""

    def check(self, columns, status, run=main):
        given = two_axis_text(columns)
        plain, strict = main_once("-", given=given), run("-", "--strict", given=given)
        self.assertEqual((plain.returncode, strict.returncode), (0, status))
        self.assertEqual(plain.stdout, strict.stdout)

    def test_both_good(self):
        self.assertEqual(demo("--strict", run=command).returncode, 0)
        self.check(both_noisy(), 0)

    def test_one_without_a_model(self):
        saturated = lengthened(demo_columns("saturated"), 2100)
        self.check(paired(demo_columns("noisy"), saturated), 1, run=command)
        self.check(paired(saturated, demo_columns("noisy")), 1)

    def test_one_with_a_warning(self):
        self.check(paired(ALTERED["a delay of 60 ms"](), demo_columns("noisy")), 1)
        self.check(paired(demo_columns("noisy"), ALTERED["a delay of 60 ms"]()), 1)

    def test_a_warning_about_the_clock(self):
        dt, *readings = roll_pitch()
        self.check(([*dt[:700], 0.02, *dt[701:]], *readings), 1)

    def test_a_log_that_ends_early(self):
        self.check(tuple(column[:300] for column in roll_pitch()), 1)


class Columns(unittest.TestCase):
    """Which columns are read."""

    def test_one_axis_by_other_names(self):
        text = (DEMO / "noisy.csv").read_text().replace("dt,rate,moment", "Step, Gyro X ,cmd", 1)
        result = main("-", "--columns", "dt=step, rate=gyro x ,moment=CMD", given=text)
        self.assertEqual((result.returncode, result.stderr), (0, ""))
        plain = main("-", given=(DEMO / "noisy.csv").read_text())
        self.assertEqual(result.stdout, plain.stdout)

    def test_one_axis_of_a_log_of_two(self):
        result = main(str(ROLL_PITCH), "--columns", "rate=roll_rate,moment=roll_moment")
        self.assertIn("roll_pitch.csv: done, by the fit on the recorded rates (a quiet window)\n", result.stdout)
        self.assertIn("ticks 1500", result.stdout)

    def test_the_first_axis_called_as_one_is(self):
        words = "dt=dt,rate=roll_rate,moment=roll_moment,rate2=pitch_rate,moment2=pitch_moment"
        self.assertEqual(main(str(ROLL_PITCH), "--columns", words).stdout, demo().stdout)

    def test_some_columns_with_other_names(self):
        columns = tuple(column[:300] for column in roll_pitch())
        text = two_axis_text(columns).replace("rate2", "pitch", 1).replace("dt", "step", 1)
        result = main("-", "--columns", "dt=step,rate2=pitch", given=text)
        self.assertEqual([block[0].split(":")[0] for block in blocks(result.stdout)], ["standard input", "axis 1", "pitch"])
        text = two_axis_text(columns).replace("dt", "step", 1)
        result = main("-", "--columns", "dt=step", given=text)
        self.assertEqual([block[0].split(":")[0] for block in blocks(result.stdout)], ["standard input", "axis 1", "axis 2"])

    def test_a_log_with_a_rate_is_one_of_one_axis(self):
        columns = (*demo_columns("noisy"), *(column[:2100] for column in roll_pitch()[1:]))
        text = log_text(*columns, names=("dt", "rate", "moment", *TWO_AXES[1:]))
        self.assertIn("3.5 ticks", main("-", given=text).stdout)
        both = main("-", "--columns", "rate2=rate2", given=text)
        self.assertEqual(len(blocks(both.stdout)), 3)

    def complains(self, *words, given="", expected):
        result = main(*words, given=given)
        self.assertEqual((result.returncode, result.stdout, result.stderr.count("\n")), (2, "", 1))
        self.assertIn(expected, result.stderr)

    def test_what_is_no_option(self):
        for words, expected in {
            "rate": "--columns: 'rate' is no KEY=COLUMN, as rate=roll_rate is",
            "": "--columns: '' is no KEY=COLUMN",
            "rate=": "--columns: 'rate=' is no KEY=COLUMN",
            "rate=a,,moment=b": "--columns: '' is no KEY=COLUMN",
            "rate=a,rate=b": "--columns: rate is given twice",
            "yaw=a": "--columns: no key yaw; the keys are dt, rate and moment, for two axes dt, rate1, moment1, rate2 and "
                     "moment2",
            "rate=a,rate1=b": "--columns: rate and rate1 are one column; give one of them",
            "rate=a,rate2=A": "--columns: rate1 and rate2 are both A; each is a column of its own",
        }.items():
            with self.subTest(words=words):
                self.complains(str(ROLL_PITCH), "--columns", words, expected=expected)

    def test_a_column_that_is_missing(self):
        self.complains(str(ROLL_PITCH), "--columns", COLUMNS.replace("pitch_moment", "pitch_torque"), expected=(
            "roll_pitch.csv:1: no column pitch_torque, which --columns names as moment2; the header line must name dt, "
            "roll_rate, roll_moment, pitch_rate, pitch_torque once each"))
        self.complains(str(ROLL_PITCH), expected=(
            "roll_pitch.csv:1: no column rate; the header line must name dt, rate, moment once each (--columns takes other "
            "names), and split at commas it has 'time', 'dt', 'roll_rate', 'roll_moment', 'pitch_rate'"))
        self.complains("-", given="dt,rate1,moment1,rate2\n", expected=(
            "standard input:1: no column moment2; the header line must name dt, rate1, moment1, rate2, moment2 once each"))

    def test_a_column_that_is_there_twice(self):
        self.complains("-", given="dt,rate1,moment1,rate2,moment2,rate2\n", expected="2 times the column rate2;")

    def test_a_cell_that_is_no_number(self):
        lines = ROLL_PITCH.read_text().splitlines()
        lines[3] = lines[3].replace(lines[3].split(",")[4], "fast")
        self.complains("-", "--columns", COLUMNS, given="\n".join(lines), expected=(
            "standard input:4: pitch_rate is 'fast'; it must be a number, nan or inf"))

    def test_no_line_and_no_call(self):
        self.complains("-", given=",".join(TWO_AXES) + "\n", expected="a header line and no line below it")
        self.complains("-", given=",".join(TWO_AXES) + "\n0,0,0,0,0\n", expected=(
            "standard input:2: none of 1 calls was accepted; the first breaks rule 6"))

    def test_a_configuration_that_is_refused(self):
        self.complains(str(ROLL_PITCH), "--columns", COLUMNS, "--duration", "-1", expected="--duration -1: refused by rule 2")


class Library(unittest.TestCase):
    """A library without the function of two axes: status 3 for such a log."""

    def test_one_line(self):
        with tempfile.TemporaryDirectory() as folder:
            named = Path(folder) / "libidentify.so"
            subprocess.run(("cc", "-shared", "-x", "c", "-", "-o", str(named)), input=ONE_AXIS_ALONE, text=True, check=True)
            with mock.patch.dict(os.environ, {"IDENTIFY_LIBRARY": str(named)}):
                result = demo(run=command)
        self.assertEqual((result.returncode, result.stdout, result.stderr.count("\n")), (3, "", 1))
        self.assertIn("identify: the library has no function identify_two_axis_run, which two axes need; ", result.stderr)


class OddLogs(unittest.TestCase):
    """Logs of any length with odd readings in any place."""

    def flights(self, count):
        """Flights of which the probes took a call."""
        draw = random.Random(1)
        for _ in range(count):
            (dt, rate, moment), config = odd_columns(draw)
            second = [odd_column(draw, [draw.gauss(0, 0.2) for _ in dt], (0, 5)) for _ in range(2)]
            lines = list(range(2, len(dt) + 2))
            logs = (identify.Log("flight.csv", dt, rate, moment, lines, "axis 1"),
                    identify.Log("flight.csv", dt, *second, lines, "axis 2"))
            flight = identify.TwoAxisFlight.of(logs, config)
            if flight.report.ticks:
                yield flight, identify.find_two_axis_warnings(flight)

    def test_words_and_json(self):
        endings = set()
        for flight, found in self.flights(200):
            first, second = flight.report.axes
            endings |= {first.ending, second.ending}
            self.assertEqual((first.ending is Ending.RUNNING, first.ticks), (second.ending is Ending.RUNNING, second.ticks))
            self.assertEqual(flight.axes[0].extended, bool(flight.asked))
            self.assertEqual(len(blocks(two_axis_words.text(flight, found))), 3)
            values = json.loads(two_axis_words.as_json(flight, found))
            self.assertEqual(values["sums"]["ticks"], first.ticks + second.ticks)
        self.assertEqual(endings, set(Ending))

    @unittest.skipUnless(HAS_MATPLOTLIB, "matplotlib is not installed (Debian package python3-matplotlib)")
    def test_pictures(self):
        for flight, found in self.flights(8):
            render(lambda figure, flight=flight, found=found: picture.draw_axes(figure, flight, found))


@unittest.skipUnless(HAS_MATPLOTLIB, "matplotlib is not installed (Debian package python3-matplotlib)")
class Pictures(unittest.TestCase):
    """What is drawn of two axes."""

    @staticmethod
    def drawn(columns):
        """The figure of a flight."""
        from matplotlib.figure import Figure

        dt, rate1, moment1, rate2, moment2 = columns
        lines = list(range(2, len(dt) + 2))
        logs = (identify.Log("$a$.csv", dt, rate1, moment1, lines, "roll"),
                identify.Log("$a$.csv", dt, rate2, moment2, lines, "pitch"))
        flight, figure = identify.TwoAxisFlight.of(logs, Config()), Figure()
        picture.draw_axes(figure, flight, identify.find_two_axis_warnings(flight))
        return figure

    @classmethod
    @functools.cache
    def demo_drawn(cls):
        """The figure of the demo's flight, drawn once."""
        return cls.drawn(roll_pitch())

    def test_each_kind(self):
        with tempfile.TemporaryDirectory() as folder:
            for suffix, start in {".png": b"\x89PNG", ".svg": b"<?xml"}.items():
                path = Path(folder) / f"picture{suffix}"
                result = demo("--plot", str(path), run=command)
                self.assertEqual((result.returncode, result.stderr), (0, ""))
                self.assertTrue(path.read_bytes().startswith(start))

    def test_an_axis_each_over_one_time(self):
        figure = self.demo_drawn()
        self.assertEqual(len(figure.axes), 6)
        self.assertEqual([panel.get_ylabel() for panel in figure.axes],
                         2 * ["rate, rad/s", "moment, 1 is the limit", "offset, rad/s"])
        self.assertEqual([figure.axes[place].get_xlabel() for place in (2, 5)], 2 * ["time since the excitation began, s"])
        self.assertEqual(len({panel.get_xlim() for panel in figure.axes}), 1)
        roll, pitch = (figure.axes[place].get_title(loc="left") for place in (0, 3))
        self.assertTrue(roll.startswith("roll: done, delay 2 ticks, 8.00 ms\nexplains 100.0%"))
        self.assertTrue(pitch.startswith("pitch: done, delay 4.5 ticks, 18.00 ms\nexplains 98.3%"))
        self.assertNotEqual(list(figure.axes[2].get_lines()[0].get_ydata()), list(figure.axes[5].get_lines()[0].get_ydata()))

    def test_the_heading(self):
        figure = self.demo_drawn()
        self.assertEqual(figure._suptitle.get_text(),
                         "$a$.csv: both axes done, extended from 6 s to 8 s for pitch, whose window was noisy")
        self.assertFalse(figure._suptitle.get_parse_math())

    def test_warnings_where_they_belong(self):
        dt, *readings = roll_pitch()
        figure = self.drawn(([*dt[:700], 0.02, *dt[701:]], *readings[:2], [57.3 * rate for rate in readings[2]], readings[3]))
        self.assertIn("\nwarnings: steady-clock", figure._suptitle.get_text())
        roll, pitch = (figure.axes[place].get_title(loc="left") for place in (0, 3))
        self.assertNotIn("warnings", roll)
        self.assertIn("\nwarnings: rate-units", pitch)


if __name__ == "__main__":
    unittest.main()
