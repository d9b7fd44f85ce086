"""The command `./identify`."""
from __future__ import annotations

import argparse
import signal
from collections.abc import Sequence
from typing import NoReturn

from . import picture, two_axis_words, words
from .checks import dt_units, find_warnings
from .columns import USUAL, BadColumns, parse_columns
from .flight import Flight
from .library import LibraryError
from .log import BadLog, Log, read_any_log
from .output import OutputError, complain, write
from .probe import run
from .records import RULES, Config, ConfigRefused, Extension
from .two_axis import TwoAxisFlight, find_two_axis_warnings

GOOD, DOUBTFUL, BAD_INPUT, NO_LIBRARY = 0, 1, 2, 3
INTERRUPTED, CLOSED_PIPE = 128 + signal.SIGINT, 128 + signal.SIGPIPE
"""As a shell tells of a program that a signal ended."""

DESCRIPTION = "Fits how strongly, and how many ticks later, a drone's axis, or each of two, follows its moment, from a log."
EPILOG = """\
FLIGHT.csv has a header line and the columns dt (s), rate (rad/s, at this tick) and moment (commanded on the last tick, the
limit is 1), in any order; other columns are passed over; nan and inf are allowed. Its first line is the first tick of the
excitation. The values of the options are defaults of this command; give those that the aircraft flew with.

A flight of two axes has the columns dt, rate1, moment1, rate2 and moment2, and neither rate nor moment. Columns with other
names are given by --columns, one KEY=COLUMN for each that differs; the keys are the usual names:

  --columns rate=roll_rate,moment=roll_moment
  --columns rate1=roll_rate,moment1=roll_moment,rate2=pitch_rate,moment2=pitch_moment

With a key of two axes there are two, and then rate and moment are rate1 and moment1. An axis is called by its rate's column,
or axis 1 and axis 2 by the usual names. Axis 1 is the one whose square wave starts high. Both are flown with one
configuration, take the extension together where either window is noisy, and end together.

With --steady the probe turns back each call whose dt is more than a quarter off the first one that it took, as one that the
autopilot opened with IDENTIFY_STEADY does. Without it, the command warns of such calls.

Of a model, the delay is the time until the axis begins to follow a moment, the lag the time constant with which it then
follows, and the push its acceleration for a moment of 1 once the lag has settled. The pole is minus the second rate weight;
with a pole of 1 or more there is neither lag nor push.

The line `fit` tells how much of the rate's change the model explains when it is run by itself for a fifth of a second, what
the gyro's noise takes of it, and what the model explains two ticks earlier and later. A line `warning` tells what makes the
answer doubtful, and what to do.

Exit status: 0 where a report was printed, however the probe ended; with --strict 1 for all but a model without a warning, of
two axes for all but two such models; 2 for bad input, and where the answer or the picture cannot be written; 3 where the
library cannot be built or loaded. The first use builds the library with rt and cc; the variable IDENTIFY_LIBRARY names a
ready libexports.a, with libtwo_axis_exports.a beside it for two axes, and liblive.a or, for two axes, libpair.a for --steady;
or a libidentify.so. Then nothing is built from sources."""

OPTIONS_OF_RULE = {
    1: ("amplitude",),
    2: ("duration",),
    3: ("washout",),
    4: ("extension_amplitude",),
    5: ("extension_duration", "duration"),
}


class Parser(argparse.ArgumentParser):
    """A parser that complains in one line, also of an output that cannot take its help."""

    def print_help(self, file: object = None) -> None:
        """Prints the help on standard output."""
        write(self.format_help())

    def error(self, message: str) -> NoReturn:
        """Prints the complaint and exits."""
        self.exit(BAD_INPUT, f"identify: {message} (see ./identify --help)\n")


def make_parser() -> Parser:
    """The options, with the values of a default configuration."""
    plain, extension = Config(), Extension()
    parser = Parser("identify", None, DESCRIPTION, EPILOG, formatter_class=argparse.RawDescriptionHelpFormatter)
    parser.add_argument("flight", metavar="FLIGHT.csv", help="the log; - is standard input")
    parser.add_argument("--columns", metavar="KEY=COLUMN,...", help="the log's columns that have other names, see below")
    add_number(parser, "--amplitude", "RADPS", "height of the square wave", plain.amplitude)
    add_number(parser, "--duration", "S", "length of the excitation", plain.duration_s)
    add_number(parser, "--washout", "S", "time constant with which an edge decays", plain.washout_tc_s)
    add_number(parser, "--extension-amplitude", "RADPS", "height in the extension of a noisy window", extension.amplitude)
    add_number(
        parser, "--extension-duration", "S", "length of an extended window, from the start", extension.duration_s,
        ", or the duration where that is longer",
    )
    parser.add_argument("--no-extension", action="store_true", help="fit a noisy window as it stands")
    parser.add_argument("--steady", action="store_true", help="fly a steady probe, see below")
    parser.add_argument("--json", action="store_true", help="print one JSON object; a number that is not finite is null")
    parser.add_argument("--strict", action="store_true", help="exit with 1 for all but a model without a warning")
    parser.add_argument("--plot", metavar="FILE", help="draw the flight into a .png or .svg (needs matplotlib)")
    return parser


def add_number(parser: Parser, option: str, unit: str, meaning: str, default: float, otherwise: str = "") -> None:
    """One option with a number; None where it is not given."""
    parser.add_argument(option, metavar=unit, type=float, help=f"{meaning} (default {default:g}{otherwise})")


def config_of(parser: Parser, options: argparse.Namespace) -> Config:
    """The configuration that the options name."""
    if options.no_extension:
        for name in ("extension_amplitude", "extension_duration"):
            if getattr(options, name) is not None:
                parser.error(f"--no-extension excludes {option_name(name)}")
    plain, extension = Config(), Extension()
    duration_s = given(options.duration, plain.duration_s)
    return Config(
        given(options.amplitude, plain.amplitude),
        duration_s,
        given(options.washout, plain.washout_tc_s),
        None if options.no_extension else Extension(
            given(options.extension_amplitude, extension.amplitude),
            # An extension that nobody typed is never shorter than the duration that somebody did.
            given(options.extension_duration, max(extension.duration_s, duration_s)),
        ),
    )


def given(value: float | None, default: float) -> float:
    """The value of an option, or its default."""
    return default if value is None else value


def option_name(name: str) -> str:
    """The option as it is typed."""
    return "--" + name.replace("_", "-")


def refusal_words(refused: ConfigRefused, config: Config, options: argparse.Namespace) -> str:
    """Which options the library turned back, and by which rule."""
    values = {"amplitude": config.amplitude, "duration": config.duration_s, "washout": config.washout_tc_s}
    if config.extension:
        values["extension_amplitude"] = config.extension.amplitude
        values["extension_duration"] = config.extension.duration_s
    named = ", ".join(
        f"{option_name(name)} {values[name]:g}{'' if getattr(options, name) is not None else ' (the default)'}"
        for name in OPTIONS_OF_RULE.get(refused.rule, ())
    )
    return f"{named or 'configuration'}: {refused}"


def main(arguments: Sequence[str] | None = None) -> int:
    """Runs the command and returns its exit status, without a traceback."""
    try:
        return run_command(arguments)
    except OutputError as error:
        return complain(str(error), BAD_INPUT)
    except BrokenPipeError:
        return CLOSED_PIPE
    except KeyboardInterrupt:
        return complain("interrupted", INTERRUPTED)


def run_command(arguments: Sequence[str] | None) -> int:
    """Runs the command; what is wrong with its input, or its library, is a line and a status."""
    parser = make_parser()
    options = parser.parse_args(arguments)
    config = config_of(parser, options)
    try:
        if options.plot:
            picture.check_name(options.plot)
        columns = USUAL if options.columns is None else parse_columns(options.columns)
        logs = read_any_log(options.flight, columns)
        is_good = answer_one(*logs, config, options) if len(logs) == 1 else answer_two(logs, config, options)
        return DOUBTFUL if options.strict and not is_good else GOOD
    except ConfigRefused as refused:
        return complain(refusal_words(refused, config, options), BAD_INPUT)
    except BadColumns as error:
        return complain(f"--columns: {error}", BAD_INPUT)
    except (BadLog, picture.PictureError) as error:
        return complain(str(error), BAD_INPUT)
    except LibraryError as error:
        return complain(str(error), NO_LIBRARY)


def answer_one(log: Log, config: Config, options: argparse.Namespace) -> bool:
    """Prints and draws a flight of one axis; answers whether it has a model without a warning."""
    check_lines(log)
    flight = Flight(log, config, run(config, log.dt, log.rate, log.moment, options.steady))
    check_taken(flight)
    found = find_warnings(flight)
    write((words.as_json if options.json else words.text)(flight, found))
    if options.plot:
        picture.draw(options.plot, flight, found)
    return flight.report.model is not None and not found


def answer_two(logs: Sequence[Log], config: Config, options: argparse.Namespace) -> bool:
    """Prints and draws a flight of two axes; answers whether both have a model without a warning."""
    check_lines(logs[0])
    flight = TwoAxisFlight.of(logs, config, options.steady)
    check_taken(flight.axes[0])
    found = find_two_axis_warnings(flight)
    write((two_axis_words.as_json if options.json else two_axis_words.text)(flight, found))
    if options.plot:
        picture.draw_two_axes(options.plot, flight, found)
    return all(report.model for report in flight.report.axes) and not found


def check_lines(log: Log) -> None:
    """Raises BadLog where no line of the log is a call."""
    if not log.lines:
        raise BadLog(f"{log.name}: a header line and no line below it; each line below the header is one tick")


def check_taken(flight: Flight) -> None:
    """Raises BadLog where the probe took no call."""
    log = flight.log
    if flight.report.ticks == 0:
        first = flight.report.refusals[0]
        raise BadLog(
            f"{log.name}:{log.lines[first.call]}: none of {len(log.lines)} calls was accepted; the first breaks rule "
            f"{first.rule}, {RULES[first.rule]}. {dt_units(flight) or 'dt is the time since the last tick, in s.'}"
        )
