"""What goes wrong around the command is one line and a status, never a traceback."""
import json
import os
import random
import signal
import subprocess
import tempfile
import time
import unittest
from pathlib import Path
from unittest import mock

from flights import identified, odd_columns
from support import COMMAND, DEMO, command, default_interrupt, identify, shared_library

from identify import words

NOISY = str(DEMO / "noisy.csv")


def shell(line, **variables):
    """A line of shell in which $identify is the command and $noisy a flight."""
    words = {"identify": " ".join(COMMAND), "noisy": NOISY, **variables}
    return subprocess.run(("bash", "-c", line), env={**os.environ, **words}, capture_output=True)


def started(*words, **streams):
    """The command, just started; it can be interrupted however these tests were started."""
    return subprocess.Popen((*COMMAND, *words), stderr=subprocess.PIPE, preexec_fn=default_interrupt, **streams)


class Streams(unittest.TestCase):
    """Standard input, output and error."""

    def check(self, result, status, line):
        self.assertEqual(result.returncode, status)
        self.assertEqual(result.stderr.decode(), line)

    def test_closed_pipe(self):
        with tempfile.TemporaryDirectory() as folder:
            pipe = Path(folder) / "pipe"
            os.mkfifo(pipe)
            # The reader goes before the command writes.
            line = f"exec 3<>{pipe}; exec 4>{pipe}; exec 3<&-; $identify $noisy >&4"
            self.check(shell(line), 141, "")
            self.check(shell(line.replace("$noisy", "--help")), 141, "")

    def test_full_disk(self):
        for words in ("$noisy", "$noisy --json", "--help"):
            with self.subTest(words=words):
                self.check(shell(f"$identify {words} >/dev/full"), 2, "identify: standard output: No space left on device\n")

    def test_closed_output(self):
        self.check(shell("$identify $noisy >&-"), 2, "identify: standard output: closed\n")

    def test_closed_input(self):
        self.check(shell("$identify - <&-"), 2, "identify: standard input: closed\n")

    def test_closed_error(self):
        for words, status in (("$noisy", 0), ("no-such-flight.csv", 2)):
            result = shell(f"$identify {words} 2>&-")
            self.assertEqual((result.returncode, result.stdout == b""), (status, status != 0))

    def test_interrupted(self):
        with started("-", stdin=subprocess.PIPE, stdout=subprocess.PIPE) as process:
            process.stdin.write(b"dt,rate,moment\n")
            process.stdin.flush()
            # Once all that was written is read, the command waits for more.
            while self.is_unread(process.stdin):
                time.sleep(0.01)
            process.send_signal(signal.SIGINT)
            self.assertEqual((process.wait(timeout=60), process.stderr.read()), (130, b"identify: interrupted\n"))

    def test_interrupted_at_any_time(self):
        for wait_s in (0.03, 0.05, 0.08, 0.12, 0.2):
            with self.subTest(wait_s=wait_s):
                with started(NOISY, stdout=subprocess.DEVNULL) as process:
                    time.sleep(wait_s)
                    process.send_signal(signal.SIGINT)
                    said = process.stderr.read()
                self.assertNotIn(b'cli.py", line', said)

    def is_unread(self, pipe):
        """Whether bytes wait in a pipe."""
        import array
        import fcntl
        import termios

        count = array.array("i", [0])
        fcntl.ioctl(pipe.fileno(), termios.FIONREAD, count)
        return count[0] > 0


class Locale(unittest.TestCase):
    """Encodings and names."""

    ASCII = {"LC_ALL": "C", "PYTHONCOERCECLOCALE": "0", "PYTHONUTF8": "0", "PYTHONIOENCODING": "ascii"}

    def test_a_character_that_the_terminal_lacks(self):
        with mock.patch.dict(os.environ, self.ASCII):
            result = command(NOISY)
        self.assertEqual((result.returncode, result.stderr), (0, ""))
        self.assertIn("push            39.61 rad/s? per unit moment\n", result.stdout)

    def test_complaints(self):
        with mock.patch.dict(os.environ, self.ASCII):
            self.assertEqual(command("-", given="dt,rate,moment\n20000,0,0\n").returncode, 2)
            self.assertEqual(command("no-such-flight-é.csv").returncode, 2)

    def test_a_name_is_printed_as_its_bytes(self):
        name = b"odd \xff \xc3\xa9.csv"
        for variables in ({}, self.ASCII):
            with self.subTest(variables=variables), tempfile.TemporaryDirectory() as folder:
                (Path(folder) / os.fsdecode(name)).write_bytes(Path(NOISY).read_bytes())
                words = (*(word.encode() for word in COMMAND), name)
                result = subprocess.run(words, cwd=folder, env={**os.environ, **variables}, capture_output=True)
                self.assertEqual((result.returncode, result.stderr), (0, b""))
                self.assertTrue(result.stdout.startswith(name + b": done"))


class OddLogs(unittest.TestCase):
    """Logs of any length with odd readings in any place."""

    def test_words_and_json(self):
        draw = random.Random(1)
        endings = set()
        for _ in range(300):
            columns, config = odd_columns(draw)
            flight = identified(columns, config)
            if flight.report.ticks:
                endings.add(flight.report.ending)
                warnings = identify.find_warnings(flight)
                self.assertTrue(words.text(flight, warnings).endswith("\n"))
                self.assertEqual(json.loads(words.as_json(flight, warnings))["counts"]["ticks"], flight.report.ticks)
                self.assertTrue(all("\n" not in warned.text for warned in warnings))
        self.assertEqual(endings, set(identify.Ending))


class Library(unittest.TestCase):
    """A library that is not there: status 3."""

    def test_named_and_missing(self):
        with mock.patch.dict(os.environ, {"IDENTIFY_LIBRARY": "/nonexistent/libexports.a"}):
            result = command(NOISY)
        self.assertEqual((result.returncode, result.stdout), (3, ""))
        self.assertEqual(result.stderr, "identify: IDENTIFY_LIBRARY names /nonexistent/libexports.a: no such file\n")

    def test_named_and_no_other_program(self):
        with tempfile.TemporaryDirectory() as folder:
            named = {"IDENTIFY_LIBRARY": str(shared_library(Path(folder))), "PATH": "/nonexistent"}
            with mock.patch.dict(os.environ, named):
                result = command(NOISY)
        self.assertEqual((result.returncode, result.stderr), (0, ""))

    def test_named_and_none(self):
        with mock.patch.dict(os.environ, {"IDENTIFY_LIBRARY": NOISY}):
            result = command(NOISY)
        self.assertEqual((result.returncode, result.stdout, result.stderr.count("\n")), (3, "", 1))


if __name__ == "__main__":
    unittest.main()
