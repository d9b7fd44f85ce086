"""C programs over the real libraries: how the tests of a probe in flight, and of a pair, build and run them."""
from __future__ import annotations

import os
import re
import shutil
import struct
import subprocess
import tempfile
import unittest
from pathlib import Path

from support import HEADER, ROOT, compiled

from identify import probe, wire

HERE = Path(__file__).resolve().parent
EXAMPLES = ROOT / "examples"
STANDARDS = (("cc", "c99"), ("cc", "c11"), ("g++", "c++11"), ("g++", "c++17"))
STATUS = struct.Struct(">If3I6fI2f")
"""The header's identify_state, as harness.h writes it."""
VALGRIND = ("valgrind", "--quiet", "--error-exitcode=9", "--leak-check=full", "--track-origins=no")


def built(test, archives, source, *words, compiler="cc", standard="c11"):
    """A program in a folder that goes with the test, or with the class of tests, linked with these archives."""
    need(compiler)
    folder = tempfile.TemporaryDirectory()
    (test.addClassCleanup if isinstance(test, type) else test.addCleanup)(folder.cleanup)
    return compiled(Path(folder.name), archives, source, *words, compiler=compiler, standard=standard)


def built_once(archives, name):
    """A program of this folder, for all tests of a module."""
    folder = tempfile.mkdtemp()
    unittest.addModuleCleanup(shutil.rmtree, folder)
    return compiled(Path(folder), archives, (HERE / name).read_text(encoding="utf8"), "-g", "-pthread")


def built_stack(test, archives, name):
    """A program of this folder that measures stack."""
    words = ("-O2", "-fno-omit-frame-pointer", "-pthread")
    return built(test, archives, (HERE / name).read_text(encoding="utf8"), *words)


def need(compiler):
    """Passes a test over where a compiler is missing; cc is not."""
    if compiler != "cc" and not shutil.which(compiler):
        raise unittest.SkipTest(f"{compiler} is not installed")


def ran(*words, given=b"", **variables):
    """What a program writes to its output."""
    return subprocess.run(words, input=given, stdout=subprocess.PIPE, check=True, env={**os.environ, **variables}).stdout


def stack(program, *words, given):
    """What a program that measures stack says. All names are bound at its start: the lookup at a first call would take stack of
    its own."""
    return ran(program, *words, given=given, LD_BIND_NOW="1").decode().splitlines()


def measured_stack(program, given):
    """The bytes that each function takes on a painted stack."""
    return {name: int(count) for name, count in map(str.split, stack(program, "measure", given=given))}


class MemoryTest(unittest.TestCase):
    """No bad read or write, and no decision on a byte that nobody wrote."""

    def setUp(self):
        if not shutil.which("valgrind"):
            self.skipTest("valgrind is not installed (Debian package valgrind)")

    def check(self, *words, given=b""):
        """Runs a program under valgrind."""
        result = subprocess.run((*VALGRIND, *words), input=given, capture_output=True)
        self.assertEqual((result.returncode, result.stderr.decode()), (0, ""))


def defined(name):
    """A number that the header defines."""
    return int(re.search(rf"#define {name} (\d+)", HEADER.read_text(encoding="utf8"))[1])


def said_of_run(begins):
    """The bytes of stack that the header says a run over bytes takes, by how its comment begins."""
    text = HEADER.read_text(encoding="utf8")
    return int(re.search(rf"{begins}.*?It takes up to ([\d,]+) bytes of stack", text, re.DOTALL)[1].replace(",", ""))


def readme_lines(place):
    """The README's lines of C at a place among them."""
    return re.findall(r"```c\n(.*?)```", (ROOT / "README.md").read_text(encoding="utf8"), re.DOTALL)[place]


def does_compile(text, compiler, standard):
    """Whether a source compiles, and what is said of it."""
    need(compiler)
    words = (compiler, f"-std={standard}", "-fsyntax-only", "-x", standard.rstrip("0123456789"), "-")
    result = subprocess.run(words, input=text, text=True, capture_output=True)
    return result.returncode == 0, result.stderr


def status_of(report):
    """The status that belongs to a report's bytes."""
    fields = wire.split_bits(report[:12])
    floats = struct.unpack(">6f", report[12:])
    running = fields["kind"] == 0
    units = probe.plain_units(report)
    return STATUS.pack(
        fields["kind"], floats[5] if running else 0.0, 2 * fields["d"] + fields["half"], fields["d"], fields["half"],
        *floats[:5], 0.0 if running else floats[5], units is not None, *(units or (0.0, 0.0)),
    )


def words_of(model):
    """What an example's screen shows of a model."""
    half = " and a half" if model.half_ticks % 2 else ""
    return [
        "done",
        f"  delay  {1000 * model.delay_s:.2f} ms: {model.whole_ticks} ticks{half} of {1000 * model.dt_s:.2f} ms",
        f"  lag    {1000 * model.lag_s:.2f} ms",
        f"  push   {model.accel_radps2:.2f} rad/s2 per unit moment",
    ]


def logged(path, column):
    """A column that an example logged, in single precision."""
    header, *lines = path.read_text().splitlines()
    place = header.split(",").index(column)
    return tuple(wire.singles(float(line.split(",")[place]) for line in lines))
