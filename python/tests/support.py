"""What the tests share: the package's path, a made flight, the command, pictures, and C programs linked with a library."""
from __future__ import annotations

import contextlib
import functools
import io
import os
import random
import signal
import subprocess
import sys
import unittest
import warnings
from collections.abc import Callable, Sequence
from pathlib import Path
from typing import Any
from unittest import mock

ROOT = Path(__file__).resolve().parents[2]
DEMO = ROOT / "demo"
HEADER = ROOT / "include/identify.h"
INCLUDES = (HEADER.parent, ROOT / "examples", ROOT / "python/tests")
"""Where the sources that the tests compile find their headers."""
COMMAND = (sys.executable, str(ROOT / "identify"))
sys.path.insert(0, str(ROOT / "python"))

import identify
from identify import cli, library

M1_CONFIG = identify.Config(1.0, 1.0, 0.5, None)
M1_REPORT = "800000020020000020000000" + "00" * 24
M1_PAIR_OFFSETS = "3F00000000000000" "3E80000000000000" "3E00000000000000" "BEE000003F000000"
M1_PAIR_OUTPUT = bytes.fromhex(2 * M1_REPORT + "0000020000" + M1_PAIR_OFFSETS)
"""M1 flown as a pair: both reports, ticks and rows added up, and two offsets a call."""
POLE = 0.85
RATE_WEIGHTS = (1 + POLE, -POLE)
MOMENT_WEIGHTS = (0.02, 0.01, 0.015)


def made_flight(
    delay: int, ticks: int = 1600, dt: float = 0.004, pole: float = POLE
) -> tuple[list[float], list[float], list[float]]:
    """An axis that follows the model's equation exactly, under a moment drawn anew at each tick.

    All three moment weights differ from zero, so no other delay explains the flight.
    """
    draw = random.Random(7)
    commands = [draw.uniform(-0.5, 0.5) for _ in range(ticks)]
    rates: list[float] = []
    for k in range(ticks):
        terms = [(1 + pole) * at(rates, k - 1), -pole * at(rates, k - 2)]
        terms += [weight * at(commands, k - delay - back) for back, weight in enumerate(MOMENT_WEIGHTS)]
        rates.append(sum(terms))
    return [dt] * ticks, rates, [0.0] + commands[:-1]


def gainless_flight(
    seen: int, ticks: int = 40, dt: float = 56.0
) -> tuple[identify.Config, list[float], list[float], list[float]]:
    """A configuration and a noisy flight whose fitted gain is 0: one moment, at tick `seen`, in ticks so long that nothing
    is carried on from one to the next, and a rate that stands still wherever a delay could put that moment.

    The first delay that meets the moment within the fit, which begins at tick 11, wins.
    """
    draw = random.Random(seen)
    rates: list[float] = []
    for tick in range(ticks):
        noise = draw.randint(-32, 32) / 16
        rates.append(rates[-1] if max(seen, 11) <= tick <= seen + 10 else noise)
    rates[-1] = rates[10]
    moments = [1.0 if tick == seen else 0.0 for tick in range(ticks)]
    return identify.Config(0.5, (ticks - 0.5) * dt, 0.2, None), [dt] * ticks, rates, moments


def wild_log(name: str, first: int, rates: list[str], around: str = "nan") -> str:
    """A demo flight with these rates from line `first` on, between two rates of `around`: lost ones."""
    lines = (DEMO / name).read_text().splitlines()
    column = lines[0].split(",").index("rate")
    for number, rate in enumerate([around, *rates, around], start=first - 1):
        cells = lines[number - 1].split(",")
        cells[column] = rate
        lines[number - 1] = ",".join(cells)
    return "\n".join(lines) + "\n"


def at(values: list[float], tick: int) -> float:
    """The value at a tick; 0 before the start."""
    return values[tick] if tick >= 0 else 0.0


def log_text(*columns: list[float], names: Sequence[str] = ("dt", "rate", "moment")) -> str:
    """A flight as a log."""
    return ",".join(names) + "\n" + "".join(",".join(map(repr, call)) + "\n" for call in zip(*columns))


def byte_library() -> Path:
    """The library of the functions over bytes."""
    named = os.environ.get(library.VARIABLE)
    return Path(named).resolve() if named else library.built(ROOT)


def shared_library(folder: Path) -> Path:
    """The same as a shared object, which loads where there is no linker: an archive is linked in `folder`."""
    path = byte_library()
    if path.suffix != ".a":
        return path
    shared = folder / library.SHARED.name
    library.link(path, shared)
    return shared


def two_axis_library() -> Path:
    """The library of the function over bytes for two axes: libtwo_axis_exports.a, or a shared object that has it too."""
    path = byte_library()
    return library.archive_beside(path, library.TWO_AXES) if path.suffix == ".a" else path


def live_library() -> Path:
    """The library of a probe in flight, liblive.a."""
    return ready_archive("live")


def pair_library() -> Path:
    """The library of a pair in flight, libpair.a."""
    return ready_archive("pair")


@functools.cache
def ready_archive(crate: str) -> Path:
    """A crate's static library: the one that IDENTIFY_LIVE or IDENTIFY_PAIR names, or that of the sources, built where it was
    built from others. A test is passed over where it can be neither."""
    variable = f"IDENTIFY_{crate.upper()}"
    named = os.environ.get(variable)
    if named:
        return Path(named).resolve()
    archive, built_from = ROOT / library.archive_of(crate), ROOT / f"target/identify/{crate}.sha256"
    if not library.can_build(ROOT):
        raise unittest.SkipTest(f"{archive.name} cannot be built here, and {variable} names none")
    sources = library.digest(ROOT)
    if not archive.is_file() or not built_from.is_file() or built_from.read_text() != sources:
        library.build_archive(ROOT, crate)
        built_from.parent.mkdir(parents=True, exist_ok=True)
        built_from.write_text(sources)
    return archive


def compiled(
    folder: Path, archives: Sequence[Path], source: str, *words: str, compiler: str = "cc", standard: str = "c11"
) -> Path:
    """A program in `folder`, made of a C source and libraries by a C or a C++ compiler, with no warning."""
    language = standard.rstrip("0123456789")
    strict = (f"-std={standard}", "-Wall", "-Wextra", "-Werror", "-pedantic")
    places = [part for place in INCLUDES for part in ("-I", str(place))]
    libraries = [part for archive in archives for part in (str(archive), f"-Wl,-rpath,{archive.parent}")]
    program = folder / "program"
    parts = (*places, "-x", language, "-", "-x", "none", *libraries, "-o", str(program))
    subprocess.run((compiler, *strict, *words, *parts), input=source, text=True, check=True)
    return program


def command(*words: str, given: str = "") -> subprocess.CompletedProcess[str]:
    """Runs ./identify, a process of its own."""
    return subprocess.run([*COMMAND, *words], input=given, capture_output=True, text=True)


def main(*words: str, given: str = "") -> subprocess.CompletedProcess[str]:
    """Runs the command in this process, with streams of bytes as ./identify has them. The library is the one loaded here,
    whatever the environment names."""
    stdin, stdout, stderr = (
        io.TextIOWrapper(io.BytesIO(text.encode()), "utf8", "backslashreplace") for text in (given, "", "")
    )
    with mock.patch.object(sys, "stdin", stdin), contextlib.redirect_stdout(stdout), contextlib.redirect_stderr(stderr):
        try:
            status = cli.main(words)
        except SystemExit as end:
            status = end.code
    stderr.flush()
    written = (stream.buffer.getvalue().decode("utf8", "surrogateescape") for stream in (stdout, stderr))
    return subprocess.CompletedProcess(words, status, *written)


main_once = functools.cache(main)
"""The command in this process over a log that is the same for all tests, run once for each list of words."""


def default_interrupt() -> None:
    """Gives a child that is about to start the usual action for SIGINT, which it ignores where its parent does."""
    signal.signal(signal.SIGINT, signal.SIG_DFL)


def render(paint: Callable[[Any], None]) -> None:
    """Renders what `paint` draws on a small figure, without the layout: that hangs on the words, and takes as long again.
    Needs matplotlib."""
    from matplotlib.backends.backend_agg import FigureCanvasAgg
    from matplotlib.figure import Figure

    with warnings.catch_warnings():
        warnings.simplefilter("ignore")
        figure = Figure(figsize=(4, 3))
        paint(figure)
        FigureCanvasAgg(figure).draw()
