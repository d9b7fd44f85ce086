"""Finds the proved library, builds it on first use, and loads it.

The shared object stands in target/identify/ beside a digest of the sources that it was built from, and is used again while
theirs is the same, whatever the files' dates are. Where it is not and there is no rt, what is there is used, and a line says
so. The variable IDENTIFY_LIBRARY names a ready static or shared library (.a or .so) instead; then nothing is built from
sources. The functions of one axis come from libexports.a, that of two from libtwo_axis_exports.a, those of a probe in flight
from liblive.a and those of a pair from libpair.a; the last three are taken in where they stand beside the first. `rt lib`
leaves each in its crate's out/, and there it is taken in too.
"""
from __future__ import annotations

import ctypes
import functools
import hashlib
import os
import shutil
import subprocess
import tempfile
from collections.abc import Callable, Iterator, Sequence
from pathlib import Path

from .output import note, say
from .wire import listed

ROOT = Path(__file__).resolve().parents[2]
VARIABLE = "IDENTIFY_LIBRARY"
READY_INSTEAD = f"set {VARIABLE} to a ready libexports.a or libidentify.so"
PROVER = "rt"
BUILD = (PROVER, "lib")
"""Makes the static library of the crate in whose folder it is run."""
CRATES = ONE_AXIS, TWO_AXES, LIVE, PAIR = ("exports", "two_axis_exports", "live", "pair")
"""The crates whose static libraries are linked."""
SHARED = Path("target/identify/libidentify.so")
DIGEST = Path("target/identify/sources.sha256")
UNBUILT_FOLDERS = {"must-fail", "data", "out"}
"""Folders of a crate that a build does not read, and the one that it writes."""
FUNCTIONS = {"identify_byte_run": 3, "identify_plain_units": 2}
"""The functions of one axis, and how many buffers each takes: a pointer and a length for each."""
TWO_AXIS_RUN, TWO_AXIS_BUFFERS = "identify_two_axis_run", 3
"""The function of two axes, which a library may lack, as it may those of a probe and of a pair in flight."""


class LibraryError(RuntimeError):
    """The library could not be built, found or loaded."""


@functools.cache
def load() -> ctypes.CDLL:
    """The library with the types of its functions set, loaded once a process."""
    named = os.environ.get(VARIABLE)
    if not named:
        return open_library(built(ROOT))
    path = Path(named).resolve()
    if not path.is_file():
        raise LibraryError(f"{VARIABLE} names {named}: no such file")
    return open_library(path)


def two_axis_run() -> Callable[..., int]:
    """The function of two axes. Raises LibraryError where the library lacks it."""
    return with_buffers(optional(TWO_AXIS_RUN, TWO_AXES, "two axes need"), TWO_AXIS_BUFFERS)


def optional(name: str, crate: str, need: str) -> Callable[..., int]:
    """A function of the crate, without its types. Raises LibraryError, with who needs it, where the library lacks it."""
    try:
        return getattr(load(), name)
    except AttributeError as error:
        raise LibraryError(
            f"the library has no function {name}, which {need}; set {VARIABLE} to a ready lib{ONE_AXIS}.a with lib{crate}.a "
            f"beside it, or to a {SHARED.name} made of both"
        ) from error


def declared(library: ctypes.CDLL, name: str, buffers: int) -> Callable[..., int]:
    """A function of the library with its types set. Raises AttributeError where the library lacks it."""
    return with_buffers(getattr(library, name), buffers)


def with_buffers(function: Callable[..., int], buffers: int) -> Callable[..., int]:
    """A function over so many buffers, with its types set."""
    function.argtypes = [ctypes.c_char_p, ctypes.c_size_t] * buffers
    function.restype = ctypes.c_uint32
    return function


def open_library(path: Path) -> ctypes.CDLL:
    """Loads a static library (.a) or a shared object."""
    return open_archive(path) if path.suffix == ".a" else open_shared(path)


def open_archive(archive: Path) -> ctypes.CDLL:
    """Loads a static library through a shared object that lives no longer than the loading."""
    try:
        with tempfile.TemporaryDirectory() as folder:
            shared = Path(folder) / SHARED.name
            link(archive, shared)
            return open_shared(shared)
    except OSError as error:
        raise LibraryError(f"{archive} cannot be linked: {error}") from error


def open_shared(path: Path) -> ctypes.CDLL:
    """Loads a shared object and declares its functions."""
    try:
        library = ctypes.CDLL(str(path))
        for name, buffers in FUNCTIONS.items():
            declared(library, name, buffers)
    except (OSError, AttributeError) as error:
        raise LibraryError(f"{path}: {error}") from error
    return library


def built(root: Path) -> Path:
    """The library of the sources under `root`, built where it is missing or was built from others."""
    try:
        if is_current(root):
            return root / SHARED
        return build(root) if can_build(root) else left_there(root)
    except OSError as error:
        raise LibraryError(f"the library cannot be built in {root}: {error}; {READY_INSTEAD}") from error


def is_current(root: Path) -> bool:
    """Whether the shared object is there and was built from the sources as they are."""
    if not (root / SHARED).is_file() or not (root / DIGEST).is_file():
        return False
    return (root / DIGEST).read_text() == digest(root)


def digest(root: Path) -> str:
    """A digest of the crates that are linked, and of the names and the contents of all that a build reads."""
    whole = hashlib.sha256(f"{' '.join(CRATES)}\n".encode())
    for path in sources(root):
        data = path.read_bytes()
        whole.update(f"{path.relative_to(root)} {len(data)}\n".encode(errors="surrogateescape") + data)
    return whole.hexdigest()


def sources(root: Path) -> Iterator[Path]:
    """The files that a build reads, in the order of their names."""
    parts = (part for part in (root / "crates").glob("*/*") if part.name not in UNBUILT_FOLDERS)
    for part in (root / "crates.txt", *sorted(parts)):
        yield from (path for path in (part, *sorted(part.rglob("*"))) if path.is_file())


def can_build(root: Path) -> bool:
    """Whether the sources and their prover are there."""
    return (root / "crates").is_dir() and shutil.which(PROVER) is not None


def build(root: Path) -> Path:
    """Proves and compiles the crates, then links the shared object, whole or not at all. Its digest is that of the sources
    before the build."""
    shared = root / SHARED
    shared.parent.mkdir(parents=True, exist_ok=True)
    # The folder is made first: one that cannot be written is known before the long build.
    with tempfile.TemporaryDirectory(dir=shared.parent) as folder:
        folders = listed(f"crates/{crate}" for crate in CRATES)
        say(f"building the proved library ({' '.join(BUILD)} in {folders}, then cc); the first time takes minutes")
        read = digest(root)
        for crate in CRATES:
            build_archive(root, crate)
        fresh = Path(folder) / shared.name
        link(root / archive_of(ONE_AXIS), fresh)
        (root / DIGEST).unlink(missing_ok=True)
        fresh.replace(shared)
    (root / DIGEST).write_text(read)
    return shared


def build_archive(root: Path, crate: str) -> None:
    """Proves a crate and those below it, and compiles its static library."""
    command(BUILD, root / "crates" / crate, f" in crates/{crate}")


def archive_of(crate: str) -> Path:
    """Where a crate's static library is, under the root."""
    return Path(f"crates/{crate}/out/lib{crate}.a")


def left_there(root: Path) -> Path:
    """The library of an earlier build, where none can be built."""
    why = f"{PROVER} is not on the PATH" if (root / "crates").is_dir() else f"there is no crates/ in {root}"
    for path in (SHARED, archive_of(ONE_AXIS)):
        if (root / path).is_file():
            say(f"{why}: {path} is used as it is, and may have been built from other sources")
            return root / path
    raise LibraryError(f"{why}, and there is no library of an earlier build; {READY_INSTEAD}")


def link(archive: Path, shared: Path) -> None:
    """Makes a shared object of the static library for one axis and of those of the other crates that are there."""
    others = [path for crate in CRATES[1:] if (path := archive_beside(archive, crate)).is_file()]
    archives = [str(path) for path in (archive, *others)]
    command(("cc", "-shared", "-o", str(shared), "-Wl,--whole-archive", *archives, "-Wl,--no-whole-archive"), archive.parent)


def archive_beside(archive: Path, crate: str) -> Path:
    """Where another crate's static library belongs: beside that for one axis, or in its own crate, as that is."""
    if archive.match(str(archive_of(ONE_AXIS))):
        return archive.parents[3] / archive_of(crate)
    return archive.with_name(f"lib{crate}.a")


def command(words: Sequence[str], folder: Path, place: str = "") -> None:
    """Runs a command. Its lines that begin with `rt:` are its progress; the others are shown only where it fails, and then the
    place is named."""
    try:
        process = subprocess.Popen(
            words, cwd=folder, stdin=subprocess.DEVNULL, stdout=subprocess.PIPE, stderr=subprocess.STDOUT, errors="replace",
            text=True,
        )
    except FileNotFoundError as error:
        if not folder.is_dir():
            raise
        raise LibraryError(f"{words[0]} is not on the PATH; it is needed to build or link the library") from error
    others: list[str] = []
    with process:
        try:
            for line in process.stdout:
                if line.startswith("rt:"):
                    note(line)
                else:
                    others.append(line)
        except BaseException:
            process.kill()
            raise
    if process.returncode != 0:
        note("".join(others))
        raise LibraryError(f"`{' '.join(words)}`{place} failed with status {process.returncode}")
