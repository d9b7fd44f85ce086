"""The build on first use, with a stand-in for rt; and the demo flights, made again."""
import contextlib
import io
import os
import shutil
import subprocess
import sys
import tempfile
import time
import unittest
from pathlib import Path
from unittest import mock

from support import DEMO, identify

from identify import library

FAKE_RT = """#!/bin/sh
if [ "$*" != lib ]; then exit 2; fi
crate=$(basename "$PWD")
echo "rt: $crate proved"
echo "a note"
mkdir -p out
name=$crate
if [ $name = exports ]; then name=${FAKE_RT_EXPORTS:-exports}; fi
cp "$FAKE_RT_ARCHIVES/$name.a" out/lib$crate.a
exit ${FAKE_RT_STATUS:-0}
"""
FUNCTIONS = {
    "exports": ("identify_byte_run", "identify_plain_units"),
    "lacking": ("identify_byte_run",),
    "two_axis_exports": ("identify_two_axis_run",),
    "live": ("identify_live_open",),
    "pair": ("identify_live_pair_open",),
}
"""The archives that this rt has, and the functions in each."""


def make_archives(folder):
    """Makes these archives in a folder."""
    for name, functions in FUNCTIONS.items():
        source = "".join(f"unsigned {function}(void) {{ return 0; }}\n" for function in functions)
        words = ("cc", "-c", "-fPIC", "-x", "c", "-", "-o", str(folder / f"{name}.o"))
        subprocess.run(words, input=source, text=True, check=True)
        subprocess.run(("ar", "rcs", str(folder / f"{name}.a"), str(folder / f"{name}.o")), check=True)


class FirstUse(unittest.TestCase):
    """Build, reuse, rebuild."""

    @classmethod
    def setUpClass(cls):
        folder = tempfile.TemporaryDirectory()
        cls.addClassCleanup(folder.cleanup)
        cls.archives = folder.name
        make_archives(Path(folder.name))

    def setUp(self):
        folder = tempfile.TemporaryDirectory()
        self.addCleanup(folder.cleanup)
        self.root = Path(folder.name) / "project"
        self.source = self.root / "crates/report/src/lib.rt"
        self.edit = self.root / "crates/report/must-fail/one.edit"
        exported = (self.root / f"crates/{crate}/src/lib.rt" for crate in library.CRATES)
        for path in (self.source, self.edit, self.root / "crates.txt", *exported):
            path.parent.mkdir(parents=True, exist_ok=True)
            path.write_text("")
        programs = Path(folder.name) / "programs"
        programs.mkdir()
        (programs / "rt").write_text(FAKE_RT)
        (programs / "rt").chmod(0o755)
        self.path = f"{programs}{os.pathsep}{os.environ['PATH']}"

    def built(self, **variables):
        """Builds where it is needed; answers what was said on standard error."""
        errors = io.StringIO()
        environment = {"PATH": self.path, "FAKE_RT_ARCHIVES": self.archives, **variables}
        with mock.patch.dict(os.environ, environment), contextlib.redirect_stderr(errors):
            self.shared = library.built(self.root)
        return errors.getvalue()

    def without_rt(self):
        """A path on which there is no rt but all else."""
        programs = self.root.parent / "others"
        programs.mkdir()
        for name in ("cc", "ld", "as"):
            (programs / name).symlink_to(shutil.which(name))
        return {"PATH": str(programs)}

    def test_builds_once_and_says_so(self):
        said = self.built()
        self.assertIn(
            "identify: building the proved library (rt lib in crates/exports, crates/two_axis_exports, crates/live and "
            "crates/pair, then cc)", said
        )
        self.assertIn("rt: exports proved\nrt: two_axis_exports proved\nrt: live proved\nrt: pair proved\n", said)
        self.assertNotIn("a note", said)
        opened = library.open_shared(self.shared)
        self.assertTrue(opened.identify_byte_run and opened.identify_plain_units and opened.identify_two_axis_run)
        self.assertTrue(opened.identify_live_open and opened.identify_live_pair_open)
        self.assertEqual(self.built(), "")

    def test_a_library_of_fewer_crates_is_built_again(self):
        with mock.patch.object(library, "CRATES", library.CRATES[:2]):
            self.built()
        self.assertIn("building", self.built())

    def test_builds_again_after_a_change(self):
        self.built()
        self.edit.write_text("another edit")
        for folder in ("data", "out"):
            (self.root / "crates/report" / folder).mkdir()
            (self.root / "crates/report" / folder / "vectors.bin").write_text("1")
        self.assertEqual(self.built(), "")
        for change in (
            lambda: self.source.write_text("fn main"),
            lambda: self.source.rename(self.source.with_name("other.rt")),
            lambda: self.source.with_name("other.rt").unlink(),
            lambda: (self.root / "crates.txt").write_text("report:"),
        ):
            change()
            self.assertIn("building", self.built())
            self.assertEqual(self.built(), "")

    def test_dates_of_files_do_not_matter(self):
        self.built()
        for seconds in (0, time.time() + 1e7):
            for path in (self.source, self.root / "crates.txt", self.shared):
                os.utime(path, (seconds, seconds))
                self.assertEqual(self.built(), "")
        self.source.write_text("fn main")
        os.utime(self.source, (0, 0))
        self.assertIn("building", self.built())

    def test_a_build_that_was_cut_short_is_made_again(self):
        self.built()
        (self.root / "crates.txt").write_text("report:")
        with mock.patch.object(library, "link", side_effect=KeyboardInterrupt), self.assertRaises(KeyboardInterrupt):
            self.built()
        self.assertIn("building", self.built())

    def test_a_library_of_other_sources_is_not_taken_for_theirs(self):
        self.built()
        self.source.write_text("fn other")
        with mock.patch.object(Path, "write_text", side_effect=KeyboardInterrupt), self.assertRaises(KeyboardInterrupt):
            self.built()
        self.source.write_text("")
        self.assertIn("building", self.built())

    def test_a_library_at_hand_is_used_without_rt(self):
        self.built()
        without = self.without_rt()
        self.assertEqual(self.built(**without), "")
        self.source.write_text("fn main")
        said = self.built(**without)
        self.assertIn("identify: rt is not on the PATH: target/identify/libidentify.so is used as it is", said)
        self.assertEqual(said.count("\n"), 1)
        shutil.rmtree(self.shared.parent)
        self.assertIn("crates/exports/out/libexports.a is used as it is", self.built(**without))
        with mock.patch.dict(os.environ, without):
            self.assertTrue(library.open_library(self.shared).identify_byte_run)

    def test_a_library_at_hand_is_used_without_sources(self):
        self.built()
        shutil.rmtree(self.root / "crates")
        self.assertIn(f"there is no crates/ in {self.root}: target/identify/libidentify.so is used as it is", self.built())

    def test_a_folder_that_cannot_be_written(self):
        (self.root / "target").mkdir()
        (self.root / "target/identify").write_text("in the way")
        with self.assertRaisesRegex(identify.LibraryError, "cannot be built in .*File exists.*IDENTIFY_LIBRARY"):
            self.built()
        self.assertFalse((self.root / "crates/exports/out").exists(), "known before rt is run")

    def test_an_archive_that_cannot_be_linked(self):
        self.built()
        archive = self.root / library.archive_of("exports")
        with mock.patch.object(tempfile, "tempdir", "/nonexistent"):
            with self.assertRaisesRegex(identify.LibraryError, "libexports.a cannot be linked"):
                library.open_library(archive)

    def test_the_archive_of_two_axes_is_taken_in_where_it_is(self):
        self.built()
        archive = self.root / library.archive_of("exports")
        self.assertTrue(library.open_library(archive).identify_two_axis_run)
        ready = self.root.parent / archive.name
        shutil.copy(archive, ready)
        shutil.copy(self.root / library.archive_of("two_axis_exports"), ready.parent)
        self.assertTrue(library.open_library(ready).identify_two_axis_run)
        (ready.parent / "libtwo_axis_exports.a").unlink()
        opened = library.open_library(ready)
        self.assertTrue(opened.identify_byte_run)
        with mock.patch.object(library, "load", return_value=opened), self.assertRaisesRegex(
            identify.LibraryError, "no function identify_two_axis_run, which two axes need; set IDENTIFY_LIBRARY to a ready "
            "libexports.a with libtwo_axis_exports.a beside it, or to a libidentify.so made of both"
        ):
            library.two_axis_run()

    def test_failed_build(self):
        with self.assertRaisesRegex(identify.LibraryError, "`rt lib` in crates/exports failed with status 3"):
            self.built(FAKE_RT_STATUS="3")

    def test_library_that_lacks_a_function(self):
        self.built(FAKE_RT_EXPORTS="lacking")
        with self.assertRaisesRegex(identify.LibraryError, "identify_plain_units"):
            library.open_shared(self.shared)

    def test_without_rt(self):
        with self.assertRaisesRegex(identify.LibraryError, "rt is not on the PATH, and there is no library .*IDENTIFY_LIBRARY"):
            self.built(PATH="/nonexistent")

    def test_without_the_crate_that_exports(self):
        shutil.rmtree(self.root / "crates/exports")
        with self.assertRaisesRegex(identify.LibraryError, "cannot be built in .*crates/exports.*IDENTIFY_LIBRARY"):
            self.built()

    def test_without_sources(self):
        with self.assertRaisesRegex(identify.LibraryError, "IDENTIFY_LIBRARY"):
            library.built(self.root / "crates")


class Demo(unittest.TestCase):
    """The committed flights are those that the script makes."""

    def test_made_again(self):
        with tempfile.TemporaryDirectory() as folder:
            subprocess.run([sys.executable, str(DEMO / "make_flights.py"), folder], check=True, capture_output=True)
            for name in ("clean", "noisy", "saturated", "roll_pitch"):
                self.assertEqual((Path(folder) / f"{name}.csv").read_bytes(), (DEMO / f"{name}.csv").read_bytes())


if __name__ == "__main__":
    unittest.main()
