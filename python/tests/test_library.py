"""How the package finds its library, and what it says if it doesn't."""

import os
import shutil
import subprocess
import sys
import tempfile
import unittest
from pathlib import Path

import bale
from bale import _find

PACKAGE = Path(bale.__file__).parent


class Library(unittest.TestCase):
    def setUp(self):
        folder = tempfile.TemporaryDirectory()
        self.addCleanup(folder.cleanup)
        self.folder = Path(folder.name).resolve()
        self.copy = self.folder / "python" / "bale"
        shutil.copytree(PACKAGE, self.copy, ignore=shutil.ignore_patterns("*.so", "__pycache__"))

    def imported(self, library=None):
        """Imports the copy in another process; the status and what it printed at the end."""
        others = dict(os.environ)
        others.pop("BALE_C_SO", None)
        others.pop("PYTHONPATH", None)
        if library is not None:
            others["BALE_C_SO"] = str(library)
        done = subprocess.run(
            [sys.executable, "-B", "-c", "import bale; print(bale._find.library())"],
            cwd=self.copy.parent,
            env=others,
            capture_output=True,
            text=True,
        )
        return done.returncode, (done.stdout + done.stderr).strip().splitlines()[-1]

    def test_no_library(self):
        status, said = self.imported()
        self.assertEqual(status, 1)
        self.assertIn("ImportError: bale: the library libbale_c.so is not found.", said)
        built = str(self.folder / "c/out/libbale_c.so")
        for part in ("Run c/build", "pip wheel ./python", "BALE_C_SO", built):
            self.assertIn(part, said)

    def test_the_library_that_is_named_is_the_only_one(self):
        shutil.copy(_find.library(), self.copy / "libbale_c.so")
        status, said = self.imported("/none/libbale_c.so")
        self.assertEqual(status, 1)
        self.assertIn("Looked for: /none/libbale_c.so. Run c/build", said)
        self.assertEqual(self.imported(_find.library()), (0, str(_find.library())))

    def test_which_library_comes_first(self):
        out = self.folder / "c" / "out"
        out.mkdir(parents=True)
        for path in (out / "libbale_c_unproved.so", out / "libbale_c.so", self.copy / "libbale_c.so"):
            shutil.copy(_find.library(), path)
            self.assertEqual(self.imported(), (0, str(path)))

    def test_a_file_that_is_no_library(self):
        library = self.copy / "libbale_c.so"
        library.write_text("no library\n")
        status, said = self.imported()
        self.assertEqual(status, 1)
        self.assertIn(f"ImportError: bale: {library} can't be loaded as libbale_c.so", said)

    def test_another_library(self):
        import _ctypes

        status, said = self.imported(_ctypes.__file__)
        self.assertEqual(status, 1)
        self.assertIn("can't be loaded as libbale_c.so", said)

    def test_version(self):
        self.assertIn(bale.version(), ("1", "1 (unproved)"))


if __name__ == "__main__":
    unittest.main()
