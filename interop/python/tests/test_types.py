"""The types of the package, by mypy, which begins as this file is loaded and works beside the other tests."""
from __future__ import annotations

import pathlib
import shutil
import subprocess
import tempfile
import unittest

HERE = pathlib.Path(__file__).resolve().parents[1]
CACHE = tempfile.TemporaryDirectory()
MYPY = subprocess.Popen(["mypy", "--cache-dir", CACHE.name], cwd=HERE, stdout=subprocess.PIPE, text=True) if shutil.which("mypy") else None


class Types(unittest.TestCase):
    @unittest.skipUnless(MYPY, "mypy is not here")
    def test_they_hold(self) -> None:
        assert MYPY
        said, _ = MYPY.communicate()
        self.assertEqual(MYPY.returncode, 0, said)


if __name__ == "__main__":
    unittest.main()
