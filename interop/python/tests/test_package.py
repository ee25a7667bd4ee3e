"""The package as it is installed, and cells of a notebook."""
from __future__ import annotations

import base64
import importlib.util
import json
import os
import pathlib
import re
import shutil
import subprocess
import sys
import tempfile
import unittest
import zipfile

import ongq

HERE = pathlib.Path(__file__).resolve().parents[1]
TOP = HERE.parents[1]
DOCUMENT = TOP / "docs" / "INTEROP.md"
HAS_PIP = importlib.util.find_spec("pip") is not None
HAS_IPYTHON = importlib.util.find_spec("IPython") is not None

try:
    PROGRAM = ongq.find_program()
except FileNotFoundError:
    PROGRAM = ""

CELLS = """
import json, sys
from IPython.core.interactiveshell import InteractiveShell
from IPython.utils.capture import capture_output
shell = InteractiveShell.instance()
shell.run_line_magic("load_ext", "ongq")
found = []
for cell in json.load(sys.stdin):
    with capture_output() as captured:
        done = shell.run_cell(cell)
    pages = [one.data.get("text/html", "") for one in captured.outputs]
    found.append([pages, captured.stdout + captured.stderr, done.success])
json.dump(found, sys.stdout)
"""


def python(folder: str, *words: str, asked: str = "") -> str:
    """What Python writes in a folder, whose package `ongq` it finds first."""
    path = {"PYTHONPATH": folder, "PYTHONDONTWRITEBYTECODE": "1", "HOME": folder, "IPYTHONDIR": folder}
    done = subprocess.run([sys.executable, *words], cwd=folder, input=asked, capture_output=True, text=True, env={**os.environ, **path})
    if done.returncode:
        raise AssertionError(done.stderr)
    return done.stdout


class Package(unittest.TestCase):
    def setUp(self) -> None:
        made = tempfile.TemporaryDirectory()
        self.addCleanup(made.cleanup)
        self.folder = made.name

    def wheel(self) -> str:
        code = f"import sys; sys.path.insert(0, {str(HERE / 'build_backend')!r}); import wheels; print(wheels.build_wheel('.'))"
        return os.path.join(self.folder, python(self.folder, "-c", code).strip())

    def assert_draws(self, shown: str, lanes: int) -> None:
        """What is shown is a picture, and an SVG with so many lanes."""
        parts = re.fullmatch('<img alt="[a-z.]*" src="data:image/svg\\+xml;base64,([^"]*)">', shown)
        self.assertTrue(parts, shown[:80])
        drawn = base64.b64decode(parts[1] if parts else "").decode()
        self.assertEqual((drawn[:5], drawn.count('class="name"')), ("<svg ", lanes))

    def test_the_wheel_has_what_the_package_needs(self) -> None:
        with zipfile.ZipFile(self.wheel()) as wheel:
            wheel.extractall(self.folder)
            names = wheel.namelist()
        self.assertIn("ongq/py.typed", names)
        listed = pathlib.Path(self.folder, f"ongq-{ongq.__version__}.dist-info", "RECORD").read_text(encoding="utf-8")
        self.assertEqual(sorted(line.split(",")[0] for line in listed.splitlines()), sorted(names))
        path = os.path.join(self.folder, "f.csv")
        ongq.write(path, ongq.Saved([ongq.Column("n", "INT")], [((1,), ongq.ALL_DAYS)]))
        self.assertEqual(python(self.folder, "-m", "ongq", path, "2026-01-15"), "n\n1\n")
        code = "import ongq.notebook, sys; print(ongq.__file__); print(ongq.notebook.drawing_page('f', sys.argv[1]))"
        told = python(self.folder, "-c", code, path).splitlines()
        self.assertTrue(told[0].startswith(self.folder))
        self.assert_draws(told[1], 1)

    @unittest.skipUnless(HAS_PIP, "pip is not here")
    def test_pip_installs_it_without_network(self) -> None:
        python(self.folder, "-m", "pip", "install", "-q", "--no-index", "--disable-pip-version-check", "--no-compile", "--target",
               self.folder, str(HERE))
        self.assertEqual(python(self.folder, "-c", "import ongq; print(ongq.__version__)").strip(), ongq.__version__)

    @unittest.skipUnless(HAS_IPYTHON and PROGRAM, "IPython or the program is not here")
    def test_cells_of_a_notebook(self) -> None:
        os.symlink(HERE / "ongq", os.path.join(self.folder, "ongq"))
        os.mkdir(os.path.join(self.folder, "below"))
        script = "CREATE TABLE t (n INT, s TEXT, p PERIOD); INSERT INTO t VALUES (1, '<b>&', PERIOD '[2026-01-01,now)');\n"
        cells = [f"%%ongq\n{script}PRINT t AS OF DATE '2026-01-15';\nSAVE t TO 't.csv';\nTABLES;",
                 f"%%ongq --folder below --workers 2\n{script}SAVE t TO 'u.csv';",
                 "%%ongq\nTABLES;\nPRINT x AS OF DATE '2026-01-15';", "%%ongq --workers many\nTABLES;", "%%ongq --workers 65\nTABLES;",
                 *re.findall("^```cell.*?\n(%%ongq.*?)^```$", DOCUMENT.read_text(encoding="utf-8"), re.MULTILINE | re.DOTALL)]
        shutil.copy(TOP / "examples" / "patches.left" / "r.csv", self.folder)
        shown, below, fault, words, workers, documented = json.loads(python(self.folder, "-c", CELLS, asked=json.dumps(cells)))
        self.assertIn("<tr><td>1</td><td>&lt;b&gt;&amp;</td><td>[2026-01-01,2026-01-15)</td></tr>", shown[0][0])
        self.assertIn("<td>table</td>", shown[0][1])
        self.assert_draws(shown[0][2], 1)
        self.assertEqual([len(shown[0]), shown[2], len(below[0])], [3, True, 1])
        self.assert_draws(below[0][0], 1)
        self.assertTrue(os.path.exists(os.path.join(self.folder, "below", "u.csv")))
        self.assertEqual([len(fault[0]), fault[2]], [1, False])
        self.assertEqual(fault[1].rstrip("\n"), "2:7: no such name x\n  PRINT x AS OF DATE '2026-01-15';\n        ^")
        self.assertEqual(words[1], "%%ongq: argument --workers: invalid int value: 'many'\n")
        self.assertEqual(workers[1], "%%ongq: workers are 1 to 64\n")
        self.assertIn("<tr><td>500</td><td>202</td></tr>", documented[0][0])
        self.assert_draws(documented[0][1], 2)


if __name__ == "__main__":
    unittest.main()
