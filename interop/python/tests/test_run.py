"""Runs of the program: what each statement wrote, its kinds, and faults with their places."""
from __future__ import annotations

import datetime
import glob
import os
import pathlib
import shutil
import subprocess
import tempfile
import unittest

import ongq
from ongq.program import Run
from ongq.scripts import Names, statements

TOP = pathlib.Path(__file__).resolve().parents[3]
HEAD = "CREATE TABLE t (n INT, s TEXT); INSERT INTO t VALUES (1, '42');"

try:
    PROGRAM = ongq.find_program()
except FileNotFoundError:
    PROGRAM = ""


def plainly(script: bytes, folder: str) -> subprocess.CompletedProcess[bytes]:
    """A run of the program on the script as it is."""
    return subprocess.run([PROGRAM, "run"], input=script, cwd=folder, capture_output=True)


@unittest.skipUnless(PROGRAM, "the program is not here")
class Runs(unittest.TestCase):
    def setUp(self) -> None:
        made = tempfile.TemporaryDirectory()
        self.addCleanup(made.cleanup)
        self.folder = made.name

    def outputs(self, script: str) -> list[str]:
        return [table.text for table in ongq.run(script, self.folder)]

    def assert_as_plainly(self, script: bytes) -> None:
        """The pieces together, and a fault, are what the program writes of the script as it is."""
        before = self.copy()
        wanted, files = plainly(script, self.folder), self.files()
        shutil.rmtree(self.folder)
        shutil.copytree(before, self.folder)
        try:
            result, status, told, line = ongq.run(script, self.folder), 0, "", ""
        except ongq.OngqError as why:
            result, status, told, line = why.results, why.status, f"{why}\n", f"{why.line}\n" if why.line else ""
        self.assertEqual(status, wanted.returncode, script)
        self.assertEqual(told, wanted.stderr.decode(), script)
        self.assertEqual("".join(table.text for table in result) + line, wanted.stdout.decode(), script)
        self.assertEqual(self.files(), files, script)
        for table in result:
            if table.statement != "EXPLAIN":
                self.assertEqual(",".join(table.columns), table.text.split("\n")[0])
                self.assertTrue(all(len(row) == len(table.columns) for row in table.rows))

    def copy(self) -> str:
        made = tempfile.TemporaryDirectory()
        self.addCleanup(made.cleanup)
        return str(shutil.copytree(self.folder, made.name, dirs_exist_ok=True))

    def files(self) -> dict[str, bytes]:
        return {path: pathlib.Path(self.folder, path).read_bytes() for path in sorted(os.listdir(self.folder))
                if os.path.isfile(os.path.join(self.folder, path))}

    def test_values_have_the_kinds_of_their_columns(self) -> None:
        table = ongq.run("""CREATE TABLE t (n INT, s TEXT, d DATE, p PERIOD);
            INSERT INTO t VALUES (1, '42', ONGOING 'now', PERIOD '[2024-01-01,now)');
            PRINT SELECT n, s AS n, a.d, START(a.p), p, 7, '7', LEAST(d, DATE '-infinity'), GREATEST(d, DATE 'infinity'), ONGOING 'now',
                COMMON(p, p), PERIOD(d, d), DATE '-000044-03-15' FROM t AS a AS OF DATE '2026-01-15';""")[0]
        day = datetime.date(2026, 1, 15)
        self.assertEqual(table.rows, [(1, "42", day, datetime.date(2024, 1, 1), "[2024-01-01,2026-01-15)", 7, "7", "-infinity", "infinity",
                                       day, "[2024-01-01,2026-01-15)", "[2026-01-15,2026-01-15)", "-000044-03-15")])
        self.assertEqual(table.columns, ["n", "n", "d", "c4", "p", "c6", "c7", "c8", "c9", "c10", "c11", "c12", "c13"])

    def test_other_statements_that_write(self) -> None:
        tables = ongq.run(f"{HEAD} TABLES; VALID t AS OF DATE '2026-01-15'; EXPLAIN SELECT n FROM t;", self.folder).tables
        self.assertEqual([table.rows for table in tables], [[("t", "table")], [("-infinity", "infinity")], [("project 1",), ("  scan t",)]])

    def test_rows_that_look_like_something_else(self) -> None:
        texts = ["n,s", "n", "mark_", "fault syntax statement 1", "\n", "a\nn,s\n1", "\r", '"', "", ";", "' -- ;", "name,what", "é😀",
                 "\0", "a\0,b"]
        rows = ", ".join("(1, '" + text.replace("'", "''") + "')" for text in texts)
        script = f"CREATE TABLE t (n INT, s TEXT); INSERT INTO t VALUES {rows}; PRINT t AS OF DATE '2026-01-01'; TABLES;" \
                 "PRINT SELECT s FROM t AS OF DATE '2026-01-01';PRINT SELECT s FROM t AS OF DATE '2026-01-01'"
        self.assert_as_plainly(script.encode() + b";")
        first, tables, second, third = ongq.run(script + "; -- PRINT t;\n", self.folder)
        wanted = sorted(texts, key=str.encode)
        self.assertEqual([first.rows, tables.rows], [[(1, text) for text in wanted], [("t", "table")]])
        self.assertEqual([second.rows, third.rows], [[(text,) for text in wanted]] * 2)

    def test_texts_and_comments_hold_no_statements(self) -> None:
        script = HEAD + "-- TABLES; '\nTABLES -- ;\n; INSERT INTO t VALUES (2, '; TABLES; ''--'); tables;\n;TABLES;"
        self.assert_as_plainly(script.encode())

    def test_faults_between_statements_that_write(self) -> None:
        lines = ["TABLES; TABLES; PRINT t AS OF DATE '2026-01-01'; PRINT x AS OF DATE '2026-01-01'; TABLES;",
                 "TABLES;\tTABLES; INSERT INTO t VALUES ('é', 'é'); TABLES; -- and more",
                 "TABLES; TABLES; DROP none;", "TABLES; foo; TABLES;", "TABLES; \0; TABLES;",
                 "TABLES; PRINT '\0' AS OF DATE '2026-01-01'; TABLES;", f"TABLES; INSERT INTO t VALUES ({'9' * 5_000}, ''); TABLES;",
                 "TABLES; OPEN x FROM 'a\0b'; TABLES;",
                 "TABLES; PRINT 'a ; TABLES;", "TABLES; #; TABLES;", "TABLES; TABLES",
                 "TABLES; OPEN x FROM 'a statement 9\nb'; TABLES;\r\nTABLES;",
                 "TABLES; OPEN x FROM '../x'; TABLES;", "TABLES; PRINT t AS OF DATE 'soon';",
                 "TABLES; IMPORT INTO t FROM 'bad.csv'; TABLES;",
                 "TABLES; TABLES; " * 9 + "PRINT " + "x" * 70 + " AS OF DATE '2026-01-01';" + "TABLES; " * 20, "TABLES; /* \xff */ TABLES;"]
        pathlib.Path(self.folder, "bad.csv").write_text("n,s\n1,a\nx,b\n", encoding="utf-8")
        for line in lines:
            for head in (HEAD, HEAD + "TABLES;\n" * 3, HEAD + "SAVE t TO 's.csv'; OPEN u FROM 's.csv'; PRINT u AS OF DATE '2026-01-01';\n"):
                self.assert_as_plainly((head + line).encode("latin-1" if "\xff" in line else "utf-8"))

    def test_the_runs_of_the_gate(self) -> None:
        for path in sorted(glob.glob(f"{TOP}/.ci/runs/*.ongq")):
            files = path[:-5] + ".files"
            shutil.rmtree(self.folder)
            shutil.copytree(files, self.folder) if os.path.isdir(files) else os.mkdir(self.folder)
            self.assert_as_plainly(pathlib.Path(path).read_bytes())

    def test_the_kinds_of_the_names_of_examples(self) -> None:
        for path in sorted(glob.glob(f"{TOP}/examples/*.ongq")):
            shutil.copytree(path[:-5] + ".files", self.folder, dirs_exist_ok=True) if os.path.isdir(path[:-5] + ".files") else None
            script = pathlib.Path(path).read_bytes()
            self.assert_as_plainly(script)
            names = Names(Run(script, self.folder).headers.__getitem__)
            for statement in statements(script):
                names.carry_out(statement)
            saves = "".join(f"SAVE {name} TO 'of_{name}';\n" for name in names.columns)
            ongq.run(script + saves.encode(), self.folder)
            for name, columns in names.columns.items():
                self.assertEqual(ongq.read(os.path.join(self.folder, f"of_{name}")).columns, columns, f"{path}, {name}")

    def test_a_fault_is_an_exception_with_its_parts(self) -> None:
        with self.assertRaises(ongq.CheckFault) as caught:
            ongq.run(f"{HEAD}\nTABLES; PRINT x AS OF DATE '2026-01-01';", self.folder)
        fault = caught.exception
        self.assertEqual((fault.status, fault.line), (4, "fault no such name statement 4: x"))
        self.assertEqual((fault.place, fault.words), (ongq.Place(2, 15), "no such name x"))
        self.assertEqual(fault.snippet, "  TABLES; PRINT x AS OF DATE '2026-01-01';\n                ^")
        self.assertEqual([table.rows for table in fault.results], [[("t", "table")]])

    def test_a_column_is_of_the_file_that_was_there(self) -> None:
        ongq.run(f"{HEAD} SAVE t TO 'f.csv';", self.folder)
        result = ongq.run("OPEN a FROM 'f.csv'; CREATE TABLE u (d DATE); SAVE u TO 'f.csv'; OPEN b FROM 'f.csv';"
                          "PRINT a AS OF DATE '2026-01-01'; PRINT b AS OF DATE '2026-01-01';", self.folder)
        self.assertEqual([table.columns for table in result], [["n", "s"], ["d"]])
        self.assertEqual(result[0].rows, [(1, "42")])
        self.assertEqual(result.saved, ["f.csv"])

    def test_what_cannot_be_run(self) -> None:
        with self.assertRaises(FileNotFoundError):
            ongq.run("TABLES;", program="/no/such/program")
        with self.assertRaises(ValueError):
            ongq.run("TABLES;", workers=65)
        self.assertEqual(ongq.run("").tables, [])
        self.assertEqual(ongq.run("TABLES;", workers=4)[0].rows, [])


if __name__ == "__main__":
    unittest.main()
