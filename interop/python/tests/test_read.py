"""Saved files: what is read and refused, with the short way for plain lines and without it."""
from __future__ import annotations

import os
import pathlib
import random
import tempfile
import unittest
from unittest import mock

import ongq
from ongq import plain

COLUMNS = [ongq.Column("n", "INT"), ongq.Column("s", "TEXT"), ongq.Column("d", "DATE"), ongq.Column("p", "PERIOD")]
ENDS = ["now", "infinity", "-infinity", "2026-01-01", "+2026-02-01", "2026-01-01+", "2026-01-01+2026-02-01", "-000044-03-15"]
DAYS = ["*", "{[-infinity,2026-01-01)}", "{[2026-01-01,infinity)}", "{[2026-01-01,2026-01-02),[2026-01-03,infinity)}"]
TEXTS = ["", "a", "a,b", 'say "x"', '"', "two\nlines", "rows:3", "*", "ongq:2", "é", "a\rb", " b ", "\0", "a\0,b"]
SPOILT = ['5,"a,now,"[now,now)",*', "1,a,now", '9223372036854775808,a,now,"[now,now)",*', '1,a,now,"[now,now,now)",*', '1,a,now,"[now)",*',
          '1,a,now,"[now,now)","{[-infinity,infinity)}"', '1,a,now,"[now,now)","{[2026-01-02,2026-01-02)}"', '+1,a,now,"[now,now)",*',
          '1,a,soon,"[now,now)",*', '1,a,now,"[now,now)",{}', '1,a,now,"[now,now)","{[2026-01-01,2026-01-03),[2026-01-03,infinity)}"',
          '1,a,now,"[now,now)",', '1,a,now,"[now,now)","{[2026-01-01,)}"', '1,a,now,"[now\n,now)",*', '1,a,now,"[now,now\n)",*',
          '1,a,now,"[now,now)","{[2026-01-01\n,infinity)}"', '1,\udcff,now,"[now,now)",*', "rows:1",
          '1\0,a,now,"[now,now)",*', '1,a,now\0,"[now,now)",*', '1,a,now,"[now,now)",*\0', "\0", '1,a,now,"[now,now\0)",*',
          f'{"9" * 5_000},a,now,"[now,now)",*', f'-{"9" * 5_000},a,now,"[now,now)",*', f"rows:{'9' * 5_000}"]


class Files(unittest.TestCase):
    """Tests with a folder of their own."""

    def setUp(self) -> None:
        folder = tempfile.TemporaryDirectory()
        self.addCleanup(folder.cleanup)
        self.path = os.path.join(folder.name, "f.csv")

    def put(self, text: str) -> None:
        pathlib.Path(self.path).write_bytes(text.encode("utf-8", "surrogateescape"))

    def said(self) -> object:
        """What the file holds, or its fault."""
        try:
            return ongq.read(self.path)
        except ongq.Fault as fault:
            return str(fault)

    def both(self) -> object:
        """The same, where it is the same without the short way."""
        short = self.said()
        with mock.patch.object(plain.PlainLines, "read", side_effect=ValueError):
            self.assertEqual(self.said(), short)
        return short


def random_entry(chance: random.Random) -> ongq.Entry:
    number, text = chance.choice([0, -1, 7, 2**63 - 1, -2**63]), chance.choice(TEXTS)
    point, start, end = (ongq.read_point(chance.choice(ENDS)) for _ in range(3))
    days = ongq.ALL_DAYS if chance.random() < 0.5 else ongq.read_days(chance.choice(DAYS[1:]))
    return (number, text, point, ongq.Period(start, end)), days


class Read(Files):
    def test_what_is_written_is_read(self) -> None:
        for seed in range(20):
            chance = random.Random(seed)
            saved = ongq.Saved(COLUMNS, [random_entry(chance) for _ in range(chance.randrange(300))])
            ongq.write(self.path, saved)
            self.assertEqual(self.both(), saved)

    def test_a_spoilt_record_is_told_by_its_number(self) -> None:
        good = '1,"a, b",now,"[now,2026-01-01)",*\n'
        for spoilt in SPOILT:
            for at in (0, 1, 127, 128, 130):
                lines = [good] * 131
                lines[at] = spoilt + "\n"
                self.put(f"ongq:2\n{','.join(map(str, COLUMNS))}\n" + "".join(lines) + "rows:131\n")
                wanted = f"record {at + 3}"
                self.assertEqual(self.both(), wanted, spoilt)

    def test_line_ends_and_empty_lines(self) -> None:
        wanted = ongq.Saved([COLUMNS[0]], [((1,), ongq.ALL_DAYS), ((2,), ongq.ALL_DAYS)])
        for text in ("ongq:2\nn:INT\n1,*\n2,*\nrows:2\n", "\ufeffongq:2\r\nn:INT\r\n1,*\r\n2,*\r\nrows:2",
                     "ongq:2\n\nn:INT\r1,*\n\n2,*\rrows:2\n",
                     'n:INT,rows:2\n1,"{[-infinity,infinity)}"\n2,"{[-infinity,infinity)}"'):
            self.put(text)
            self.assertEqual(self.both(), wanted, text)

    def test_zeros_before_a_number_count_for_nothing(self) -> None:
        for zeros in (1, 19, 20, 5_000):
            self.put(f"ongq:2\nn:INT\n{'0' * zeros}7,*\n-{'0' * zeros}8,*\n{'0' * zeros},*\nrows:3\n")
            wanted = ongq.Saved([COLUMNS[0]], [((number,), ongq.ALL_DAYS) for number in (7, -8, 0)])
            self.assertEqual(self.both(), wanted, zeros)

    def test_the_number_of_rows(self) -> None:
        for text, wanted in (("ongq:2\nn:INT\n1,*\n", "record 4"), ("ongq:2\nn:INT\n1,*\nrows:2\n", "row count: said 2 found 1"),
                             ("ongq:2\nn:INT\n1,*\n2,*\nrows:1\n", "row count: said 1 found 2"),
                             ('n:INT,rows:0\n1,"{[-infinity,infinity)}"\n', "row count: said 0 found 1"),
                             ("ongq:2\nn:INT\nrows:0\n1,*\n", "record 3"), ("ongq:2\nn:INT\nrows:0\nrows:0\n", "record 3"),
                             ("n:INT,rows:1\n", "row count: said 1 found 0"),
                             (f"n:INT,rows:{'1' * 5_000}\n", "header"), ("n\0:INT,rows:1\n", "header"),
                             ("ongq:3\nn:INT\n", "header"), ("", "header")):
            self.put(text)
            self.assertEqual(self.both(), wanted, text)

    def test_rows_as_of_a_day(self) -> None:
        self.put('ongq:2\nn:INT,p:PERIOD\n2,"[2026-01-01,now)",*\n1,"[now,now)","{[2026-01-05,infinity)}"\nrows:2\n')
        saved = ongq.read(self.path)
        self.assertEqual([tuple(map(str, row)) for row in saved.rows("2026-01-05")],
                         [("1", "[2026-01-05,2026-01-05)"), ("2", "[2026-01-01,2026-01-05)")])
        self.assertEqual(len(saved.rows("2026-01-04")), 1)

    def test_write_refuses_what_would_not_be_read(self) -> None:
        for columns, row in ((["n", "INT"], ("x",)), (["n", "TEXT"], ("\udcff",)), (["n-1", "INT"], (1,)), (["n", "INT"], (1, 2))):
            with self.assertRaises(ValueError):
                ongq.write(self.path, ongq.Saved([ongq.Column(*columns)], [(row, ongq.ALL_DAYS)]))


if __name__ == "__main__":
    unittest.main()
