"""DataFrames of what is printed and of saved files."""
from __future__ import annotations

import datetime
import importlib.util
import unittest
from typing import Any

import ongq

DAY = "2026-01-15"
COLUMNS = [ongq.Column("n", "INT"), ongq.Column("s", "TEXT"), ongq.Column("d", "DATE"), ongq.Column("p", "PERIOD")]


def frame(*dates: str) -> Any:
    """A row as of a day for each of these dates."""
    period = ongq.read_period("[2024-01-01,now)")
    rows = [(number, "7", ongq.read_point(date), period) for number, date in enumerate(dates)]
    return ongq.Saved(COLUMNS, [(row, ongq.ALL_DAYS) for row in rows]).to_dataframe(DAY)


@unittest.skipUnless(importlib.util.find_spec("pandas"), "pandas is not here")
class Frames(unittest.TestCase):
    def test_columns_have_the_types_of_pandas(self) -> None:
        for made in (frame("now", "2026-03-01"), frame()):
            self.assertEqual([made[name].dtype.kind for name in made.columns], ["i", "O", "M", "O"])
        made = frame("now", "2026-03-01")
        self.assertEqual(list(made["d"].dt.strftime("%Y-%m-%d")), ["2026-01-15", "2026-03-01"])
        self.assertEqual([list(made["n"]), list(made["s"]), list(made["p"])], [[0, 1], ["7", "7"], ["[2024-01-01,2026-01-15)"] * 2])

    def test_days_that_pandas_has_not_are_objects(self) -> None:
        made = frame("now", "infinity", "-000044-03-15")
        self.assertEqual(list(made["d"]), [datetime.date(2026, 1, 15), "infinity", "-000044-03-15"])

    def test_a_day_is_no_number(self) -> None:
        import pandas

        for dates in (("now",), ("now", "infinity")):
            times = pandas.to_datetime(frame(*dates)["d"], errors="coerce")
            self.assertEqual(times[0], pandas.Timestamp(2026, 1, 15))
            self.assertTrue(all(map(pandas.isna, times[1:])))

    def test_printed_rows_make_the_same(self) -> None:
        import pandas.testing

        schema = ["n,s,d,p", f"0,7,{DAY},\"[2024-01-01,{DAY})\"", ""]
        pandas.testing.assert_frame_equal(ongq.Table("PRINT", "\n".join(schema), COLUMNS).to_dataframe(), frame("now"))
        twice = ongq.Table("PRINT", "n,n\n1,2\n", COLUMNS[:1] * 2).to_dataframe()
        self.assertEqual([list(twice.columns), twice.values.tolist()], [["n", "n"], [[1, 2]]])


if __name__ == "__main__":
    unittest.main()
