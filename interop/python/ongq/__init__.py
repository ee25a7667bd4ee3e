"""ongq for Python, by the standard library of Python 3.9 alone; docs/INTEROP.md has examples.

    saved = ongq.read("r.csv")             # a saved file of either version
    saved.rows("2020-08-16")               # its rows as of a day, each once, in the order of PRINT
    for row, days in saved.entries: ..     # the rows as they are kept, and the days on which each is there
    saved.to_dataframe("2020-08-16")       # the rows as of a day, where pandas is there
    ongq.write("s.csv", saved)             # version 2

    result = ongq.run(script, folder="..")     # runs the program; a fault is an OngqError
    result[0].rows                             # what the first PRINT wrote

    %load_ext ongq                         # in a notebook: a cell after %%ongq is a script

In a saved file INT is an int and TEXT a str. DATE is a Point, and a Day as of a day; PERIOD is a Period, and a Span as of a day. Each
of these has as its str what ongq writes for it. A day is given as a Day, a datetime.date or a text as ongq spells it.
"""
from __future__ import annotations

import pathlib

from .days import (ALL_DAYS, FIRST, INFINITY, LAST, MINUS_INFINITY, Day, Days, Moment, Period, Point, Span, read_day, read_days,
                   read_period, read_point, read_reference_day)
from .faults import CheckFault, DeviceFault, FileFault, MemoryFault, OngqError, Place, ScriptFault
from .frames import Column
from .notebook import load_ipython_extension
from .program import Result, Table, Value, find_program, run
from .saved import Entry, Fault, Row, Saved, open_saved, read, scan, write

__version__ = (pathlib.Path(__file__).parent / "VERSION").read_text(encoding="utf-8").strip()
__all__ = [
    "ALL_DAYS", "FIRST", "INFINITY", "LAST", "MINUS_INFINITY", "CheckFault", "Column", "Day", "Days", "DeviceFault", "Entry", "Fault",
    "FileFault", "MemoryFault", "Moment", "OngqError", "Period", "Place", "Point", "Result", "Row", "Saved", "ScriptFault", "Span",
    "Table", "Value", "find_program", "load_ipython_extension", "open_saved", "read", "read_day", "read_days", "read_period",
    "read_point", "read_reference_day", "run", "scan", "write"]
