"""%%ongq in a notebook: a cell is a script. IPython is not imported before it has asked for this."""
from __future__ import annotations

import argparse
import base64
import html
import importlib
import os
from typing import Any, Iterator, NoReturn

from . import drawing
from .faults import OngqError
from .program import Result, Table, run
from .saved import read

MOST_ROWS = 1_000  # of a table that are shown
MOST_LANES = 200   # of a saved file that is drawn


class CellFault(Exception):
    """A fault of a cell, which IPython shows by its lines alone."""

    def _render_traceback_(self) -> list[str]:
        return str(self).splitlines()


class Words(argparse.ArgumentParser):
    """Reads the words behind %%ongq."""

    def error(self, message: str) -> NoReturn:
        raise CellFault(f"%%ongq: {message}")


class Shown:
    """Something that a notebook shows, and a terminal as text."""

    def __init__(self, page: str, text: str) -> None:
        self.page, self.text = page, text

    def _repr_html_(self) -> str:
        return self.page

    def __repr__(self) -> str:
        return self.text


def table_page(table: Table) -> str:
    """The table in HTML."""
    head = "".join(f"<th>{html.escape(name)}</th>" for name in table.columns)
    rows = ("".join(f"<td>{html.escape(str(value))}</td>" for value in row) for row in table.rows[:MOST_ROWS])
    body = "".join(f"<tr>{row}</tr>" for row in rows)
    left = f"<p>{len(table.rows) - MOST_ROWS} more rows</p>" if len(table.rows) > MOST_ROWS else ""
    return f"<table><thead><tr>{head}</tr></thead><tbody>{body}</tbody></table>{left}"


def drawing_page(name: str, path: str) -> str:
    """The drawing of a saved file, as a picture: in the page itself its rules of style would hold for all of the page."""
    saved = read(path)
    if len(saved.entries) > MOST_LANES:
        return f"<p>{html.escape(name)}: {len(saved.entries)} rows, too many to draw</p>"
    over = drawing.window(saved.entries, None, None, 720)
    drawn = drawing.svg(drawing.name_of(name), drawing.names_said(saved), drawing.lanes(saved), over)
    data = base64.b64encode(drawn.encode()).decode()
    return f'<img alt="{html.escape(name)}" src="data:image/svg+xml;base64,{data}">'


def shown(result: Result, folder: str) -> Iterator[Shown]:
    """What is shown of a run: its tables, and each file that it saved."""
    for table in result:
        yield Shown(table_page(table), table.text.rstrip("\n"))
    for name in dict.fromkeys(result.saved):
        yield Shown(drawing_page(name, os.path.join(folder, name)), f"saved {name}")


def display(result: Result, folder: str) -> None:
    """Shows what a run wrote."""
    show = importlib.import_module("IPython.display").display
    for one in shown(result, folder):
        show(one)


def ongq_cell(line: str, cell: str) -> None:
    """%%ongq [--folder F] [--workers N]: runs the cell as a script, in the folder of the notebook or in F."""
    parser = Words(add_help=False)
    parser.add_argument("--folder", default=".")
    parser.add_argument("--workers", type=int, default=1)
    words = importlib.import_module("IPython.utils.process").arg_split(line)
    asked = parser.parse_args(words)
    try:
        result = run(cell, asked.folder, workers=asked.workers)
    except OngqError as why:
        display(why.results, asked.folder)
        raise CellFault(str(why)) from None
    except (OSError, ValueError) as why:
        raise CellFault(f"%%ongq: {why}") from None
    display(result, asked.folder)


def load_ipython_extension(shell: Any) -> None:
    """Called by `%load_ext ongq`."""
    shell.register_magic_function(ongq_cell, "cell", "ongq")
