"""Which ongq is measured."""
from __future__ import annotations

import pathlib
import subprocess

ROOT = pathlib.Path(__file__).resolve().parent.parent


def program_of_sources() -> pathlib.Path:
    """That of dist/ where it was built from the sources as they are, else the one that ./ongq builds where it has to."""
    if subprocess.run([ROOT / "dist" / "sources", "--is-given", "ongq"], stderr=subprocess.DEVNULL).returncode == 0:
        return ROOT / "dist" / "ongq-x86_64-linux"
    subprocess.run([ROOT / "ongq", "run"], stdin=subprocess.DEVNULL, check=True)
    return ROOT / "crates" / "ongq" / "out" / "ongq"


def milliseconds(seconds: float) -> str:
    """Milliseconds with two decimals, or so many fewer that three digits stand."""
    value = seconds * 1e3
    return f"{value:,.{2 if value < 10 else 1 if value < 100 else 0}f}"
