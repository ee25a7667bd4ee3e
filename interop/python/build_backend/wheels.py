"""Makes the wheel of the package by the standard library alone, so that `pip install` of this folder needs no network (PEP 517)."""
from __future__ import annotations

import base64
import hashlib
import pathlib
import re
import tarfile
import zipfile
from typing import Any, Optional

HERE = pathlib.Path(__file__).resolve().parent.parent
PACKAGE = HERE / "ongq"
PYTHON = "Wheel-Version: 1.0\nGenerator: ongq\nRoot-Is-Purelib: true\nTag: py3-none-any\n"
Settings = Optional[dict[str, Any]]


def project(key: str) -> str:
    """A text of the project in pyproject.toml, which stands on a line of its own."""
    found = re.search(f'^{key} = "(.*)"$', (HERE / "pyproject.toml").read_text(encoding="utf-8"), re.MULTILINE)
    if not found:
        raise ValueError(f"pyproject.toml has no {key}")
    return found[1]


def version() -> str:
    """The version, which is that of the program."""
    return (PACKAGE / "VERSION").read_text(encoding="utf-8").strip()


def stem() -> str:
    """What the names of all that is made begin with."""
    return f"{project('name')}-{version()}"


def metadata() -> str:
    """The text of METADATA."""
    return (f"Metadata-Version: 2.1\nName: {project('name')}\nVersion: {version()}\nSummary: {project('description')}\n"
            f"Requires-Python: {project('requires-python')}\n")


def sources() -> dict[str, bytes]:
    """The files of the package, by their names in the wheel."""
    files = sorted(path for path in PACKAGE.iterdir() if path.is_file())
    return {f"ongq/{path.name}": path.read_bytes() for path in files}


def record(files: dict[str, bytes], name: str) -> bytes:
    """The text of RECORD: each file with its sum and its size, and itself without."""
    def line(path: str, content: bytes) -> str:
        digest = base64.urlsafe_b64encode(hashlib.sha256(content).digest()).rstrip(b"=").decode()
        return f"{path},sha256={digest},{len(content)}\n"

    return ("".join(line(*one) for one in files.items()) + f"{name},,\n").encode()


def make_wheel(folder: str, files: dict[str, bytes]) -> str:
    """A wheel with the files."""
    info, name = f"{stem()}.dist-info", f"{stem()}-py3-none-any.whl"
    files = {**files, f"{info}/METADATA": metadata().encode(), f"{info}/WHEEL": PYTHON.encode()}
    with zipfile.ZipFile(pathlib.Path(folder) / name, "w", zipfile.ZIP_DEFLATED) as wheel:
        for path, content in {**files, f"{info}/RECORD": record(files, f"{info}/RECORD")}.items():
            wheel.writestr(zipfile.ZipInfo(path, (2026, 1, 1, 0, 0, 0)), content)
    return name


def build_wheel(wheel_directory: str, config_settings: Settings = None, metadata_directory: Optional[str] = None) -> str:
    """The wheel of `pip install`."""
    return make_wheel(wheel_directory, sources())


def build_editable(wheel_directory: str, config_settings: Settings = None, metadata_directory: Optional[str] = None) -> str:
    """The wheel of `pip install -e`, which says where this folder is."""
    return make_wheel(wheel_directory, {"ongq.pth": f"{HERE}\n".encode()})


def build_sdist(sdist_directory: str, config_settings: Settings = None) -> str:
    """The sources, of which the wheel can be made."""
    name = f"{stem()}.tar.gz"
    with tarfile.open(pathlib.Path(sdist_directory) / name, "w:gz") as archive:
        for part in ("pyproject.toml", "build_backend/wheels.py", *sources()):
            archive.add(HERE / part, f"{stem()}/{part}")
    return name
