"""The examples of docs/INTEROP.md, one after the other in a folder that has a clone's names."""
from __future__ import annotations

import contextlib
import doctest
import importlib.util
import os
import re
import subprocess
import tempfile
from typing import Any, Iterator

import answers

BLOCK = re.compile("^```(python|console)\n(.*?)^```$", re.MULTILINE | re.DOTALL)


@contextlib.contextmanager
def inside(folder: str, program: str) -> Iterator[None]:
    """Goes into the folder, where Python and the shell find this program."""
    before, variable = os.getcwd(), os.environ.get("ONGQ")
    os.chdir(folder)
    os.environ["ONGQ"] = program
    try:
        yield
    finally:
        os.chdir(before)
        os.environ.pop("ONGQ") if variable is None else os.environ.update(ONGQ=variable)


def try_python(test: Any, text: str, names: dict[str, Any]) -> None:
    """A block of calls with what Python writes for each."""
    said: list[str] = []
    block = doctest.DocTestParser().get_doctest(text, names, "docs/INTEROP.md", None, None)
    found = doctest.DocTestRunner(verbose=False).run(block, out=said.append, clear_globs=False)
    names.update(block.globs)
    test.same("examples of docs/INTEROP.md", text, (0, True), (found.failed, found.attempted > 0))
    if said:
        print("".join(said))


def try_console(test: Any, text: str, environment: dict[str, str]) -> None:
    """A block of commands with what each writes."""
    for command, wanted in re.findall("^\\$ (.*)\n((?:(?!\\$ ).*\n)*)", text, re.MULTILINE):
        done = subprocess.run(["sh", "-c", command], capture_output=True, text=True, env=environment)
        test.same("examples of docs/INTEROP.md", command, wanted, done.stdout + done.stderr)


def try_document(test: Any) -> None:
    """All blocks; those with PostgreSQL or pandas where it is there."""
    environment = dict(os.environ)
    if test.postgres:
        test.postgres.ask("CREATE DATABASE document;")
        environment = {**test.postgres.environment(), "PGDATABASE": "document", "PGOPTIONS": "-c client_min_messages=warning"}
    with open(f"{answers.TOP}/docs/INTEROP.md", encoding="utf-8") as file:
        blocks = BLOCK.findall(file.read())
    with tempfile.TemporaryDirectory() as folder, inside(folder, test.program):
        built, given = f"{answers.TOP}/crates/ongq_sql/out/ongq_sql", f"{answers.TOP}/dist/ongq-sql-x86_64-linux"
        for name, path in (("ongq", test.program), ("ongq-sql", built if os.access(built, os.X_OK) else given),
                           ("interop", answers.INTEROP), ("examples", f"{answers.TOP}/examples")):
            os.symlink(path, name)
        names: dict[str, Any] = {}
        for kind, text in blocks:
            if kind == "python":
                if "import pandas" not in text or importlib.util.find_spec("pandas"):
                    try_python(test, text, names)
            elif test.postgres or not re.search("postgres|psql", text):
                try_console(test, text, environment)
