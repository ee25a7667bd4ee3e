"""The cases of crates/og_cases and the scripts of examples/ and docs/GUIDE.md, as scripts with the files that lie beside them."""
from __future__ import annotations

import datetime
import glob
import os
import re
from typing import Callable, Iterator

ROOT = os.path.dirname(os.path.dirname(os.path.dirname(os.path.realpath(__file__))))
DATA = os.path.join(ROOT, "crates", "og_cases", "data")
SIGNS = {b"s": b" ", b"t": b"\t", b"r": b"\r", b"n": b"\n", b"\\": b"\\", b"e": b""}
TURN = re.compile(r"\{(day )?i((?:[*/%+-][0-9]+)*)\}")


def unescaped(text: str) -> bytes:
    """The bytes of the TEXT of a line of a case."""
    def value(found: re.Match) -> bytes:
        return bytes([int(found[1], 16)]) if found[1] else SIGNS[found[2]]

    return re.sub(rb"\\(?:x([0-9A-Fa-f]{2})|(.))", value, text.encode(), flags=re.S)


def day(number: int) -> bytes:
    """The text of the day that many days after 2000-01-01."""
    return str(datetime.date(2000, 1, 1) + datetime.timedelta(number)).encode()


def counted(text: str) -> Callable[[int], bytes]:
    """What gives the bytes of a text in a turn, with each {i..} and {day i..} of it."""
    pieces, turns, at = [], [], 0
    for found in TURN.finditer(text):
        pieces.append(unescaped(text[at:found.start()]))
        reckoning = "i"
        for sign, digits in re.findall(r"([*/%+-])([0-9]+)", found[2]):
            reckoning = f"({reckoning}{'//' if sign == '/' else sign}{digits})"
        turns.append((f"day({reckoning})" if found[1] else reckoning, bool(found[1])))
        at = found.end()
    form = b"".join(piece.replace(b"%", b"%%") + (b"%b" if is_day else b"%d") for piece, (_, is_day) in zip(pieces, turns))
    form += unescaped(text[at:]).replace(b"%", b"%%")
    # The reckoning has digits and signs alone.
    return eval(f"lambda i: form % ({''.join(turn + ',' for turn, _ in turns)})", {"form": form, "day": day})


class Case:
    """A case or a setup: its place, its name, its words, its script and its files."""

    def __init__(self, place: str, name: str) -> None:
        self.place, self.name, self.words = place, name, "run"
        self.script = bytearray()
        self.files: dict[str, bytearray] = {}
        self.file: bytearray = bytearray()
        self.is_random = False
        self.has_keys = False  # whether no query of it needs a product

    def take(self, sign: str, text: str, times: int, is_counted: bool) -> None:
        """Takes a line of the script or of a file."""
        to = self.script if sign in "|+" else self.file if sign in "<-" else None
        if to is None:
            return
        end = b"\n" if sign in "|<" else b""
        if is_counted and TURN.search(text):
            made = counted(text)
            to += b"".join(made(turn) + end for turn in range(times))
        else:
            to += (unescaped(text) + end) * times


def lines_of(path: str) -> Iterator[tuple[int, str]]:
    with open(path, encoding="utf-8", newline="") as file:
        for number, line in enumerate(file.read().split("\n"), 1):
            if line and not line.startswith("#"):
                yield number, line


LINE = re.compile(r"(?:([0-9]+) )?([|+>!=<-])(?: (.*))?$", re.S)


def read_line(one: Case, line: str) -> None:
    found = LINE.match(line)
    if found:
        one.take(found[2], found[3] or "", int(found[1] or 1), bool(found[1]))


def blocks_of(path: str) -> Iterator[tuple[str, Case, list[str]]]:
    """The cases and setups of a file, with the word that each begins with and its lines."""
    word, one, lines = "", Case(path, ""), []
    for number, line in lines_of(path):
        first, _, rest = line.partition(": ")
        if first in ("case", "setup"):
            yield word, one, lines
            word, one, lines = first, Case(f"{os.path.basename(path)}:{number}", rest), []
        else:
            lines.append(line)
    yield word, one, lines


def fill(one: Case, lines: list[str], setups: dict[str, Case]) -> None:
    """Reads the lines of a case."""
    for line in lines:
        word, _, rest = line.partition(": ")
        if word == "use":
            one.script += setups[rest].script
            one.files.update(setups[rest].files)
        elif word == "words" or line == "words:":
            one.words = rest
        elif word == "file":
            one.file = one.files[unescaped(rest).decode()] = bytearray()
        elif word in ("left", "saved"):
            one.file = bytearray()
        else:
            read_line(one, line)


def cases_of(paths: list[str], is_wanted: Callable[[Case], bool]) -> Iterator[Case]:
    """The cases of the files that are wanted by their name and place, with their setups in them."""
    setups: dict[str, Case] = {}
    for path in paths:
        for word, one, lines in blocks_of(path):
            if word == "setup" or (word == "case" and is_wanted(one)):
                fill(one, lines, setups)
            if word == "setup":
                setups[one.name] = one
            elif word == "case" and is_wanted(one):
                yield one


def examples() -> list[Case]:
    """The scripts of examples/, each in a folder with the files that lie there."""
    cases = []
    for path in sorted(glob.glob(os.path.join(ROOT, "examples", "*.ongq"))):
        one = Case(os.path.basename(path), "an example")
        with open(path, "rb") as file:
            one.script += file.read()
        for folder in (os.path.join(ROOT, "examples"), path[:-len("ongq")] + "files"):
            for other in glob.glob(os.path.join(folder, "*.csv")):
                with open(other, "rb") as file:
                    one.files[os.path.basename(other)] = bytearray(file.read())
        cases.append(one)
    return cases


def all_paths() -> list[str]:
    """The files of cases, in the order in which the gate has them."""
    with open(os.path.join(ROOT, "crates", "og_cases", "args"), encoding="utf-8") as names:
        return [os.path.join(DATA, name) for name in names.read().split() if name.endswith(".cases")]
