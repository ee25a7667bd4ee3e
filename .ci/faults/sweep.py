"""Lets each call of a program go wrong in turn, over the scripts of this folder; sweep tells how it is called."""
from __future__ import annotations

import collections
import os
import struct
import subprocess
import sys
import tempfile
from concurrent.futures import ThreadPoolExecutor
from typing import Any, Dict, Iterator, List, NamedTuple, Optional

HERE = os.path.dirname(os.path.abspath(__file__))
KILLED, TOO_LONG = 137, 124  # statuses as a shell tells them
NEW = ".ongq-0"  # what a SAVE names its new file in an empty folder

# The kinds of calls in the order in which faults.c counts them, and the status of a run in which one fails. After a
# refused allocation a run may also end well, with all that it writes: some room is asked for twice.
STATUS = {"alloc": 9, "input": 6, "output": 8, "read": 7, "write": 7, "open": 7, "rename": 7, "fsync": 7, "unlink": 7,
          "stat": 7, "close": 0, "thread": 0}
# What standard error says, by the status.
ERRORS = {KILLED: b"", 0: b"", 6: b"standard input: it could not be read\n", 8: b"standard output: it could not be written\n",
          7: b"a file could not be read or written: look at its name, its rights, its size and the room on the device\n",
          9: b"out of memory\n"}
MOVING = ("input", "output", "read", "write")  # the calls that move bytes
SAVING = ("write", "fsync", "rename")  # the calls after which a SAVE that fails removes its new file
OF_FILES = ("OPEN", "IMPORT", "SAVE")  # the statements that ask the system for files

Files = Dict[str, bytes]


class Step(NamedTuple):
    """A statement, and what was written and which files there are after it and all before it."""

    statement: str
    out: bytes
    files: Files


class Script(NamedTuple):
    """A run: what it is given, and its statements; the first step stands for none."""

    name: str
    words: List[str]
    source: str
    steps: List[Step]


class Ended(NamedTuple):
    """What a run left: its status, its output, standard error and its files, and how many calls it made of each kind."""

    status: int
    out: bytes
    err: bytes
    files: Files
    counts: Dict[str, int]


class Trial(NamedTuple):
    """Calls that go wrong, by the words of faults.c, and what is wanted then."""

    faults: str
    status: int
    is_last: bool  # whether no call of the kind may follow
    leaves_new: bool  # whether the new file of a SAVE stays


def read_bytes(path: str) -> bytes:
    with open(path, "rb") as file:
        return file.read()


def read_folder(folder: str) -> Files:
    paths = [os.path.join(place, name) for place, _, names in os.walk(folder) for name in names]
    return {os.path.relpath(path, folder): read_bytes(path) for path in paths}


def write_folder(folder: str, files: Files) -> None:
    for name, content in files.items():
        path = os.path.join(folder, name)
        os.makedirs(os.path.dirname(path), exist_ok=True)
        with open(path, "wb") as file:
            file.write(content)


def called(command: List[str], **given: Any) -> int:
    """Runs a command, and tells its status as a shell does."""
    try:
        status = subprocess.call(command, timeout=120, **given)
    except subprocess.TimeoutExpired:
        return TOO_LONG
    return status if status >= 0 else 128 - status


class Sweep:
    """A program with the library before it, and how often it was run and what differed."""

    def __init__(self, program: str, library: str, top: str) -> None:
        self.program, self.library, self.top = program, library, top
        self.runs = self.differences = 0

    def run(self, words: List[str], source: str, files: Files, faults: str = "") -> Ended:
        """Runs the program in a new folder with these files."""
        with tempfile.TemporaryDirectory(dir=self.top) as place:
            folder, out, err, counts = (os.path.join(place, name) for name in ("folder", "out", "err", "counts"))
            os.mkdir(folder)
            write_folder(folder, files)
            with open(counts, "wb") as file:
                file.write(bytes(4 * len(STATUS)))
            environment = {"LD_PRELOAD": self.library, "FAULTS": faults, "FAULTS_COUNTS": counts}
            with open(source, "rb") as given, open(out, "wb") as to_out, open(err, "wb") as to_err:
                status = called([self.program, *words], stdin=given, stdout=to_out, stderr=to_err, cwd=folder, env=environment)
            numbers = struct.unpack(f"{len(STATUS)}I", read_bytes(counts))
            return Ended(status, read_bytes(out), read_bytes(err), read_folder(folder), dict(zip(STATUS, numbers)))

    def tell(self, what: str) -> None:
        self.differences += 1
        if self.differences <= 10:
            print(f".ci/faults/sweep: {what}", flush=True)

    def try_script(self, name: str) -> None:
        script = read_script(self, name)
        before, last = script.steps[0].files, script.steps[-1]
        whole = self.run(script.words, script.source, before)
        if whole[:4] != (0, last.out, b"", last.files):
            self.tell(f"{name} without faults: wanted {(0, last.out, b'', last.files)}, found {whole[:4]}")
            return
        if not whole.counts["alloc"]:
            self.tell(f"{name}: no allocation was counted, so faults.c does not stand before the program")
            return
        saves = sum(step.statement.startswith("SAVE") for step in script.steps)
        if (whole.counts["fsync"], whole.counts["rename"]) != (saves, saves):
            self.tell(f"{name}: wanted that each of {saves} SAVE makes one call of fsync and one of rename, found {whole.counts}")
        trials = list(trials_of(whole.counts))
        with ThreadPoolExecutor(os.cpu_count()) as pool:
            ends = list(pool.map(lambda trial: self.run(script.words, script.source, before, trial.faults), trials))
        for trial, ended in zip(trials, ends):
            why = difference(script, trial, ended)
            if why:
                self.tell(f"{name}, {trial.faults}: {why}; found {ended}")
        self.runs += len(ends)
        calls = ", ".join(f"{count:,} {kind}" for kind, count in whole.counts.items() if count)
        statuses = collections.Counter(ended.status for ended in ends)
        found = ", ".join(f"{count:,} of {status}" for status, count in sorted(statuses.items()))
        print(f".ci/faults/sweep: {name}: calls: {calls}; runs by status: {found}", flush=True)


def read_script(sweep: Sweep, name: str) -> Script:
    """Reads a script of this folder, whose files are as those of .ci/whole_runs. Each line of a script is a statement."""
    path = os.path.join(HERE, name)
    before = read_folder(f"{path}.files")
    left = read_folder(f"{path}.left") or before
    whole = read_bytes(f"{path}.out")
    steps = [Step("", b"", before)]
    if os.path.exists(f"{path}.words"):
        words = read_bytes(f"{path}.words").decode().split("\n")[:-1]
        opens = [Step("OPEN", b"", before)] if words[0] == "at" else []
        return Script(name, words, os.devnull, [*steps, *opens, Step("PRINT", whole, left)])
    lines = read_bytes(f"{path}.ongq").decode().splitlines(keepends=True)
    for count in range(1, len(lines)):
        front = os.path.join(sweep.top, f"{name}.{count}")
        write_folder(sweep.top, {f"{name}.{count}": "".join(lines[:count]).encode()})
        ended = sweep.run(["run"], front, before)
        known = all(ended.files[file] in (before.get(file), left.get(file)) for file in ended.files)
        if ended.status != 0 or not whole.startswith(ended.out) or not known:
            sweep.tell(f"{name}, its first {count} statements: found {ended}")
        steps.append(Step(lines[count - 1], ended.out, ended.files))
    return Script(name, ["run"], f"{path}.ongq", [*steps, Step(lines[-1], whole, left)])


def trials_of(counts: Dict[str, int]) -> Iterator[Trial]:
    """All that is tried of a script whose run makes these calls when nothing fails."""
    for kind, count in counts.items():
        is_device = kind not in ("alloc", "thread", "close")
        for number in range(1, count + 1):
            call = f"{kind}:{number}"
            yield Trial(f"{call}:fail", STATUS[kind], is_device, False)
            yield Trial(f"{call}:later", STATUS[kind], is_device, False)
            if kind in MOVING:
                yield Trial(f"{call}:one", 0, False, False)
            if kind in ("output", "write"):
                yield Trial(f"{call}:none", STATUS[kind], True, False)
            if kind in SAVING:
                yield Trial(f"{call}:fail unlink:1:fail", STATUS[kind], True, True)
            if kind not in ("alloc", "thread"):
                yield Trial(f"{call}:kill", KILLED, True, False)


def difference(script: Script, trial: Trial, ended: Ended) -> Optional[str]:
    """What is not as it should be of a run, or None."""
    kind, number, _ = trial.faults.split()[0].split(":")
    last = script.steps[-1]
    if ended.status != trial.status and (ended.status != 0 or kind != "alloc"):
        return f"wanted status {trial.status}"
    if ended.err != ERRORS[ended.status]:
        return f"wanted {ERRORS[ended.status]!r} of standard error"
    if ended.status == 0:
        return None if ended.out == last.out and ended.files == last.files else "wanted all that a run without faults makes"
    if trial.is_last and ended.counts[kind] != int(number):
        return "wanted no further call of the kind"
    new = {file for file in ended.files if os.path.basename(file) == NEW}
    if ended.status != KILLED and len(new) != trial.leaves_new:
        return f"wanted {'a' if trial.leaves_new else 'no'} file {NEW}"
    files = {file: content for file, content in ended.files.items() if file not in new}
    if not any(stops_between(done, step, ended, files) for done, step in zip(script.steps, script.steps[1:])):
        return "wanted what some of the first statements make, and a front of what the next one writes"
    return None


def stops_between(done: Step, step: Step, ended: Ended, files: Files) -> bool:
    """Whether a run may have stopped with that status, after `done` and within the next statement, `step`."""
    is_front = ended.out.startswith(done.out) and step.out.startswith(ended.out) and files == done.files
    if ended.status == STATUS["input"]:
        return is_front and not done.statement
    if ended.status == STATUS["output"]:
        return is_front and step.out != done.out
    if ended.status == STATUS["open"]:
        return is_front and step.statement.startswith(OF_FILES)
    return is_front


def main(words: List[str]) -> int:
    library, program = words
    with tempfile.TemporaryDirectory(prefix="ongq-faults-") as top:
        sweep = Sweep(os.path.abspath(program), os.path.abspath(library), top)
        for name in ("join", "sets", "kept", "import", "files", "live", "at", "load"):
            sweep.try_script(name)
    print(f".ci/faults/sweep: {sweep.runs:,} runs, {sweep.differences:,} differences")
    return 1 if sweep.differences else 0


if __name__ == "__main__":
    sys.exit(main(sys.argv[1:]))
