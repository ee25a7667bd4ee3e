"""Compares scripts that ongq_sql writes as SQL, carried out by psql, with ongq; interop/sql tells how it is called.

What is printed and saved is compared byte for byte, and the statuses and the messages of faults. A case `at FILE DAY` is the script
that opens the file and prints it. Where ongq_sql refuses a value that PostgreSQL cannot hold, the value has to be one and to stand
in that statement, and the statements before it have to do what ongq does. The plan of PostgreSQL of each query has to be without a
product where that of ongq has none.
"""
from __future__ import annotations

import argparse
import collections
import datetime
import json
import os
import queue
import random
import re
import signal
import subprocess
import sys
import tempfile
import threading
import time
from typing import Iterator, NamedTuple, Optional

sys.path.insert(0, os.path.dirname(os.path.realpath(__file__)))
import case_files  # noqa: E402
import random_scripts  # noqa: E402
import server  # noqa: E402
from case_files import ROOT, Case  # noqa: E402

ONGQ = os.environ.get("ONGQ", os.path.join(ROOT, "dist", "ongq-x86_64-linux"))
FIRST = "-004713-11-24"  # of PostgreSQL
END = "the end of a script, which no case writes"
SECONDS, SLOW = 600, 5.0
SAMPLE, RANDOM = 12, 60  # of all cases one of so many is in the quick run, and so many random scripts
FULL_RANDOM = 2000
# Cases that are left out, as PostgreSQL needs hours for them, by their names.
EXISTS = "PostgreSQL looks through the whole query for each of hundreds of thousands of EXISTS"
TOO_LARGE = {"a query may have 500000 EXISTS": EXISTS, "a query of 500000 EXISTS may be kept and dropped": EXISTS,
             "the first of 500000 EXISTS may be met by no row": EXISTS, "400000 EXISTS may have a condition each": EXISTS}
MANY_TABLES = 1000  # A database with more of them is made anew: a schema of many cannot be taken out at once.


class Ran(NamedTuple):
    """What a run wrote, and its status."""

    status: int
    output: bytes
    errors: bytes
    files: dict[str, bytes]


def fill(folder: str, files: dict[str, bytearray]) -> None:
    """Puts the files into the folder."""
    for name, content in files.items():
        path = os.path.join(folder, name)
        os.makedirs(os.path.dirname(path), exist_ok=True)
        with open(path, "wb") as file:
            file.write(content)


def files_in(folder: str) -> dict[str, bytes]:
    """The files of a folder and of those below it."""
    found = {}
    for root, _, names in os.walk(folder):
        for name in names:
            with open(os.path.join(root, name), "rb") as file:
                found[os.path.relpath(os.path.join(root, name), folder)] = file.read()
    return found


def run(program: list[str], script: bytes, files: dict[str, bytearray]) -> Ran:
    """A run of the program on the script in a folder with the files."""
    with tempfile.TemporaryDirectory() as folder:
        fill(folder, files)
        done = subprocess.run(program, input=script, capture_output=True, cwd=folder)
        return Ran(done.returncode, done.stdout, done.stderr, files_in(folder))


STATEMENT = re.compile(rb"(?:--[^\n]*|'(?:[^']|'')*'|[^;'-]|-)*;", re.S)


def statements(script: bytes) -> list[bytes]:
    return STATEMENT.findall(script)


def record(file: bytes) -> list[bytes]:
    """The records of a saved file, whose line feeds between quotes are of one."""
    return re.findall(rb'(?:"(?:[^"]|"")*"|[^"\n])*\n', file)


def days_of(content: bytes) -> list[str]:
    """The days round all that a saved file or a script names."""
    days = {datetime.date(1, 1, 1), datetime.date(9999, 12, 31), datetime.date(2020, 1, 1)}
    for text in set(re.findall(rb"(?<![-0-9])[0-9]{4}-[0-9]{2}-[0-9]{2}", content)):
        try:
            one = datetime.date.fromisoformat(text.decode())
            days |= {one + datetime.timedelta(n) for n in (-1, 0, 1)}
        except (ValueError, OverflowError):
            pass
    return [str(one) for one in sorted(days)]


def have_same_rows(left: bytes, right: bytes) -> bool:
    """Whether two saved files hold the same rows on each day on which something in them changes."""
    if left.split(b"\n")[:2] != right.split(b"\n")[:2]:
        return False
    script = "OPEN r FROM 'r.csv';" + "".join(f"PRINT r AS OF DATE '{one}';" for one in days_of(left + right)[:400])
    found = [run([ONGQ, "run"], script.encode(), {"r.csv": bytearray(content)}) for content in (left, right)]
    return found[0].status == 0 and found[0].output == found[1].output


def how_files_differ(wanted: dict[str, bytes], found: dict[str, bytes]) -> str:
    """Nothing where they are the same, or how they differ."""
    if wanted == found:
        return ""
    if wanted.keys() != found.keys():
        return f"other files: {sorted(found)} for {sorted(wanted)}"
    differ = [name for name in wanted if wanted[name] != found[name]]
    if all(sorted(record(wanted[name])) == sorted(record(found[name])) for name in differ):
        return "same, a saved file has its records in another order"
    if all(have_same_rows(wanted[name], found[name]) for name in differ):
        return "same, a saved file has the same rows on each day in other records"
    return f"other files: { {name: found[name][:300] for name in differ} }"


def processor_seconds(pid: int, field: int = 11) -> float:
    """What a process needed of a processor; at field 13 what its children did that have ended. 0 where /proc does not tell."""
    try:
        with open(f"/proc/{pid}/stat", encoding="utf-8") as file:
            fields = file.read().rsplit(")", 1)[1].split()
        return (int(fields[field]) + int(fields[field + 1])) / os.sysconf("SC_CLK_TCK")
    except OSError:
        return 0.0


class Psql:
    """A psql in a database of its own, which carries out one script after the other. The clearing is SQL that takes all tables out."""

    clearing = "DROP SCHEMA IF EXISTS public CASCADE; CREATE SCHEMA public;"

    def __init__(self, here: server.Server, database: str) -> None:
        self.here, self.database = here, database
        self.running: Optional[subprocess.Popen] = None
        self.make()

    def make(self) -> None:
        self.here.ask(f"DROP DATABASE IF EXISTS {self.database}; CREATE DATABASE {self.database};")
        self.here.ask("CREATE EXTENSION ongoing;", self.database)

    def start(self) -> None:
        self.errors, self.read = tempfile.TemporaryFile(), 0
        options = f"-c statement_timeout={SECONDS}s -c client_min_messages=warning"
        self.running = subprocess.Popen(["psql", "-X", "-q"], stdin=subprocess.PIPE, stdout=subprocess.PIPE, stderr=self.errors, bufsize=0,
                                        env={**self.here.environment(), "PGDATABASE": self.database, "PGOPTIONS": options})
        self.backend = int(re.search(rb"[0-9]+", self.output(f"SELECT pg_backend_pid();\n\\echo {END}\n".encode()))[0])

    def stop(self) -> None:
        if self.running is not None:
            self.running.stdin.close()
            self.running.wait()
            self.running = None

    def run(self, sql: bytes, files: dict[str, bytearray]) -> Ran:
        """What psql writes to both outputs for the SQL in a folder with the files."""
        if self.running is None:
            self.start()
        began, used = time.time(), processor_seconds(self.backend)
        with tempfile.TemporaryDirectory() as place:
            folder = place + "/files"
            os.mkdir(folder)
            fill(folder, files)
            with open(place + "/script.sql", "wb") as file:
                file.write(sql)
            output = self.output(f"\\cd {folder}\n{self.clearing}\n\\i ../script.sql\n\\o\n\\echo {END}\n".encode())
            # Other work may have the processors; where psql ended, nothing is known of them.
            self.seconds = min(time.time() - began, processor_seconds(self.backend) - used) if self.running else 0.0
            errors = self.told()
            if sql.count(b"\nCREATE TABLE") > MANY_TABLES:
                self.stop()
                self.make()
            return Ran(3 if errors else 0, output, errors, files_in(folder))

    def told(self) -> bytes:
        """What psql wrote to standard error since this was asked."""
        self.errors.seek(self.read)
        errors = self.errors.read()
        self.read += len(errors)
        return errors or (b"psql ended" if self.running is None else b"")

    def output(self, words: bytes) -> bytes:
        """What psql writes for the words, up to the end or to an error, after which none is running."""
        self.running.stdin.write(words)
        out, end = bytearray(), END.encode() + b"\n"
        while not out.endswith(end):
            part = os.read(self.running.stdout.fileno(), 1 << 20)
            if not part:
                self.running.wait()
                self.running = None
                return bytes(out)
            out += part
        return bytes(out[:-len(end)])


ASKED = re.compile(rb"^(CREATE (?:TEMP )?(?:TABLE|VIEW) [^ ]+ AS\n)?WITH (?!rows\$|old\$).*?;\n", re.M | re.S)
SETTINGS = (b"enable_nestloop", b"enable_seqscan", b"enable_bitmapscan")


def with_plans(sql: bytes) -> bytes:
    """The SQL with the plan of each query before it, in a file, as it is of large tables: PostgreSQL reads small ones whole."""
    count = 0

    def planned(found: re.Match) -> bytes:
        nonlocal count
        if (found[1] or b"").startswith(b"CREATE VIEW"):
            return found[0]
        count += 1
        off, on = (b" ".join(form % name for name in SETTINGS) for form in (b"SET %s = off;", b"RESET %s;"))
        return b"%s\n\\o plan$%d\nEXPLAIN (FORMAT JSON) %s\\o\n%s\n%s" % (off, count, found[0], on, found[0])

    return ASKED.sub(planned, sql)


def nodes(plan: dict) -> Iterator[dict]:
    """A node of a plan and all below it."""
    yield plan
    for below in plan.get("Plans", []):
        yield from nodes(below)


EQUAL = re.compile(r" = ('(?:[^']|'')*'::[a-z]+)|('(?:[^']|'')*'::[a-z]+) = ")


def constants(plan: dict) -> set[str]:
    """The constants that the conditions of a plan's nodes compare with by =."""
    conditions = (node.get(word, "") for node in nodes(plan) for word in ("Filter", "Index Cond", "Hash Cond", "Join Filter"))
    return {left or right for condition in conditions for left, right in EQUAL.findall(condition)}


def products(plan: dict) -> list[str]:
    """The nested loops of a plan in which no row of the inner side is found by an index.

    Where a key of a join is equal to a constant, PostgreSQL asks both sides for that constant, and joins what they have without
    the key: these are the rows of one key, and no product.
    """
    found = []
    for node in nodes(plan):
        if node["Node Type"] == "Nested Loop":
            outer, inner = node["Plans"]
            is_of_one_key = "&&" not in node.get("Join Filter", "") and constants(outer) & constants(inner)
            if not is_of_one_key and not any("Index Cond" in below for below in nodes(inner)):
                found.append(f"{node.get('Join Filter', 'no condition')}: {[below['Node Type'] for below in nodes(node)]}")
    return found


class Trial:
    """Runs cases, and counts how they end. The program is given the words."""

    words: list[str] = []

    def __init__(self, program: str, is_told: bool) -> None:
        self.program, self.is_told = program, is_told
        self.counts: collections.Counter[str] = collections.Counter()
        self.named: dict[str, list[str]] = collections.defaultdict(list)
        self.longest = 0.0
        self.plans = 0
        self.lock = threading.Lock()

    def tell(self, what: str, case: Case, more: str = "") -> None:
        with self.lock:
            self.counts[what] += 1
            self.named[what].append(f"{case.place} {case.name}")
            if not what.startswith(("same", "left out", "not asked", "refused as outside")):
                print(f"{what}: {case.place} {case.name} {more}", flush=True)

    def script_of(self, case: Case) -> Optional[bytes]:
        """The script of the case, or None where the case is counted as one without."""
        words = [case_files.unescaped(word) for word in case.words.split(" ")] if case.words else []
        if words[:1] == [b"load"]:
            self.tell("not asked, load", case)
            return None
        if words[:1] == [b"at"] and len(words) == 3 and words[1] and b"\0" not in words[1] and re.fullmatch(rb"-?[0-9]+-[0-9]{2}-[0-9]{2}", words[2]):
            return b"OPEN r FROM '" + words[1].replace(b"'", b"''") + b"';\nPRINT r AS OF DATE '" + words[2] + b"';\n"
        if case.words == "run" or re.fullmatch(r"run --workers[ =]0*[1-9][0-9]?", case.words):
            return bytes(case.script)
        if case.script:  # the words are no command: its script is asked without them
            return bytes(case.script)
        self.tell("left out, the words are no command and there is no script", case)
        return None

    def one(self, case: Case, psql: Psql) -> None:
        if case.name in TOO_LARGE:
            return self.tell(f"left out, {TOO_LARGE[case.name]}", case)
        script = self.script_of(case)
        if script is None:
            return
        wanted = run([ONGQ, "run"], script, case.files)
        if wanted.status > 5:
            return self.tell("not asked, a device fails", case)
        made = run([self.program, *self.words], script, case.files)
        found = psql.run(with_plans(made.output) if case.has_keys else made.output, case.files)
        self.note_time(case, psql.seconds)
        if case.has_keys:
            self.look_at_plans(case, wanted, found)
        if made.status == 12:
            return self.compare_outside(case, script, made, found)
        self.compare(case, wanted, made, found)

    def look_at_plans(self, case: Case, wanted: Ran, found: Ran) -> None:
        """No plan may have a product, as none of ongq's has. Takes the plans out of the files."""
        plans = [plan for plan in (found.files.pop(name) for name in list(found.files) if name.startswith("plan$")) if plan]
        if re.search(rb"^ *product$", wanted.output, re.M):
            return self.tell("ongq has a product", case)
        self.plans += len(plans)
        for plan in plans:
            made = products(json.loads(plan)[0]["Plan"])
            if made:
                return self.tell("a product", case, made[0])

    def note_time(self, case: Case, seconds: float) -> None:
        """A random script has to be done within some seconds."""
        self.longest = max(self.longest, seconds)
        if seconds > SLOW:
            print(f"{seconds:.1f} s: {case.place} {case.name}", flush=True)
            if case.is_random:
                self.tell("slow", case)

    def compare(self, case: Case, wanted: Ran, made: Ran, found: Ran) -> None:
        if made.status != wanted.status:
            return self.tell("other status", case, f"{made.status} for {wanted.status} {made.errors[-300:]!r}")
        if made.errors != wanted.errors and not is_of_own_file(made.errors, wanted.errors):
            return self.tell("other message", case, f"{made.errors!r} for {wanted.errors!r}")
        if found.status:
            return self.tell("an error of psql", case, found.errors.decode(errors="replace").strip()[:400])
        if found.output != wanted.output:
            return self.tell("other output", case, f"{found.output[-300:]!r} for {wanted.output[-300:]!r}")
        self.tell(how_files_differ(wanted.files, found.files) or "same", case)

    def compare_outside(self, case: Case, script: bytes, made: Ran, found: Ran) -> None:
        """Whether the value stands in that statement, or in its file, and the statements before do what ongq does."""
        told = re.search(rb"SELECT '(fault outside PostgreSQL statement ([0-9]+): (.*))';\n$", made.output)
        if not told:
            return self.tell("other refusal", case, f"{made.output[-200:]!r}")
        number, value = int(told[2]), told[3]
        before = statements(script)[:number]
        if len(before) < number or not re.match(rb"[0-9]+:[0-9]+: PostgreSQL has no ", made.errors):
            return self.tell("other refusal", case, f"statement {number} of {len(before)} {made.errors!r}")
        last = before.pop()
        named = re.search(rb"from\s+'((?:[^']|'')*)'", last, re.I)
        text = last + bytes(case.files.get(named[1].replace(b"''", b"'").decode(), b"") if named else b"")
        is_there = b"\0" in text if value == b"a byte 0 in a text" else value in text and is_before_first(value)
        if not is_there:
            return self.tell("other refusal", case, f"{value!r} is not in statement {number} or PostgreSQL has it")
        wanted = run([ONGQ, "run"], b"".join(before), case.files)
        if wanted.status or found.output != wanted.output + told[1] + b"\n":
            return self.tell("other output before a refusal", case, f"{found.output[-200:]!r} for {wanted.output[-200:]!r}")
        difference = how_files_differ(wanted.files, found.files)
        self.tell(difference if difference.startswith("other") else "refused as outside PostgreSQL, as it is", case)


def is_of_own_file(found: bytes, wanted: bytes) -> bool:
    """Whether an IMPORT found a saved file: of one that the script saves ongq_sql tells another first record, as it reads none."""
    return re.sub(rb"(, record 1: wanted [^\n]*?, found )[^\n]*", rb"\1ongq:2", found, count=1) == wanted


def is_before_first(text: bytes) -> bool:
    """Whether the text is that of a day before PostgreSQL's first."""
    return re.fullmatch(rb"-[0-9]{6}-[0-9]{2}-[0-9]{2}", text) is not None and (-int(text[1:7]), text[8:]) < (-4713, FIRST.encode()[8:])


def chosen(words: argparse.Namespace) -> Iterator[Case]:
    """The cases that are asked, and the random scripts."""
    def is_wanted(case: Case) -> bool:
        if words.only:
            return words.only in case.name or words.only in case.place
        return words.all or ("large_" not in case.place and random.Random(case.place + case.name).randrange(SAMPLE) == 0)

    if words.random is None or words.only:
        yield from (case for case in case_files.examples() if not words.only or is_wanted(case))
        yield from case_files.cases_of(case_files.all_paths(), is_wanted)
    if not words.only:
        count = words.random if words.random is not None else FULL_RANDOM if words.all else RANDOM
        yield from (random_scripts.case(f"{words.seed} {number}") for number in range(count))


def work(cases: queue.Queue, trial: Trial, psql: Psql) -> None:
    while True:
        case = cases.get()
        if case is None:
            return psql.stop()
        try:
            trial.one(case, psql)
        except Exception as why:  # noqa: BLE001
            trial.tell("stopped", case, repr(why))


def try_all(words: argparse.Namespace, here: server.Server) -> Trial:
    trial = Trial(os.path.realpath(words.program), words.told)
    cases: queue.Queue = queue.Queue(maxsize=4)
    workers = [threading.Thread(target=work, args=(cases, trial, Psql(here, f"sql_{number}")), daemon=True) for number in range(words.workers)]
    for worker in workers:
        worker.start()
    for number, case in enumerate(chosen(words), 1):
        cases.put(case)
        if number % 200 == 0:
            print(f"{number}: {dict(trial.counts)}", flush=True)
    for _ in workers:
        cases.put(None)
    for worker in workers:
        worker.join()
    return trial


def main() -> int:
    asked = argparse.ArgumentParser(prog="interop/sql")
    asked.add_argument("program", nargs="?", default=os.path.join(ROOT, "crates", "ongq_sql", "out", "ongq_sql"))
    asked.add_argument("--all", action="store_true")
    asked.add_argument("--random", type=int)
    asked.add_argument("--seed", default="1")
    asked.add_argument("--only", default="")
    asked.add_argument("--workers", type=int, default=1)
    asked.add_argument("--told", action="store_true")
    words = asked.parse_args()
    if not os.access(words.program, os.X_OK):
        print(f"interop/sql: {words.program} is not built", file=sys.stderr)
        return 1
    for ending in (signal.SIGTERM, signal.SIGHUP):
        signal.signal(ending, lambda *_: sys.exit(1))  # so that no server is left
    with server.started() as here:
        if here is None:
            print("interop/sql: left out, as it is not here: PostgreSQL 15 or later that starts")
            return 0
        trial = try_all(words, here)
    total = sum(count for what, count in trial.counts.items() if not what.startswith("not asked"))
    for what, count in sorted(trial.counts.items()):
        print(f"interop/sql: {what}: {count:,}")
    if words.told:
        for what in sorted(trial.named):
            if what.startswith(("left out", "same, ")):
                print("\n    ".join([what + ":", *trial.named[what]]))
    left = sum(count for what, count in trial.counts.items() if what.startswith("left out"))
    bad = sum(count for what, count in trial.counts.items() if not what.startswith(("same", "left out", "not asked", "refused as outside")))
    print(f"interop/sql: {total:,} asked, {left:,} of them left out, {bad:,} differ; the longest in psql {trial.longest:.1f} s; {trial.plans:,} plans without a product")
    return 1 if bad or left * 20 >= total else 0


if __name__ == "__main__":
    sys.exit(main())
